"""A log of wrong reads: a comparator beside a self-test, with a small queue of cycles and words, and the text of such a
log."""
from __future__ import annotations

import dataclasses
import re

from vidlakost_tools.access.bench import most
from vidlakost_tools.access.target import model_links
from vidlakost_tools.access.target import Port, Target, header, links
from vidlakost_tools.text import stream, template
from vidlakost_tools.texts.memory import Memory
from vidlakost_tools.tool import ToolError
from vidlakost_tools.verilog.bench_end import FINISH, over, planted
from vidlakost_tools.verilog.syntax import ranged

LOG = """// The first {depth} wrong reads of the self-test of {name}: a comparator beside it. In the cycle of a read
// `wdata` has the word that it expects, which has to stand on rdata {latency} cycles later.
//   test       as that of {name}_access; 0 clears the log
//   pick       which entry stands on cycle, expected and word, the first one is 0
//   count      how many entries there are
//   more       wrong reads came when the log was full"""


def block(memory: Memory, depth: int) -> str:
    """The module NAME_log."""
    size = max(1, (depth - 1).bit_length())
    counts = depth.bit_length()
    ports = [
        Port("input", "clk"),
        Port("input", "test"),
        Port("input", "en"),
        Port("input", "we"),
        Port("input", "wdata", memory.bits),
        Port("input", "rdata", memory.bits),
        Port("input", "pick", size),
        Port("output", "count", counts),
        Port("output", "more"),
        Port("output", "cycle", 32),
        Port("output", "expected", memory.bits),
        Port("output", "word", memory.bits),
    ]
    stages = range(1, memory.latency + 1)
    moved = []
    for stage in stages:
        before = ("en & ~we", "wdata") if stage == 1 else (f"reads_{stage - 1}", f"want_{stage - 1}")
        moved += [f"    reads_{stage} <= test & {before[0]};", f"    want_{stage} <= {before[1]};"]
    word = ranged(memory.bits)
    place = f"count[{size - 1}:0]" if counts > 1 else "count"
    lines = [
        "  reg [31:0] now;",
        *(f"  reg reads_{stage};\n  reg {word}want_{stage};" for stage in stages),
        f"  reg [31:0] cycles [0:{(1 << size) - 1}];",
        f"  reg {word}wanted [0:{(1 << size) - 1}];",
        f"  reg {word}words [0:{(1 << size) - 1}];",
        "  wire differs;",
        f"  assign differs = reads_{memory.latency} & (rdata != want_{memory.latency});",
        "  assign cycle = cycles[pick];",
        "  assign expected = wanted[pick];",
        "  assign word = words[pick];",
        "  always @(posedge clk) begin",
        *moved,
        "    now <= test ? now + 32'd1 : 32'd1;",
        "    if (!test) begin",
        f"      count <= {counts}'d0;",
        "      more <= 1'b0;",
        "    end else if (differs) begin",
        f"      if (count == {counts}'d{depth}) more <= 1'b1;",
        "      else begin",
        f"        cycles[{place}] <= now;",
        f"        wanted[{place}] <= want_{memory.latency};",
        f"        words[{place}] <= rdata;",
        f"        count <= count + {counts}'d1;",
        "      end",
        "    end",
        "  end",
        "endmodule",
    ]
    about = LOG.format(name=memory.name, depth=depth, latency=memory.latency)
    return header(about, f"{memory.name}_log", ports, ("count", "more")) + "\n".join(lines) + "\n"


def blocks(target: Target, depth: int) -> dict[str, str]:
    """The modules of the logs by their files: one for each memory, or for all that are equal to it."""
    named = {target.log_name(number): unit.memory for number, unit in enumerate(target.units)}
    return {
        f"{name}_log.v": block(dataclasses.replace(memory, name=name), depth) for name, memory in named.items()
    }


BENCH = template(__file__, "log_bench.sv")


def bench(target: Target, depth: int) -> str:
    """The testbench of NAME_log."""
    memory = target.units[0].memory
    size, counts = max(1, (depth - 1).bit_length()), depth.bit_length()
    return BENCH.substitute(
        finish=FINISH,
        name=memory.name,
        over=over(f"{memory.name}_log_tb"),
        planted=planted(f"{memory.name}_log_tb", [(memory.words, memory.bits)]),
        wires="".join(f"  wire {ranged(port.width)}{port.name};\n" for port in target.ports()),
        size=ranged(size),
        size_bits=size,
        size_top=size - 1,
        counts=ranged(counts),
        counts_bits=counts,
        pad=32 - counts,
        word=ranged(memory.bits),
        ports=links(target.ports()),
        model=model_links(target),
        most=most(target),
    )


# ---- the text of a log


# how many entries a log may have, and how long it may be
MOST = 1 << 20
LOG_BYTES = 1 << 26
# the start of an entry is short, so that a long line is looked at once
OF_UNIT = re.compile(r"\bunit ([0-9]{1,9}) (?:cycle |more\s*$)")
ENTRY = re.compile(r"\bcycle ([0-9]{1,10}) expected ([0-9a-fA-F]{1,128}) returned ([0-9a-fA-F]{1,128})\b")
# behind an entry this says that it is the last one that was kept
MORE = re.compile(r"\bmore\b")


@dataclasses.dataclass
class Entry:
    """A wrong read: its cycle, and the words that were expected and read."""

    cycle: int
    expected: int
    word: int


def entry_in(line: str) -> re.Match[str] | None:
    """The entry of a line, if it has one; a line with two, or with a part of another, is refused."""
    match = ENTRY.search(line)
    count = len(re.findall(r"\bcycle\b", line))
    if count and match is None:
        raise ToolError("an entry is 'cycle C expected X returned W'; the words are hexadecimal")
    if count > 1:
        raise ToolError(f"the line has the word cycle {count} times: write each entry in a line of its own")
    return match


def entry_of(match: re.Match[str], line: str, memory: Memory) -> Entry:
    """The entry that a line has, whose words are whole and are some of the memory."""
    entry = Entry(int(match[1]), int(match[2], 16), int(match[3], 16))
    for word in match.group(2, 3):
        if int(word, 16) >> memory.bits:
            raise ToolError(f"{word} has more than {memory.bits} bits")
    if entry.expected == entry.word:
        raise ToolError("the word that was read equals the expected word")
    if line.endswith(match[3]) and len(match[3]) < len(memory.digits(0)):
        raise ToolError(f"the text ends within the word {match[3]}")
    return entry


@dataclasses.dataclass
class Heard:
    """What the lines of a log have said so far of a memory, or of a unit of a chip."""

    memory: Memory
    unit: int | None
    entries: list[Entry] = dataclasses.field(default_factory=list)
    more: bool = False
    # whether the last entry was said to be the last one
    is_over: bool = False
    # a testbench of a bus says the first failure in front of the log
    said_before: Entry | None = None

    def take(self, line: str) -> None:
        match, whose = entry_in(line), OF_UNIT.search(line)
        if whose and self.unit is None:
            raise ToolError(f"this is the log of a chip: give its chip file, with --unit {whose[1]}")
        if whose and int(whose[1]) != self.unit:
            return
        is_last = match is not None and MORE.search(line, match.end()) is not None
        if match:
            self.take_entry(entry_of(match, line, self.memory), line.startswith("fail "))
        own = "more" if self.unit is None else f"unit {self.unit} more"
        self.is_over = self.is_over or is_last or line.strip() == own
        self.more = self.more or is_last or line.strip() in ("more", own)

    def take_entry(self, entry: Entry, is_first_failure: bool) -> None:
        entries = self.entries
        if self.is_over:
            raise ToolError("an entry comes after 'more': is this the log of two runs?")
        if len(entries) == 1 and entry == self.said_before:
            return
        self.said_before = entry if is_first_failure and not entries else None
        if entries and entry.cycle <= entries[-1].cycle:
            told = f"cycle {entry.cycle} comes after cycle {entries[-1].cycle}"
            raise ToolError(f"{told}: is this the log of two runs?")
        entries.append(entry)
        if len(entries) > MOST:
            raise ToolError(f"the log has more than {MOST:,} wrong reads")


def read_log(path: str, memory: Memory, unit: int | None = None) -> tuple[list[Entry], bool]:
    """The entries of a log (for a chip, those of a unit), and whether more came: a line `more` says so for all units
    and `unit U more` for one, and so does an entry with `more` behind it. A line has `cycle C expected X returned W`;
    other lines are skipped. Entries come in the order of their cycles, and the last one may be cut off if a run was
    ended."""
    heard = Heard(memory, unit)
    for count, line in enumerate(stream(path, LOG_BYTES), 1):
        try:
            heard.take(line)
        except ToolError as error:
            raise ToolError(f"{path}:{count}: {error}") from error
    if not heard.entries:
        whose = "" if unit is None else f"unit {unit} "
        raise ToolError(f"{path}: no line has '{whose}cycle C expected X returned W'")
    return heard.entries, heard.more
