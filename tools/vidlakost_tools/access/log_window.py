"""The way of a log to a tester: the window of an APB3 bus, and the register of a TAP that gives one entry in each
scan."""
from __future__ import annotations

import dataclasses

from vidlakost_tools.access import network
from vidlakost_tools.access.logs import PICK_BITS, depth_of
from vidlakost_tools.access.target import Target, extended, zero
from vidlakost_tools.text import template
from vidlakost_tools.verilog.syntax import ranged

# where the window stands, and how many bytes an entry has in it
WINDOW, ENTRY_BYTES = 0x800, 0x20


# ---- the window of an APB3 bus


@dataclasses.dataclass(frozen=True)
class Cell:
    """A register of an entry: its name, its place in the entry, and the bits of a word that it has."""

    name: str
    at: int
    source: str
    low: int
    width: int
    about: str

    def value(self, whole: int) -> str:
        bits = f"[{self.low + self.width - 1}:{self.low}]" if self.width > 1 else f"[{self.low}]"
        name = self.source + (bits if self.width < whole else "")
        return f"log_here ? {extended(name, self.width, 32)} : 32'd0"


def cells(target: Target) -> list[Cell]:
    """The registers of an entry."""
    made = [Cell("LOG_CYCLE", 0x00, "log_cycle", 0, 32, "the cycle of a wrong read, as vidlakost locate takes it")]
    words = (("EXPECTED", 0x04, "the word that the march expects"), ("RETURNED", 0x0C, "the word that returned"))
    for name, at, about in words:
        source, high = f"log_{name.lower()}", target.word - 32
        if high <= 0:
            made.append(Cell(f"LOG_{name}", at, source, 0, target.word, about))
            continue
        made.append(Cell(f"LOG_{name}_LOW", at, source, 0, 32, f"{about}, its lower 32 bits"))
        made.append(Cell(f"LOG_{name}_HIGH", at + 4, source, 32, high, f"{about}, its upper bits"))
    return made


def window(target: Target, before: list[str]) -> list[str]:
    """The answer of a read in the window; the lines `before` answer reads below it."""
    if target.depth is None:
        return before
    lines = ["      if (paddr[11]) begin"]
    in_range = f"paddr[10:5] < 6'd{target.depth}" if target.depth < 64 else "1'b1"
    lines += [f"        is_there <= {in_range};", "        case (paddr[4:0])"]
    whole = {"log_cycle": 32, "log_expected": target.word, "log_returned": target.word}
    lines += [f"          5'h{cell.at:02x}: value <= {cell.value(whole[cell.source])};" for cell in cells(target)]
    lines += [
        "          default: begin",
        "            value <= 32'd0;",
        "            is_there <= 1'b0;",
        "          end",
    ]
    return [*lines, "        endcase", "      end else begin", *(f"  {line}" for line in before), "      end"]


def table_rows(target: Target) -> list[str]:
    """The registers of the window for the table of Markdown."""
    if target.depth is None:
        return []
    rows = []
    for cell in cells(target):
        bits = "0" if cell.width == 1 else f"{cell.width - 1}:0"
        where = f"0x{WINDOW + cell.at:03x} + 0x{ENTRY_BYTES:x} N"
        rows.append(f"| {where} | {cell.name} | {bits} | {cell.name.lower()} | read | of entry N, {cell.about} |")
    return rows


def rdl(target: Target) -> list[str]:
    """The window in SystemRDL."""
    if target.depth is None:
        return []
    lines = []
    for cell in cells(target):
        field = f'field {{ sw = r; hw = w; desc = "{cell.about}"; }} {cell.name.lower()}[{cell.width - 1}:0];'
        at = f"@ 0x{WINDOW + cell.at:03x} += 0x{ENTRY_BYTES:x}"
        lines += ["  reg {", f"    {field}", f"  }} {cell.name}[{target.depth}] {at};"]
    return lines


APB_READS = template(__file__, "log_window_apb_reads.sv")


def apb_reads(target: Target) -> str:
    """What the testbench of an APB block reads of the log, of a chip that of each unit."""
    if target.depth is None:
        return ""
    lines = []
    for cell in cells(target)[1:]:
        name = "wanted" if cell.source == "log_expected" else "got"
        part = f"[{cell.low + cell.width - 1}:{cell.low}]" if cell.width > 1 else f"[{cell.low}]"
        part = part if cell.width < target.word else ""
        heard = f"heard[{cell.width - 1}:0]" if cell.width > 1 else "heard[0]"
        lines.append(
            f"          get(12'h{WINDOW + cell.at:03x} + 12'd32 * entry[11:0]);\n          {name}{part} = {heard};\n"
        )
    choose, again = "", ""
    if target.is_chip:
        choose = f"        for (of_unit = 0; of_unit < {target.count}; of_unit = of_unit + 1) begin\n"
        choose += "        put(12'h02c, of_unit);\n"
        again = "        end\n"
    return APB_READS.substitute(
        choose=choose, words="".join(lines), again=again, **taken(target, "of_unit", "when_read, wanted, got")
    )


APB_DECLARED = "  integer entry;\n  integer entries;\n  integer of_unit;\n  reg more_came;\n"


def taken(target: Target, unit: str, words: str) -> dict[str, str]:
    """What a testbench does with an entry of a unit that it has read, and when it reads that more came: it prints them
    in its first run. It checks logs inside NAME_access in each run."""
    if target.has_inner_log:
        return {
            "when": "",
            "begins": "        log_begins;\n",
            "entry": f"log_entry({unit}, {words})",
            "more": "log_full(of_unit)",
            "over": "        log_over;\n",
        }
    form, which = ("unit %0d ", f", {unit}") if target.is_chip else ("", "")
    return {
        "when": "if (round == 0) ",
        "begins": "",
        "entry": f'$display("{form}cycle %0d expected %h returned %h"{which}, {words})',
        "more": f'$display("{form}more"{which and ", of_unit"})',
        "over": "",
    }


# ---- the register of a TAP

def fields(target: Target) -> list[tuple[str, int, str]]:
    """The parts of the register from its lowest bit on: name, width and what is captured."""
    words = [(name, target.word, f"(log_here ? log_{name} : {zero(target.word)})") for name in ("expected", "returned")]
    unit = [("unit", target.unit_bits, "log_unit")] if target.is_chip else []
    cycle = "(log_here ? log_cycle : 32'd0)"
    return [
        ("valid", 1, "log_here"),
        ("last", 1, "log_last"),
        ("more", 1, "log_more"),
        ("cycle", 32, cycle),
        *words,
        *unit,
    ]


def length(target: Target) -> int:
    return sum(width for _, width, _ in fields(target))


def tap_parts(target: Target) -> dict[str, str]:
    """What a TAP has for the log; nothing if there is no log."""
    names = ("log_held", "log_name", "log_capture", "log_shift", "log_reset", "log_step", "log_update", "log_out")
    if target.depth is None:
        return dict.fromkeys(names, "")
    # behind a segment insertion bit there is no instruction of its own
    own = "" if target.has_sib else "{}"
    bits, top = target.unit_bits, length(target) - 1
    captured = ", ".join(source for _, _, source in reversed(fields(target)))
    is_end = f" & log_unit == {bits}'d{target.count - 1}" if target.is_chip else ""
    held = [f"  reg [{PICK_BITS - 1}:0] log_at;", f"  reg [{top}:0] log_data;", "  wire log_last;", "  wire log_ends;"]
    held += [f"  reg {ranged(bits)}log_unit;"] if target.is_chip else []
    reset = ["      log_at <= 6'd0;", *([f"      log_unit <= {zero(bits)};"] if target.is_chip else [])]
    step = ["      log_at <= log_ends ? 6'd0 : log_at + 6'd1;"]
    step += [f"      if (log_ends && !log_last) log_unit <= log_unit + {bits}'d1;"] if target.is_chip else []
    return {
        "log_held": "\n".join([*held, ""]),
        "log_name": own.format(", LOG = 4'h9"),
        "log_capture": f"      log_data <= {{{captured}}};\n",
        "log_shift": own.format(f"        LOG: log_data <= {{tdi, log_data[{top}:1]}};\n"),
        "log_reset": "\n".join([*reset, ""]),
        "log_step": "\n".join([*step, ""]),
        "log_update": own.format(
            "\n".join(["    else if (state == UPDATE_DR && instruction == LOG) begin", *step, "    end", ""])
        ),
        "log_out": own.format("        LOG: out <= log_data[0];\n"),
        "log_wires": "\n".join(
            [
                "  assign log_pick = log_at;",
                "  assign log_ends = {1'b0, log_at} + 7'd1 >= log_count;",
                f"  assign log_last = log_ends{is_end};",
                "",
            ]
        ),
    }


TAP_READS = template(__file__, "log_window_tap_reads.sv")
# a unit's log ends where the next scan is of another
TAP_TURN = template(__file__, "log_window_turn.sv")


def scan_length(target: Target) -> int:
    """How many bits a scan of the log has. With --sib these include its segment insertion bit and that of the
    self-test, the lowest."""
    return length(target) + (2 if target.has_sib else 0)


def places(target: Target) -> dict[str, str]:
    """The bits of each part of the register in a scan."""
    found, low = {}, 1 if target.has_sib else 0
    for name, width, _ in fields(target):
        found[name] = f"{low + width - 1}:{low}" if width > 1 else str(low)
        low += width
    return found


def tap_reads(target: Target, size: int, width: int) -> str:
    """What the testbench of a TAP reads of the log, if a scan of its register has so many bits, and a word has
    `width`."""
    if target.depth is None:
        return ""
    at, scan = places(target), scan_length(target)
    begin, word, end = "instruct(4'h9);", "0", "instruct(4'h8);"
    if target.has_sib:
        is_open = network.constant(width, 1 << scan - 1)
        begin = f"shift({network.whole(target, size)}, {network.constant(width, network.to_log(size))});"
        word, end = is_open, f"shift({scan}, {network.constant(width, 1)});"
    words = f"heard[{at['cycle']}], heard[{at['expected']}], heard[{at['returned']}]"
    told = taken(target, f"heard[{at['unit']}]" if target.is_chip else "0", words)
    turn = TAP_TURN.substitute(unit=at["unit"], more=told["more"]) if target.is_chip else ""
    return TAP_READS.substitute(
        name=target.name, length=scan, last=at["last"], valid=at["valid"], more_at=at["more"], begin=begin, word=word,
        end=end, turn=turn, most=target.count * depth_of(target), **told,
    )


def tap_declared(target: Target) -> str:
    """What the testbench of a TAP declares for the log."""
    if target.depth is None:
        return ""
    return "  reg more_came;\n" + ("  integer of_unit;\n" if target.is_chip else "")


TCL = template(__file__, "log_window_tcl.tcl")
TCL_TURN = template(__file__, "log_window_turn.tcl")


def tcl(target: Target, widths: list[int]) -> str:
    """The procedures for OpenOCD; the register of BIST has parts of these widths, the first of which is `start`."""
    scans, rest = (" ".join(f"{one} 0" for one in some) for some in ([one for _, one, _ in fields(target)], widths[1:]))
    first = 1 if target.has_sib else 0
    at = {f"at_{name}": str(first + place) for place, (name, _, _) in enumerate(fields(target))}
    of_units = {"whose": "", "turn": "", "of_last": "", "unit": ""}
    if target.is_chip:
        turn = TCL_TURN.substitute(at_unit=at["at_unit"])
        of_units = {"whose": "  set whose 0\n", "turn": turn, "of_last": "unit $whose ", "unit": "unit $unit "}
    # behind the parts of the register stand the bits of the network, and round those of the log
    own, of_log = (" 1 1 1 0", "1 0 {} 1 1") if target.has_sib else ("", "{}")
    return TCL.substitute(
        name=target.name,
        open="  drscan bist.tap 2 1\n" if target.has_sib else "",
        stopped=f"1 0 {rest}{own}",
        started=f"1 1 {rest}{own}",
        polls=target.length // 1000 + 1000,
        to_log=f"drscan bist.tap 1 1 {rest} 1 0 1 1" if target.has_sib else "irscan bist.tap 0x9",
        to_end=f"drscan bist.tap 1 1 {scans} 1 0" if target.has_sib else "irscan bist.tap 0x8",
        fields=of_log.format(scans),
        most=target.count * depth_of(target),
        **of_units,
        **at,
    )
