"""A judge from outside: Yosys' bounded model checker on self-test modules of small memories.

usage: vidlakost formal                                    a dozen marches and memories, compiled and judged
       vidlakost formal --random N [--seed S]              N random ones
       vidlakost formal --wrong                            modules with one mistake each, which the judge has to find
       vidlakost formal VERILOG .. MARCH MEMORY [--top NAME] [--pins FILE] [--cells FAMILY] [--resets] [--no-simulate]
                                                       a module of yours, in any Verilog that Yosys reads
       vidlakost formal --help

Every register is open in cycle 0, the cycle of the reset. Every word on `rdata` is open in every cycle. In each cycle
to the end of the test, and in three cycles after it, all ports have to be as the list of `vectors` says, and `fail` as
these words say. Of modules that the program wrote formal shares only that list with the program. A module of yours is
read by Yosys (VHDL by GHDL first), as `audit` reads it. So formal, too, has a simulator clock the sources beside what
Yosys makes of them.
With --resets the reset may come again in any cycle, and each reset begins the test anew. That takes longer, and is for
the smallest memories. formal judges the first of the dozen so too.
What nothing drives is open in every cycle. formal ignores initial values. It refuses a signal with two drivers, a
register that samples at another edge than the rising one of clk, a latch, and a port of another width. It hands on the
warnings of Yosys.
If the model checker finds a case, plain Python clocks it once more, from the module as a text of the subset that
`check` reads. If no port is wrong in it, the line says `not known`. formal ends with 1 if a module differs, with the
first wrong cycle, or if it is not known. The last line of a module of yours begins with `formal: right`, `wrong`,
`unknown` or `refused`. Where no simulator is installed, or it can't read the sources, it is `formal: unknown: right as
Yosys reads it, not simulated`; with --no-simulate it is `formal: right as Yosys reads it, not simulated`, and the
status 0."""
from __future__ import annotations

import dataclasses
import pathlib
import random
import re
from typing import Any, Iterator, Mapping, Sequence

from vidlakost_tools.audit import witness
from vidlakost_tools.audit.outcome import Outcome
from vidlakost_tools.audit.pins import Pins, ports_of, read_pins, told_ports
from vidlakost_tools.audit.rule_vectors import Rule
from vidlakost_tools.audit.stretches import of_test
from vidlakost_tools.audit.witness import SIMULATED
from vidlakost_tools.program import ask
from vidlakost_tools.temporary import folder_of_its_own
from vidlakost_tools.text import Path, read_described
from vidlakost_tools.texts.march import march_of
from vidlakost_tools.texts.memory import Memory, parse_memory
from vidlakost_tools.texts.random_cases import random_case
from vidlakost_tools.tool import Refused, ToolError, number_of, tell, usage_of, words_of
from vidlakost_tools.verilog import clock_tree, port_judge, replayed, yosys
from vidlakost_tools.verilog.front_end import Plain, plain_of
from vidlakost_tools.verilog.model_checker import differs_within
from vidlakost_tools.verilog.port_judge import Cycle
from vidlakost_tools.verilog.replayed import Case
from vidlakost_tools.verilog.vhdl import verilog_of

# so many more cycles, if resets may come at any time
AFTER = 8
C = "{any(w0);up(r0,w1);up(r1,w0);down(r0,w1);down(r1,w0);any(r0)}"
CASES = [
    ("{any(w0);up(r0,w1);down(r1,w0)}", "memory 1\nname a\nwords 2\nbits 1\n"),
    (C, "memory 1\nname b\nwords 4\nbits 1\n"),
    ("{any(w0);up(r0,w1);down(r1)}", "memory 1\nname c\nwords 3\nbits 3\n"),
    ("{any(w1);down(r1,w0,r0);up(r0)}", "memory 1\nname d\nwords 5\nbits 2\nbackgrounds 0 1\n"),
    ("{any(w0);up(r0,w1)}", "memory 2\nname e\nwords 4\nbits 2\nlatency 2\npolarity 1\n"),
    ("{up(w0);down(r0,w1,r1);any(r1)}", "memory 2\nname f\nwords 3\nbits 2\nlatency 4\n"),
    ("{any(w0);del;any(r0,w1);del;any(r1)}", "memory 2\nname g\nwords 2\nbits 2\npause 5\n"),
    (
        "{any(w0);up(r0,w1);del;down(r1,w0)}",
        (
            "memory 2\nname h\nwords 4\nbits 2\nlatency 2\npolarity 1\npause 3\nscramble a0 = p0 ^ p1\nscramble a1 = p1"
            " ^ 1\n"
        ),
    ),
    (
        "{any(w0);down(r0,w1);up(r1)}",
        "memory 1\nname i\nwords 8\nbits 1\nscramble a0 = p0 ^ p1\nscramble a1 = p1 ^ p2\nscramble a2 = p2 ^ 1\n",
    ),
    ("{del;any(w0);del;del;up(r0);del}", "memory 2\nname j\nwords 3\nbits 2\nlatency 3\npause 2\nbackgrounds 0 3 1\n"),
    ("{any(w0);up(r0)}", "memory 2\nname k\nwords 4\nbits 8\npolarity a5\nlatency 1\n"),
    ("{up(w0);up(r0,w1,r1,w0,r0,w1);v(r1)}", "memory 1\nname l\nwords 3\nbits 4\nbackgrounds 0 5\n"),
]
# a march and a memory whose module has all parts, and places in its text with a wrong text for each
WRONG_CASE = CASES[7]
WRONG = [
    ("done comes a cycle early", r"done = \(reset \? 1'h0 : over2\)", "done = (reset ? 1'h0 : over1)"),
    ("fail is not cleared by the reset", r"bad <= \(reset \? 1'h0 :", "bad <= (reset ? bad :"),
    ("fail does not stay", r"\(\(rdata != want\) \? 1'h1 : bad\)", "((rdata != want) ? 1'h1 : 1'h0)"),
    ("a word is compared a cycle early", r"\(reads2 \? \(\(rdata", "(reads1 ? ((rdata"),
    ("one bit alone is compared", r"\(rdata != want\)", "(rdata[0] != want[0])"),
    ("an address is not scrambled", r"\(index & 2'h3\)", "(index & 2'h1)"),
    ("a constant of an address is lost", r"\^ 1'h1\)", "^ 1'h0)"),
    ("one background alone is run", r"\(back \+ 1'h1\)", "1'h0"),
    ("no element goes down", r"assign down = .*", "assign down = 1'h0;"),
    ("the last word is left out", r"\(pause \? 2'h1 : 2'h2\)", "(pause ? 2'h1 : 2'h1)"),
    ("a pause is a cycle short", r"\(pause \? 2'h1 : 2'h2\)", "(pause ? 2'h0 : 2'h2)"),
    ("a pause commands the memory", r"live = \(pause \? 1'h0 : run\)", "live = run"),
    (
        "the written words have no polarity",
        r"wdata = .*",
        "wdata = (back ? (value ? 2'h1 : 2'h2) : (value ? 2'h3 : 2'h0));",
    ),
    ("the expected words are inverted", r"want <= \(value1 \?", "want <= ((!value1) ?"),
    ("the reset does not start the run", r"run <= \(reset \? 1'h1 :", "run <= (reset ? run :"),
    ("the reset leaves the value", r"one <= \(reset \? 1'h0 :", "one <= (reset ? one :"),
    ("the first operation counts as the last", r": ends_more\)", ": ends_again)"),
    ("the reset leaves the element", r"element <= \(reset \? 2'h0 :", "element <= (reset ? element :"),
    (
        "a read from before the reset is compared",
        r"reads1 <= \(reset \? 1'h0 : \(write \? 1'h0 : live\)\)",
        "reads1 <= (write ? 1'h0 : live)",
    ),
    ("done from before the reset stays", r"over1 <= \(reset \? 1'h0 : \(!run\)\)", "over1 <= (!run)"),
    ("fail is not 0 in the reset", r"fail = \(reset \? 1'h0 : bad\)", "fail = bad"),
    ("the test begins again at its end", r"\(last_back \? 1'h0 : run\)", "(last_back ? run : run)"),
    ("a write is a read", r"we = write", "we = 1'h0"),
    ("en depends on a bit that is not there", r"1'h0 : live\);", "1'h0 : (live && !want[{1'b1, back}]));"),
]
# the same, but no run of cycles shows these: the module is refused, with these words
REFUSED = [
    ("the falling edge counts", "posedge clk", "negedge clk", "takes at the falling edge of clk"),
    ("a port is too wide", "output we", "output [1:0] we", "has the ports output we of 1 bit"),
]


# ---- somebody's module


def refuse_ports(module: Mapping[str, Any], memory: Memory, pins: Pins | None) -> None:
    """Refuses a module without one of the ports; Yosys would make a port of another width fit."""
    there: set[tuple[str, str, int]] = {
        (said["direction"], port, len(said["bits"])) for port, said in module["ports"].items()
    }
    if pins:
        there = set(pins.widths(dict(module["ports"])))
    missing = ports_of(memory) - there
    if missing:
        raise ToolError(f"a self-test of {memory.name} has the ports {told_ports(missing)}", 1)


@dataclasses.dataclass
class Asked:
    """What the model checker is asked: the script that reads the module, the module that is judged, and the test."""

    begin: str
    module: str
    memory: Memory
    cycles: list[Cycle]
    resets: bool
    folder: pathlib.Path

    def differs(self, steps: int, pins: Pins | None = None, more: Sequence[str] = ()) -> Case | None:
        judge = port_judge.checker(self.memory, self.cycles, f"\\{self.module} ", self.resets, pins)
        (self.folder / "judge.v").write_text(judge, encoding="utf-8")
        return differs_within(steps, self.begin, self.folder, more=more)

    def first(self, cycle: int, pins: Pins | None) -> int:
        """The first cycle that differs, if there is one; this takes some further runs."""
        least = 0
        while least < cycle:
            middle = (least + cycle) // 2
            found = self.differs(middle + 1, pins)
            least, cycle = (middle + 1, cycle) if found is None else (least, found.cycle)
        return cycle


def is_replayed(asked: Asked, plain: Plain, cycle: int) -> bool:
    """Whether a port differs in a cycle when plain Python clocks the module, as a text of the subset, in the case that
    the model checker found."""
    (asked.folder / "plain.v").write_text(plain.text(), encoding="utf-8")
    begin = f"read_verilog {yosys.quoted(asked.folder / 'plain.v')}\nproc -noopt -norom\n{yosys.OPEN}"
    case = dataclasses.replace(asked, begin=begin, module=plain.name).differs(
        cycle + 1, more=replayed.signals_of(plain)
    )
    if case is None:
        return False
    resets = case.resets if asked.resets else {0}
    return port_judge.test_of(asked.memory, asked.cycles).differs(plain, dataclasses.replace(case, resets=resets))


def judge(
    files: Sequence[Path], march: Path, memory_file: Path, options: dict[str, Any] | None = None, first: bool = True
) -> str | None:
    """Where a module differs from the list of its commands; None if it differs nowhere."""
    memory, cycles = port_judge.cycles_of(march, memory_file)
    options = options or {}
    with folder_of_its_own() as folder:
        resets = "--resets" in options
        sources = yosys.read(*verilog_of(list(map(str, files)), options, folder), folder)
        pins = read_pins(options["--pins"]).complete(sources.module["ports"]) if options.get("--pins") else None
        refuse_ports(sources.module, memory, pins)
        begin, clock = clock_tree.settled(sources, pins, folder)
        for warning in [*sources.warnings, *clock.warnings]:
            tell(f"formal: {warning}")
        asked = Asked(begin, sources.top, memory, cycles, resets, folder)
        found = asked.differs(len(cycles) + (AFTER if resets else 0), pins)
        if found is None:
            return None
        cycle = asked.first(found.cycle, pins) if first else found.cycle
        try:
            plain = plain_of(list(map(str, files)), options, pins)
        except ToolError as error:
            return f"not known: Python can't clock the case of cycle {cycle} by itself, since {error}"
        if is_replayed(asked, plain, cycle):
            return f"differs in cycle {cycle}"
    return f"not known: the module, clocked by itself, does not show the case in cycle {cycle}"


# ---- modules of the program


def compiled(march: Path, memory_file: Path, folder: pathlib.Path) -> pathlib.Path:
    (folder / "list").write_text("")
    ask("compile", march, memory_file, folder / "list", folder / "module.v", folder / "report")
    return folder / "module.v"


def judge_case(
    march_text: str, memory_text: str, change: tuple[str, str, str] | None = None, resets: bool = False
) -> str | None:
    with folder_of_its_own() as folder:
        march, memory = folder / "march", folder / "memory"
        march.write_text(march_text)
        memory.write_text(memory_text)
        module = compiled(march, memory, folder)
        if change:
            changed, count = re.subn(change[1], change[2].replace("\\", "\\\\"), module.read_text())
            if count != 1:
                raise ToolError(f"the module has the text of '{change[0]}' {count} times")
            module.write_text(changed)
        return judge([module], march, memory, {"--resets": True} if resets else {}, change is None)


def judge_cases(cases: list[tuple[str, str]], with_resets: int = 0) -> int:
    """Judges modules, and the first of them also with resets at any time."""
    wrong = 0
    for march, memory, resets in [
        *((*case, False) for case in cases),
        *((*case, True) for case in cases[:with_resets]),
    ]:
        difference = judge_case(march, memory, resets=resets)
        if difference:
            wrong += 1
            print(f"{difference}{' with further resets' if resets else ''}: {march}\n{memory}")
    print(f"{len(cases)} modules judged by Yosys, {wrong} differ")
    return 1 if wrong else 0


def refusal_of(change: tuple[str, str, str], wanted: str) -> str | None:
    """The message that refuses a wrong module; None if nothing refuses it."""
    try:
        judge_case(*WRONG_CASE, change=change)
    except ToolError as error:
        return f"refused, {error}" if wanted in str(error) else None
    return None


def wrong_modules() -> Iterator[tuple[str, str | None]]:
    """Each module with a mistake, and how the judge found it."""
    for change in WRONG:
        yield change[0], judge_case(*WRONG_CASE, change=change)
    for what, pattern, text, wanted in REFUSED:
        yield what, refusal_of((what, pattern, text), wanted)


def judge_wrong() -> int:
    missed = 0
    for what, difference in wrong_modules():
        missed += difference is None
        print(f"{what}: {difference or 'not found'}")
    print(f"{len(WRONG) + len(REFUSED)} wrong modules, {missed} not found")
    return 1 if missed else 0


def judged(files: list[str], march: str, memory_file: str, options: dict[str, Any]) -> Outcome:
    """The verdict on somebody's module."""
    difference = judge(files, march, memory_file, options)
    if difference:
        told = difference.partition("not known: ")[2]
        return Outcome("formal", "unknown" if told else "wrong", told or difference)
    memory, elements = parse_memory(read_described(memory_file)), march_of(march)[1]
    given = read_pins(options["--pins"]) if options.get("--pins") else None
    plain = plain_of(files, options, given)
    pins = given.with_own(port for _, port, _ in plain.ports) if given else None
    whole = of_test(elements, memory)
    asked = witness.Asked("formal", files, options, plain, pins, memory, whole, Rule(elements, memory))
    usual = "each port is right in each cycle"
    return witness.outcome(asked, usual, usual, {})


def main(arguments: list[str]) -> int:
    own = {"--resets": 0, "--top": 1, "--pins": 1, "--cells": 1, **SIMULATED}
    files, options = words_of(__doc__, arguments, {"--random": 1, "--seed": 1, "--wrong": 0, **own})
    yosys.want()
    if len(files) >= 3 and set(options) <= set(own):
        try:
            outcome = judged(files[:-2], files[-2], files[-1], options)
        except ToolError as error:
            if isinstance(error, Refused) or error.status != 1:
                raise
            tell(f"formal: {error}")
            outcome = witness.refusal("formal", error)
        print(outcome.line())
        return outcome.status
    if files:
        raise ToolError(f"name three files or more, or none\n{usage_of(__doc__)}")
    if "--wrong" in options:
        return judge_wrong()
    if "--random" in options:
        chance = random.Random(number_of(options.get("--seed", "1"), "--seed"))
        return judge_cases([random_case(chance) for _ in range(number_of(options["--random"], "--random", 1))])
    return judge_cases(CASES, 1)
