"""What a call about a log names: the log, and its march and memory or its unit of a chip."""
from __future__ import annotations

import copy
import dataclasses
from typing import Any, List, Sequence, Tuple

from vidlakost_tools.access.log import Entry, read_log
from vidlakost_tools.access.target import is_list
from vidlakost_tools.collar.pins import lows
from vidlakost_tools.diagnosis.cells import Fault
from vidlakost_tools.diagnosis.evidence import Evidence, Test, evidence_of
from vidlakost_tools.diagnosis.tester import check_expected
from vidlakost_tools.program import with_text
from vidlakost_tools.text import Path
from vidlakost_tools.texts.chip import read_chip
from vidlakost_tools.texts.march import Element, march_of
from vidlakost_tools.texts.memory import Memory, read_memory
from vidlakost_tools.texts.reads import Read, last_command
from vidlakost_tools.texts.report import judged
from vidlakost_tools.tool import ToolError, number_of, usage_of

# the faults without a list: all static primitives, and losses over a pause
USUAL = "all\nDRF\n"


@dataclasses.dataclass(frozen=True)
class Run:
    """The cycles of a run of a test, those from `first` to `last`; a whole chip may run a test twice."""

    first: int
    last: int

    def has(self, cycle: int) -> bool:
        return self.first <= cycle <= self.last


@dataclasses.dataclass
class Asked:
    """A march's file, its elements, the memory, the cycle in which its test begins, and the files that are read; of a
    chip the unit, and of a whole chip all runs of its test, and the number of the one that is asked about."""

    march: Path
    elements: List[Element]
    memory: Memory
    begin: int
    files: List[str]
    unit: int | None = None
    runs: List[Run] = dataclasses.field(default_factory=list)
    run: int = 0
    # of a memory in its place the lowest bit in the word of its macro, and how many bits that has
    low: int = 0
    whole: int = 0


def asked_of(words: list[str], options: dict[str, Any], doc: str | None) -> Asked:
    """What comes after the log in the words of a call."""
    if "--in-place" in options:
        if "--unit" not in options or "--second" in options or len(words) < 3:
            raise ToolError(f"--in-place needs --unit and the files of pins, and no --second\n{usage_of(doc)}")
        return in_place(words, options["--unit"])
    if "--unit" not in options:
        if len(words) != 3 or "--second" in options:
            raise ToolError(f"give a log, a march and a memory\n{usage_of(doc)}")
        return Asked(words[1], march_of(words[1])[1], read_memory(words[2]), 0, words)
    number = number_of(options["--unit"], "--unit")
    if len(words) > 2:
        return of_whole(words, number, "--second" in options)
    if "--second" in options or is_list(words[1]):
        raise ToolError(f"--second and a list need a whole chip: give the files of its pins, too\n{usage_of(doc)}")
    chip = read_chip(words[1])
    if number >= len(chip.units):
        raise ToolError(f"--unit is 0 to {len(chip.units) - 1}, and not {number}")
    unit = chip.units[number]
    return Asked(unit.march, unit.elements, unit.memory, unit.start, [*words, *chip.files], number)


def of_whole(words: list[str], number: int, is_second: bool) -> Asked:
    """A memory of a whole chip that `top` joined. The chip file that tests it runs in one step or in two, in the second
    one by a second port."""
    from vidlakost_tools.chip import system as soc
    from vidlakost_tools.chip.steps import turns_of

    path, pins = words[1], words[2:]
    system = soc.read_system(path)
    soc.give_collars(system, pins)
    soc.planned(system, path)
    if number >= len(system.parts):
        raise ToolError(f"--unit is 0 to {len(system.parts) - 1}, and not {number}")
    part = system.parts[number]
    turns = [turn for turn in turns_of(system) if turn.step.kind == "chips" and part.chip in turn.step.numbers]
    if is_second and len(turns) < 2:
        raise ToolError(f"the test of {part.name} runs once: leave --second out")
    unit, turn = system.chips[part.chip].units[part.place], turns[is_second]
    runs = [Run(turn.first + 1, turn.first + turn.length) for turn in turns]
    files = [*words, *(name for one in system.parts for name in (one.unit.march, one.unit.memory_file))]
    begin = turn.first + unit.start
    return Asked(part.unit.march, unit.elements, part.memory, begin, files, number, runs, int(is_second))


def in_place(words: list[str], unit: str) -> Asked:
    """A memory in its place, by its number, or by its name where a macro has the words of two. Its test begins in a
    cycle of its own."""
    from vidlakost_tools.chip import system as soc

    system = soc.read_system(words[1])
    soc.give_collars(system, words[2:])
    places = [(number, placed, part) for number, placed in enumerate(system.collars) for part in placed.parts]
    found = [one for one in places if unit in (one[2].name, str(one[0]))]
    if len(found) != 1:
        names = ", ".join(part.name for _, _, part in found or places)
        raise ToolError(f"--unit {unit} is {'two of' if found else 'none of'} {names}: give a name")
    number, placed, part = found[0]
    low = next(low for low, memory in lows(placed.word) if memory is part.memory)
    runs = [Run(1, last_command(part.unit.elements, part.memory) + part.memory.latency)]
    files = [*words, *(name for one in system.parts for name in (one.unit.march, one.unit.memory_file))]
    told = (part.unit.march, part.unit.elements, part.memory, 0, files, number, runs)
    return Asked(*told, low=low, whole=placed.word.bits)


def of_part(asked: Asked, entries: list[Entry], more: bool) -> Tuple[List[Entry], bool]:
    """Of the entries of a macro those that are of a memory's march: its bits are wrong, and no lane or second port was
    tried. A log that was full behind the march has all of it."""
    ones, run = (1 << asked.memory.bits) - 1, asked.runs[0]
    found = [Entry(one.cycle, one.expected >> asked.low & ones, one.word >> asked.low & ones) for one in entries]
    found = [one for one in found if one.expected != one.word and run.has(one.cycle)]
    if not found:
        raise ToolError(f"no wrong read is of the march of {asked.memory.name}")
    return found, more and run.has(entries[-1].cycle)


@dataclasses.dataclass
class Logged:
    """What a log says: its reads with the words that returned, and whether more followed."""

    evidence: Evidence
    reads: List[Tuple[Read, int]]
    more: bool


def of_run(path: str, asked: Asked, entries: list[Entry], more: bool) -> Tuple[List[Entry], bool]:
    """The entries of the run that is asked about, and whether it had more of them. A log that was full before a run
    says nothing of it, and one that was full in a later run has all of it."""
    for entry in entries:
        if not any(run.has(entry.cycle) for run in asked.runs):
            raise ToolError(f"{path}: in cycle {entry.cycle} the test of {asked.memory.name} does not run")
    run = asked.runs[asked.run]
    found = [entry for entry in entries if run.has(entry.cycle)]
    if more and entries[-1].cycle < run.first:
        raise ToolError(f"{path}: the log was full before the second run, of which it tells nothing")
    if not found:
        which = ("first", "second")[asked.run]
        raise ToolError(f"{path}: no read of the {which} run was wrong, and of the other one {len(entries)} were")
    return found, more and run.has(entries[-1].cycle)


def logged(path: str, asked: Asked) -> Logged:
    """What a log says about a test. A log of another march or memory is refused."""
    memory = copy.copy(asked.memory)
    memory.bits = asked.whole or memory.bits
    entries, more = read_log(path, memory, asked.unit)
    if asked.whole:
        entries, more = of_part(asked, entries, more)
    elif asked.runs:
        entries, more = of_run(path, asked, entries, more)
    evidence, reads = evidence_of(Test(asked.elements, asked.memory, asked.begin), entries, more)
    for entry, read in zip(entries, reads):
        check_expected(read, asked.memory, entry.expected, f"in cycle {entry.cycle} ")
    return Logged(evidence, [(read, entry.word) for entry, read in zip(entries, reads)], more)


def faults_of(march: Path, path: str | None) -> Sequence[Fault]:
    """The primitives of a list, or the usual ones."""
    report = judged(march, path) if path else with_text(USUAL, lambda file: judged(march, file))
    return [Fault(verdict.primitive, verdict.kind) for verdict in report.verdicts]
