"""The test of a whole chip in steps: chips in parallel as far as the budget allows, then the lanes of one collar at a
time. If there is a second port, both run once more. This also says in which cycle each step begins."""
from __future__ import annotations

import dataclasses

from vidlakost_tools.chip.system import Placed, System
from vidlakost_tools.collar import lane_machine as collar_lanes
from vidlakost_tools.texts.chip import Chip


@dataclasses.dataclass
class Step:
    """A step of the test: chips that run side by side, the lanes of a collar, or a pause of a cycle; and whether it is
    of the
    second session."""

    kind: str
    numbers: list[int]
    is_second: bool


@dataclasses.dataclass
class Turn:
    """A step in time: how many cycles after the first one it begins, and how many it takes."""

    step: Step
    first: int
    length: int


def peak(chip: Chip) -> int:
    """What the heaviest group of a chip weighs."""
    return max(sum(unit.weight for unit in chip.units if unit.group == group) for group in range(chip.groups))


def rounds(system: System, numbers: list[int]) -> list[list[int]]:
    """These chips in rounds: the long ones first, each in the first round whose budget has room for its heaviest
    group."""
    found: list[list[int]] = []
    loads: list[int] = []
    for number in sorted(numbers, key=lambda number: -system.chips[number].done):
        weight = peak(system.chips[number])
        room = (at for at, load in enumerate(loads) if load + weight <= system.budget)
        at = next(room, len(loads))
        if at == len(loads):
            found.append([])
            loads.append(0)
        found[at].append(number)
        loads[at] += weight
    return found


def steps_of(system: System) -> list[Step]:
    """The steps, one after the other."""
    found: list[Step] = []
    for second in (False, True):
        placed = [number for number, one in enumerate(system.collars) if one.macro.has_second or not second]
        chips = sorted({part.chip for number in placed for part in system.collars[number].parts})
        found += [Step("pause", [], second)] if second and chips else []
        found += [Step("chips", numbers, second) for numbers in rounds(system, chips)]
        masks = [number for number in placed if system.collars[number].macro.masks]
        tried = [one for one in masks if second in collar_lanes.counted(system.collars[one].macro)[1]]
        found += [Step("lanes", [one], second) for one in tried]
    return found


def lanes_length(placed: Placed, is_second: bool) -> int:
    """How many cycles the lanes of a port take: six commands of each lane and of none at two addresses, and the last
    answer."""
    lanes = collar_lanes.counted(placed.macro)[1][is_second] + 1
    return 12 * lanes + 1 + placed.word.first.latency


def turns_of(system: System) -> list[Turn]:
    """The steps in time."""
    found, first = [], 0
    for step in steps_of(system):
        length = 1
        if step.kind == "chips":
            length = max(system.chips[number].done for number in step.numbers)
        elif step.kind == "lanes":
            length = lanes_length(system.collars[step.numbers[0]], step.is_second)
        found.append(Turn(step, first, length))
        first += length
    return found


def cycles(system: System) -> int:
    """The cycle in which the whole is done, counted from the cycle of the reset, which is 0."""
    last = turns_of(system)[-1]
    return last.first + last.length + 1


def begin_of(system: System, chip: int) -> int:
    """How many cycles after the first step a chip begins, in the first session."""
    return next(turn.first for turn in turns_of(system) if turn.step.kind == "chips" and chip in turn.step.numbers)


def plan(system: System) -> list[str]:
    """Which memory is which bit, and which unit, and when its test begins and is done."""
    widest = max(len(part.name) for part in system.parts)
    lines = [f"bit  {'memory':{widest}}  chip  unit  group  start  done"]
    for at, part in enumerate(system.parts):
        unit, begin = system.chips[part.chip].units[part.place], begin_of(system, part.chip)
        numbers = f"{part.chip:4}  {part.place:4}  {unit.group:5}  {begin + unit.start:5}  {begin + unit.done:4}"
        lines.append(f"{at:3}  {part.name:{widest}}  {numbers}")
    return lines


def in_time(system: System) -> list[str]:
    """The steps, each with its first and its last cycle."""
    lines = []
    for turn in turns_of(system):
        what = {"pause": "a pause", "lanes": "the lanes of "}.get(turn.step.kind, "the chips ")
        if turn.step.kind == "lanes":
            what += system.collars[turn.step.numbers[0]].name
        else:
            what += ", ".join(map(str, turn.step.numbers))
        session = ", by the second port" if turn.step.is_second and turn.step.kind != "pause" else ""
        lines.append(f"cycles {turn.first + 1} to {turn.first + turn.length}: {what}{session}")
    return [*lines, f"done {cycles(system)}"]
