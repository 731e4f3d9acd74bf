"""Which read of which memory a cycle of the test of a whole chip belongs to."""
from __future__ import annotations

import dataclasses
from typing import Iterator

from vidlakost_tools.chip.access import of_system
from vidlakost_tools.chip.steps import Turn, turns_of
from vidlakost_tools.chip.system import Part, System
from vidlakost_tools.collar import lane_machine as collar_lanes
from vidlakost_tools.diagnosis import tester
from vidlakost_tools.texts.reads import read_of
from vidlakost_tools.tool import ToolError


def turn_at(system: System, cycle: int) -> Turn:
    """The step that a cycle is in."""
    found = [turn for turn in turns_of(system) if turn.first < cycle <= turn.first + turn.length]
    if not found:
        last = turns_of(system)[-1]
        raise ToolError(
            f"cycle {cycle} is in no step of the test, which has the cycles 1 to {last.first + last.length}"
        )
    return found[0]


def in_system(system: System, cycle: int, part: Part, words: list[str], mux: int) -> Iterator[str]:
    """The read of a memory whose answer comes in a cycle, in words; the lanes keep no words."""
    turn = turn_at(system, cycle)
    placed = next(placed for placed in system.collars if part in placed.parts)
    by = " by the second port" if turn.step.is_second else ""
    if turn.step.kind == "lanes":
        if system.collars[turn.step.numbers[0]] is not placed:
            raise ToolError(f"cycle {cycle} tries the lanes of another memory, not those of {part.name}")
        command = cycle - turn.first - placed.word.first.latency - 1
        lanes = collar_lanes.counted(placed.macro)[1][turn.step.is_second] + 1
        address = placed.word.first.words - 1 if command >= 6 * lanes else 0
        yield f"lanes of {part.name}{by}, command {command % 6} of lane {command // 6 % lanes}, address {address}"
        return
    if part.chip not in turn.step.numbers:
        raise ToolError(f"in cycle {cycle} {part.name} is not tested{by}")
    unit = system.chips[part.chip].units[part.place]
    local = cycle - turn.first - unit.start
    yield f"memory {part.name}{by}, cycle {local} of its test"
    yield from tester.of_read(read_of(unit.elements, part.memory, local), unit.elements, part.memory, words, mux)


def register(system: System, text: str, mux: int, has_sib: bool = False) -> list[str]:
    """What the register of the TAP says."""
    target = dataclasses.replace(of_system(system), has_sib=has_sib)
    found = tester.register_of(target, text)
    lines = list(tester.state_lines(found, target))
    if not found["seen"]:
        return lines
    if found["unit"] >= target.count:
        raise ToolError(f"there is no unit {found['unit']}: the units are 0 to {target.count - 1}")
    part = system.parts[found["unit"]]
    words = [f"{found['expected']:x}", f"{found['returned']:x}"]
    if turn_at(system, found["cycle"]).step.kind != "lanes":
        told = [part.memory.digits(found[word]) for word in ("expected", "returned")]
        lines.append(f"cycle {found['cycle']} expected {told[0]} returned {told[1]}")
    return [*lines, *in_system(system, found["cycle"], part, words, mux)]
