"""Which read of a memory in its place the register of the chip's TAP has: its cycle is one of the memory's own test."""
from __future__ import annotations

import dataclasses
from typing import Iterator

from vidlakost_tools.chip.system import Part, Placed, System
from vidlakost_tools.collar.pins import lows
from vidlakost_tools.diagnosis import tester
from vidlakost_tools.in_place.sequencer import of_places
from vidlakost_tools.texts.reads import last_command, read_of
from vidlakost_tools.tool import ToolError


def in_part(part: Part, cycle: int, words: list[str], mux: int) -> Iterator[str]:
    """The read of a description, in words. What comes behind its march, as the lanes do, is no read of that."""
    memory, elements = part.memory, part.unit.elements
    yield f"memory {part.name}, cycle {cycle} of its test"
    if cycle > last_command(elements, memory) + memory.latency:
        yield "behind its march: a lane, or a read by the second port"
        return
    yield from tester.of_read(read_of(elements, memory, cycle), elements, memory, words, mux)


def in_place(placed: Placed, cycle: int, expected: int, returned: int, mux: int) -> Iterator[str]:
    """The same of a word, which may be one of two descriptions; only of those whose bits are wrong."""
    digits = -(-placed.word.bits // 4)
    if (expected | returned) >> placed.word.bits or expected == returned:
        told = f"{expected:0{digits}x} and {returned:0{digits}x} are no two words of {placed.word.bits} bits"
        raise ToolError(f"{told}: is it the register of another chip?")
    yield f"cycle {cycle} expected {expected:0{digits}x} returned {returned:0{digits}x}"
    parts = {id(part.memory): part for part in placed.parts}
    for low, memory in lows(placed.word):
        words = [word >> low & (1 << memory.bits) - 1 for word in (expected, returned)]
        if words[0] != words[1]:
            yield from in_part(parts[id(memory)], cycle, [f"{word:x}" for word in words], mux)


def at_cycle(placed: Placed, cycle: int, words: list[str], mux: int) -> Iterator[str]:
    """What the cycle of a failure is, by which the words are told or not; without them of each part of a word."""
    if words:
        bits = placed.word.bits
        expected, returned = (tester.word_of(word, bits, what) for word, what in zip(words, ("EXPECTED", "RETURNED")))
        yield from in_place(placed, cycle, expected, returned, mux)
        return
    for part in placed.parts:
        yield from in_part(part, cycle, [], mux)


def register(system: System, text: str, mux: int, has_sib: bool = False, has_log: bool = False) -> list[str]:
    """What the register of the TAP says. Where each memory keeps several wrong reads it tells of any of them."""
    target = dataclasses.replace(of_places(system), has_sib=has_sib, entries=1 if has_log else None)
    found = tester.register_of(target, text)
    lines = list(tester.state_lines(found, target))
    if not found["seen"]:
        return lines
    if found["unit"] >= target.count:
        raise ToolError(f"there is no unit {found['unit']}: the units are 0 to {target.count - 1}")
    placed = system.collars[found["unit"]]
    if has_log:
        if found["shown"] and found["shown"] >= found["count"]:
            told = f"the memory has kept {found['count']} wrong reads, and that of number {found['shown']} is none"
            raise ToolError(f"{told}: ask for an entry below their count")
        more = ", and more came" if found["more"] else ""
        lines.append(f"unit {found['unit']} wrong read {found['shown']} of {found['count']} that are kept{more}")
    return [*lines, *in_place(placed, found["cycle"], found["expected"], found["returned"], mux)]
