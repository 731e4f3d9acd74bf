"""Which cycles of a test a simulator clocks the sources in: all of one that isn't long; of a long one its beginning,
its end, each border of its elements, and random stretches."""
from __future__ import annotations

import dataclasses
import random
from typing import Iterator, List

from vidlakost_tools.texts.march import Element
from vidlakost_tools.texts.memory import Memory

# a test of more cycles is long
LONG = 300_000
# of a short one so many cycles are clocked in all, in at most so many runs
SHORT, MOST = 30_000, 40
# in a long one so many cycles beside each border, random stretches, and cycles of each at its beginning and its end
BESIDE, RANDOM, ENDS = 24, 40, 2000
# so many cycles behind the end are clocked
BEHIND = 70


@dataclasses.dataclass
class Whole:
    """A test: the last cycle that is clocked; from which one on the ports count (1 where the cycle of the reset does
    not); how many times it is run; and in a long test where stretches begin, and how long each is."""

    length: int
    first: int = -1
    histories: int = 2
    starts: List[int] = dataclasses.field(default_factory=list)
    span: int = 0


def borders(elements: list[Element], memory: Memory) -> Iterator[int]:
    """The first cycles of the elements, and of the backgrounds."""
    cycle = 1
    for _ in memory.backgrounds:
        for element in elements:
            yield cycle
            cycle += memory.cycles_of(element)
    yield cycle


def of_test(elements: list[Element], memory: Memory, late: int = 0, first: int = -1) -> Whole:
    """The cycles of a test that begins or ends so many cycles late."""
    length = memory.cycles(elements) - 1 + late + BEHIND
    if length <= LONG:
        return Whole(length, first, max(2, min(MOST, SHORT // length)))
    chance = random.Random(length)
    places = {0, *range(max(0, length - ENDS), length, 2 * BESIDE), *range(0, ENDS, 2 * BESIDE)}
    places |= {max(0, border + late - BESIDE) for border in borders(elements, memory)}
    places |= {
        at + more
        for at in (chance.randrange(length) for _ in range(RANDOM))
        for more in range(0, 10 * BESIDE, 2 * BESIDE)
    }
    return Whole(length, first, 2, sorted(places), 2 * BESIDE)
