"""The first failure that a bit has to bring which is wrong in each word of a memory in its place: that of the first
read of the march that judges the bit, as a testbench compares it with what is told."""
from __future__ import annotations

import dataclasses

from vidlakost_tools.chip.system import Placed
from vidlakost_tools.collar.pins import lows
from vidlakost_tools.texts.reads import first_read


@dataclasses.dataclass(frozen=True)
class First:
    """Of some bits of a word, from the lowest on, the cycle of the first read and what they have to be then."""

    low: int
    bits: int
    cycle: int
    expected: int
    # how many reads its march has
    reads: int


class Due:
    """The first reads of a word, which may be one of two descriptions."""

    def __init__(self, placed: Placed):
        self.bits = placed.word.bits
        self.firsts: list[First] = []
        parts = {id(part.memory): part for part in placed.parts}
        for low, memory in lows(placed.word):
            elements = parts[id(memory)].unit.elements
            found = first_read(elements, memory)
            ways = [operation[0] for element in elements for operation in element.operations]
            reads = ways.count("r") * memory.words * len(memory.backgrounds)
            # a march that never reads finds nothing, and its testbench fails for that
            self.firsts.append(First(low, memory.bits, *(found or (0, 0)), reads))

    def chosen(self, which: str, value: dict[First, str]) -> str:
        """The value of the part in which a bit is."""
        *before, last = self.firsts
        return "".join(f"{which} < {one.low + one.bits} ? {value[one]} : " for one in before) + value[last]

    def cycle(self, which: str) -> str:
        return self.chosen(which, {one: f"32'd{one.cycle}" for one in self.firsts})

    def expected(self, which: str) -> str:
        return self.chosen(which, {one: f"{self.bits}'h{one.expected << one.low:x}" for one in self.firsts})

    def mask(self, which: str) -> str:
        ones = {one: (1 << one.bits) - 1 << one.low for one in self.firsts}
        return self.chosen(which, {one: f"{self.bits}'h{mask:x}" for one, mask in ones.items()})

    def reads(self, which: str) -> str:
        """How many reads are wrong where one bit is."""
        return self.chosen(which, {one: f"{one.reads}" for one in self.firsts})

    def function(self) -> str:
        """The three of them as functions."""
        told = {"cycle": (32, self.cycle), "expected": (self.bits, self.expected), "mask": (self.bits, self.mask)}
        lines = []
        for name, (width, value) in told.items():
            lines.append(f"  function [{width - 1}:0] due_{name}(input [6:0] which);")
            lines += [f"    due_{name} = {value('which')};", "  endfunction"]
        return "\n".join(lines)
