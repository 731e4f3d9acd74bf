"""What a log says about each word: which of its reads were wrong, in which bits, and which are not known."""
from __future__ import annotations

import bisect
import dataclasses
from typing import Dict, Sequence, Tuple

from vidlakost_tools.access.log import Entry
from vidlakost_tools.texts.march import Element
from vidlakost_tools.texts.memory import Memory
from vidlakost_tools.texts.reads import Read, read_of, spans

# the wrong reads of a word: the wrong bits, by the number of the read
Wrong = Dict[int, int]


@dataclasses.dataclass(frozen=True)
class Operation:
    """An operation on a word in a pass: whether it writes, its value, and for a read its number among the reads of the
    word."""

    is_write: bool
    value: int
    number: int
    place: int


@dataclasses.dataclass(frozen=True)
class Pass:
    """An element in a background, with the cycle in which it begins; one without operations is a pause."""

    background: int
    element: int
    goes_down: bool
    operations: Tuple[Operation, ...]
    first: int

    def order(self, indices: Sequence[int]) -> list[int]:
        """Some words in the order in which the pass visits them."""
        return sorted(set(indices), reverse=self.goes_down)


class Test:
    """The passes of a test on a memory. All words have the same operations, so a word and a number name a read. An
    element of any order goes up, as in the controller."""

    def __init__(self, elements: list[Element], memory: Memory, begin: int = 0):
        self.elements, self.memory, self.begin = elements, memory, begin
        self.passes: list[Pass] = []
        # for each read of a word: its pass, and its place there
        self.reads: list[Tuple[Pass, int]] = []
        for span in spans(elements, memory):
            operations, count = [], len(self.reads)
            for place, text in enumerate(span.element.operations):
                operations.append(Operation(text[0] == "w", int(text[1]), count, place))
                count += text[0] == "r"
            one = Pass(span.background, span.number, span.element.order == "down", tuple(operations), span.first)
            self.passes.append(one)
            self.reads += [(one, operation.place) for operation in operations if not operation.is_write]
        self.firsts = [one.first for one in self.passes]
        self.patterns = [tuple(word >> bit & 1 for word in memory.backgrounds) for bit in range(memory.bits)]

    def cycle(self, index: int, number: int) -> int:
        """The cycle in which the answer of a read is on `rdata`."""
        one, place = self.reads[number]
        visit = self.memory.words - 1 - index if one.goes_down else index
        return self.begin + one.first + visit * len(one.operations) + place + self.memory.latency

    def read_in(self, cycle: int) -> Tuple[Read, int]:
        """The read whose answer is on `rdata` in a cycle, and its number among those of its word."""
        at = cycle - self.begin - self.memory.latency
        one = self.passes[max(0, bisect.bisect_right(self.firsts, at) - 1)]
        visit, place = divmod(at - one.first, len(one.operations)) if one.operations else (-1, 0)
        if not 0 <= visit < self.memory.words or one.operations[place].is_write:
            # the same error as elsewhere for a cycle without a read
            read_of(self.elements, self.memory, cycle - self.begin)
            raise AssertionError(f"cycle {cycle} is a read of the one reading and none of the other")
        operation = one.operations[place]
        index = self.memory.words - 1 - visit if one.goes_down else visit
        word = self.held(one.background, operation.value) ^ self.memory.polarity
        return Read(one.background, one.element, place, index, word), operation.number

    def held(self, background: int, value: int) -> int:
        """What the cells of a word hold for a value of the march."""
        return self.memory.backgrounds[background] ^ ((1 << self.memory.bits) - 1 if value else 0)

    def pattern(self, bit: int) -> Tuple[int, ...]:
        """What a bit holds in each background for the value 0."""
        return self.patterns[bit]

    def expected(self, number: int) -> int:
        """What the cells of a word should hold in a read."""
        one, place = self.reads[number]
        return self.held(one.background, one.operations[place].value)


@dataclasses.dataclass
class Evidence:
    """The wrong reads of a log, by word and number. `last` is the last cycle whose read is known, if the log was
    full."""

    test: Test
    wrong: Dict[int, Wrong]
    last: int | None = None

    def known(self, index: int, predicted: Wrong) -> Wrong:
        """The part of a prediction that the log could show."""
        if self.last is None:
            return predicted
        return {number: bits for number, bits in predicted.items() if self.test.cycle(index, number) <= self.last}

    def is_known(self, index: int, number: int) -> bool:
        return self.last is None or self.test.cycle(index, number) <= self.last

    def agrees(self, index: int, predicted: Wrong) -> bool:
        """Whether the reads of a word are as predicted."""
        return self.known(index, predicted) == self.wrong.get(index, {})

    def cells(self) -> list[Tuple[int, int]]:
        """The wrong cells, as index and bit."""
        return sorted(
            {
                (index, bit)
                for index, reads in self.wrong.items()
                for word in set(reads.values())
                for bit in bits_of(word)
            }
        )

    def alone(self, cell: Tuple[int, int]) -> Evidence:
        """The same as if no other cell were wrong."""
        index, bit = cell
        reads = {number: word & 1 << bit for number, word in self.wrong[index].items() if word >> bit & 1}
        return Evidence(self.test, {index: reads}, self.last)


def bits_of(word: int) -> list[int]:
    """The bits of a word that are 1."""
    return [bit for bit in range(word.bit_length()) if word >> bit & 1]


def evidence_of(test: Test, entries: list[Entry], more: bool) -> Tuple[Evidence, list[Read]]:
    """What a log says, and the read of each entry."""
    wrong: Dict[int, Wrong] = {}
    reads = []
    for entry in entries:
        read, number = test.read_in(entry.cycle)
        reads.append(read)
        wrong.setdefault(read.index, {})[number] = entry.expected ^ entry.word
    return Evidence(test, wrong, entries[-1].cycle if more else None), reads
