"""Primitives of one and two cells that give the log of one wrong cell, by the definition that also replays escapes."""
from __future__ import annotations

import dataclasses
import functools
import itertools
from typing import FrozenSet, Iterator, Sequence, Tuple

from vidlakost_tools.diagnosis.candidate import Candidate, Log, Shape
from vidlakost_tools.diagnosis.evidence import Evidence, Pass, Test
from vidlakost_tools.texts.faults import Array, Primitive, read_primitive
from vidlakost_tools.texts.in_word import CONTENTS, Couple


@dataclasses.dataclass(frozen=True)
class Fault:
    """A primitive of a list, and its class."""

    text: str
    kind: str

    @functools.cached_property
    def primitive(self) -> Primitive:
        return read_primitive(self.text)


@dataclasses.dataclass(frozen=True)
class Aggressors:
    """Cells that act on a victim in the same way: their words, their bits, and their place in words."""

    indices: range
    bits: Tuple[int, ...]
    where: str

    @property
    def index(self) -> int:
        return self.indices[0]

    @property
    def bit(self) -> int:
        return self.bits[0]

    @property
    def count(self) -> int:
        return len(self.indices) * len(self.bits)


@dataclasses.dataclass(frozen=True)
class Instance:
    """A primitive at a victim, with one of its aggressors if it has some."""

    fault: Fault
    index: int
    bit: int
    aggressors: Aggressors | None = None

    @property
    def is_in_word(self) -> bool:
        return self.aggressors is not None and self.aggressors.index == self.index

    def contents(self) -> Sequence[str]:
        """What the cells may hold before the test, the aggressor's digit first."""
        return CONTENTS if self.aggressors else ("0", "1")

    def answers(self, test: Test, content: str) -> Iterator[Tuple[int, bool]]:
        """The reads of the victim by their numbers, and whether each is wrong."""
        return self.answers_in_word(test, content) if self.is_in_word else self.answers_apart(test, content)

    def answers_apart(self, test: Test, content: str) -> Iterator[Tuple[int, bool]]:
        """The same for one cell, or for two cells in two words. Visits to other words come between two visits to one
        word, unless an element ends with the word with which the next one begins."""
        places = {self.index: (len(content) - 1, test.pattern(self.bit))}
        if self.aggressors:
            places[self.aggressors.index] = (0, test.pattern(self.aggressors.bit))
        array = Array(self.fault.primitive, 0 if self.aggressors else None, len(content) - 1, content)
        array.close()
        last = -1
        for one in test.passes:
            if not one.operations:
                array.pause()
                last = -1
                continue
            for index in one.order(list(places)):
                if not (index == last and index == first_of(one, test)):
                    array.armed = False
                cell, pattern = places[index]
                for operation in one.operations:
                    value = operation.value ^ pattern[one.background]
                    answer, _ = array.operate(cell, f"{'w' if operation.is_write else 'r'}{value}")
                    if answer is not None and index == self.index:
                        yield operation.number, answer != value
            last = last_of(one, test)

    def answers_in_word(self, test: Test, content: str) -> Iterator[Tuple[int, bool]]:
        """The same for two bits of one word."""
        assert self.aggressors is not None
        couple = Couple(self.fault.primitive, content)
        couple.close()
        aggressor, victim = test.pattern(self.aggressors.bit), test.pattern(self.bit)
        for one in test.passes:
            if not one.operations:
                couple.close()
            for operation in one.operations:
                digits = [str(operation.value ^ pattern[one.background]) for pattern in (aggressor, victim)]
                answer, _ = couple.operate("".join(digits) if operation.is_write else None)
                if answer is not None:
                    yield operation.number, answer[1] != digits[1]

    def gives(self, evidence: Evidence, content: str) -> bool:
        """Whether the reads of the victim are those of the instance, from this content."""
        seen = evidence.wrong.get(self.index, {})
        return all(
            is_wrong == (number in seen) or not evidence.is_known(self.index, number)
            for number, is_wrong in self.answers(evidence.test, content)
        )

    def logs(self, test: Test) -> FrozenSet[Log]:
        """The logs that it may leave in a test, over all contents."""
        return frozenset(
            frozenset(
                (self.index, number, 1 << self.bit) for number, is_wrong in self.answers(test, content) if is_wrong
            )
            for content in self.contents()
        )

    def told(self) -> str:
        where = f", aggressor {self.aggressors.where}" if self.aggressors else ""
        return f"{self.fault.text} {self.fault.kind} at index {self.index} bit {self.bit}{where}"


def first_of(one: Pass, test: Test) -> int:
    """The word with which a pass begins."""
    return test.memory.words - 1 if one.goes_down else 0


def last_of(one: Pass, test: Test) -> int:
    return 0 if one.goes_down else test.memory.words - 1


def numbered(bits: Sequence[int]) -> str:
    """Some bits in words. A run of three or more shows as its first and last."""
    if len(bits) > 2 and list(bits) == list(range(bits[0], bits[-1] + 1)):
        return f"bits {bits[0]} to {bits[-1]}"
    return f"bit{'s' if len(bits) > 1 else ''} {' '.join(map(str, bits))}"


def alike(test: Test, bits: Sequence[int]) -> list[list[int]]:
    """Groups of bits that hold the same in all backgrounds."""
    found: dict[Tuple[int, ...], list[int]] = {}
    for bit in bits:
        found.setdefault(test.pattern(bit), []).append(bit)
    return list(found.values())


def sides(index: int, words: int, is_dynamic: bool) -> Iterator[Tuple[range, str]]:
    """The other words of a victim by their side, with that side in words. If two operations count, the first and the
    last word of the memory are apart, since two elements meet there."""
    parts = [(0, index, "below"), (index + 1, words, "above")]
    if is_dynamic:
        parts = [(0, 1, ""), (1, index, "below"), (index + 1, words - 1, "above"), (words - 1, words, "")]
        parts = [part for part in parts if part[:2] != (index, index + 1)]
    for low, high, side in parts:
        if low < high:
            one = high == low + 1
            yield range(low, high), f"index {low}" if one else f"at any index {side}, {low} to {high - 1}"


def aggressors_of(test: Test, index: int, bit: int, primitive: Primitive) -> Iterator[Aggressors]:
    """The aggressors of a victim, by their side and by what their bit holds."""
    memory, is_dynamic = test.memory, len(primitive.operations) > 1
    for indices, where in sides(index, memory.words, is_dynamic):
        for bits in alike(test, range(memory.bits)):
            yield Aggressors(indices, tuple(bits), f"{where}, {numbered(bits)}")
    if not is_dynamic and "t" not in primitive.operations:
        for bits in alike(test, [one for one in range(memory.bits) if one != bit]):
            yield Aggressors(range(index, index + 1), tuple(bits), f"in the same word, {numbered(bits)}")


def instances(fault: Fault, test: Test, index: int, bit: int) -> Iterator[Instance]:
    """The ways in which a primitive may have this victim."""
    primitive = fault.primitive
    if primitive.aggressor is None:
        yield Instance(fault, index, bit)
        return
    for aggressors in aggressors_of(test, index, bit, primitive):
        yield Instance(fault, index, bit, aggressors)


def candidates(evidence: Evidence, faults: Sequence[Fault]) -> Iterator[Candidate]:
    """The primitives that give the log of a single wrong cell."""
    cells = evidence.cells()
    if len(cells) != 1:
        return
    (index, bit), test = cells[0], evidence.test
    for one in itertools.chain.from_iterable(instances(fault, test, index, bit) for fault in faults):
        contents = one.contents()
        count = sum(one.gives(evidence, content) for content in contents)
        if count:
            shape, others = Shape.TWO_CELLS if one.aggressors else Shape.CELL, one.aggressors
            yield Candidate(shape, one.told(), others.count if others else 1, count / len(contents), one.logs, one)
