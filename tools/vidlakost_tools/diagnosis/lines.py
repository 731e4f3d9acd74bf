"""Cells and bits that read as one value: a word, a column, a row, a part of these, a bit of the data, or all."""
from __future__ import annotations

import dataclasses
from typing import Callable, FrozenSet, Iterator, Sequence, Tuple

from vidlakost_tools.diagnosis.candidate import Candidate, Log, Shape
from vidlakost_tools.diagnosis.evidence import Evidence, Test, Wrong, bits_of


@dataclasses.dataclass(frozen=True)
class Line:
    """Some bits of some words: `mask` gives the bits of a word that belong to the line."""

    shape: Shape
    name: str
    indices: Sequence[int]
    mask: Callable[[int], int]


@dataclasses.dataclass(frozen=True)
class Reading:
    """What a line reads as: from the word that the cells hold to the word that is read."""

    name: str
    read: Callable[[int], int]


def wrong_of(test: Test, mask: int, reading: Reading) -> Wrong:
    """The wrong reads of a word, if these of its bits read so."""
    found = {}
    for number in range(len(test.reads)):
        held = test.expected(number)
        bits = (held ^ reading.read(held)) & mask
        if bits:
            found[number] = bits
    return found


def constant(word: int) -> Callable[[int], int]:
    return lambda held: word


def constants(test: Test, mask: int) -> list[Reading]:
    """All bits of a line at 0 or at 1: as the cells hold them and, if that differs, as the port has them."""
    ones, polarity = (1 << test.memory.bits) - 1, test.memory.polarity
    where = " in the cells" if polarity & mask else ""
    found = [Reading(f"stuck at {value}{where}", constant(value * ones)) for value in (0, 1)]
    if polarity & mask not in (0, mask):
        found += [Reading(f"stuck at {value} at the port", constant(value * ones ^ polarity)) for value in (0, 1)]
    return found


def bridged(first: int, second: int) -> list[Reading]:
    """Two data bits that read as the and or the or of both, or one of them as the other."""
    pair = 1 << first | 1 << second

    def both(held: int) -> int:
        return held if held & pair == pair else held & ~pair

    def either(held: int) -> int:
        return held | pair if held & pair else held

    def follows(follower: int, leader: int) -> Callable[[int], int]:
        return lambda held: held & ~(1 << follower) | (held >> leader & 1) << follower

    return [
        Reading("bridged, read as wired-AND", both),
        Reading("bridged, read as wired-OR", either),
        Reading(f"bridged, bit {first} read as bit {second}", follows(first, second)),
        Reading(f"bridged, bit {second} read as bit {first}", follows(second, first)),
    ]


def fits(evidence: Evidence, line: Line, reading: Reading) -> bool:
    """Whether a line that reads so gives exactly the log."""
    made: dict[int, Wrong] = {}
    count = 0
    for index in line.indices:
        mask = line.mask(index)
        if mask not in made:
            made[mask] = wrong_of(evidence.test, mask, reading)
        if not evidence.agrees(index, made[mask]):
            return False
        count += index in evidence.wrong
    return count == len(evidence.wrong) and count > 0


def told_line(line: Line, reading: Reading) -> Candidate:
    def logs(test: Test) -> FrozenSet[Log]:
        few = list(line.indices[:8])
        found = (
            (index, number, bits) for index in few for number, bits in wrong_of(test, line.mask(index), reading).items()
        )
        return frozenset([frozenset(found)])

    return Candidate(line.shape, f"{line.name} {reading.name}", 1, 1.0, logs, line)


# ---- which lines there are


def columns(evidence: Evidence, mux: int) -> Iterator[Line]:
    """The column, if all cells of the log are in one; and its parts from the first wrong cell on, or up to the last."""
    words, some = evidence.test.memory.words, next(iter(evidence.wrong))
    first = bits_of(next(iter(evidence.wrong[some].values())))[0]
    if any(index % mux != some % mux for index in evidence.wrong):
        return
    whole = list(range(some % mux, words, mux))
    name = f"column {first * mux + some % mux}"
    yield Line(Shape.COLUMN, name, whole, constant(1 << first))
    low, high = min(evidence.wrong), max(evidence.wrong)
    for part, text in (
        ([index for index in whole if index >= low], f"from row {low // mux} on"),
        ([index for index in whole if index <= high], f"up to row {high // mux}"),
    ):
        if 1 < len(part) < len(whole):
            yield Line(Shape.BIT_LINE, f"bit line of {name}, open, {text}", part, constant(1 << first))


def row_parts(evidence: Evidence, mux: int) -> Iterator[Line]:
    """The row, if all cells of the log are in one; its parts by the numbers of the columns; and the word."""
    memory, row = evidence.test.memory, next(iter(evidence.wrong)) // mux
    if any(index // mux != row for index in evidence.wrong):
        return
    indices, ones = list(range(row * mux, min(memory.words, row * mux + mux))), (1 << memory.bits) - 1
    if mux > 1:
        yield Line(Shape.ROW, f"row {row}", indices, constant(ones))
    if len(evidence.wrong) == 1:
        one = next(iter(evidence.wrong))
        yield Line(Shape.WORD, f"all of the word at index {one}", [one], constant(ones))
    places = [bit * mux + index % mux for index, bit in evidence.cells()]
    low, high = min(places), max(places)

    def within(first: int, last: int) -> Callable[[int], int]:
        return lambda index: sum(1 << bit for bit in range(memory.bits) if first <= bit * mux + index % mux <= last)

    end = memory.bits * mux - 1
    for first, last in ((low, end), (0, high)):
        if 0 < last - first < end:
            text = f"from column {low} on" if last == end else f"up to column {high}"
            yield Line(Shape.WORD_LINE, f"word line of row {row}, open, {text}", indices, within(first, last))


def of_port(evidence: Evidence) -> Iterator[Tuple[Line, Reading]]:
    """Data bits in all words, and all of them together."""
    test, indices = evidence.test, range(evidence.test.memory.words)
    seen = 0
    for reads in evidence.wrong.values():
        for word in reads.values():
            seen |= word
    bits, ones = bits_of(seen), (1 << test.memory.bits) - 1
    if len(bits) == 1:
        one = Line(Shape.DATA_BIT, f"data bit {bits[0]}", indices, constant(seen))
        yield from ((one, reading) for reading in constants(test, seen))
    others = [bit for bit in range(test.memory.bits) if bit not in bits] if len(bits) == 1 else bits[1:]
    for other in others if len(bits) <= 2 else []:
        pair = (min(bits[0], other), max(bits[0], other))
        two = Line(Shape.DATA_BIT, f"data bits {pair[0]} and {pair[1]}", indices, constant(1 << pair[0] | 1 << pair[1]))
        yield from ((two, reading) for reading in bridged(*pair))
    everything = Line(Shape.MEMORY, "all words", indices, constant(ones))
    yield from ((everything, reading) for reading in constants(test, ones))


def candidates(evidence: Evidence, mux: int) -> Iterator[Candidate]:
    """The lines of the array and of the port that give the log."""
    bits = {bit for reads in evidence.wrong.values() for word in reads.values() for bit in bits_of(word)}
    found = [*(columns(evidence, mux) if len(bits) == 1 else ()), *row_parts(evidence, mux)]
    pairs = [(line, reading) for line in found for reading in constants(evidence.test, union(line))]
    for line, reading in [*pairs, *of_port(evidence)]:
        if fits(evidence, line, reading):
            yield told_line(line, reading)


def union(line: Line) -> int:
    """The bits of a line's words."""
    mask = 0
    for index in {line.mask(index): index for index in line.indices}.values():
        mask |= line.mask(index)
    return mask
