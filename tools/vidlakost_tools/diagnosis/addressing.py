"""Words and rows that reach others than their own: address bits that are open, stuck or bridged, and faults of the
decoder at one word or one row."""
from __future__ import annotations

import dataclasses
import itertools
from typing import Callable, Dict, FrozenSet, Iterator, List, Sequence, Tuple

from vidlakost_tools.diagnosis.candidate import Candidate, Log, Shape
from vidlakost_tools.diagnosis.evidence import Evidence, Test, Wrong

# for each word of a group, the words that it reaches
Reach = Dict[int, Tuple[int, ...]]
# from the values of some address bits to the values that then reach the array
Bits = Tuple[int, ...]
Way = Callable[[Bits], List[Bits]]


class Groups:
    """What a test finds in a group of words that reach each other, each kind of group once: only the order of the words
    in the array counts. Two words that are read at once give the and or the or of both. If no word is reached, the
    answer is a constant."""

    def __init__(self, test: Test):
        self.test = test
        self.known: Dict[Tuple[object, ...], List[Wrong]] = {}

    def found(self, reach: Reach, rule: str) -> Dict[int, Wrong]:
        """The wrong reads of each word of a group."""
        members = sorted({*reach, *itertools.chain.from_iterable(reach.values())})
        rank = {index: number for number, index in enumerate(members)}
        # a word that is not named reaches itself
        ways = tuple(tuple(rank[other] for other in reach.get(index, (index,))) for index in members)
        key = (ways, rule)
        if key not in self.known:
            self.known[key] = self.run(ways, rule)
        return dict(zip(members, self.known[key]))

    def run(self, ways: Tuple[Tuple[int, ...], ...], rule: str) -> List[Wrong]:
        """The same for words by their places in the group."""
        cells = [0] * len(ways)
        wrong: List[Wrong] = [{} for _ in ways]
        for one in self.test.passes:
            for rank in one.order(range(len(ways))):
                for operation in one.operations:
                    held = self.test.held(one.background, operation.value)
                    if operation.is_write:
                        for other in ways[rank]:
                            cells[other] = held
                        continue
                    difference = held ^ self.answer([cells[other] for other in ways[rank]], rule)
                    if difference:
                        wrong[rank][operation.number] = difference
        return wrong

    def answer(self, words: Sequence[int], rule: str) -> int:
        ones = (1 << self.test.memory.bits) - 1
        if not words:
            constant = ones if "1" in rule else 0
            return constant ^ (self.test.memory.polarity if "port" in rule else 0)
        found = words[0]
        for word in words[1:]:
            found = found | word if rule == "or" else found & word
        return found


def silent_rules(test: Test) -> list[str]:
    """What a read may answer when it reaches no word."""
    mixed = test.memory.polarity not in (0, (1 << test.memory.bits) - 1)
    return ["0", "1", *(["0 at the port", "1 at the port"] if mixed else [])]


# ---- bits of the address


@dataclasses.dataclass(frozen=True)
class AddressLine:
    """A bit of the address or of the physical index: the index bits whose exclusive or it is, with a constant, and the
    index bits that change with it."""

    name: str
    mask: int
    constant: int
    turns: int

    def value(self, index: int) -> int:
        return (bin(index & self.mask).count("1") + self.constant) & 1


def address_lines(test: Test) -> list[list[AddressLine]]:
    """The bits of the address, and those of the index if they differ."""
    memory = test.memory
    back = memory.way_back()
    found = []
    for bit in range(memory.width):
        terms, constant = memory.row(bit)
        turns = sum(1 << place for place, (bits, _) in enumerate(back) if bit in bits)
        found.append(AddressLine(f"address bit {bit}", sum(1 << term for term in terms), constant, turns))
    inner = [AddressLine(f"index bit {bit}", 1 << bit, 0, 1 << bit) for bit in range(memory.width)]
    same = {(line.mask, line.constant, line.turns) for line in found} == {
        (line.mask, line.constant, line.turns) for line in inner
    }
    return [found] if same else [found, inner]


@dataclasses.dataclass(frozen=True)
class AddressFault:
    """A fault of one or two bits of the address."""

    lines: Tuple[AddressLine, ...]
    name: str
    way: Way
    rule: str

    def group(self, index: int, test: Test) -> Reach:
        """The words that have the same other bits as a word, and what each of them reaches."""
        members = {index}
        for line in self.lines:
            members |= {member ^ line.turns for member in members}
        reach: Reach = {}
        for member in (one for one in members if one < test.memory.words):
            values = tuple(line.value(member) for line in self.lines)
            reached = []
            for wanted in self.way(values):
                other = member
                for line, old, new in zip(self.lines, values, wanted):
                    other ^= line.turns if old != new else 0
                reached += [other] if other < test.memory.words else []
            reach[member] = tuple(reached)
        return reach

    def told(self) -> str:
        bits = " and ".join(line.name for line in self.lines)
        return f"{bits} {self.name}"


def fix(value: int) -> Way:
    return lambda bits: [(value,)]


def lost(value: int) -> Way:
    """The decoder line for one value of a bit selects nothing."""
    return lambda bits: [] if bits[0] == value else [bits]


def address_faults(test: Test) -> Iterator[AddressFault]:
    """All faults of one bit, then those of two."""
    silent = silent_rules(test)
    outside = silent if test.memory.words & test.memory.words - 1 else ["and"]
    bridges: list[Tuple[str, Way]] = [
        ("bridged, both as wired-AND", lambda bits: [(bits[0] & bits[1],) * 2]),
        ("bridged, both as wired-OR", lambda bits: [(bits[0] | bits[1],) * 2]),
        ("bridged, both as the first", lambda bits: [(bits[0],) * 2]),
        ("bridged, both as the second", lambda bits: [(bits[1],) * 2]),
    ]
    for lines in address_lines(test):
        for line in lines:
            for value in (0, 1):
                for rule in outside:
                    yield AddressFault((line,), f"open or stuck at {value}", fix(value), rule)
                for rule in silent:
                    yield AddressFault((line,), f"selects nothing at {value}, which reads {rule}", lost(value), rule)
            for rule in ("and", "or"):
                yield AddressFault(
                    (line,), f"selects for both values, read as wired-{rule.upper()}", lambda bits: [(0,), (1,)], rule
                )
        for pair in itertools.combinations(lines, 2):
            for name, way in bridges:
                for rule in outside:
                    yield AddressFault(pair, name, way, rule)


def agree(evidence: Evidence, groups: Groups, reach: Reach, rule: str) -> bool:
    return all(evidence.agrees(index, wrong) for index, wrong in groups.found(reach, rule).items())


def gives(evidence: Evidence, groups: Groups, fault: AddressFault, probes: Sequence[int]) -> bool:
    """Whether a fault gives the log; it looks at some wrong words before it looks at all."""
    test = evidence.test
    if not all(agree(evidence, groups, fault.group(index, test), fault.rule) for index in probes):
        return False
    seen: set[int] = set()
    for index in range(test.memory.words):
        if index not in seen:
            reach = fault.group(index, test)
            seen.update(reach)
            if not agree(evidence, groups, reach, fault.rule):
                return False
    return True


def of_address(evidence: Evidence, groups: Groups) -> Iterator[Candidate]:
    wrong = list(evidence.wrong)
    probes = wrong[:: max(1, len(wrong) // 8)]
    for fault in address_faults(evidence.test):
        if gives(evidence, groups, fault, probes):
            yield Candidate(Shape.ADDRESS_BIT, fault.told(), 1, 1.0, few_logs(fault, wrong[0]), fault)


def few_logs(fault: AddressFault, index: int) -> Callable[[Test], FrozenSet[Log]]:
    """What a fault leaves at the words that have the same other bits as this one."""

    def logs(test: Test) -> FrozenSet[Log]:
        return frozenset([log_of(Groups(test).found(fault.group(index, test), fault.rule))])

    return logs


def log_of(found: Dict[int, Wrong]) -> Log:
    return frozenset((index, number, bits) for index, reads in found.items() for number, bits in reads.items())


# ---- the decoder at one word or one row


# what a word or a row reaches instead of its own or beside it, and what a read of two at once answers
KINDS = (
    ("other", "reaches {y} instead", "and"),
    ("both", "reaches {y} too, read as wired-AND", "and"),
    ("both", "reaches {y} too, read as wired-OR", "or"),
)


@dataclasses.dataclass(frozen=True)
class Unit:
    """A word, or a row of them: what it is called, and how many words it has."""

    name: str
    size: int

    def reach(self, x: int, y: int, kind: str, words: int) -> Iterator[Reach]:
        """What each word of a unit reaches if the unit x reaches y."""
        for place in range(self.size):
            one, other = x * self.size + place, y * self.size + place
            if max(one, other) < words:
                yield {one: (other,) if kind == "other" else (one, other), other: (other,)}


@dataclasses.dataclass(frozen=True)
class Misled:
    """One of the units `x` reaches one of the units `y`."""

    unit: Unit
    x: range
    y: range
    kind: str
    rule: str


def partners(evidence: Evidence, unit: Unit, x: int, seen: Sequence[int]) -> Iterator[range]:
    """The units that may be the partner of a wrong one: the other wrong one, or all on one side. Only the side counts,
    unless the log was full."""
    if len(seen) == 2:
        other = seen[0] + seen[1] - x
        yield range(other, other + 1)
        return
    for side in (range(0, x), range(x + 1, evidence.test.memory.words // unit.size)):
        if evidence.last is None:
            yield from [side] if side else []
        else:
            yield from (range(one, one + 1) for one in side)


def of_units(evidence: Evidence, groups: Groups, unit: Unit) -> Iterator[Candidate]:
    """The faults of the decoder at a word or a row that give the log. If the log doesn't show the partner, it may be
    any on its side."""
    seen, words = sorted({index // unit.size for index in evidence.wrong}), evidence.test.memory.words
    if len(seen) > 2:
        return
    for one, (kind, text, rule) in itertools.product(seen, KINDS):
        for others in partners(evidence, unit, one, seen):
            # of two wrong units, each takes its turn as the first
            for x, y in [(one, others[0])] if len(seen) == 2 else [(one, others[0]), (others[0], one)]:
                ways = list(unit.reach(x, y, kind, words))
                if all(agree(evidence, groups, reach, rule) for reach in ways):
                    names = {one: f"{unit.name} {one}", others[0]: span(unit, others)}
                    what = f"{names[x]} {text.format(y=names[y])}"
                    itself = range(one, one + 1)
                    part = Misled(unit, itself if x == one else others, others if x == one else itself, kind, rule)
                    yield Candidate(Shape.DECODER, what, len(others), 1.0, unit_logs(ways, rule), part)


def span(unit: Unit, others: range) -> str:
    return f"{unit.name} {others[0]}" if len(others) == 1 else f"some {unit.name} of {others[0]} to {others[-1]}"


def unit_logs(ways: Sequence[Reach], rule: str) -> Callable[[Test], FrozenSet[Log]]:
    def logs(test: Test) -> FrozenSet[Log]:
        groups = Groups(test)
        return frozenset([frozenset().union(*(log_of(groups.found(reach, rule)) for reach in ways))])

    return logs


def candidates(evidence: Evidence, mux: int) -> Iterator[Candidate]:
    """The faults of addresses and of the decoder that give the log."""
    groups = Groups(evidence.test)
    yield from of_address(evidence, groups)
    yield from of_units(evidence, groups, Unit("word", 1))
    if mux > 1:
        yield from of_units(evidence, groups, Unit("row", mux))
