"""A module's gates in two halves. The registers that no word on `rdata` reaches have the same values in every history.
They stand in groups, by their names, and each value of a group has a number: what a group becomes is looked up by the
numbers of the groups that it hangs on, so what has not changed is not computed again. The other registers are run in
lanes. A bit that is the same in every lane is 0, or -1, which is a 1 in each lane however many there are."""
from __future__ import annotations

import dataclasses
import operator
from typing import Any, Callable, Dict, Hashable, List, Sequence, Tuple

from vidlakost_tools.audit.gates import Machine

# a bit in lanes: those in which it is 1, and those in which it is 0
Pair = Tuple[int, int]
Pairs = Tuple[Pair, ...]
# so many values and answers are kept, of which each may have many bits
KEPT = 1 << 19
# so many gates stand in the functions of all groups at most; the registers of a larger module are one group
GATES = 200_000
# the group `reset`, and its pairs by its numbers
RESET = 0
IS_RESET: List[Pairs] = [((0, -1),), ((-1, 0),)]


@dataclasses.dataclass
class State:
    """The numbers of the groups, `reset` among them; the other registers in lanes; how often numbers were forgotten."""

    numbers: list[int]
    own: list[Pair]
    era: int = 0


class Groups:
    """The groups, with the values that each of them has had."""

    def __init__(self, reset: Any, registers: list[list[Any]]):
        self.bits = [[reset], *registers]
        self.values: list[list[Pairs]] = [list(IS_RESET), *([((0, 0),) * len(group)] for group in registers)]
        self.numbers: list[Dict[Pairs, int]] = [{value: at for at, value in enumerate(had)} for had in self.values]
        self.count = self.era = 0

    def number(self, group: int, value: Pairs) -> int:
        """The number of a value, which is new where the group has not had it."""
        numbers = self.numbers[group]
        if value not in numbers:
            numbers[value] = len(numbers)
            self.values[group].append(value)
            self.count += len(value)
        return numbers[value]

    def forget(self, numbers: list[int]) -> None:
        """Forgets all values but those that these numbers have, which become 0."""
        for group in range(1, len(self.bits)):
            kept = self.values[group][numbers[group]]
            self.values[group][:], self.numbers[group], numbers[group] = [kept], {kept: 0}, 0
        self.count, self.era = 0, self.era + 1


def taken(of: Sequence[int]) -> Callable[[list[int]], Any]:
    """A function to the numbers of some groups."""
    if of:
        return operator.itemgetter(*of)
    return lambda numbers: ()


class Table:
    """What some bits are, looked up by the numbers of the groups on which they hang, and by the name of the word on
    `rdata` where they hang on that too."""

    def __init__(self, machine: Machine, groups: Groups, bits: Sequence[Any], of: Sequence[int], is_of_word: bool):
        self.groups, self.bits, self.of, self.is_of_word = groups, list(bits), list(of), is_of_word
        inputs = [bit for group in self.of for bit in groups.bits[group]]
        self.function, self.gates = machine.function([*inputs, *(machine.words if is_of_word else ())], self.bits)
        self.key = taken(of)
        self.most = KEPT // (8 + len(self.bits))
        self.kept: Dict[Hashable, Any] = {}

    def made(self, numbers: list[int], words: Sequence[Pair]) -> Any:
        pairs = [pair for group in self.of for pair in self.groups.values[group][numbers[group]]]
        return self.function([*pairs, *words] if self.is_of_word else pairs)

    def at(self, numbers: list[int], words: Sequence[Pair], name: Hashable) -> Any:
        key = (self.key(numbers), name) if self.is_of_word else self.key(numbers)
        return self.kept.get(key) or self.new(key, numbers, words)

    def new(self, key: Hashable, numbers: list[int], words: Sequence[Pair] = ()) -> Any:
        """What is not known yet."""
        if len(self.kept) >= self.most:
            self.kept.clear()
        found = self.kept[key] = self.made(numbers, words)
        return found


class Next(Table):
    """The number of what a group becomes."""

    def __init__(self, machine: Machine, groups: Groups, group: int, of: Sequence[int]):
        super().__init__(machine, groups, [machine.after(bit) for bit in groups.bits[group]], of, False)
        self.group = group

    def made(self, numbers: list[int], words: Sequence[Pair]) -> int:
        return self.groups.number(self.group, super().made(numbers, words))


class Halves:
    """Both halves of a machine. Where all words on `rdata` are open, all registers are of the first one."""

    def __init__(self, machine: Machine, is_open: bool = False):
        self.machine = machine
        sources = [*machine.registers, *machine.inputs]
        self.place = {bit: 1 << at for at, bit in enumerate(sources)}
        self.words = 0 if is_open else sum(self.place[bit] for bit in machine.words)
        self.reach = reach_of(machine, self.place)
        self.own = self.reached()
        shared = [bit for bit in machine.registers if bit not in set(self.own)]
        self.group(grouped(machine, shared))
        if sum(table.gates for table in self.next) > GATES:
            self.group([shared])
        self.between = self.tables()
        between = [bit for table in self.between for bit in table.bits]
        after = [machine.after(bit) for bit in self.own]
        self.lanes, _ = machine.function([*self.own, *between], [*after, *machine.results])

    def reached(self) -> list[Any]:
        """The registers that a word on `rdata` reaches, in some cycles."""
        found: list[Any] = []
        mask, left = self.words, list(self.machine.registers)
        while True:
            more = [bit for bit in left if self.reach.get(self.machine.after(bit), 0) & mask]
            if not more:
                return found
            found += more
            mask |= sum(self.place[bit] for bit in more)
            left = [bit for bit in left if not self.place[bit] & mask]

    def group(self, registers: list[list[Any]]) -> None:
        """Puts the registers of the first half into groups."""
        self.groups = Groups(self.machine.inputs[-1], registers)
        self.next = [
            Next(self.machine, self.groups, at, self.of(self.machine.after(bit) for bit in group))
            for at, group in enumerate(registers, 1)
        ]

    def of(self, bits: Any) -> tuple[int, ...]:
        """The groups on which some bits hang in a cycle."""
        mask = 0
        for bit in bits:
            mask |= self.reach.get(bit, 0)
        return tuple(
            at for at, group in enumerate(self.groups.bits) if any(self.place[bit] & mask for bit in group)
        )

    def tables(self) -> list[Table]:
        """What the second half takes from the first one and from the words, by what it hangs on."""
        own = sum(self.place[bit] for bit in self.own)
        todo, seen = [*map(self.machine.after, self.own), *self.machine.results], set()
        found: dict[tuple[tuple[int, ...], bool], list[Any]] = {}
        while todo:
            bit = todo.pop()
            if bit in seen or bit not in self.reach:
                continue
            seen.add(bit)
            if not self.reach[bit] & own:
                found.setdefault((self.of([bit]), bool(self.reach[bit] & self.words)), []).append(bit)
            elif bit not in self.place:
                todo += self.machine.operands(self.machine.driver[bit])
        return [Table(self.machine, self.groups, bits, of, is_of) for (of, is_of), bits in found.items()]

    def start(self) -> State:
        """All registers are open."""
        return State([0] * len(self.groups.bits), [(0, 0)] * len(self.own))

    def step(
        self, state: State, words: Sequence[Pair], is_reset: bool, name: Hashable = None
    ) -> tuple[State, list[Pair]]:
        """The state behind a cycle, and what the ports are in it. Two words of one name have to be the same."""
        numbers = [int(is_reset), *state.numbers[1:]]
        if self.groups.count > KEPT:
            self.groups.forget(numbers)
            for table in (*self.next, *self.between):
                table.kept.clear()
        given = list(state.own)
        for table in self.between:
            given += table.at(numbers, words, name)
        told = self.lanes(given)
        after = [RESET]
        for table in self.next:
            key = table.key(numbers)
            number = table.kept.get(key)
            after.append(table.new(key, numbers) if number is None else number)
        return State(after, told[: len(self.own)], self.groups.era), told[len(self.own) :]


def reach_of(machine: Machine, place: dict[Any, int]) -> dict[Any, int]:
    """Of each bit the registers and inputs that reach it within a cycle."""
    found = dict(place)
    for bit in machine.order:
        mask = 0
        for operand in machine.operands(machine.driver[bit]):
            mask |= found.get(operand, 0)
        found[bit] = mask
    return found


def grouped(machine: Machine, registers: list[Any]) -> list[list[Any]]:
    """Registers by their names; one without a name is a group by itself."""
    found: dict[Any, list[Any]] = {}
    names = machine.names()
    for bit in registers:
        found.setdefault(names[bit][0] if bit in names else bit, []).append(bit)
    return list(found.values())
