"""What survives a march: all instances at once, each a bit of an integer.

Only the victim can be wrong. So an instance is in one of two states, or of four if it can wait for the second of two
operations. A march may begin with any content, so an instance can be in several states. It is covered when none is
left."""
from __future__ import annotations

import dataclasses
import itertools
from typing import Callable, Dict, List, Sequence, Tuple

from vidlakost_tools.design.instances import READ, DecoderInstance, Instance, left_by
from vidlakost_tools.texts.march import Element

Operations = Tuple[str, ...]
# the instances whose victim may hold the right bit, those whose victim may hold the other bit, and the same for those
# that wait
State = Tuple[int, int, int, int]
# for each of these states, what is left in which state
Table = Tuple[State, State, State, State]
# by what the victim may hold, and the same for those that wait
Held = List[int]
BITS = (0, 1)


class LinkMasks:
    """The first or the second primitives of all instances."""

    def __init__(self, instances: Sequence[Instance], number: int, cells: int):
        def mask(test: Callable[[Instance], object]) -> int:
            chosen = (len(it.links) > number and test(it) for it in instances)
            return sum(1 << place for place, is_chosen in enumerate(chosen) if is_chosen)

        def acting(cell: int, operation: str, place: int, count: int) -> int:
            return mask(
                lambda it: it.links[number].cell(it.victim) == cell
                and len(it.links[number].acts) == count
                and it.links[number].acts[place] == operation
            )

        self.state = [mask(lambda it: it.links[number].primitive.victim.state == bit) for bit in BITS]
        self.wants = [mask(lambda it: (it.links[number].primitive.aggressor or NO_SENSE).state == bit) for bit in BITS]
        self.alone = mask(lambda it: it.links[number].aggressor is None)
        self.at = [mask(lambda it: it.links[number].aggressor == cell) for cell in range(cells)]
        self.acts, self.first, self.second = (
            [
                {operation: acting(cell, operation, place, count) for operation in ("w0", "w1", READ)}
                for cell in range(cells)
            ]
            for place, count in ((0, 1), (0, 2), (1, 2))
        )
        self.leaves = [mask(lambda it: it.links[number].primitive.after == bit) for bit in BITS]
        self.answers = [mask(lambda it: it.links[number].primitive.answer in (None, bit)) for bit in BITS]
        self.plainly = [
            mask(
                lambda it: len(it.links[number].acts) == 2
                and (it.links[number].acts_on_aggressor or it.links[number].leaves == bit)
            )
            for bit in BITS
        ]
        self.closing = mask(lambda it: not it.links[number].acts)
        pausing = mask(lambda it: it.links[number].acts == ["t"])
        self.pausing = [pausing & state for state in self.state]
        self.visited = [[self.union(self.at[:cell]), self.union(self.at[cell + 1 :])] for cell in range(cells)]
        self.known: Dict[Tuple[int, bool, int, int, int], int] = {}

    @staticmethod
    def union(masks: Sequence[int]) -> int:
        made = 0
        for it in masks:
            made |= it
        return made

    def fits(self, cell: int, down: bool, before: int, current: int, end: int) -> int:
        """The instances whose aggressor has the wanted state, while the march visits a cell that holds `current`. The
        cells that were visited hold `end`, and the others what they held before."""
        key = (cell, down, before, current, end)
        if key not in self.known:
            visited = self.visited[cell][down]
            rest = self.union(self.at) & ~visited & ~self.at[cell]
            self.known[key] = (
                self.alone | self.at[cell] & self.wants[current] | visited & self.wants[end] | rest & self.wants[before]
            )
        return self.known[key]


@dataclasses.dataclass
class NoSense:
    """What replaces the state of an aggressor if there is none."""

    state: int = 2


NO_SENSE = NoSense()


class Survivors:
    """The instances of a search."""

    def __init__(self, instances: Sequence[Instance], decoder: Sequence[DecoderInstance] = ()):
        self.instances, self.decoder = instances, decoder
        count = len(instances)
        self.everyone = (1 << count) - 1
        self.names = [it.name for it in instances] + [it.name for it in decoder]
        self.extra = (1 << count + len(decoder)) - 1 & ~self.everyone
        cells = 1 + max((max(it.victim, *(link.aggressor or 0 for link in it.links)) for it in instances), default=0)
        self.cells = range(cells)
        number = max((len(it.links) for it in instances), default=1)
        self.links = [LinkMasks(instances, link, cells) for link in range(number)]
        self.waits = any(self.links[0].plainly)
        self.pauses = sum(1 for mask in self.links[0].pausing if mask)
        self.victim_at = [self.mask(lambda it: it.victim == cell) for cell in self.cells]
        self.touched = [
            LinkMasks.union([at, *(link.at[cell] for link in self.links)]) for cell, at in enumerate(self.victim_at)
        ]
        # those whose two aggressors may hold different bits
        self.apart = self.mask(lambda it: len({link.aggressor for link in it.links} | {None}) != 2)
        self.below, self.above = self.mask(lambda it: it.below), self.mask(lambda it: it.above)
        self.tables: Dict[Tuple[Operations, bool, int], Table] = {}
        # whether the complement of each primitive is an instance too; that of each link and wrong decoder always is
        alone = {it.name for it in instances if len(it.links) == 1}
        self.is_symmetric = all(complement(name) in alone for name in alone)

    def mask(self, test: Callable[[Instance], bool]) -> int:
        return sum(1 << place for place, it in enumerate(self.instances) if test(it))

    # ---- a visit of a cell

    def closed(self, held: Held, fits: int, where: int) -> None:
        """Lets the primitives without operations act."""
        link = self.links[0]
        for bit in BITS:
            acts = held[bit] & where & link.closing & fits & link.state[bit]
            if acts:
                held[bit] &= ~acts
                held[1 - bit] |= acts

    def operated(self, held: Held, cell: int, operation: str, fits: Sequence[int], due: int) -> Held:
        """What is left after an operation on a cell, before primitives without operations act."""
        touched, victims = self.touched[cell], self.victim_at[cell]
        behind = [it & ~touched for it in held]
        for place in range(4 if self.waits else 2):
            plain = held[place] & touched
            if not plain:
                continue
            bit = place & 1
            left = []
            for link, fit in zip(self.links, fits):
                acting = plain & link.acts[cell][operation] & fit & link.state[bit]
                if place > 1:
                    acting |= plain & link.second[cell][operation]
                plain &= ~acting
                if acting and operation == READ:
                    acting &= ~victims | link.answers[due]
                left += [(after, acting & link.leaves[after]) for after in BITS if acting]
            if operation == READ and bit != due:
                plain &= ~victims
            left += [(bit if operation == READ else int(operation[1]), plain & victims), (bit, plain & ~victims)]
            begins = self.links[0].first[cell][operation] & fits[0] & self.links[0].state[bit]
            for after, some in left:
                waiting = some & begins & self.links[0].plainly[after]
                behind[after + 2] |= waiting
                behind[after] |= some & ~waiting
        return behind

    def visited(
        self, held: Held, cell: int, down: bool, operations: Operations, before: Sequence[int], end: int
    ) -> Held:
        """What is left after the operations on a cell; `before` is what the aggressors hold that no visit has
        reached."""
        current = before
        for operation in operations:
            fits = [link.fits(cell, down, was, now, end) for link, was, now in zip(self.links, before, current)]
            held = self.operated(held, cell, operation, fits, current[0])
            if operation != READ:
                current = [int(operation[1])] * len(self.links)
            self.closed(held, self.links[0].fits(cell, down, before[0], current[0], end), self.touched[cell])
        return held

    def crossed(self, held: Held, operations: Operations, down: bool, before: Sequence[int], end: int) -> Held:
        """What is left after an element. A waiting instance stops waiting if another cell comes between."""
        held = parted(held, self.above if down else self.below)
        for cell in reversed(self.cells) if down else self.cells:
            held = self.visited(held, cell, down, operations, before, end)
        return parted(held, self.below if down else self.above)

    # ---- elements

    def caught(self, operations: Operations, down: bool, due: int) -> int:
        """The faults of the decoder that an element catches."""
        if not self.decoder:
            return 0
        reads = {left_by(operations[:place], due) for place, operation in enumerate(operations) if operation == READ}
        count = len(self.instances)
        return sum(
            1 << count + place for place, it in enumerate(self.decoder) if it.is_caught(operations, down, due, reads)
        )

    def begun(self, operations: Operations, down: bool = False) -> State:
        """What is left, from all contents, after a first element, which begins with a write."""
        end = left_by(operations, 0)
        union: State = (self.extra & ~self.caught(operations, down, end), 0, 0, 0)
        for contents in itertools.product(BITS, repeat=len(self.links)):
            some = self.everyone if len(set(contents)) == 1 else self.apart
            held = [some, some, 0, 0]
            link = self.links[0]
            self.closed(held, link.alone | LinkMasks.union(link.at) & link.wants[contents[0]], self.everyone)
            union = either(union, by_due(self.crossed(held, operations, down, contents, end), end))
        return union

    def table(self, operations: Operations, down: bool, due: int) -> Table:
        """What an element does to each state, on good cells that hold `due`."""
        key = (operations, down, due)
        if key not in self.tables:
            end = left_by(operations, due)
            made: list[State] = []
            for place in range(4):
                held = [0, 0, 0, 0]
                held[(due ^ place & 1) | place & 2] = self.everyone if place < 2 or self.waits else 0
                made.append(by_due(self.crossed(held, operations, down, [due] * len(self.links), end), end))
            good, *rest = made[0]
            made[0] = (good | self.extra & ~self.caught(operations, down, due), rest[0], rest[1], rest[2])
            self.tables[key] = (made[0], made[1], made[2], made[3])
        return self.tables[key]

    def paused(self, state: State, due: int) -> State:
        """What is left after a pause."""
        good, bad = state[0] | state[2], state[1] | state[3]
        falls, rises = good & self.links[0].pausing[due], bad & self.links[0].pausing[1 - due]
        return good & ~falls | rises, bad & ~rises | falls, 0, 0

    # ---- marches

    def run(self, elements: Sequence[Element]) -> tuple[State, int]:
        """What is left after a march, for all directions of its elements of order any, and what good cells then
        hold."""
        state: State = (0, 0, 0, 0)
        due = 0
        for place, element in enumerate(elements):
            operations = bare(element.operations)
            if element.is_pause:
                state = self.paused(state, due)
                continue
            ways = {"up": [False], "down": [True], "any": [False, True]}[element.order]
            behind = [self.passed(state if place else None, operations, down, due) for down in ways]
            state = either(behind[0], behind[-1])
            due = left_by(operations, due)
        return state, due

    def passed(self, state: State | None, operations: Operations, down: bool, due: int) -> State:
        """What is left of a state after an element, or of all contents if there is no state yet."""
        return self.begun(operations, down) if state is None else applied(state, self.table(operations, down, due))

    def left(self, state: State) -> set[str]:
        """The names of what is left."""
        some = state[0] | state[1] | state[2] | state[3]
        return {name for place, name in enumerate(self.names) if some >> place & 1}


def complement(text: str) -> str:
    """A primitive with each bit inverted."""
    return text.translate(str.maketrans("01", "10"))


def bare(operations: Sequence[str]) -> Operations:
    """The operations of an element, reads without their bits."""
    return tuple(READ if operation[0] == "r" else operation for operation in operations)


def parted(held: Held, where: int) -> Held:
    return [held[0] | held[2] & where, held[1] | held[3] & where, held[2] & ~where, held[3] & ~where]


def by_due(held: Held, due: int) -> State:
    return held[due], held[1 - due], held[2 + due], held[3 - due]


def either(one: State, other: State) -> State:
    return one[0] | other[0], one[1] | other[1], one[2] | other[2], one[3] | other[3]


def applied(state: State, table: Table) -> State:
    """What is left of a state after an element."""
    a, b, c, d = state
    p, q, r, s = table
    if not c and not d:
        return a & p[0] | b & q[0], a & p[1] | b & q[1], a & p[2] | b & q[2], a & p[3] | b & q[3]
    return (
        a & p[0] | b & q[0] | c & r[0] | d & s[0],
        a & p[1] | b & q[1] | c & r[1] | d & s[1],
        a & p[2] | b & q[2] | c & r[2] | d & s[2],
        a & p[3] | b & q[3] | c & r[3] | d & s[3],
    )
