"""An exhaustive search, length by length, that finds no shorter march for a list. It takes static primitives, losses
over a pause and a wrong decoder.

Three things make it short. It leaves out an element if another one, of at most the same operations, leaves no more,
whatever follows. It visits each state after elements once. And it gives up a march if the instances that are left
need more operations of a kind than it may still have. The kinds are reads, writes of the bit that is held, and
writes of the other bit. A table for each kind says how many operations a few instances need. These numbers add up,
since an operation is of one kind."""
from __future__ import annotations

import collections
import dataclasses
import itertools
from typing import Callable, Dict, List, NamedTuple, Optional, Sequence, Tuple

from vidlakost_tools.design.beam import Chain
from vidlakost_tools.design.instances import OPERATIONS, READ, Instance, left_by
from vidlakost_tools.design.parts import PAUSE, Limits, Part, Parts, elements_from, way
from vidlakost_tools.design.survivors import BITS, Operations, Survivors, applied

# how many operations there are of each kind: reads, writes of the bit that is held, writes of the other one
Costs = Tuple[int, int, int]
# of the good instances, those left good and those left wrong; the same of the wrong ones
Move = Tuple[int, int, int, int]
# the instances that are left good and those that are left wrong, and what good cells hold, with twice the pauses so far
Left = Tuple[int, int, int]


class Visit(NamedTuple):
    """The operations of an element, what good cells hold after it, what it does at each cell, and what it costs."""

    operations: Operations
    due: int
    effect: int
    costs: Costs


class Step(NamedTuple):
    """An element in a direction, perhaps after a pause."""

    move: Move
    due: int
    costs: Costs
    operations: Operations
    down: bool
    paused: bool

    def stands_for(self, other: "Step") -> bool:
        """Whether it leaves less, and takes no more."""
        takes_less = self.paused <= other.paused and is_within(self.costs, other.costs)
        return takes_less and self.due == other.due and leaves_less(self.move, other.move)


@dataclasses.dataclass
class Start:
    """A first element: what is left after it."""

    left: Left
    costs: Costs
    operations: Operations

    def stands_for(self, other: "Start") -> bool:
        leaves_less = not self.left[0] & ~other.left[0] and not self.left[1] & ~other.left[1]
        return leaves_less and self.left[2] == other.left[2] and is_within(self.costs, other.costs)


class Kind(NamedTuple):
    """A table for a kind of operations: the instances that it looks at, and how many operations it takes to cover those
    that are left."""

    mask: int
    least: Dict[Left, int]


def costs_of(operations: Sequence[str], due: int) -> Costs:
    made = [0, 0, 0]
    for operation in operations:
        made[0 if operation == READ else 1 if operation == f"w{due}" else 2] += 1
        due = left_by([operation], due)
    return made[0], made[1], made[2]


def is_within(one: Costs, other: Costs) -> bool:
    return one[0] <= other[0] and one[1] <= other[1] and one[2] <= other[2]


# how many instances each table looks at
LOOKED_AT = 8


class Bound:
    """The elements that a shortest march can have, or that it can add to a given march; and the tables of the kinds.
    `watch` learns how far the search is."""

    def __init__(self, survivors: Survivors, limits: Limits, behind: Sequence[Part], watch: Callable[[str], None]):
        self.survivors, self.limits, self.watch = survivors, limits, watch
        self.sequences = [self.sequences_from(due) for due in BITS]
        self.steps = [self.steps_from(due) for due in BITS]
        watch(f"{len(self.steps[0])} and {len(self.steps[1])} elements")
        self.starts = [self.given(behind)] if behind else self.first_elements()
        self.kinds = [self.kind(number, LOOKED_AT) for number in range(3)]
        self.least = min(len(start.operations) + self.asked(start.left) for start in self.starts)

    # ---- elements

    def effect(self, operations: Operations, due: int) -> int:
        """What is left after a visit in each state: a number in which each bit that is not set is good."""
        made, survivors = 0, self.survivors
        width = len(survivors.instances)
        for cell in survivors.cells:
            for other in BITS:
                for bit in BITS:
                    held = [0, 0, 0, 0]
                    held[bit] = survivors.everyone
                    held = survivors.visited(held, cell, cell == 0, operations, [due], other)
                    made = (made << width | held[0]) << width | held[1]
        if survivors.decoder:
            reads = {left_by(operations[:place], due) for place, it in enumerate(operations) if it == READ}
            begins = operations[:1] == (READ,)
            made = made << 3 | (0 not in reads) << 2 | (1 not in reads) << 1 | (not begins)
        return made

    def sequences_from(self, due: int) -> List[Visit]:
        """The operations on cells that hold `due`, without those that others replace at no higher cost, however they go
        on."""
        nothing = self.effect((), due)
        found: List[Visit] = []
        layer: List[Operations] = [()]
        while layer:
            longer = []
            for before in layer:
                for operation in OPERATIONS:
                    operations = (*before, operation)
                    if len(operations) > self.limits.operations:
                        continue
                    made = Visit(
                        operations, left_by(operations, due), self.effect(operations, due), costs_of(operations, due)
                    )
                    if (
                        made.due == due
                        and not nothing & ~made.effect
                        or any(
                            it.due == made.due and not it.effect & ~made.effect and is_within(it.costs, made.costs)
                            for it in found
                        )
                    ):
                        continue
                    found.append(made)
                    longer.append(operations)
            layer = longer
        return found

    def steps_from(self, due: int) -> List[Step]:
        """The elements in both directions, by length, without those that others replace."""
        found: List[Step] = []
        for it in sorted(self.sequences[due], key=lambda it: len(it.operations)):
            for down, paused in itertools.product((False, True), (False, True) if self.survivors.pauses else (False,)):
                step = Step(self.move(it.operations, down, due, paused), it.due, it.costs, it.operations, down, paused)
                if not any(other.stands_for(step) for other in found):
                    found.append(step)
        return found

    def move(self, operations: Operations, down: bool, due: int, paused: bool) -> Move:
        every = self.survivors.everyone | self.survivors.extra
        made: List[int] = []
        for state in ((every, 0, 0, 0), (0, self.survivors.everyone, 0, 0)):
            before = self.survivors.paused(state, due) if paused else state
            made += applied(before, self.survivors.table(operations, down, due))[:2]
        return made[0], made[1], made[2], made[3]

    def given(self, behind: Sequence[Part]) -> Start:
        state, due = self.survivors.run(elements_from(behind))
        return Start((state[0], state[1], due), (0, 0, 0), ())

    def first_elements(self) -> List[Start]:
        """The first elements: a write, and what may follow it in an element."""
        found: List[Start] = []
        for due in BITS[:1] if self.survivors.is_symmetric else BITS:
            rests = [(), *(it.operations for it in sorted(self.sequences[due], key=lambda it: len(it.operations)))]
            for rest in rests:
                operations = (f"w{due}", *rest)
                state = self.survivors.begun(operations)
                made = Start((state[0], state[1], left_by(operations, due)), costs_of(rest, due), operations)
                if len(rest) < self.limits.operations and not any(it.stands_for(made) for it in found):
                    found.append(made)
        return found

    # ---- tables of the kinds

    def chosen(self, number: int, most: int) -> int:
        """The instances that a table looks at: those of primitives that such an operation sensitises, the hard ones
        first."""
        ranked = []
        for place, it in enumerate(self.survivors.instances):
            rank = difficulty(it, number)
            if rank is not None:
                ranked.append((rank, place))
        return sum(1 << place for _, place in sorted(ranked)[:most])

    def kind(self, number: int, most: int) -> Kind:
        mask = self.chosen(number, most)
        moves = [self.cheapest(due, number, mask) for due in BITS]
        todo = list({(it.left[0] & mask, it.left[1] & mask, it.left[2]) for it in self.starts})
        seen = set(todo)
        ways: Dict[Left, List[Tuple[Left, int]]] = collections.defaultdict(list)
        while todo:
            left = todo.pop()
            good, wrong, due = left
            if not good and not wrong:
                continue
            for (gg, gw, wg, ww), behind, cost in moves[due]:
                made = (good & gg | wrong & wg, good & gw | wrong & ww, behind)
                if made not in seen:
                    seen.add(made)
                    todo.append(made)
                if made != left:
                    ways[made].append((left, cost))
        self.watch(f"{len(seen)} states of {bin(mask).count('1')} instances")
        return Kind(mask, distances(seen, ways))

    def cheapest(self, due: int, number: int, mask: int) -> List[Tuple[Move, int, int]]:
        """What elements do to the chosen instances, and how many operations of the kind that takes at least."""
        found: List[Tuple[Move, int, int]] = []
        for step in sorted(self.steps[due], key=lambda step: step.costs[number]):
            move = (step.move[0] & mask, step.move[1] & mask, step.move[2] & mask, step.move[3] & mask)
            if not any(behind == step.due and leaves_less(other, move) for other, behind, _ in found):
                found.append((move, step.due, step.costs[number]))
        return found

    def asked(self, left: Left) -> int:
        """The least number of operations that cover what is left."""
        good, wrong, due = left
        made = 0
        for kind in self.kinds:
            made += kind.least.get((good & kind.mask, wrong & kind.mask, due & 1), 0)
        return made or (1 if good or wrong else 0)

    # ---- the search

    def search(self, most: int, steps: Optional[int] = None) -> Parts | None:
        """A shortest march of at most `most` operations; None if there is none. It raises `TimeoutError` after `steps`
        elements."""
        best: Dict[Left, int] = {}
        layers: List[List[Tuple[Left, Chain]]] = [[] for _ in range(most + 1)]
        for start in self.starts:
            length = len(start.operations)
            if length + self.asked(start.left) <= most and best.get(start.left, most + 1) > length:
                best[start.left] = length
                layers[length].append((start.left, (Part("up", start.operations), ()) if length else ()))
        tried = 0
        for length, layer in enumerate(layers):
            for left, done in layer:
                if best[left] < length:
                    continue
                good, wrong, due = left
                if not good and not wrong:
                    return unwound(done)
                for (gg, gw, wg, ww), behind, _, operations, down, paused in self.steps[due & 1]:
                    longer = length + len(operations)
                    if longer > most:
                        break
                    tried += 1
                    pauses = (due >> 1) + paused
                    made = (good & gg | wrong & wg, good & gw | wrong & ww, behind + 2 * pauses)
                    if (
                        pauses > self.survivors.pauses
                        or best.get(made, most + 1) <= longer
                        or longer + self.asked(made) > most
                    ):
                        continue
                    best[made] = longer
                    layers[longer].append((made, (Part(way(down), operations), (PAUSE, done) if paused else done)))
                if steps is not None and tried > steps:
                    raise TimeoutError
            self.watch(f"{most}n at {length}n, {tried:,} elements tried")
        return None


def leaves_less(one: Move, other: Move) -> bool:
    return not (one[0] & ~other[0] or one[1] & ~other[1] or one[2] & ~other[2] or one[3] & ~other[3])


def difficulty(instance: Instance, number: int) -> Optional[int]:
    """The place of an instance in the table of a kind of operations; None if another kind sensitises it."""
    link = instance.links[0]
    if len(link.acts) != 1 or link.acts[0] == "t":
        return None
    sense = link.primitive.aggressor if link.acts_on_aggressor and link.primitive.aggressor else link.primitive.victim
    operation = link.acts[0]
    if number != (0 if operation == READ else 1 if operation == f"w{sense.state}" else 2):
        return None
    if link.acts_on_aggressor:
        return 1 if operation == READ else 0
    right, after = link.primitive.victim.state, link.primitive.after
    hides = operation == READ and after != right and link.primitive.answer == right
    if link.primitive.aggressor is not None:
        return 0 if hides else 1 if operation != READ else 3
    return 2 if hides or operation != READ else 4


def distances(seen: set[Left], ways: Dict[Left, List[Tuple[Left, int]]]) -> Dict[Left, int]:
    """For each state: the least cost to a state in which nothing is left."""
    least = {left: 0 for left in seen if not left[0] and not left[1]}
    layers: Dict[int, List[Left]] = collections.defaultdict(list)
    layers[0] = list(least)
    cost = 0
    while layers:
        for left in layers.pop(cost, ()):
            if least[left] != cost:
                continue
            for before, more in ways.get(left, ()):
                if cost + more < least.get(before, 1 << 30):
                    least[before] = cost + more
                    # a step without cost adds to the list during the walk
                    layers[cost + more].append(before)
        if cost not in layers:
            cost += 1
    return least


def unwound(done: Chain) -> Parts:
    made: Parts = []
    while done:
        made.append(done[0])
        done = done[1]
    return made[::-1]
