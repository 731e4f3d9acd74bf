"""The shortest march for the primitives of one cell, which shows how short a march of a list can be at best.

A cell alone is in few states, and so are a few primitives together. The search takes a few primitives, visits all of
their states, and so finds a shortest march for them. If that march leaves other primitives, it takes one of them too
and begins anew. So the march grows with the primitives that it is made for. If it covers all, no march is shorter. If
none of at most so many operations covers those few, then none covers the list.

Whether the order is up or down does not matter to a cell alone. Each step is an operation, perhaps the first one of an
element: with other cells below and above, a primitive of two operations acts within an element alone."""
from __future__ import annotations

from typing import Callable, Dict, Iterator, List, Optional, Sequence, Tuple

from vidlakost_tools.design.instances import OPERATIONS, Instance, left_by
from vidlakost_tools.design.parts import Part, Parts, elements_from, is_complete, length
from vidlakost_tools.design.survivors import BITS, Survivors

# what the march may do next: an operation, and whether it begins an element
STEPS = [(operation, begins) for begins in (False, True) for operation in OPERATIONS]
# in how many states a group of primitives may be, and how many of all groups together a search visits
GROUP, VISITED = 20_000, 3_000_000
# how much longer than for the primitives before a march may be at first
MORE = 2
# for each primitive, the states that it may be in: a bit for each value of the victim, and two more if it waits
States = Tuple[int, ...]


class Cell:
    """What each step does to each primitive: by what good cells hold, the step and the states it may be in."""

    def __init__(self, instances: Sequence[Instance]):
        self.instances = instances
        survivors = Survivors(instances)
        tables = {
            (due, operation): [
                survivors.visited(self.alone(survivors, at), 0, False, (operation,), [due], due) for at in range(4)
            ]
            for due in BITS
            for operation in OPERATIONS
        }
        self.moves = [
            [
                [[self.behind(tables[due, operation], place, states, begins) for states in range(16)]
                 for operation, begins in STEPS]
                for due in BITS
            ]
            for place in range(len(instances))
        ]  # fmt: skip

    @staticmethod
    def alone(survivors: Survivors, at: int) -> List[int]:
        return [survivors.everyone if at == to else 0 for to in range(4)]

    @staticmethod
    def behind(table: Sequence[Sequence[int]], place: int, states: int, begins: bool) -> int:
        """The states of a primitive after a step."""
        if begins:
            states = states & 3 | states >> 2
        made = 0
        for at in range(4):
            if states >> at & 1:
                made |= sum((table[at][to] >> place & 1) << to for to in range(4))
        return made

    def starts(self, chosen: Sequence[int]) -> List[Tuple[States, int]]:
        """After the first write, from any content."""
        made = []
        for write, due in (("w0", 0), ("w1", 1)):
            step = STEPS.index((write, True))
            both = [
                [self.moves[it][content][step][1 << content] for it in chosen]
                for content in BITS
            ]  # fmt: skip
            made.append((tuple([one | other for one, other in zip(*both)]), due))
        return made


class Group:
    """A few primitives together: their states, which have numbers, what each step makes of them, and how many
    operations at least lead to the one in which nothing is left."""

    def __init__(self, cell: Cell, chosen: Sequence[int], most: int = GROUP):
        self.chosen = list(chosen)
        starts = cell.starts(chosen)
        numbers = {start: number for number, start in enumerate(starts)}
        todo, moves = list(numbers), [cell.moves[it] for it in chosen]
        self.steps: List[List[int]] = []
        for states, due in todo:
            row = []
            for step, (operation, _) in enumerate(STEPS):
                behind = tuple([move[due][step][one] for move, one in zip(moves, states)])
                made = (behind, left_by((operation,), due))
                if made not in numbers:
                    numbers[made] = len(todo)
                    todo.append(made)
                row.append(numbers[made])
            self.steps.append(row)
            if len(todo) > most:
                raise TimeoutError
        self.least = self.distances([number for (states, _), number in numbers.items() if not any(states)])

    def distances(self, ends: List[int]) -> List[int]:
        ways: List[List[int]] = [[] for _ in self.steps]
        for number, row in enumerate(self.steps):
            for behind in row:
                ways[behind].append(number)
        least = [1 << 20] * len(self.steps)
        for number in ends:
            least[number] = 0
        layer = ends
        while layer:
            longer = []
            for number in layer:
                for one in ways[number]:
                    if least[one] > least[number] + 1:
                        least[one] = least[number] + 1
                        longer.append(one)
            layer = longer
        return least


class OneCell:
    """The search. `bounded` learns that no march has fewer operations, `watch` how far the search is."""

    def __init__(
        self,
        instances: Sequence[Instance],
        bounded: Callable[[int], None],
        watch: Callable[[str], None],
        most_visited: int = VISITED,
    ):
        self.cell, self.survivors = Cell(instances), Survivors(instances)
        self.bounded, self.watch, self.most_visited = bounded, watch, most_visited
        self.groups: List[Group] = []

    def shortest(self, most: int) -> Optional[Parts]:
        """A shortest march for all of these, if one has at most `most` operations. It raises `TimeoutError` if the
        search would visit too much."""
        parts: Parts = []
        while True:
            state = self.survivors.run(elements_from(parts))[0] if parts else (self.survivors.everyone, 0, 0, 0)
            left = state[0] | state[1] | state[2] | state[3]
            if not left:
                return parts
            self.add((left & -left).bit_length() - 1)
            chosen = sum(len(group.chosen) for group in self.groups)
            self.watch(f"{chosen} primitives of one cell")
            steps, limit = None, length(parts)
            while steps is None:
                if limit == most:
                    return None
                # one more primitive seldom asks for more; a low limit leaves out most states
                limit = min(most, limit + MORE)
                steps = self.search(limit)
                self.bounded(limit + 1 if steps is None else len(steps))
            parts = parts_of_steps(steps)

    def add(self, place: int) -> None:
        """Takes one more primitive, into the last group or into a new one."""
        if self.groups:
            try:
                self.groups[-1] = Group(self.cell, [*self.groups[-1].chosen, place])
                return
            except TimeoutError:
                pass
        self.groups.append(Group(self.cell, [place]))

    def search(self, most: int) -> Optional[List[int]]:
        """The steps of a shortest march for the groups; none if that has more than `most` operations. A state is one
        number, with a digit for each group."""
        bases = [1]
        for group in self.groups:
            bases.append(bases[-1] * len(group.steps))
        layers = [[number * sum(bases[:-1]) for number in BITS]]
        layers[0] = [it for it in layers[0] if self.least(it) < most]
        seen = set(layers[0])
        while layers[-1]:
            longer: List[int] = []
            for row in self.rows(layers[-1], bases, most - len(layers) - 1):
                for made in row:
                    if made >= 0 and made not in seen:
                        seen.add(made)
                        longer.append(made)
            layers.append(longer)
            end = next((it for it in longer if not self.least(it)), None)
            if end is not None:
                return self.unwound(layers, end, bases)
            if len(seen) > self.most_visited:
                raise TimeoutError
        return None

    def rows(self, layer: Sequence[int], bases: Sequence[int], left: int) -> Iterator[Sequence[int]]:
        """The states one step further; a negative number if `left` operations can't bring it to an end."""
        none = -len(bases) * bases[-1]
        known: List[Dict[int, List[int]]] = [{} for _ in self.groups]
        several = list(zip(self.groups, bases, known))
        for number in layer:
            rest, found = number, []
            for group, base, rows in several:
                rest, digit = divmod(rest, len(group.steps))
                row = rows.get(digit)
                if row is None:
                    least = group.least
                    row = rows[digit] = [it * base if least[it] <= left else none for it in group.steps[digit]]
                found.append(row)
            yield found[0] if len(found) == 1 else list(map(sum, zip(*found)))

    def digits(self, number: int) -> List[int]:
        made = []
        for group in self.groups:
            number, digit = divmod(number, len(group.steps))
            made.append(digit)
        return made

    def least(self, number: int) -> int:
        """How many operations at least lead to an end."""
        return max([group.least[digit] for group, digit in zip(self.groups, self.digits(number))])

    def unwound(self, layers: List[List[int]], end: int, bases: Sequence[int]) -> List[int]:
        """The steps to an end, from behind. An element begins only where it has to: long ones cover more of the other
        primitives, so that the search needs fewer."""
        steps: List[int] = []
        for layer in reversed(layers[:-1]):
            for number, row in zip(layer, self.rows(layer, bases, len(layers))):
                if end in row:
                    steps.append(list(row).index(end))
                    end = number
                    break
        steps.append(STEPS.index(("w1" if end else "w0", True)))
        return steps[::-1]


def parts_of_steps(steps: Sequence[int]) -> Parts:
    parts: Parts = []
    for operation, begins in [STEPS[step] for step in steps]:
        if begins:
            parts.append(Part("up", (operation,)))
        else:
            parts[-1] = Part("up", (*parts[-1].operations, operation))
    return parts


def parted(survivors: Survivors, parts: Parts, most: int) -> Parts:
    """The march with elements of at most so many operations, if it stays complete with some such."""
    made: Parts = []
    for at, part in enumerate(parts):
        rest = part.operations
        while len(rest) > most:
            for count in range(most, 0, -1):
                tried = [*made, Part(part.order, rest[:count]), Part(part.order, rest[count:]), *parts[at + 1 :]]
                if is_complete(survivors, tried):
                    break
            made.append(Part(part.order, rest[:count]))
            rest = rest[count:]
        made.append(Part(part.order, rest))
    return made
