"""A search that builds marches operation by operation, and keeps those of each length that leave the least."""
from __future__ import annotations

import random
from typing import Any, Callable, Iterator, NamedTuple, Optional, Sequence, Tuple

from vidlakost_tools.design.instances import OPERATIONS, left_by
from vidlakost_tools.design.parts import PAUSE, Limits, Part, Parts, elements_from, pauses, way
from vidlakost_tools.design.survivors import Operations, State, Survivors, applied

# the finished elements, the last one first
Chain = Tuple[Any, ...]
# a good instance still has to go wrong, so it is further from being caught than a wrong one
GOOD, WRONG = 3, 1
Watch = Callable[[int, int], None]


class Node(NamedTuple):
    """A march whose last element may grow: what is left after it, and before its last element (None: that is the
    first)."""

    state: State
    due: int
    before: Optional[State]
    was: int
    down: bool
    operations: Operations
    done: Chain
    elements: int
    pauses: int

    def parts(self) -> Parts:
        made, chain = [Part(way(self.down), self.operations)] if self.operations else [], self.done
        while chain:
            made.append(chain[0])
            chain = chain[1]
        return made[::-1]


def count(mask: int) -> int:
    return bin(mask).count("1")


def weight(state: State) -> int:
    """How much is left."""
    good, wrong = state[0] | state[2], state[1] | state[3]
    return GOOD * count(good) + WRONG * count(wrong & ~good)


class Beam:
    """The search. It keeps `width` marches of each length. To a given march it adds elements at the end."""

    def __init__(self, survivors: Survivors, limits: Limits, width: int, behind: Sequence[Part] = (), seed: int = 1):
        self.survivors, self.limits, self.width = survivors, limits, width
        self.behind = list(behind)
        self.random = random.Random(seed)
        self.nearest: tuple[int, Parts] | None = None

    def grown(self, node: Node, operation: str) -> Node:
        """The march with one more operation in its last element."""
        operations = node.operations + (operation,)
        state = self.survivors.passed(node.before, operations, node.down, node.was)
        return node._replace(state=state, due=left_by((operation,), node.due), operations=operations)

    def next_elements(self, node: Node, paused: bool) -> Iterator[Node]:
        """The march with one more element, of one operation."""
        state = self.survivors.paused(node.state, node.due) if paused else node.state
        done: Chain = (Part(way(node.down), node.operations), node.done) if node.operations else node.done
        done = (PAUSE, done) if paused else done
        for operation in OPERATIONS:
            for down in (False, True):
                behind = applied(state, self.survivors.table((operation,), down, node.due))
                due = left_by((operation,), node.due)
                elements, pauses_so_far = node.elements + 1 + paused, node.pauses + paused
                yield Node(behind, due, state, node.due, down, (operation,), done, elements, pauses_so_far)

    def longer(self, node: Node) -> Iterator[Node]:
        """The marches with one more operation."""
        if node.operations and len(node.operations) < self.limits.operations:
            yield from (self.grown(node, operation) for operation in OPERATIONS)
        if node.elements < self.limits.elements:
            yield from self.next_elements(node, False)
        if node.pauses < self.limits.pauses and node.elements + 1 < self.limits.elements:
            yield from self.next_elements(node, True)

    def starts(self) -> list[Node]:
        """The first operations, or the given march. If the primitives are their own complement, so are the marches."""
        if self.behind:
            state, due = self.survivors.run(elements_from(self.behind))
            done: Chain = ()
            for part in self.behind:
                done = (part, done)
            return [Node(state, due, state, due, False, (), done, len(self.behind), pauses(self.behind))]
        made = []
        for operation in ("w0", "w1"):
            state = self.survivors.begun((operation,))
            made.append(Node(state, int(operation[1]), None, 0, False, (operation,), (), 1, 0))
        return made[:1] if self.survivors.is_symmetric else made

    def kept(self, nodes: Sequence[Node]) -> tuple[list[Node], list[Node]]:
        """For the next length: the complete marches, and those of the others that it keeps."""
        seen, ranked = set(), []
        for node in nodes:
            for made in self.longer(node):
                key = (made.before, made.was, made.down, made.operations)
                if key not in seen:
                    seen.add(key)
                    ranked.append((weight(made.state), made.elements, self.random.random(), made))
        ranked.sort(key=lambda it: it[:3])
        complete = [it[3] for it in ranked if it[0] == 0]
        return complete, [it[3] for it in ranked[len(complete) : len(complete) + self.width]]

    def run(self, most: int, watch: Watch) -> Iterator[list[Parts]]:
        """The complete marches that it finds, those of one length together and the shortest first. They have at most
        `most` operations more than the given march."""
        nodes, stale = self.starts(), 0
        if not any(nodes[0].state):
            yield [nodes[0].parts()]
        for length in range(len(nodes[0].operations) + 1, most + 1):
            complete, nodes = self.kept(nodes)
            if complete:
                yield [node.parts() for node in complete]
            if not nodes or stale > PATIENCE:
                return
            least, stale = weight(nodes[0].state), stale + 1
            if self.nearest is None or least < self.nearest[0]:
                self.nearest, stale = (least, nodes[0].parts()), 0
            watch(length, least)


# a search gives up after so many operations without any progress
PATIENCE = 24
