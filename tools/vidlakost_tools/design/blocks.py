"""A search for marches of a regular form: after a first write come blocks of elements, each the complement of the one
before.

A block is an element S that turns 0 into 1, and its complement, each in a direction of its own; perhaps both come
once more in the opposite directions. Many marches of the literature have this form. It has so few marches that a
search of it goes far."""
from __future__ import annotations

import random
from typing import NamedTuple, Tuple

from vidlakost_tools.design.beam import Watch, weight
from vidlakost_tools.design.instances import OPERATIONS, READ, left_by
from vidlakost_tools.design.parts import Limits, Part, Parts, way
from vidlakost_tools.design.survivors import Operations, State, Survivors, applied

COMPLEMENT = {"w0": "w1", "w1": "w0", READ: READ}


class Block(NamedTuple):
    """A march of blocks whose last one may grow: what is left before that block, its elements, S, and the directions of
    S and of its complement."""

    before: State
    done: Tuple[Part, ...]
    operations: Operations
    downs: Tuple[bool, bool]


def whole(operations: Operations) -> Operations:
    """S, which ends with 1 in each cell."""
    return operations if left_by(operations, 0) else (*operations, "w1")


class Blocks:
    """The search, of blocks of two elements or of four."""

    def __init__(self, survivors: Survivors, limits: Limits, width: int, elements: int, seed: int = 1):
        self.survivors, self.limits, self.width, self.elements = survivors, limits, width, elements
        self.random = random.Random(seed)

    def parts(self, block: Block) -> Parts:
        """The elements with those of the last block."""
        return [*block.done, *(Part(way(down), operations) for operations, down, _ in self.steps(block))]

    def steps(self, block: Block) -> list[Tuple[Operations, bool, int]]:
        operations = whole(block.operations)
        other = tuple(COMPLEMENT[it] for it in operations)
        there, back = block.downs
        made = [(operations, there, 0), (other, back, 1), (operations, not there, 0), (other, not back, 1)]
        return made[: self.elements]

    def behind(self, block: Block) -> State:
        """What is left after the last block."""
        state = block.before
        for operations, down, due in self.steps(block):
            state = applied(state, self.survivors.table(operations, down, due))
        return state

    def longer(self, block: Block, state: State) -> list[Block]:
        made = []
        if len(block.operations) < self.limits.operations - 1:
            made += [block._replace(operations=(*block.operations, operation)) for operation in OPERATIONS]
        if left_by(block.operations, 0) and len(block.done) + 2 * self.elements < self.limits.elements:
            done = tuple(self.parts(block))
            made += [Block(state, done, (operation,), downs) for operation in OPERATIONS for downs in DIRECTIONS]
        return made

    def finished(self, block: Block, state: State) -> Parts | None:
        """The march, with a last read if it needs one."""
        read = applied(state, self.survivors.table((READ,), False, 0))
        if any(read) or len(block.done) + self.elements >= self.limits.elements:
            return None
        return self.parts(block) + ([Part("up", (READ,))] if any(state) else [])

    def run(self, most: int, watch: Watch) -> Parts | None:
        """The shortest march of this form that it finds, if that has fewer than `most` operations."""
        first = Part("up", ("w0",))
        state = self.survivors.begun(first.operations)
        layer = [Block(state, (first,), (operation,), downs) for operation in OPERATIONS for downs in DIRECTIONS[:2]]
        if self.limits.operations < 2 or self.limits.elements <= self.elements:
            return None
        for length in range(1 + self.elements, most, self.elements):
            ranked, found = [], []
            for block in layer:
                state = self.behind(block)
                parts = self.finished(block, state)
                if parts:
                    found.append((sum(len(part.operations) for part in parts), parts))
                ranked.append((weight(state), self.random.random(), block, state))
            if found or not ranked:
                return min(found)[1] if found else None
            ranked.sort(key=lambda it: it[:2])
            watch(length, ranked[0][0])
            layer = [made for _, _, block, state in ranked[: self.width] for made in self.longer(block, state)]
        return None


DIRECTIONS = [(False, False), (False, True), (True, False), (True, True)]
