"""Whether elements of at most so many operations can cover a primitive at all, by an exhaustive search for it alone."""
from __future__ import annotations

import itertools
from typing import List

from vidlakost_tools.design.instances import OPERATIONS, READ, instances_of, left_by
from vidlakost_tools.design.survivors import Operations, Survivors, applied

# elements of so many operations can cover each primitive, so the search needs no longer ones
ENOUGH = 3


def sequences(most: int) -> List[Operations]:
    return [made for count in range(1, most + 1) for made in itertools.product(OPERATIONS, repeat=count)]


def can_cover(name: str, operations: int) -> bool:
    """Whether some march of such elements covers a primitive. There are only a few states (what is left, and what good
    cells hold), and the search visits each once."""
    survivors = Survivors(instances_of(name))
    elements = sequences(min(operations, ENOUGH))
    todo = [(survivors.begun(it, down), left_by(it, 0)) for it in elements if it[0] != READ for down in (False, True)]
    seen = set(todo)
    while todo:
        state, due = todo.pop()
        if not any(state):
            return True
        behinds = [
            (applied(state, survivors.table(it, down, due)), left_by(it, due))
            for it in elements
            for down in (False, True)
        ]
        if survivors.pauses:
            behinds.append((survivors.paused(state, due), due))
        for made in behinds:
            if made not in seen:
                seen.add(made)
                todo.append(made)
    return False
