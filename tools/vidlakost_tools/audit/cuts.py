"""The fewest gates through which all goes that some bits do to another one, in any number of cycles."""
from __future__ import annotations

import collections
from typing import Any, Dict, Tuple

from vidlakost_tools.audit.gates import Machine

# no larger cut is of use
MOST = 6
# a bit as it comes in, and as it goes on
Node = Tuple[Any, bool]


class Flow:
    """Ways from some bits to one, no two of which share a gate or a register."""

    def __init__(self, machine: Machine, sources: list[Any], sink: Any):
        self.sources, self.sink = sources, sink
        self.onward: dict[Node, list[Node]] = collections.defaultdict(list)
        self.used: Dict[Tuple[Node, Node], int] = collections.Counter()
        for bit in [*machine.order, *machine.registers]:
            self.edge((bit, False), (bit, True))
            for operand in machine.operands(machine.driver[bit]):
                self.edge((operand, True), (bit, False))

    def edge(self, begin: Node, end: Node) -> None:
        self.onward[begin].append(end)
        # the way back, which takes from what is used
        self.onward[end].append(begin)

    def is_free(self, begin: Node, end: Node) -> bool:
        if begin[0] == end[0]:
            is_onward = end[1]
            return (
                self.used[begin, end] == 0
                if is_onward and begin[0] != self.sink
                else is_onward or self.used[end, begin] > 0
            )
        # from bit to bit any number of ways may go
        return begin[1] or self.used[end, begin] > 0

    def search(self) -> tuple[dict[Node, Node | None], bool]:
        """What can be reached, each with what stands before it, and whether the sink is among it."""
        before: dict[Node, Node | None] = {(bit, True): None for bit in self.sources}
        todo = collections.deque(before)
        while todo:
            here = todo.popleft()
            for other in self.onward[here]:
                if other in before or not self.is_free(here, other):
                    continue
                before[other] = here
                if other == (self.sink, False):
                    return before, True
                todo.append(other)
        return before, False

    def add_way(self, before: dict[Node, Node | None]) -> None:
        here: Node = (self.sink, False)
        while True:
            begin = before[here]
            if begin is None:
                return
            if self.used[here, begin] > 0:
                self.used[here, begin] -= 1
            else:
                self.used[begin, here] += 1
            here = begin


def least_cut(machine: Machine, sources: list[Any], sink: Any) -> list[Any]:
    """The fewest bits through which all ways go, as near to the sources as can be; none where they are many, or there
    is no way."""
    flow = Flow(machine, sources, sink)
    for _ in range(MOST + 1):
        before, is_reached = flow.search()
        if not is_reached:
            bits = [bit for bit, is_onward in before if not is_onward and (bit, True) not in before]
            return [bit for bit in [*machine.registers, *machine.order] if bit in bits]
        flow.add_way(before)
    return []
