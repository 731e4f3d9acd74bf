"""All candidates of a log in their order. If no single defect gives the log, also what each wrong cell says by itself.
And which further march separates the candidates."""
from __future__ import annotations

import dataclasses
from typing import FrozenSet, Iterator, List, Sequence, Tuple

from vidlakost_tools.diagnosis import addressing, cells, lines
from vidlakost_tools.diagnosis.candidate import Candidate, Log
from vidlakost_tools.diagnosis.cells import Fault
from vidlakost_tools.diagnosis.evidence import Evidence, Test
from vidlakost_tools.texts.march import Element
from vidlakost_tools.texts.memory import Memory

# how many wrong cells it looks at one by one, and how many candidates it separates
ALONE, APART = 8, 200


@dataclasses.dataclass
class Answer:
    """The candidates of a log; or, if no single defect gives the log, those of each wrong cell by itself."""

    candidates: List[Candidate]
    alone: List[Tuple[Tuple[int, int], List[Candidate]]]

    @property
    def classes(self) -> dict[str, int]:
        """How many candidates each class has."""
        found: dict[str, int] = {}
        for one in self.candidates:
            found[one.shape.value] = found.get(one.shape.value, 0) + 1
        return found


def answer_of(evidence: Evidence, faults: Sequence[Fault], mux: int) -> Answer:
    """Every known defect that gives exactly this log."""
    found = [
        *lines.candidates(evidence, mux),
        *addressing.candidates(evidence, mux),
        *cells.candidates(evidence, faults),
    ]
    found.sort(key=lambda one: one.rank)
    wrong = evidence.cells() if not found else []
    alone = (
        [(cell, list(cells.candidates(evidence.alone(cell), faults))) for cell in wrong] if len(wrong) <= ALONE else []
    )
    for _, some in alone:
        some.sort(key=lambda one: one.rank)
    return Answer(found, alone)


def groups_of(candidates: Sequence[Candidate], test: Test) -> list[list[Candidate]]:
    """Groups of candidates that a test may not separate: those that may leave one log."""
    groups: list[Tuple[FrozenSet[Log], list[Candidate]]] = []
    for one in candidates:
        logs, members = one.logs(test), [one]
        rest = []
        for other, some in groups:
            if other & logs:
                logs, members = logs | other, some + members
            else:
                rest.append((other, some))
        groups = [*rest, (logs, members)]
    return [members for _, members in groups]


@dataclasses.dataclass(frozen=True)
class Further:
    """A march, the number of groups into which it separates the candidates, and the size of the largest."""

    name: str
    groups: int
    largest: int


def further(
    candidates: Sequence[Candidate], marches: Sequence[Tuple[str, List[Element]]], memory: Memory
) -> Iterator[Further]:
    """How each march separates the candidates."""
    few = candidates[:APART]
    for name, elements in marches:
        groups = groups_of(few, Test(elements, memory))
        yield Further(name, len(groups), max(map(len, groups)))
