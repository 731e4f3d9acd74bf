"""A defect that gives exactly the log: its class, its place, and what it would leave in another test."""
from __future__ import annotations

import dataclasses
import enum
from typing import Callable, FrozenSet, Tuple

from vidlakost_tools.diagnosis.evidence import Test

# the wrong reads of some words, as index, number and bits
Log = FrozenSet[Tuple[int, int, int]]


class Shape(enum.Enum):
    """The class of a defect, in the order of the answer: one line or one bit of a port comes before what would have to
    agree by chance."""

    MEMORY = "memory"
    DATA_BIT = "data bit"
    ADDRESS_BIT = "address bit"
    COLUMN = "column"
    ROW = "row"
    BIT_LINE = "bit line"
    WORD_LINE = "word line"
    DECODER = "decoder"
    WORD = "word"
    CELL = "cell"
    TWO_CELLS = "two cells"


ORDER = {shape: number for number, shape in enumerate(Shape)}


@dataclasses.dataclass(frozen=True)
class Candidate:
    """A defect, the places where its other part may be, the share of contents before the test from which it gives the
    log, and the logs that it may leave in another test."""

    shape: Shape
    what: str
    places: int
    share: float
    logs: Callable[[Test], FrozenSet[Log]]
    # what it is made of
    part: object = None

    @property
    def rank(self) -> Tuple[int, float]:
        return ORDER[self.shape], -self.share
