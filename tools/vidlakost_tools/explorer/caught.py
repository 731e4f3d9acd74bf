"""The first read that catches a covered primitive, in two cells that hold 0 at first; elements of order any go up."""
from __future__ import annotations

import dataclasses
from typing import Iterator, List

from vidlakost_tools.texts.faults import Step
from vidlakost_tools.texts.march import Element
from vidlakost_tools.texts.report import Verdict

CONTENT = "00"
WAYS = {"up": "u", "down": "d", "any": "u", "del": "u"}


@dataclasses.dataclass
class Catch:
    """An array with the primitive, and the steps of the march in it up to the read that differs."""

    array: Verdict
    steps: List[Step]

    @property
    def read(self) -> Step:
        return self.steps[-1]


def catches(covered: Verdict, elements: List[Element]) -> Iterator[Catch]:
    """For a covered primitive: an array for each side on which an aggressor can be."""
    directions = "".join(WAYS[element.order] for element in elements)
    is_coupling = ";" in covered.primitive
    for victim in (1, 0) if is_coupling else (0,):
        aggressor = 1 - victim if is_coupling else None
        array = dataclasses.replace(covered, aggressor=aggressor, victim=victim, content=CONTENT, directions=directions)
        steps = list(array.array().march(elements, directions))
        if steps[-1].differs:
            yield Catch(array, steps)
