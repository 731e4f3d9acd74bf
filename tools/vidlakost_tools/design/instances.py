"""What a march has to cover: the primitives of a list, links and a wrong decoder, each at its cells."""
from __future__ import annotations

import dataclasses
import itertools
from typing import Iterable, Optional, Sequence

from vidlakost_tools.texts.faults import Primitive, read_primitive

# a read expects what was written last, so its bit is left out
READ = "r"
OPERATIONS = ("w0", "w1", READ)


@dataclasses.dataclass
class Link:
    """A primitive of an instance, and which of its cells in ascending order is the aggressor (None: there is none)."""

    primitive: Primitive
    aggressor: Optional[int]

    @property
    def acts(self) -> list[str]:
        """The operations that sensitise."""
        return [READ if operation[0] == "r" else operation for operation in self.primitive.operations]

    @property
    def acts_on_aggressor(self) -> bool:
        return self.primitive.aggressor is not None and bool(self.primitive.aggressor.operations)

    def cell(self, victim: int) -> Optional[int]:
        """The cell of its operations."""
        return self.aggressor if self.acts_on_aggressor else victim

    @property
    def leaves(self) -> int:
        """What a good cell with its operations holds after the first of them."""
        own = self.primitive.aggressor if self.acts_on_aggressor else None
        first = self.acts[0]
        return (own or self.primitive.victim).state if first == READ else int(first[1])


@dataclasses.dataclass
class Instance:
    """A primitive, or two linked ones, at cells that are numbered in ascending order; and whether other cells are below
    and above them."""

    name: str
    links: list[Link]
    victim: int
    below: bool = False
    above: bool = False


@dataclasses.dataclass
class DecoderInstance:
    """A fault of the address decoder. For two cells that answer together it says whether the address of both is the
    lower one."""

    name: str
    is_lower: bool = True

    def is_caught(self, operations: Sequence[str], down: bool, due: int, reads: Iterable[int]) -> bool:
        """Whether an element on cells that hold `due` catches it; `reads` are the bits that it expects. `decoder`
        decides by the same needs of single elements."""
        if self.name.startswith("none"):
            return 1 - int(self.name[-1]) in reads
        turns = operations[:1] == (READ,) and left_by(operations, due) != due
        if self.name == "other":
            return turns
        shows = {"both and": 1, "both or": 0}.get(self.name)
        return turns and (due == shows or self.is_lower != down)


def left_by(operations: Sequence[str], due: int) -> int:
    """What a good cell holds after these operations."""
    for operation in reversed(operations):
        if operation != READ:
            return int(operation[1])
    return due


def instances_of(text: str) -> list[Instance]:
    """The instances of a primitive that decide. A primitive of two operations in sequence also has some between other
    cells, which separate the two."""
    primitive = read_primitive(text)
    around = [(False, False)]
    if len(primitive.operations) == 2:
        around = [(below, above) for below in (False, True) for above in (False, True)]
    made = []
    for below, above in around:
        if primitive.aggressor is not None:
            made += [Instance(text, [Link(primitive, 1 - victim)], victim, below, above) for victim in (0, 1)]
        elif below or above or len(around) == 1:
            made.append(Instance(text, [Link(primitive, None)], 0, below, above))
    return made


def linked_instances(name: str, first: str, second: str) -> list[Instance]:
    """The instances of a link, with its cells in each order. Both primitives of LF2aa have one aggressor, and those of
    LF3 have two."""
    both = [read_primitive(text) for text in (first, second)]
    roles = ["v", *("ab"[count] for count, it in enumerate(both) if it.aggressor is not None)]
    if name.startswith("LF2aa"):
        roles = ["v", "a"]
    made = []
    for order in itertools.permutations(range(len(roles))):
        place = dict(zip(roles, order))
        at = [
            place["a" if name.startswith("LF2aa") else "ab"[count]] if it.aggressor else None
            for count, it in enumerate(both)
        ]
        made.append(Instance(name, [Link(it, cell) for it, cell in zip(both, at)], place["v"]))
    return made


# two cells that answer together, or the address's own alone
BOTH = ("both and", "both or", "both own")


def decoder_instances() -> list[DecoderInstance]:
    """The instances of a wrong decoder."""
    made = [DecoderInstance(name) for name in ("none 0", "none 1", "other")]
    return made + [DecoderInstance(name, lower) for name in BOTH for lower in (True, False)]
