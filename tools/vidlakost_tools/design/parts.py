"""A march under construction: its elements, and the changes to a complete one."""
from __future__ import annotations

import dataclasses
import itertools
from typing import Iterator, List, NamedTuple, Sequence

from vidlakost_tools.design.instances import READ, left_by
from vidlakost_tools.design.survivors import Operations, Survivors, bare
from vidlakost_tools.texts.march import Element


class Part(NamedTuple):
    """An element: its order (`del` for a pause), and its operations, reads without their bits."""

    order: str
    operations: Operations = ()


Parts = List[Part]
PAUSE = Part("del")


@dataclasses.dataclass
class Limits:
    """What a march may have: operations of an element, elements, and pauses."""

    operations: int = 16
    elements: int = 64
    pauses: int = 0

    def allow(self, parts: Sequence[Part]) -> bool:
        return len(parts) <= self.elements and all(len(part.operations) <= self.operations for part in parts)


def way(down: bool) -> str:
    return "down" if down else "up"


def length(parts: Sequence[Part]) -> int:
    """The operations on each word."""
    return sum(len(part.operations) for part in parts)


def pauses(parts: Sequence[Part]) -> int:
    return sum(part.order == "del" for part in parts)


def parts_of(elements: Sequence[Element]) -> Parts:
    return [Part(element.order, bare(element.operations)) for element in elements]


def elements_from(parts: Sequence[Part]) -> list[Element]:
    """The elements with the bits that reads expect."""
    made, due = [], 0
    for part in parts:
        told = []
        for operation in part.operations:
            due = left_by([operation], due)
            told.append(f"r{due}" if operation == READ else operation)
        made.append(Element(f"{part.order}({','.join(told)})" if told else "del", part.order, told))
    return made


def text_of(parts: Sequence[Part]) -> str:
    return "{" + ";".join(element.text for element in elements_from(parts)) + "}"


def is_complete(survivors: Survivors, parts: Sequence[Part]) -> bool:
    """Whether nothing survives a march."""
    return not any(survivors.run(elements_from(parts))[0])


def shorter(parts: Sequence[Part], kept: int) -> Iterator[Parts]:
    """The march without one of its operations; its first `kept` elements stay as they are."""
    for place, part in enumerate(parts):
        if place < kept:
            continue
        for at in range(len(part.operations)):
            left = part.operations[:at] + part.operations[at + 1 :]
            made = [*parts[:place], *([Part(part.order, left)] if left else []), *parts[place + 1 :]]
            if made and made[0].operations[:1] not in ((), (READ,)):
                yield made


def trimmed(survivors: Survivors, parts: Parts, kept: int = 0) -> Parts:
    """A march that needs each of its operations."""
    while True:
        less = next((made for made in shorter(parts, kept) if is_complete(survivors, made)), None)
        if less is None:
            return parts
        parts = less


def with_pauses(survivors: Survivors, parts: Parts, kept: int = 0) -> Parts | None:
    """The march with those pauses that complete it."""
    for places in itertools.combinations(range(max(kept, 1), len(parts)), survivors.pauses):
        made: Parts = []
        for place, part in enumerate(parts):
            made += [PAUSE, part] if place in places else [part]
        if is_complete(survivors, made):
            return made
    return None


def opened(survivors: Survivors, parts: Parts, kept: int = 0) -> Parts:
    """The march with the order any wherever it stays complete, one element after the other."""
    for place, part in enumerate(parts):
        made = [*parts[:place], Part("any", part.operations), *parts[place + 1 :]]
        if place >= kept and part.order in ("up", "down") and is_complete(survivors, made):
            parts = made
    return parts
