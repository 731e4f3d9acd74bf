"""The elements of a march that the program accepts."""
from __future__ import annotations

import dataclasses
import re

from vidlakost_tools.program import ask
from vidlakost_tools.text import BLANKS, Path, shown
from vidlakost_tools.tool import ToolError


@dataclasses.dataclass
class Element:
    """An element of a march: its text without blanks, its order (`del` for a pause), its operations, and where it and
    they begin in the text, in characters."""

    text: str
    order: str
    operations: list[str]
    at: int = 0
    places: list[int] = dataclasses.field(default_factory=list)

    @property
    def is_pause(self) -> bool:
        return self.order == "del"


ORDERS = {
    **dict.fromkeys(("up", "^", "⇑", "↑"), "up"),
    **dict.fromkeys(("down", "v", "⇓", "↓"), "down"),
    **dict.fromkeys(("any", "*", "⇕", "↕"), "any"),
    "del": "del",
}
OPERATION = re.compile("[rw][01]")


def read_elements(march: str) -> list[Element]:
    """The elements of a text of the grammar, however many."""
    opening = re.match(rf"[{BLANKS}\n]*\{{?[{BLANKS}\n]*", march)
    at = opening.end() if opening else 0
    body = march[at:].rstrip(f"{BLANKS}\n}}")
    elements = []
    for part in body.split(";") if body else []:
        bare = re.sub(f"[{BLANKS}\n]", "", part)
        match = re.fullmatch(r"([^(){}]+)(?:\(([rw][01](?:,[rw][01])*)\))?", bare)
        if match is None or match[1] not in ORDERS or (match[1] == "del") != (match[2] is None):
            raise ToolError(f"{shown(bare[:64])} is no element of a march")
        begin = at + len(part) - len(part.lstrip(f"{BLANKS}\n"))
        operations = list(OPERATION.finditer(part))
        places = [at + operation.start() for operation in operations]
        elements.append(Element(bare, ORDERS[match[1]], [operation[0] for operation in operations], begin, places))
        at += len(part) + 1
    return elements


def elements_of(march: str) -> list[Element]:
    """The elements of the text of an accepted march."""
    elements = read_elements(march)
    if not elements:
        raise ToolError("a march needs an element")
    if len(elements) > 64 or any(len(element.operations) > 16 for element in elements):
        raise ToolError("a march has at most 64 elements of at most 16 operations")
    return elements


def length_of(elements: list[Element]) -> str:
    """The length as the literature writes it: the operations on each of n words, and the pauses, as 23n+2D."""
    pauses = sum(element.is_pause for element in elements)
    return f"{sum(len(element.operations) for element in elements)}n" + (f"+{pauses}D" if pauses else "")


def march_of(path: Path) -> tuple[str, list[Element]]:
    """The printed form and the elements of the march in a file, as the program reads it."""
    printed = ask("show", "march", path)
    return printed, elements_of(printed)
