"""Fault primitives, and one array of cells with one instance of a primitive, modelled by the definition."""
from __future__ import annotations

import dataclasses
import re
from typing import Iterator

from vidlakost_tools.texts.march import Element
from vidlakost_tools.tool import ToolError


@dataclasses.dataclass
class Sense:
    """The state of a cell, and the operations on it that sensitise: `w0`, `w1`, `r0`, `r1` or `t`."""

    state: int
    operations: list[str]


@dataclasses.dataclass
class Primitive:
    """A primitive `<S/F/R>`: its senses, the victim's state afterwards, and the answer of a read (None: no read)."""

    aggressor: Sense | None
    victim: Sense
    after: int
    answer: int | None

    @property
    def operations(self) -> list[str]:
        return [*(self.aggressor.operations if self.aggressor else []), *self.victim.operations]


PRIMITIVE = re.compile(
    r"<(?:(?P<aggressor>[01]?(?:[wr][01]|t)*);)?(?P<victim>[01]?(?:[wr][01]|t)*)/(?P<after>[01])/(?P<answer>[-01])>"
)


def sense(text: str) -> Sense:
    """A sense. If it begins with a read, its state is the bit that the read expects."""
    text = text[1] + text if text[0] == "r" else text
    return Sense(int(text[0]), re.findall(r"[wr][01]|t", text[1:]))


def read_primitive(text: str) -> Primitive:
    """The primitive in a text of the grammar. Whether it describes a fault, the program decides."""
    match = PRIMITIVE.fullmatch("".join(text.split()))
    if match is None or any(
        part is not None and not re.match("[01r]", part) for part in (match["aggressor"], match["victim"])
    ):
        raise ToolError(f"'{text}' is no primitive")
    return Primitive(
        sense(match["aggressor"]) if match["aggressor"] is not None else None,
        sense(match["victim"]),
        int(match["after"]),
        None if match["answer"] == "-" else int(match["answer"]),
    )


def place_of(text: str) -> tuple[int, int]:
    """A cell of `benchfault`: the physical index of its word, and its bit."""
    match = re.fullmatch(r"([0-9]{1,9})\.([0-9]{1,9})", text)
    if match is None:
        raise ToolError(f"a cell is a word's physical index, a full stop and a bit, as 6.3, and not '{text}'")
    return int(match[1]), int(match[2])


@dataclasses.dataclass
class Step:
    """What an operation (or a pause, or the state before the march) did: the cells after it, what it read, and whether
    the primitive acted in it."""

    element: int | None
    operation: str
    cell: int | None
    cells: str
    answer: int | None
    acts: bool

    @property
    def differs(self) -> bool:
        return self.answer is not None and self.answer != int(self.operation[1])


class Array:
    """Some cells with one instance of a primitive, by the definition. A primitive without an operation acts wherever
    its states hold. One with a pause acts in each pause that finds its state. One with an operation acts in that
    operation. One with two operations acts in the second: it has to come right after the first, all states have to hold
    before the first, and the first has to leave in its cell what it leaves without a fault."""

    def __init__(self, primitive: Primitive, aggressor: int | None, victim: int, content: str):
        self.primitive, self.victim = primitive, victim
        self.cells = [int(digit) for digit in content]
        self.senses = {victim: primitive.victim}
        if primitive.aggressor is not None and aggressor is not None:
            self.senses[aggressor] = primitive.aggressor
        self.actor = next((cell for cell, part in self.senses.items() if part.operations), None)
        self.operations = primitive.operations
        self.armed = False

    def own_cell(self) -> int:
        """The cell of the operations, for a primitive that has some."""
        if self.actor is None:
            raise ToolError("the primitive has no operation")
        return self.actor

    def holds(self) -> bool:
        return all(self.cells[cell] == part.state for cell, part in self.senses.items())

    def close(self) -> bool:
        """Whether a primitive without operations changes the victim now."""
        acts = self.actor is None and self.holds() and self.cells[self.victim] != self.primitive.after
        if acts:
            self.cells[self.victim] = self.primitive.after
        return acts

    def shown(self) -> str:
        return "".join(map(str, self.cells))

    def pause(self) -> bool:
        self.armed = False
        acts = self.operations == ["t"] and self.holds()
        if acts:
            self.cells[self.victim] = self.primitive.after
        return acts

    def operate(self, cell: int, operation: str) -> tuple[int | None, bool]:
        """The answer of an operation on a cell (None: a write), and whether the primitive acted."""
        answer = self.cells[cell] if operation[0] == "r" else None
        seen = operation if answer is None else f"r{answer}"
        plain = int(operation[1]) if answer is None else answer
        held, here = self.holds(), cell == self.actor
        second = here and self.armed and self.operations[1:] == [seen]
        acts = second or here and held and self.operations == [seen]
        self.cells[cell] = plain
        if acts:
            self.cells[self.victim] = self.primitive.after
            answer = answer if self.primitive.answer is None else self.primitive.answer
        first = here and held and len(self.operations) == 2 and self.operations[0] == seen
        self.armed = first and self.cells[cell] == plain
        return answer, self.close() or acts

    def march(self, elements: list[Element], directions: str) -> Iterator[Step]:
        """The steps of a march up to the first read that differs."""
        yield Step(None, "", None, *self._behind(None, self.close()))
        for count, (element, direction) in enumerate(zip(elements, directions)):
            if element.is_pause:
                yield Step(count, "del", None, *self._behind(None, self.pause()))
                continue
            visits = range(len(self.cells))
            for cell in visits if direction == "u" else reversed(visits):
                for operation in element.operations:
                    step = Step(count, operation, cell, *self._behind(*self.operate(cell, operation)))
                    yield step
                    if step.differs:
                        return

    def _behind(self, answer: int | None, acts: bool) -> tuple[str, int | None, bool]:
        return self.shown(), answer, acts
