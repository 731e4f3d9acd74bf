"""Reports of `decoder`: their reader, and a plain model of an array whose address decoder has one of its faults."""
from __future__ import annotations

import dataclasses
import re
from typing import Iterator

from vidlakost_tools.program import ask
from vidlakost_tools.temporary import folder_of_its_own
from vidlakost_tools.text import Path, lines_of, read_text
from vidlakost_tools.texts.faults import Step
from vidlakost_tools.texts.march import Element, elements_of
from vidlakost_tools.tool import ToolError

# the class of all of them, as the literature calls it, and their names in the order of a report
CLASS = "AF"
NAMES = ("none 0", "none 1", "other", "both and", "both or", "both own")
MEANS = "faults of the address decoder"
VERDICT = re.compile(
    f"(?P<verdict>covered|escape) (?P<name>{'|'.join(NAMES)})"
    "(?: x (?P<x>[01]) y (?P<y>[01]) content (?P<content>[01]{2}) directions (?P<directions>[ud]{1,64}))?"
)
TOTAL = re.compile("total 6 covered ([0-6]) escapes ([0-6])")


@dataclasses.dataclass
class DecoderVerdict:
    """A line of a report on a fault; `content` is empty if it is covered."""

    name: str
    x: int = 0
    y: int = 0
    content: str = ""
    directions: str = ""

    @property
    def covered(self) -> bool:
        return not self.content

    @property
    def primitive(self) -> str:
        """The key by which lists of verdicts name this one."""
        return self.name

    @property
    def kind(self) -> str:
        return CLASS

    def place(self, address: int) -> str:
        """The name of an address: x or y, and its number."""
        return f"{'x' if address == self.x else 'y'} {address}"

    def as_object(self) -> dict[str, object]:
        """The line in the schema of `tools/report --json`, without the cells of its escape."""
        made: dict[str, object] = {"primitive": self.primitive, "class": self.kind, "covered": self.covered}
        if not self.covered:
            made["escape"] = {
                "cells": len(self.content),
                "x": self.x,
                "y": self.y,
                "content": self.content,
                "directions": self.directions,
            }
        return made

    def reached(self, address: int) -> list[int]:
        """The cells that an address reaches."""
        if address != self.x or self.covered:
            return [address]
        if self.name == "other":
            return [self.y]
        return [self.x, self.y] if self.name.startswith("both") else []

    def answer(self, cells: list[int], address: int) -> int:
        """The answer of a read; the address's own cell is the first that is reached."""
        held = [cells[cell] for cell in self.reached(address)]
        if not held:
            return int(self.name[-1])
        return {"both and": min(held), "both or": max(held)}.get(self.name, held[0])

    def steps(self, elements: list[Element]) -> Iterator[Step]:
        """The steps of a march up to the first read that differs. The cell of a step is the address; it acts at x."""
        cells = [int(digit) for digit in self.content]
        yield Step(None, "", None, self.content, None, False)
        for count, (element, direction) in enumerate(zip(elements, self.directions)):
            if element.is_pause:
                yield Step(count, "del", None, "".join(map(str, cells)), None, False)
            for address in range(len(cells)) if direction == "u" else reversed(range(len(cells))):
                for operation in element.operations:
                    answer = self.answer(cells, address) if operation[0] == "r" else None
                    for cell in self.reached(address) if answer is None else []:
                        cells[cell] = int(operation[1])
                    step = Step(count, operation, address, "".join(map(str, cells)), answer, address == self.x)
                    yield step
                    if step.differs:
                        return


@dataclasses.dataclass
class DecoderReport:
    """A report of `decoder`."""

    march: str
    elements: list[Element]
    verdicts: list[DecoderVerdict]

    @property
    def escapes(self) -> list[DecoderVerdict]:
        return [verdict for verdict in self.verdicts if not verdict.covered]

    @property
    def covered(self) -> int:
        return len(self.verdicts) - len(self.escapes)


def verdict_of(line: str, name: str, elements: list[Element]) -> DecoderVerdict:
    """The verdict of a line on the fault of this name."""
    match = VERDICT.fullmatch(line)
    if match is None or match["name"] != name or (match["verdict"] == "covered") != (match["x"] is None):
        raise ToolError(f"the line is no verdict on {name}")
    if match["verdict"] == "covered":
        return DecoderVerdict(name)
    if match["x"] == match["y"] or len(match["directions"]) != len(elements):
        raise ToolError("the array of the escape does not fit the march")
    return DecoderVerdict(name, int(match["x"]), int(match["y"]), match["content"], match["directions"])


def is_report(path: Path) -> bool:
    """Whether a file looks like a report of `decoder`: its second line is the verdict on the first fault."""
    return any(re.match(f"(covered|escape) {NAMES[0]}", line) for line in lines_of(read_text(path))[1:2])


def read_report(path: Path) -> DecoderReport:
    """The report of a file, line by line. Any other text is refused, with the first wrong line."""
    lines = lines_of(read_text(path))
    if len(lines) != 2 + len(NAMES) or not re.fullmatch(r"march [{}();,a-z0-9]+", lines[0]):
        raise ToolError(f"{path}: this is no report of `decoder`")
    elements = elements_of(lines[0][len("march ") :])
    report = DecoderReport(lines[0][len("march ") :], elements, [])
    for count, (line, name) in enumerate(zip(lines[1:-1], NAMES), 2):
        try:
            report.verdicts.append(verdict_of(line, name, elements))
        except ToolError as error:
            raise ToolError(f"{path}:{count}: {error}; this is no report of `decoder`") from error
    total = TOTAL.fullmatch(lines[-1])
    if total is None or (int(total[1]), int(total[2])) != (report.covered, len(report.escapes)):
        raise ToolError(f"{path}:{len(lines)}: the total does not fit the lines; this is no report of `decoder`")
    return report


def decoded(march: Path) -> DecoderReport:
    """The report of `decoder` on a march."""
    with folder_of_its_own() as folder:
        path = folder / "report"
        ask("decoder", march, path)
        return read_report(path)


# ---- why an escape escapes


def turned(element: Element) -> str | None:
    """The read with which an element turns a bit: its first operation is that read, and it leaves the other bit."""
    last = next((operation for operation in reversed(element.operations) if operation[0] == "w"), None)
    first = element.operations[0] if element.operations else ""
    return first if last is not None and first[:1] == "r" and first[1] != last[1] else None


def reason(verdict: DecoderVerdict, elements: list[Element]) -> tuple[str, list[Step]]:
    """Why an escape escapes, and its steps."""
    steps = list(verdict.steps(elements))
    if steps[-1].differs:
        return f"is caught in element {steps[-1].element}, so it is no escape", steps
    kind, _, end = verdict.name.partition(" ")
    if kind == "none":
        return f"a read of x answers {end}, and no read expects {1 - int(end)}", steps
    turning = [(count, turned(element)) for count, element in enumerate(elements) if turned(element)]
    if not turning:
        return "no element begins with a read of a bit and leaves the other, so x and y always answer alike", steps
    shows = "its own cell holds" if end == "own" else f"the {end} of both cells is"
    told = [f"in element {count} y comes first, and {shows} what {read} of x expects" for count, read in turning]
    return "; ".join(told), steps
