"""Reports of `linked`: their reader, and a plain model of an array of three cells with two linked primitives."""
from __future__ import annotations

import dataclasses
import re
from typing import Iterator

from vidlakost_tools.program import ask
from vidlakost_tools.temporary import folder_of_its_own
from vidlakost_tools.text import Path, lines_of, read_text
from vidlakost_tools.texts.faults import Primitive, Step, read_primitive
from vidlakost_tools.texts.march import Element, elements_of
from vidlakost_tools.tool import ToolError

# the kinds in the order of a report, how many links each has, and what it is
KINDS = {"LF1": 12, "LF2aa": 240, "LF2av": 48, "LF2va": 60, "LF3": 240}
MEANS = {
    "LF1": "linked faults of one cell",
    "LF2aa": "linked faults of two cells: both primitives have the same aggressor",
    "LF2av": "linked faults of two cells: the first primitive alone has an aggressor",
    "LF2va": "linked faults of two cells: the second primitive alone has an aggressor",
    "LF3": "linked faults of three cells: each primitive has an aggressor of its own",
}
# the inversion couplings: by one write of the aggressor, from either state of the victim to the other
CFIN = "CFin"
INVERSIONS = ("LF2aa <0w1;0/1/-> <0w1;1/0/->", "LF2aa <1w0;0/1/-> <1w0;1/0/->")
# of the kinds whose two primitives differ in their cells: the kind with the two exchanged
EXCHANGED = {"LF2av": "LF2va", "LF2va": "LF2av"}
LINK = f"(?P<kind>{'|'.join(KINDS)}) (?P<first><[^ ]+>) (?P<second><[^ ]+>)"
VERDICT = re.compile(
    f"(?P<verdict>covered|escape) {LINK}(?: a (?P<a>[012]|none) b (?P<b>[012]|none) v (?P<v>[012]) content"
    " (?P<content>[01]{3}) directions (?P<directions>[ud]{1,64}))?"
)


@dataclasses.dataclass
class LinkedStep(Step):
    """A step of a march on three cells; `acting` is the primitive that acts in it, 1 or 2, or 0 if none does."""

    acting: int = 0


@dataclasses.dataclass
class LinkVerdict:
    """A line of a report on a link; `content` is empty if it is covered."""

    kind: str
    first: str
    second: str
    a: int | None = None
    b: int | None = None
    v: int = 0
    content: str = ""
    directions: str = ""

    @property
    def covered(self) -> bool:
        return not self.content

    @property
    def primitive(self) -> str:
        """The key by which lists of verdicts name this one."""
        return f"{self.kind} {self.first} {self.second}"

    @property
    def exchanged(self) -> str:
        """The key of the link with its two primitives exchanged, which is the same device."""
        return f"{EXCHANGED.get(self.kind, self.kind)} {self.second} {self.first}"

    def role(self, cell: int) -> str:
        """The roles of a cell in the two primitives."""
        roles = [name for name, at in (("a", self.a), ("b", self.b), ("v", self.v)) if at == cell]
        return " ".join(roles)

    def place(self, cell: int) -> str:
        return f"cell {cell}"

    def as_object(self) -> dict[str, object]:
        """The line in the schema of `tools/report --json`, without the cells of its escape."""
        made: dict[str, object] = {"primitive": self.primitive, "class": self.kind, "covered": self.covered}
        if not self.covered:
            made["escape"] = {
                "cells": len(self.content),
                "a": self.a,
                "b": self.b,
                "v": self.v,
                "content": self.content,
                "directions": self.directions,
            }
        return made

    def steps(self, elements: list[Element]) -> Iterator[LinkedStep]:
        """The steps of a march up to the first read that differs."""
        run = LinkedRun(self)
        yield LinkedStep(None, "", None, self.content, None, False)
        for count, (element, direction) in enumerate(zip(elements, self.directions)):
            if element.is_pause:
                yield LinkedStep(count, "del", None, run.shown(), None, False)
            for cell in range(3) if direction == "u" else reversed(range(3)):
                for operation in element.operations:
                    answer, acting = run.act(cell, operation)
                    step = LinkedStep(count, operation, cell, run.shown(), answer, acting > 0, acting)
                    yield step
                    if step.differs:
                        return


class LinkedRun:
    """Three cells with two linked primitives, by the definition. First comes the plain part of an operation. Then comes
    the effect of the primitive that has this operation, if all its states held before."""

    def __init__(self, verdict: LinkVerdict):
        self.cells = [int(digit) for digit in verdict.content]
        self.victim = verdict.v
        self.links = [(read_primitive(verdict.first), verdict.a), (read_primitive(verdict.second), verdict.b)]

    def shown(self) -> str:
        return "".join(map(str, self.cells))

    def is_own(self, primitive: Primitive, aggressor: int | None, cell: int, operation: str) -> bool:
        """Whether the operation is that of the primitive, and finds its states."""
        parts = [(self.victim, primitive.victim)]
        if primitive.aggressor is not None and aggressor is not None:
            parts.append((aggressor, primitive.aggressor))
        holds = all(self.cells[at] == part.state for at, part in parts)
        done = f"r{self.cells[cell]}" if operation[0] == "r" else operation
        return holds and any(at == cell and part.operations == [done] for at, part in parts)

    def act(self, cell: int, operation: str) -> tuple[int | None, int]:
        """The answer of an operation on a cell, and which primitive acts in it."""
        own = [count for count, (it, at) in enumerate(self.links, 1) if self.is_own(it, at, cell, operation)]
        answer = self.cells[cell] if operation[0] == "r" else None
        if operation[0] == "w":
            self.cells[cell] = int(operation[1])
        if not own:
            return answer, 0
        primitive = self.links[own[0] - 1][0]
        self.cells[self.victim] = primitive.after
        return (answer if primitive.answer is None else primitive.answer), own[0]


@dataclasses.dataclass
class LinkedReport:
    """A report of `linked`."""

    march: str
    elements: list[Element]
    verdicts: list[LinkVerdict]

    @property
    def escapes(self) -> list[LinkVerdict]:
        return [verdict for verdict in self.verdicts if not verdict.covered]

    @property
    def kinds(self) -> dict[str, tuple[int, int]]:
        """For each kind: how many links there are, and how many of them are covered."""
        return {
            kind: (count, sum(it.covered for it in self.verdicts if it.kind == kind)) for kind, count in KINDS.items()
        }

    @property
    def covered(self) -> int:
        return len(self.verdicts) - len(self.escapes)

    @property
    def devices(self) -> tuple[int, int]:
        """How many different devices there are, and how many of them are covered."""
        place = {verdict.primitive: count for count, verdict in enumerate(self.verdicts)}
        once = [it for count, it in enumerate(self.verdicts) if place.get(it.exchanged, count) >= count]
        return len(once), sum(verdict.covered for verdict in once)

    @property
    def inversions(self) -> tuple[int, int]:
        """How many inversion couplings there are, and how many of them are covered."""
        return len(INVERSIONS), len({it.primitive for it in self.verdicts if it.covered} & {*INVERSIONS})


def verdict_of(line: str, elements: list[Element]) -> LinkVerdict:
    """The verdict of a line."""
    match = VERDICT.fullmatch(line)
    if match is None or (match["verdict"] == "covered") != (match["a"] is None):
        raise ToolError("the line is no verdict on a link")
    verdict = LinkVerdict(match["kind"], match["first"], match["second"])
    if match["verdict"] == "covered":
        return verdict
    verdict.a, verdict.b = (None if match[name] == "none" else int(match[name]) for name in ("a", "b"))
    verdict.v, verdict.content, verdict.directions = int(match["v"]), match["content"], match["directions"]
    has_aggressor = [read_primitive(text).aggressor is not None for text in (verdict.first, verdict.second)]
    if has_aggressor != [verdict.a is not None, verdict.b is not None] or verdict.v in (verdict.a, verdict.b):
        raise ToolError("the cells of the escape do not fit its primitives")
    if len(verdict.directions) != len(elements):
        raise ToolError("the array of the escape does not fit the march")
    return verdict


def is_report(path: Path) -> bool:
    """Whether a file looks like a report of `linked`: its second line is the verdict on a link."""
    return any(re.match(f"(covered|escape) {LINK}", line) for line in lines_of(read_text(path))[1:2])


def read_report(path: Path) -> LinkedReport:
    """The report of a file, line by line. Any other text is refused, with the first wrong line."""
    lines = lines_of(read_text(path))
    count = sum(KINDS.values())
    if len(lines) != count + len(KINDS) + 3 or not re.fullmatch(r"march [{}();,a-z0-9]+", lines[0]):
        raise ToolError(f"{path}: this is no report of `linked`")
    elements = elements_of(lines[0][len("march ") :])
    report = LinkedReport(lines[0][len("march ") :], elements, [])
    for number, line in enumerate(lines[1 : count + 1], 2):
        try:
            report.verdicts.append(verdict_of(line, elements))
        except ToolError as error:
            raise ToolError(f"{path}:{number}: {error}; this is no report of `linked`") from error
    told = [
        f"kind {kind} total {of} covered {covered} escapes {of - covered}"
        for kind, (of, covered) in report.kinds.items()
    ]
    devices, covered_devices = report.devices
    told.append(f"devices total {devices} covered {covered_devices} escapes {devices - covered_devices}")
    told.append(f"total {count} covered {report.covered} escapes {len(report.escapes)}")
    for number, (line, right) in enumerate(zip(lines[count + 1 :], told), count + 2):
        if line != right:
            raise ToolError(f"{path}:{number}: the count does not fit the lines; this is no report of `linked`")
    return report


def linked(march: Path) -> LinkedReport:
    """The report of `linked` on a march."""
    with folder_of_its_own() as folder:
        path = folder / "report"
        ask("linked", march, path)
        return read_report(path)


# ---- why an escape escapes


def good_bit(verdict: LinkVerdict, steps: list[LinkedStep]) -> str:
    """What a good victim holds after these steps."""
    written = [step.operation[1] for step in steps if step.cell == verdict.v and step.operation[0] == "w"]
    return written[-1] if written else verdict.content[verdict.v]


def fate(verdict: LinkVerdict, steps: list[LinkedStep], place: int) -> str:
    """What hides the wrong bit that the first primitive leaves in a step."""
    for count, step in enumerate(steps[place + 1 :], place + 2):
        if step.acting == 2:
            is_hidden = step.cells[verdict.v] == good_bit(verdict, steps[:count])
            return f"{verdict.second} {'hides it' if is_hidden else 'acts on it'} in element {step.element}"
        if step.cell == verdict.v and step.operation[0] == "w":
            return f"{step.operation} in element {step.element} writes over it before a read"
        if step.cell == verdict.v:
            return f"{step.operation} in element {step.element} reads what it expects"
    return "the victim is not visited again"


def reason(verdict: LinkVerdict, elements: list[Element]) -> tuple[str, list[LinkedStep]]:
    """Why an escape escapes, and its steps."""
    steps = list(verdict.steps(elements))
    if steps[-1].differs:
        return f"is caught in element {steps[-1].element}, so it is no escape", steps
    found = [
        f"{verdict.first} acts in element {step.element}, and {fate(verdict, steps, place)}"
        for place, step in enumerate(steps)
        if step.acting == 1
    ]
    if not found and any(step.acting == 2 for step in steps):
        return f"{verdict.first} never acts, and no read shows what {verdict.second} does", steps
    return "; ".join(dict.fromkeys(found)) or "neither primitive acts", steps
