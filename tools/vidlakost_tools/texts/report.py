"""Reports of `judge` and `compile`: their reader, line by line, and their escapes as arrays."""
from __future__ import annotations

import collections
import dataclasses
import re
from typing import NoReturn, Protocol, Sequence

from vidlakost_tools.program import ask
from vidlakost_tools.temporary import folder_of_its_own
from vidlakost_tools.text import Path, lines_of, read_text
from vidlakost_tools.texts.faults import Array, read_primitive
from vidlakost_tools.texts.march import Element, elements_of, length_of
from vidlakost_tools.tool import ToolError

# the parts of a report's lines, with the most that each may have
ITEM = r"(?P<primitive><[01wrt;]{1,24}/[01]/[-01]>) (?P<kind>[A-Za-z0-9]{1,8})"
COUNT = "[0-9]{1,9}"
ESCAPE = re.compile(
    rf"escape {ITEM} (?:cells (?P<cells>[2-5]) )?aggressor (?P<aggressor>none|[0-4]) "
    "victim (?P<victim>[0-4]) content (?P<content>[01]{2,5}) directions (?P<directions>[ud]{1,64})"
)
COVERED = re.compile(f"covered {ITEM}")
CLASS = re.compile(rf"class (?P<kind>[A-Za-z0-9]{{1,8}}) (?P<count>{COUNT}) covered (?P<covered>{COUNT})")
TOTAL = re.compile(rf"total (?P<count>{COUNT}) covered (?P<covered>{COUNT}) escapes (?P<escapes>{COUNT})")
SHAPE = re.compile(
    rf"memory (?P<name>[A-Za-z_][A-Za-z0-9_$]{{0,63}}) words (?P<words>{COUNT}) bits (?P<bits>{COUNT}) "
    rf"backgrounds (?P<backgrounds>{COUNT}) commands (?P<commands>{COUNT})"
)


class Judged(Protocol):
    """The verdict on a primitive, wherever its cells are."""

    kind: str

    @property
    def covered(self) -> bool:
        """Whether the march covers it."""


@dataclasses.dataclass
class Verdict:
    """A line of a report on a primitive; `content` is empty if it is covered."""

    primitive: str
    kind: str
    aggressor: int | None = None
    victim: int = 0
    content: str = ""
    directions: str = ""

    @property
    def covered(self) -> bool:
        return not self.content

    @property
    def is_dynamic(self) -> bool:
        return self.kind.startswith("DYN")

    def array(self) -> Array:
        """The array of an escape."""
        return Array(read_primitive(self.primitive), self.aggressor, self.victim, self.content)

    def as_object(self) -> dict[str, object]:
        made: dict[str, object] = {"primitive": self.primitive, "class": self.kind, "covered": self.covered}
        if not self.covered:
            made["escape"] = {
                "cells": len(self.content),
                "aggressor": self.aggressor,
                "victim": self.victim,
                "content": self.content,
                "directions": self.directions,
            }
        return made

    def words(self, march: Path) -> list[str]:
        """The call of `sim` that replays an escape of a static primitive."""
        aggressor = "none" if self.aggressor is None else str(self.aggressor)
        return [
            "sim",
            str(march),
            self.primitive,
            str(len(self.content)),
            self.content,
            aggressor,
            str(self.victim),
            self.directions,
        ]


@dataclasses.dataclass
class Report:
    """A report of `judge` or `compile`."""

    march: str
    elements: list[Element]
    memory: dict[str, str | int] | None
    verdicts: list[Verdict]
    classes: dict[str, tuple[int, int]]
    total: tuple[int, int, int]

    @property
    def escapes(self) -> list[Verdict]:
        return [verdict for verdict in self.verdicts if not verdict.covered]

    def as_object(self) -> dict[str, object]:
        """The report in the schema of `tools/report --json`."""
        made: dict[str, object] = {
            "schema": "vidlakost-report-1",
            "march": self.march,
            "length": length_of(self.elements),
        }
        if self.memory:
            made["memory"] = self.memory
        made["verdicts"] = [verdict.as_object() for verdict in self.verdicts]
        made["classes"] = {
            kind: {"primitives": count, "covered": covered} for kind, (count, covered) in self.classes.items()
        }
        made["total"] = dict(zip(("primitives", "covered", "escapes"), self.total))
        return made


def verdict_of(line: str) -> Verdict | None:
    match = COVERED.fullmatch(line)
    if match:
        return Verdict(match["primitive"], match["kind"])
    match = ESCAPE.fullmatch(line)
    if match is None:
        return None
    aggressor = None if match["aggressor"] == "none" else int(match["aggressor"])
    return Verdict(
        match["primitive"], match["kind"], aggressor, int(match["victim"]), match["content"], match["directions"]
    )


def check_escape(verdict: Verdict, elements: list[Element]) -> str | None:
    """Why the line of an escape fits no array of this march; None if it fits one."""
    primitive = read_primitive(verdict.primitive)
    cells = len(verdict.content)
    if (primitive.aggressor is None) != (verdict.aggressor is None):
        return "the aggressor does not fit the primitive"
    if max(verdict.victim, verdict.aggressor or 0) >= cells or verdict.victim == verdict.aggressor:
        return "a cell is outside the array"
    if len(verdict.directions) != len(elements):
        return f"there are {len(verdict.directions)} directions for {len(elements)} elements"
    return None


def classes_of(verdicts: Sequence[Judged]) -> dict[str, tuple[int, int]]:
    """For each class: how many primitives there are, and how many of them are covered."""
    count = collections.Counter(verdict.kind for verdict in verdicts)
    covered = collections.Counter(verdict.kind for verdict in verdicts if verdict.covered)
    return {kind: (of, covered[kind]) for kind, of in count.items()}


def read_report(path: Path) -> Report:
    """The report of a file, line by line. Any other text is refused, with the first wrong line."""
    lines = lines_of(read_text(path))

    def refuse(count: int, why: object) -> NoReturn:
        raise ToolError(f"{path}:{count}: {why}; this is no report of `judge` or `compile`")

    if not lines or not re.fullmatch(r"march [{}();,a-z0-9]+", lines[0]):
        refuse(1, "the first line is no march")
    try:
        elements = elements_of(lines[0][len("march ") :])
    except ToolError as error:
        refuse(1, error)
    total = TOTAL.fullmatch(lines[-1])
    if total is None:
        refuse(len(lines), "the last line is no total")
    report = Report(lines[0][len("march ") :], elements, None, [], {}, (int(total[1]), int(total[2]), int(total[3])))
    for count, line in enumerate(lines[1:-1], 2):
        why = take_line(report, line, count == 2)
        if why:
            refuse(count, why)
    counts = len(report.verdicts), len(report.verdicts) - len(report.escapes), len(report.escapes)
    if counts != report.total:
        refuse(
            len(lines),
            f"the total says {report.total[0]} primitives, {report.total[1]} covered and {report.total[2]} "
            f"escapes, but the lines have {counts[0]}, {counts[1]} and {counts[2]}",
        )
    if report.classes != classes_of(report.verdicts):
        refuse(len(lines), "the lines of the classes above do not fit the primitives")
    return report


def judged(march: Path, faults: Path) -> Report:
    """The report of `judge` on a march and a list."""
    with folder_of_its_own() as folder:
        path = folder / "report"
        ask("judge", march, faults, path)
        return read_report(path)


def take_line(report: Report, line: str, is_second: bool) -> str | None:
    """Adds a line to a report. Returns why it is no line of a report, or None."""
    shape, kind, verdict = SHAPE.fullmatch(line), CLASS.fullmatch(line), verdict_of(line)
    if shape and is_second:
        report.memory = {key: value if key == "name" else int(value) for key, value in shape.groupdict().items()}
    elif kind:
        report.classes[kind["kind"]] = (int(kind["count"]), int(kind["covered"]))
    elif verdict and not report.classes:
        report.verdicts.append(verdict)
        if len(report.verdicts) > 1024:
            return "this is the 1,025th primitive, but a list has at most 1,024"
        try:
            return None if verdict.covered else check_escape(verdict, report.elements)
        except ToolError as error:
            return str(error)
    else:
        return "a report has no such line"
    return None
