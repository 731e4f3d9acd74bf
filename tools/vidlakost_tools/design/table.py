"""The short marches of `examples/shortest`: their reader, and their part of the gallery."""
from __future__ import annotations

import dataclasses
import functools
import pathlib
from typing import Callable, Iterator, List, Optional, Sequence, Set

from vidlakost_tools.design.parts import Parts, parts_of
from vidlakost_tools.design.wishes import fits_inside
from vidlakost_tools.program import ROOT, with_text
from vidlakost_tools.text import beside, lines_of, read_text
from vidlakost_tools.texts.decoder import decoded
from vidlakost_tools.texts.linked import linked
from vidlakost_tools.texts.march import elements_of, length_of
from vidlakost_tools.texts.report import Report, judged
from vidlakost_tools.tool import ToolError

FILE = ROOT / "examples" / "shortest"
MARCHES = ROOT / "examples" / "marches"
# every primitive
LIST = "all\nDRF\ndyn1\ndyn2\n"
# what a march covers beside a list, and its column in the tables
BESIDE = {"-": "", "decoder": "AF", "linked": "LF", "inword": "inside a word"}
# the memories inside whose words a march covers as much as March SS
MEMORIES = ("buffer", "cache", "pipelined", "wide")
TITLE = "## Shortest marches"
INTRODUCTION = beside(__file__, "table_introduction.md")
SAME = beside(__file__, "table_same.md")


@dataclasses.dataclass
class Entry:
    """A march: the words of its list (`-`: none; or `as` and the file of a march that covers the same), what it covers
    beside that, the lower bound, its text, and what showed the bound (nothing: a search of all shorter ones by
    `design`)."""

    words: List[str]
    beside: str
    least: int
    march: str
    shown_by: str = ""

    @property
    def file(self) -> str:
        """The march that covers the same; None if the words name a list."""
        return self.words[1] if self.words[:1] == ["as"] else ""

    @property
    def length(self) -> str:
        return length_of(elements_of(self.march))

    @property
    def is_shortest(self) -> bool:
        return sum(len(element.operations) for element in elements_of(self.march)) == self.least

    @property
    def at_least(self) -> str:
        by = f", by `{self.shown_by}`" if self.shown_by else ""
        # every march has an operation, so the table leaves that out
        return f"shortest{by}" if self.is_shortest else f"{self.least}n{by}" if self.least > 1 else ""

    def names(self) -> List[str]:
        """The primitives that it covers, as the program reads the list or judges the other march."""
        if self.file:
            return [it.primitive for it in everything(MARCHES / self.file).verdicts if it.covered]
        return [it.primitive for it in with_text("any(w0)", functools.partial(of_list, "\n".join(self.words))).verdicts]

    def look(self) -> None:
        """Ends with an error if the program says that something escapes."""
        names = "\n".join(self.names())
        escapes = [it.primitive for it in with_text(self.march, functools.partial(of_list, names)).escapes]
        if self.beside == "decoder":
            escapes += [it.primitive for it in with_text(self.march, decoded).escapes]
        if self.beside == "linked":
            escapes += [it.primitive for it in with_text(self.march, linked).escapes]
        if self.beside == "inword" and not is_fit_inside(self.march):
            raise ToolError(f"{FILE}: {self.march} covers less inside some word than March SS")
        if escapes:
            raise ToolError(f"{FILE}: {self.march} of {' '.join(self.words)} does not cover {escapes[0]}")


def check(found: Sequence[Entry]) -> None:
    """Ends with an error if a bound is less than that of a line whose faults are all among these. A list that holds
    another needs as many operations."""
    names = [set(it.names()) for it in found]
    for it, own in zip(found, names):
        for other, others in zip(found, names):
            if others <= own and other.beside in ("-", it.beside) and other.least > it.least:
                words, known = " ".join(it.words) or "-", " ".join(other.words) or "-"
                raise ToolError(f"{FILE}: {words} needs {other.least}n at least, as {known} does, and not {it.least}n")


def of_list(text: str, march: pathlib.Path) -> Report:
    return with_text(text + "\n", lambda faults: judged(march, faults))


def everything(march: pathlib.Path) -> Report:
    return of_list(LIST, march)


@dataclasses.dataclass
class Published:
    """A march of the literature: its file, its name, its length, and what it covers."""

    file: str
    name: str
    length: str
    operations: int
    covered: Set[str]
    has_decoder: bool
    has_links: bool
    source: str = ""

    def covers(self, names: Set[str], beside: str) -> bool:
        return (
            names <= self.covered
            and (beside != "decoder" or self.has_decoder)
            and (beside != "linked" or self.has_links)
            and (beside != "inword" or is_fit_inside(read_text(MARCHES / self.file)))
        )


@functools.lru_cache(maxsize=None)
def insides() -> List[Callable[[Parts], bool]]:
    """Of each memory whether a march covers enough inside its words."""
    examples = ROOT / "examples"
    return [fits_inside(str(examples / f"{name}.mem"), str(examples / "all.list")) for name in MEMORIES]


def is_fit_inside(march: str) -> bool:
    parts = parts_of(elements_of(march))
    return all(fits(parts) for fits in insides())


def entries() -> List[Entry]:
    """The lines of the file."""
    made = []
    for number, line in enumerate(lines_of(read_text(FILE)), 1):
        if line and not line.startswith("#"):
            parts = [part.strip() for part in line.split("|")]
            least, _, shown_by = parts[2].partition(" ") if len(parts) == 4 else ("", "", "")
            if len(parts) != 4 or parts[1] not in BESIDE or not least.isdecimal():
                raise ToolError(
                    f"{FILE}:{number}: the line needs a list, what is covered beside it, a number and a march"
                )
            words = [] if parts[0] == "-" else parts[0].split()
            made.append(Entry(words, parts[1], int(least), parts[3], shown_by))
    return made


def bound_of(names: Set[str], beside: Set[str]) -> Optional[Entry]:
    """The line with the greatest bound of those that another program showed, whose faults are all among these."""
    known = [it for it in entries() if it.shown_by and it.beside in ("-", *beside) and set(it.names()) <= names]
    return max(known, key=lambda it: it.least) if known else None


def listed(found: Sequence[Entry], marches: Sequence[Published]) -> Iterator[str]:
    """The rows of lists."""
    for it in found:
        names = set(it.names())
        same = [march for march in marches if march.covers(names, it.beside)]
        least = [march for march in same if march.operations == min(other.operations for other in same)]
        literature = ", ".join([*(march.name for march in least), least[0].length]) if least else ""
        words = " ".join([*it.words, *([BESIDE[it.beside]] if BESIDE[it.beside] else [])])
        yield f"| {words} | {it.length} | {it.at_least} | `{it.march}` | {literature} |"


def section(marches: Sequence[Published]) -> str:
    """The part of the gallery."""
    found = entries()
    check(found)
    for it in found:
        it.look()
    by_file = {march.file: march for march in marches}
    rows = [*listed([it for it in found if not it.file], marches)]
    pairs = [(by_file[it.file], it) for it in found if it.file]
    same = [f"| {march.name} | {march.length} | {it.length} | {it.at_least} | `{it.march}` |" for march, it in pairs]
    return INTRODUCTION + "\n".join(rows) + "\n" + SAME + "\n".join(same) + "\n"
