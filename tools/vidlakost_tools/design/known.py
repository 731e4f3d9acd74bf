"""What is known of the shortest marches, a row a list: a part of the gallery."""
from __future__ import annotations

import dataclasses
from typing import Dict, Iterator, List, Sequence, Tuple

from vidlakost_tools.design.table import BESIDE, Entry, Published, entries
from vidlakost_tools.program import ROOT
from vidlakost_tools.text import beside, lines_of, read_text
from vidlakost_tools.tool import ToolError

FILE = ROOT / "examples" / "published"
CLASSES = ("SF", "TF", "WDF", "RDF", "DRDF", "IRF", "CFst", "CFds", "CFtr", "CFwd", "CFrd", "CFdr", "CFir", "DRF")
# the rows: the words of a list, and what a march covers beside it
ROWS: Tuple[Tuple[str, str], ...] = (
    *((words, "-") for words in CLASSES),
    ("all", "-"),
    ("dyn1", "-"),
    ("dyn1 dyn2", "-"),
    ("all dyn1", "-"),
    ("", "linked"),
    ("all", "linked"),
    ("all", "decoder"),
    ("all", "inword"),
    ("all DRF", "-"),
)
INTRODUCTION = beside(__file__, "known.md")


@dataclasses.dataclass
class Claimed:
    """A march without its text: what its authors say that it covers."""

    entry: Entry
    name: str
    length: str
    source: str

    @property
    def operations(self) -> int:
        return int(self.length.partition("n")[0])

    def covers(self, row: Entry) -> bool:
        return row.beside in ("-", self.entry.beside) and set(row.names()) <= set(self.entry.names())


def claimed() -> List[Claimed]:
    """The lines of the file."""
    made = []
    for number, line in enumerate(lines_of(read_text(FILE)), 1):
        if line and not line.startswith("#"):
            parts = [part.strip() for part in line.split("|")]
            if len(parts) != 5 or parts[1] not in ("-", "linked"):
                raise ToolError(f"{FILE}:{number}: the line needs a list, `-` or `linked`, a name, a length, a source")
            words, what, *rest = parts
            made.append(Claimed(Entry(words.split(), what, 0, ""), *rest))
    return made


class Sources:
    """The sources of a table, numbered as they come up."""

    def __init__(self) -> None:
        self.numbers: Dict[str, int] = {}

    def named(self, marches: Sequence[Tuple[str, str, str]]) -> str:
        """Marches of one length, of each its name, its source and its length; with the numbers of the sources."""
        told = [f"{name} [{self.numbers.setdefault(source, len(self.numbers) + 1)}]" for name, source, _ in marches]
        return ", ".join([*told, *(length for _, _, length in marches[:1])])

    def lines(self) -> Iterator[str]:
        for source, number in self.numbers.items():
            yield f"{number}. {source}."


def published(row: Entry, marches: Sequence[Published], claims: Sequence[Claimed], sources: Sources) -> List[str]:
    """The shortest marches of the literature: not judged if they are shorter, and judged."""
    judged = [it for it in marches if it.covers(set(row.names()), row.beside)]
    least = min((it.operations for it in judged), default=0)
    said = [it for it in claims if it.covers(row) and (not least or it.operations < least)]
    first = min((it.operations for it in said), default=0)
    named = [(it.name, it.source, it.length) for it in said if it.operations == first]
    shortest = [(it.name, it.source, it.length) for it in judged if it.operations == least]
    return [sources.named(named), sources.named(shortest)]


def known(marches: Sequence[Published]) -> str:
    """The part of the gallery."""
    lines = {(" ".join(it.words), it.beside): it for it in entries() if not it.file}
    claims, sources, rows = claimed(), Sources(), []
    for key in ROWS:
        it = lines[key]
        faults = " ".join([*it.words, *([BESIDE[it.beside]] if BESIDE[it.beside] else [])])
        bound = "shortest" if it.is_shortest else f"{it.least}n"
        cells = [faults, *published(it, marches, claims, sources), it.length, bound, f"`{it.shown_by or 'design'}`"]
        rows.append(f"| {' | '.join([*cells, f'`{it.march}`'])} |")
    return INTRODUCTION + "\n".join([*rows, "", *sources.lines()]) + "\n"
