"""The page of figures, docs/MEASURED.md: a section for each measure, of which those that were run are written anew."""
from __future__ import annotations

import os
import re

from measures.parts import ROOT, Figure, short
from vidlakost_tools.program import version

PAGE = ROOT / "docs" / "MEASURED.md"
HEAD = """# What was measured

For who plans with times, areas and counts. Nothing on this page is proved. `bench/run --all --markdown` makes it,
`bench/run NAME --markdown` one section anew, with its date, commit and machine. Times are the best of several calls,
on x86-64; those of `gate`, `first` and compilers are of one. A ratio is what is beside ours, by ours: above 1 the
other takes so many times as much; of megahertz it is so many times as fast.
"""


def here(figure: Figure) -> str:
    return f"{short(figure.number)} {figure.unit}".rstrip()


def row(what: str, figures: list[Figure], compares: bool) -> str:
    """A row: all that was measured of one thing, and what stands beside it."""
    cells = [what.replace("|", "\\|"), ", ".join(map(here, figures))]
    if compares:
        beside = [figure for figure in figures if figure.peer]
        cells.append(f"{beside[0].peer} {', '.join(short(figure.beside) for figure in beside)}" if beside else "")
        cells.append(", ".join(figure.ratio for figure in beside))
    return f"| {' | '.join(cells)} |"


def rows(figures: list[Figure]) -> list[list[Figure]]:
    """Figures of one thing that follow one another, beside one peer, stand in one row."""
    found: list[list[Figure]] = []
    for figure in figures:
        before = found[-1][0] if found else None
        if before and before.what == figure.what and figure.peer in ("", before.peer):
            found[-1].append(figure)
        else:
            found.append([figure])
    return found


def table(figures: list[Figure]) -> list[str]:
    """The rows; without a peer there are no columns for it, and one row alone is a sentence."""
    compares = any(figure.peer for figure in figures)
    if not compares and len(rows(figures)) == 1:
        return [f"{figures[0].what}: {', '.join(map(here, figures))}."]
    head = ["What", "Here", "Beside it", "Ratio"][: 4 if compares else 2]
    lines = [row(group[0].what, group, compares) for group in rows(figures)]
    return [f"| {' | '.join(head)} |", "|---" * len(head) + "|", *lines]


def measured() -> str:
    """When and where figures were measured."""
    _, date, commit = version()
    return f"{date}, {commit}, {len(os.sched_getaffinity(0))} processors, load {os.getloadavg()[0]:.1f}."


def section(name: str, line: str, figures: list[Figure], ending: str) -> str:
    return "\n".join([f"## `{name}`", "", line, "", *table(figures), "", ending, ""])


def sections() -> dict[str, str]:
    """The sections that stand, by their names."""
    text = PAGE.read_text() if PAGE.exists() else ""
    return {found[1]: found[0] for found in re.finditer(r"^## `(\w+)`\n.*?(?=^## |\Z)", text, re.MULTILINE | re.DOTALL)}


def put(found: dict[str, list[Figure]], lines: dict[str, str], ending: str = "") -> None:
    """Writes the page with these figures; the other sections stay."""
    there = sections()
    there.update({name: section(name, lines[name], figures, ending or measured()) for name, figures in found.items()})
    ordered = [there[name].rstrip("\n") + "\n" for name in lines if name in there]
    PAGE.write_text("\n".join([HEAD, *ordered]))
