"""What papers say that marches cover, beside what the program says: a part of the gallery."""
from __future__ import annotations

import dataclasses
import itertools
import pathlib
from typing import Iterator, List, Sequence

from vidlakost_tools.program import ROOT, with_text
from vidlakost_tools.text import beside, read_text
from vidlakost_tools.texts.linked import LinkVerdict, linked
from vidlakost_tools.texts.report import Verdict, judged

MARCHES = ROOT / "examples" / "marches"
# the list that means the links
LINKS = "LF"
TITLE = beside(__file__, "claims_title.md")
NOTE = beside(__file__, "claims_note.md")


def write_read(states: Sequence[str]) -> List[str]:
    """The primitives of a read right after a write of the cell, with each of these parts before it."""
    made = []
    for before, state, bit in itertools.product(states, "01", "01"):
        other = str(1 - int(bit))
        faults = ((other, other), (other, bit), (bit, other))
        made += [f"<{before}{state}w{bit}r{bit}/{left}/{answer}>" for left, answer in faults]
    return made


@dataclasses.dataclass
class Claim:
    """A march, as a file of the gallery or with another first element; what it is said to cover; and the list of
    that."""

    name: str
    file: str
    said: str
    items: List[str]
    first: str = ""

    @property
    def march(self) -> str:
        text = read_text(MARCHES / self.file).strip()
        return "{" + self.first + text[text.index(";") :] if self.first else text


CLAIMS = [
    Claim("March RAW1", "march_raw1.m", "a read right behind a write, one cell", write_read([""])),
    Claim("March RAW", "march_raw.m", "the same of a victim beside an aggressor", write_read(["0;", "1;"])),
    Claim("March RAW with `up(w0)`", "march_raw.m", "the same", write_read(["0;", "1;"]), "up(w0)"),
    Claim("March SS", "march_ss.m", "all simple static faults", ["all"]),
    Claim(
        "March AB",
        "march_ab.m",
        "static faults, and a read right behind a write",
        ["all", *write_read(["", "0;", "1;"])],
    ),
    Claim(
        "IFA-13n",
        "ifa_13n.m",
        "stuck-at, transition, state and idempotent coupling faults, and retention",
        ["SF", "TF", "CFst", "DRF", "<0w1;0/1/->", "<0w1;1/0/->", "<1w0;0/1/->", "<1w0;1/0/->"],
    ),
    Claim("March SL", "march_sl.m", "all static linked faults", [LINKS]),
    Claim("March ABL", "march_abl.m", "all static linked faults", [LINKS]),
]


def shown_escape(it: Verdict) -> str:
    """An escape in the words of its report."""
    aggressor = "none" if it.aggressor is None else it.aggressor
    cells = f"cells {len(it.content)} aggressor {aggressor} victim {it.victim}"
    return f"{it.primitive} {cells} content {it.content} directions {it.directions}"


def shown_link(it: LinkVerdict) -> str:
    cells = [f"{name} {cell}" for name, cell in (("a", it.a), ("b", it.b), ("v", it.v)) if cell is not None]
    return " ".join([it.primitive, *cells, "content", it.content, "directions", it.directions])


def looked(claim: Claim, march: pathlib.Path) -> str:
    """The cells of the table that the program fills: how many are covered, and the first escape."""
    if claim.items == [LINKS]:
        report = linked(march)
        count, total = report.covered, len(report.verdicts)
        first = next((shown_link(it) for it in report.escapes), "")
    else:
        text = "".join(f"{item}\n" for item in claim.items)
        judgement = with_text(text, lambda faults: judged(march, faults))
        total, count, _ = judgement.total
        first = next((shown_escape(it) for it in judgement.escapes), "")
    return f"{count}/{total} | {f'`{first}`' if first else ''}"


def rows() -> Iterator[str]:
    for claim in CLAIMS:
        yield f"| {claim.name} | {claim.said} | {with_text(claim.march, lambda march: looked(claim, march))} |"


def section() -> str:
    """The part of the gallery."""
    return TITLE + "\n".join(rows()) + "\n" + NOTE
