"""Names of faults: those from the literature that no list has, with what replaces them here; and the words of
classes."""
from __future__ import annotations

import itertools
import re
from typing import Dict, Iterable, Optional, Sequence

from vidlakost_tools.refusals.finding import CLASSES, close_to
from vidlakost_tools.texts import linked

DECODER = "faults of the address decoder are no primitives: `decoder MARCH REPORT` judges them"
LINKED = "linked faults are two primitives with one victim: `linked MARCH REPORT` judges all of them"
INVERSION = (
    "an inversion coupling fault is both primitives of CFds by one write in one device, as <0w1;0/1/-> and"
    " <0w1;1/0/->, so a link: no list has it, `linked MARCH REPORT` judges it as LF2aa <0w1;0/1/-> <0w1;1/0/->"
)
# what to say about a name; its case does not count
MEANINGS: Dict[str, str] = {
    "saf": "a cell that is stuck at 1 is <0/1/->, at 0 <1/0/->: both are SF",
    "sa0": "a cell that is stuck at 0 is <1/0/->, of the class SF",
    "sa1": "a cell that is stuck at 1 is <0/1/->, of the class SF",
    "cf": "a coupling fault is a primitive of two cells: 'two' has all 36 static ones",
    "cfid": "an idempotent coupling fault is a primitive of CFds, as <0w1;0/1/->",
    "cfin": INVERSION,
    "af": DECODER,
    "adf": DECODER,
    "lf": LINKED,
    "linked": LINKED,
    **{kind.lower(): LINKED for kind in linked.KINDS},
    "sof": "a stuck-open cell is no primitive, and there is no verdict on it",
    "npsf": "neighbourhoods of cells are no primitives, and there is no verdict on them",
    "static": "the 48 static primitives without a pause are 'all'",
    "dynamic": "the dynamic primitives are 'dyn1' and 'dyn2'",
}
# what the letters after CF mean in the literature, which writes some of them out
COUPLINGS = {
    "CFst": ("s", "st", "state"),
    "CFds": ("d", "ds", "dis"),
    "CFtr": ("t", "tr"),
    "CFwd": ("w", "wd", "wdr"),
    "CFrd": ("r", "rd", "rdr"),
    "CFdr": ("dr", "drd", "drdr", "dec"),
    "CFir": ("i", "ir", "inr"),
}


def class_of(word: str) -> Optional[str]:
    """The class of couplings that the letters of a name from the literature mean."""
    found = re.fullmatch("CF-?([A-Z]+?)F?", word.upper())
    letters = found[1].lower() if found else ""
    return next((name for name, known in COUPLINGS.items() if letters in known), None)


def meaning_of(word: str) -> Optional[str]:
    """What replaces a name from the literature that is no class."""
    return MEANINGS.get(word.lower())


def class_meant(word: str, others: Sequence[str]) -> Optional[str]:
    """The class, or another name, that a word probably means."""
    return class_of(word) or close_to(word, [*CLASSES, *others])


def apart(means: str) -> Iterable[str]:
    """The text that a row has for each of its classes, in their order, as 'TF and WDF of the victim' for two."""
    listed = re.fullmatch(r"((?:[A-Z]+, )*[A-Z]+) and ([A-Z]+) (.*)", means)
    parts = [*listed[1].split(", "), listed[2]] if listed else []
    return [f"{part} {listed[3]}" for part in parts] if listed else itertools.repeat(means)
