"""Which defects give exactly a log: all its wrong reads and no others.

usage: vidlakost diagnosis LOG MARCH MEMORY [--mux M] [--list FAULTS] [--with MARCH]..
       vidlakost diagnosis LOG CHIPFILE --unit U [--mux M] [--list FAULTS] [--with MARCH]..
       vidlakost diagnosis LOG LIST|CHIPFILE PINS.. --unit U [--second | --in-place] [--mux M] [--list FAULTS]
                           [--with MARCH]..
       vidlakost diagnosis --help

LOG, PINS, --second, --in-place, the cycles and --mux are as for `vidlakost bitmap`. The log has to be of a whole test:
a read that is not in the log was right. If the log ends with `more`, that holds only up to its last entry.
diagnosis prints the number of candidates of each class, then each candidate. The candidates are:
    cells       the primitives of FAULTS (without a list, all static ones and DRF), at each cell and with each aggressor
    lines       columns, rows, words, data bits, and parts of a bit line or of a word line, each of which reads as one
                value; and two bridged data bits
    addresses   address bits that are open, stuck or bridged, or that select no word or two; and words or rows that
                reach another one, instead of their own or beside it
One line has all aggressors that act alike, and their number. If a candidate gives the log only from some contents of
the memory, its line says from how many. The first candidates explain most by least.

If no single defect gives the log, diagnosis prints what each of up to 8 wrong cells says by itself. --with names
marches that may run next (from the sources, those of the gallery by default). diagnosis says which one separates the
candidates best: into how many groups, each of which leaves another log. It ends with 1 if nothing gives the log."""
from __future__ import annotations

import pathlib
from typing import Any, Iterator

from vidlakost_tools.design.table import MARCHES
from vidlakost_tools.diagnosis.answer import APART, Answer, Further, answer_of, further
from vidlakost_tools.diagnosis.asked import asked_of, faults_of, logged
from vidlakost_tools.diagnosis.candidate import Candidate
from vidlakost_tools.diagnosis.tester import check_mux
from vidlakost_tools.texts.march import Element, march_of
from vidlakost_tools.texts.memory import Memory
from vidlakost_tools.tool import number_of, telling, words_of

# how many of the marches that separate candidates are named
NAMED = 3


def lines_of(candidate: Candidate) -> str:
    more = f" ({candidate.places:,} of them)" if candidate.places > 1 else ""
    share = f", from {candidate.share:.0%} of the contents" if candidate.share < 1 else ""
    return f"{candidate.shape.value}: {candidate.what}{more}{share}"


def marches_of(names: list[str]) -> list[tuple[str, list[Element]]]:
    """The marches that may run next; a wrong one is refused."""
    paths = [pathlib.Path(name) for name in names] or sorted(MARCHES.glob("*.m"))
    return [(path.stem, march_of(path)[1]) for path in paths]


def told(answer: Answer) -> Iterator[str]:
    """The candidates in words."""
    for name, count in answer.classes.items():
        yield f"class {name} {count}"
    yield from map(lines_of, answer.candidates)
    if not answer.candidates:
        yield "no single defect that this tool knows gives this log"
    for (index, bit), some in answer.alone:
        yield f"index {index} bit {bit} by itself: {len(some)} candidates"
        yield from (f"  {lines_of(one)}" for one in some)


def told_further(found: list[Further], count: int) -> Iterator[str]:
    """The marches that separate the candidates best."""
    best = sorted(found, key=lambda one: (-one.groups, one.largest))
    if not best or best[0].groups < 2:
        yield f"no march separates the {count} candidates"
        return
    for one in best[:NAMED]:
        yield f"{one.name} separates the {count} candidates into {one.groups} groups of at most {one.largest}"


def next_march(candidates: list[Candidate], options: dict[str, Any], memory: Memory) -> list[str]:
    """How further marches separate the candidates, if there are several."""
    if len(candidates) < 2:
        return []
    marches = marches_of(options.get("--with", []))
    return list(told_further(list(further(candidates, marches, memory)), min(len(candidates), APART)))


def main(arguments: list[str]) -> int:
    allowed: dict[str, int | list[str]] = {"--mux": 1, "--list": 1, "--unit": 1, "--with": ["MARCH"]}
    allowed.update({"--second": 0, "--in-place": 0})
    words, options = words_of(__doc__, arguments, allowed, 2)
    asked = asked_of(words, options, __doc__)
    mux = number_of(options.get("--mux", "1"), "--mux", 1)
    check_mux(asked.memory, mux)
    with telling("comparing the log with each defect"):
        answer = answer_of(logged(words[0], asked).evidence, faults_of(asked.march, options.get("--list")), mux)
        lines = [*told(answer), *next_march(answer.candidates, options, asked.memory)]
    print("\n".join(lines))
    return 0 if answer.candidates else 1
