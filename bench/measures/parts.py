"""What the measures share: figures, timed calls, and the marches and memories that are measured."""
from __future__ import annotations

import dataclasses
import os
import pathlib
import shutil
import subprocess
import sys
import tempfile
import time

ROOT = pathlib.Path(__file__).resolve().parent.parent.parent
LAUNCHER = str(ROOT / "vidlakost")
PROGRAM = os.environ.get("VIDLAKOST") or LAUNCHER
GNU_TIME = "/usr/bin/time"

C = "{any(w0);up(r0,w1);up(r1,w0);down(r0,w1);down(r1,w0);any(r0)}"
SS = "{any(w0);up(r0,r0,w0,r0,w1);up(r1,r1,w1,r1,w0);down(r0,r0,w0,r0,w1);down(r1,r1,w1,r1,w0);any(r0)}"
MATS = "{any(w0);up(r0,w1);down(r1,w0)}"
EIGHT = "backgrounds 0 1 3 7 f 1f 3f 7f\n"


class Skipped(Exception):
    """What a measure wants and this machine has not."""


@dataclasses.dataclass
class Figure:
    """What was measured, its number and unit, and beside it another's number."""

    what: str
    number: float
    unit: str
    peer: str = ""
    beside: float = 0.0

    @property
    def ratio(self) -> str:
        return short(self.beside / self.number) if self.peer and self.number else ""

    def text(self) -> str:
        """`WHAT: FIGURE UNIT, PEER FIGURE UNIT, RATIO`."""
        peer = f", {self.peer} {short(self.beside)} {self.unit}, {self.ratio}" if self.peer else ""
        return f"{self.what}: {short(self.number)} {self.unit}{peer}"


def short(number: float) -> str:
    """A whole number whole, any other by three digits."""
    if number == int(number):
        return f"{int(number):,}"
    return f"{number:,.0f}" if abs(number) >= 100 else f"{number:.3g}"


@dataclasses.dataclass
class Timed:
    """A call: its seconds, the mebibytes that it held at most (0: not known), its status and what it printed."""

    seconds: float
    held: float
    status: int
    said: str


def timed(*words: object, folder: pathlib.Path | None = None) -> Timed:
    """A call with its time, and with its peak of memory where GNU time is installed as /usr/bin/time."""
    with tempfile.NamedTemporaryFile() as peak:
        before = [GNU_TIME, "-q", "-f", "%M", "-o", peak.name] if os.access(GNU_TIME, os.X_OK) else []
        start = time.perf_counter()
        done = subprocess.run(
            [*before, *map(str, words)],
            cwd=folder,
            stdout=subprocess.PIPE,
            stderr=subprocess.STDOUT,
            text=True,
            check=False,
        )
        seconds = time.perf_counter() - start
        held = peak.read().decode().split()
    return Timed(seconds, int(held[-1]) / 1024 if held else 0.0, done.returncode, done.stdout.strip())


def best(count: int, *words: object, folder: pathlib.Path | None = None) -> Timed:
    """The fastest of so many calls."""
    return min((timed(*words, folder=folder) for _ in range(count)), key=lambda call: call.seconds)


def asked(*words: object) -> None:
    """A call of the program that has to be done."""
    of_call(str(words[0]), timed(PROGRAM, *words))


def of_call(what: str, call: Timed) -> list[Figure]:
    """The figures of a call of the program; one that is refused is no figure."""
    if call.status > 1 or call.status < 0:
        raise SystemExit(f"{what}: the program ends with {call.status} and says {call.said}")
    held = [Figure(what, call.held, "MiB")] if call.held else []
    return [Figure(what, call.seconds, "s"), *held]


def write(folder: pathlib.Path, **texts: str) -> list[pathlib.Path]:
    """The paths of files with these texts."""
    for name, text in texts.items():
        (folder / name).write_text(text)
    return [folder / name for name in texts]


def memory_text(name: str, words: int, bits: int, more: str = "") -> str:
    version = 2 if any(word in more for word in ("latency", "polarity", "pause")) else 1
    return f"memory {version}\nname {name}\nwords {words}\nbits {bits}\n{more}"


def long_march(elements: int) -> str:
    """A march of so many elements of four operations."""
    rest = ";any(r0,w1,r1,w0)" * (elements - 2) + (";up(r0,w1,r1,w0)" if elements > 1 else "")
    return "{any(w0,w1,w0,w0)" + rest + "}\n"


def want(*tools: object) -> None:
    """Skips a measure where a tool is missing."""
    lacking = [str(tool) for tool in tools if shutil.which(str(tool)) is None]
    if lacking:
        raise Skipped(f"{', '.join(lacking)} is missing")


def python(*words: object) -> Timed:
    return timed(sys.executable, *words)
