"""A chip and collars in which connections are made wrong, and what their testbenches, compilers, lint and Yosys say of
each."""
from __future__ import annotations

import dataclasses
import enum
import os
import pathlib
import re
import shutil
import subprocess
import sys
import tempfile
from typing import List, Optional, Tuple

from measures.damages import POWER, Damage
from measures.parts import PROGRAM, ROOT

CASE = ROOT / "examples" / "joins"
PLACED = ROOT / "examples" / "in_place"
# the words of the runs of a testbench
RUNS: List[List[str]] = [[], ["+planted"]]
# why a damage does no harm, by a part of the line that it leaves
REASONS: List[Tuple[str, str]] = []


class Outcome(enum.Enum):
    """What came of a damage: refused by a compiler, told by a run or by lint, proved harmless, harmless by a reason, or
    none of these; or a call took too long, so that nothing is known."""

    TEXT = "refused"
    RUN = "told by a run"
    LINT = "told by lint"
    PROVED = "harmless"
    REASON = "harmless by a reason"
    UNTOLD = "real and untold"
    LATE = "not looked at to the end"


# how many seconds a call may take
SECONDS = 900


def called(words: List[str], folder: pathlib.Path) -> bool:
    """Whether a call ends well."""
    none = subprocess.DEVNULL
    return subprocess.run(words, cwd=folder, stdout=none, stderr=none, timeout=SECONDS, check=False).returncode == 0


@dataclasses.dataclass
class Place:
    """A folder with a testbench that passes: its name, its top, the files that were written, and a call that looks at
    them besides."""

    folder: pathlib.Path
    top: str
    written: List[pathlib.Path]
    is_whole: bool
    runs: List[List[str]]
    listed: str = "files.f"
    beside: List[str] = dataclasses.field(default_factory=list)

    def modules(self) -> List[pathlib.Path]:
        return sorted(path for path in self.folder.glob("*.v") if not path.name.endswith("_boxes.v"))

    def told(self, damage: Damage) -> str:
        return damage.told((self.folder / damage.file).read_text(encoding="utf-8"))

    def outcome(self, damage: Damage) -> Outcome:
        """What comes of a damage."""
        try:
            return self.looked_at(damage)
        except subprocess.TimeoutExpired:
            return Outcome.LATE

    def looked_at(self, damage: Damage) -> Outcome:
        with tempfile.TemporaryDirectory() as name:
            folder = pathlib.Path(name) / "made"
            shutil.copytree(self.folder, folder, symlinks=True)
            file = folder / damage.file
            file.write_text(damage.done_to(file.read_text(encoding="utf-8")), encoding="utf-8")
            power = [f"-D{POWER}"] if damage.is_power else []
            if not called(["iverilog", "-g2012", *power, "-o", "tb", "-c", self.listed], folder):
                return Outcome.TEXT
            ran = self.runs_through(folder)
            if ran is False:
                return Outcome.RUN
            if not self.is_linted(folder, power):
                return Outcome.LINT
            if ran is None:
                return Outcome.LATE
            if self.is_same(damage, folder, []) or self.is_same(damage, folder, ["flatten"]):
                return Outcome.PROVED
        return Outcome.REASON if reason_of(self.told(damage)) else Outcome.UNTOLD

    def runs_through(self, folder: pathlib.Path) -> Optional[bool]:
        """Whether each run passes; None where one never ends, as with a loop of wires, which lint tells."""
        try:
            runs = all(called(["vvp", "-n", "tb", *more], folder) for more in self.runs)
            return runs and (not self.beside or called(self.beside, folder))
        except subprocess.TimeoutExpired:
            return None

    def is_linted(self, folder: pathlib.Path, power: List[str]) -> bool:
        """Whether Verilator's lint is silent."""
        files = [path.name for path in sorted(folder.glob("*.v")) if not path.name.endswith("_boxes.v")]
        lint = ["verilator", "--lint-only", "-Wall", "-Wno-DECLFILENAME", "-Wno-TIMESCALEMOD", *power]
        return called([*lint, "--top-module", self.top, *files], folder)

    def is_same(self, damage: Damage, folder: pathlib.Path, passes: List[str]) -> bool:
        """Whether Yosys proves, after these passes, that the module does what it did, whatever stands round it."""
        others = " ".join(f"{self.folder / path.name}" for path in self.modules() if path.name != damage.file)
        lines = []
        for side, source in (("gold", self.folder / damage.file), ("gate", folder / damage.file)):
            read = f"read_verilog -D{POWER}" if damage.is_power else "read_verilog"
            lines += [f"{read} -lib {others}", f"{read} {source}", f"hierarchy -top {damage.module}"]
            lines += ["proc", *passes, "opt_clean", f"select {damage.module}", "expose -evert", "select -clear"]
            lines += [f"rename {damage.module} {side}"]
            lines += [f"design -stash {side}"]
        lines += [f"design -copy-from {side} -as {side} {side}" for side in ("gold", "gate")]
        lines += ["equiv_make gold gate equiv", "hierarchy -top equiv", "equiv_simple -undef -seq 2"]
        lines += ["equiv_induct -undef", "equiv_status -assert"]
        script = folder / "same.ys"
        script.write_text("\n".join([*lines, ""]), encoding="utf-8")
        return called(["yosys", "-q", str(script)], folder)


def reason_of(line: str) -> str:
    """Why a damage does no harm, by the list; empty where it has none."""
    return next((why for part, why in REASONS if re.search(part, line)), "")


def made(words: List[object], folder: pathlib.Path) -> None:
    """A call of a tool that has to be done."""
    environment = {**os.environ, "VIDLAKOST_PROGRAM": PROGRAM}
    call = [sys.executable, *map(str, words)]
    pipe = subprocess.PIPE
    done = subprocess.run(
        call, cwd=ROOT, env=environment, stdout=pipe, stderr=subprocess.STDOUT, text=True, check=False
    )
    if done.returncode:
        raise SystemExit(f"{' '.join(map(str, words))} ends with {done.returncode}: {done.stdout}")


def reached(folder: pathlib.Path, pins: List[pathlib.Path]) -> Place:
    """The chip with what a tester starts it by; a wrong bit stands at each memory in turn."""
    there = folder / "reached"
    made([ROOT / "tools/top", CASE / "joins.chip", *pins, there, "--access"], folder)
    made([ROOT / "tools/access", CASE / "joins.chip", *pins, there], folder)
    bits = (7, 3, 2, 5, 1, 4, 0, 3)
    runs = [["+planted", f"+unit={unit}", f"+bit={bit}"] for unit, bit in enumerate(bits)]
    return Place(there, "joins_access", [there / "joins_access.v"], False, [[], *runs], "joins_access.f")


def in_place(folder: pathlib.Path) -> List[Place]:
    """A chip whose memories stay where they are, with the connections that an engineer makes, and each memory alone.
    Beside the runs of the chip stands the proof that its use is what it was."""
    there = folder / "in_place"
    pins = sorted(path for path in CASE.glob("*.pins") if path.stem in ("late", "left", "low", "masked", "kept"))
    words = [PLACED / "camera.list", *pins, there]
    made([ROOT / "tools/top", *words, "--in-place"], folder)
    made([ROOT / "tools/access", *words, "--in-place", "--jtag"], folder)
    shutil.copy(PLACED / "camera.v", there)
    text = (PLACED / "camera.places").read_text(encoding="utf-8")
    text = text.replace("source examples/in_place/", "source ").replace("before examples", f"before {ROOT}/examples")
    (there / "camera.places").write_text(text, encoding="utf-8")
    # the names in the list begin at the root
    (there / "examples").symlink_to(ROOT / "examples")
    tool = [str(ROOT / "tools/places"), "camera.places", str(PLACED / "camera.list"), *map(str, pins), "."]
    if not called([sys.executable, *tool], there):
        raise SystemExit("places of the camera does not pass")
    written = [there / "camera.v", there / "camera_access.v"]
    found = [Place(there, "camera", written, False, RUNS, "camera_places.f", [sys.executable, *tool])]
    for path in pins:
        name = path.stem
        written = [there / f"{name}_in_place.v"]
        found.append(Place(there, f"{name}_in_place", written, False, RUNS, f"{name}_in_place.f"))
    return found


def places(folder: pathlib.Path) -> List[Place]:
    """The chip, and each of its collars alone; each passes."""
    pins = sorted(CASE.glob("*.pins"))
    whole = folder / "joins"
    made([ROOT / "tools/top", CASE / "joins.chip", *pins, whole], folder)
    found = [Place(whole, "joins_system", [whole / "joins_system.v", *sorted(whole.glob("*_collar.v"))], True, RUNS)]
    for path in pins:
        name, there = path.stem, folder / path.stem
        memories = ["low", "high"] if name == "low" else [name]
        made([ROOT / "tools/collar", *(CASE / f"{one}.mem" for one in memories), "--macro", path, there], folder)
        for one in memories:
            march = CASE / ("hold.m" if one == "kept" else "march.m")
            words = ["compile", march, CASE / f"{one}.mem", os.devnull, there / f"{one}_bist.v", folder / "report"]
            done = subprocess.run([PROGRAM, *map(str, words)], stdout=subprocess.DEVNULL, check=False)
            if done.returncode > 1:
                raise SystemExit(f"{' '.join(map(str, words))} ends with {done.returncode}")
        found.append(Place(there, f"{name}_collar", [there / f"{name}_collar.v"], False, RUNS))
    found += [reached(folder, pins), *in_place(folder)]
    for place in found:
        called(["iverilog", "-g2012", "-o", "tb", "-c", place.listed], place.folder)
        if not all(called(["vvp", "-n", "tb", *more], place.folder) for more in place.runs):
            raise SystemExit(f"{place.top} does not pass")
        if not place.is_linted(place.folder, []):
            raise SystemExit(f"lint is not silent of {place.top}, so it tells nothing of a damage")
    return found
