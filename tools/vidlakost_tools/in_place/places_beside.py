"""Both chips in Icarus, as they were and as they are, in random use: each pin of a memory and each output has to have
the same in both. The memories answer random words, and nothing starts a test, as in the proof."""
from __future__ import annotations

import dataclasses
import os
import pathlib
import re
import secrets
import shutil
from typing import Iterator

from vidlakost_tools.audit.beside_icarus import Differs, Unclocked, call, compiled, refuse_sources, set_to
from vidlakost_tools.collar.pins import literal
from vidlakost_tools.in_place.places_proof import Proof, Side
from vidlakost_tools.temporary import folder_of_its_own
from vidlakost_tools.text import template
from vidlakost_tools.verilog.syntax import ranged

BENCH = template(__file__, "places_beside_bench.sv")
# half the edges of the clocks: so many cycles in all, from each of two seeds
CYCLES = 10_000
OUTPUT = re.compile(r"\boutput\s+(?:wire\s+)?(\[[^\]]*\]\s*)?(\w+)")
# of how many bits a line may speak
MOST_BITS = 20_000
DRAW = """        if (($random({seed}) & 15) == 0) odds_{name} = $random({seed}) & 3;
        if (odds_{name} == 0) {name} = 0;
        else if (odds_{name} > 1) {name} = {word};"""


def stubbed(text: str, is_alone: bool = False) -> str:
    """Boxes whose outputs are registers, which a bench sets, or which change by themselves where they stand alone."""

    def body(match: re.Match[str]) -> str:
        outputs = OUTPUT.findall(match[0])
        lines = [f"  reg {wide}drive_{name} = 0;\n  assign {name} = drive_{name};" for wide, name in outputs]
        if is_alone:
            changes = " ".join(f"drive_{name} = {word(64)};" for _, name in outputs)
            lines.append(f"  integer seed = 5;\n  always begin #97 {changes} end")
        return match[0][: -len("endmodule")] + "\n".join(lines) + "\nendmodule"

    return re.sub(r"\bmodule\b.*?\bendmodule\b", body, text, flags=re.DOTALL)


def word(width: int, seed: str = "seed") -> str:
    """A random word of so many bits."""
    return "{" + ", ".join([f"$random({seed})"] * ((width + 31) // 32)) + "}"


@dataclasses.dataclass
class Chip:
    """A chip as it was (`gold`) or as it is (`gate`), with the ports of both sides of the proof."""

    proof: Proof
    side: str
    gold: Side
    gate: Side
    nonce: str

    def __post_init__(self) -> None:
        places = self.proof.places
        beside = self.proof.not_compared()
        told = {name: (way, len(bits)) for name, (way, bits) in self.gold.ports.items() if name not in beside}
        inner = {name for name in told if "." in name}
        self.memories = {name: told[name] for name in sorted(inner) if name.startswith("place_")}
        self.registers = {
            name[:-2]: told[name][1]
            for name in sorted(inner)
            if name.endswith(".q") and told[name][0] == "input" and name not in self.memories
        }
        chip = {name: told[name] for name in told if name not in inner}
        self.inputs = {name: width for name, (way, width) in chip.items() if way == "input"}
        self.outputs = {name: width for name, (way, width) in chip.items() if way == "output"}
        own = self.gold if self.side == "gold" else self.gate
        self.own = {name: (way, len(bits)) for name, (way, bits) in own.ports.items() if "." not in name}
        self.paths = [place.was if self.side == "gold" else place.path for place in places.places.values()]
        order = list(self.proof.collars)
        self.paths = [
            (places.places[name].was if self.side == "gold" else places.places[name].path) for name in order
        ]

    def inside(self, port: str, prefix: str = "") -> str:
        """A pin of a memory, by its hierarchical name."""
        found = re.fullmatch(r"place_(\d+)\.(.*)", port)
        assert found is not None
        return f"dut.{self.paths[int(found[1])]}.{prefix}{found[2]}"

    def watched(self) -> dict[str, str]:
        """What is compared: of each name in the proof what the bench shows."""
        pins = {name: self.inside(name) for name, (way, _) in self.memories.items() if way == "output"}
        return {**pins, **{name: f"c_{name}" for name in self.outputs}}

    def clocks(self) -> list[str]:
        return [name for name in self.proof.places.clocks if name in self.own]

    def driven(self) -> dict[str, int]:
        """The inputs that are random, and the same for both chips."""
        fixed = {*self.proof.places.clocks, *self.proof.places.values}
        return {name: width for name, width in sorted(self.inputs.items()) if name not in fixed}

    def bench(self, same: dict[str, set[str]]) -> str:
        places, own = self.proof.places, self.own
        more = {
            name: width
            for name, (way, width) in sorted(own.items())
            if way == "input" and name not in self.inputs and name not in (*places.clocks, *places.values)
        }
        answers = {name: width for name, (way, width) in self.memories.items() if way == "input"}
        regs = [f"  reg {ranged(own[name][1])}c_{name} = 0;" for name in own if own[name][0] == "input"]
        wires = [f"  wire {ranged(own[name][1])}c_{name};" for name in own if own[name][0] != "input"]
        odds = [f"  reg [1:0] odds_c_{name} = 3;" for name in (*self.driven(), *more)]
        draws = [DRAW.format(seed="seed", name=f"c_{name}", word=word(width)) for name, width in self.driven().items()]
        draws += [
            DRAW.format(seed="other_seed", name=f"c_{name}", word=word(width, "other_seed"))
            for name, width in more.items()
        ]
        values = [
            f"    c_{name} = {literal(value, own[name][1])[1]};"  # type: ignore[index]
            for name, value in places.values.items()
            if name in own
        ]
        watched = list(self.watched().values())
        return BENCH.substitute(
            name=f"vidlakost_{self.nonce}",
            nonce=self.nonce,
            chip=places.chip,
            declared="\n".join([*regs, *wires, *odds]),
            links=",\n    ".join(f".{name}(c_{name})" for name in own),
            drawn="\n".join(f"  reg {ranged(width)}r_{at};" for at, width in enumerate(self.registers.values())),
            starts="\n".join(f"    r_{at} = {word(width)};" for at, width in enumerate(self.registers.values())),
            sets="\n".join(same),
            values="\n".join(values),
            draws="\n".join(draws),
            drives="\n".join(
                f"        {self.inside(name, 'drive_')} = {word(width)};" for name, width in answers.items()
            ),
            steps=2 * CYCLES,
            clocks=len(self.clocks()),
            edges="\n".join(f"          {at}: c_{name} = ~c_{name};" for at, name in enumerate(self.clocks())),
            format=" ".join(["%b"] * len(watched)),
            shown=", ".join(watched),
        )

    def same(self) -> dict[str, set[str]]:
        """The lines that set the registers."""
        return {
            set_to(f"dut.{name}", f"{{r_{at}}}", width): {name}
            for at, (name, width) in enumerate(self.registers.items())
        }

    def run(self, folder: pathlib.Path) -> str:
        """What the run says."""
        places, kept = self.proof.places, self.proof.folder
        sources = places.before if self.side == "gold" else places.sources
        starts = (kept / f"{self.side}_starts.v").read_text(encoding="utf-8")
        boxes = (kept / f"{self.side}_boxes.v").read_text(encoding="utf-8")
        alone = "_unknown("
        texts = re.findall(r"(?:\(\*[^\n]*\n)?\bmodule\b.*?\bendmodule\b", boxes, re.DOTALL)
        stubs = [stubbed(text, alone in text) for text in texts if not re.search(r"\bmodule places_off\b", text)]
        (folder / "stubs.v").write_text("\n".join([*stubs, starts]), encoding="utf-8")
        files = [os.path.abspath(file) for file in sources]
        words = ["iverilog", "-g2012", "-s", f"vidlakost_{self.nonce}", "-o", str(folder / "run")]
        compiled([*words, str(folder / "bench.v"), str(folder / "stubs.v"), *files], folder, self.bench, self.same())
        return call(["vvp", "-n", str(folder / "run")], folder)[1]


def rows(said: str, nonce: str) -> Iterator[list[str]]:
    for line in said.splitlines():
        if line.startswith(f"{nonce} "):
            yield line.split()[1:]


def compared(proof: Proof, gold: Side, gate: Side) -> tuple[int, str]:
    """How many cycles both chips were alike in, and what was unknown to Icarus in one of them alone, if anything was; a
    difference is refused."""
    if shutil.which("iverilog") is None or shutil.which("vvp") is None:
        raise Unclocked("Icarus (iverilog and vvp) is not on the PATH", 1)
    refuse_sources([*proof.places.before, *proof.places.sources])
    nonce = f"s{secrets.token_hex(8)}"
    chips = [Chip(proof, side, gold, gate, nonce) for side in ("gold", "gate")]
    if not chips[0].clocks() or chips[0].clocks() != chips[1].clocks():
        raise Unclocked("the chip as it was has other clocks, or none", 1)
    said = []
    for chip in chips:
        with folder_of_its_own() as folder:
            said.append(list(rows(chip.run(folder), nonce)))
    if any(not lines or lines[-1] != ["end"] for lines in said) or len(said[0]) != len(said[1]):
        raise Unclocked("the run in Icarus did not end", 1)
    return 2 * CYCLES, difference(proof, list(chips[0].watched()), *said)


def difference(proof: Proof, names: list[str], was: list[list[str]], now: list[list[str]]) -> str:
    """Refuses what has another number in both; what is unknown in one alone is told."""
    doubt, known = "", [False] * len(names)
    for step, (one, other) in enumerate(zip(was[:-1], now[:-1])):
        for at, (before, after) in enumerate(zip(one, other)):
            known[at] |= set(before) <= {"0", "1"}
            if before == after:
                continue
            if any(x in "01" and y in "01" and x != y for x, y in zip(before, after)):
                name, cycle = proof.named(names[at]), step // 2
                where = f"{name} is {after} in cycle {cycle} of random use by Icarus, and was {before} before"
                raise Differs("Icarus", name, cycle, after, before, where)
            doubt = doubt or f"{proof.named(names[at])} is {after} in cycle {step // 2}, and was {before} before"
    lost = [proof.named(name) for name, is_known in zip(names, known) if not is_known]
    return doubt or (f"{lost[0]} never had a number" if lost else "")
