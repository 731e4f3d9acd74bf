"""Sources in VHDL, clocked by GHDL: a controller by the rule of the ports, any other module beside the run of the made
module in which every register is open at first."""
from __future__ import annotations

import dataclasses
import itertools
import os
import pathlib
import random
import re
import shutil
from typing import Iterable, Iterator, Mapping

from vidlakost_tools import bounded
from vidlakost_tools.audit.beside_icarus import SECONDS, Differs, Seen, Unclocked
from vidlakost_tools.audit.pins import INPUTS, Pins
from vidlakost_tools.audit.rule_vectors import Row, Rule, rows
from vidlakost_tools.audit.stretches import BEHIND, LONG
from vidlakost_tools.program import with_text
from vidlakost_tools.temporary import folder_of_its_own
from vidlakost_tools.text import SOURCE_BYTES, lines_of, read_described, shown, template
from vidlakost_tools.verilog import open_run
from vidlakost_tools.verilog.front_end import Plain
from vidlakost_tools.verilog.vhdl_source import code_of, refuse_reaching

BENCH = template(__file__, "beside_ghdl_bench.vhd")
# of a short test so many cycles are clocked in all; of a module of any ports so many
SHORT, MOST, ANY = 30_000, 40, 2000
SCALARS = ("std_logic", "std_ulogic")
VECTORS = ("std_logic_vector", "std_ulogic_vector", "unsigned", "signed", "u_unsigned", "u_signed")


@dataclasses.dataclass
class Port:
    """A port of the entity: its name, whether it comes in, its type, and its width in the made module."""

    name: str
    is_input: bool
    kind: str
    width: int

    @property
    def signal(self) -> str:
        return f"{'i' if self.is_input else 'o'}_{self.name}"

    def line(self) -> str:
        """Its line of the map of the ports."""
        if self.kind in SCALARS:
            return f"    {self.name} => {self.signal}(0)"
        if self.is_input:
            return f"    {self.name} => {self.kind}({self.signal})"
        return f"    std_logic_vector({self.name}) => {self.signal}"


@dataclasses.dataclass
class BesideVhdl:
    """What is clocked: the files, the top and the module made of them, its pins, and the test where it is known."""

    files: list[str]
    plain: Plain
    pins: Pins | None
    rule: Rule | None
    seeds: tuple[int, ...] = (1, 2)

    def ports(self) -> dict[str, tuple[str, bool]]:
        """Of each pin the port of the rule (or of the made module) that it is, and whether it is active low."""
        if self.pins is None:
            clock = self.plain.clock or "clk"
            return {(clock if port == "clk" else port): (port, False) for _, port, _ in self.plain.ports}
        return {pin.name: (port, pin.is_low) for port, pin in self.pins.pins}

    def vectors(self, seed: int) -> Iterator[Row]:
        if self.rule is None:
            return of_any(self.plain, seed)
        length = len(self.rule.commands()) + BEHIND
        whole = max(1, min(MOST, SHORT // length)) if length <= LONG else int(seed == self.seeds[0])
        return rows(self.rule, seed, whole, min(MOST, max(whole, 8)), BEHIND)


def of_any(plain: Plain, seed: int) -> Iterator[Row]:
    """Random inputs of a module, and its outputs from open registers on."""
    chance, run = random.Random(seed), with_text(plain.text(), open_run.read_module_of_any)
    inputs = [(port, width) for way, port, width in plain.ports if way == "input" and port != "clk"]
    outputs = [(port, width) for way, port, width in plain.ports if way == "output"]
    modes = {port: 7 for port, _ in inputs}
    kept = {port: 0 for port, _ in inputs}
    given: list[dict[str, int]] = []
    for _ in range(ANY):
        for port, width in inputs:
            modes[port] = chance.randrange(8) if chance.random() < 1 / 32 else modes[port]
            held = {0: kept[port], 1: kept[port], 2: 0, 3: (1 << width) - 1}
            kept[port] = held.get(modes[port], chance.getrandbits(width))
        given.append(dict(kept))
    opens: dict[str, int | None] = {name: None for name in run.registers}
    for came, env in zip(given, open_run.clocked(run, opens, ({**one} for one in given))):
        row = {port: f"{came[port]:0{width}b}" for port, width in inputs}
        for port, width in outputs:
            value = env[port]
            row[port] = "-" * width if value is None else f"{value:0{width}b}"
        yield row


# ---- the entity


def entity_of(files: Iterable[str], top: str) -> str:
    """The text between `entity` and its end."""
    for file in files:
        text = read_described(file, SOURCE_BYTES)
        refuse_reaching(file, text)
        found = re.search(rf"\bentity\s+{re.escape(top)}\s+is\b(.*?)\bend\b", code_of(text), re.DOTALL | re.IGNORECASE)
        if found:
            return found[1]
    raise Unclocked(f"the entity {shown(top)} was not found in the sources", 1)


def declared(entity: str) -> dict[str, str]:
    """Of each port of an entity, in small letters, its type."""
    begin = re.search(r"\bport\s*\(", entity, re.IGNORECASE)
    depth, end = 1, begin.end() if begin else 0
    while begin and depth and end < len(entity):
        depth += {"(": 1, ")": -1}.get(entity[end], 0)
        end += 1
    found = {}
    for line in entity[begin.end() : end - 1].split(";") if begin else ():
        names, _, rest = line.partition(":")
        kind = re.match(r"\s*(?:in|out|buffer|inout)?\b\s*(?:[\w.]*\.)?(\w+)", rest, re.IGNORECASE)
        for name in re.sub(r"^\s*signal\b", "", names, flags=re.IGNORECASE).split(","):
            if kind and name.strip():
                found[name.strip().lower()] = kind[1].lower()
    return found


def ports_of(asked: BesideVhdl) -> list[Port]:
    """The pins of the entity that the bench drives and looks at."""
    kinds = declared(entity_of(asked.files, asked.plain.top))
    widths = {port: width for _, port, width in asked.plain.ports}
    ways = {port: way for way, port, _ in asked.plain.ports}
    found = []
    for pin, (port, _) in asked.ports().items():
        kind = kinds.get(pin.lower(), "")
        if kind not in (*SCALARS, *VECTORS):
            raise Unclocked(f"the port {pin} has the type {shown(kind)}, which the bench for GHDL doesn't know", 1)
        is_input = port in INPUTS if asked.pins else ways[port] == "input"
        found.append(Port(pin, is_input, kind, widths[port]))
    return found


# ---- the bench


def signal_line(port: Port) -> str:
    begin = " := (others => '0')" if port.is_input else ""
    return f"  signal {port.signal} : std_logic_vector({port.width - 1} downto 0){begin};"


def inverted(bits: str) -> str:
    return bits.translate(str.maketrans("01", "10"))


@dataclasses.dataclass
class Bench:
    """The bench of some ports: at which place of a line each of them stands."""

    asked: BesideVhdl
    ports: list[Port]
    nonce: str

    def __post_init__(self) -> None:
        self.moved = [port for port in self.ports if self.asked.ports()[port.name][0] != "clk"]
        self.outputs = [port for port in self.moved if not port.is_input]
        self.place: dict[str, int] = {}
        at = 1
        for port in self.moved:
            self.place[port.name] = at
            at += port.width
        self.length = at - 1

    def line(self, row: Mapping[str, str]) -> str:
        """A cycle as the bench reads it."""
        names = self.asked.ports()
        return "".join(
            inverted(row[names[one.name][0]]) if names[one.name][1] else row[names[one.name][0]] for one in self.moved
        )

    def links(self) -> list[str]:
        found = [port.line() for port in self.moved]
        found += [f"    {port.name} => clk" for port in self.ports if port not in self.moved]
        kinds = declared(entity_of(self.asked.files, self.asked.plain.top)) if self.asked.pins else {}
        for name, value in self.asked.pins.ties.items() if self.asked.pins else ():
            if kinds.get(name.lower()) not in SCALARS:
                raise Unclocked(f"the bench for GHDL ties no {name}, which is no std_logic", 1)
            found.append(f"    {name} => '{value & 1}'")
        return found + [f"    {name} => open" for name in (self.asked.pins.opens if self.asked.pins else ())]

    def text(self, vectors: str) -> str:
        is_low = any(is_low for port, is_low in self.asked.ports().values() if port == "clk")
        drives = []
        for port in self.moved:
            if port.is_input:
                for bit in range(port.width):
                    at = self.place[port.name] + port.width - 1 - bit
                    drives.append(f"      {port.signal}({bit}) <= '1' when said({at}) = '1' else '0';")
        compares = [
            f"      compare({port.signal}, {self.place[port.name]}, {number});"
            for number, port in enumerate(self.outputs)
        ]
        return BENCH.substitute(
            name=f"vidlakost_{self.nonce}",
            nonce=self.nonce,
            top=self.asked.plain.top,
            signals="\n".join(map(signal_line, self.moved)),
            ports=",\n".join(self.links()),
            vectors=vectors,
            length=self.length,
            drives="\n".join(drives),
            compares="\n".join(compares),
            idle="1" if is_low else "0",
            edge="0" if is_low else "1",
        )


def how_far(out: pathlib.Path) -> str:
    found = re.findall(r"at (\d+)$", out.read_text(encoding="utf-8", errors="replace"), re.MULTILINE)
    return f"cycle {int(found[-1]):,}" if found else ""


def call(words: list[str], folder: pathlib.Path) -> tuple[int, str]:
    """The status and the words of GHDL, which may change this folder alone."""
    bounds = bounded.Bounds(SECONDS)
    try:
        done = bounded.run(
            bounded.Call(words, "GHDL", bounds, folder, folder, doing="GHDL is at work", how_far=how_far)
        )
    except bounded.Stopped as error:
        raise Unclocked(str(error).splitlines()[0], 1) from error
    return done.status, bounded.without(folder, done.said)


def beside(asked: BesideVhdl, nonce: str) -> Seen:
    """What GHDL sees of the sources; a port that differs is refused."""
    if shutil.which("ghdl") is None:
        raise Unclocked("ghdl is not on the PATH", 1)
    bench = Bench(asked, ports_of(asked), nonce)
    cycles, unknown, doubt = 0, -1, None
    for seed in asked.seeds:
        with folder_of_its_own() as folder:
            with open(folder / "vectors", "w", encoding="ascii") as file:
                lines = (f"{bench.line(row)}\n" for row in asked.vectors(seed))
                for part in iter(lambda: list(itertools.islice(lines, 4096)), []):
                    file.writelines(part)
            (folder / "bench.vhd").write_text(bench.text(str(folder / "vectors")), encoding="utf-8")
            seen = found_in(run_in(asked, folder, nonce), bench)
        cycles += seen.cycles
        unknown, doubt = (unknown, doubt) if unknown >= 0 else (seen.unknown, seen.doubt)
    return Seen("GHDL", cycles, unknown, doubt if asked.rule else None)


def run_in(asked: BesideVhdl, folder: pathlib.Path, nonce: str) -> str:
    files = [os.path.abspath(file) for file in asked.files]
    own = ["--std=08", f"--workdir={folder}"]
    status, said = call(["ghdl", "-a", *own, *files, str(folder / "bench.vhd")], folder)
    if status:
        raise Unclocked(f"GHDL refuses the sources: {(lines_of(said) or ['no reason is given'])[0]}", 1)
    top = f"vidlakost_{nonce}"
    status, said = call(["ghdl", "--elab-run", *own, top, "--ieee-asserts=disable", "--assert-level=none"], folder)
    return said


def found_in(said: str, bench: Bench) -> Seen:
    """What the run says in the lines that it alone can say."""
    lines = [line.split()[1:] for line in lines_of(said) if line.startswith(f"{bench.nonce} ")]
    if not lines:
        told = [line for line in lines_of(said.strip()) if "(report note): at " not in line]
        raise Unclocked(f"the run in GHDL did not end: {shown((told or [''])[0])}", 1)
    if lines[0][0] == "differs":
        _, number, cycle, got, due = lines[0]
        raise Differs("GHDL", bench.outputs[int(number)].name, int(cycle), got, due)
    unknown, doubted, cycles = map(int, lines[0][1:])
    return Seen("GHDL", cycles, unknown, (bench.outputs[doubted].name, unknown) if unknown >= 0 else None)
