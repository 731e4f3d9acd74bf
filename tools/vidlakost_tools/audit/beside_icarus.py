"""The sources themselves, clocked by Icarus beside the module that Yosys makes of them, from the same random registers,
before a memory some of whose answers are wrong: what a simulator reads otherwise shows as a port that differs."""
from __future__ import annotations

import dataclasses
import os
import pathlib
import re
import secrets
import shutil
from typing import Callable

from vidlakost_tools import bounded
from vidlakost_tools.audit.pins import Pins
from vidlakost_tools.audit.stretches import Whole
from vidlakost_tools.temporary import folder_of_its_own
from vidlakost_tools.text import shown, template
from vidlakost_tools.texts.memory import Memory
from vidlakost_tools.tool import ToolError
from vidlakost_tools.verilog.front_end import Plain
from vidlakost_tools.verilog.source_texts import blanked, with_included, with_members
from vidlakost_tools.verilog.syntax import ranged

CYCLES = 2000
# in the first half of them the registers have other numbers after so many
LENGTH = 20
SECONDS = 600
# from so many seeds it is clocked
SEEDS = 2
# a signal in a hierarchy, as a simulator names it too
SIGNAL = re.compile(r"[A-Za-z_][\w$]*(\[\d+\])?(\.[A-Za-z_][\w$]*(\[\d+\])?)*")
# calls by which a source that is clocked would write files, or run a program
WRITES = re.compile(r"\$(?:f?open|fwrite|fdisplay|fstrobe|fmonitor|fflush|dump\w+|writemem\w*|system|swrite)\b")
BENCH, ANY_BENCH = template(__file__, "beside_icarus_bench.sv"), template(__file__, "beside_any_bench.sv")
COUNTS = {"we": "made_en === 1", "addr": "made_en === 1", "wdata": "made_en === 1 && made_we === 1"}
# what each input of a module is in a cycle, where nothing is known of it: it rests, it is all 0 or all 1, or random
DRAW = """        if (($random(seed) & 31) == 0) odds_{name} = $random(seed) & 7;
        if (odds_{name} > 3) in_{name} = {{$random(seed), $random(seed)}};
        else if (odds_{name} > 1) in_{name} = odds_{name} == 2 ? 0 : -1;"""


class Differs(ToolError):
    """A simulator reads the sources otherwise than Yosys: the port, the cycle, and what it is by either."""

    def __init__(self, simulator: str, port: str, cycle: int, got: str, due: str, where: str = ""):
        self.simulator, self.port, self.cycle, self.got, self.due = simulator, port, cycle, got, due
        self.told = f"{port} is {got} in cycle {cycle} by {simulator}, and {due} by Yosys"
        self.told = where or self.told
        histories = "" if where else ", from random registers and with random resets"
        super().__init__(f"the sources mean two things{histories}: {self.told}", 1)


class Unclocked(ToolError):
    """A simulator can't clock the sources, and why."""


@dataclasses.dataclass
class Seen:
    """What a simulator saw of the sources, which were equal: its name, the cycles, the first in which a port was
    unknown to it in any run, and the port with the cycle in which that counts, if it does."""

    simulator: str
    cycles: int
    unknown: int = -1
    doubt: tuple[str, int] | None = None

    def line(self) -> str:
        late = f"; from cycle {self.unknown} on a port is unknown to {self.simulator} in some of them"
        return f"beside {self.simulator}: equal in {self.cycles:,} cycles{late if self.unknown >= 0 else ''}"


@dataclasses.dataclass
class Beside:
    """What is clocked: the files of the sources, the module made of them, its pins and the memory, the models of known
    cells, and the test, where it is known; without a memory, a module of any ports."""

    files: list[str]
    plain: Plain
    pins: Pins | None
    memory: Memory | None
    cells: str = ""
    cycles: int = CYCLES
    test: Whole | None = None
    seed: int = 1
    # a register in a cell of Yosys' own has no name in the sources
    is_set: bool = True
    nonce: str = dataclasses.field(default_factory=lambda: f"s{secrets.token_hex(8)}")

    def known(self) -> str:
        """The models of known cells. Icarus reads no number that a port has where nothing is connected; x it is
        then."""
        return re.sub(r"(\binput \w+) = 1'b[01]", r"\1", self.cells)

    def dut_pins(self) -> str:
        """The pins of the sources' top."""
        if self.pins is None:
            clock = self.plain.clock or "clk"
            names = [(way, name, clock if name == "clk" else name) for way, name, _ in self.plain.ports]
            own = [self.input(port) if way == "input" and port != "clk" else f"dut_{port}" for way, port, _ in names]
            return ", ".join(f".{pin}({port})" for port, (_, _, pin) in zip(own, names))
        told = [f".{pin.name}({'~' if pin.is_low else ''}dut_{port})" for port, pin in self.pins.inputs()]
        told += [f".{pin.name}({'low' if pin.is_low else 'dut'}_{port})" for port, pin in self.pins.outputs()]
        return ", ".join(told + [f".{name}({value})" for name, value in self.pins.ties.items()])

    def input(self, port: str, side: str = "dut_") -> str:
        """What comes to a port of either side; of a module of any ports it has a name of its own in the bench."""
        return f"in_{port}" if self.memory is None else f"{side}{port}"

    def wires(self) -> list[str]:
        lows = {port for port, pin in self.pins.outputs() if pin.is_low} if self.pins else set()
        found = []
        for way, port, width in self.plain.ports:
            if way == "output":
                found.append(f"  wire {ranged(width)}made_{port};")
                found.append(f"  wire {ranged(width)}dut_{port}{f' = ~low_{port}' if port in lows else ''};")
                found[-1:] = [*([f"  wire {ranged(width)}low_{port};"] if port in lows else []), found[-1]]
        return found

    def same(self, dut: str = "dut.", made_in: str = "made.") -> dict[str, set[str]]:
        """The lines by which the registers of the sources become as those of the made module are, with the bits of
        these. A signal of which some bits are no registers is set where no other has its bits, and is said to have
        none."""
        bits: dict[str, dict[int, str]] = {}
        for register in self.plain.registers if self.is_set else ():
            for index, origin in enumerate(self.plain.origins.get(register.name, [])):
                made = f"{made_in}{register.name}[{index}]" if register.width > 1 else f"{made_in}{register.name}"
                for name, at in origin:
                    bits.setdefault(name, {})[at] = made
        whole = [name for name in bits if len(bits[name]) == self.plain.widths[name]]
        done = {made for name in whole for made in bits[name].values()}
        found = {}
        for name in filter(SIGNAL.fullmatch, bits):
            if name not in whole and done >= set(bits[name].values()):
                continue
            value = ", ".join(bits[name].get(at, "1'b0") for at in reversed(range(self.plain.widths[name])))
            line = set_to(f"{dut}{name}", f"{{{value}}}", self.plain.widths[name])
            found[line] = set(bits[name].values()) if name in whole else set()
        return found

    def is_whole(self, same: dict[str, set[str]]) -> bool:
        """Whether these lines set each register, so that they may be set at any time."""
        bits = {
            f"made.{one.name}[{index}]" if one.width > 1 else f"made.{one.name}"
            for one in self.plain.registers
            for index in range(one.width)
        }
        return bits <= set().union(*same.values())

    def outputs(self) -> list[tuple[str, int]]:
        return [(port, width) for way, port, width in self.plain.ports if way == "output"]

    def common(self, same: dict[str, set[str]]) -> dict[str, object]:
        """What both benches have."""
        return {
            "name": f"vidlakost_{self.nonce}",
            "nonce": self.nonce,
            "wires": "\n".join(self.wires()),
            "top": self.plain.top,
            "pins": self.dut_pins(),
            "ports": ", ".join(
                f".{name}({name if name == 'clk' else self.input(name, '') if way == 'input' else f'made_{name}'})"
                for way, name, _ in self.plain.ports
            ),
            "registers": "\n".join(
                f"    made.{one.name} = {{$random(seed), $random(seed)}};" for one in self.plain.registers
            ),
            "same": "\n".join(same),
            "cycles": self.cycles,
            "starts": self.cycles // 2 if self.is_whole(same) else 0,
            "each": LENGTH,
            "seeds": SEEDS,
            "seed": self.seed,
        }

    def bench_of_any(self, same: dict[str, set[str]]) -> str:
        """A bench of a module with any ports."""
        inputs = [(port, width) for way, port, width in self.plain.ports if way == "input" and port != "clk"]
        declared = [f"  reg {ranged(width)}in_{port} = 0;\n  reg [2:0] odds_{port} = 7;" for port, width in inputs]
        compares = [
            f"        if (dut_{port} !== made_{port}) compare(dut_{port}, made_{port}, {at});"
            for at, (port, _) in enumerate(self.outputs())
        ]
        return ANY_BENCH.substitute(
            self.common(same),
            inputs="\n".join(declared),
            draws="\n".join(DRAW.format(name=port) for port, _ in inputs),
            compares="\n".join(compares),
        )

    def bench(self, same: dict[str, set[str]]) -> str:
        if self.memory is None:
            return self.bench_of_any(same)
        registers, whole = self.plain.registers, self.test
        compares = [
            f"        if (dut_{port} !== made_{port}) compare(dut_{port}, made_{port}, {COUNTS.get(port, 1)}, {at});"
            for at, (port, _) in enumerate(self.outputs())
        ]
        places = whole.starts if whole else []
        stretches = [f"    starts[{at}] = {place};" for at, place in enumerate([*places, 1 << 30])]
        return BENCH.substitute(
            self.common(same),
            word=ranged(self.memory.bits),
            bits=self.memory.bits,
            draw="{$random(seed), $random(seed)}" if self.memory.bits > 32 else "$random(seed)",
            last=2**self.memory.width - 1,
            latency=self.memory.latency,
            then="\n".join(f"  reg {ranged(one.width)}then_{one.name};" for one in registers),
            keep="\n".join(f"      then_{one.name} = made.{one.name};" for one in registers),
            restore="\n".join(f"      made.{one.name} = then_{one.name};" for one in registers),
            compares="\n".join(compares),
            stretches=len(places),
            stretch="\n".join(stretches),
            is_long=int(bool(places) and self.is_whole(same)),
            span=whole.span if whole else 0,
            length=whole.length if whole else 0,
            histories=whole.histories if whole else 0,
            first=whole.first if whole and self.is_whole(same) else 0,
        )


def refuse_sources(files: list[str]) -> None:
    """Clocks nothing that would reach out of a simulation."""
    for file, source in with_included(files):
        found = next((match for text in blanked(source) for match in WRITES.finditer(text)), None)
        if found:
            line = source.count(chr(10), 0, found.start()) + 1
            raise Unclocked(f"{shown(file)}:{line}: {found[0]} would reach out of the simulation", 1)


ASKS = re.compile(r"\b__ICARUS(?:__|_SYNTH__)\b")


def refuse_asking(files: list[str]) -> None:
    """Believes nothing of sources that ask whether Icarus reads them, since no other tool reads what it does then."""
    for file, source in with_included(files):
        found = next((match for text in blanked(source) for match in ASKS.finditer(text)), None)
        if found:
            line = source.count(chr(10), 0, found.start()) + 1
            why = "it asks whether Icarus reads it, so other tools read something else"
            raise Unclocked(f"{shown(file)}:{line}: {why}", 1)


def how_far(out: pathlib.Path) -> str:
    """The cycle at which a run is."""
    found = re.findall(r"^at (\d+)$", out.read_text(encoding="utf-8", errors="replace"), re.MULTILINE)
    return f"cycle {int(found[-1]):,}" if found else ""


def call(words: list[str], folder: pathlib.Path) -> tuple[int, str]:
    """The status and the words of a program that may change this folder alone."""
    environment, bounds = {**os.environ, "TMPDIR": str(folder)}, bounded.Bounds(SECONDS)
    try:
        done = bounded.run(
            bounded.Call(
                words,
                "Icarus",
                bounds,
                only=folder,
                environment=environment,
                doing="Icarus is at work",
                how_far=how_far,
            )
        )
    except bounded.Stopped as error:
        why = "" if error.bound == "limit" else "; a block that wakes itself for ever looks like this"
        raise Unclocked(f"{str(error).splitlines()[0]}{why}", 1) from error
    return done.status, bounded.without(folder, done.said)


# of a longer word Icarus deposits the last bits alone
DEPOSITED = 32


def set_to(name: str, value: str, width: int) -> str:
    """The line that sets a signal of the sources. A word of a memory is no target of $deposit, and a long one none that
    can be trusted; where it is no variable Icarus refuses the line."""
    if name.endswith("]") or width > DEPOSITED:
        return f"    {name} = {value};"
    return f"    $deposit({name}, {value});"


# a line that sets a signal of the sources, by $deposit or without
SETS = re.compile(r"    (?:\$deposit\()?(?P<dut>[a-z.]*\bdut\.)(?P<name>[\w$.\[\]]+)(?: =|,) (?P<value>\{.*\})\)?;")


def escaped(line: str) -> str | None:
    """The line that sets a signal of the same name behind a backslash, as netlists have them; None where it is one."""
    match = SETS.fullmatch(line)
    if match is None:
        return None
    is_long = "$deposit" not in line and not match["name"].endswith("]")
    width = DEPOSITED + 1 if is_long else match["value"].count(",") + 1
    return set_to(f"{match['dut']}\\{match['name']} ", match["value"], width)


def known(same: dict[str, set[str]], unknown: set[str]) -> dict[str, set[str]]:
    """The lines without those that name what Icarus doesn't know, which are tried once more with a backslash."""
    lines = {line: escaped(line) if line in unknown else line for line in same}
    return {told: same[line] for line, told in lines.items() if told is not None}


def compiled(
    words: list[str], folder: pathlib.Path, bench: Callable[[dict[str, set[str]]], str], same: dict[str, set[str]]
) -> None:
    """Compiles a bench whose lines set the registers of the sources, but for those that Icarus doesn't know."""
    for _ in range(20):
        text = bench(same)
        (folder / "bench.v").write_text(text, encoding="utf-8")
        status, said = call(words, folder)
        lines = {int(number) for number in re.findall(r"^bench\.v:(\d+): ", said, re.MULTILINE)}
        unknown = {line for number, line in enumerate(text.split("\n"), 1) if number in lines} & set(same)
        if status == 0 or not unknown:
            break
        same = known(same, unknown)
    if status:
        raise Unclocked(f"Icarus refuses the sources: {(said.splitlines() or ['no reason is given'])[0]}", 1)


def beside(asked: Beside) -> Seen:
    """What is seen of the sources beside the made module; a port that differs is refused."""
    if shutil.which("iverilog") is None or shutil.which("vvp") is None:
        raise Unclocked("Icarus (iverilog and vvp) is not on the PATH", 1)
    refuse_sources(asked.files)
    refuse_asking(asked.files)
    with folder_of_its_own() as folder:
        made = dataclasses.replace(asked.plain, name="vidlakost_made")
        (folder / "made.v").write_text(made.text(), encoding="utf-8")
        (folder / "cells.v").write_text(asked.known(), encoding="utf-8")
        copies, _ = with_members(asked.files, folder)
        files = [os.path.abspath(file) for file in copies]
        places = [
            f"-I{place}"
            for place in dict.fromkeys([os.getcwd(), *(os.path.dirname(os.path.abspath(file)) for file in asked.files)])
        ]
        words = ["iverilog", "-g2012", "-s", f"vidlakost_{asked.nonce}", *places, "-o", str(folder / "run")]
        words += [str(folder / part) for part in ("bench.v", "made.v", "cells.v")] + files
        compiled(words, folder, asked.bench, asked.same())
        _, said = call(["vvp", "-n", str(folder / "run")], folder)
    return found_in(said, asked, "Icarus")


def found_in(said: str, asked: Beside, simulator: str) -> Seen:
    """What the run says in the lines that it alone can say."""
    lines = [line.split()[1:] for line in said.splitlines() if line.startswith(f"{asked.nonce} ")]
    if not lines:
        last = (said.strip().splitlines() or [""])[-1]
        raise Unclocked(f"the run in {simulator} did not end: {shown(last)}", 1)
    outputs = asked.outputs()
    if lines[0][0] == "differs":
        _, number, cycle, got, due = lines[0]
        port, width = outputs[int(number)]
        raise Differs(simulator, port, int(cycle), hexadecimal(got, width), hexadecimal(due, width))
    unknown, doubt, doubted, cycles = map(int, lines[0][1:])
    return Seen(simulator, cycles, unknown, (outputs[doubted][0], doubt) if doubt >= 0 else None)


def hexadecimal(digits: str, width: int) -> str:
    """A number of so many bits, of the digits of 64."""
    return digits[-((width + 3) // 4) :]
