"""What a tester needs round a whole chip that `vidlakost top` joined: the same start, state and first failure as round
one memory, with a bit for each memory, and the chip's pins of all collars on their way through."""
from __future__ import annotations

import dataclasses
import pathlib
import re

from vidlakost_tools.access import logs
from vidlakost_tools.access.target import Port, Target, Unit, links
from vidlakost_tools.chip import access_log, text as system_text
from vidlakost_tools.chip.ends import forced, in_vector, joined, width_of
from vidlakost_tools.chip.steps import begin_of, cycles
from vidlakost_tools.chip.system import System
from vidlakost_tools.collar import planted as collar_planted
from vidlakost_tools.verilog.reserved_words import RESERVED
from vidlakost_tools.collar.planted import DEFINE
from vidlakost_tools.collar.watch import POWER
from vidlakost_tools.texts.reads import first_read
from vidlakost_tools.text import LARGE_BYTES, lines_of, read_described, read_text, template
from vidlakost_tools.tool import ToolError
from vidlakost_tools.verilog.syntax import ranged

# a net inside a module that is written
INNER = re.compile(r"^ +(?:reg|wire) (?:\[\d+:0\] )?(\w+);", re.MULTILINE)
ENDS = template(__file__, "access_ends.sv")
EACH = template(__file__, "access_each.sv")
ABOUT = """//   +planted +unit=U +bit=B   each word that memory U answers has bit B wrong"""
ABOUT_EACH = """
//   +each                      the lowest bit of each macro is wrong, and of each memory {what} is read"""


@dataclasses.dataclass
class SystemTarget(Target):
    """The memories of a whole chip, and the module that joins them."""

    system: System = dataclasses.field(default_factory=lambda: System("", 1, []))

    def ports(self) -> list[Port]:
        """The chip's pins of all collars."""
        scan = [Port("input", "scan_mode")] if self.has_scan else []
        told = system_text.chip_ports(self.system)
        return scan + [Port(way, name, width) for way, width, name in told if way != "inout"]

    def pins_by_clock(self) -> list[tuple[str, list[Port], list[Port]]]:
        """Each clock of the chip's, `clk` first, with its inputs and its outputs."""
        found: dict[str, tuple[list[Port], list[Port]]] = {"clk": ([], [])}
        if self.has_scan:
            found["clk"][0].append(Port("input", "scan_mode"))
        for placed in self.system.collars:
            second = next((pin for pin in placed.macro.of("clk", second=True)), None)
            for way, pin in placed.macro.chip_pins():
                names = [system_text.port_name(placed, name) for name in pin.names()]
                if pin.kind in ("clk", "clock2"):
                    found.setdefault(names[0], ([], []))
                elif way != "inout":
                    clock = system_text.port_name(placed, second.name) if second and pin.is_second else "clk"
                    ports = [Port(way, name, 1 if pin.bits else pin.width) for name in names]
                    found.setdefault(clock, ([], []))[way == "output"].extend(ports)
        return [(clock, *ports) for clock, ports in found.items()]

    # ---- the first failure of each memory

    @property
    def has_every(self) -> bool:
        """Whether a testbench can plant a bit in each macro at once."""
        return self.each or self.has_inner_log

    def first_parts(self) -> int:
        """The memories that have a wrong bit if each macro has one: of a word of two memories, the low part."""
        return sum(1 << self.system.parts.index(placed.parts[0]) for placed in self.system.collars)

    def wanted_fails(self) -> str:
        return f"is_each ? {self.count}'h{self.first_parts():x} : {super().wanted_fails()}"

    def read_each(self, kind: str, read: str) -> str:
        """Reads, after the run, the first failure of each memory that failed, while all others are ignored."""
        return (
            EACH.substitute(
                count=self.count, read=read, ignore=self.ignoring(kind), name=self.name, shown=self.shown_each()
            )
            if self.each
            else ""
        )

    def shown_each(self) -> str:
        """Without a log the first failures are printed."""
        words = '"memory %0d cycle %0d expected %h returned %h", whose, when_read, wanted, got'
        return "" if self.has_inner_log else f"            $display({words});\n"

    def ignoring(self, kind: str) -> str:
        """The statements that write `ignored`, so that the other memories alone are shown."""
        if kind == "apb":
            places = [(0x24 if low == 0 else 0x200 + 4 * (low // 32 - 1), low) for low in range(0, self.count, 32)]
            widths = [min(32, self.count - low) for _, low in places]
            return "\n".join(
                f"        put(12'h{at:03x}, ignored[{low + width - 1}:{low}]);"
                for (at, low), width in zip(places, widths)
            )
        return "" if kind == "access" else "        shift_ignored;"

    # ---- the logs

    def first_reads(self) -> dict[int, tuple[int, int]]:
        found = {}
        for number, part in enumerate(self.system.parts):
            first, unit = first_read(part.unit.elements, part.memory), self.system.chips[part.chip].units[part.place]
            if first:
                found[number] = (begin_of(self.system, part.chip) + unit.start + first[0], first[1])
        return found

    @property
    def is_inside(self) -> bool:
        return True

    @property
    def has_inner_log(self) -> bool:
        return self.depth is not None

    def log_name(self, number: int) -> str:
        """Equal memories have one module for their logs."""
        return self.system.parts[number].memory.name

    def log_links(self, number: int) -> dict[str, str]:
        suffix = self.units[number].suffix
        return {"en": self.asked(number), "we": "1'b0", "wdata": f"wdata{suffix}", "rdata": f"rdata{suffix}"}

    def asked(self, number: int) -> str:
        """Whether the test of a memory commands a read."""
        return f"asks[{number}]" if self.count > 1 else "asks"

    @property
    def has_scan(self) -> bool:
        return any(placed.macro.bypass for placed in self.system.collars)

    def supplies(self) -> list[str]:
        return [name for way, _, name in system_text.chip_ports(self.system) if way == "inout"]

    def conditional(self) -> list[str]:
        power = [f"`ifdef {POWER}", *(f"  inout wire {name}," for name in self.supplies()), "`endif"]
        return [*(power if self.supplies() else []), *collar_planted.ports(len(self.system.collars))]

    def handed_on(self) -> list[str]:
        names = [name for name, _ in collar_planted.INPUTS]
        power = [f"`ifdef {POWER}", *(f"    .{name}({name})," for name in self.supplies()), "`endif"]
        planted = [f"`ifdef {DEFINE}", f"    {', '.join(f'.{name}({name})' for name in names)},", "`endif"]
        return [*(power if self.supplies() else []), *planted]

    def nets(self) -> list[str]:
        """What each memory's test writes and reads."""
        found = [f"  wire {ranged(self.count)}asks;"]
        if not self.has_inner_log:
            found += ["  wire unused;", "  assign unused = &{1'b0, asks};"]
        for unit in self.units:
            word = f"[{unit.memory.bits - 1}:0] " if unit.memory.bits > 1 else ""
            found += [f"  wire {word}wdata{unit.suffix};", f"  wire {word}rdata{unit.suffix};"]
        return found

    def self_test(self) -> list[str]:
        seen = [".asks(asks)"]
        for unit in self.units:
            seen += [f".given{unit.suffix}(wdata{unit.suffix})", f".taken{unit.suffix}(rdata{unit.suffix})"]
        return [
            f"  {self.top} self_test(",
            *self.handed_on(),
            f"    .clk(clk), .test(test), {links(self.ports())},",
            f"    {', '.join(seen)},",
            "    .done(over), .fail(fail));",
        ]

    # ---- in a testbench

    def bench_head(self) -> str:
        return f"`define {DEFINE}\n`timescale 1ns / 1ps\n"

    def bench_nets(self) -> str:
        """The chip's pins; the inputs are at rest except for a moment at the start."""
        inputs, outputs = self.by_way("input"), self.by_way("output")
        found = [f"  reg [{width_of(inputs) - 1}:0] pins = {width_of(inputs)}'d0;"]
        for port, high, low in in_vector(inputs):
            found.append(f"  wire {ranged(port.width)}{port.name} = pins[{high}:{low}];")
        found += [f"  wire {ranged(port.width)}{port.name};" for port in outputs]
        power = [f"`ifdef {POWER}", *(f"  wire {name} = 1'b1;" for name in self.supplies()), "`endif"]
        return "\n".join([*found, *(power if self.supplies() else [])])

    def by_way(self, way: str) -> list[Port]:
        return [port for port in self.ports() if port.direction == way]

    def ends(self, kind: str) -> str:
        """Before the clock's first edge each bit of each pin by itself, from the chip to the module inside and back,
        and of what goes to the logs."""
        tested = "dut" if kind == "access" else "dut.tested"
        inside, inputs = f"{tested}.self_test", self.by_way("input")
        ends = [(port, port.name) for port in self.by_way("output")]
        ends += access_log.words_to(self, tested) if self.has_inner_log else []
        outputs = [port for port, _ in ends]
        return ENDS.substitute(
            name=self.name,
            ins=width_of(inputs),
            outs=width_of(outputs),
            arrived=joined([f"{inside}.{port.name}" for port in inputs]),
            said=joined([f"{inside}.{port.name}" for port in outputs]),
            seen=joined([end for _, end in ends]),
            forced="\n".join(forced(inside, outputs)),
            released="\n".join(f"    release {inside}.{port.name};" for port in outputs),
        ) + (access_log.looked_at(self, tested) if self.has_inner_log else "")

    def bench_links(self) -> str:
        power = [f"`ifdef {POWER}", *(f"    .{name}({name})," for name in self.supplies()), "`endif"]
        planted = "    .planted(planted_at), .planted_bit(planted_bit), .numbered(3'd0),"
        return "\n".join(["", *(power if self.supplies() else []), planted, "    "])

    def beside(self) -> str:
        """The collar in which a wrong bit is planted, and which bit of its word it is."""
        width = 3 * len(self.system.collars)
        every = f"{{{len(self.system.collars)}{{3'd4}}}}"
        at, bit = f"is_each ? {every} : {width}'d0", "7'd0"
        for number, placed in enumerate(self.system.collars):
            first = 0
            for part in placed.parts:
                chosen = f"planted && at_unit == 10'd{self.system.parts.index(part)}"
                at = f"{chosen} ? {width}'d4 << {3 * number} :\n    {at}"
                bit = f"{chosen} ? 7'd{first} + at_bit :\n    {bit}"
                first += part.memory.bits
        return (
            f"  assign planted_at = !planted & !is_each ? {width}'d0 :\n    {at};\n  assign planted_bit =\n    {bit};\n"
        )

    def beside_nets(self) -> str:
        each = f"  reg [{self.count - 1}:0] ignored = {self.count}'d0;\n  reg is_each = 1'b0;\n  integer asked_one;\n"
        each += '  initial is_each = $test$plusargs("each") != 0;\n' if self.has_every else ""
        return each + f"  wire [{3 * len(self.system.collars) - 1}:0] planted_at;\n  wire [6:0] planted_bit;\n"

    def how_planted(self) -> str:
        what = "its own first failure" if self.each else "its own log"
        return ABOUT + ABOUT_EACH.format(what=what) * self.has_every


def of_system(system: System) -> SystemTarget:
    """The target of a whole chip, whose chips are placed."""
    if system.name in RESERVED:
        why = "is a reserved word of SystemVerilog, so no module can have this name"
        raise ToolError(f"'{system.name}' {why}: rename the chip")
    memories = [dataclasses.replace(part.memory, name=part.name) for part in system.parts]
    units = [Unit(memory, f"_{number}") for number, memory in enumerate(memories)]
    return SystemTarget(system.name, f"{system.name}_system", units, True, cycles(system), system=system)


def refuse_inner_names(target: SystemTarget, texts: dict[str, str]) -> None:
    """No pin of the chip has the name of a net inside the modules that are written, or of another port of theirs."""
    pins = {port.name for port in target.ports()} | set(target.supplies())
    others = {port.name for port in logs.ports(target)}
    for name, text in texts.items():
        if not name.endswith(".v"):
            continue
        declared = pins & {*others, *INNER.findall(text)}
        if declared:
            net = sorted(declared)[0]
            raise ToolError(f"{name} would have a net {net}, and the chip has a pin of that name: rename a memory")


def refuse_log_names(target: SystemTarget) -> None:
    """No module of a log has the name of another module."""
    system = target.system
    made = {f"{target.log_name(number)}_log".lower() for number in range(target.count if target.has_inner_log else 0)}
    theirs = [placed.macro.name for placed in system.collars]
    theirs += [system.name_of(number) for number in range(len(system.chips))]
    twice = next((name for name in theirs if name.lower() in made), None)
    if twice:
        raise ToolError(f"the log of a memory would be a module {twice}, and another module has that name: rename one")


def files_of(folder: pathlib.Path, target: SystemTarget) -> list[str]:
    """The files that `top` wrote to a folder, without its testbench."""
    listed, module = folder / "files.f", folder / f"{target.top}.v"
    if not listed.is_file() or not module.is_file():
        raise ToolError(
            f"{folder} lacks {target.top}.v or files.f: give the folder that `vidlakost top --access` wrote"
        )
    if " asks" not in read_text(str(module), LARGE_BYTES):
        raise ToolError(f"{module} has no outputs for what its memories answer: write it by `vidlakost top --access`")
    names = [line for line in lines_of(read_described(str(listed))) if line and not line.startswith("//")]
    return [name for name in names if name != f"{target.top}_tb.sv"]


def left_out(target: Target) -> list[str]:
    """The files that access writes for one memory and not for a whole chip, whose folder has the models."""
    name = target.name
    return [f"{name}_model.v", f"{name}_board.v", f"{name}_socket.cpp", f"{name}.cfg", f"{name}_log.tcl"]
