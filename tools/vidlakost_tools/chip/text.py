"""The module that joins the chips that `chip` writes with the collars of their memories: one start, one bit of `fail`
for each memory, one `done`."""
from __future__ import annotations

import collections

from vidlakost_tools.access.target import Port
from vidlakost_tools.chip import sharing
from vidlakost_tools.chip.steps import steps_of
from vidlakost_tools.chip.system import Part, Placed, System
from vidlakost_tools.collar import planted as collar_planted
from vidlakost_tools.collar.names import MARK, Names, halves, own_ports, planted_names
from vidlakost_tools.verilog.reserved_words import RESERVED
from vidlakost_tools.collar.text import FOOT, HEAD, PLANTED, memory_name
from vidlakost_tools.collar.watch import POWER
from vidlakost_tools.tool import ToolError
from vidlakost_tools.verilog.syntax import ranged

ABOUT = """{mark} top: the {count} memories of {name}, in collars, with the tests that `vidlakost chip` wrote.
// The test runs once while test is 1. It begins when test rises, after 0 for a few cycles. fail has these bits:
{bits}
"""
ABOUT_ACCESS = """\
// asks has such a bit too, 1 while the test of that memory commands a read; given_I is what its test writes or expects
// then, and taken_I what the memory answers
"""


def port_name(placed: Placed, name: str) -> str:
    return f"{placed.name}_{name}"


def chip_ports(system: System) -> list[tuple[str, int, str]]:
    """The chip's pins of all collars: direction, width, name."""
    found = []
    for placed in system.collars:
        for way, pin in placed.macro.chip_pins():
            names = [(name, 1) for name in pin.bits] or [(pin.name, pin.width)]
            found += [(way, width, port_name(placed, name)) for name, width in names]
    return found


def own_names(system: System) -> list[Port]:
    scan = [Port("input", "scan_mode")] if any(placed.macro.bypass for placed in system.collars) else []
    found = [
        Port("input", "clk"),
        Port("input", "test"),
        *scan,
        Port("output", "done"),
        Port("output", "fail", len(system.parts)),
    ]
    found += [Port("output", "asks", len(system.parts))] if system.has_access else []
    return found + [Port("output", name, part.memory.bits) for name, part in seen_by_tester(system)]


def seen_by_tester(system: System) -> list[tuple[str, Part]]:
    """The outputs for what the test of each memory writes and reads."""
    if not system.has_access:
        return []
    return [(f"{what}_{number}", part) for number, part in enumerate(system.parts) for what in ("given", "taken")]


def refuse_names(system: System) -> None:
    """No two ports have one name."""
    names = [name for _, _, name in chip_ports(system)]
    seen = {port.name for port in own_names(system)} | planted_names() | {f"{system.name}_system"}
    for name in names:
        if name in seen or name in RESERVED:
            told = f"two ports of {system.name}_system would have the name '{name}', or it is a reserved word"
            raise ToolError(f"{told}: rename a memory")
        seen.add(name)


def refuse_modules(system: System, given: list[str]) -> None:
    """No two modules have one name; `given` are those of the vendor's files."""
    macros = {placed.macro.name for placed in system.collars}
    modules = [system.name_of(number) for number in range(len(system.chips))]
    modules += [f"{system.name}_system", f"{system.name}_system_tb", *macros]
    modules += [f"{part.name}_bist" for part in system.parts]
    modules += [
        f"{name}_{what}" for name in {placed.word.name for placed in system.collars} for what in ("collar", "lanes")
    ]
    counts = collections.Counter(name.lower() for name in [*modules, *(set(given) - macros)])
    twice = next((name for name in modules if counts[name.lower()] > 1), None)
    if twice:
        raise ToolError(f"two modules would have the name {twice} if case is ignored: rename one")


class Text:
    """The module that is being written."""

    def __init__(self, system: System):
        refuse_names(system)
        self.system, self.steps = system, steps_of(system)
        ports = (
            {port.name for port in own_names(system)} | {name for _, _, name in chip_ports(system)} | planted_names()
        )
        self.names = Names(ports)
        # of each collar its instance, and that of the macro inside
        self.collar_names: list[str] = []
        self.memory_names: list[str] = []
        self.bits = max(1, len(self.steps).bit_length())
        self.lines: list[str] = []

    def wire(self, name: str, width: int) -> str:
        made = self.names.of(name)
        self.lines.append(f"  wire {ranged(width)}{made};")
        return made

    def at(self, number: int) -> str:
        return f"{self.names.of('step')} == {self.bits}'d{number}"

    def active(self, kind: str, number: int) -> str:
        """Whether a chip or the lanes of a collar have their turn."""
        turns = [self.at(at) for at, step in enumerate(self.steps) if step.kind == kind and number in step.numbers]
        return f"test & ({' | '.join(f'({turn})' for turn in turns)})"

    def chips(self) -> None:
        """The chips, and the nets between them and the collars."""
        for number in range(len(self.system.chips)):
            links, parts = [".clk(clk)"], self.system.of_chip(number)
            self.lines.append(f"  wire {self.names.of(f'chip_{number}_on')} = {self.active('chips', number)};")
            for part in parts:
                memory = part.memory
                for name, width in (("en", 1), ("we", 1), ("addr", memory.width)):
                    links.append(f".{name}_{part.place}({self.wire(f'n_{part.name}_{name}', width)})")
                given, taken = self.turned(part)
                links += [f".wdata_{part.place}({given})", f".rdata_{part.place}({taken})"]
            over, bad = self.wire(f"chip_{number}_done", 1), self.wire(f"chip_{number}_fail", len(parts))
            links += [f".reset(~{self.names.of(f'chip_{number}_on')})", f".done({over})", f".fail({bad})"]
            instance = self.names.of(f"chip_{number}")
            self.lines += [f"  {self.system.name_of(number)} {instance}(", "    " + ",\n    ".join(links), "  );"]
            for part in parts:
                self.followers(number, part)

    def followers(self, number: int, part: Part) -> None:
        """The memories that share the controller of this one: its commands go to them too."""
        others = sharing.followers(self.system, part)
        for other in others:
            for name, width in (("en", 1), ("we", 1), ("addr", other.memory.width)):
                net = self.wire(f"n_{other.name}_{name}", width)
                self.lines.append(f"  assign {net} = {self.names.of(f'n_{part.name}_{name}')};")
            given, _ = self.turned(other)
            self.lines.append(f"  assign {given} = {self.names.of(f'n_{part.name}_given')};")
        if others:
            self.lines += sharing.comparators(part, others, self.names.of(f"chip_{number}_on"), self.names.of)

    def turned(self, part: Part) -> tuple[str, str]:
        """The words that a chip gives and takes for a memory, which a testbench can turn."""
        bits, name = part.memory.bits, part.name
        given, taken = self.wire(f"n_{name}_given", bits), self.wire(f"n_{name}_taken", bits)
        wdata, rdata = self.wire(f"n_{name}_wdata", bits), self.wire(f"n_{name}_rdata", bits)
        placed = next(placed for placed in self.system.collars if part in placed.parts)
        key = self.names.of(f"n_{name}_key")
        self.lines += collar_planted.key(
            key, bits, sum(one.memory.bits for one in placed.parts[: placed.parts.index(part)])
        )
        for sink, source in ((wdata, given), (taken, rdata)):
            self.lines += collar_planted.also(f"  assign {sink} = {source}", f"^ {key}")
        return given, taken

    def collars(self) -> None:
        for number, placed in enumerate(self.system.collars):
            links = []
            for port in own_ports(placed.macro, placed.word, "open"):
                links.append(f".{port.name}({self.own(number, placed, port)})")
            power: list[str] = []
            for way, pin in placed.macro.chip_pins():
                made = power if way == "inout" else links
                made += [f".{name}({port_name(placed, name)})" for name in pin.names()]
            self.collar_names.append(self.names.fresh(placed.name))
            self.memory_names.append(memory_name(placed.macro, placed.word, "open"))
            head = [f"  {placed.word.name}_collar {self.collar_names[-1]}("]
            head += [f"`ifdef {POWER}", *(f"    {link}," for link in power), "`endif"] if power else []
            kind = f".planted(planted[{3 * number + 2}:{3 * number}])"
            head += [f"`ifdef {PLANTED}", f"    {kind}, .planted_bit(planted_bit), .numbered(numbered),", "`endif"]
            self.lines += [*head, "    " + ",\n    ".join(links), "  );"]

    def own(self, number: int, placed: Placed, port: Port) -> str:
        """The net at a port of a collar that is no pin."""
        if port.name in ("clk", "test", "scan_mode"):
            return port.name
        if port.name == "second":
            return self.names.of("second")
        if port.name == "lanes_go":
            return self.active("lanes", number)
        if port.name in ("lanes_over", "lanes_fail", "apart"):
            return self.names.of(f"{port.name}_{number}")
        half, name = port.name.split("_", 1)
        part = placed.parts[[one for one, _ in halves(placed.word)].index(half)]
        return self.names.of(f"n_{part.name}_{name}")

    def found(self) -> list[str]:
        """The bit of each memory: its test's, that of the lanes, and that of two parts that do not the same."""
        bits = []
        for part in self.system.parts:
            width = len(self.system.of_chip(part.chip))
            bit = self.names.of(f"chip_{part.chip}_fail") + (f"[{part.place}]" if width > 1 else "")
            if part.leader is not None:
                bit = f"{self.names.of(f'chip_{part.chip}_on')} & {self.names.of(f'n_{part.name}_bad')}"
            number = next(number for number, one in enumerate(self.system.collars) if part in one.parts)
            placed = self.system.collars[number]
            more = [self.names.of(f"lanes_fail_{number}")] if placed.macro.masks else []
            more += [self.names.of(f"apart_{number}")] if len(placed.parts) > 1 else []
            bits.append(" | ".join([f"({bit})" if more and part.leader else bit, *more]))
        return bits

    def sequence(self) -> None:
        """Runs one step after the other, and keeps what was found until now."""
        step, kept, now, next_on = (self.names.of(name) for name in ("step", "kept", "now", "is_over"))
        count, last = len(self.system.parts), len(self.steps)
        overs = {"chips": "chip_{}_done", "lanes": "lanes_over_{}"}
        self.lines.append(f"  reg {next_on};")
        self.lines += ["  always @*", f"    case ({step})"]
        for at, one in enumerate(self.steps):
            over = " & ".join(self.names.of(overs[one.kind].format(number)) for number in one.numbers) or "1'b1"
            self.lines.append(f"      {self.bits}'d{at}: {next_on} = {over};")
        self.lines += [f"      default: {next_on} = 1'b0;", "    endcase"]
        bits = self.found()
        self.lines += [f"  wire {ranged(count)}{now};"]
        self.lines += [f"  assign {now}{f'[{at}]' if count > 1 else ''} = {bit};" for at, bit in enumerate(bits)]
        self.lines += [
            f"  reg {ranged(count)}{kept};",
            "  always @(posedge clk)",
            "    if (!test) begin",
            f"      {step} <= {self.bits}'d0;",
            f"      {kept} <= {count}'d0;",
            "    end else begin",
            f"      if ({next_on}) {step} <= {step} + {self.bits}'d1;",
            f"      {kept} <= {kept} | {now};",
            "    end",
            f"  assign done = test & {self.at(last)};",
            f"  assign fail = test ? {kept} | {now} : {count}'d0;",
        ]

    def asks(self) -> list[str]:
        """The bit of each memory whose test commands a read."""
        found, count = [], len(self.system.parts)
        for number, part in enumerate(self.system.parts):
            bit = f"asks[{number}]" if count > 1 else "asks"
            en, we = (self.names.of(f"n_{part.name}_{name}") for name in ("en", "we"))
            found.append(f"  assign {bit} = {en} & ~{we};")
        return found

    def text(self) -> str:
        system = self.system
        self.lines.append(f"  reg {ranged(self.bits)}{self.names.of('step')};")
        if any(step.is_second for step in self.steps):
            first = next(number for number, step in enumerate(self.steps) if step.is_second)
            self.lines.append(
                f"  wire {self.names.of('second')} = test & {self.names.of('step')} >= {self.bits}'d{first};"
            )
        for number, placed in enumerate(system.collars):
            told = ["lanes_over", "lanes_fail"] if placed.macro.masks else []
            for name in [*told, *(["apart"] if len(placed.parts) > 1 else [])]:
                self.wire(f"{name}_{number}", 1)
        self.chips()
        self.collars()
        self.sequence()
        self.lines += self.asks() if system.has_access else []
        for name, part in seen_by_tester(system):
            what = name.split("_")[0]
            self.lines.append(f"  assign {name} = {self.names.of(f'n_{part.name}_{what}')};")
        ports = chip_ports(system)
        power = [f"  inout wire {name}," for way, _, name in ports if way == "inout"]
        told = [f"  {port.direction} wire {ranged(port.width)}{port.name}" for port in own_names(system)]
        told += [f"  {way} wire {ranged(width)}{name}" for way, width, name in ports if way != "inout"]
        head = [f"module {system.name}_system("]
        head += [f"`ifdef {POWER}", *power, "`endif"] if power else []
        head += collar_planted.ports(len(system.collars))
        body = "\n".join([*head, ",\n".join(told), ");", *self.lines, "endmodule"])
        bits = "\n".join(f"//   {at} {told_of(part, system)}" for at, part in enumerate(system.parts))
        about = ABOUT.format(mark=MARK, count=len(system.parts), name=system.name, bits=bits)
        about += ABOUT_ACCESS if system.has_access else ""
        return f"{about}{HEAD}{body}\n{FOOT}"


def told_of(part: Part, system: System) -> str:
    shared = f", by the controller of {part.leader.name}" if part.leader else ""
    return f"{part.name}, unit {part.place} of {system.name_of(part.chip)}{shared}"
