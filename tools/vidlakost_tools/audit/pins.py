"""The pins of a controller whose ports have other names than those of a self-test: which pin is which port, which is
active low, which input is tied and which output left open."""
from __future__ import annotations

import dataclasses
import re
from typing import Any, Iterable

from vidlakost_tools.text import lines_of, read_described, words_in
from vidlakost_tools.texts.memory import Memory
from vidlakost_tools.tool import ToolError

INPUTS = ("clk", "reset", "rdata")
OUTPUTS = ("en", "we", "addr", "wdata", "done", "fail")
PIN = re.compile("[A-Za-z_][A-Za-z0-9_$]{0,63}")
BASES = {"b": 2, "o": 8, "d": 10, "h": 16}


def ports_of(memory: Memory) -> set[tuple[str, str, int]]:
    """The ports of a memory's self-test: of each its way, its name and its width."""
    widths = {"rdata": memory.bits, "wdata": memory.bits, "addr": memory.width}
    return {("input" if port in INPUTS else "output", port, widths.get(port, 1)) for port in (*INPUTS, *OUTPUTS)}


def told_ports(ports: set[tuple[str, str, int]]) -> str:
    return ", ".join(f"{way} {port} of {width} bit{'s' if width > 1 else ''}" for way, port, width in sorted(ports))


@dataclasses.dataclass
class Pin:
    """A pin, and whether it is active low."""

    name: str
    is_low: bool


@dataclasses.dataclass
class Pins:
    """What the file of the pins says, and its name."""

    file: str
    pins: list[tuple[str, Pin]] = dataclasses.field(default_factory=list)
    ties: dict[str, int] = dataclasses.field(default_factory=dict)
    opens: list[str] = dataclasses.field(default_factory=list)

    def inputs(self) -> list[tuple[str, Pin]]:
        return [(port, pin) for port, pin in self.pins if port in INPUTS]

    def outputs(self) -> list[tuple[str, Pin]]:
        return [(port, pin) for port, pin in self.pins if port in OUTPUTS]

    def names(self) -> set[str]:
        return {pin.name for _, pin in self.pins} | set(self.ties) | set(self.opens) | set(INPUTS) | set(OUTPUTS)

    def clock(self) -> Pin | None:
        return next((pin for port, pin in self.pins if port == "clk"), None)

    def complete(self, ports: dict[str, Any]) -> Pins:
        """With each port that has no line at the pin of its own name; every pin of the module has to be told."""
        told = [pin.name for _, pin in self.pins] + [*self.ties, *self.opens]
        twice = next((name for name in told if told.count(name) > 1), None)
        if twice:
            raise ToolError(f"{self.file}: two lines name the pin '{twice}'")
        given = {port for port, _ in self.pins}
        own = [port for port in (*INPUTS, *OUTPUTS) if port not in given and port in ports and port not in told]
        whole = dataclasses.replace(self, pins=[*self.pins, *((port, Pin(port, False)) for port in own)])
        whole.refuse_missing(ports)
        whole.refuse_directions(ports)
        return whole

    def with_own(self, names: Iterable[str]) -> Pins:
        """With each of these ports that has no line at the pin of its own name."""
        named = {port for port, _ in self.pins}
        own = [(port, Pin(port, False)) for port in names if port not in named]
        return dataclasses.replace(self, pins=[*self.pins, *own])

    def refuse_missing(self, ports: dict[str, Any]) -> None:
        told = {pin.name for _, pin in self.pins} | set(self.ties) | set(self.opens)
        for name in sorted(told - set(ports)):
            raise ToolError(f"{self.file}: the module has no pin '{name}'; its pins are {', '.join(ports)}")
        for name in ports:
            if name not in told:
                way = ports[name]["direction"]
                line = f"tie {name} 0" if way == "input" else f"open {name}"
                raise ToolError(f"{self.file}: the {way} {name} of the module has no line, as '{line}'")
        given = [port for port, _ in self.pins]
        missing = [port for port in (*INPUTS, *OUTPUTS) if port not in given]
        if missing:
            raise ToolError(f"{self.file}: no line names the pin of {', '.join(missing)}")
        double = next((port for port in OUTPUTS if given.count(port) > 1), None)
        if double or given.count("clk") > 1:
            raise ToolError(f"{self.file}: '{double or 'clk'}' stands in one line only")

    def refuse_directions(self, ports: dict[str, Any]) -> None:
        wanted = [(pin.name, "input") for _, pin in self.inputs()] + [(pin.name, "output") for _, pin in self.outputs()]
        wanted += [(name, "input") for name in self.ties] + [(name, "output") for name in self.opens]
        for name, way in wanted:
            if ports[name]["direction"] != way:
                raise ToolError(
                    f"{self.file}: {name} is an {ports[name]['direction']} of the module, and has to be an {way}"
                )
        for name, value in self.ties.items():
            if value >> len(ports[name]["bits"]):
                raise ToolError(f"{self.file}: {name} has {len(ports[name]['bits'])} bits, and {value} does not fit")

    def widths(self, ports: dict[str, Any]) -> list[tuple[str, str, int]]:
        """The ports of the rule, each with its way and the width of its pin."""
        found: dict[str, tuple[str, str, int]] = {}
        for port, pin in self.pins:
            width = len(ports[pin.name]["bits"])
            if port in found and found[port][2] != width:
                raise ToolError(f"{self.file}: the pins of '{port}' have {found[port][2]} and {width} bits")
            found[port] = ("input" if port in INPUTS else "output", port, width)
        return [found[port] for port in (*INPUTS, *OUTPUTS)]


def number_in(text: str) -> int | None:
    """The number of a literal, which has to fit its size, or of decimal digits; None where it is none."""
    match = re.fullmatch(r"(?:(\d+)'([bodhBODH]))?([0-9a-fA-F_]+)", text, re.ASCII)
    if match is None:
        return None
    try:
        value = int(match[3].replace("_", ""), BASES[match[2].lower()] if match[2] else 10)
    except ValueError:
        return None
    return None if match[1] and value.bit_length() > int(match[1]) else value


def take_line(pins: Pins, words: list[str]) -> str | None:
    """Adds a line; why it is none, if it is."""
    kind, *rest = words
    if kind == "tie":
        value = number_in(rest[1]) if len(rest) == 2 else None
        if value is None or not PIN.fullmatch(rest[0]):
            return "tie takes an input and a number, as in 'tie scan_en 0'"
        if rest[0] in pins.ties:
            return "the pin is tied twice"
        pins.ties[rest[0]] = value
        return None
    if kind not in ("open", *INPUTS, *OUTPUTS):
        return f"there is no line '{kind}': they begin with {', '.join((*INPUTS, *OUTPUTS))}, tie or open"
    name = rest[0].lstrip("~") if len(rest) == 1 else ""
    if not PIN.fullmatch(name) or rest[0] not in (name, f"~{name}") or kind == "open" and rest[0] != name:
        return f"'{kind}' takes the name of one pin" + (
            "" if kind == "open" else ", with ~ if it is active low"
        )
    if kind == "open":
        pins.opens.append(name)
    else:
        pins.pins.append((kind, Pin(name, rest[0] != name)))
    return None


def read_pins(path: str) -> Pins:
    pins = Pins(str(path))
    for count, line in enumerate(lines_of(read_described(path)), 1):
        words = words_in(line)
        why = take_line(pins, words) if words else None
        if why:
            raise ToolError(f"{path}:{count}: {why}")
    return pins


# names that people give to the ports of a self-test, for a file to begin from
USUAL = {
    "clk": "clk clock ck",
    "reset": "reset rst areset arst",
    "rdata": "rdata q dout din_mem rd_data mem_rdata mem_q",
    "en": "en ce cen cs csn enable mem_en mem_cen mem_ce",
    "we": "we wen write mem_we mem_wen wr",
    "addr": "addr a address mem_addr",
    "wdata": "wdata d din data wr_data mem_wdata mem_d",
    "done": "done finished complete ready bist_done",
    "fail": "fail error err failed bist_fail",
}


def proposed(ports: dict[str, Any], memory: Memory, clock: str | None) -> list[str]:
    """Lines of a file of pins for these ports, of which one is the clock: a guess, to be looked at."""
    widths = {"rdata": memory.bits, "wdata": memory.bits, "addr": memory.width}
    left, lines = dict(ports), []
    for port in (*INPUTS, *OUTPUTS):
        way = "input" if port in INPUTS else "output"
        fitting = [
            name for name, said in left.items() if said["direction"] == way and len(said["bits"]) == widths.get(port, 1)
        ]
        found = next((name for name in fitting if is_usual(name, port)), None)
        found = clock if port == "clk" and clock in left else found
        if found:
            del left[found]
        is_low = found is not None and re.search(r"(_n|_b|cen|wen|csn)$", found) is not None
        lines.append(f"{port} {'~' if is_low else ''}{found or '?'}")
    lines += [f"tie {name} 0" if said["direction"] == "input" else f"open {name}" for name, said in left.items()]
    return lines


def is_usual(name: str, port: str) -> bool:
    plain = re.sub(r"^(i|o|bist|mem)_|_(i|o|n|b|ni)$", "", name.lower())
    return plain in USUAL[port].split() or plain.rstrip("n") in USUAL[port].split()
