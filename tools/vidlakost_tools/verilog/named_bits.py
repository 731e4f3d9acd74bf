"""The bits of a module, as Yosys writes it in JSON: the names that they get, which are the sources' names where there
are any, and the ports."""
from __future__ import annotations

import collections
import dataclasses
import re
from typing import Any

from vidlakost_tools.audit.pins import Pins
from vidlakost_tools.tool import ToolError
from vidlakost_tools.verilog.cell_kinds import CHOICES
from vidlakost_tools.verilog.reserved_words import OF_VERILOG

# the widest word of the subset
WIDEST = 64


class NotWords(ToolError):
    """A cell that has no operator of the subset, and is made of gates."""


@dataclasses.dataclass
class Drive:
    """What drives a name: an expression, and the names in it, in groups where a choice takes one of two."""

    name: str
    width: int
    value: str
    reads: list[list[str]]


@dataclasses.dataclass
class Bit:
    """A bit of a name of the module that is written."""

    name: str
    index: int
    width: int


def chunks(bits: list[Any], width: int = WIDEST) -> list[list[Any]]:
    return [bits[first : first + width] for first in range(0, len(bits), width)]


def literal(text: str) -> str:
    """A literal of these digits, the highest first."""
    return f"{len(text)}'b{text}"


class NamedBits:
    """The bits of a module: each has a place in a name, a constant, or is open."""

    def __init__(self, module: dict[str, Any], pins: Pins | None, clock: str | None):
        self.module, self.clock = module, module["ports"][clock]["bits"][0] if clock else None
        self.at: dict[object, Any] = {}
        self.constants: dict[object, str] = {}
        self.ports: list[tuple[str, str, int]] = []
        self.helpers: list[Drive] = []
        self.opens: list[str] = []
        self.places: dict[str, str] = {}
        self.used: set[str] = set(OF_VERILOG)
        self.counts: collections.Counter[str] = collections.Counter()
        self.read: list[str] = []
        self.results: list[tuple[str, list[Any]]] = []
        self.names: dict[object, str] = {
            bit: name for name, net in self.nets() for bit in net["bits"] if isinstance(bit, int)
        }
        ports = module["ports"]
        within = [(name, net) for name, net in self.nets() if name not in ports]
        self.inner: dict[object, str] = {
            bit: name for name, net in within for bit in net["bits"] if isinstance(bit, int)
        }
        self.whole = {tuple(net["bits"]): name for name, net in self.nets()}
        self.pins = pins
        self.hint_names()
        self.input_ports()

    def nets(self) -> list[tuple[str, dict[str, Any]]]:
        """The named nets, those of the top last, so that their names win."""
        found = [(name, net) for name, net in self.module["netnames"].items() if not net["hide_name"]]
        return sorted(found, key=lambda pair: (-pair[0].count("."), -len(pair[0])))

    def hint_names(self) -> None:
        """A register behind whose output stands the choice of an asynchronous reset has the name of what that gives."""
        for cell in self.module["cells"].values():
            if cell["type"] in CHOICES:
                pins = cell["connections"]
                for pin in "AB":
                    for bit, result in zip(pins[pin], pins["Y"]):
                        if result in self.names:
                            self.names.setdefault(bit, self.names[result])

    # ports

    def input_ports(self) -> None:
        ports = self.module["ports"]
        for port, said in ports.items():
            if said["direction"] == "inout":
                raise ToolError(
                    (
                        f"the port {port} goes both ways, which the subset has not; an output, or an input, says which"
                        " way it goes"
                    ),
                    1,
                )
        self.used |= set(ports) | (self.pins.names() if self.pins else set())
        if self.pins:
            self.pinned_inputs(self.pins)
            return
        self.used.add("clk")
        for port, said in ports.items():
            bits = said["bits"]
            name = "clk" if said["direction"] == "input" and bits == [self.clock] else port
            self.ports.append((said["direction"], name, self.fitting(port, len(bits))))
            if said["direction"] == "input":
                self.take(name, bits)

    def fitting(self, port: str, width: int) -> int:
        if width > WIDEST:
            raise ToolError(f"the port {port} has {width} bits; a word of the subset has at most {WIDEST}", 1)
        return width

    def take(self, name: str, bits: list[Any]) -> None:
        for index, bit in enumerate(bits):
            self.at[bit] = Bit(name, index, len(bits))

    def pinned_inputs(self, pins: Pins) -> None:
        """The ports of the rule in place of the pins; a pin that is active low has an inverter behind its port."""
        widths = pins.widths(self.module["ports"])
        self.ports += [(way, port, self.fitting(port, width)) for way, port, width in widths]
        self.used |= {port for _, port, _ in widths}
        for port, pin in pins.inputs():
            bits = self.module["ports"][pin.name]["bits"]
            if pin.is_low and port != "clk":
                name = self.fresh(pin.name)
                self.places[name] = f"the pin {pin.name}"
                self.helpers.append(Drive(name, len(bits), f"(~{port})", [[port]]))
                self.take(name, bits)
            else:
                self.take(port, bits)
        for name, value in pins.ties.items():
            bits = self.module["ports"][name]["bits"]
            self.constants.update({bit: str(value >> index & 1) for index, bit in enumerate(bits)})

    def outputs(self) -> list[Drive]:
        """What drives the ports that go out."""
        found = []
        named = [(pin.name, port, pin.is_low) for port, pin in self.pins.outputs()] if self.pins else None
        for pin, port, is_low in named or [
            (port, port, False) for port, said in self.module["ports"].items() if said["direction"] == "output"
        ]:
            bits = self.module["ports"][pin]["bits"]
            value = self.signal(bits)
            found.append(Drive(port, len(bits), f"(~{value})" if is_low else value, [self.told()]))
        return found

    # names

    def fresh(self, wanted: str) -> str:
        name = re.sub(r"\W", "_", wanted, flags=re.ASCII).strip("_")[:50] or "n"
        name = name if name[0].isalpha() or name[0] == "_" else f"n{name}"
        found = name
        while found in self.used:
            self.counts[name] += 1
            found = f"{name}_{self.counts[name]}"
        self.used.add(found)
        return found

    def name_of(self, bits: list[Any], chosen: str | None = None) -> str:
        """A name for what a cell drives: the sources' one, where there is one."""
        whole = chosen or self.whole.get(tuple(bits)) or self.names.get(bits[0])
        name = self.fresh(whole or "n")
        if whole:
            where = self.module["netnames"][whole]["attributes"].get("src")
            line = re.match(r"(.*/)?([^/|]*?):(\d+)", where) if where else None
            told = re.sub(r"\$func\$.*|(?<=^rows_that_overlap)\$.*", "", whole)
            self.places[name] = told + (f" ({line[2]}:{line[3]})" if line else "")
        return name

    def told(self) -> list[str]:
        """The names that were written since this was asked last."""
        found, self.read = list(dict.fromkeys(self.read)), []
        return found

    # signals

    def pieces(self, bits: list[Any]) -> list[Any]:
        """The bits, the lowest first, as constants and as parts of names."""
        pieces: list[Any] = []
        for bit in bits:
            bit = self.constants.get(bit, bit)
            if bit in ("0", "1"):
                if pieces and isinstance(pieces[-1], str):
                    pieces[-1] = bit + pieces[-1]
                else:
                    pieces.append(bit)
                continue
            if bit not in self.at:
                self.open_bit(bit)
            place = self.at[bit] if isinstance(bit, int) else Bit(self.opens[-1], 0, 1)
            last = pieces[-1] if pieces else None
            if isinstance(last, list) and last[0].name == place.name and last[1] == place.index - 1:
                last[1] = place.index
            else:
                pieces.append([place, place.index])
        return pieces

    def open_bit(self, bit: object) -> None:
        """A bit that nothing drives, or an `x`."""
        if bit == self.clock:
            raise ToolError("the clock is read as data, which is outside the subset", 1)
        inner = self.inner.get(bit) or self.names.get(bit)
        name = self.name_of([bit], inner) if inner else self.fresh("open")
        self.places.setdefault(name, "an x")
        self.opens.append(name)
        if isinstance(bit, int):
            self.at[bit] = Bit(name, 0, 1)

    def signal(self, bits: list[Any]) -> str:
        texts = []
        for piece in self.pieces(bits):
            if isinstance(piece, str):
                texts.append(literal(piece))
                continue
            first, last = piece
            self.read.append(first.name)
            if self.at_clock(first.name):
                raise ToolError("the clock is read as data, which is outside the subset", 1)
            if first.width == last - first.index + 1:
                texts.append(first.name)
            elif first.index == last:
                texts.append(f"{first.name}[{last}]")
            else:
                texts.append(f"{first.name}[{last}:{first.index}]")
        return texts[0] if len(texts) == 1 else "{" + ", ".join(reversed(texts)) + "}"

    def at_clock(self, name: str) -> bool:
        place = self.at.get(self.clock)
        return place is not None and place.name == name
