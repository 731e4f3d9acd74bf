"""The pins of a memory macro, as a file tells them, a line each: what they are to its self-test and to the chip. The
order of the lines never decides, and what no line says is refused with its place."""
from __future__ import annotations

import dataclasses
import re
from typing import Protocol

from vidlakost_tools.texts.memory import Memory
from vidlakost_tools.tool import ToolError

# the widest pin, and the most lines of a kind: pins, buses, parameters
WIDEST = 1024
# what the self-test drives, and in which forms a line tells it
DRIVEN = {
    "en": "en PIN [WIDTH]",
    "we": "we PIN [WIDTH]",
    "read": "read PIN",
    "write": "write PIN",
    "addr": "addr PIN [WIDTH [at BITS]]",
    "raddr": "raddr PIN [WIDTH [at BITS]]",
    "waddr": "waddr PIN [WIDTH [at BITS]]",
    "wdata": "wdata PIN [WIDTH]",
    "mask": "mask PIN WIDTH",
}
ADDRESSES = ("addr", "raddr", "waddr")


@dataclasses.dataclass
class Pin:
    """A pin of the macro: the kind of its line, its name, whether it is active low, its width (0 where the line says
    none), the bits of it in which an address stands, what it is tied to or fixed at in test, whether it is of the other
    port, and the names of its bits where it is given bit by bit."""

    kind: str
    name: str
    line: int
    is_low: bool = False
    width: int = 0
    at: list[int] = dataclasses.field(default_factory=list)
    value: str = ""
    is_second: bool = False
    bits: list[str] = dataclasses.field(default_factory=list)

    @property
    def has_lanes(self) -> bool:
        """Whether each of its bits enables a part of a word alone."""
        return self.kind == "mask" or self.kind in ("en", "we") and self.width > 1

    def names(self) -> list[str]:
        """The macro's own names of it, the lowest bit first."""
        return self.bits or [self.name]

    def driven(self, value: str) -> str:
        return f"~{value}" if self.is_low else value

    def idle(self) -> str:
        return f"{{{self.width}{{1'b{int(self.is_low)}}}}}"

    def links(self, net: str) -> list[str]:
        """Its connections to a net of its width."""
        if not self.bits:
            return [f".{self.name}({net})"]
        return [f".{name}({bit_of(net, self.width, at)})" for at, name in enumerate(self.bits)]

    def joined(self) -> str:
        """Its value, from its names."""
        return self.name if not self.bits else "{" + ", ".join(reversed(self.bits)) + "}"


def bit_of(net: str, width: int, at: int) -> str:
    return net if width == 1 else f"{net}[{at}]"


@dataclasses.dataclass
class Word:
    """What a macro holds a word of: one memory, or a low and a high one whose words stand side by side; in its place
    also how many wrong reads it keeps, if that is more than the first one."""

    memories: list[Memory]
    depth: int | None = None

    @property
    def first(self) -> Memory:
        return self.memories[0]

    @property
    def name(self) -> str:
        return self.first.name

    @property
    def bits(self) -> int:
        return sum(memory.bits for memory in self.memories)


class ClockCell(Protocol):
    """A cell between a clock of the chip's and that of the test."""

    @property
    def cell(self) -> str:
        ...

    def instance(self, name: str, select: str, chip: str, out: str) -> str:
        ...

    def model(self, mark: str) -> str:
        ...

    def box(self) -> str:
        ...


@dataclasses.dataclass
class Macro:
    """What the file of the pins says."""

    path: str
    name: str = ""
    name_line: int = 0
    clk: str = ""
    parameters: list[tuple[str, str]] = dataclasses.field(default_factory=list)
    pins: list[Pin] = dataclasses.field(default_factory=list)
    before: int = 0
    after: int = 0
    masks: int = 0
    bypass: int = 0
    halves: dict[str, tuple[str, int]] = dataclasses.field(default_factory=dict)
    # the cell that chooses between its further clocks and that of the test, where one is named
    clock_cell: ClockCell | None = None

    def of(self, *kinds: str, second: bool = False) -> list[Pin]:
        return [pin for pin in self.pins if pin.kind in kinds and pin.is_second == second]

    def has(self, *kinds: str, second: bool = False) -> bool:
        return bool(self.of(*kinds, second=second))

    def driven(self) -> list[Pin]:
        """The pins that the self-test and the chip drive, of both ports."""
        return [pin for pin in self.pins if pin.kind in DRIVEN]

    def answers(self, second: bool = False) -> Pin:
        return self.of("rdata", second=second)[0]

    @property
    def has_second(self) -> bool:
        """Whether the other port is told, so that a second session reads through it."""
        return any(pin.is_second for pin in self.pins)

    @property
    def second_writes(self) -> bool:
        return self.has("wdata", second=True)

    def lane_pins(self, second: bool = False) -> list[Pin]:
        return [pin for pin in self.driven() if pin.has_lanes and pin.is_second == second]

    def latency(self, word: Word) -> int:
        """The macro's own part of the latency."""
        return word.first.latency - self.before - self.after

    def refuse(self, line: int, why: str) -> ToolError:
        return ToolError(f"{self.path}:{line}: {why}" if line else f"{self.path}: {why}")

    def chip_pins(self) -> list[tuple[str, Pin]]:
        """The pins that the collar has for the chip too, each with its direction."""
        ways = {"rdata": "output", "out": "output", "tie": "", "open": "", "clk": "", "power": "inout"}
        told = [
            ("input" if pin.kind == "clk" and pin.is_second else ways.get(pin.kind, "input"), pin) for pin in self.pins
        ]
        return [(way, pin) for way, pin in told if way]


# ---- a line


def literal(text: str, width: int | None = None) -> tuple[int, int] | None:
    """The width and the number of a literal with its size; None where it is none, or the number does not fit. Of a
    known width a decimal number is one too."""
    found = re.fullmatch(r"([1-9][0-9]{0,3})'([bodhBODH])([0-9a-fA-F][0-9a-fA-F_]*)", text)
    if found is None:
        plain = width is not None and re.fullmatch("[0-9]{1,9}", text) is not None
        return (width, int(text)) if width is not None and plain and int(text) >> width == 0 else None
    base = {"b": 2, "o": 8, "d": 10, "h": 16}[found[2].lower()]
    try:
        value = int(found[3].replace("_", ""), base)
    except ValueError:
        return None
    size = int(found[1])
    return None if value >> size or size > WIDEST or width not in (None, size) else (size, value)


# ---- the whole


def alike(word: Word) -> str:
    """Which bits of a word hold the same whatever the background is, so that no read tells one from the other; empty
    where there are none."""
    rounds = [
        sum(memory.backgrounds[at] << low for low, memory in lows(word)) for at in range(len(word.first.backgrounds))
    ]
    groups: dict[tuple[int, ...], list[int]] = {}
    for bit in range(word.bits):
        groups.setdefault(tuple(background >> bit & 1 for background in rounds), []).append(bit)
    count = sum(len(bits) * (len(bits) - 1) // 2 for bits in groups.values())
    if not count:
        return ""
    one, other = next(bits for bits in groups.values() if len(bits) > 1)[:2]
    more = f" (and {count - 1} more pair{'s' * (count > 2)})" if count > 1 else ""
    return f"bits {one} and {other} of a word hold the same in every background{more}"


def lows(word: Word) -> list[tuple[int, Memory]]:
    """The memories, each with the number of its lowest bit in the whole word."""
    return [(sum(memory.bits for memory in word.memories[:at]), memory) for at, memory in enumerate(word.memories)]


def pin_width(pin: Pin) -> int:
    """The width of a pin, of one that is tied that of its literal."""
    found = literal(pin.value) if pin.kind == "tie" else None
    return found[0] if found else pin.width


def widths_of(pin: Pin) -> list[tuple[str, int]]:
    """The macro's names of a pin, each with its width; 0 where no line tells it."""
    if pin.kind == "open":
        return [(pin.name, 0)]
    if pin.kind == "tie":
        return [(pin.name, pin_width(pin) if literal(pin.value) else 0)]
    return [(name, 1 if pin.bits else pin.width) for name in pin.names()]
