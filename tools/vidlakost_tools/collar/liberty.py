"""Texts of liberty form: groups, attributes, and of a memory cell its pins."""
from __future__ import annotations

import dataclasses
import re
from typing import Iterator

from vidlakost_tools.collar.pins import WIDEST
from vidlakost_tools.text import shown
from vidlakost_tools.tool import ToolError

# the lookahead keeps a name from taking a comment along
TOKEN = re.compile(
    r'\s+|\\\r?\n|/\*.*?\*/|//[^\n]*|"((?:\\.|[^"\\])*)"|((?:(?!/\*|//)[^\s(){}:;,"\\])+|[(){}:;,])', re.DOTALL
)
# the groups in which something stands that a description needs; the others are passed over
READ = {"library", "type", "cell", "bus", "bundle", "pin", "memory", "memory_read", "memory_write", "timing", "pg_pin"}
DEEPEST, MOST = 64, 1 << 22
# groups in which an attribute stands once
SAID_ONCE = {"type", "bus", "memory", "memory_read", "memory_write"}


@dataclasses.dataclass
class Group:
    """A group: its kind, its words in parentheses, its attributes with the lines on which they stand, its own line, and
    the groups in it."""

    kind: str
    words: list[str]
    line: int = 0
    said: dict[str, str] = dataclasses.field(default_factory=dict)
    lines: dict[str, int] = dataclasses.field(default_factory=dict)
    groups: list[Group] = dataclasses.field(default_factory=list)

    def of(self, *kinds: str) -> Iterator[Group]:
        return (group for group in self.groups if group.kind in kinds)

    @property
    def name(self) -> str:
        return self.words[0] if self.words else ""


class Reader:
    """Reads groups one by one; of a library those cells alone whose name is wanted."""

    def __init__(self, path: str, text: str, cell: str):
        self.path, self.cell, self.text = path, cell, text
        self.tokens: list[str] = []
        self.places: list[int] = []
        # of each token its line
        self.lines: list[int] = []
        at, line = 0, 1
        while at < len(text):
            match = TOKEN.match(text, at)
            if match is None:
                raise ToolError(f"{path}:{text.count(chr(10), 0, at) + 1}: this can't be read as liberty")
            if match[1] is not None or match[2] is not None:
                self.tokens.append(match[2] if match[2] is not None else '"' + match[1])
                self.places.append(at)
                self.lines.append(line)
                if len(self.tokens) > MOST:
                    raise ToolError(f"{path}:{line}: there are more than {MOST:,} words and marks")
            line += match[0].count("\n")
            at = match.end()
        self.here = 0

    def line(self) -> int:
        """The line of the token that was taken last."""
        return self.lines[self.here - 1]

    def fail(self, why: str) -> ToolError:
        at = self.places[min(self.here, len(self.places) - 1)] if self.places else 0
        return ToolError(f"{self.path}:{self.text.count(chr(10), 0, at) + 1}: {why}")

    def take(self, wanted: str | None = None) -> str:
        if self.here >= len(self.tokens) or wanted is not None and self.tokens[self.here] != wanted:
            raise self.fail(f"'{wanted}' is missing" if wanted else "the text stops early")
        self.here += 1
        return self.tokens[self.here - 1]

    def peek(self) -> str:
        return self.tokens[self.here] if self.here < len(self.tokens) else ""

    def words(self) -> list[str]:
        self.take("(")
        found = []
        while self.peek() != ")":
            word = self.take()
            if word not in (",", ":"):
                found.append(word.lstrip('"'))
        self.take(")")
        return found

    def skip_group(self) -> None:
        """Passes over a group from its opening brace on."""
        depth = 0
        while True:
            word = self.take()
            depth += {"{": 1, "}": -1}.get(word, 0)
            if depth == 0:
                return

    def value(self) -> str:
        parts = []
        while self.peek() not in (";", "}", ""):
            parts.append(self.take().lstrip('"'))
        return " ".join(parts)

    def body(self, group: Group, depth: int) -> None:
        """What stands in a group."""
        if depth > DEEPEST:
            raise self.fail("groups are nested too deeply")
        self.take("{")
        while self.peek() != "}":
            name = self.take()
            if name == ";":
                continue
            if self.peek() == ":":
                line = self.line()
                self.take()
                self.say(group, name, line)
            elif self.peek() == "(":
                self.statement(group, name, depth)
            else:
                raise self.fail(f"'{name[:40]}' is neither an attribute nor a group")
        self.take("}")

    def say(self, group: Group, name: str, line: int) -> None:
        """An attribute; what a group of those that are read says twice is not known."""
        value = self.value()
        if group.said.get(name, value) != value and group.kind in SAID_ONCE:
            raise ToolError(
                f"{self.path}:{line}: {name} is {group.said[name]} by line {group.lines[name]}, and {value} here"
            )
        group.said[name], group.lines[name] = value, line

    def statement(self, group: Group, name: str, depth: int) -> None:
        """A group, or an attribute with words in parentheses."""
        line = self.line()
        words = self.words()
        if self.peek() != "{":
            group.said[name] = " ".join(words)
            return
        inner = Group(name, words, line)
        if name not in READ or name == "cell" and inner.name != self.cell:
            self.skip_group()
            return
        self.body(inner, depth + 1)
        group.groups.append(inner)

    def library(self) -> Group:
        self.take("library")
        found = Group("library", self.words())
        self.body(found, 0)
        return found


@dataclasses.dataclass
class Found:
    """A pin as a library or a port list has it: its direction, its width (0: not known), whether it is a clock, which
    address it goes with where it is a word to write or one that was read, and what else is told of it."""

    name: str
    way: str
    width: int = 1
    is_clock: bool = False
    writes_at: str = ""
    reads_at: str = ""
    clock: str = ""
    is_falling: bool = False
    # whether it is taken at the falling edge, as no collar has it
    is_taken_falling: bool = False
    power: str = ""
    # whether it is there only with the macro's supplies
    is_supply: bool = False
    low: int | None = None
    # the lowest and the highest number behind its name, where each of its bits is a pin
    ends: tuple[int, int] | None = None


def width_of(group: Group, types: dict[str, int]) -> int:
    """The width of a bus, by its type."""
    return types.get(group.said.get("bus_type", ""), 0)


def number(text: str) -> int:
    return int(text) if re.fullmatch("[0-9]{1,9}", text) else 0


def types_in(path: str, *groups: Group) -> dict[str, int]:
    """The widths of the types of buses; two of one name have one width, as have the parts of a type."""
    found: dict[str, tuple[int, int]] = {}
    for one in (one for group in groups for one in group.of("type")):
        ends = [number(one.said[end]) for end in ("bit_from", "bit_to") if end in one.said]
        width = number(one.said.get("bit_width", ""))
        if width and len(ends) == 2 and width != abs(ends[0] - ends[1]) + 1:
            told = f"has a bit_width of {width}, and bits from {ends[0]} to {ends[1]}"
            raise ToolError(f"{path}:{one.line}: the type {shown(one.name)} {told}")
        width = width or (abs(ends[0] - ends[1]) + 1 if len(ends) == 2 else 0)
        if found.get(one.name, (width, 0))[0] != width:
            told = f"has {found[one.name][0]} bits by line {found[one.name][1]}, and {width} here"
            raise ToolError(f"{path}:{one.line}: the type {shown(one.name)} {told}")
        found[one.name] = width, one.line
    return {name: width for name, (width, _) in found.items()}


def number_of_supply(kind: str) -> str:
    """What a supply of this kind has; an empty text of a kind that is not known."""
    found = re.search("(?P<low>ground|pwell)|power|nwell", kind)
    return "" if found is None else "0" if found["low"] else "1"


def pin_of(group: Group, types: dict[str, int]) -> Found:
    """A pin or a bus of a cell."""
    if group.kind == "pg_pin":
        return Found(group.name, "inout", power=number_of_supply(group.said.get("pg_type", "")), is_supply=True)
    inner = [group, *group.of("pin")]
    # the pins of a bundle have names of their own, and none has the bundle's
    width = {"bus": width_of(group, types), "bundle": 0}.get(group.kind, 1)
    found = Found(group.name, next((one.said["direction"] for one in inner if "direction" in one.said), ""), width)
    found.is_clock = any(one.said.get("clock") == "true" for one in inner)
    for one in inner:
        for write in one.of("memory_write"):
            found.writes_at, found.clock = write.said.get("address", ""), write.said.get("clocked_on", "")
            found.is_taken_falling |= found.clock.startswith("!") or found.clock.endswith("'")
        for read in one.of("memory_read"):
            found.reads_at = read.said.get("address", "")
        for timing in one.of("timing"):
            kind, pin = timing.said.get("timing_type", ""), timing.said.get("related_pin", "")
            if kind.startswith(("setup", "rising_edge", "falling_edge")):
                found.clock = found.clock or pin
            found.is_falling |= kind == "falling_edge"
            found.is_taken_falling |= kind == "setup_falling"
    return found


def memory_of(path: str, text: str, cell: str) -> tuple[Group, Group, Group]:
    """The library, a memory cell of it, and what that says of its memory."""
    library = Reader(path, text, cell).library()
    cells = list(library.of("cell"))
    if not cells:
        raise ToolError(f"{path}: there is no cell '{cell}'")
    if len(cells) > 1:
        raise ToolError(f"{path}: there are {len(cells)} cells {cell}")
    memories = list(cells[0].of("memory"))
    if not memories:
        raise ToolError(f"{path}: the cell {cell} has no group memory()")
    if len(memories) > 1:
        raise ToolError(
            f"{path}:{memories[1].line}: a second group memory(); the first is on line {memories[0].line}"
        )
    return library, cells[0], memories[0]


def refuse_memory(path: str, memory: Group, groups: list[Group], pins: list[Found]) -> None:
    """Refuses what is no memory that is written, and what contradicts itself: the widths of the memory and of its
    buses, and addresses that are no pins."""
    if memory.said.get("type", "ram") != "ram":
        raise ToolError(f"{path}:{memory.lines['type']}: the memory is a {shown(memory.said['type'])}, not a ram")
    lines = {group.name: group.line for group in groups}
    widths = {pin.name: pin.width for pin in pins}
    for pin in pins:
        for address in {pin.writes_at, pin.reads_at} - {""}:
            if address not in widths:
                told = f"the address of {shown(pin.name)} is {shown(address)}, which is not a pin"
                raise ToolError(f"{path}:{lines[pin.name]}: {told}")
            refuse_width(path, memory, "address_width", address, widths[address], lines[address])
        if pin.writes_at or pin.reads_at:
            refuse_width(path, memory, "word_width", pin.name, pin.width, lines[pin.name])


def refuse_width(path: str, memory: Group, what: str, pin: str, width: int, line: int) -> None:
    """Refuses a bus of another width than the memory says. A bit of a bus that stands by itself is none."""
    if width and not re.search(r"\[.*\]", pin) and str(width) != memory.said.get(what, str(width)).lstrip("0"):
        told = (
            f"{what} is {memory.said[what]}, and {shown(pin)} on line {line} has {width} bit{'s' if width > 1 else ''}"
        )
        raise ToolError(f"{path}:{memory.lines[what]}: {told}")


def memory_cell(path: str, text: str, cell: str) -> tuple[int, int, list[Found]]:
    """The width of the address of a memory cell, that of its word, and its pins."""
    library, group, memory = memory_of(path, text, cell)
    types = types_in(path, library, group)
    groups = list(group.of("bus", "pin", "pg_pin", "bundle"))
    first: dict[str, int] = {}
    for one in groups:
        if one.name in first:
            raise ToolError(f"{path}:{one.line}: line {first[one.name]} already has the pin {shown(one.name)}")
        first[one.name] = one.line
    pins = [pin_of(one, types) for one in groups]
    address, word = number(memory.said.get("address_width", "")), number(memory.said.get("word_width", ""))
    if not 1 <= address <= 16 or not 1 <= word <= WIDEST:
        told = f"has an address of {address} bits and a word of {word}; no description can have these"
        raise ToolError(f"{path}: the cell {cell} {told}")
    refuse_memory(path, memory, groups, pins)
    return address, word, pins
