"""The places of memories in a chip: a text that names the chip's sources as they are now and as they were before, the
instance of each memory, and the ports that start the test."""
from __future__ import annotations

import dataclasses
import pathlib
import re
from typing import Mapping

from vidlakost_tools.chip.system import System
from vidlakost_tools.collar.liberty import Found
from vidlakost_tools.collar.pin_lines import is_name
from vidlakost_tools.collar.pins import literal
from vidlakost_tools.collar.port_list import Ports
from vidlakost_tools.collar.vendor import modules_of
from vidlakost_tools.text import SOURCE_BYTES, lines_of, read_described, shown, words_in
from vidlakost_tools.tool import ToolError

PATH = re.compile(r"[A-Za-z_]\w*(\[\d{1,6}\])?(\.[A-Za-z_]\w*(\[\d{1,6}\])?)*", re.ASCII)
FORMS = {
    "places": "places 1",
    "chip": "chip MODULE",
    "source": "source FILE",
    "before": "before FILE",
    "at": "at MEMORY PATH [was PATH]",
    "access": "access PATH [CLOCK]",
    "clock": "clock PORT NANOSECONDS",
    "set": "set PORT VALUE",
    "start": "start PORT",
    "done": "done PORT",
    "fail": "fail PORT",
    "under": "under BITS CODE",
    "tap": "tap TCK TMS TDI TRST_N TDO [TDO_EN]",
}
MANY = ("source", "before", "at", "clock", "set")
TAP_PINS = ("tck", "tms", "tdi", "trst_n", "tdo")


@dataclasses.dataclass
class Place:
    """Where a memory is in the chip, and where its macro was."""

    path: str
    was: str
    line: int


@dataclasses.dataclass
class Places:
    """What the text says."""

    path: str
    chip: str = ""
    sources: list[str] = dataclasses.field(default_factory=list)
    before: list[str] = dataclasses.field(default_factory=list)
    places: dict[str, Place] = dataclasses.field(default_factory=dict)
    access: str = ""
    # the chip's clock of the sequencer, if that is named
    access_clock: str = ""
    # the period of each clock, in nanoseconds
    clocks: dict[str, int] = dataclasses.field(default_factory=dict)
    values: dict[str, str] = dataclasses.field(default_factory=dict)
    # the ports by which the test is started: start, done and fail, or those of a TAP
    start: dict[str, str] = dataclasses.field(default_factory=dict)
    ports: list[Found] = dataclasses.field(default_factory=list)
    # of a TAP that the chip had before the bits of an instruction, and the one of the register; (0, 0) of ours
    under: tuple[int, int] = (0, 0)

    def refuse(self, line: int, why: str) -> ToolError:
        return ToolError(f"{self.path}:{line}: {why}" if line else f"{self.path}: {why}")

    @property
    def has_tap(self) -> bool:
        return "tck" in self.start

    def taken(self, line: int, word: str, rest: list[str]) -> bool:
        """Whether a line has the form of its kind."""
        if word == "at":
            has_form = len(rest) == 2 or len(rest) == 4 and rest[2] == "was"
            if not has_form or not all(PATH.fullmatch(path) for path in rest[1::2]):
                return False
            if rest[0] in self.places:
                raise self.refuse(line, f"line {self.places[rest[0]].line} has {rest[0]}, too")
            self.places[rest[0]] = Place(rest[1], rest[3] if rest[3:] else rest[1], line)
            return True
        if word == "tap":
            self.start.update(zip((*TAP_PINS, "tdo_en"), rest))
            return len(rest) in (5, 6) and all(map(is_name, rest))
        if word == "under":
            return self.is_under(rest)
        if word == "clock":
            if len(rest) != 2 or not re.fullmatch("[1-9][0-9]{0,5}", rest[1]):
                return False
            self.refuse_twice(line, rest[0], self.clocks)
            self.clocks[rest[0]] = int(rest[1])
            return is_name(rest[0])
        if word == "set":
            if len(rest) != 2 or literal(rest[1]) is None:
                return False
            self.refuse_twice(line, rest[0], self.values)
            self.values[rest[0]] = rest[1]
            return is_name(rest[0])
        if word == "access" and len(rest) == 2:
            self.access_clock = rest.pop()
        if len(rest) != 1:
            return False
        return self.named(word, rest[0])

    def is_under(self, rest: list[str]) -> bool:
        """The instruction by which the chip's own TAP selects the register."""
        if len(rest) != 2 or not re.fullmatch("[1-9][0-9]?", rest[0]) or not re.fullmatch("[0-9a-fA-F]{1,16}", rest[1]):
            return False
        self.under = (int(rest[0]), int(rest[1], 16))
        return not self.under[1] >> self.under[0]

    def refuse_twice(self, line: int, port: str, told: Mapping[str, object]) -> None:
        """A port has one clock, or one value."""
        if port in told:
            raise self.refuse(line, f"{port} is named twice")

    def named(self, word: str, name: str) -> bool:
        if word in ("source", "before"):
            getattr(self, "sources" if word == "source" else "before").append(name)
            return True
        if word == "access":
            self.access = name
            return PATH.fullmatch(name) is not None
        if word == "chip":
            self.chip = name
        elif word != "places":
            self.start[word] = name
        return name == "1" if word == "places" else is_name(name)


def read_places(path: str, system: System) -> Places:
    """The places of the memories of a system."""
    found = Places(path)
    seen: dict[str, int] = {}
    for line, text in enumerate(lines_of(read_described(path)), 1):
        words = words_in(text)
        if not words:
            continue
        if not seen and words != ["places", "1"]:
            raise found.refuse(line, "this text begins with 'places 1'")
        if words[0] not in FORMS:
            raise found.refuse(line, f"there is no line {shown(words[0])} here")
        if words[0] in seen and words[0] not in MANY:
            raise found.refuse(line, f"the line {FORMS[words[0]]} comes once, and line {seen[words[0]]} has it")
        seen[words[0]] = line
        if not found.taken(line, words[0], words[1:]):
            raise found.refuse(line, f"a line is {FORMS[words[0]]}")
    missing = [FORMS[word] for word in ("places", "chip", "source", "at", "access", "clock") if word not in seen]
    if missing:
        raise found.refuse(0, f"no line for {', '.join(missing)}")
    refuse_starts(found, seen)
    if found.access_clock and found.access_clock not in found.clocks:
        raise found.refuse(seen["access"], f"no line 'clock' is for {found.access_clock}")
    refuse_names(found, system)
    found.ports = ports_of(found)
    refuse_widths(found, len(system.collars))
    return found


def refuse_starts(places: Places, seen: dict[str, int]) -> None:
    """The test is started in one way."""
    signals = [word for word in ("start", "done", "fail") if word in seen]
    if ("tap" in seen) == bool(signals) or signals and len(signals) < 3:
        raise places.refuse(0, "write either the lines start, done and fail, or the line tap")
    if "under" in seen and "tap" not in seen:
        raise places.refuse(seen["under"], "the line under needs the line tap")


def refuse_names(places: Places, system: System) -> None:
    """Each memory of the system has a place, and nothing else has."""
    names = [placed.name for placed in system.collars]
    strange = next((name for name in places.places if name not in names), None)
    if strange:
        why = f"there is no memory {strange}: the memories are {', '.join(names)}"
        raise places.refuse(places.places[strange].line, why)
    missing = [name for name in names if name not in places.places]
    if missing:
        raise places.refuse(0, f"no line 'at' is for {', '.join(missing)}")
    for what in ("path", "was"):
        seen: dict[str, str] = {}
        for name, place in places.places.items():
            there = seen.setdefault(getattr(place, what), name)
            if there != name:
                raise places.refuse(place.line, f"{there} has that place, too")


def refuse_widths(places: Places, count: int) -> None:
    """A clock has one bit, and so has each port by which the test is started, but for a bit of fail of each memory."""
    widths = {port.name: port.width for port in places.ports}
    for name in (*places.clocks, *places.start.values()):
        wanted = count if name == places.start.get("fail") else 1
        if widths[name] != wanted:
            raise places.refuse(0, f"{name} of {places.chip} has {widths[name]} bits, and it has to have {wanted}")


def ports_of(places: Places) -> list[Found]:
    """The ports of the chip, each of a width that is known; the text speaks of these alone."""
    named = [file for file in places.sources if places.chip in modules_of(file)]
    if len(named) != 1:
        told = "no source has" if not named else "more than one source has"
        raise places.refuse(0, f"{told} the module {places.chip}")
    ports = Ports(named[0], read_described(named[0], SOURCE_BYTES), places.chip).ports()
    known = {port.name: port for port in ports}
    unknown = next((port.name for port in ports if not port.width or port.way == "inout"), None)
    if unknown:
        raise places.refuse(0, f"{unknown} of {places.chip} is an inout, or its width is not a number")
    outputs = [places.start[word] for word in ("done", "fail", "tdo", "tdo_en") if word in places.start]
    inputs = [*places.clocks, *places.values, *(name for name in places.start.values() if name not in outputs)]
    for names, way in ((inputs, "input"), (outputs, "output")):
        for name in names:
            if name not in known or known[name].way != way:
                raise places.refuse(0, f"{name} is no {way} of {places.chip}")
    twice = next((name for ports in (inputs, outputs) for name in ports if ports.count(name) > 1), None)
    if twice:
        raise places.refuse(0, f"{twice} is named twice")
    for name, value in places.values.items():
        if literal(value, known[name].width) is None:
            raise places.refuse(0, f"{name} has {known[name].width} bits, and '{value}' does not fit")
    return ports


def inputs_of(places: Places) -> list[str]:
    """The files that the text names."""
    for file in [*places.sources, *places.before]:
        if not pathlib.Path(file).is_file():
            raise places.refuse(0, f"{shown(file)} is no file")
    return [*places.sources, *places.before]
