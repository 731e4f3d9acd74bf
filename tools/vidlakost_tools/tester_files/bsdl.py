"""BSDL (IEEE 1149.1, annex B): one entity without the pads of a chip, its instructions and its registers."""
from __future__ import annotations

import dataclasses
import re
from typing import Dict, List, Tuple

from vidlakost_tools.tool import ToolError

LEXEME = re.compile(
    r'\s+|--[^\n]*|(?P<text>"[^"\n]*")|(?P<number>\d+(?:\.\d+)?(?:[eE][+-]?\d+)?)|'
    r"(?P<word>[A-Za-z](?:_?[A-Za-z0-9])*)|(?P<mark>:=|[();:,.&*])"
)
USES = {"std_1149_1_1990", "std_1149_1_1994", "std_1149_1_2001", "std_1149_1_2013"}
# the role of a pin of the TAP, and the direction that it has
INPUTS = ("tap_scan_in", "tap_scan_mode", "tap_scan_reset", "tap_scan_clock")
ROLES = {"tap_scan_out": "out", **dict.fromkeys(INPUTS, "in")}
WANTED = (
    "component_conformance",
    "pin_map",
    "instruction_length",
    "instruction_opcode",
    "instruction_capture",
    "boundary_length",
    "boundary_register",
)
CELL = r"(\d+)\s*\(\s*BC_\d+\s*,\s*(\*|\w+)\s*,\s*(\w+)\s*,\s*[01X]\s*\)"
REGISTER = r"(\w+)\[(\d+)\]\s*\((\w+(?:\s*,\s*\w+)*)\)"


@dataclasses.dataclass
class Bsdl:
    """What an entity says: its pins with their directions; the role of each pin of the TAP; the opcodes of its
    instructions, highest bit first; and the register and length of each instruction."""

    name: str
    pins: Dict[str, str]
    roles: Dict[str, str]
    opcodes: Dict[str, List[str]]
    length: int
    identity: str | None
    registers: Dict[str, Tuple[str, int]]


class Reader:
    """The words of a text, one after another. Case does not count."""

    def __init__(self, text: str):
        self.found: list[str] = []
        at = 0
        while at < len(text):
            match = LEXEME.match(text, at)
            if match is None:
                raise ToolError(f"BSDL: line {text.count(chr(10), 0, at) + 1}: {text[at]!r} begins no word")
            at = match.end()
            if match.lastgroup:
                self.found.append(match[0] if match.lastgroup == "text" else match[0].lower())
        self.at = 0

    @property
    def next(self) -> str:
        return self.found[self.at] if self.at < len(self.found) else "the end"

    def take(self, *wanted: str) -> None:
        for word in wanted:
            if self.next != word:
                raise ToolError(f"BSDL: {word!r} is expected, but {self.next} comes")
            self.at += 1

    def word(self, form: str = "[a-z].*") -> str:
        if not re.fullmatch(form, self.next):
            raise ToolError(f"BSDL: {self.next} is not allowed here")
        self.at += 1
        return self.found[self.at - 1]

    def text(self) -> str:
        """Strings joined by &."""
        parts = [self.word('".*"')[1:-1]]
        while self.next == "&":
            self.take("&")
            parts.append(self.word('".*"')[1:-1])
        return "".join(parts)


def pins_of(reader: Reader) -> dict[str, str]:
    """The ports of the entity with their directions."""
    pins: dict[str, str] = {}
    reader.take("port", "(")
    while True:
        names = [reader.word()]
        while reader.next == ",":
            reader.take(",")
            names.append(reader.word())
        reader.take(":")
        way = reader.word("in|out|inout|buffer|linkage")
        reader.take("bit")
        for name in names:
            if pins.setdefault(name, way) != way or names.count(name) > 1:
                raise ToolError(f"BSDL: the port {name} is there twice")
        if reader.next != ";":
            reader.take(")", ";")
            return pins
        reader.take(";")


def value_of(reader: Reader) -> object:
    """The value of an attribute: a text, a number, a name, or what is in parentheses."""
    if reader.next.startswith('"'):
        return reader.text()
    if reader.next == "(":
        reader.take("(")
        rate = float(reader.word(r"\d.*"))
        reader.take(",")
        reader.word("both|low")
        reader.take(")")
        return rate
    word = reader.word(r"\w.*")
    return int(word) if word.isdigit() else word


def attributes(reader: Reader, entity: str, pins: dict[str, str]) -> tuple[dict[str, object], dict[str, str]]:
    """The attributes of the entity, and the role of each pin that has one."""
    found: dict[str, object] = {}
    roles: dict[str, str] = {}
    while reader.next in ("attribute", "constant"):
        if reader.word() == "constant":
            of = reader.word()
            reader.take(":", "pin_map_string", ":=")
            found[f"map {of}"] = reader.text()
            reader.take(";")
            continue
        name = reader.word()
        reader.take("of")
        of = reader.word()
        reader.take(":")
        kind = reader.word("entity|signal")
        reader.take("is")
        value = value_of(reader)
        reader.take(";")
        if kind == "signal":
            if ROLES.get(name) != pins.get(of) or name in roles.values():
                raise ToolError(f"BSDL: {of} is no pin for {name}, or another is")
            roles[of] = name
        elif of != entity or name in found:
            raise ToolError(f"BSDL: {name} is of {of}, or is there twice")
        else:
            found[name] = value
    return found, roles


def listed(text: object, form: str, what: str) -> list[re.Match[str]]:
    """The parts of a text, with commas between them."""
    parts = re.split(r",(?![^()]*\))", str(text)) if text else []
    found = [re.fullmatch(form, part.strip(), re.IGNORECASE) for part in parts]
    if not all(found):
        raise ToolError(f"BSDL: {text!r} is no {what}")
    return [match for match in found if match]


def opcodes_of(found: dict[str, object]) -> dict[str, list[str]]:
    """The opcodes of each instruction. They have the length of the instruction register. No two are equal, except those
    of SAMPLE and PRELOAD."""
    length, opcodes = found["instruction_length"], {}
    owners: dict[str, str] = {}
    for match in listed(found["instruction_opcode"], r"(\w+)\s*\(([01X,\s]+)\)", "list of opcodes"):
        name, codes = match[1].upper(), re.split(r"\s*,\s*", match[2].strip())
        for code in codes:
            if len(code) != length or not re.fullmatch("[01]+", code):
                raise ToolError(f"BSDL: {code} of {name} does not have {length} bits")
            other = owners.setdefault(code, name)
            if other != name and {other, name} != {"SAMPLE", "PRELOAD"}:
                raise ToolError(f"BSDL: {code} is of {other} and of {name}")
        opcodes[name] = codes
    ones = "1" * int(str(length))
    if ones not in opcodes.get("BYPASS", []) or not {"SAMPLE", "PRELOAD", "EXTEST"} <= set(opcodes):
        raise ToolError("BSDL: EXTEST, SAMPLE, PRELOAD or BYPASS with all bits 1 is missing")
    return opcodes


def registers_of(found: dict[str, object], opcodes: dict[str, list[str]]) -> dict[str, tuple[str, int]]:
    """For each instruction: its register, and the length of that."""
    boundary = ("BOUNDARY", int(str(found["boundary_length"])))
    registers = {"BYPASS": ("BYPASS", 1), **dict.fromkeys(("EXTEST", "SAMPLE", "PRELOAD"), boundary)}
    if "IDCODE" in opcodes:
        registers["IDCODE"] = ("IDCODE", 32)
    for match in listed(found.get("register_access", ""), REGISTER, "list of registers"):
        for name in re.split(r"\s*,\s*", match[3]):
            if name.upper() not in opcodes or name.upper() in registers:
                raise ToolError(f"BSDL: {name} is no instruction, or has another register")
            registers[name.upper()] = (match[1], int(match[2]))
    missing = set(opcodes) - set(registers)
    if missing:
        raise ToolError(f"BSDL: {', '.join(sorted(missing))} has no register")
    return registers


def read(text: str) -> Bsdl:
    """An entity that breaks none of the rules that this reader checks."""
    reader = Reader(text)
    reader.take("entity")
    name = reader.word()
    reader.take("is", "generic", "(", "physical_pin_map", ":", "string", ":=")
    default = reader.text()
    reader.take(")", ";")
    pins = pins_of(reader)
    reader.take("use")
    if reader.word() not in USES:
        raise ToolError("BSDL: no standard package is used")
    reader.take(".", "all", ";")
    found, roles = attributes(reader, name, pins)
    reader.take("end", name, ";")
    if reader.next != "the end" or any(one not in found for one in WANTED) or found["pin_map"] != "physical_pin_map":
        raise ToolError(f"BSDL: one of {', '.join(WANTED)} is missing, or something follows the entity")
    if not {"tap_scan_in", "tap_scan_mode", "tap_scan_out", "tap_scan_clock"} <= set(roles.values()):
        raise ToolError("BSDL: a pin of the TAP is missing")
    check_map(found, default, pins)
    opcodes = opcodes_of(found)
    length, capture = int(str(found["instruction_length"])), str(found["instruction_capture"])
    if len(capture) != length or not re.fullmatch("[01X]*01", capture):
        raise ToolError(f"BSDL: {capture} is not what an instruction register captures: its last bits are 01")
    identity = found.get("idcode_register")
    if ("IDCODE" in opcodes) != (identity is not None) or identity and not re.fullmatch("[01X]{31}1", str(identity)):
        raise ToolError("BSDL: the identity has 32 bits, the last a 1, and belongs to IDCODE")
    cells = listed(found["boundary_register"], CELL, "list of cells")
    if [int(one[1]) for one in cells] != list(range(int(str(found["boundary_length"])))):
        raise ToolError("BSDL: the cells of the boundary register are not numbered from 0 to its length")
    return Bsdl(name, pins, roles, opcodes, length, str(identity) if identity else None, registers_of(found, opcodes))


def check_map(found: dict[str, object], default: str, pins: dict[str, str]) -> None:
    """Checks that the map named by the generic has each pin once."""
    told = found.get(f"map {default.lower()}")
    places = listed(told, r"(\w+)\s*:\s*(\w+)", "map of pins") if told else []
    if sorted(one[1].lower() for one in places) != sorted(pins) or len({one[2] for one in places}) != len(places):
        raise ToolError(f"BSDL: the map {default} does not have each pin once")
