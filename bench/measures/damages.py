"""Wrong connections in Verilog that was written: each place of a module where a net is named, and what could stand
there in its place. What stands under the define of a testbench is no connection, and comments are none."""
from __future__ import annotations

import dataclasses
import pathlib
import re
from typing import Dict, Iterator, List, Tuple

PLANTED = "VIDLAKOST_PLANTED"
POWER = "USE_POWER_PINS"
NAME = re.compile(r"(?<![\w'.$`\\])[A-Za-z_]\w*(?!\s*\()")
DECLARED = re.compile(r"^\s*(input|output|inout|wire|reg)\b(?: (?:wire|reg))? *(?:\[(\d+):0\] )?(\w+)", re.MULTILINE)
VALUE = re.compile(
    r"^\s*(?:assign \w+(?:\[\d+\])?|wire (?:\[\d+:0\] )?\w+|if \(.*\)|else if \(.*\)|\w+) *<?= (?=\S)|<= (?=\S)",
    re.MULTILINE,
)
LINK = re.compile(r"\.(\w+)\(")
MODULE = re.compile(r"^module (\w+)\b.*?^endmodule", re.MULTILINE | re.DOTALL)
WORDS = {
    "wire",
    "assign",
    "reg",
    "if",
    "else",
    "begin",
    "end",
    "case",
    "default",
    "endcase",
    "posedge",
    "always",
    "or",
    "test_",
}


@dataclasses.dataclass(frozen=True)
class Damage:
    """What is done to a file: the text between two places is another. `kind` is what is done, `is_power` says that it
    stands
    among the supplies."""

    file: str
    module: str
    kind: str
    start: int
    end: int
    text: str
    is_power: bool

    def done_to(self, whole: str) -> str:
        return whole[: self.start] + self.text + whole[self.end :]

    def told(self, whole: str) -> str:
        """The damage as a line."""
        line = whole.count("\n", 0, self.start) + 1
        first = whole.rfind("\n", 0, self.start) + 1
        last = whole.find("\n", self.end)
        changed = whole[first : self.start] + self.text + whole[self.end : last]
        return f"{self.file}:{line}: {self.kind}: {' '.join(changed.split())[:150]}"


def conditions(text: str) -> Tuple[str, List[Tuple[int, int]]]:
    """The text with blanks for comments and for what stands under the define of a testbench; the spans of the
    supplies."""
    kept = list(re.sub(r"//[^\n]*", lambda found: " " * len(found[0]), text))
    power, inside, place = [], [], 0
    for line in text.splitlines(keepends=True):
        words = line.split()
        if words[:1] == ["`ifdef"]:
            inside.append((words[1], place))
        elif words[:1] == ["`else"]:
            inside[-1] = ("not " + inside[-1][0], place)
        elif words[:1] == ["`endif"]:
            name, begin = inside.pop()
            power += [(begin, place)] if name == POWER else []
        if any(name == PLANTED for name, _ in inside) or line.startswith("`"):
            kept[place : place + len(line)] = " " * (len(line) - 1) + "\n"
        place += len(line)
    return "".join(kept), power


def closed(text: str, place: int) -> int:
    """Where the parenthesis ends that was opened before a place."""
    depth = 1
    while depth:
        depth += {"(": 1, ")": -1}.get(text[place], 0)
        place += 1
    return place - 1


@dataclasses.dataclass
class Net:
    """What a module declares: its direction or kind, and its width."""

    way: str
    width: int


@dataclasses.dataclass
class Module:
    """A module of a file: its name, its place, its text without what is no connection, and its nets."""

    file: str
    name: str
    start: int
    text: str
    power: List[Tuple[int, int]]

    def __post_init__(self) -> None:
        found = DECLARED.findall(self.text)
        self.nets: Dict[str, Net] = {name: Net(way, int(high or 0) + 1) for way, high, name in found}

    def spans(self) -> Iterator[Tuple[str, int, int]]:
        """What stands in a link, with the port's name, and what is assigned, with none."""
        body = self.text.index(");")
        for found in LINK.finditer(self.text, body):
            yield found[1], found.end(), closed(self.text, found.end())
        for found in VALUE.finditer(self.text, body):
            ends = [place for place in (self.text.find(end, found.end()) for end in (";", "\n\n")) if place >= 0]
            yield "", found.end(), min(ends)

    def alike(self, name: str) -> List[str]:
        """Other nets of the width of this one."""
        return sorted(other for other, net in self.nets.items() if net.width == self.nets[name].width and other != name)


def modules_of(path: pathlib.Path) -> List[Module]:
    """The modules of a file."""
    text, power = conditions(path.read_text(encoding="utf-8"))
    return [Module(path.name, found[1], found.start(), found[0], power) for found in MODULE.finditer(text)]


def damaged_bits(name: str, width: int) -> Iterator[Tuple[str, str]]:
    """A net of several bits with one that is open or hangs on another, and with two that are crossed."""
    bits = [f"{name}[{bit}]" for bit in reversed(range(width))]

    def joined(changed: Dict[int, str]) -> str:
        return "{" + ", ".join(changed.get(place, bit) for place, bit in enumerate(bits)) + "}"

    for place in range(width):
        yield "a bit is open", joined({place: "1'bz"})
        yield "a bit hangs on another", joined({place: bits[(place + 1) % width]})
    for place in range(width - 1):
        yield "two bits are crossed", joined({place: bits[place + 1], place + 1: bits[place]})


def changes(module: Module, name: str, is_driven: bool) -> Iterator[Tuple[str, str]]:
    """What could stand in the place of a net; of one that an instance drives no number."""
    width = module.nets[name].width
    for other in module.alike(name):
        if not is_driven or module.nets[other].way not in ("input", "reg"):
            yield "another net", other
    if not is_driven:
        yield "zeros", f"{{{width}{{1'b0}}}}"
        yield "ones", f"{{{width}{{1'b1}}}}"
        yield "the inverse", f"(~{name})"
    if width > 1:
        yield from (bit for bit in damaged_bits(name, width) if not is_driven or bit[0] == "two bits are crossed")


def of_module(module: Module, outputs: Dict[str, bool]) -> Iterator[Damage]:
    """Each wrong connection of a module; `outputs` tells of the ports of other modules whether they are outputs."""

    def damage(kind: str, start: int, end: int, text: str) -> Damage:
        first, last = module.start + start, module.start + end
        is_power = any(low <= first < high for low, high in module.power)
        return Damage(module.file, module.name, kind, first, last, text, is_power)

    for port, start, end in module.spans():
        if port and module.text[start:end].strip():
            yield damage("a link is open", start, end, "")
        for found in NAME.finditer(module.text, start, end):
            name = found[0]
            is_part = module.text[found.end() : found.end() + 1] == "["
            if name in WORDS or name not in module.nets or is_part:
                continue
            for kind, text in changes(module, name, outputs.get(port, False)):
                yield damage(kind, found.start(), found.end(), text)


def of_files(paths: List[pathlib.Path], known: List[pathlib.Path]) -> List[Damage]:
    """Each wrong connection of some files, in their order; `known` are all files with modules that stand in them."""
    outputs: Dict[str, bool] = {}
    for path in known:
        for module in modules_of(path):
            outputs.update(
                {name: net.way == "output" for name, net in module.nets.items() if net.way in ("input", "output")}
            )
    return [one for path in paths for module in modules_of(path) for one in of_module(module, outputs)]
