"""ICL (IEEE 1687): modules with scan registers, multiplexers and instances."""
from __future__ import annotations

import dataclasses
import re
from typing import Dict, List, Mapping, Optional, Tuple

from vidlakost_tools.tool import ToolError

LEXEME = re.compile(
    r"\s+|//[^\n]*|/\*.*?\*/|(?P<number>\d*'[bdhBDH][0-9a-fA-FxX_]+|\d+)|(?P<word>[A-Za-z]\w*)|(?P<mark>[{}\[\];:,.=])",
    re.DOTALL,
)
PORTS = {
    "TCKPort",
    "TMSPort",
    "TRSTPort",
    "SelectPort",
    "CaptureEnPort",
    "ShiftEnPort",
    "UpdateEnPort",
    "ScanInPort",
    "ScanOutPort",
    "ResetPort",
    "DataInPort",
    "DataOutPort",
    "ToSelectPort",
    "ToCaptureEnPort",
    "ToShiftEnPort",
    "ToUpdateEnPort",
    "ToResetPort",
    "ToTCKPort",
}
# what a port of an instance may be linked to
MATCHES = {
    "SelectPort": ("SelectPort", "ToSelectPort"),
    "CaptureEnPort": ("CaptureEnPort", "ToCaptureEnPort"),
    "ShiftEnPort": ("ShiftEnPort", "ToShiftEnPort"),
    "UpdateEnPort": ("UpdateEnPort", "ToUpdateEnPort"),
    "ResetPort": ("ResetPort", "ToResetPort"),
    "TCKPort": ("TCKPort", "ToTCKPort"),
    "ScanInPort": ("ScanInPort", "ScanOutPort"),
}


@dataclasses.dataclass
class Signal:
    """A name, perhaps of a port of an instance, and the bits of it (none: all of them)."""

    instance: str
    name: str
    bits: Optional[Tuple[int, int]] = None


@dataclasses.dataclass
class Port:
    kind: str
    width: int
    source: List[Signal]


@dataclasses.dataclass
class Register:
    """A scan register; shifting enters at the highest bit."""

    width: int
    source: Optional[Signal] = None
    capture: List[Signal] = dataclasses.field(default_factory=list)
    reset: Optional[int] = None


@dataclasses.dataclass
class Mux:
    selected_by: Signal
    ways: Dict[int, Signal]


@dataclasses.dataclass
class Module:
    name: str
    ports: Dict[str, Port] = dataclasses.field(default_factory=dict)
    registers: Dict[str, Register] = dataclasses.field(default_factory=dict)
    muxes: Dict[str, Mux] = dataclasses.field(default_factory=dict)
    instances: Dict[str, Tuple[str, Dict[str, Signal]]] = dataclasses.field(default_factory=dict)
    aliases: Dict[str, Tuple[int, List[Signal]]] = dataclasses.field(default_factory=dict)
    interfaces: Dict[str, List[str]] = dataclasses.field(default_factory=dict)
    # for each instruction, the instance and the interface that it reaches
    links: Dict[str, Tuple[str, str]] = dataclasses.field(default_factory=dict)
    entity: str = ""

    def declare(self, name: str) -> str:
        if name in {*self.ports, *self.registers, *self.muxes, *self.instances, *self.aliases}:
            raise ToolError(f"ICL: {name} is there twice in {self.name}")
        return name


class Reader:
    """The words of a text, one after another."""

    def __init__(self, text: str):
        self.found: list[str] = []
        at = 0
        while at < len(text):
            match = LEXEME.match(text, at)
            if match is None:
                raise ToolError(f"ICL: line {text.count(chr(10), 0, at) + 1}: {text[at]!r} begins no word")
            at = match.end()
            if match.lastgroup:
                self.found.append(match[0])
        self.at = 0

    @property
    def next(self) -> str:
        return self.found[self.at] if self.at < len(self.found) else "the end"

    def take(self, *wanted: str) -> None:
        for word in wanted:
            if self.next != word:
                raise ToolError(f"ICL: {word!r} is expected, but {self.next} comes")
            self.at += 1

    def word(self, form: str = r"[A-Za-z]\w*") -> str:
        if self.at >= len(self.found) or not re.fullmatch(form, self.next):
            raise ToolError(f"ICL: {self.next} is not allowed here")
        self.at += 1
        return self.found[self.at - 1]

    def takes(self, word: str) -> bool:
        if self.next != word:
            return False
        self.at += 1
        return True

    def number(self) -> int:
        """A number, with its base or without."""
        text = self.word(r"\d*'[bdhBDH][0-9a-fA-F]+|\d+")
        size, mark, rest = text.partition("'")
        if not mark:
            return int(text)
        value = int(rest[1:], {"b": 2, "d": 10, "h": 16}[rest[0].lower()])
        if size and value >> int(size):
            raise ToolError(f"ICL: {text} has more than {size} bits")
        return value

    def span(self) -> Optional[Tuple[int, int]]:
        """The bits after a name, the first and the last of them."""
        if not self.takes("["):
            return None
        first = self.number()
        last = self.number() if self.takes(":") else first
        self.take("]")
        return first, last

    def signal(self) -> Signal:
        name, instance = self.word(), ""
        if self.takes("."):
            name, instance = self.word(), name
        return Signal(instance, name, self.span())

    def signals(self) -> list[Signal]:
        found = [self.signal()]
        while self.takes(","):
            found.append(self.signal())
        return found


def width_of(span: Optional[Tuple[int, int]]) -> int:
    """The width of a declaration with these bits, of which the last has to be bit 0."""
    if span is None:
        return 1
    if span[1] or span[0] < 0:
        raise ToolError(f"ICL: bits {span[0]} to {span[1]} are not declared from the highest to 0")
    return span[0] + 1


def port(reader: Reader, module: Module, kind: str) -> None:
    name = module.declare(reader.word())
    found = Port(kind, width_of(reader.span()), [])
    if not reader.takes(";"):
        reader.take("{")
        while not reader.takes("}"):
            if reader.word("Source|ActivePolarity") == "Source":
                found.source = reader.signals()
            else:
                reader.word("[01]")
            reader.take(";")
    module.ports[name] = found


def register(reader: Reader, module: Module) -> None:
    name = module.declare(reader.word())
    found = Register(width_of(reader.span()))
    reader.take("{")
    while not reader.takes("}"):
        what = reader.word("ScanInSource|CaptureSource|ResetValue")
        if what == "ScanInSource":
            found.source = reader.signal()
        elif what == "CaptureSource":
            found.capture = reader.signals()
        else:
            found.reset = reader.number()
        reader.take(";")
    if found.source is None:
        raise ToolError(f"ICL: {name} has no ScanInSource")
    module.registers[name] = found


def mux(reader: Reader, module: Module) -> None:
    name = module.declare(reader.word())
    reader.take("SelectedBy")
    found = Mux(reader.signal(), {})
    reader.take("{")
    while not reader.takes("}"):
        value = reader.number()
        reader.take(":")
        if value in found.ways:
            raise ToolError(f"ICL: {name} has the value {value} twice")
        found.ways[value] = reader.signal()
        reader.take(";")
    module.muxes[name] = found


def instance(reader: Reader, module: Module) -> None:
    name = module.declare(reader.word())
    reader.take("Of")
    of, links = reader.word(), {}
    if not reader.takes(";"):
        reader.take("{")
        while not reader.takes("}"):
            reader.take("InputPort")
            target = reader.word()
            reader.take("=")
            if target in links:
                raise ToolError(f"ICL: {target} of {name} is linked twice")
            links[target] = reader.signal()
            reader.take(";")
    module.instances[name] = (of, links)


def interface(reader: Reader, module: Module) -> None:
    name, found = reader.word(), []
    reader.take("{")
    while not reader.takes("}"):
        reader.take("Port")
        found.append(reader.word())
        reader.take(";")
    module.interfaces[name] = found


def access(reader: Reader, module: Module) -> None:
    reader.word()
    reader.take("Of", "STD_1149_1_2001", "{", "BSDLEntity")
    module.entity = reader.word()
    reader.take(";")
    while not reader.takes("}"):
        name = reader.word()
        reader.take("{", "ScanInterface", "{")
        of = reader.word()
        reader.take(".")
        module.links[name] = (of, reader.word())
        reader.take(";", "}", "}")


def alias(reader: Reader, module: Module) -> None:
    name = module.declare(reader.word())
    width = width_of(reader.span())
    reader.take("=")
    module.aliases[name] = (width, reader.signals())
    reader.take(";")


ITEMS = {
    "ScanRegister": register,
    "ScanMux": mux,
    "Instance": instance,
    "ScanInterface": interface,
    "AccessLink": access,
    "Alias": alias,
}


def read(text: str) -> dict[str, Module]:
    """The modules of a text. Each name has to be declared, and to have the kind and width that its place needs."""
    reader, modules = Reader(text), {}
    while reader.next != "the end":
        reader.take("Module")
        module = Module(reader.word())
        reader.take("{")
        while not reader.takes("}"):
            what = reader.word()
            if what in PORTS:
                port(reader, module, what)
            elif what in ITEMS:
                ITEMS[what](reader, module)
            else:
                raise ToolError(f"ICL: {what} is not allowed in a module")
        if module.name in modules:
            raise ToolError(f"ICL: the module {module.name} is there twice")
        modules[module.name] = module
    for module in modules.values():
        Checked(modules, module).check()
    return modules


class Checked:
    """A module whose names are looked up."""

    def __init__(self, modules: Mapping[str, Module], module: Module):
        self.modules, self.module = modules, module

    def port_of(self, of: str, name: str) -> Port:
        inner = self.modules.get(self.module.instances[of][0]) if of in self.module.instances else None
        if inner is None or name not in inner.ports:
            raise ToolError(f"ICL: {self.module.name} has no {of}.{name}")
        return inner.ports[name]

    def width(self, signal: Signal, is_scan: bool = False) -> int:
        """How many bits a signal has: in the path a register's own one is its lowest."""
        it = self.module
        if signal.instance:
            whole = self.port_of(signal.instance, signal.name).width
        elif signal.name in it.ports:
            whole = it.ports[signal.name].width
        elif signal.name in it.registers:
            whole = it.registers[signal.name].width
        elif signal.name in it.muxes:
            whole = 1
        else:
            raise ToolError(f"ICL: {it.name} has no {signal.name}")
        if signal.bits is None:
            return whole
        first, last = signal.bits
        if not whole > first >= last >= 0 or is_scan and (first, last) != (0, 0):
            raise ToolError(f"ICL: {signal.name} has no bits {first} to {last}, or they are no output of the path")
        return first - last + 1

    def is_one(self, signal: Optional[Signal]) -> None:
        if signal is None or self.width(signal, True) != 1:
            raise ToolError(f"ICL: {signal} is not one bit of the path of {self.module.name}")

    def check(self) -> None:
        it = self.module
        for name, port_is in it.ports.items():
            if port_is.source and sum(map(self.width, port_is.source)) != port_is.width:
                raise ToolError(f"ICL: the source of {name} has another width")
            if port_is.kind == "ScanOutPort":
                self.is_one(port_is.source[0] if len(port_is.source) == 1 else None)
        for name, one in it.registers.items():
            self.is_one(one.source)
            if one.capture and sum(map(self.width, one.capture)) != one.width:
                raise ToolError(f"ICL: what {name} captures has another width")
            if one.reset is not None and one.reset >> one.width:
                raise ToolError(f"ICL: the reset value of {name} has more bits")
        for name, choice in it.muxes.items():
            for way in choice.ways.values():
                self.is_one(way)
            if len(choice.ways) != 1 << self.width(choice.selected_by) or choice.selected_by.name not in it.registers:
                raise ToolError(f"ICL: {name} has not a way for each value of a register")
        for name, (width, parts) in it.aliases.items():
            if sum(map(self.width, parts)) != width or any(part.name not in it.registers for part in parts):
                raise ToolError(f"ICL: the alias {name} has another width than its bits")
        for name, ports in it.interfaces.items():
            if set(ports) - set(it.ports) or len(set(ports)) != len(ports):
                raise ToolError(f"ICL: {name} has a port that is not there, or twice")
        self.check_instances()

    def check_instances(self) -> None:
        """Checks that each input of an instance is linked once to a port of its kind, unless the access link gives all
        of them."""
        it = self.module
        reached = {of for of, _ in it.links.values()}
        for name, (of, links) in it.instances.items():
            for target, source in links.items():
                kind = self.port_of(name, target).kind
                given = self.port_of(source.instance, source.name) if source.instance else it.ports.get(source.name)
                is_output = given is not None and (given.kind.startswith("To") or given.kind.endswith("OutPort"))
                if given is None or given.kind not in MATCHES.get(kind, (kind,)) or is_output != bool(source.instance):
                    raise ToolError(f"ICL: {target} of {name} is linked to a port of another kind")
            ports = self.modules[of].ports if of in self.modules else {}
            missing = {port for port, is_a in ports.items() if is_a.kind in MATCHES} - set(links)
            if not ports or missing and name not in reached or links and name in reached:
                raise ToolError(f"ICL: {name} of {it.name} has no module, or an input that nothing is linked to")
        for instruction, (of, end) in it.links.items():
            if of not in it.instances or end not in self.modules[it.instances[of][0]].interfaces:
                raise ToolError(f"ICL: {instruction} reaches no interface {of}.{end}")
