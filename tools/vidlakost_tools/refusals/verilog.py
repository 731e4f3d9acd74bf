"""Where a module breaks a rule that the program names, or has a wrong port."""
from __future__ import annotations

import dataclasses
import re
from typing import Any, Mapping, Tuple

from vidlakost_tools.refusals.finding import Finding, listed
from vidlakost_tools.refusals.texts import early, unexpected
from vidlakost_tools.text import read_described
from vidlakost_tools.texts.memory import Memory, parse_memory
from vidlakost_tools.verilog.syntax import Assign, Block, Declared, Expression, If, Item, Reader, Set, Statement, Token

WORDS = ("module input output wire reg assign always begin end if else case default endcase endmodule posedge").split()
ONE_BIT = {"==", "!=", "<", "<=", ">", ">=", "&&", "||"}
FREE = {"&&", "||", "<<", ">>"}


@dataclasses.dataclass
class Name:
    """A port or a declared name."""

    kind: str
    width: int
    at: int


@dataclasses.dataclass
class Event:
    """An event in a module that a rule is about: what happens, to which name, where, and two widths or the block."""

    kind: str
    name: str
    at: int
    detail: Tuple[Any, ...] = ()


class Events:
    """What happens in a module, in the order of its text."""

    def __init__(self, text: bytes):
        module = Reader(text.decode("latin-1")).module()
        self.block = 0
        self.names: dict[str, Name] = {}
        self.events: list[Event] = []
        for declared in module.ports:
            self.declare(declared)
        self.ports = dict(self.names)
        for item in module.items:
            self.item(item)

    def note(self, kind: str, token: Token, *detail: object) -> None:
        self.events.append(Event(kind, token.text, token.at, detail))

    def declare(self, declared: Declared) -> None:
        token = declared.token
        self.note("twice" if token.text in self.names else "declared", token, declared.kind)
        self.names.setdefault(token.text, Name(declared.kind, declared.width, token.at))

    def item(self, item: Item) -> None:
        if isinstance(item, Declared):
            self.declare(item)
        elif isinstance(item, Assign):
            self.note("assign", item.target)
            self.equal(item.target.at, self.width_of(item.target), self.width(item.value))
        else:
            self.block += 1
            self.note("clock", item.clock)
            self.statement(item.body)

    def statement(self, statement: Statement) -> None:
        if isinstance(statement, Set):
            self.note("set", statement.target, self.block)
            self.equal(statement.target.at, self.width_of(statement.target), self.width(statement.value))
        elif isinstance(statement, Block):
            for part in statement.parts:
                self.statement(part)
        elif isinstance(statement, If):
            self.width(statement.condition)
            self.statement(statement.then)
            if statement.otherwise is not None:
                self.statement(statement.otherwise)
        else:
            subject = self.width(statement.subject)
            for labels, body in statement.arms:
                for label in labels:
                    self.equal(label.start, subject, self.width(label))
                self.statement(body)

    # expressions, each with its width (None: unknown)

    def width_of(self, token: Token) -> int | None:
        """The width of a name in an expression; this use is recorded."""
        self.note("use", token, token.text in self.names)
        return self.names[token.text].width if token.text in self.names else None

    def equal(self, at: int, left: int | None, right: int | None) -> None:
        if left and right and left != right:
            self.events.append(Event("width", "", at, (left, right)))

    def width(self, it: Expression) -> int | None:
        if it.kind == "literal":
            return it.width
        if it.kind == "name":
            return self.selected(it)
        widths = [self.width(operand) for operand in it.operands]
        if it.kind == "prefix":
            return widths[0] if it.token.text == "~" else 1
        if it.kind == "join":
            return self.joined(it, widths)
        left, right = widths[-2:]
        if it.kind == "choice":
            self.equal(it.operands[1].start, left, right)
            return left
        if it.token.text in FREE:
            return 1 if it.token.text in ONE_BIT else left
        self.equal(it.token.at, left, right)
        return 1 if it.token.text in ONE_BIT else left or right

    def joined(self, it: Expression, widths: list[int | None]) -> int | None:
        known = [width for width in widths if width]
        total = sum(known)
        if len(known) < len(widths):
            return None
        if total > 64:
            self.events.append(Event("width", "", it.start, (64, total)))
        return total

    def selected(self, it: Expression) -> int | None:
        width = self.width_of(it.token)
        if it.bits is None:
            return width
        high, low = it.bits
        if width and (high >= width or low > high or width == 1):
            self.note("select", it.token, width, high, low)
        return high - low + 1


def rule(name: str, text: bytes, code: str, values: Mapping[str, str]) -> Finding:
    """The place of a broken rule, and what is wrong there."""
    module = Events(text)
    what = values.get("name", "")
    if code == "N7":
        return loop(name, text, module, values["names"].split())
    for event in module.events:
        message = broken(module, event, code, what, values)
        if message:
            return Finding(name, text, event.at, message)
    return Finding(name, text, None, f"the module breaks rule {code} {what}".rstrip())


def broken(module: Events, event: Event, code: str, what: str, values: Mapping[str, str]) -> str | None:
    """What is wrong with an event, if it is the one that breaks the rule."""
    if code == "N3":
        widths = (int(values["x"]), int(values["y"]))
        if event.kind != "width" or event.detail != widths:
            return None
        if event.detail[0] == 64 and event.detail[1] > 64:
            return f"this concatenation has {event.detail[1]} bits, but may have at most 64"
        return f"one side has {bits(widths[0])} and the other {widths[1]}, but both have to be equally wide"
    if event.name != what:
        return None
    declared = module.names.get(what)
    if code == "N1" and event.kind in ("use", "clock") and event.detail[:1] != (True,):
        return f"'{what}' is no port and is not declared above"
    if code == "N2" and (event.kind == "twice" or event.kind == "assign" and first_of(module, event) is not event):
        return f"'{what}' is declared twice" if event.kind == "twice" else f"'{what}' has an assign already"
    if code == "N4" and event.kind == "set" and first_of(module, event).detail != event.detail:
        return f"'{what}' is set in an earlier always block"
    if code == "N5" and event.kind == "assign" and declared and declared.kind in ("input", "reg"):
        return f"'{what}' is {'an input' if declared.kind == 'input' else 'a register'}, which no assign can drive"
    if code == "N5" and event.kind == "set" and declared and declared.kind != "reg":
        return f"'{what}' is no register, and only a register is set with <="
    if code == "N6" and event.kind == "select":
        width, high, low = event.detail
        if width == 1:
            return f"'{what}' has one bit, so nothing can be selected from it"
        return f"'{what}' has the bits 0 to {width - 1}" + (
            f", and not {high}" if high >= width else f", and {low} is above {high}"
        )
    if code == "N9" and event.kind == "declared":
        return f"no assign drives '{what}'"
    if code == "N10":
        return clock(module, event, what)
    return None


def first_of(module: Events, event: Event) -> Event:
    """The first event of this kind with this name."""
    return next(it for it in module.events if it.kind == event.kind and it.name == event.name)


def clock(module: Events, event: Event, what: str) -> str | None:
    declared = module.names.get("clk")
    is_input = declared is not None and declared.kind == "input" and declared.width == 1
    if event.kind == "clock" and (what != "clk" or not is_input):
        return "the clock has to be an input of one bit named 'clk'"
    if event.kind == "use" and what == "clk":
        return "'clk' is the clock, so no expression may use it"
    if event.kind == "declared" and what == "clk" and not is_input:
        return "'clk' can only be an input of one bit"
    return None


def loop(name: str, text: bytes, module: Events, names: list[str]) -> Finding:
    places = [
        next((event.at for event in module.events if event.kind == "assign" and event.name == it), None) for it in names
    ]
    circle = " -> ".join([*names, names[0]])
    return Finding(
        name,
        text,
        places[0],
        "these wires form a loop: each uses the next" if len(names) > 1 else "this wire uses itself",
        [circle],
    )


def wanted_ports(memory: Memory) -> dict[str, tuple[str, int]]:
    """The ports of the self-test of a memory."""
    return {
        "clk": ("input", 1),
        "reset": ("input", 1),
        "rdata": ("input", memory.bits),
        "en": ("output", 1),
        "we": ("output", 1),
        "addr": ("output", memory.width),
        "wdata": ("output", memory.bits),
        "done": ("output", 1),
        "fail": ("output", 1),
    }


def bits(width: int) -> str:
    return "1 bit" if width == 1 else f"{width} bits"


def port(name: str, text: bytes, what: str, memory: Memory) -> Finding:
    """The port that differs from that of a memory's self-test."""
    module, wanted = Events(text), wanted_ports(memory)
    if what not in wanted:
        return Finding(
            name,
            text,
            module.ports[what].at,
            f"the self-test of {memory.name} has no port '{what}'",
            [f"its ports are {listed(list(wanted), 'and')}"],
        )
    kind, width = wanted[what]
    if what not in module.ports:
        return Finding(
            name,
            text,
            None,
            f"the port '{what}' is missing: {'an' if kind[0] in 'aeio' else 'a'} {kind} of {bits(width)}",
        )
    has = module.ports[what]
    way = "input" if has.kind == "input" else "output"
    if way != kind:
        return Finding(
            name, text, has.at, f"'{what}' is an {way} here, but an {kind} of the self-test of {memory.name}"
        )
    return Finding(
        name, text, has.at, f"'{what}' has {bits(has.width)} here, but {bits(width)} in the self-test of {memory.name}"
    )


def too_deep(text: bytes, at: int) -> str:
    """What is too much at a byte. No module opens anything at byte 0, so byte 0 means the text that `show` would
    print."""
    if at == 0:
        return (
            "with parentheses round each operator, this module opens more than 64 of (, {, begin, case and if at once"
        )
    if re.compile(rb"[({]|(begin|case|if)\b").match(text, at):
        return "this opens the 65th of (, {, begin, case and if that are open at once; at most 64 may be open"
    return "this is the 257th operator of an expression; it may have at most 256"


def verilog(name: str, text: bytes, code: str, values: Mapping[str, str], memory_file: str | None) -> Finding:
    """What is wrong with a module."""
    if code == "L1":
        return unexpected("verilog", name, text, int(values["byte"]), WORDS)
    if code == "L2":
        return early("verilog", name, text, "the module")
    if code == "B2" and memory_file is not None:
        return port(name, text, values["name"], parse_memory(read_described(memory_file)))
    if code[0] == "N":
        return rule(name, text, code, values)
    at = int(values["byte"])
    message = {
        "L3": too_deep(text, at),
        "L4": "this name goes on for more than 64 bytes",
        "L5": (
            "this number is too large: a literal has 1 to 64 bits and a value that they hold, and an index is at"
            " most 63"
        ),
    }[code]
    return Finding(name, text, at, message)
