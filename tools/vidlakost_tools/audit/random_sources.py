"""Random controllers in many styles of Verilog and SystemVerilog, with the ports of a self-test, for comparisons of
what reads them: no index lies beyond its word, nothing is divided by 0, and each signal is set before it is read."""
from __future__ import annotations

import dataclasses
import random
import re

BITS, ADDRESS = 8, 4
MEMORY = f"memory 1\nname random\nwords {1 << ADDRESS}\nbits {BITS}\n"
OUTPUTS = {"en": 1, "we": 1, "addr": ADDRESS, "wdata": BITS, "done": 1, "fail": 1}
WIDTHS = [1, 2, 3, 4, 5, 8, 9, 13, 16]
BINARY = [
    "+",
    "-",
    "&",
    "|",
    "^",
    "+",
    "-",
    "&",
    "|",
    "^",
    "~^",
    "<<",
    ">>",
    ">>>",
    "==",
    "!=",
    "<",
    "<=",
    ">",
    ">=",
    "&&",
    "||",
    "===",
    "!==",
]
UNARY = ["~", "!", "-", "&", "|", "^", "~&", "~|", "~^"]


@dataclasses.dataclass
class Name:
    """A signal, its width, and whether it is signed."""

    name: str
    width: int
    is_signed: bool = False

    def declared(self, kind: str) -> str:
        return (
            f"{kind}{' signed' if self.is_signed else ''}"
            f"{f' [{self.width - 1}:0]' if self.width > 1 else ''} {self.name}"
        )


class Writer:
    """Writes expressions over some names, and statements that set others."""

    def __init__(self, chance: random.Random, names: list[Name], functions: list[str]):
        self.chance, self.names, self.functions = chance, names, functions

    def literal(self, width: int) -> str:
        value, form = self.chance.getrandbits(width), self.chance.choice("bdh")
        digits = {"b": f"{value:b}", "d": str(value), "h": f"{value:x}"}[form]
        sign = "s" if self.chance.random() < 0.2 else ""
        return self.chance.choice([f"{width}'{sign}{form}{digits}"] * 9 + [str(value % 16)])

    def part(self, name: Name) -> str:
        """A signal, a bit or a part of it that lies within it."""
        kind = self.chance.randrange(6)
        if name.width < 3 or kind > 3:
            return name.name
        low = self.chance.randrange(name.width - 1)
        high = self.chance.randrange(low, name.width)
        index = self.index(name.width)
        if kind == 1 and index:
            return f"{name.name}[{index}]"
        if kind == 2 and index and name.width > 4:
            return f"{name.name}[{self.index(name.width - 1)} +: 2]" if self.index(name.width - 1) else name.name
        return f"{name.name}[{high}:{low}]" if kind == 0 else f"{name.name}[{low}]"

    def index(self, width: int) -> str:
        """The text of a number below a width, which hangs on a signal."""
        fitting = [name for name in self.names if not name.is_signed and 1 << name.width <= width]
        return self.chance.choice(fitting).name if fitting else ""

    def of(self, depth: int) -> str:
        kind = self.chance.randrange(12) if depth else 0
        if kind < 3:
            return (
                self.part(self.chance.choice(self.names))
                if self.chance.random() < 0.8
                else self.literal(self.chance.choice(WIDTHS))
            )
        one, other = self.of(depth - 1), self.of(depth - 1)
        if kind < 7:
            return self.both(one, other)
        if kind == 7:
            return f"({self.chance.choice(UNARY)}({one}))"
        if kind == 8:
            return f"(({self.of(depth - 1)}) ? {one} : {other})"
        if kind == 9:
            return (
                f"{{{self.part(self.chance.choice(self.names))}, {{2{{{self.part(self.chance.choice(self.names))}}}}}}}"
            )
        if kind == 10 and self.functions:
            return f"{self.chance.choice(self.functions)}({one}, {other})"
        return f"{self.chance.choice(['$signed', '$unsigned'])}({one})"

    def both(self, one: str, other: str) -> str:
        mark = self.chance.choice(BINARY)
        if mark in ("<<", ">>", ">>>"):
            # an amount is small, or hangs on a few bits
            few = [name.name for name in self.names if name.width < 5 and not name.is_signed]
            other = self.chance.choice([*few, str(self.chance.randrange(9))])
        few = [name.name for name in self.names if name.width < 4]
        if few and self.chance.random() < 0.02:
            return f"({few[0]} {self.chance.choice(['/', '%', '*'])} 3'd{self.chance.randrange(1, 8)})"
        return f"({one} {mark} {other})"

    def statement(self, targets: list[Name], mark: str, depth: int) -> str:
        kind = self.chance.randrange(7) if depth else 0
        inner = [self.statement(targets, mark, depth - 1) for _ in range(self.chance.randrange(1, 3))] if depth else []
        body = " ".join(inner)
        if kind < 2 or not targets:
            return self.assignment(targets, mark)
        if kind < 4:
            other = f" else begin {self.statement(targets, mark, depth - 1)} end" if self.chance.random() < 0.6 else ""
            return f"if ({self.of(2)}) begin {body} end{other}"
        if kind == 4:
            return self.case(targets, mark, depth)
        wide = [target for target in targets if target.width > 1]
        if kind == 5 and wide:
            target = self.chance.choice(wide)
            return (
                f"for (k = 0; k < {target.width}; k = k + 1) {target.name}[k] {mark} {target.name}[{target.width - 1} -"
                f" k] ^ ({self.of(1)});"
            )
        return body

    def assignment(self, targets: list[Name], mark: str) -> str:
        target = self.chance.choice(targets)
        index = self.index(target.width) if mark == "<=" else ""
        place = f"[{index}]" if index and self.chance.random() < 0.3 else ""
        return f"{target.name}{place} {mark} {self.of(2)};"

    def case(self, targets: list[Name], mark: str, depth: int) -> str:
        word = self.chance.choice([name for name in self.names if name.width > 1])
        kind = self.chance.choice(["case", "case", "casez"])
        rows = []
        for _ in range(self.chance.randrange(1, 4)):
            bits = "".join(self.chance.choice("01?" if kind == "casez" else "01") for _ in range(word.width))
            rows.append(f"{word.width}'b{bits}: begin {self.statement(targets, mark, depth - 1)} end")
        default = (
            f" default: begin {self.statement(targets, mark, depth - 1)} end" if self.chance.random() < 0.7 else ""
        )
        return f"{kind} ({word.name}) {' '.join(rows)}{default} endcase"


def function_of(chance: random.Random, name: str) -> str:
    width, signed = chance.choice(WIDTHS), chance.choice(["", " signed"])
    writer = Writer(chance, [Name("a", 8), Name("b", 5, signed != "")], [])
    head = f"  function{signed} [{width - 1}:0] {name}(input [7:0] a, input{signed} [4:0] b);"
    return f"{head}\n    {name} = {writer.of(3)};\n  endfunction\n"


def random_source(chance: random.Random) -> str:
    """A controller, of which each port hangs on registers and on what comes in."""
    registers = [
        Name(f"r{count}", chance.choice(WIDTHS), chance.random() < 0.25) for count in range(chance.randrange(3, 8))
    ]
    temps = [
        Name(f"t{count}", chance.choice(WIDTHS), chance.random() < 0.25) for count in range(chance.randrange(1, 4))
    ]
    wires = [
        Name(f"w{count}", chance.choice(WIDTHS), chance.random() < 0.25) for count in range(chance.randrange(1, 5))
    ]
    functions = [f"f{count}" for count in range(chance.randrange(0, 3))]
    logic = chance.choice(["reg", "reg", "logic"])
    names = [*registers, Name("rdata", BITS), Name("P", 6)]
    items = [function_of(chance, name) for name in functions]
    for wire in wires:
        items.append(f"  assign {wire.name} = {Writer(chance, list(names), functions).of(2)};\n")
        names.append(wire)
    # what is set at once has a value before anything else
    writer = Writer(chance, list(names), functions)
    first = " ".join(f"{temp.name} = {writer.of(2)};" for temp in temps)
    blocks = " ".join(Writer(chance, [*names, *temps], functions).statement(temps, "=", 2) for _ in range(2))
    items.append(
        f"  {chance.choice(['always @*', 'always_comb' if logic == 'logic' else 'always @(*)'])} begin : b\n    integer"
        f" k;\n    {first} {blocks}\n  end\n"
    )
    items.append(clocked(chance, registers, [*names, *temps], functions))
    last = Writer(chance, [*names, *temps], functions)
    items += [f"  assign {port} = {last.of(2)};\n" for port in OUTPUTS]
    declared = [name.declared(logic) for name in [*registers, *temps]] + [name.declared("wire") for name in wires]
    ports = ["input clk", "input reset", f"input [{BITS - 1}:0] rdata"] + [
        Name(port, width).declared("output") for port, width in OUTPUTS.items()
    ]
    parameter = f"  parameter [5:0] P = {chance.getrandbits(6)};\n"
    return (
        f"module random_source({', '.join(ports)});\n{parameter}"
        + "".join(f"  {one};\n" for one in declared)
        + "".join(items)
        + "endmodule\n"
    )


def clocked(chance: random.Random, registers: list[Name], names: list[Name], functions: list[str]) -> str:
    """The registers, which a reset of one of the usual forms sets, some of them not."""
    start = " ".join(f"{one.name} <= {chance.getrandbits(one.width)};" for one in registers if chance.random() < 0.9)
    writer = Writer(chance, names, functions)
    body = " ".join(writer.statement(registers, "<=", 3) for _ in range(4))
    # what nothing else sets would be an x for ever, of which a simulator makes a choice
    start += "".join(
        f" {one.name} <= 0;" for one in registers if not re.search(rf"\b{one.name}(\[[^\]]*\])? <= ", f"{start} {body}")
    )
    edge = chance.choice(["posedge clk", "posedge clk", "posedge clk or posedge reset"])
    if "or" in edge:
        # each register is set by such a reset, or has a block of its own
        start = " ".join(f"{one.name} <= {chance.getrandbits(one.width)};" for one in registers)
    return (
        f"  always @({edge}) begin : c\n    integer k;\n    if (reset) begin {start} end else begin {body} end\n  end\n"
    )


def damaged(text: str, chance: random.Random) -> str:
    """A source with one operator, number or name behind its declarations changed."""
    begin = text.index("assign")
    places = list(
        re.finditer(r"(?<=[ (])(?:[-+*&|^]|==|!=|<|>|&&|\|\|)(?= )|\d+'s?[bdh][0-9a-f?]+|\b[rtw]\d\b", text[begin:])
    )
    for _ in range(60):
        match = chance.choice(places)
        other = chance.choice(
            [
                one[0]
                for one in places
                if (one[0][0] in "rtw") == (match[0][0] in "rtw") and one[0][0].isdigit() == match[0][0].isdigit()
            ]
        )
        if other != match[0]:
            return f"{text[: begin + match.start()]}{other}{text[begin + match.end() :]}"
    return text
