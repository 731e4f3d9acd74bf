"""What Yosys' cells become in the subset: an expression has the value that Verilog gives it, as words and as gates."""
from __future__ import annotations

import dataclasses
import pathlib
import re
import tempfile
import unittest
from typing import Callable

from tests.unit.controllers import needs
from vidlakost_tools.tool import ToolError
from vidlakost_tools.verilog import front_end, open_run
from vidlakost_tools.verilog.front_end import Plain
from vidlakost_tools.verilog.syntax import Reader

# pairs of numbers of four bits that are tried
PAIRS = [(0, 0), (1, 15), (15, 1), (12, 5), (8, 7), (7, 8), (3, 3), (10, 2)]


def signed(number: int) -> int:
    return number - 16 if number & 8 else number


@dataclasses.dataclass
class Word:
    """An expression of a and b, the width of its result, and what it is for their numbers."""

    text: str
    width: int
    of: Callable[[int, int], int]


def parity(number: int) -> bool:
    return bin(number).count("1") % 2 == 1


def joined(*bits: bool) -> int:
    """Some bits as a number, the highest first."""
    return int("".join(str(int(bit)) for bit in bits), 2)


WORDS = [
    Word("a + b", 5, lambda a, b: a + b),
    Word("a - b", 4, lambda a, b: a - b),
    Word("-a", 6, lambda a, b: -a),
    Word("a * b", 8, lambda a, b: a * b),
    Word("a & b", 4, lambda a, b: a & b),
    Word("a | b", 4, lambda a, b: a | b),
    Word("a ^ b", 4, lambda a, b: a ^ b),
    Word("a ~^ b", 4, lambda a, b: ~(a ^ b)),
    Word("~a", 4, lambda a, b: ~a),
    Word("+a", 6, lambda a, b: a),
    Word(
        "{a == b, a != b, a < b, a <= b, a > b, a >= b}",
        6,
        lambda a, b: joined(a == b, a != b, a < b, a <= b, a > b, a >= b),
    ),
    Word("{sa < sb, sa <= sb}", 2, lambda a, b: joined(signed(a) < signed(b), signed(a) <= signed(b))),
    Word("{sa > sb, sa >= sb}", 2, lambda a, b: joined(signed(a) > signed(b), signed(a) >= signed(b))),
    Word("sa + sb", 6, lambda a, b: signed(a) + signed(b)),
    Word("sa == sb", 1, lambda a, b: a == b),
    Word("sa", 7, lambda a, b: signed(a)),
    Word("{&a, |a, ^a}", 3, lambda a, b: joined(a == 15, a != 0, parity(a))),
    Word("{~&a, ~|a, ~^a}", 3, lambda a, b: joined(a != 15, a == 0, not parity(a))),
    Word("{!a, a && b, a || b}", 3, lambda a, b: joined(a == 0, a != 0 and b != 0, a != 0 or b != 0)),
    Word("a << b[1:0]", 4, lambda a, b: a << (b & 3)),
    Word("a >> b", 4, lambda a, b: a >> b),
    Word("sa >>> b[1:0]", 4, lambda a, b: signed(a) >> (b & 3)),
    Word("a[b[1:0]]", 1, lambda a, b: a >> (b & 3)),
    Word("{a, b} >> b[2:0]", 3, lambda a, b: (a << 4 | b) >> (b & 7)),
    Word("b[0] ? a : b", 4, lambda a, b: a if b & 1 else b),
    Word("wide == {20{b}}", 1, lambda a, b: a == b),
    Word("{^wide, |wide, &wide}", 3, lambda a, b: joined(False, a != 0, a == 15)),
    Word("wide + b", 4, lambda a, b: a + b),
    Word("{wide != 80'd0, !wide}", 2, lambda a, b: 2 if a else 1),
    Word("b[0] ? wide[79:76] : ~wide[43:40]", 4, lambda a, b: a if b & 1 else ~a),
    Word("a % 4'd3", 2, lambda a, b: a % 3),
    Word("a / 4'd3", 3, lambda a, b: a // 3),
]


def source(words: list[Word]) -> str:
    """A module with an output for each expression."""
    outputs = [f"output [{word.width - 1}:0] y{count}" for count, word in enumerate(words)]
    lines = ["wire [79:0] wide = {20{a}};", "wire signed [3:0] sa = a;", "wire signed [3:0] sb = b;"]
    lines += [f"assign y{count} = {word.text};" for count, word in enumerate(words)]
    body = "\n".join(f"  {line}" for line in lines)
    return f"module words(input [3:0] a, input [3:0] b, {', '.join(outputs)});\n{body}\nendmodule\n"


def plain_of(text: str, tries: tuple[str, ...] = front_end.TRIES) -> Plain:
    with tempfile.TemporaryDirectory() as name:
        file = pathlib.Path(name) / "a.v"
        file.write_text(text)
        return front_end.plain_of([str(file)], {}, None, tries)


def values(plain: Plain, **inputs: int) -> dict[str, int | None]:
    """What the names of a module of the subset are for some inputs."""
    module, run = Reader(plain.text()).module(), open_run.Run()
    for declared in module.ports:
        run.declare(declared)
    for item in module.items:
        run.take(item)
    (env,) = open_run.clocked(run, {name: None for name in run.registers}, [inputs])
    return env


@needs("yosys")
class Words(unittest.TestCase):
    def agree(self, plain: Plain, words: list[Word]) -> None:
        for a, b in PAIRS:
            found = values(plain, a=a, b=b)
            for count, word in enumerate(words):
                with self.subTest(text=word.text, a=a, b=b):
                    self.assertEqual(found[f"y{count}"], word.of(a, b) & (1 << word.width) - 1)

    def test_values(self) -> None:
        """What is rare becomes gates, and the other operators stay."""
        words = [word for word in WORDS if "wide +" not in word.text]
        plain = plain_of(source(words), front_end.TRIES[1:2])
        self.agree(plain, words)
        self.assertEqual({1, 4, 5} - {wire.width for wire in plain.wires}, set())

    def test_values_of_words_alone(self) -> None:
        """What has an operator in the subset stays a word of as many bits."""
        words = [word for word in WORDS if not re.search(r"[*/%]|wide \+|b\[2:0\]|a\[b|>>>", word.text)]
        plain = plain_of(source(words), front_end.TRIES[:1])
        self.agree(plain, words)
        self.assertTrue(any(re.fullmatch(r"\(\{1'b0, a\} \+ \{1'b0, b\}\)", wire.value) for wire in plain.wires))

    def test_values_as_gates(self) -> None:
        plain = plain_of(source(WORDS), front_end.ALL_GATES)
        self.assertEqual({wire.width for wire in plain.wires}, {1})
        self.agree(plain, WORDS)


@needs("yosys")
class Opens(unittest.TestCase):
    """What has no number in Verilog is open."""

    def value(self, text: str, **inputs: int) -> int | None:
        module = f"module m(input [3:0] a, input [3:0] b, output y);\n  assign y = {text};\nendmodule\n"
        return values(plain_of(module), **inputs)["y"]

    def test_division_by_0(self) -> None:
        module = "module m(input [1:0] a, input [1:0] b, output [1:0] y);\n  assign y = {};\nendmodule\n"
        divided, rest = (plain_of(module.format(text)) for text in ("a / b", "a % b"))
        self.assertEqual([values(plain, a=3, b=2)["y"] for plain in (divided, rest)], [1, 1])
        self.assertEqual([values(plain, a=3, b=0)["y"] for plain in (divided, rest)], [None, None])

    def test_bit_beyond_its_word(self) -> None:
        self.assertEqual(self.value("a[b]", a=8, b=3), 1)
        self.assertIsNone(self.value("a[b]", a=8, b=4))

    def test_what_nothing_drives(self) -> None:
        self.assertIsNone(self.value("1'bx", a=0))
        self.assertIsNone(self.value("a[0] & 1'bz", a=1))
        self.assertEqual(self.value("a[0] & 1'bx", a=0), 0)


@needs("yosys")
class Names(unittest.TestCase):
    def test_ports_and_names_of_the_sources_stay(self) -> None:
        text = "module m(input clk, input a, output reg q);\n  always @(posedge clk) q <= ~a;\nendmodule\n"
        plain = plain_of(text)
        self.assertEqual(plain.ports, [("input", "clk", 1), ("input", "a", 1), ("output", "q", 1)])
        (register,) = plain.registers
        self.assertEqual((plain.clock, plain.place(register.name)), ("clk", "q (a.v:1)"))
        self.assertEqual(plain.origins, {register.name: [[("q", 0)]]})

    def test_signal_of_a_part_has_its_way(self) -> None:
        part = "module part(input clk, input a, output q);\n  reg kept;\n  always @(posedge clk) kept <= a;\n"
        top = "module top(input clk, input a, output q);\n  part u(.clk(clk), .a(a), .q(q));\nendmodule\n"
        (register,) = plain_of(f"{part}  assign q = ~kept;\nendmodule\n{top}").registers
        self.assertEqual(register.name, "u_kept")

    def test_clock_of_another_name(self) -> None:
        plain = plain_of("module m(input ck, input a, output reg q);\n  always @(posedge ck) q <= a;\nendmodule\n")
        self.assertEqual((plain.clock, plain.ports[0]), ("ck", ("input", "clk", 1)))

    def test_what_the_subset_has_not(self) -> None:
        refused = {
            "the port y goes both ways, which the subset has not": "inout y, output z);\n  assign z = a & y;",
            "the port y has 65 bits; a word of the subset has at most 64": "output [64:0] y);\n  assign y = 65'd1;",
            "the port .* is not a simple identifier": "output \\y+ );\n  assign \\y+ = a;",
        }
        for message, rest in refused.items():
            with self.subTest(message=message), self.assertRaisesRegex(ToolError, message):
                plain_of(f"module m(input a, {rest}\nendmodule\n")
