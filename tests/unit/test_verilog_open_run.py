"""The plain model of `check`: expressions and statements of which some numbers are open, and what it says at last."""
from __future__ import annotations

import itertools
import pathlib
import tempfile
import unittest
from typing import Mapping, Optional

from tests.unit.controllers import MARCH, MEMORY, SMALL, changed
from vidlakost_tools.program import ROOT
from vidlakost_tools.text import lines_of, read_text
from vidlakost_tools.texts.march import elements_of
from vidlakost_tools.texts.memory import parse_memory
from vidlakost_tools.tool import ToolError
from vidlakost_tools.verilog import open_run
from vidlakost_tools.verilog.syntax import Reader, Unread

EXAMPLES = ROOT / "examples"
# a number, or None where it is open
Open = Optional[int]
HEAD = "module m(input clk, input [3:0] a, input [3:0] b, input c, output [3:0] y, output reg [3:0] q);\n"


def run_of(body: str) -> open_run.Run:
    module, run = Reader(f"{HEAD}{body}\nendmodule\n").module(), open_run.Run()
    for declared in module.ports:
        run.declare(declared)
    for item in module.items:
        run.take(item)
    return run


def value_of(expression: str, **inputs: Open) -> Open:
    """An expression for some inputs; what is not told is open."""
    (env,) = open_run.clocked(run_of(f"assign y = {expression};"), {"q": None}, [inputs])
    return env["y"]


def set_by(body: str, first: Open, **inputs: Open) -> Open:
    """What the register q is behind an edge, from what it was."""
    run = run_of(f"assign y = 4'h0;\nalways @(posedge clk) {body}")
    return list(open_run.clocked(run, {"q": first}, [inputs, inputs]))[1]["q"]


class Expressions(unittest.TestCase):
    def test_operators_on_numbers(self) -> None:
        """With a at 1100 and b at 0101."""
        values = {
            "a + b": 0b0001,
            "b - a": 0b1001,
            "a & b": 0b0100,
            "a | b": 0b1101,
            "a ^ b": 0b1001,
            "~a": 0b0011,
            "!a": 0,
            "!(a & 4'h3)": 1,
            "&a": 0,
            "&(a | 4'h3)": 1,
            "|a": 1,
            "^a": 0,
            "^(a & 4'h4)": 1,
            "a << b[1:0]": 0b1000,
            "a >> 3'h3": 1,
            "a << 3'h4": 0,
            "a >> 3'h4": 0,
            "a == b": 0,
            "a != b": 1,
            "b < a": 1,
            "a <= a": 1,
            "a > b": 1,
            "b >= a": 0,
            "a && b": 1,
            "a && 4'h0": 0,
            "4'h0 || b": 1,
            "c ? a : b": 0b0101,
            "{a[3:2], b[1:0]}": 0b1101,
            "a[2]": 1,
        }
        for expression, value in values.items():
            with self.subTest(expression=expression):
                self.assertEqual(value_of(expression, a=0b1100, b=0b0101, c=0), value)

    def test_operand_that_decides_alone(self) -> None:
        """With b open: 0 decides `&` and `&&`, all ones `|`, and another number than 0 `||`."""
        rows: dict[str, Open] = {
            "4'h0 & b": 0,
            "b & 4'h0": 0,
            "4'h1 & b": None,
            "4'hf | b": 15,
            "b | 4'hf": 15,
            "4'h7 | b": None,
            "4'h0 && b": 0,
            "4'h2 && b": None,
            "b || 4'h2": 1,
            "4'h0 || b": None,
            "4'h0 + b": None,
            "b == b": None,
            "~b": None,
            "{2'h0, b[1:0]}": None,
        }
        for expression, value in rows.items():
            with self.subTest(expression=expression):
                self.assertEqual(value_of(expression), value)

    def test_open_choice(self) -> None:
        self.assertEqual(value_of("c ? a : b", a=3, b=3), 3)
        self.assertIsNone(value_of("c ? a : b", a=3, b=4))
        self.assertIsNone(value_of("c ? a : b", a=3))
        self.assertEqual(value_of("c ? a : b", a=3, c=1), 3)
        self.assertIsNone(value_of("c ? a : b", a=3, c=0))


class Statements(unittest.TestCase):
    def test_last_of_two_sets_wins(self) -> None:
        self.assertEqual(set_by("begin q <= 4'h1; q <= 4'h2; end", 0), 2)
        self.assertEqual(set_by("begin end", 7), 7)

    def test_condition(self) -> None:
        body = "if (c) q <= 4'h1; else if (a == 4'h0) q <= 4'h2;"
        self.assertEqual(set_by(body, 9, c=1), 1)
        self.assertEqual(set_by(body, 9, c=0, a=0), 2)
        self.assertEqual(set_by(body, 9, c=0, a=1), 9)

    def test_open_condition_leaves_open_what_it_may_set(self) -> None:
        """Also where both ways would set the same."""
        self.assertIsNone(set_by("if (c) q <= 4'h1;", 1))
        self.assertIsNone(set_by("if (c) q <= 4'h1; else q <= 4'h1;", 1))
        self.assertEqual(set_by("begin if (c) q <= 4'h1; q <= 4'h3; end", 1), 3)

    def test_case(self) -> None:
        body = "case (a) 4'h0, 4'h1: q <= 4'h5; 4'h2: begin end default: q <= 4'h6; endcase"
        rows: dict[Open, Open] = {0: 5, 1: 5, 2: 9, 3: 6, None: None}
        for subject, value in rows.items():
            self.assertEqual(set_by(body, 9, a=subject), value, subject)
        self.assertEqual(set_by("case (a) 4'h0: q <= 4'h5; endcase", 9, a=1), 9)

    def test_first_arm_with_the_label_is_taken(self) -> None:
        self.assertEqual(set_by("case (a) 4'h0: q <= 4'h1; 4'h0: q <= 4'h2; endcase", 9, a=0), 1)


class Modules(unittest.TestCase):
    def read(self, text: str) -> open_run.Run:
        with tempfile.TemporaryDirectory() as name:
            file = pathlib.Path(name) / "m.v"
            file.write_text(text)
            return open_run.read_module(file)

    def line(self, text: str) -> str:
        return open_run.line_of(self.read(text), MARCH, MEMORY)

    def test_small_controllers(self) -> None:
        rows: Mapping[str, tuple[str, str]] = {
            "conforms 7": ("", ""),
            "differs cycle 1 port we expected 1 got 0": ("we = step", "we = !reset && step > 3'd6 && step"),
            "differs cycle 2 port addr expected 1 got 0": ("!step[0]", "1'b0"),
            "differs cycle 1 port wdata expected 0 got 2": ("wdata = 2'd0", "wdata = 2'd2"),
            "differs cycle 5 port en expected 0 got 1": ("step <= 3'd4", "step <= 3'd5"),
            "differs cycle 6 port done expected 1 got 0": ("step == 3'd6;", "step == 3'd7;"),
            "unknown cycle 0 port en": ("en = !reset && step", "en = step"),
            "unknown cycle 5 port done": ("step == 3'd6;", "(step == 3'd6 || bad);"),
        }
        for line, change in rows.items():
            with self.subTest(line=line):
                self.assertEqual(self.line(changed(change) if change[0] else SMALL), line)

    def test_examples(self) -> None:
        """What `check` says of controllers that were written by hand was worked out by hand too."""
        rows = [line for line in lines_of(read_text(EXAMPLES / "foreign" / "answers")) if not line.startswith("#")]
        self.assertGreater(len(rows), 10)
        for row in rows:
            module, march, memory, line = row.split(maxsplit=3)
            with self.subTest(module=module):
                self.assertEqual(open_run.told(EXAMPLES / module, EXAMPLES / march, EXAMPLES / memory), line)

    def test_modules_that_are_not_run(self) -> None:
        with self.assertRaisesRegex(ToolError, r"m\.v:8: this is not a module of the subset: 'stp' is not declared"):
            self.read(changed(("assign we = step", "assign we = stp")))
        with self.assertRaisesRegex(ToolError, "m.v has no port 'wdata'"):
            self.read(SMALL.replace("wdata", "wdat"))
        with self.assertRaises(Unread):
            run_of("assign y = nobody;")

    def test_loop_of_wires(self) -> None:
        with self.assertRaisesRegex(ToolError, "stands in a loop of wires"):
            list(open_run.clocked(run_of("wire v;\nassign v = y[0];\nassign y = {v, a[2:0]};"), {"q": 0}, [{}]))

    def test_wires_in_any_order(self) -> None:
        self.assertEqual(open_run.order_of(run_of("wire v;\nassign y = {v, a[2:0]};\nassign v = c;")), ["v", "y"])


class Commands(unittest.TestCase):
    def test_march_on_a_memory(self) -> None:
        """Two words of two bits; bit 0 is stored inverted, an address is not its index, a pause has two cycles."""
        text = "memory 2\nname m\nwords 2\nbits 2\npolarity 1\npause 2\nscramble a0 = p0 ^ 1\nbackgrounds 0 2\n"
        march = elements_of("{any(w0);del;down(r0,w1)}")
        first = [(True, 1, 1), (True, 0, 1), None, None, (False, 0, 1), (True, 0, 2), (False, 1, 1), (True, 1, 2)]
        second = [(True, 1, 3), (True, 0, 3), None, None, (False, 0, 3), (True, 0, 0), (False, 1, 3), (True, 1, 0)]
        self.assertEqual(list(open_run.commands_of(march, parse_memory(text))), first + second)

    def test_ports_that_are_compared(self) -> None:
        self.assertEqual(open_run.compared(None, True), [("en", 0), ("done", 1)])
        read = [("en", 1), ("we", 0), ("addr", 3), ("done", 0)]
        self.assertEqual(open_run.compared((False, 3, 9), False), read)
        write = [("en", 1), ("we", 1), ("addr", 3), ("wdata", 9), ("done", 0)]
        self.assertEqual(open_run.compared((True, 3, 9), False), write)

    def test_reset_is_1_in_the_first_cycle_alone(self) -> None:
        run = open_run.Run()
        for declared in Reader("module m(input reset, input a);\nendmodule\n").module().ports:
            run.declare(declared)
        cycles = itertools.islice(open_run.cycles_of(run), 3)
        self.assertEqual([(env["reset"], env["a"]) for env in cycles], [(1, None), (0, None), (0, None)])
