"""What is warned of beside an answer: what other tools read otherwise in a module or in a chip file."""
from __future__ import annotations

import pathlib
import tempfile
import unittest

from vidlakost_tools.refusals import otherwise

CHIP = "chip 1\nname {}\nbudget 3\nunit 1 c.m a.mem\nunit 2 c.m b.mem\n"
LAST = "  in such a tool this answer need not hold"


class Modules(unittest.TestCase):
    def test_each_place_is_told_in_the_order_of_the_text(self) -> None:
        text = b"// full_case\n// `x \x01\nmodule m(output y);\n  assign y = 1'd1?1'b0:1'b1;\x0c\nendmodule\n"
        places = [line.split(": ")[0] for line in otherwise.of_module("m.v", text)]
        self.assertEqual(places, ["m.v:1:4", "m.v:2:4", "m.v:2:7", "m.v:4:18", "m.v:4:29", LAST])

    def test_what_no_tool_reads_otherwise(self) -> None:
        text = b"// a comment\r\nmodule m(output y);\r\n  assign y = 1'b1;\t// 4'd1?\r\nendmodule\r\n"
        self.assertEqual(otherwise.of_module("m.v", text), [])

    def test_far_shift_of_a_choice_or_of_a_text_that_is_no_module(self) -> None:
        module = "module m(input [31:0] n, input c, output y);\n  assign y = (1'b1 << (c ? n : 32'd1));\nendmodule\n"
        self.assertEqual(otherwise.far_shift(module.encode()), module.index("<<"))
        self.assertIsNone(otherwise.far_shift(b"module m("))


class Chips(unittest.TestCase):
    def test_names_of_a_chip(self) -> None:
        reserved = "SystemVerilog reserves 'final': a tool that reads it refuses the chip's module"
        self.assertEqual(otherwise.of_chip("c", CHIP.format("final")), [f"c:2: warning: {reserved}"])
        for port in ("done", "rdata_1", "en_0"):
            taken = f"'{port}' is also a port of the chip's module, which some tools refuse"
            self.assertEqual(otherwise.of_chip("c", CHIP.format(port)), [f"c:2: warning: {taken}"])
        # there are two units, and so no port of a third
        for name in ("soc", "rdata_2", "addr"):
            self.assertEqual(otherwise.of_chip("c", CHIP.format(name)), [])


class Calls(unittest.TestCase):
    def test_calls_whose_inputs_are_looked_at(self) -> None:
        with tempfile.TemporaryDirectory() as name:
            module, chip = pathlib.Path(name) / "m.v", pathlib.Path(name) / "soc.chip"
            module.write_text("// full_case\nmodule m(output y);\n  assign y = 1'b1;\nendmodule\n")
            chip.write_text(CHIP.format("done"))
            for command in ("check", "benchfile"):
                self.assertEqual(len(otherwise.warnings_of([command, str(module), "c.m", "a.mem"])), 2)
            self.assertEqual(len(otherwise.warnings_of(["chip", str(chip), "out.v"])), 1)
            others: list[list[str]] = [
                [],
                ["chip", str(chip)],
                ["bench", str(module), "a.mem", "more"],
                ["check", str(module)],
            ]
            for words in others:
                self.assertEqual(otherwise.warnings_of(words), [])
