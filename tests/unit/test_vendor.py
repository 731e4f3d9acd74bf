"""Models of macros beside the pins that are told of them: `python3 -m unittest discover -s tests/unit -t .`."""
from __future__ import annotations

import pathlib
import tempfile
import unittest

from vidlakost_tools.collar.pin_lines import read_macro
from vidlakost_tools.collar.pins import Word
from vidlakost_tools.collar.untested import beyond, told_pins
from vidlakost_tools.collar.vendor import files_beside, files_of, refuse_other_ports, undriven
from vidlakost_tools.texts.memory import parse_memory
from vidlakost_tools.tool import ToolError

MEMORY = "memory 1\nname s\nwords {words}\nbits {bits}\n"
PINS = "macro ram\nparameter TWICE 8\nclk ck\nen ~ce\nwe ~wen\naddr a\nwdata d\nrdata q\ntie t 2'h0\nopen o\nout p 3\n"
HEADS = {
    "ansi": (
        "module ram(input ck, ce, wen, input [{a}-1:0] a, input [{d}-1:0] d, output [{q}-1:0] q, input [1:0] t, output"
        " o, output [2:0] p);"
    ),
    "older": (
        "module ram(ck, ce, wen, a, d, q, t, o, p);\n  input ck, ce, wen; input [{a}-1:0] a; input [{d}-1:0] d;\n"
        "  output [{q}-1:0] q; input [1:0] t; output o; output [2:0] p;"
    ),
    "parameters": (
        "module ram #(parameter A = {a}, parameter D = {d} - 1)(input ck, ce, wen, input [A-1:0] a, input [D:0] d, "
        "output [{q}-1:0] q, input [1:0] t, output o, output [2:0] p);"
    ),
}


class Widths(unittest.TestCase):
    def refusal(self, head: str, words: int = 8, bits: int = 4, pins: str = PINS) -> str:
        """Why a model is refused; nothing where it is taken."""
        with tempfile.TemporaryDirectory() as name:
            folder = pathlib.Path(name)
            (folder / "ram.v").write_text(f"{head}\nendmodule\n")
            (folder / "ram.pins").write_text(pins)
            word = Word([parse_memory(MEMORY.format(words=words, bits=bits))])
            try:
                refuse_other_ports(read_macro(str(folder / "ram.pins"), word), str(folder / "ram.v"))
            except ToolError as error:
                return str(error).replace(f"{folder}/", "")
        return ""

    def test_a_model_of_its_size_is_taken(self) -> None:
        for style, head in HEADS.items():
            self.assertEqual(self.refusal(head.format(a=3, d=4, q=4)), "", style)

    def test_a_model_of_another_size_is_not(self) -> None:
        for style, head in HEADS.items():
            for a, d, q in ((4, 4, 4), (2, 4, 4), (3, 8, 8), (3, 4, 8), (3, 8, 4), (4, 8, 8)):
                self.assertIn(
                    "by the pins and the description", self.refusal(head.format(a=a, d=d, q=q)), (style, a, d, q)
                )

    def test_the_place_and_both_widths_are_told(self) -> None:
        told = self.refusal(HEADS["ansi"].format(a=4, d=4, q=4))
        self.assertEqual(told, "ram.pins:6: a has 4 bits in ram.v, and 3 by the pins and the description")

    def test_further_pins_are_compared(self) -> None:
        head = HEADS["ansi"].format(a=3, d=4, q=4)
        self.assertIn("t has 3 bits", self.refusal(head.replace("[1:0] t", "[2:0] t")))
        self.assertIn("p has 1 bits", self.refusal(head.replace("[2:0] p", "p")))
        self.assertIn("ce is an output", self.refusal(head.replace("input ck, ce", "input ck, output ce, input z")))

    def test_a_parameter_of_the_pins_is_the_models(self) -> None:
        head = (
            "module ram #(parameter TWICE = 4)(input ck, ce, wen, input [2:0] a, input [TWICE/2-1:0] d, output"
            " [3:0] q);"
        )
        self.assertEqual(self.refusal(head), "")
        self.assertIn("d has 2 bits", self.refusal(head, pins=PINS.replace("parameter TWICE 8\n", "")))

    def test_a_branch_that_is_not_taken(self) -> None:
        """A model of both sizes is that of the branch that is taken, with one define or with none."""
        wide, right = HEADS["ansi"].format(a=9, d=9, q=9), HEADS["ansi"].format(a=3, d=4, q=4)
        for head in ("`ifdef WIDE", "`ifdef OTHER", "`ifndef WIDE"):
            self.assertEqual(self.refusal(f"{head}\n{wide}\n`else\n{right}\n`endif"), "", head)
        twice = f"`ifndef P `ifdef Q\n{wide}\n`else\n{wide.replace('8', '7')}\n`endif\n`else\n{wide}\n`endif"
        self.assertIn("a has 9 bits", self.refusal(twice))

    def test_what_a_define_brings(self) -> None:
        right, file = HEADS["ansi"].format(a=3, d=4, q=4), "ram.v"
        for text, told in (
            (f"`ifdef WIDE\n{right} endmodule\n`endif\n", "has the ports of ram.pins where WIDE is defined: tell"),
            (f"`ifdef P\n`ifdef Q\n{right} endmodule\n`endif\n`endif\n", "several defines bring them into ram.v"),
            (right.replace("input [1:0] t,", "input [1:0] t, input x,") + " endmodule", "nothing drives x of ram"),
        ):
            with tempfile.TemporaryDirectory() as name, self.subTest(told=told):
                (pathlib.Path(name) / file).write_text(text)
                (pathlib.Path(name) / "ram.pins").write_text(PINS)
                word = Word([parse_memory(MEMORY.format(words=8, bits=4))])
                macro = read_macro(f"{name}/ram.pins", word)
                refuse_other_ports(macro, f"{name}/{file}")
                self.assertIn(told, undriven(macro, f"{name}/{file}")[0].replace(f"{name}/", ""))


class WordsOfAModel(unittest.TestCase):
    """Which words of a macro the test leaves out, where 40 are described and the model has an array."""

    def told(self, array: str) -> str:
        with tempfile.TemporaryDirectory() as name:
            file, pins = pathlib.Path(name) / "ram.v", pathlib.Path(name) / "ram.pins"
            head = HEADS["parameters"].format(a=6, d=4, q=4).replace("#(", "#(parameter DEPTH = 1 << 6, ")
            file.write_text(f"{head}\n  reg [D:0] last, spare;\n  {array}\nendmodule\n")
            pins.write_text(PINS)
            word = Word([parse_memory(MEMORY.format(words=40, bits=4))])
            return told_pins(beyond(read_macro(str(pins), word), word, str(file))).replace(f"{name}/", "")

    def test_as_many_words_as_are_described(self) -> None:
        for array in ("reg [3:0] words [0:39];", "reg [D:0] words [39:0];", "logic [3:0] words [40];"):
            self.assertEqual(self.told(array), "", array)
        self.assertEqual(self.told("localparam N = 40; reg [3:0] words [0:N-1];"), "")

    def test_more_words(self) -> None:
        for array in ("reg [3:0] words [0:63];", "reg [3:0] words [DEPTH-1:0];", "reg [3:0] words [0:(1<<A)-1];"):
            self.assertEqual(self.told(array), "a: from 40 to 63, words that the macro has in ram.v", array)
        self.assertEqual(self.told("reg [3:0] words [0:47];"), "a: from 40 to 47, words that the macro has in ram.v")

    def test_what_no_array_tells(self) -> None:
        """Words of another width, arrays of which each is a part, a depth that no number tells, or no array."""
        two = "reg [3:0] low [0:31]; reg [3:0] high [0:31];"
        for array in ("reg [7:0] words [0:39];", two, "reg [3:0] words [0:$clog2(9)];", "core u(a, d, q);", "reg"):
            self.assertEqual(self.told(array), "a: from 40 to 63, if the macro has these words", array)


class Files(unittest.TestCase):
    """Which files of --model stand beside a macro."""

    def beside(self, macro: str, **texts: str) -> str:
        with tempfile.TemporaryDirectory() as name:
            for file, text in texts.items():
                (pathlib.Path(name) / file).write_text(text)
            vendors = files_of([f"{name}/{file}" for file in texts])
            return " ".join(pathlib.PurePath(file).name for file in files_beside(macro, vendors, ("one", "two")))

    def test_what_a_macro_uses(self) -> None:
        texts = {
            "cells": "`define UNIT 1ns\n",
            "first": "module one; core u(); endmodule\n",
            "other": "module two; endmodule\n",
            "core": "module core; endmodule\n",
        }
        self.assertEqual(self.beside("one", **texts), "cells first core")
        self.assertEqual(self.beside("two", **texts), "cells other core")
        texts["core"] = "module core; two u(); endmodule\n"
        self.assertEqual(self.beside("one", **texts), "cells first other core")
        self.assertEqual(self.beside("three", **texts), "")

    def test_a_file_of_several_macros(self) -> None:
        texts = {"both": "module one; endmodule module two; endmodule\n", "more": "module more; endmodule\n"}
        self.assertEqual(self.beside("one", **texts), "both more")


if __name__ == "__main__":
    unittest.main()
