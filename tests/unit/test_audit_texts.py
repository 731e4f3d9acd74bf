"""What the judges say of texts, and the files that they write."""
from __future__ import annotations

import json
import pathlib
import tempfile
import unittest

from tests.unit.modules import cell, module
from vidlakost_tools.audit.random_comparison import agree
from vidlakost_tools.audit.waveform import code_of, shown, write_save
from vidlakost_tools.tool import ToolError
from vidlakost_tools.verilog import rtlil, source_texts, yosys
from vidlakost_tools.verilog.source_texts import blanked
from vidlakost_tools.verilog.vhdl import literal_of, placed, with_defaults


class Texts(unittest.TestCase):
    def test_default_of_a_case_comes_back(self) -> None:
        verilog = "case (s)\n  2'b10: y <= b;\n  2'b01: y <= a;\nendcase"
        vhdl = "with s select y <=\n  wrap_b when \"10\",\n  wrap_a when \"01\",\n  wrap_c when others;"
        self.assertIn("default: y <= c;", with_defaults(verilog, vhdl))
        self.assertNotIn("default", with_defaults(verilog, vhdl.replace("wrap_c", "f(c)")))

    def test_places_of_vhdl(self) -> None:
        made = "  wire bad;\n  reg n7_q;\n  wire n8_o;\n  assign bad = n7_q;\n"
        text = placed(
            made, {"a.vhd": "-- bad : no\nsignal go, Bad : std_logic;\n", "no name.vhd": "signal n8_o : bit;"}
        )
        self.assertIn('`line 2 "a.vhd" 0\n  reg n7_q;\n`line 3 "vhdl.v" 0\n  wire n8_o;', text)
        self.assertNotIn("no name", text)

    def test_what_is_in_comments_asks_nothing(self) -> None:
        for text in blanked('a /* YOSYS\n*/ b "YOSYS" c // YOSYS\nd'):
            self.assertEqual(text.split(), ["a", "b", "c", "d"])
        for text in blanked('`include "x.vh" // "y.vh"', but_texts=True):
            self.assertEqual(text.split(), ["`include", '"x.vh"'])

    def test_escaped_name_hides_nothing(self) -> None:
        for line in (
            "wire \\x// ; `ifdef YOSYS",
            'wire \\y" ; `ifdef YOSYS wire \\z" ;',
            "wire \\x/* ; `ifdef YOSYS /* */",
        ):
            self.assertTrue(any("`ifdef YOSYS" in text for text in blanked(line)), line)

    def test_source_that_means_something_else_to_yosys(self) -> None:
        typed = "typedef struct packed { logic [1:0] a; } t; t s;"
        with tempfile.TemporaryDirectory() as name:
            source = pathlib.Path(name) / "a.v"
            for text in (
                "(* \\wand *) wire a;",
                "(* a = (1), wor *) wire a;",
                "(* hierconn *) wire \\u.x ;",
                f"{typed} x = s.a[2];",
                f"{typed} x = |s.a[2:1];",
                "struct packed { logic [W-1:0] w; } s; x = s.w[1];",
                "struct packed { logic [3:1] w; } s; x = s.w[0];",
                f"{typed} logic [W:0] a; x = s.a[1]; // [9:0] a",
            ):
                source.write_text(text)
                with self.assertRaises(ToolError, msg=text):
                    source_texts.asked([str(source)])
            for text in (
                "always @(*) begin end wand w;",
                "(* keep *) wire wor_x;",
                f"{typed} sub u(.a(x[i])); x = s.a[1];",
                "a = u.b[i];",
                "struct packed { logic [W-1:0] w; } s; x = s.w[0];",
            ):
                source.write_text(text)
                self.assertEqual(source_texts.asked([str(source)]), [], text)

    def test_source_that_yosys_reads_otherwise(self) -> None:
        with tempfile.TemporaryDirectory() as name:
            source = pathlib.Path(name) / "a.v"
            source.write_bytes(b"`ifdef YO\rSYS\n`endif\n")
            with self.assertRaisesRegex(ToolError, "asks whether Yosys reads it"):
                source_texts.asked([str(source)])
            for content in (b"\x1f\x8bYOSYS", b"module a; endmodule \0 YOSYS"):
                source.write_bytes(content)
                with self.assertRaisesRegex(ToolError, "not a source"):
                    source_texts.asked([str(source)])

    def test_brace_in_a_name_hides_no_driver(self) -> None:
        wires = "module \\t\n  wire \\x}\n  attribute \\src \"a.v:3.1\"\n  wire width 2 \\y\n"
        for first in ("{ \\x} \\y } 3'110", "{ \\y \\x} } 3'110", "\\y [1] 1'1", "{ \\x} \\y [1:0] } 3'110"):
            for second in ("\\y 2'00", "{ \\y [1] \\x} [0] } 2'00"):
                told = rtlil.driven_twice(f"{wires}  connect {first}\n  connect {second}\nend\n") or ""
                self.assertIn(" has two drivers", told, (first, second))
        self.assertIsNone(
            rtlil.driven_twice(f"{wires}  connect {{ \\x}} \\y [0] }} 2'10\n  connect \\y [1] 1'0\nend\n")
        )

    def test_fraction_that_becomes_0_is_refused(self) -> None:
        said = "a.v:14: Warning: converting real value {} to binary {}."
        with self.assertRaisesRegex(ToolError, "^a.v:14: the number 4.0e-01 is not 0"):
            yosys.refuse_rounded(["a line", said.format("4.0e-01", "0")])
        yosys.refuse_rounded([said.format("1.5e+00", "10"), said.format("0.0e+00", "0")])

    def test_top_is_the_one_that_may_be_meant(self) -> None:
        ports = "  wire input 1 \\clk\n  wire width 2 output 2 \\q\n"
        one = f"module \\one\n{ports}  cell $array:0:2:\\sub \\u\n    connect \\a 1'0\n  end\nend\n"
        modules = f"{one}module \\sub\n  wire input 1 \\a\nend\nmodule \\helper\n  wire input 1 \\b\nend\n"
        yosys.refuse_other_top(modules, "one")
        for more, top, said in (
            (f"module \\two\n{ports}end\n", "one", "'two' has its ports too"),
            ("", "sub", "a part of another"),
        ):
            with self.assertRaisesRegex(ToolError, said):
                yosys.refuse_other_top(modules + more, top)

    def test_names_that_are_one_to_yosys(self) -> None:
        for text in (
            "wire \\$random = 0; x = $random;",
            "wire \\u.x = 0; sub u(.o(o)); y = u . x;",
            "wire \\g[0].x = 0; y = g[0].x;",
            "wire \\p::x = 0; y = p::x;",
        ):
            same = "'a.v':1: .* is, to Yosys alone, the same as the escaped name"
            with self.assertRaisesRegex(ToolError, same, msg=text):
                source_texts.refuse_one_name("a.v", text)
        for text in (
            "sub u(.a(b), .c(d)); wire \\u1.x ; x = 1.5;",
            'wire \\a.b ; \\$_AND_ u(.A(a)); $display("a.b"); // a.b',
            "y = u.x;",
        ):
            source_texts.refuse_one_name("a.v", text)

    def test_note_of_a_part_is_no_cell(self) -> None:
        cells = {"one": cell("$not", A=[2], Y=[3]), "part": cell("$scopeinfo")}
        with tempfile.TemporaryDirectory() as name:
            parts = pathlib.Path(name) / "parts.json"
            parts.write_text(json.dumps({"modules": {"t": {**module(cells), "attributes": {"top": "1"}}}}))
            self.assertEqual(list(yosys.top_module(parts)[1]["cells"]), ["one"])

    def test_judges_agree_where_both_judge(self) -> None:
        right, differs = (0, "formal: right: each port is right"), (1, "formal: wrong: differs in cycle 3")
        self.assertTrue(agree((0, "audit: right: conforms, fail is exact"), right))
        self.assertTrue(agree((1, "audit: unknown: fail is unknown in cycle 3"), right))
        self.assertFalse(agree((0, "audit: right: conforms, fail is exact"), differs))
        for nothing in ("audit: refused", "audit: refused: en is 1", "KeyError: 'Q'", ""):
            self.assertFalse(agree((1, nothing), differs))
        self.assertFalse(agree((1, "audit: wrong: differs cycle 1 port en"), (1, "formal: yosys refuses it")))

    def test_literals(self) -> None:
        found = [literal_of(text) for text in ('"010"', "'1'", "wrap_a", "n1_o", "a and b")]
        self.assertEqual(found, ["3'b010", "1'b1", "a", "n1_o", None])

    def test_save_file_of_somebody_stays(self) -> None:
        with tempfile.TemporaryDirectory() as name:
            save = pathlib.Path(name) / "run.gtkw"
            for cycle in (1, 2):
                self.assertTrue(write_save(save, f"[*] made by vidlakost audit\n*4.0 {cycle}\n"))
            save.write_text(save.read_text() + "ports.en\n")
            self.assertFalse(write_save(save, "[*] made by vidlakost audit\n*4.0 3\n"))
            self.assertIn("*4.0 2\nports.en\n", save.read_text())

    def test_waveform(self) -> None:
        self.assertEqual(shown([(1, 0), (0, 1), (0, 0)]), "x01")
        self.assertEqual(len({code_of(number) for number in range(20000)}), 20000)


if __name__ == "__main__":
    unittest.main()
