"""What is read of sources and what is refused in them, with the place; files that they name; the cells of netlists."""
from __future__ import annotations

import os
import pathlib
import re
import tempfile
import unittest
from typing import Any
from unittest import mock

from tests.unit.controllers import SMALL, changed, checked, needs, plain_of
from vidlakost_tools.tool import ToolError
from vidlakost_tools.verilog import known_cells, source_texts, yosys

LIBRARY = """library (cells) {
  cell (NAND2) {
    area : 1;
    pin (A) { direction : input; }
    pin (B) { direction : input; }
    pin (Y) { direction : output; function : "!(A&B)"; }
  }
}
"""


class Folders(unittest.TestCase):
    def setUp(self) -> None:
        folder = tempfile.TemporaryDirectory()
        self.addCleanup(folder.cleanup)
        self.folder = pathlib.Path(folder.name)

    def file(self, name: str, text: str) -> str:
        path = self.folder / name
        path.parent.mkdir(exist_ok=True)
        path.write_text(text)
        return str(path)


@needs("yosys")
class Refused(unittest.TestCase):
    def refused(self, message: str, text: str, options: dict[str, Any] | None = None, beside: str = "") -> None:
        with self.subTest(message=message), self.assertRaisesRegex(ToolError, message):
            plain_of(text, options, None, **({"sv": beside} if beside else {}))

    def test_parts_that_are_missing_or_stand_twice(self) -> None:
        top = "module top(input a, output y);\n  lost u(.a(a), .y(y));\nendmodule\n"
        lost = "module lost(input a, output y);\n  assign y = a;\nendmodule\n"
        missing = "^top has a part lost, which is not a module of the files"
        self.refused(f"{missing}$", top)
        self.refused(f"{missing}, and none of the cells that are known: SB_LUT4, ", top, {"--cells": "ice40"})
        self.refused("^lost is defined twice, in the files or in the libraries$", top + lost, beside=lost)

    def test_call_for_simulations(self) -> None:
        text = "module m(output [63:0] y);\n  assign y = $time;\nendmodule\n"
        self.refused(r"(\$time|0\.v:2)", text)

    def test_name_of_a_cell_of_yosys(self) -> None:
        top = "module top(input a, input b, output y);\n  assign y = a & b;\nendmodule\n"
        taken = "module \\$and (input A, input B, output Y);\n  assign Y = A | B;\nendmodule\n"
        self.refused(
            r"^'.*0\.v':4: '\$and': a module has a name that begins with \$, as Yosys' own cells have", top + taken
        )

    def test_two_drivers(self) -> None:
        head = "module m(input a, input b, output y);\n"
        self.refused(
            r"^y \(.*0\.v:1\.\S*\) has two drivers$", f"{head}  assign y = 1'b0;\n  assign y = 1'b1;\nendmodule\n"
        )
        two = r"^y \(0\.v:2 and 0\.v:3\): it has two drivers; only one may$"
        self.refused(two, f"{head}  assign y = ~a;\n  assign y = ~b;\nendmodule\n")

    def test_cells_outside_of_the_subset(self) -> None:
        head = "module m(input a, input b, output reg y);\n"
        latch = f"{head}  always @* if (a) y = b;\nendmodule\n"
        self.refused(r"^y, 0\.v:2: a latch is outside the subset; set the signal in every branch", latch)
        block = "  always @(posedge clk or posedge a) if (a) y <= b; else y <= ~y;\n"
        loads = f"module m(input clk, input a, input b, output reg y);\n{block}"
        self.refused(
            r"^y, 0\.v:2: an asynchronous load is outside the subset; let the asynchronous reset load",
            f"{loads}endmodule\n",
        )
        three = "module m(input a, input b, output y);\n  \\$_TBUF_ u(.E(a), .A(b), .Y(y));\nendmodule\n"
        self.refused(r"^y, 0\.v:2: a tri-state driver is outside the subset; a multiplexer says", three)

    def test_latch_that_nothing_reads_is_none(self) -> None:
        body = "  reg kept;\n  always @* if (a) kept = b;\n  assign y = a;\n"
        plain = plain_of(f"module m(input a, input b, output y);\n{body}endmodule\n")
        self.assertEqual([output.value for output in plain.outputs], ["a"])

    def test_top_that_is_meant(self) -> None:
        two = "".join(
            f"module {name}(input a, output y);\n  assign y = {value};\nendmodule\n"
            for name, value in (("one", "a"), ("two", "~a"))
        )
        self.refused("may not be the top that you mean, since '(one|two)' has its ports too: name it with --top$", two)
        self.assertEqual([plain_of(two, {"--top": name}).top for name in ("one", "two")], ["one", "two"])
        empty = "^all modules of the sources are empty, so none is the top; name one with --top$"
        self.refused(empty, "module one;\nendmodule\n")

    def test_source_without_a_module(self) -> None:
        for text in ("", "// module m; endmodule\n", "`define WIDTH 4\n"):
            self.refused("^the sources have no module$", text)

    def test_source_that_is_no_verilog(self) -> None:
        self.refused(
            r"^yosys refuses it: .*0\.v:2: ERROR: syntax error", "module m(input a);\n  nothing at all\nendmodule\n"
        )


@needs("yosys")
class Taken(Folders):
    def test_initial_values_are_left_out(self) -> None:
        """The controller is still right from its reset on, and what is open at first is not known before."""
        text = changed(("  reg bad;\n", "  reg bad = 1'b0;\n  initial step = 3'd0;\n"))
        plain = plain_of(text)
        self.assertEqual(checked(plain), "conforms 7")
        (warning,) = plain.warnings
        self.assertRegex(warning, r"^initial values are ignored \('.*0\.v':7\)$")

    def test_contents_of_a_memory_that_is_only_read_stay(self) -> None:
        """A table that says what the word is; the one that is written too holds nothing at first."""
        table = "  reg [1:0] table_of [0:1];\n  initial begin table_of[0] = 2'd0; table_of[1] = 2'd0; end\n"
        reads = ("assign wdata = 2'd0", "assign wdata = table_of[addr]")
        kept = changed(("  reg bad;\n", f"  reg bad;\n{table}"), reads)
        self.assertEqual(checked(plain_of(kept)), "conforms 7")
        writes = "  always @(posedge clk) if (rdata[0]) table_of[rdata[1]] <= rdata;\nendmodule"
        told = checked(plain_of(changed(("endmodule", writes), text=kept)))
        self.assertEqual(told, "unknown cycle 1 port wdata")

    def test_netlist_of_a_library_s_cells(self) -> None:
        library = self.file("cells.lib", LIBRARY)
        text = "module m(input a, input b, output y);\n  NAND2 u(.A(a), .B(b), .Y(y));\nendmodule\n"
        plain = plain_of(text, {"--liberty": [library]})
        values = [wire.value for wire in [*plain.wires, *plain.outputs]]
        self.assertTrue(any("&" in value for value in values) and any("~" in value for value in values), values)
        with self.assertRaisesRegex(ToolError, "and no cell with a function for each output in the libraries$"):
            plain_of(text.replace("NAND2", "NAND3"), {"--liberty": [library], "--top": "m"})

    def test_gates_are_counted(self) -> None:
        two = self.file("a.v", "module m(input a, input b, input c, output y);\n  assign y = (a & b) | c;\nendmodule\n")
        self.assertEqual(yosys.gates_of(pathlib.Path(two), "AND,OR"), yosys.Gates(2, 0, 2))
        flop = self.file(
            "b.v", "module m(input clk, input a, output reg y);\n  always @(posedge clk) y <= ~a;\nendmodule\n"
        )
        found = yosys.gates_of(pathlib.Path(flop), "AND")
        self.assertEqual((found.flip_flops, found.cells), (1, 2))
        with self.assertRaisesRegex(ToolError, "^yosys fails: "):
            yosys.gates_of(pathlib.Path(self.file("c.v", "module m(")), "AND")


class Scripts(Folders):
    def test_names_that_a_script_carries(self) -> None:
        self.assertEqual(yosys.quoted("a b/c-1.v"), '"a b/c-1.v"')
        self.assertEqual(yosys.quoted("-x.v"), '"./-x.v"')
        for name in ('a";b.v', "a\nb.v", "a*.v", "$a.v"):
            with self.assertRaisesRegex(ToolError, "a name for Yosys may have letters, digits, blanks"):
                yosys.quoted(name)

    def test_top_and_libraries(self) -> None:
        self.assertEqual((yosys.top_of({}), yosys.top_of({"--top": "m_1"})), ("-auto-top", "-top m_1"))
        with self.assertRaises(ToolError):
            yosys.top_of({"--top": "m; shell rm"})
        library = self.file("a.lib", LIBRARY)
        self.assertEqual(yosys.libraries_of({"--liberty": [library]}), f'read_liberty -ignore_miss_func "{library}"\n')
        with self.assertRaises(FileNotFoundError):
            yosys.sources_of([str(self.folder / "missing.v")])

    def test_yosys_is_needed(self) -> None:
        with mock.patch("shutil.which", return_value=None), self.assertRaisesRegex(
            ToolError, "^yosys is not on the PATH$"
        ):
            yosys.want()

    def test_step_of_a_run(self) -> None:
        log = self.folder / "log"
        self.assertEqual(yosys.how_far(log), "")
        log.write_text(f"1. Executing PROC pass.\n2. Parsing `{self.folder}/a.v' using frontend.\nfoo\n")
        self.assertEqual(yosys.how_far(log), "Parsing `a.v' using frontend")

    @needs("yosys")
    def test_time_of_a_run_is_bounded(self) -> None:
        with self.assertRaisesRegex(yosys.Slow, "^Yosys took longer than 0.01 seconds"):
            yosys.run("tee -q log hash\n" * 2000, self.folder, seconds=0.01)

    def test_warnings_of_a_run(self) -> None:
        lines = [
            "Warning: one",
            "    more of it",
            "other",
            "Warning: Wire m.$auto is used",
            "    not told",
            "Warning: one",
        ]
        self.assertEqual(yosys.warnings_in(lines), ["Warning: one", "    more of it"])


class Files(Folders):
    def test_included_files_are_sources(self) -> None:
        inner = self.file("part.vh", "`define WIDTH 4\n")
        file = self.file("a.v", '`include "part.vh" // `include "no.vh"\n`include "missing.vh"\n')
        self.assertEqual([name for name, _ in source_texts.with_included([file])], [file, inner])
        self.assertEqual(source_texts.included([file]), [file, inner])
        with self.assertRaisesRegex(ToolError, "a.v': it includes '`NAME', which is not a name in quotes$"):
            source_texts.with_included([self.file("a.v", "`include `NAME\n")])

    def test_files_that_texts_name(self) -> None:
        data = self.file("words.hex", "0\n")
        vhdl = self.file("a.vhd", '-- nothing\nentity a is end; -- "words.hex"\n')
        verilog = self.file("b.v", 'initial $readmemh("words.hex", kept); // "nowhere.hex"\n')
        self.assertEqual(source_texts.included([verilog, vhdl]), [verilog, vhdl, data])

    def test_name_of_what_never_ends(self) -> None:
        os.mkfifo(self.folder / "pipe")
        file = self.file("a.v", 'initial $readmemh("pipe", kept);\n')
        with self.assertRaisesRegex(ToolError, "it names '.*pipe', which is not a plain file and may never end$"):
            source_texts.asked([file])

    def test_source_that_is_read_as_for_synthesis(self) -> None:
        file = self.file("a.v", "wire a;\n`ifdef SYNTHESIS\n`endif // YOSYS\n")
        told = f"'{file}':2: it is read as with SYNTHESIS; a simulator may read something else"
        self.assertEqual(source_texts.asked([file]), [told])

    def test_file_that_may_be_read_is_not_written(self) -> None:
        """A source that puts the name of a memory's file together may mean any file that is there."""
        put_together = self.file("a.v", 'module m;\n  initial $readmemh({NAME, ".vcd"}, kept);\nendmodule\n')
        quoted = self.file("b.v", 'initial $readmemh("words.hex", kept);\n')
        out = self.file("run.vcd", "0\n")
        with self.assertRaises(ToolError) as caught:
            source_texts.refuse_untold(out, [quoted, put_together], "$")
        why = f"what it reads has no name in quotes, and may be '{out}': take that away, or write another"
        self.assertEqual(str(caught.exception), f"'{put_together}':2: {why}")
        for name in (
            None,
            str(self.folder / "new.vcd"),
            self.file("own.vcd", "$timescale"),
            self.file("empty.vcd", ""),
        ):
            source_texts.refuse_untold(name, [put_together], "$")
        source_texts.refuse_untold(out, [quoted], "$")

    def test_files_that_yosys_opened(self) -> None:
        (self.folder / source_texts.OPENED).write_text("a.il b.json: one.v two\\ words.v\n")
        self.assertEqual(source_texts.opened(self.folder), ["one.v", "two words.v"])


class Members(Folders):
    """A part of a structure's member whose place is no number is read otherwise by Yosys."""

    TEXT = """typedef struct packed {{ logic [3:0] a; }} t;
module m(input [1:0] i, output y);
  t s;
  assign y = {};
endmodule
"""

    def test_source_without_structures_stays(self) -> None:
        file = self.file("a.v", SMALL)
        self.assertEqual(source_texts.with_members([file], self.folder), ([file], []))

    def test_copy_says_it_as_yosys_reads_it(self) -> None:
        file = self.file("a.sv", self.TEXT.format("s.a[i]"))
        (copy,), (told,) = source_texts.with_members([file], self.folder)
        self.assertNotEqual(copy, file)
        self.assertNotIn("s.a[i]", pathlib.Path(copy).read_text())
        self.assertIn("a.sv':4", told)

    def test_copy_of_what_is_included_is_none(self) -> None:
        self.file("part.svh", self.TEXT.format("s.a[i]"))
        file = self.file("a.sv", '`include "part.svh"\n')
        with self.assertRaisesRegex(ToolError, r"part\.svh':4: "):
            source_texts.with_members([file], self.folder)


class Cells(Folders):
    MODELS = """`timescale 1ns/1ns
`define SB_DFF_INIT initial Q = 0;
`define DELAY(t) #t
`ifdef ICE40_U
module SB_LUT4 (output O); this is not taken endmodule
`else
module SB_LUT4 (output O, input I0);
  assign O = I0;
endmodule
`endif
module SB_DFF (output reg Q, input C, D);
  `SB_DFF_INIT
`ifndef NEVER
  always @(posedge C) Q <= `DELAY(5) D;
`elsif OTHER
  nothing
`endif
endmodule
"""

    def test_models_without_times_and_first_values(self) -> None:
        models = known_cells.models(self.MODELS)
        self.assertEqual(sorted(models), ["SB_DFF", "SB_LUT4"])
        self.assertIn("assign O = I0;", models["SB_LUT4"])
        self.assertIn("always @(posedge C) Q <= #5 D;", models["SB_DFF"])
        self.assertNotIn("initial", models["SB_DFF"])
        with self.assertRaisesRegex(ToolError, "^the models of Yosys:1: `endif without a begin$"):
            known_cells.models("`endif\n")

    def cells_of(self, texts: list[str], models: str = MODELS) -> str:
        self.file("ice40/cells_sim.v", models)
        with mock.patch.object(known_cells, "share", return_value=self.folder):
            return known_cells.cells_of({"--cells": "ice40"}, texts)

    def test_cells_that_a_netlist_names(self) -> None:
        found = self.cells_of(["SB_DFF u(.Q(q)); SB_RAM40 ram();"])
        self.assertTrue(found.startswith("module SB_DFF ") and "SB_LUT4" not in found, found)
        # what a netlist has itself is its own
        self.assertEqual(self.cells_of(["SB_DFF u(.Q(q));", "module SB_DFF(input C);\nendmodule\n"]), "\n")

    def test_families_and_models_that_are_not_there(self) -> None:
        self.assertEqual(known_cells.cells_of({}, ["SB_DFF"]), "")
        with self.assertRaisesRegex(ToolError, "^--cells knows ice40, of it SB_LUT4"):
            known_cells.cells_of({"--cells": "xilinx"}, [])
        with self.assertRaisesRegex(ToolError, "^the models of this Yosys have no SB_CARRY that can be read$"):
            self.cells_of(["SB_CARRY u();"])
        with self.assertRaisesRegex(ToolError, "^the models of this Yosys have no SB_LUT4 that can be read$"):
            self.cells_of(["SB_LUT4 u();"], "module SB_LUT4 (output O);\n  `UNKNOWN_MACRO\nendmodule\n")
        (self.folder / "ice40" / "cells_sim.v").unlink()
        with mock.patch.object(known_cells, "share", return_value=self.folder):
            with self.assertRaisesRegex(ToolError, "^this Yosys has no models of ice40's cells$"):
                known_cells.cells_of({"--cells": "ice40"}, ["SB_DFF"])
        with mock.patch("shutil.which", return_value=str(self.folder / "bin" / "yosys")):
            with self.assertRaisesRegex(ToolError, "^Yosys' share folder was not found beside its program$"):
                known_cells.share()

    def test_cells_of_which_cells_are_made(self) -> None:
        """A carry of ECP5 is made of tables, which the netlist need not name; times and first values are left out."""
        models = (
            "module LUT4(input A, output Z);\n  specify\n    (A => Z) = 1;\n  endspecify\nendmodule\n"
            "module INV(input A, output Z);\nendmodule\n"
            "module CCU2C(input A, output reg S);\n  initial S = 1;\n  LUT4 #(.INIT(1)) low(.A(A), .Z(S));\nendmodule\n"
        )
        self.file("ecp5/cells_sim.v", models)
        with mock.patch.object(known_cells, "share", return_value=self.folder):
            found = known_cells.cells_of({"--cells": "ecp5"}, ["CCU2C u(.A(a), .S(s));"])
        self.assertEqual(sorted(re.findall(r"module (\w+)", found)), ["CCU2C", "LUT4"])
        self.assertNotRegex(found, "specify|initial")

    @needs("yosys")
    def test_netlist_of_known_cells(self) -> None:
        """The comparison and its register of the small controller as a table and a flip-flop."""
        pins = ".O(more), .I0(bad), .I1(wrong), .I2(1'b0), .I3(reset)"
        cells = f"  wire more;\n  SB_LUT4 #(.LUT_INIT(16'h00fe)) or_of({pins});\n"
        cells += "  SB_DFF kept(.Q(bad), .C(clk), .D(more));\n"
        compares = "  wire wrong = (step == 3'd4 || step == 3'd5) && rdata != 2'd0;\n"
        text = changed(
            ("  reg bad;\n", f"  wire bad;\n{compares}{cells}"),
            ("      bad <= 1'b0;\n", ""),
            ("      if ((step == 3'd4 || step == 3'd5) && rdata != 2'd0) bad <= 1'b1;\n", ""),
        )
        plain = plain_of(text, {"--cells": "ice40"})
        self.assertEqual((checked(plain), len(plain.registers)), ("conforms 7", 2))
