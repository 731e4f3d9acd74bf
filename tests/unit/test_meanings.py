"""Sources that can mean two things, by themselves: `python3 -m unittest discover -s tests/unit -t .`."""
from __future__ import annotations

import pathlib
import shutil
import tempfile
import unittest
from typing import Any
from unittest import mock

from vidlakost_tools.tool import ToolError
from vidlakost_tools.verilog import known_cells, members, simulation, source_texts, two_meanings, unread, yosys

CASE = """module \\m
  wire \\a
  process $p
    attribute \\parallel_case 1
    attribute \\src "m.v:3.1-5.2"
    switch {signal}
      case {first}
        assign \\y 1'0
      case {second}
        assign \\y 1'1
      case
    end
  end
end
"""


def case(signal: str, first: str, second: str) -> str:
    return CASE.format(signal=signal, first=first, second=second)


def writer(port: int, mask: str, *enables: object) -> dict[str, Any]:
    parameters = {"MEMID": "\\m", "PORTID": f"{port:b}", "PRIORITY_MASK": mask}
    return {
        "type": "$memwr_v2",
        "parameters": parameters,
        "attributes": {"src": f"m.v:{port}"},
        "port_directions": {"EN": "input"},
        "connections": {"EN": list(enables)},
    }


class Rows(unittest.TestCase):
    def test_rows_that_differ_in_a_bit_are_apart(self) -> None:
        self.assertFalse(two_meanings.not_apart("2'1-", "2'0-"))
        self.assertTrue(two_meanings.not_apart("2'1-", "2'-1"))
        self.assertTrue(two_meanings.not_apart("2'00 , 2'01", "2'10 , 2'01"))
        self.assertTrue(two_meanings.not_apart("\\a", "2'01"))

    def test_rows_that_may_meet_are_open(self) -> None:
        text = two_meanings.open_rows(case("1'1", "\\a", "\\b"))
        self.assertIn("    switch 1'1\n      case $rows$taken$5$0\n", text)
        self.assertIn("      case $rows$taken$5$1\n        assign \\y 1'1\n      case\n", text)
        self.assertNotIn("parallel_case", text)
        # the wires stand before what names them
        self.assertLess(text.index("wire $rows$holds$5$1"), text.index("assign $rows$holds$5$1 1'0"))

    def test_constant_meets_wild_bits(self) -> None:
        self.assertEqual(two_meanings.of_constant("2'-- , 2'10", "2'00"), "2'00")
        for row, signal in (("2'1-", "2'00"), ("2'--", "\\s"), ("1'-", "2'00"), ("\\s", "1'1")):
            self.assertEqual(two_meanings.of_constant(row, signal), row)

    def test_rows_apart_stay(self) -> None:
        text = case("\\s", "2'00", "2'1-")
        self.assertEqual(two_meanings.open_rows(text), text.replace("    attribute \\parallel_case 1\n", ""))


class Writers(unittest.TestCase):
    def told(self, *cells: dict[str, Any], **more: dict[str, Any]) -> str:
        named = {f"w{count}": one for count, one in enumerate(cells)}
        try:
            two_meanings.refuse_two_blocks({"cells": {**named, **more}, "netnames": {}})
        except ToolError as error:
            return str(error)
        return ""

    def test_order_in_one_block_is_told(self) -> None:
        self.assertEqual(self.told(writer(0, "", 5), writer(1, "1", 6)), "")
        self.assertIn("'m' (m.v:0 and m.v:1)", self.told(writer(0, "", 5), writer(1, "0", 6)))

    def test_each_pair_is_looked_at(self) -> None:
        self.assertIn("m.v:0 and m.v:2", self.told(writer(0, "", 5), writer(1, "1", 6), writer(2, "10", 7)))

    def test_lanes_that_never_meet(self) -> None:
        self.assertEqual(self.told(writer(0, "", 5, "0"), writer(1, "0", "0", 6)), "")
        pins = {"A": ["0", "0"], "B": ["0", "1"], "S": [3], "Y": [8, 9]}
        lane = {"type": "$mux", "attributes": {}, "port_directions": {"Y": "output"}, "connections": pins}
        self.assertEqual(self.told(writer(0, "", 5, "0"), writer(1, "0", 8, 9), lane=lane), "")
        self.assertIn("two blocks", self.told(writer(0, "", "0", 5), writer(1, "0", 8, 9), lane=lane))


class Words(unittest.TestCase):
    def told(self, address: list[Any]) -> list[str]:
        read = {
            "type": "$memrd",
            "parameters": {"MEMID": "\\m"},
            "attributes": {"src": "m.v:4"},
            "connections": {"ADDR": address},
        }
        memories = {"m": {"size": 5, "start_offset": 2}}
        return list(two_meanings.beyond_words({"cells": {"one": read}, "memories": memories}))

    def test_address_with_more_bits_than_the_last_word(self) -> None:
        self.assertEqual(self.told([2, 3, 4]), [])
        self.assertEqual(self.told([2, 3, 4, "0", "0"]), [])
        why = (
            "'m' (m.v:4): an address beyond its 5 words is cut to 3 bits; a simulator reads an x there and writes"
            " nothing"
        )
        self.assertEqual(self.told([2, 3, 4, 5]), [why])


class Drivers(unittest.TestCase):
    def test_cells_that_can_be_off(self) -> None:
        pin = 'pin(Y) { function : "!A"; three_state : "E"; }'
        text = (
            f'cell (A) {{ pin(Y) {{ function : "A"; }} }} /* cell(C) {{ {pin} }} */ cell ("B") {{ {pin} }} three_state'
            ' : "x";'
        )
        self.assertEqual(two_meanings.off_cells(text), {"B"})

    def test_gate_of_a_module_that_is_a_part(self) -> None:
        text = "module a(output y);\nendmodule\nmodule b(output y);\nnotif0 (y, y, y);\n"
        two_meanings.refuse_off_gates("f", text, "module \\a\nend\n")
        for module in ("\\b", "$paramod\\b\\W=s32'1", "$paramod$0f\\b"):
            with self.assertRaisesRegex(ToolError, "'f':4: notif0"):
                two_meanings.refuse_off_gates("f", text, f"module {module}\nend\n")


class KnownCells(unittest.TestCase):
    MODELS = """`define INIT initial Q = 0;
`ifndef NONE
`define ONE = 1'b1
`define V(v) = v
`else
`define ONE
`endif
(* whitebox *)
module SB_DFFE (output reg Q, input C, input E `ONE, input D `V(1'b0));
  `INIT
  always @(posedge C) if (E) Q <= D;
`ifdef TIMES
`ifndef YOSYS
  specify endspecify
`else
  wrong
`endif
`elsif OTHER
  wrong
`endif
endmodule
"""

    def test_models_without_times_and_initial_values(self) -> None:
        found = known_cells.models(self.MODELS)["SB_DFFE"].splitlines()
        head = "module SB_DFFE (output reg Q, input C, input E = 1'b1, input D = 1'b0);"
        self.assertEqual(found, [head, "  ", "  always @(posedge C) if (E) Q <= D;", "endmodule"])

    def test_other_family(self) -> None:
        self.assertEqual(known_cells.cells_of({}, ["SB_LUT4"]), "")
        with self.assertRaisesRegex(ToolError, "--cells knows ice40"):
            known_cells.cells_of({"--cells": "xilinx"}, [])


class Members(unittest.TestCase):
    TYPE = "typedef struct packed { logic [2:0] a; logic [3:0] b, c; } pair;\n"

    def told(self, body: str, before: str = TYPE) -> tuple[str, list[str]]:
        text = f"{before}module m;\n{body}\nendmodule\n"
        found, said = members.rewritten("m.sv", text, text, members.Sources(text))
        return "\n".join(found.split("\n")[before.count("\n") + 1 : -1]), said

    def test_part_that_is_read_is_one_of_a_word_of_its_own(self) -> None:
        text, said = self.told("assign y = x.b[i + 3'd1];")
        function = (
            "function automatic vidlakost_part_0(input [3:0] word, input [63:0] at); vidlakost_part_0 = word[at];"
            " endfunction"
        )
        self.assertEqual(text, f"assign y = vidlakost_part_0(x.b, $unsigned(i + 3'd1));\n{function} endmodule")
        self.assertEqual(
            said, ["'m.sv':3: x.b[i + 3'd1] is read as a part of its own word; beyond that word it is open"]
        )
        for right in (
            "always_comb if (x.c[i]) y = 1;",
            "always @* y = {x.a[j], x.c[i +: 2]};",
            "always_ff @(posedge c) y <= p.x.a[i[1:0]];",
        ):
            self.assertEqual(len(self.told(right)[1]), right.count("x."), right)
        self.assertEqual(self.told("assign y = x.a[1] & x.b[3:2];")[1], [])

    def test_what_is_written_or_unknown_is_refused(self) -> None:
        for wrong in (
            "always_ff @(posedge c) x.b[i] <= v;",
            "assign x.b[i] = v;",
            "assign {y, x.b[i]} = v;",
            "sub u(.o(x.b[i]));",
            "always_comb if (a <= 1) x.b[i] = 1;",
            "always_comb for (int k = 0; k < 3; k = k + 1) x.b[k] = 1;",
            "sub u(x.b[i]);",
            "always_comb begin if (a) y = 1; else x.b[i] = 1; end",
            "always_comb case (a) 1: y = 1; 2: x.b[i] = 1; endcase",
            "assign y = x.b[i +: W];",
            "assign y = q[1].b[i];",
            "assign y = x.b[i:0];",
            "assign y = x.b[0][i];",
            "assign y = x.b[x.a[i]];",
            "wire [9:0] b; assign y = u.b[i];",
            "wire signed [2:0] i; assign y = x.b[i];",
            "assign y = x.d[i];",
        ):
            with self.assertRaisesRegex(ToolError, "'m.sv':3: a part of a structure's member", msg=wrong):
                self.told(wrong)


class Bounds(unittest.TestCase):
    ENDLESS = (
        "module m(input clk);\n  genvar i;\n  generate for (i = 0; i < 1; i = i + 0) begin : g wire a; end"
        " endgenerate\nendmodule\n"
    )

    @unittest.skipUnless(shutil.which("yosys"), "Yosys is not installed")
    def test_loop_without_end_ends(self) -> None:
        with tempfile.TemporaryDirectory() as name, mock.patch.object(yosys, "SECONDS", 2.0):
            source = pathlib.Path(name) / "endless.v"
            source.write_text(self.ENDLESS)
            with self.assertRaisesRegex(yosys.Slow, r"longer than 2 seconds \(.*\), and was stopped; an endless loop"):
                yosys.read([str(source)], {}, pathlib.Path(name))

    def test_last_step_of_a_log(self) -> None:
        with tempfile.TemporaryDirectory() as name:
            log = pathlib.Path(name) / "log"
            self.assertEqual(yosys.how_far(log), "")
            log.write_text("1. Executing PROC pass.\n\nSolving problem with 3 variables and 4 clauses..\n x\n")
            self.assertEqual(yosys.how_far(log), "Solving problem with 3 variables and 4 clauses")


class Unclosed(unittest.TestCase):
    def test_what_is_never_closed_hides_nothing(self) -> None:
        for text in ('a " YOSYS', "a /* YOSYS", 'a "\\"" YOSYS " b'):
            self.assertTrue(all("YOSYS" in one for one in source_texts.blanked(text)), text)

    def test_attribute_that_is_never_closed(self) -> None:
        with self.assertRaisesRegex(ToolError, "'f':2: an attribute"):
            source_texts.refuse_attributes("f", "(*a" * 9 + "\n wand")


class Simulation(unittest.TestCase):
    def told(self, body: str) -> list[str]:
        """What is warned of in a module, without the words that all warnings have."""
        text = f"module m(input clk, a, b, output reg y);\n{body}\nendmodule\n"
        ends = [
            one.partition(";")[0].replace("'m.v':", "")
            for one in simulation.warnings_of("m.v", text, source_texts.blanked(text)[0])
        ]
        return ends

    def test_list_that_is_not_whole(self) -> None:
        why = "the block reads b, which is not in its sensitivity list"
        self.assertEqual(self.told("always @(a) y = a & b;"), [f"2: {why}"])
        for whole in ("(a or b)", "(a, b)", "*", "(*)", "(posedge clk)"):
            self.assertEqual(self.told(f"always @{whole} y = a & b;"), [], whole)

    def test_names_that_are_no_signals_are_not_waited_for(self) -> None:
        body = "parameter P = 1;\ntypedef enum logic {ON, OFF} t;\nfunction f(input x); f = x; endfunction\n"
        self.assertEqual(
            self.told(f"{body}always @(a) case (a) ON: y = f(a) ^ P; 1'b1: y = `Q; default: y = OFF; endcase"), []
        )

    def test_set_before_it_is_read(self) -> None:
        self.assertEqual(
            self.told("reg t;\nalways @* begin y = t; t = a; end"), ["3: the block reads t before it sets it"]
        )
        for right in ("t = a; y = t;", "t = 0; if (a) t = ~t; y = t;", "reg t; t = b; y = t;"):
            self.assertEqual(self.told(f"reg t;\nalways @* begin {right} end"), [], right)

    def test_delays_and_what_one_tool_sees(self) -> None:
        for text, line in (
            ("assign #1 z = a;", 2),
            ("always @(posedge clk) y <= #1 a;", 2),
            ("always @(posedge clk)\n  #3 y <= a;", 3),
        ):
            self.assertEqual(self.told(text), [f"{line}: a delay is skipped"], text)
        self.assertEqual(self.told("sub #(.W(2)) u(.a(a));\nsub #(3) v(.a(a));"), [])
        self.assertEqual(self.told("// synopsys translate_off"), ["2: what follows translate_off is skipped"])

    def test_any_text_comes_to_an_end(self) -> None:
        for text in (
            "always " * 3000,
            "always @(" * 3000,
            "always unique " + "unique " * 3000,
            "always begin " * 3000,
            "always if (" * 3000,
        ):
            simulation.warnings_of("m.v", f"module {text}", f"module {text}")


class Unread(unittest.TestCase):
    def test_form_on_the_line_of_an_error(self) -> None:
        source = "module m;\n  function f(input x); return x; endfunction\n  wire y = a inside {1, 2};\nendmodule\n"
        said = unread.reason([("there/m.sv", source)], "yosys refuses it: there/m.sv:3: ERROR: syntax error")
        self.assertEqual(said, "'there/m.sv':3: Yosys doesn't read `inside`; comparisons with == say the same")
        # of an error without a line the first form is told, and of a source without one nothing
        self.assertIn(
            "'there/m.sv':2: Yosys doesn't read `return`",
            str(unread.reason([("there/m.sv", source)], "m.sv:0: ERROR: x")),
        )
        self.assertIsNone(unread.reason([("m.sv", "module m; endmodule\n")], "m.sv:1: ERROR: x"))

    def test_errors_that_have_no_line(self) -> None:
        failed = "`arg->is_signed == sig.as_wire()->is_signed' failed in genrtlil.cc:1"
        asserted = f"yosys refuses it: ERROR: Assert {failed}"
        part = "module m;\n  wire a = f($signed(b));\n  sub s(.a($signed(b)), .y(c));\nendmodule\n"
        said = str(unread.reason([("m.v", part)], asserted))
        self.assertTrue(said.startswith("'m.v':3: Yosys takes no $signed at a port of a part; a signed wire"), said)
        # by its place in the list of ports, and not where Yosys finds something else
        self.assertIn("'m.v':1: ", str(unread.reason([("m.v", "sub s($signed(b), c);")], asserted)))
        self.assertIsNone(unread.reason([("m.v", part)], "m.v:3: ERROR: another"))
        together = "always @(posedge c)\n  if (r) q <= 0; else {y, w[p]} <= d;\n"
        for error in (
            "m.v:0 (m.v:0 and m.v:2): it has two drivers; only one may",
            "ERROR: incompatible mix of lookahead and non-lookahead IDs in LHS expression.",
        ):
            said = str(unread.without_line([("m.v", together)], error))
            self.assertTrue(said.startswith("'m.v':2: Yosys sets no word {y, w[p]} together"), said)
        # a comparison and a choice set nothing
        for text in ("if ({a, b[i]} <= c) x = 1;", "assign y = s ? {a, b[i]} : c;"):
            self.assertIsNone(unread.without_line([("m.v", text)], "it has two drivers"), text)

    def test_names_that_only_look_so(self) -> None:
        for text in (
            "count c(.first(first), .last(l));",
            "logic [1:0] m [0:3];",
            "struct packed { logic a; } s;",
            "assign y = 4'(x);",
            "x = (a == b) ? c : d;",
            "xor x (a[0], b);",
            "assert (a); if (b) c = 1; else c = 0;",
        ):
            self.assertEqual(list(unread.reasons(text)), [], text)
        for text in (
            "s = s.next();",
            "logic [1:0][0:3] m;",
            "struct { logic a; } s;",
            "assign y = int'(x);",
            "x = a ==? b;",
            "assign (weak1, weak0) f = b;",
            "xor x [1:0] (a, b, c);",
            'assert (a != 3) else $error("bad");',
        ):
            self.assertEqual(len(list(unread.reasons(text))), 1, text)

    def test_names_within_a_part(self) -> None:
        said = [
            "a/m.sv:25: Warning: Identifier `\\part.bad' is implicitly declared.",
            "m.sv:9: Warning: Identifier `\\bad' is implicitly declared.",
        ]
        self.assertEqual([one.partition(":2")[0] for one in unread.within_parts(said)], ["part.bad (m.sv"])

    def test_latch_of_a_combinational_block(self) -> None:
        error = (
            "yosys refuses it: ERROR: Latch inferred for signal `\\m.\\flip' from always_comb process"
            " `\\m.$proc$/a/m.sv:0$19'."
        )
        self.assertEqual(str(unread.latch(error))[:49], "flip (m.sv): an always_comb doesn't set it in eve")
        self.assertIsNone(unread.latch("yosys refuses it: ERROR: other"))
