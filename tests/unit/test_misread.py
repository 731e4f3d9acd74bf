"""Forms that Yosys reads otherwise than the language has them, and that are refused by their text."""
from __future__ import annotations

import unittest

from vidlakost_tools.tool import ToolError
from vidlakost_tools.verilog import misread

TASK = "module m;\n  task t(input a, {} b);\n    b = a;\n  endtask\nendmodule\n"
BLOCK = "module m;\n  always @(posedge c) begin\n    {}\n  end\nendmodule\n"
ARRAYS = """module m(input [1:0] two, input [2:0] three, output [3:0] y);
  reg [3:0] a [0:3][0:3], one [0:3];
  reg b [1:0][7:0];
  integer i;
  always @* for (i = 0; i < 4; i = i + 1) a[two][i] = 0;
  assign y = {};
endmodule
"""


def refused(text: str) -> str:
    """Why a text is refused; nothing where it isn't."""
    try:
        misread.refuse([("a.v", text)])
    except ToolError as error:
        return str(error)
    return ""


class Forms(unittest.TestCase):
    def test_task_that_hands_back(self) -> None:
        self.assertRegex(refused(TASK.format("inout")), "^'a.v':2: Yosys copies no inout of a task back; an input and")
        self.assertEqual(refused(TASK.format("output")), "")
        self.assertEqual(refused("module m(inout a);\nendmodule\n"), "")

    def test_interface(self) -> None:
        told = "^'a.v':2: Yosys follows no signal of an interface; a port for each signal of it"
        self.assertRegex(refused("\ninterface pins;\n  logic en;\nendinterface\n"), told)
        self.assertEqual(refused("interface class shape;\nendclass\n"), "")

    def test_register_that_is_set_in_both_ways(self) -> None:
        for body in ("a = 1; a <= 2;", "if (x) a <= 1; else a = 0;", "a[1] = x; a[0] <= y;", "{b, a} = 0; a <= x;"):
            self.assertRegex(refused(BLOCK.format(body)), "^'a.v':2: the block sets a with = and with <=", body)
        for body in ("a = x <= y; b <= a;", "if (a <= b) a = 1;", "for (i = 0; i <= 3; i = i + 1) a <= i;"):
            self.assertEqual(refused(BLOCK.format(body)), "", body)
        # in two modules, and in two blocks
        self.assertEqual(refused(BLOCK.format("a = 1;") + BLOCK.format("a <= 1;")), "")

    def test_race(self) -> None:
        sets = "  always @(posedge c) n = x;\n"
        raced = "^'a.v':2: the block sets n with =, and another block reads it at the same edge"
        for more in (
            "  always @(posedge c) y <= n;\n",
            "  wire w = n & a;\n  always @(posedge c or posedge r) if (r) y <= 0; else y <= w;\n",
            "  assign {w, v[1]} = n;\n  wire u = v[0];\n  always @(posedge c) if (u) y <= a;\n",
            "  always @* w = n;\n  always_ff @(posedge c) y <= w;\n",
            "  function f(input i); f = i & n; endfunction\n  always @(posedge c) y <= f(a);\n",
            "  function f; input i; f = n; endfunction\n  wire w = f(a);\n  always @(posedge c) y <= w;\n",
        ):
            self.assertRegex(refused(f"module m;\n{sets}{more}endmodule\n"), raced, more)
        for more in (
            "  always @(negedge c) y <= n;\n",
            "  wire w = n;\n  assign y = w;\n",
            "  always @(posedge c) begin n2 = x; y <= n2; end\n",
            "  always @(posedge c) y <= u;\n",
        ):
            self.assertEqual(refused(f"module m;\n{sets}{more}endmodule\n"), "", more)
        loops = "  integer i;\n" + "  always @(posedge c) for (i = 0; i < 3; i = i + 1) {}[i] <= x;\n" * 2
        self.assertEqual(refused(f"module m;\n{loops.format('y', 'z')}endmodule\n"), "")

    def test_inner_index(self) -> None:
        for use in ("a[0][three]", "a[0][4]", "b[0][two + 1]", "a[two][y[0]]", "a[0][two[0] + three]"):
            told = "^'a.v':6: to Yosys an index beyond this range of [ab] is a place"
            self.assertRegex(refused(ARRAYS.format(use)), told, use)
        within = ("a[three][two]", "a[0][3]", "b[two][three]", "b[1][7]", "one[three]", "one[0][three]", "a[two][i]")
        for use in within:
            self.assertEqual(refused(ARRAYS.format(use)), "", use)
        far = ARRAYS.format("a[0][two]").replace("i < 4", "i <= 4")
        self.assertRegex(refused(far), "^'a.v':5: to Yosys an index beyond")
        named = ARRAYS.format("a[0][two]").replace("[0:3][0:3]", "[0:3][0:N]")
        self.assertRegex(refused(named), "^'a.v':5: ")
