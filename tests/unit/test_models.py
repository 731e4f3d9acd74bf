"""The models: an array with a planted primitive, and the open run of a module."""
from __future__ import annotations

import pathlib
import tempfile
import unittest

from vidlakost_tools.texts.faults import Array, Step, read_primitive
from vidlakost_tools.texts.march import elements_of
from vidlakost_tools.texts.memory import parse_memory
from vidlakost_tools.texts.reads import due_numbers
from vidlakost_tools.tool import ToolError
from vidlakost_tools.verilog.open_run import Run, Value, commands_of, compared, order_of, told


def last(primitive: str, aggressor: int | None, victim: int, content: str, march: str, directions: str) -> Step:
    array = Array(read_primitive(primitive), aggressor, victim, content)
    return list(array.march(elements_of(march), directions))[-1]


class Arrays(unittest.TestCase):
    def test_a_transition_that_fails_is_read(self) -> None:
        step = last("<0w1/0/->", None, 0, "00", "{any(w0);up(w1);up(r1)}", "uuu")
        self.assertEqual((step.differs, step.element, step.cell, step.answer), (True, 2, 0, 0))

    def test_a_write_over_it_hides_it(self) -> None:
        self.assertFalse(last("<0w1/0/->", None, 0, "00", "{any(w0);up(w1,w0);up(r0)}", "uuu").differs)

    def test_an_aggressor_acts_by_its_own_operation(self) -> None:
        march = "{any(w0);up(r0,w1)}"
        self.assertTrue(last("<0w1;0/1/->", 0, 1, "00", march, "uu").differs)
        self.assertFalse(last("<0w1;0/1/->", 1, 0, "00", march, "uu").differs)

    def test_a_state_acts_wherever_it_holds(self) -> None:
        self.assertTrue(last("<0/1/->", None, 1, "00", "{any(w0);up(r0)}", "uu").differs)

    def test_a_pause(self) -> None:
        self.assertTrue(last("<1t/0/->", None, 0, "00", "{any(w1);del;any(r1)}", "uuu").differs)
        self.assertFalse(last("<1t/0/->", None, 0, "00", "{any(w1);any(r1)}", "uu").differs)

    def test_two_operations_act_right_behind_one_another(self) -> None:
        self.assertTrue(last("<0w1r1/0/0>", None, 0, "00", "{any(w0);any(w1,r1)}", "uu").differs)
        self.assertFalse(last("<0w1r1/0/0>", None, 0, "00", "{any(w0);any(w1);any(r1)}", "uuu").differs)
        self.assertFalse(last("<0w1r1/0/0>", None, 0, "00", "{any(w0);any(w1);del;any(r1)}", "uuuu").differs)

    def test_what_is_due_is_what_is_compared(self) -> None:
        elements = elements_of("{up(w1);del;down(r1,w0);any(r0)}")
        text = (
            "memory 2\nname m\nwords 4\nbits 3\nlatency 2\npolarity 5\npause 3\nscramble a0 = p1\nscramble a1 = p0"
            " ^ 1\n"
        )
        memory = parse_memory(text)
        commands = [None, *commands_of(elements, memory), *[None] * (memory.latency + 1)]
        for cycle, command in enumerate(commands):
            self.assertEqual(
                due_numbers(elements, memory, cycle), dict(compared(command, cycle == len(commands) - 1)), cycle
            )

    def test_a_wrong_answer(self) -> None:
        step = last("<0r0/1/0>", None, 0, "00", "{any(w0);up(r0,r0)}", "uu")
        self.assertEqual((step.differs, step.answer), (True, 1))


MODULE = """module two_bist(input clk, input reset, input rdata,
  output en, output we, output addr, output wdata, output done, output fail);
  reg [2:0] t;
  assign en = ((!reset) && (t < 3'd2));
  assign we = 1'd1;
  assign addr = t[0];
  assign wdata = 1'd0;
  assign done = ((!reset) && (t >= 3'd3));
  assign fail = 1'd0;
  always @(posedge clk) t <= (reset ? 3'd0 : ((t == 3'd7) ? t : (t + 3'd1)));
endmodule
"""


class OpenRuns(unittest.TestCase):
    def said(self, module: str) -> str:
        with tempfile.TemporaryDirectory() as name:
            folder = pathlib.Path(name)
            for file, text in (("v", module), ("m", "{any(w0)}"), ("d", "memory 1\nname two\nwords 2\nbits 1\n")):
                (folder / file).write_text(text)
            return told(folder / "v", folder / "m", folder / "d")

    def test_a_module_that_conforms(self) -> None:
        self.assertEqual(self.said(MODULE), "conforms 5")

    def test_a_port_that_differs(self) -> None:
        self.assertEqual(
            self.said(MODULE.replace("addr = t[0]", "addr = t[1]")), "differs cycle 2 port addr expected 1 got 0"
        )

    def test_a_register_that_nothing_resets(self) -> None:
        self.assertEqual(self.said(MODULE.replace("(reset ? 3'd0 : ", "(reset ? t : ")), "unknown cycle 1 port en")

    def test_what_is_open_may_not_matter(self) -> None:
        self.assertEqual(self.said(MODULE.replace("wdata = 1'd0", "wdata = (rdata & 1'd0)")), "conforms 5")
        self.assertEqual(self.said(MODULE.replace("wdata = 1'd0", "wdata = (rdata ? 1'd0 : 1'd0)")), "conforms 5")
        self.assertEqual(self.said(MODULE.replace("wdata = 1'd0", "wdata = rdata")), "unknown cycle 1 port wdata")

    def test_a_way_through_wires_may_be_long(self) -> None:
        names = [f"w{number}" for number in range(30000)]
        zero = Value(1, lambda _: 0)
        run = Run(
            assigns=dict.fromkeys(names, zero), reads={one: {other} for one, other in zip(names, [*names[1:], "reset"])}
        )
        self.assertEqual(order_of(run), names[::-1])
        run.reads["w29999"] = {"w7"}
        self.assertRaises(ToolError, order_of, run)

    def test_what_is_no_module(self) -> None:
        for old, new in (("t[0]", "u[0]"), ("assign we", "assin we"), ("output done", "output over")):
            with self.assertRaises(ToolError, msg=new):
                self.said(MODULE.replace(old, new))
        with self.assertRaises(ToolError):
            self.said(MODULE.replace("addr = t[0]", "addr = wdata").replace("wdata = 1'd0", "wdata = addr"))


if __name__ == "__main__":
    unittest.main()
