"""The clocks of sources: what becomes an enable, or a rising edge of one input, stays right; the rest is refused."""
from __future__ import annotations

import unittest

from tests.unit.controllers import SMALL, changed, checked, needs, plain_of
from vidlakost_tools.tool import ToolError

# a clock that runs in the reset and until the controller stands still
ENABLE = "  wire enable = reset || step != 3'd6;\n"
LATCH = f"{ENABLE}  reg held;\n  always @* if (!clk) held = enable;\n"
GATE = "  wire gated = clk & held;\n"


def on(clock: str, lines: str, text: str = SMALL, edge: str = "posedge") -> str:
    """The small controller whose registers stand on another clock, which some lines make."""
    return changed(("posedge clk", f"{edge} {clock}"), ("  reg bad;\n", f"  reg bad;\n{lines}"), text=text)


@needs("yosys")
class Taken(unittest.TestCase):
    def conforms(self, *texts: str) -> None:
        for text in texts:
            with self.subTest(text=text.split("  reg bad;\n")[1].split("  assign en")[0]):
                self.assertEqual(checked(plain_of(text)), "conforms 7")

    def test_clock_through_buffers_and_inverters(self) -> None:
        self.conforms(
            on("a", "  wire a, b;\n  assign b = ~clk;\n  assign a = ~b;\n"),
            on("b", "  wire b = ~clk;\n", edge="negedge"),
            on("a", "  wire a = clk & 1'b1;\n"),
            on("a", "  wire a;\n  \\$_BUF_ buffer(.A(clk), .Y(a));\n"),
        )

    def test_clock_that_a_latch_gates(self) -> None:
        falls = f"{ENABLE}  reg held;\n  always @(negedge clk) held <= enable;\n"
        cell = f"{ENABLE}  wire held;\n  \\$_DLATCH_N_ latch(.E(clk), .D(enable), .Q(held));\n"
        self.conforms(on("gated", LATCH + GATE), on("gated", falls + GATE), on("gated", cell + GATE))

    def test_clock_that_stops_too_early(self) -> None:
        """Gated by another enable the controller stands still before it is done."""
        early = LATCH.replace("step != 3'd6", "step != 3'd4")
        told = checked(plain_of(on("gated", early + GATE)))
        self.assertEqual(told, "differs cycle 5 port en expected 0 got 1")

    def test_gate_behind_a_gate(self) -> None:
        second = "  reg other;\n  always @* if (!clk) other = reset || step != 3'd7;\n  wire twice = gated & other;\n"
        self.conforms(on("twice", LATCH + GATE + second))

    def test_register_with_an_asynchronous_reset_on_a_gated_clock(self) -> None:
        text = on("gated", LATCH + GATE)
        self.conforms(changed(("posedge gated", "posedge gated or posedge reset"), text=text))

    def test_fine_cells(self) -> None:
        """A bit of the step as a cell of Yosys' own, at the falling edge of the inverted clock, or on a gated one."""
        set_by_block = (
            "  reg [2:0] step;",
            "  wire [2:0] step;\n  reg [2:1] high;\n  wire low;\n  assign step = {high, low};",
        )
        text = changed(set_by_block, ("      step <= 3'd1;\n", "      high <= 2'd0;\n"))
        text = changed(("step <= step == 3'd6 ? 3'd6 : step + 3'd1", "high <= next[2:1]"), text=text)
        next_step = "  wire [2:0] next = reset ? 3'd1 : step == 3'd6 ? 3'd6 : step + 3'd1;\n"
        falls = f"{next_step}  \\$_DFF_N_ lowest(.C(~clk), .D(next[0]), .Q(low));\n"
        gated = f"{next_step}{LATCH}{GATE}  \\$_DFF_P_ lowest(.C(gated), .D(next[0]), .Q(low));\n"
        for lines in (falls, gated):
            self.conforms(changed(("  reg bad;\n", f"  reg bad;\n{lines}"), text=text))


@needs("yosys")
class Refused(unittest.TestCase):
    def refused(self, message: str, *texts: str) -> None:
        for text in texts:
            with self.subTest(message=message), self.assertRaisesRegex(ToolError, message):
                plain_of(text)

    def test_falling_edge(self) -> None:
        message = (
            r"^(step|bad), 0\.v:1\d: it is clocked by the falling edge of clk; "
            "'clk ~clk' in a file of pins tells audit so$"
        )
        self.refused(message, on("clk", "", edge="negedge"), on("b", "  wire b = ~clk;\n"))

    def test_both_edges(self) -> None:
        block = "  reg more;\n  always @(negedge clk) more <= bad;\nendmodule"
        both = changed(("reset && bad", "reset && more"), ("endmodule", block))
        self.refused(r"^more, 0\.v:\d+: it is clocked by the falling edge of clk$", both)

    def test_gates_that_hold_nothing(self) -> None:
        message = r": its clock is gated at gated, 0\.v:\d+ by a signal that no latch holds while the clock is high$"
        opens_high = LATCH.replace("!clk", "clk") + GATE
        plain = ENABLE + "  wire gated = clk & enable;\n"
        rises = f"{ENABLE}  reg held;\n  always @(posedge clk) held <= enable;\n{GATE}"
        self.refused(message, on("gated", opens_high), on("gated", plain), on("gated", rises))

    def test_latch_that_something_else_reads(self) -> None:
        read = changed(("reset && bad", "reset && bad && held"), text=on("gated", LATCH + GATE))
        self.refused("a latch or a flip-flop of the other edge that is read outside of a gate$", read)
        port = changed(("output fail\n", "output fail, output reg held\n"))
        shown = on("gated", LATCH.replace("  reg held;\n", "") + GATE, text=port)
        self.refused("^a latch of a clock gate is an output of the module$", shown)

    def test_register_with_an_enable_of_its_own_on_a_gated_clock(self) -> None:
        cell = "  wire kept;\n  \\$_DFFE_PP_ one(.C(gated), .E(step[0]), .D(rdata[0]), .Q(kept));\n"
        text = changed(("reset && bad", "reset && (bad || kept)"), text=on("gated", LATCH + GATE + cell))
        self.refused(r"^kept, 0\.v:\d+: a register has a gated clock and an enable of its own$", text)

    def test_two_clocks(self) -> None:
        block = "  reg more;\n  always @(posedge other) more <= bad;\nendmodule"
        two = changed(
            ("input clk,", "input clk, input other,"), ("reset && bad", "reset && more"), ("endmodule", block)
        )
        self.refused(": its clock is (clk|other), but other registers have (clk|other); all need the same clock$", two)

    def test_clock_of_another_name_beside_clk(self) -> None:
        named = changed(("input clk,", "input clk, input ck,"), ("posedge clk", "posedge ck"))
        self.refused(
            "^the registers' clock is ck, and clk is another port: name both in a file of pins \(--pins\)$", named
        )

    def test_clock_that_is_a_bit_of_several(self) -> None:
        wide = changed(("input clk,", "input [1:0] ck,"), ("posedge clk", "posedge ck[0]"))
        self.refused(r"^the clock is one bit of ck \(\S+:\d+\), which has several; give it a port of its own$", wide)

    def test_clock_that_is_made(self) -> None:
        self.refused(
            r": a cell \$xor \(a, 0\.v:\d+\) makes its clock, which has to be an input$",
            on("a", "  wire a = clk ^ reset;\n"),
        )
        self.refused(
            r": a cell \$dff \(",
            on("half", "  reg half;\n  always @(posedge clk) half <= ~half;\n"),
        )
        self.refused(": its clock is not an input of the module$", on("lost", "  wire lost;\n"))

    def test_clock_that_is_read(self) -> None:
        self.refused(
            "^the clock is read as data, which is outside the subset$",
            changed(("reset && bad", "reset && (bad || clk)")),
        )

    def test_memory_on_a_gated_clock(self) -> None:
        kept = "  reg kept [0:3];\n  always @(posedge gated) kept[step[1:0]] <= rdata[0];\n"
        text = changed(("reset && bad", "reset && (bad || kept[step[1:0]])"), text=on("gated", LATCH + GATE + kept))
        self.refused("a memory whose clock is gated or inverted is outside the subset$", text)

    def test_cell_that_knows_the_first_cycle(self) -> None:
        first = "  wire first;\n  \\$initstate begins(.Y(first));\n"
        text = changed(("  reg bad;\n", f"  reg bad;\n{first}"), ("reset && bad", "reset && (bad || first)"))
        self.refused(r": a register of the kind \$initstate is outside the subset$", text)


@needs("yosys")
class Warned(unittest.TestCase):
    def test_reset_that_registers_make_by_gates(self) -> None:
        """A glitch of the gates may reset the register, which no cycle shows."""
        block = "  reg low;\n  always @(posedge clk or posedge now) if (now) low <= 1'b0; else low <= bad;\n"
        lines = f"  wire now = step[0] & step[1];\n{block}"
        text = changed(("  reg bad;\n", f"  reg bad;\n{lines}"), ("reset && bad", "reset && (bad || low)"))
        warning = "low, 0.v:9: gates make its asynchronous reset from registers"
        self.assertEqual(
            plain_of(text).warnings, [f"{warning}, so a short pulse may reset it; such pulses are not seen"]
        )

    def test_reset_that_one_register_makes(self) -> None:
        block = "  reg low;\n  always @(posedge clk or posedge bad) if (bad) low <= 1'b0; else low <= rdata[0];\n"
        text = changed(("  reg bad;\n", f"  reg bad;\n{block}"), ("reset && bad", "reset && (bad || low)"))
        self.assertEqual(plain_of(text).warnings, [])
