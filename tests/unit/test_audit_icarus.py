"""The sources of a controller, clocked by Icarus: beside what Yosys makes of them, and beside the rule of the ports."""
from __future__ import annotations

import pathlib
import tempfile
import unittest
from unittest import mock

from tests.unit.controllers import DONE, MEMORY, SMALL, changed, needs, plain_of
from vidlakost_tools.audit import beside_icarus, beside_rule
from vidlakost_tools.audit.beside_icarus import Beside, Differs, Seen, Unclocked
from vidlakost_tools.audit.pins import Pin, Pins
from vidlakost_tools.audit.stretches import Whole, of_test
from vidlakost_tools.texts.march import elements_of
from vidlakost_tools.tool import ToolError
from vidlakost_tools.verilog import front_end
from vidlakost_tools.verilog.port_judge import BEHIND, Cycle

# the commands of the small controller, from the reset to three cycles behind its end
COMMANDS: list[Cycle] = [None, ["w", "0", "0"], ["w", "1", "0"], ["r", "0", "0"], ["r", "1", "0"], None, None]
CYCLES: list[Cycle] = [*COMMANDS, *[None] * BEHIND]
# pins of other names, some of them active low, before the small controller
PINNED = """module pinned(
  input ck, input rst_n, input [1:0] q, input mode,
  output cen, output we, output addr, output [1:0] wdata, output done, output fail, output more
);
  wire en;
  walker inner(
    .clk(ck), .reset(!rst_n), .rdata(q), .en(en), .we(we), .addr(addr), .wdata(wdata), .done(done), .fail(fail)
  );
  assign cen = !en || mode;
  assign more = en;
endmodule
"""
# a block that a simulator wakes for one of its signals alone: to Yosys it hangs on both
SLEEPS = changed(
    ("  assign addr = !step[0];\n", "  reg a;\n  assign addr = a;\n  always @(reset) a = !step[0];\n"),
)
# ports with the names that a bench has for its own
COUNTER = """module counter(input clk, input seed, input [3:0] cycle, output reg [3:0] made, output reg [3:0] sum);
  always @* sum = seed ? made + cycle : made;
  always @(posedge clk or posedge seed) if (seed) made <= 0; else made <= made + 1;
endmodule
"""


class Sources(unittest.TestCase):
    """Small controllers in files of one folder."""

    def setUp(self) -> None:
        folder = tempfile.TemporaryDirectory()
        self.addCleanup(folder.cleanup)
        self.folder = pathlib.Path(folder.name)

    def file(self, text: str, name: str = "a.v") -> str:
        path = self.folder / name
        path.write_text(text)
        return str(path)

    def pins(self) -> Pins:
        pins = [("clk", Pin("ck", False)), ("reset", Pin("rst_n", True)), ("rdata", Pin("q", False))]
        outputs = [(port, Pin(port, False)) for port in ("we", "addr", "wdata", "done", "fail")]
        return Pins("a.pins", [*pins, ("en", Pin("cen", True)), *outputs], {"mode": 0}, ["more"])


@needs("yosys", "iverilog", "vvp")
class BesideYosys(Sources):
    """The sources beside the module made of them."""

    def seen(self, text: str, pins: Pins | None = None, test: Whole | None = None, is_any: bool = False) -> Seen:
        file = self.file(text)
        plain = front_end.plain_of([file], {}, pins)
        memory = None if is_any else MEMORY
        return beside_icarus.beside(Beside([file], plain, pins, memory, cycles=200, test=test))

    def beside(self, text: str, pins: Pins | None = None) -> str:
        return self.seen(text, pins).line()

    def test_both_are_equal(self) -> None:
        self.assertEqual(self.beside(SMALL), "beside Icarus: equal in 400 cycles")

    def test_pins_of_other_names(self) -> None:
        self.assertEqual(self.beside(PINNED + SMALL, self.pins()), "beside Icarus: equal in 400 cycles")

    def test_module_of_any_ports(self) -> None:
        self.assertEqual(self.seen(SMALL, is_any=True).line(), "beside Icarus: equal in 400 cycles")
        self.assertEqual(self.seen(COUNTER, is_any=True).line(), "beside Icarus: equal in 400 cycles")
        with self.assertRaisesRegex(Differs, "sum is . in cycle .* by Icarus, and . by Yosys$"):
            self.seen(COUNTER.replace("@*", "@(seed)"), is_any=True)

    def test_whole_test_is_clocked(self) -> None:
        """A test of 77 cycles with those behind it, 40 times, and in each some cycles aside."""
        whole = of_test(elements_of("{any(w0);up(r0)}"), MEMORY)
        self.assertEqual((whole.length, whole.histories, whole.starts), (76, 40, []))
        for text, pins in ((SMALL, None), (PINNED + SMALL, self.pins())):
            seen = self.seen(text, pins, whole)
            self.assertGreater(seen.cycles, 400 + 40 * 77)
            self.assertEqual((seen.unknown, seen.doubt), (-1, None))

    def test_late_difference_in_a_test(self) -> None:
        """A block that sleeps from cycle 70 on alone: only the whole test shows it."""
        late = changed(
            ("  reg bad;", "  reg bad;\n  reg [7:0] since;\n  reg told;\n  wire quiet = since > 8'd70;"),
            ("fail = !reset && bad", "fail = !reset && told"),
            ("      bad <= 1'b0;", "      {bad, since} <= 9'd0;"),
            ("      step <= step", "      since <= since == 8'd250 ? since : since + 8'd1;\n      step <= step"),
            ("endmodule", "  always @(bad or reset or since) told = quiet ? bad && since[0] : bad;\nendmodule"),
        )
        whole = of_test(elements_of("{any(w0);up(r0)}"), MEMORY)
        self.assertEqual(self.seen(late, test=whole).doubt, None)
        with self.assertRaisesRegex(Differs, "^the sources mean two things.*: fail is . in cycle .* by Icarus"):
            self.seen(late.replace("reset or since", "reset or quiet"), test=whole)

    def test_long_test_is_clocked_in_stretches(self) -> None:
        """Between the stretches the sources rest, and go on with the registers of the made module."""
        whole = Whole(300, -1, 2, [0, 100, 120, 280], 20)
        seen = self.seen(SMALL, test=whole)
        self.assertLess(seen.cycles, 400 + 2 * 301)
        self.assertEqual((seen.unknown, seen.doubt), (-1, None))

    def test_port_that_counts_is_unknown(self) -> None:
        """An x that the test shows is told with its port and cycle; where the port doesn't count it is none."""
        whole = of_test(elements_of("{any(w0);up(r0)}"), MEMORY)
        lost = ("  reg bad;", "  reg bad;\n  wire lost;")
        unknown = changed(lost, ("fail = !reset && bad", "fail = !reset && (bad || lost * 1'b0)"))
        self.assertEqual(self.seen(unknown, test=whole).doubt, ("fail", 1))
        written = changed(lost, ("wdata = 2'd0", "wdata = we ? 2'd0 : {lost * 1'b0, 1'b0}"))
        self.assertEqual(self.seen(written, test=whole).doubt, None)

    def test_source_that_means_two_things(self) -> None:
        histories = "from random registers and with random resets"
        said = f"^the sources mean two things, {histories}: addr is . in cycle .* by Icarus, and . by Yosys$"
        with self.assertRaisesRegex(ToolError, said):
            self.beside(SLEEPS)

    def test_what_is_unknown_to_icarus(self) -> None:
        """A product with 0 is 0 to Yosys, whatever the other side is, and unknown to a simulator."""
        lost = ("assign wdata = 2'd0", "assign wdata = {lost * 1'b0, 1'b0}")
        unknown = changed(("  reg bad;", "  reg bad;\n  wire lost;"), lost)
        self.assertEqual(
            self.beside(unknown),
            "beside Icarus: equal in 400 cycles; from cycle 0 on a port is unknown to Icarus in some of them",
        )

    def test_source_that_icarus_refuses(self) -> None:
        file = self.file(SMALL)
        plain = front_end.plain_of([file], {})
        self.file(SMALL.replace("endmodule", "  wire w = nowhere(1);\nendmodule"))
        with self.assertRaisesRegex(
            ToolError, r"^Icarus refuses the sources: .*a\.v:21: error: No function named `nowhere'"
        ):
            beside_icarus.beside(Beside([file], plain, None, MEMORY))

    def test_source_that_never_ends(self) -> None:
        file = self.file(SMALL)
        plain = front_end.plain_of([file], {})
        awake = "  reg v, w;\n  always @(w) v = ~w;\n  always @(v) w = v;\n  initial #1 w = 0;\nendmodule"
        self.file(SMALL.replace("endmodule", awake))
        with mock.patch.object(beside_icarus, "SECONDS", 1), self.assertRaisesRegex(
            Unclocked, "^Icarus took longer than 1 s"
        ):
            beside_icarus.beside(Beside([file], plain, None, MEMORY))

    def test_register_with_a_name_behind_a_backslash(self) -> None:
        """Icarus knows `\\bad.x ` as no signal of a hierarchy, so it is named once more with a backslash."""
        text = SMALL.replace("bad", "\\bad.x ")
        self.assertEqual(self.beside(text), "beside Icarus: equal in 400 cycles")


@needs("yosys", "iverilog", "vvp")
class Rule(Sources):
    """The sources beside the rule of the ports."""

    def told(self, text: str, pins: Pins | None = None, histories: int = 40) -> str:
        file = self.file(text)
        plain = front_end.plain_of([file], {}, pins)
        return beside_rule.told(beside_rule.Clocked(Beside([file], plain, pins, MEMORY), CYCLES, histories))

    def test_right_controllers(self) -> None:
        cycles = len(CYCLES) + beside_rule.BEHIND
        right = f"right in 40 histories of {cycles} cycles"
        self.assertEqual(self.told(SMALL), right)
        self.assertEqual(self.told(PINNED + SMALL, self.pins()), right)

    def test_wrong_controllers(self) -> None:
        wrong = {
            "wrong in cycle 1 of history 0": ("!step[0]", "step[0]"),
            "wrong in cycle 2 of history 0": ("reset && bad", "reset && (bad || step == 3'd2)"),
            f"wrong in cycle {DONE + 1} of history 0": ("3'd6 ? 3'd6", "3'd6 ? 3'd0"),
        }
        for line, change in wrong.items():
            with self.subTest(change=change):
                self.assertTrue(self.told(changed(change)).startswith(f"{line}: "), self.told(changed(change)))

    def test_fail_that_misses_a_wrong_answer(self) -> None:
        """Right answers alone show nothing: the first history with a wrong one does."""
        told = self.told(changed(("rdata != 2'd0", "rdata[0]")), histories=200)
        self.assertRegex(told, r"^wrong in cycle [56] of history [1-9]\d*: ok 0, fail 0 for 1, en 0, done [01]$")


class Calls(Sources):
    def test_what_reaches_beyond_a_simulation_is_refused(self) -> None:
        comment = self.file("// $fopen\nmodule a; endmodule\n")
        beside_icarus.refuse_sources([comment])
        for call in ("$fopen", "$system", "$dumpfile", "$fwrite", "$writememh"):
            file = self.file(f"module a;\n  initial {call}(1);\nendmodule\n")
            with self.assertRaises(Unclocked) as caught:
                beside_icarus.refuse_sources([file])
            self.assertEqual(str(caught.exception), f"'{file}':2: {call} would reach out of the simulation")

    def asked(self) -> Beside:
        ports = [("input", "clk", 1), ("output", "en", 1), ("output", "addr", 6)]
        return Beside([], front_end.Plain("m", ports, [], [], [], [], {}, None), None, MEMORY, nonce="s1")

    def test_icarus_is_needed(self) -> None:
        with mock.patch("shutil.which", return_value=None):
            with self.assertRaisesRegex(Unclocked, r"^Icarus \(iverilog and vvp\) is not on the PATH$"):
                beside_icarus.beside(self.asked())

    def test_last_lines_of_a_run(self) -> None:
        found = beside_icarus.found_in("at 100\ns1 equal -1 -1 0 100\n", self.asked(), "Icarus")
        self.assertEqual((found.line(), found.doubt), ("beside Icarus: equal in 100 cycles", None))
        found = beside_icarus.found_in("s1 equal 7 9 1 1234\n", self.asked(), "Icarus")
        late = "beside Icarus: equal in 1,234 cycles; from cycle 7 on a port is unknown to Icarus in some of them"
        self.assertEqual((found.line(), found.doubt), (late, ("addr", 9)))
        two = "^the sources mean two things, .*: addr is 2a in cycle 12 by Icarus, and 0x by Yosys$"
        with self.assertRaisesRegex(Differs, two):
            said = "s1 differs 1 12 000000000000002a 000000000000000x\ns1 equal -1 -1 0 9\n"
            beside_icarus.found_in(said, self.asked(), "Icarus")
        # what a source prints says nothing
        for said in ("", "at 100\n", "equal -1 -1 0 9\n", "s2 equal -1 -1 0 9\n"):
            with self.assertRaisesRegex(Unclocked, "^the run in Icarus did not end: "):
                beside_icarus.found_in(said, self.asked(), "Icarus")

    def test_cycle_of_a_run(self) -> None:
        out = self.folder / "out"
        out.write_text("")
        self.assertEqual(beside_icarus.how_far(out), "")
        out.write_text("at 100\nat 200\nat 3000\n")
        self.assertEqual(beside_icarus.how_far(out), "cycle 3,000")

    def test_lines_that_set_registers(self) -> None:
        word = "    dut.kept[1] = {made.kept};"
        other = "    $deposit(dut.bad, {made.bad});"
        self.assertEqual(beside_icarus.escaped(other), "    $deposit(dut.\\bad , {made.bad});")
        self.assertEqual(beside_icarus.escaped(word), "    $deposit(dut.\\kept[1] , {made.kept});")
        self.assertIsNone(beside_icarus.escaped("    $deposit(dut.\\bad , {made.bad});"))
        same = {word: {"one"}, other: {"two"}}
        kept = beside_icarus.known(same, {other})
        self.assertEqual(kept, {word: {"one"}, "    $deposit(dut.\\bad , {made.bad});": {"two"}})
        self.assertEqual(beside_icarus.known(kept, set(kept)), {"    $deposit(dut.\\kept[1] , {made.kept});": {"one"}})

    def test_long_words_are_set_whole(self) -> None:
        """Of a word with more than 32 bits Icarus 11 deposits the last 32 alone."""
        line = beside_icarus.set_to("dut.wide", "{r_1}", 33)
        self.assertEqual(line, "    dut.wide = {r_1};")
        self.assertEqual(beside_icarus.escaped(line), "    dut.\\wide  = {r_1};")
        self.assertEqual(beside_icarus.set_to("dut.word", "{r_1}", 32), "    $deposit(dut.word, {r_1});")

    def test_models_of_known_cells_have_no_defaults(self) -> None:
        cells = "module SB_DFF(output Q, input D = 1'b0, input E = 1'b1);"
        made = Beside([], front_end.Plain("m", [], [], [], [], [], {}, None), None, MEMORY, cells)
        self.assertEqual(made.known(), "module SB_DFF(output Q, input D, input E);")


WIDE = """module wide(input clk, input reset, output [7:0] first);
  reg [63:0] turns;
  assign first = turns[63:56];
  always @(posedge clk) turns <= {turns[62:0], turns[63]};
endmodule
"""


@needs("yosys")
class Registers(unittest.TestCase):
    """Which registers of the sources are set to what those of the made module are."""

    def same(self, text: str) -> dict[str, set[str]]:
        return Beside([], plain_of(text), None, MEMORY).same()

    @needs("iverilog")
    def test_long_register_is_the_same_in_both(self) -> None:
        with tempfile.TemporaryDirectory() as name:
            source = pathlib.Path(name) / "wide.v"
            source.write_text(WIDE)
            seen = beside_icarus.beside(Beside([str(source)], front_end.plain_of([str(source)], {}), None, None))
        self.assertGreater(seen.cycles, 1000)

    def test_each_register_is_set(self) -> None:
        bits = {f"made.step[{bit}]" for bit in range(3)}
        step = "    $deposit(dut.step, {made.step[2], made.step[1], made.step[0]});"
        same = self.same(SMALL)
        self.assertEqual(same, {step: bits, "    $deposit(dut.bad, {made.bad});": {"made.bad"}})
        self.assertTrue(Beside([], plain_of(SMALL), None, MEMORY).is_whole(same))
        self.assertFalse(Beside([], plain_of(SMALL), None, MEMORY).is_whole({step: bits}))
