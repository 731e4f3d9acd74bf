"""A board whose two memories stay in their places: the testbench of its bundles in Icarus, and the proof of its use."""
from __future__ import annotations

import json
import shutil
import subprocess
import unittest
from unittest import mock

from tests.unit.controllers import needs
from tests.unit.test_tools_chips import NAMES, Chips
from vidlakost_tools.audit.beside_icarus import Differs
from vidlakost_tools.in_place import places_beside
from vidlakost_tools.tool import ToolError

USE = "input [1:0] a, input [1:0] d, input ce, input [1:0] wen"
LINKS = ".a(a), .d(d), .ce(ce), .wen(wen)"
# the memory `four` stands in a part, and `other` in the top
BEFORE = f"""module core(input clk, {USE}, output [1:0] q);
  ram_four bank(.ck(clk), {LINKS}, .q(q));
endmodule
module board(input clk, {USE}, output [1:0] q, output reg [1:0] sum);
  wire [1:0] p;
  core one(.clk(clk), {LINKS}, .q(q));
  ram_other two(.ck(clk), {LINKS}, .q(p));
  always @(posedge clk) sum <= sum ^ p;
endmodule
"""
AFTER = f"""module core(input clk, {USE}, output [1:0] q, input [1:0] to, output [2:0] of);
  four_in_place bank(.ck(clk), {LINKS}, .q(q), .bist_in(to), .bist_out(of));
endmodule
module board(input clk, {USE}, output [1:0] q, output reg [1:0] sum,
  input start, output done, output [1:0] fail);
  wire [1:0] p, to_0, to_1;
  wire [2:0] of_0, of_1;
  core one(.clk(clk), {LINKS}, .q(q), .to(to_0), .of(of_0));
  other_in_place two(.ck(clk), {LINKS}, .q(p), .bist_in(to_1), .bist_out(of_1));
  always @(posedge clk) sum <= sum ^ p;
  wire test, seen, unit;
  wire [31:0] cycle;
  wire [1:0] expected, returned;
  soc_access tested(.clk(clk), .start(start), .ignore(2'd0), .to_0(to_0), .of_0(of_0), .to_1(to_1), .of_1(of_1),
    .test(test), .done(done), .fail(fail), .seen(seen), .cycle(cycle), .expected(expected), .returned(returned),
    .unit(unit));
endmodule
"""
SUM = "  always @(posedge clk) sum <= sum ^ p;\n"
# a flip-flop with a reset, one that is reset to what is no constant, and a latch
KEPT = """  reg [1:0] kept, open;
  reg turned;
  always @(posedge clk or negedge ce) if (!ce) kept <= 2'd2; else kept <= kept + d;
  always @(posedge clk or negedge ce) if (!ce) turned <= wen[0]; else turned <= d[0];
  always @* if (a[0]) open = d ^ {2{turned}} ^ kept;
"""
PLACES = """# where the memories of the board stand
places 1
chip board
source @/after.v
at four one.bank
at other two
access tested
clock clk 10
start start
done done
fail fail
"""


class Placed(Chips):
    def setUp(self) -> None:
        super().setUp()
        (self.folder / "before.v").write_text(BEFORE)
        (self.folder / "after.v").write_text(AFTER)

    def places(self, text: str = PLACES, after: str = AFTER) -> tuple[int, list[str]]:
        """What the tool says of a text of places but for its verdict, and its status."""
        status, lines = self.verdict(text, after, "--no-simulate")
        return status, [line for line in lines if not line.startswith("places: ")]

    def verdict(self, text: str, after: str, *options: str) -> tuple[int, list[str]]:
        (self.folder / "after.v").write_text(after)
        (self.folder / "board.places").write_text(text.replace("@", str(self.folder)))
        self.write("top", "--in-place")
        pins = [f"@/{name}.pins" for name in NAMES]
        return self.tool("places", "@/board.places", "@/soc.chip", *pins, "@/out", *options)


@needs("iverilog", "vvp")
class Runs(Placed):
    def test_bundles_and_the_test(self) -> None:
        """Word 0 is read in cycle 5 of a memory's own test, and comes in cycle 6."""
        status, files = self.places()
        self.assertEqual((status, files), (0, ["@/out/soc_places_tb.sv", "@/out/soc_places.f"]))
        said = self.said("soc_places_tb", "soc_places.f")
        self.assertEqual(said[-1], "soc_places_tb: passed")
        self.assertIn("soc: passes once more", said)
        for name in NAMES:
            said = self.said("soc_places_tb", "soc_places.f", f"+planted={name}")
            self.assertTrue(any(f"{name} is found, first in cycle 6" in line for line in said), said)
            self.assertEqual(said[-1], "soc_places_tb: passed")

    def test_bundles_that_changed_places(self) -> None:
        """Each test passes still, but the bits of a bundle are another memory's."""
        bundles = ".to_0(to_{0}), .of_0(of_{0}), .to_1(to_{1}), .of_1(of_{1})"
        crossed = AFTER.replace(bundles.format(0, 1), bundles.format(1, 0))
        self.assertNotEqual(crossed, AFTER)
        self.assertNotIn("soc_places_tb: passed", self.heard(after=crossed))

    def heard(self, text: str = PLACES, after: str = AFTER) -> str:
        """All that the testbench of a chip says, however it ends."""
        self.places(text, after)
        made = ["iverilog", "-g2012", "-s", "soc_places_tb", "-o", "run", "-c", "soc_places.f"]
        subprocess.run(made, cwd=self.folder / "out", check=True, capture_output=True)
        call = ["vvp", "-n", "run"]
        return subprocess.run(call, cwd=self.folder / "out", stdout=subprocess.PIPE, text=True, check=False).stdout

    def test_clock_that_hangs_on_the_use(self) -> None:
        """An edge from 0 to an unknown bit ticks in a simulator; `a` is unknown in test, unless it keeps a value."""
        gated = AFTER.replace("four_in_place bank(.ck(clk)", "four_in_place bank(.ck(clk & ~a[0])")
        self.assertIn("soc: in test the clock of memory 0 is unknown", self.heard(after=gated))
        self.assertIn("soc_places_tb: passed", self.heard(PLACES + "set a 2'd0\n", gated))
        gated = AFTER.replace("soc_access tested(.clk(clk)", "soc_access tested(.clk(clk & ~a[0])")
        self.assertIn("soc: in test the clock of the sequencer is unknown", self.heard(after=gated))

    def test_done_of_something_else(self) -> None:
        early = AFTER.replace(".done(done)", ".done()").replace("  soc_access", "  assign done = start;\n  soc_access")
        self.assertIn("soc: done is told, and the sequencer has not ended", self.heard(after=early))

    def test_clock_that_is_much_faster(self) -> None:
        """Such a memory is at rest again before done of the sequencer falls."""
        fast = AFTER.replace("module board(input clk,", "module board(input fast, input clk,")
        fast = fast.replace("core one(.clk(clk)", "core one(.clk(fast)")
        self.assertIn("soc_places_tb: passed", self.heard(PLACES.replace("clk 10", "clk 40\nclock fast 2"), fast))


@needs("yosys")
class Proofs(Placed):
    PROVED = PLACES + "before @/before.v\n"

    def differences(self, old: str = "", new: str = "") -> tuple[int, list[str]]:
        """The status, and what the proof tells, where a text of the board is another."""
        self.assertIn(old, AFTER)
        status, lines = self.places(self.PROVED, AFTER.replace(old, new) if old else AFTER)
        return status, [line for line in lines if "not what it was" in line]

    def test_use_is_what_it_was(self) -> None:
        self.assertEqual(self.differences(), (0, []))

    def test_use_is_another(self) -> None:
        turned = LINKS.replace(".d(d)", ".d({d[0], d[1]})")
        swapped = self.differences(f"two(.ck(clk), {LINKS}", f"two(.ck(clk), {turned}")
        self.assertEqual(swapped, (1, [f"soc: in use d[{bit}] of other is not what it was" for bit in (1, 0)]))
        status, lines = self.differences("sum <= sum ^ p", "sum <= sum ^ ~p")
        self.assertEqual((status, len(lines) > 0), (1, True))
        self.assertTrue(all("sum" in line for line in lines), lines)


    def test_verdict_comes_first(self) -> None:
        status, lines = self.verdict(self.PROVED, AFTER, "--no-simulate")
        self.assertEqual((status, lines[-1]), (0, "places: right as Yosys reads it, not simulated"))
        status, lines = self.verdict(self.PROVED, AFTER.replace("sum ^ p", "sum ^ ~p"))
        self.assertEqual(status, 1)
        self.assertRegex(lines[-1], "^places: wrong: in use sum.* is not what it was")

    def compared(self, old: str, new: str) -> list[str]:
        """What the proof tells of a board with more flip-flops, a text of which is another than before."""
        self.assertIn(old, KEPT)
        (self.folder / "before.v").write_text(BEFORE.replace(SUM, KEPT + SUM.replace("p;", "p ^ open;")))
        after = AFTER.replace(SUM, KEPT.replace(old, new) + SUM.replace("p;", "p ^ open;"))
        return self.places(self.PROVED, after)[1][2:]

    def test_asynchronous_resets(self) -> None:
        """A flip-flop that is reset to what is no constant is compared over several cycles."""
        same = ["soc: in use each memory, each flip-flop and each output has what it had"]
        self.assertEqual(self.compared("", ""), same)
        for old, new in {
            "kept <= 2'd2": "kept <= 2'd3",
            "posedge clk or negedge ce) if (!ce) kept": "negedge clk or negedge ce) if (!ce) kept",
            "kept + d": "kept - d",
            "turned <= wen[0]": "turned <= wen[1]",
            "posedge clk or negedge ce) if (!ce) turned": "negedge clk or negedge ce) if (!ce) turned",
            "if (a[0]) open = d": "if (a[1]) open = d",
        }.items():
            with self.subTest(new=new):
                told = self.compared(old, new)
                name = next(name for name in ("kept", "turned", "open") if name in new)
                self.assertTrue(any(f"in use {name}" in line for line in told), told)

    def added(self, before: str, after: str) -> list[str]:
        """What the proof tells of a board that got an output `more`, by one text before and by another after."""
        board, more = "module board(input clk,", "module board(output more, input clk,"
        (self.folder / "before.v").write_text(BEFORE.replace(board, more).replace(SUM, SUM + before))
        return self.places(self.PROVED, AFTER.replace(board, more).replace(SUM, SUM + after))[1][2:]

    def test_drivers_that_can_be_off(self) -> None:
        """Such a driver that holds 0 is no 0, and of two on one net each counts."""
        same = ["soc: in use each memory, each flip-flop and each output has what it had"]
        low = "  assign more = ce ? 1'b0 : 1'bz;\n"
        both = low + "  assign more = wen[0] ? a[0] : 1'bz;\n"
        self.assertEqual(self.added(low, low), same)
        self.assertEqual(self.added(both, both), same)
        for before, after, what in (
            (low, "  assign more = 1'b0;\n", "when it is driven of more[0] is not there any more"),
            (both, both.replace("a[0]", "a[1]"), "the driver of more[0] is not what it was"),
            (both, both.replace("wen[0]", "wen[1]"), "when it is driven of more[0] is not what it was"),
        ):
            self.assertIn(f"soc: in use {what}", self.added(before, after))
        never = ["soc: in use more is not what it was"]
        self.assertEqual(self.added("  assign more = 1'bz;\n", "  assign more = 1'b0;\n"), never)
        chosen = "  reg it;\n  always @* case (a) 0: it = ce; 1: it = d[0]; 2: it = d[1]; default: it = 1'bz; endcase\n"
        kept = "  reg it;\n  always @(posedge clk) if (ce) it <= d[0]; else it <= 1'bz;\n"
        for before, after in ((chosen, chosen), (kept, kept.replace("ce", "a[0]"))):
            with self.assertRaisesRegex(ToolError, "board has a `z`"):
                self.added(before + "  assign more = it;\n", after + "  assign more = it;\n")

    def test_nets_with_two_drivers(self) -> None:
        """What two drivers make of a net is proved of nothing."""
        plain = "  assign more = ce;\n"
        for wrong in ("  assign q[0] = d[0];\n", "  assign sum[0] = clk;\n", "  assign p = to_0;\n"):
            told = self.added(plain, plain + wrong)
            self.assertTrue(told and all(line.endswith("has more than one driver") for line in told), told)
        told = self.added(plain + "  assign q[0] = d[0];\n", plain)
        self.assertTrue(told and all(line.endswith("had more than one driver") for line in told), told)

    def test_gate_that_yosys_takes_for_another(self) -> None:
        gate = "  notif0 (more, d[0], ce);\n"
        with self.assertRaisesRegex(ToolError, "Yosys takes notif0 for notif1"):
            self.added(gate, gate.replace("notif0", "notif1"))

    def test_set_beside_a_reset(self) -> None:
        """Yosys does not say which of both wins, so such a block has to be word by word what it was."""
        flip = "  reg it;\n  always @(posedge clk or negedge ce or negedge wen[0])\n"
        flip += "    if (!ce) it <= 1'b0; else if (!wen[0]) it <= 1'b1; else it <= d[0];\n  assign more = it;\n"
        same = ["soc: in use each memory, each flip-flop and each output has what it had"]
        spaced = flip.replace("  reg it;", "  // it\n  reg it;").replace(" if", "\n if")
        self.assertEqual(self.added(flip, spaced), same)
        turned = flip.replace("if (!ce) it <= 1'b0; else ", "")
        turned = turned.replace("else it <= d", "else if (!ce) it <= 1'b0; else it <= d")
        told = "it has a set and a reset, and another text than before: which of both wins is not compared"
        self.assertIn(f"soc: in use {told}", self.added(flip, turned))

    def test_first_values(self) -> None:
        """A flip-flop, a latch and a word begin with what they began with."""
        same = ["soc: in use each memory, each flip-flop and each output has what it had"]
        flip = "  reg it = 1'b1;\n  always @(posedge clk) it <= ~it;\n  assign more = it;\n"
        latch = "  reg it = 1'b1;\n  always @* if (ce) it = a[0];\n  assign more = it;\n"
        words = "  reg it [0:1];\n  initial it[1] = 1'b1;\n  always @(posedge clk) it[a[0]] <= ce;\n"
        words += "  assign more = it[d[0]];\n"
        for text, name in ((flip, "it"), (latch, "it"), (words, "it[1]")):
            self.assertEqual(self.added(text, text), same)
            told = self.added(text, text.replace("= 1'b1;", "= 1'b0;", 1))
            self.assertIn(f"soc: in use {name} begins with 1'b0, and began with 1'b1", told)
        told = self.added(flip, flip.replace(" = 1'b1;", ";", 1))
        self.assertIn("soc: in use it begins with 1'bx, and began with 1'b1", told)

    def test_parts_that_no_source_describes(self) -> None:
        """Of such a part the pins are compared, its module and its parameters, also where it has no output."""
        parts = "(* blackbox *) module meter(input a); parameter P = 1; endmodule\n"
        parts += "(* blackbox *) module gauge(input a); parameter P = 1; endmodule\n"
        (self.folder / "parts.v").write_text(parts)
        named = self.PROVED + "source @/parts.v\nbefore @/parts.v\n"
        (self.folder / "before.v").write_text(BEFORE.replace(SUM, SUM + "  meter it(.a(ce));\n"))
        other = "it is of another module, or has other parameters, than before"
        for part, why in {
            "meter it(.a(ce));": "each memory, each flip-flop and each output has what it had",
            "meter it(.a(clk));": "it.a is not what it was",
            "gauge it(.a(ce));": other,
            "meter #(2) it(.a(ce));": other,
            "": "it is not there any more",
        }.items():
            told = self.places(named, AFTER.replace(SUM, f"{SUM}  {part}\n"))[1]
            self.assertIn(f"soc: in use {why}", told)

    def test_functions_of_the_process(self) -> None:
        """Yosys would call a function of C that a source names, in its own process."""
        called = '  import "DPI-C" function integer getpid();\n  assign more = getpid();\n'
        with self.assertRaisesRegex(ToolError, "yosys refuses it: .*getpid"):
            self.added("  assign more = 1'b0;\n", called)

    def test_gate_of_a_clock_that_the_test_opens(self) -> None:
        """In use the test is 0, so what it opens is what it was."""
        gate = "  reg open;\n  always @* if (!clk) open = {};\n  core one(.clk(clk & open)"
        (self.folder / "before.v").write_text(BEFORE.replace("  core one(.clk(clk)", gate.format("ce")))
        opened = AFTER.replace("[1:0] p,", "test;\n  wire [1:0] p,").replace("  wire test, seen", "  wire seen")
        opened = opened.replace("  core one(.clk(clk)", gate.format("ce | test"))
        self.assertEqual(self.places(self.PROVED, opened)[0], 0)
        self.assertEqual(self.places(self.PROVED, opened.replace("ce | test", "ce | ~test"))[0], 1)

    def test_before_that_has_the_test(self) -> None:
        """The chip as it is now is no chip as it was."""
        with self.assertRaisesRegex(ToolError, "Module `.four_in_place' referenced in module `.core'"):
            self.places(PLACES + "before @/after.v\n")


class Texts(Placed):
    def test_texts_that_are_refused(self) -> None:
        refused = {
            "no line 'at' is for other": PLACES.replace("at other two\n", ""),
            "four has that place, too": PLACES.replace("at other two", "at other one.bank"),
            "there is no memory third": PLACES + "at third x\n",
            "line 5 has four, too": PLACES + "at four two\n",
            "nobody is no input of board": PLACES + "clock nobody 10\n",
            "clk is named twice": PLACES + "clock clk 7\n",
            "d is named twice": PLACES + "set d 2'b00\nset d 2'b11\n",
            "fail is named twice": PLACES.replace("done done", "done fail"),
            "a of board has 2 bits, and it has to have 1": PLACES + "clock a 7\n",
            "fail of board has 2 bits, and it has": PLACES.replace("done done\nfail", "done fail\nfail done #"),
            "a has 2 bits": PLACES + "set a 1'b0\n",
            "no source has the module board": PLACES.replace("after.v", "four.pins"),
            "write either the lines start, done and fail, or the line tap": PLACES.replace("done done\n", ""),
            "begins with 'places 1'": PLACES.replace("places 1\n", ""),
            "a line is at MEMORY PATH": PLACES.replace("at other two", "at other two;"),
        }
        for message, text in refused.items():
            with self.subTest(message=message), self.assertRaisesRegex(ToolError, message):
                self.places(text)


if __name__ == "__main__":
    unittest.main()


@needs("yosys", "iverilog", "vvp")
class Simulated(Placed):
    """Both boards in random use, in Icarus."""

    PROVED = PLACES + "before @/before.v\n"

    def test_both_are_alike(self) -> None:
        status, lines = self.verdict(self.PROVED, AFTER, "--json", "@/out.json")
        self.assertIn("beside Icarus: equal in 20,000 cycles of use", lines)
        said = "in use each memory, each flip-flop and each output has what it had, simulated by Icarus"
        self.assertEqual((status, lines[-1]), (0, f"places: right: {said}"))
        told = json.loads((self.folder / "out.json").read_text())
        self.assertEqual((told["verdict"], told["simulated"], told["told"]), ("right", True, said))
        self.assertEqual([one["name"] for one in told["witnesses"]], ["Yosys", "Icarus"])
        self.assertTrue(all(len(one["sha256"]) == 64 for one in told["inputs"]))

    def test_what_yosys_reads_otherwise(self) -> None:
        """A block that sleeps is to Yosys the wire that it was."""
        wire = LINKS.replace(".d(d)", ".d(word)")
        sleeps = AFTER.replace(f"two(.ck(clk), {LINKS}", f"two(.ck(clk), {wire}").replace(
            SUM, SUM + "  reg [1:0] word;\n  always @(d[0]) word = d;\n"
        )
        status, lines = self.verdict(self.PROVED, sleeps)
        self.assertEqual((status, lines[0]), (1, lines[0]))
        self.assertRegex(lines[-1], "^places: refused: d of other is .* in cycle .* by Icarus, and was .* before$")
        sleeps = AFTER.replace(SUM, SUM.replace("sum ^ p", "#300 sum ^ p"))
        self.assertEqual(self.verdict(self.PROVED, sleeps)[0], 1)

    def test_port_without_a_number(self) -> None:
        """What is unknown in one chip alone, or never has a number, is no yes."""
        proof = mock.Mock(named=lambda name: name)
        end = ["end"]
        runs = [["01", "1"], ["x1", "1"], end], [["01", "1"], ["x1", "1"], end]
        self.assertEqual(places_beside.difference(proof, ["sum", "q"], *runs), "")
        runs = [["01", "1"], ["11", "1"], end], [["01", "1"], ["x1", "1"], end]
        told = places_beside.difference(proof, ["sum", "q"], *runs)
        self.assertEqual(told, "sum is x1 in cycle 0, and was 11 before")
        runs = [["01", "x"], ["11", "x"], end], [["01", "x"], ["11", "x"], end]
        self.assertEqual(places_beside.difference(proof, ["sum", "q"], *runs), "q never had a number")
        with self.assertRaisesRegex(Differs, "sum is 00 in cycle 1 of random use by Icarus, and was x1 before$"):
            places_beside.difference(proof, ["sum"], [["0"], ["1"], ["x1"], end], [["0"], ["1"], ["00"], end])

    def test_icarus_is_missing(self) -> None:
        found = shutil.which
        with mock.patch("shutil.which", lambda name: None if name == "iverilog" else found(name)):
            status, lines = self.verdict(self.PROVED, AFTER)
        self.assertEqual((status, lines[-1]), (1, "places: unknown: right as Yosys reads it, not simulated"))
