"""Testbenches and modules that tools write round one memory, clocked by Icarus beside the small controller."""
from __future__ import annotations

import subprocess
import unittest

from tests.unit.controllers import SMALL, changed, needs
from tests.unit.stand_in import Tools
from vidlakost_tools.tool import ToolError

MARCH = "{any(w0);up(r0)}"
MEMORY = "memory 1\nname tiny\nwords 2\nbits 2\nbackgrounds 0\n"
TEST = SMALL.replace("module walker(", "module tiny_bist(")
# the last comparison shows in cycle 6
PASSES = "fail 0 done 6"
# the same march with a pause of four cycles, which the step 3 counts down
PAUSED = changed(
    ("  reg bad;", "  reg bad;\n  reg [1:0] left;"),
    ("reset && step >= 3'd1 && step <= 3'd4", "reset && step != 3'd3 && step <= 3'd5"),
    ("!step[0]", "step == 3'd2 || step == 3'd5"),
    ("step == 3'd6;", "step == 3'd7;"),
    ("      bad <= 1'b0;\n", "      bad <= 1'b0;\n      left <= 2'd3;\n"),
    (
        "      step <= step == 3'd6 ? 3'd6 : step + 3'd1;\n",
        "      if (step == 3'd3 && left != 2'd0) left <= left - 2'd1;\n"
        "      else step <= step == 3'd7 ? 3'd7 : step + 3'd1;\n",
    ),
    ("step == 3'd4 || step == 3'd5", "step == 3'd5 || step == 3'd6"),
    text=TEST,
)


class Written(Tools):
    def setUp(self) -> None:
        super().setUp()
        self.put(c_m=MARCH, a_mem=MEMORY)

    def said(self, top: str, test: str, *words: str) -> list[str]:
        """The lines of a run of what stands in the folder `out`, beside a self-test."""
        out = self.folder / "out"
        (out / "tiny_bist.v").write_text(test)
        # some have a list of the files in the order in which they are to be read
        files = ["-c", "files.f"] if (out / "files.f").exists() else sorted(path.name for path in out.glob("*v"))
        made = ["iverilog", "-g2012", "-s", top, "-o", "run", *files]
        done = subprocess.run(made, cwd=out, stdout=subprocess.PIPE, stderr=subprocess.STDOUT, text=True, check=False)
        self.assertEqual((done.returncode, done.stdout), (0, ""))
        call = ["vvp", "-n", "run", *words]
        return subprocess.run(call, cwd=out, stdout=subprocess.PIPE, text=True, check=False).stdout.splitlines()

    def refused(self, message: str, *words: str) -> None:
        with self.subTest(words=words), self.assertRaisesRegex(ToolError, message):
            self.tool(*words)


@needs("iverilog", "vvp")
class Testbenches(Written):
    def bench(self, *options: str) -> list[str]:
        """The files of a testbench, in a folder without an earlier one."""
        for path in (self.folder / "out").glob("tiny_*"):
            path.unlink()
        status, files = self.tool("testbench", "@/c.m", "@/a.mem", "@/out", *options)
        self.assertEqual(status, 0)
        return files

    def test_right_controller(self) -> None:
        """The commands stand in a file, or are worked out; one of SystemVerilog says that it passed."""
        commands = self.folder / "out" / "tiny_commands.hex"
        self.assertEqual((self.bench(), commands.exists()), (["@/out/tiny_tb.v"], True))
        self.assertEqual(self.said("tiny_tb", TEST), [PASSES])
        self.assertEqual((self.bench("--stream"), commands.exists()), (["@/out/tiny_tb.v"], False))
        self.assertEqual(self.said("tiny_tb", TEST), [PASSES])
        self.assertIn("@/out/tiny_tb.sv", self.bench("--sv"))
        self.assertEqual(self.said("tiny_tb", TEST), [PASSES, "tiny_tb: passed"])
        wrong = changed(("!step[0]", "1'b0"), text=TEST)
        self.assertNotIn("tiny_tb: passed", self.said("tiny_tb", wrong))

    def test_ports_that_differ(self) -> None:
        self.bench()
        differs = {
            "differs cycle 2 port addr expected 1 got 0": ("!step[0]", "1'b0"),
            "differs cycle 1 port wdata expected 0 got 2": ("wdata = 2'd0", "wdata = 2'd2"),
            "differs cycle 5 port en expected 0 got 1": ("step <= 3'd4", "step <= 3'd5"),
        }
        for line, change in differs.items():
            self.assertEqual(self.said("tiny_tb", changed(change, text=TEST))[0], line)

    def test_content_and_fault(self) -> None:
        """A cell that keeps a 1 which it held: the fault needs no write; word 1 comes back in cycle 5."""
        self.bench("--content", "3", "--fault", "<1w0/1/->", "--victim", "1.1")
        said = self.said("tiny_tb", TEST)
        self.assertEqual(said, ["read cycle 5 expected 0 returned 2", "fail 1 done 6"])

    def test_fault_beside_an_aggressor(self) -> None:
        """The write of 0 over a 1 in word 1 sets bit 0 of word 0, which was written before."""
        self.bench("--content", "3", "--fault", "<1w0;0/1/->", "--victim", "0.0", "--aggressor", "1.0")
        self.assertEqual(self.said("tiny_tb", TEST), ["read cycle 4 expected 0 returned 1", "fail 1 done 6"])

    def test_words_that_are_refused(self) -> None:
        call = ("testbench", "@/c.m", "@/a.mem", "@/out")
        self.refused("^--content is a hexadecimal word of 2 bits, and not '4'$", *call, "--content", "4")
        self.refused("^--victim and --aggressor need a --fault$", *call, "--victim", "0.0")
        self.refused("^--fault needs the cell of its victim: --victim W.B$", *call, "--fault", "<0/1/->")

    def test_rule_in_place_of_a_testbench(self) -> None:
        self.assertEqual(self.tool("testbench", "@/c.m", "@/a.mem", "@/out", "--assert"), (0, ["@/out/tiny_rule.sv"]))
        self.assertIn("module tiny_rule(", (self.folder / "out" / "tiny_rule.sv").read_text())


@needs("iverilog", "vvp")
class Further(Written):
    def test_pauses_in_which_the_clock_stands(self) -> None:
        """With four cycles the pause is longer than the latency, and what loses its content there is found."""
        self.put(c_m="{any(w0);del;up(r0)}", a_mem=MEMORY.replace("memory 1", "memory 2") + "pause 4\n")
        files = self.tool("hold", "@/c.m", "@/a.mem", "@/out")[1]
        self.assertEqual(files, ["@/out/tiny_hold.v", "@/out/tiny_hold.md", "@/out/tiny_hold_tb.sv"])
        self.assertEqual(self.said("tiny_hold_tb", PAUSED)[-1], "tiny_hold_tb: passed")
        self.assertEqual(self.said("tiny_hold_tb", PAUSED, "+planted")[-1], "tiny_hold_tb: passed")

    def test_march_without_a_pause(self) -> None:
        self.refused("c.m: the march has no pause, so nothing can be held$", "hold", "@/c.m", "@/a.mem", "@/out")

    def test_one_controller_for_several_memories(self) -> None:
        self.tool("share", "@/a.mem", "3", "@/out")
        self.assertEqual(self.said("tiny_share_tb", TEST)[-1], "tiny_share_tb: passed")
        said = self.said("tiny_share_tb", TEST, "+planted", "+unit=1", "+address=1", "+bit=1", "+value=1")
        self.assertIn("fail 010", "\n".join(said))
        self.assertEqual(said[-1], "tiny_share_tb: passed")
        for number in ("1", "17", "x"):
            self.refused("^N is ", "share", "@/a.mem", number, "@/out")

    def test_collar_of_a_macro(self) -> None:
        self.put(ram_pins="macro ram\nclk ck\naddr a\nwdata d\nrdata q\nen ~ce\nwe wen 2\n")
        files = self.tool("collar", "@/a.mem", "--macro", "@/ram.pins", "@/out")[1]
        self.assertIn("@/out/tiny_collar.v", files)
        self.assertEqual(self.said("tiny_collar_tb", TEST)[-1], "tiny_collar_tb: passed")
        self.refused("^name the file of the pins with --macro", "collar", "@/a.mem", "@/out")
        self.refused("^--through is one of ", "collar", "@/a.mem", "--macro", "@/ram.pins", "@/out", "--through", "air")

    @needs("ghdl")
    def test_module_in_vhdl(self) -> None:
        (self.folder / "tiny_bist.v").write_text(TEST)
        self.tool("vhdl", "@/tiny_bist.v", "@/out", "@/c.m", "@/a.mem")
        out = self.folder / "out"
        for words in (["-a", "tiny_bist.vhd", "tiny_bist_tb.vhd"], ["-e", "tiny_bist_tb"]):
            subprocess.run(["ghdl", *words], cwd=out, check=True, capture_output=True)
        done = subprocess.run(["ghdl", "-r", "tiny_bist_tb"], cwd=out, capture_output=True, text=True, check=False)
        self.assertIn("fail 0 done 6", done.stdout + done.stderr)


if __name__ == "__main__":
    unittest.main()
