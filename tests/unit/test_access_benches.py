"""What `access` writes round a self-test, clocked by Icarus: by a signal, a bus and a TAP, with a log and without."""
from __future__ import annotations

import dataclasses
import pathlib
import subprocess
import tempfile
import unittest

from tests.unit.controllers import DONE, MEMORY, SMALL, changed, needs
from vidlakost_tools.access import apb, bench as access_bench, block, log, network, tap
from vidlakost_tools.access.target import Target, Unit

ONE = Target.of_memory(MEMORY, DONE)
TEST = SMALL.replace("module walker(", "module tiny_bist(")
# two small memories that are tested at once
DUO = """module duo(
  input clk, input reset, input [1:0] rdata_0, output en_0, output we_0, output addr_0, output [1:0] wdata_0,
  input [1:0] rdata_1, output en_1, output we_1, output addr_1, output [1:0] wdata_1, output done, output [1:0] fail
);
  wire both;
  tiny_bist one(.clk(clk), .reset(reset), .rdata(rdata_0), .en(en_0), .we(we_0), .addr(addr_0), .wdata(wdata_0),
    .done(done), .fail(fail[0]));
  tiny_bist two(.clk(clk), .reset(reset), .rdata(rdata_1), .en(en_1), .we(we_1), .addr(addr_1), .wdata(wdata_1),
    .done(both), .fail(fail[1]));
endmodule
"""
TWO = Target("duo", "duo", [Unit(MEMORY, "_0"), Unit(MEMORY, "_1")], True, DONE)


def parts_of(target: Target, kind: str) -> list[str]:
    """The modules of one kind of access, with their testbench."""
    made = [block.access(target), block.model(target)]
    if target.depth is not None:
        made += [log.block(unit.memory, target.depth) for unit in target.units[:1]]
    if kind == "access":
        return [*made, access_bench.access_bench(target)]
    made.append(block.cross(target))
    if kind == "apb":
        return [*made, apb.block(target), apb.bench(target)]
    return [*made, tap.block(target), tap.bench(target), *([network.block(target)] if target.has_sib else [])]


@needs("iverilog", "vvp")
class Benches(unittest.TestCase):
    def said(self, target: Target, kind: str, *words: str, test: str = TEST) -> list[str]:
        """The lines of a run of the testbench of one kind, beside a self-test."""
        texts = [*parts_of(target, kind), test, *([DUO] if target.is_chip else [])]
        return self.run_of(f"{target.name}_{kind}_tb", texts, *words)

    def run_of(self, top: str, texts: list[str], *words: str) -> list[str]:
        with tempfile.TemporaryDirectory() as name:
            folder = pathlib.Path(name)
            files = []
            for count, text in enumerate(texts):
                files.append(str(folder / f"{count}.sv"))
                pathlib.Path(files[-1]).write_text(text)
            compiled = ["iverilog", "-g2012", "-Wall", "-s", top, "-o", str(folder / "run"), *files]
            told = subprocess.run(compiled, stdout=subprocess.PIPE, stderr=subprocess.STDOUT, text=True, check=False)
            self.assertEqual(
                (told.returncode, [line for line in told.stdout.splitlines() if "timescale" not in line]), (0, [])
            )
            call = ["vvp", "-n", str(folder / "run"), *words]
            done = subprocess.run(call, stdout=subprocess.PIPE, stderr=subprocess.STDOUT, text=True, check=False)
        return done.stdout.splitlines()

    def test_sound_memory(self) -> None:
        """The register of the TAP has from its lowest bit on start, done, fail and seen, then the cycle and words."""
        registers: dict[str, list[str]] = {"access": [], "apb": [], "tap": ["tdr 0000000003"]}
        for kind, register in registers.items():
            with self.subTest(kind=kind):
                self.assertEqual(self.said(ONE, kind), ["fail 0", *register, f"tiny_{kind}_tb: passed"])

    def test_bit_that_is_stuck(self) -> None:
        """Word 1 is read in cycle 4, and its answer stands in cycle 5."""
        plant = ("+planted", "+address=1", "+bit=1", "+value=1")
        found = "fail 1 cycle 5 expected 0 returned 2"
        registers: dict[str, list[str]] = {"access": [], "apb": [], "tap": [f"tdr {2 << 38 | 5 << 4 | 0xF:010x}"]}
        for kind, register in registers.items():
            with self.subTest(kind=kind):
                self.assertEqual(self.said(ONE, kind, *plant), [found, *register, f"tiny_{kind}_tb: passed"])

    def test_self_test_that_finds_nothing(self) -> None:
        never = changed(("reset && bad", "reset && 1'b0"), text=TEST)
        for kind in ("access", "apb", "tap"):
            said = "\n".join(self.said(ONE, kind, "+planted", "+value=1", test=never))
            self.assertIn("tiny: fail is 0, and 1 bits are stuck", said)
            self.assertNotIn(f"tiny_{kind}_tb: passed", said)

    def test_self_test_that_never_ends(self) -> None:
        never = changed(("reset && step == 3'd6", "reset && 1'b0"), text=TEST)
        self.assertIn("tiny: done did not come", "\n".join(self.said(ONE, "access", test=never)))

    def test_registers_behind_segment_insertion_bits(self) -> None:
        target = dataclasses.replace(ONE, has_sib=True)
        self.assertEqual(self.said(target, "tap"), ["fail 0", "tdr 0000000003", "tiny_tap_tb: passed"])
        plant = ("+planted", "+address=0", "+bit=0", "+value=1")
        self.assertEqual(self.said(target, "tap", *plant)[0], "fail 1 cycle 4 expected 0 returned 1")

    def test_log_of_the_wrong_reads(self) -> None:
        for has_sib, kind in ((False, "apb"), (False, "tap"), (True, "tap")):
            target = dataclasses.replace(ONE, depth=2, has_sib=has_sib)
            with self.subTest(kind=kind, has_sib=has_sib):
                said = self.said(target, kind, "+planted", "+address=1", "+bit=0", "+value=1")
                self.assertEqual(said[-1], f"tiny_{kind}_tb: passed")
                self.assertIn("cycle 5 expected 0 returned 1", "\n".join(said))

    def test_log_by_itself(self) -> None:
        """The bit is stuck in both reads of its word, of which the log keeps the first."""
        target = dataclasses.replace(ONE, depth=1)
        texts = [log.bench(target, 1), log.block(MEMORY, 1), block.model(target), TEST]
        self.assertEqual(self.run_of("tiny_log_tb", texts), ["fail 0", "tiny_log_tb: passed"])
        said = self.run_of("tiny_log_tb", texts, "+planted", "+address=1", "+value=1")
        self.assertEqual(said, ["cycle 5 expected 0 returned 1", "fail 1", "tiny_log_tb: passed"])

    def test_two_memories(self) -> None:
        for kind in ("access", "apb", "tap"):
            with self.subTest(kind=kind):
                sound = self.said(TWO, kind)
                self.assertEqual((sound[0], sound[-1]), ("fail 00", f"duo_{kind}_tb: passed"))
                said = self.said(TWO, kind, "+planted", "+unit=1", "+address=1", "+bit=1", "+value=1")
                self.assertEqual(said[0], "fail 10 unit 1 cycle 5 expected 0 returned 2")

    def test_place_that_is_not_there(self) -> None:
        said = "\n".join(self.said(ONE, "access", "+planted", "+address=2"))
        self.assertIn("memory 0 has no bit 0 at address 2 that may be stuck at 0", said)
