"""Chips that `top` joins, or leaves in place, clocked by Icarus with right controllers.

Sound memories pass, and what is planted at one of them is found.
"""
from __future__ import annotations

import subprocess
import unittest

from tests.unit.controllers import needs
from tests.unit.stand_in import Tools
from vidlakost_tools.program import ROOT
from vidlakost_tools.text import read_text
from vidlakost_tools.tool import ToolError

FOREIGN = ROOT / "examples" / "foreign"
# the march MATS+ on four words of two bits: its first read is in cycle 5, and its word comes in cycle 6
FOUR = read_text(FOREIGN / "four.mem")
TEST = read_text(FOREIGN / "one_hot.v")
NAMES = ("four", "other")
SIGNALS = ("rdata", "en", "we", "addr", "wdata")


def self_test(name: str) -> str:
    return TEST.replace("module one_hot(", f"module {name}_bist(")


def chip_module() -> str:
    """The module of a chip of two memories that are tested at once."""
    ports, parts = [], []
    for number, name in enumerate(NAMES):
        ports.append(f"input [1:0] rdata_{number}, output en_{number}, output we_{number}, output [1:0] addr_{number}")
        ports.append(f"output [1:0] wdata_{number}")
        links = ", ".join(f".{signal}({signal}_{number})" for signal in SIGNALS)
        done = "done" if number == 0 else "both"
        parts.append(
            f"  {name}_bist u{number}(.clk(clk), .reset(reset), {links}, .done({done}), .fail(fail[{number}]));\n"
        )
    head = f"module soc(input clk, input reset, {', '.join(ports)}, output done, output [1:0] fail);\n  wire both;\n"
    return "".join([head, *parts, "endmodule\n", *map(self_test, NAMES)])


class Chips(Tools):
    def setUp(self) -> None:
        super().setUp()
        here = self.folder
        self.put(c_m=read_text(ROOT / "examples" / "mats_plus.m"))
        for name in NAMES:
            (here / f"{name}.mem").write_text(FOUR.replace("name four", f"name {name}"))
            pins = ["clk ck", "addr a", "wdata d", "rdata q", "en ~ce", "we wen 2"]
            (here / f"{name}.pins").write_text("\n".join([f"macro ram_{name}", *pins, ""]))
        units = [f"unit 1 {here}/c.m {here}/{name}.mem\n" for name in NAMES]
        (here / "soc.chip").write_text(f"chip 1\nname soc\nbudget 2\n{''.join(units)}")
        (here / "soc.list").write_text(f"list 1\nname soc\nbudget 2\n{''.join(units)}")
        self.calls.chip = chip_module()
        self.calls.modules = {name: self_test(name) for name in NAMES}

    def write(self, tool: str, *options: str, file: str = "soc.chip") -> list[str]:
        """The files that a tool writes for the chip."""
        status, lines = self.tool(tool, f"@/{file}", *(f"@/{name}.pins" for name in NAMES), "@/out", *options)
        self.assertEqual(status, 0)
        return [line.replace("@/out/", "") for line in lines]

    def said(self, top: str, files: str, *words: str) -> list[str]:
        """The lines of a run of a testbench, of the files that a list names."""
        out = self.folder / "out"
        made = ["iverilog", "-g2012", "-Wall", "-Wno-timescale", "-s", top, "-o", "run", "-c", files]
        done = subprocess.run(made, cwd=out, stdout=subprocess.PIPE, stderr=subprocess.STDOUT, text=True, check=False)
        self.assertEqual((done.returncode, done.stdout), (0, ""))
        call = ["vvp", "-n", "run", *words]
        return subprocess.run(call, cwd=out, stdout=subprocess.PIPE, text=True, check=False).stdout.splitlines()


@needs("iverilog", "vvp")
class Joined(Chips):
    def test_whole_chip(self) -> None:
        files = self.write("top")
        self.assertIn("soc_system.v", files)
        self.assertEqual(self.said("soc_system_tb", "files.f"), ["soc: passes", "soc_system_tb: passed"])
        said = self.said("soc_system_tb", "files.f", "+planted")
        self.assertEqual(said[:2], [f"soc: a wrong bit at {name} is found" for name in NAMES])
        self.assertEqual(said[-1], "soc_system_tb: passed")

    def test_one_place_alone(self) -> None:
        self.write("top")
        said = self.said("soc_system_tb", "files.f", "+planted=other")
        self.assertEqual([line for line in said if " is found" in line], ["soc: a wrong bit at other is found"])

    def test_controller_that_finds_nothing(self) -> None:
        never = self_test("other").replace("assign fail = !reset && failed;", "assign fail = 1'b0;")
        self.calls.chip = chip_module().replace(self_test("other"), never)
        self.write("top")
        self.assertEqual(self.said("soc_system_tb", "files.f")[-1], "soc_system_tb: passed")
        self.assertNotIn("soc_system_tb: passed", self.said("soc_system_tb", "files.f", "+planted"))

    def test_access_to_a_whole_chip(self) -> None:
        """A bit of each word that memory 1 answers is wrong, and its first word comes in cycle 6."""
        self.write("top", "--access")
        self.write("access", "--apb", "--jtag", "--sib")
        for kind in ("access", "apb", "tap"):
            top = f"soc_{kind}_tb"
            self.assertEqual(self.said(top, f"soc_{kind}.f")[0], "fail 00")
            said = self.said(top, f"soc_{kind}.f", "+planted", "+unit=1", "+bit=1")
            self.assertEqual((said[0], said[-1]), ("fail 10 unit 1 cycle 6 expected 0 returned 2", f"{top}: passed"))

    def test_first_failure_of_each_memory(self) -> None:
        self.write("top", "--access")
        self.write("access", "--apb", "--each")
        said = self.said("soc_apb_tb", "soc_apb.f", "+each")
        self.assertEqual(said[-1], "soc_apb_tb: passed")

    def test_list_of_memories(self) -> None:
        """Of a list the tool writes a chip file, and the steps in which the chips run."""
        files = self.write("top", file="soc.list")
        self.assertIn("soc_0.chip", files)
        status, lines = self.tool("schedule", "@/soc.list", *(f"@/{name}.pins" for name in NAMES))
        self.assertEqual(status, 0)
        self.assertTrue(any("four" in line for line in lines), lines)


@needs("iverilog", "vvp")
class InPlace(Chips):
    def test_each_memory_in_its_place(self) -> None:
        files = self.write("top", "--in-place")
        self.assertIn("soc_access.v", files)
        for name in NAMES:
            top = f"{name}_in_place_tb"
            self.assertEqual(self.said(top, f"{name}_in_place.f"), [f"{name}: passes", f"{top}: passed"])
            said = self.said(top, f"{name}_in_place.f", "+planted")
            found = [f"{name}: a tied address is found", f"{name}: a wrong bit is found"]
            self.assertEqual([line for line in said if line.endswith("found")], found)
            self.assertEqual(said[-2:], [f"{name}: the first failure is read", f"{top}: passed"])

    def test_memories_are_started_by_a_tap(self) -> None:
        self.write("top", "--in-place")
        self.write("access", "--in-place", "--jtag")
        self.assertEqual(self.said("soc_tap_tb", "soc_tap.f")[0], "fail 00")
        said = self.said("soc_tap_tb", "soc_tap.f", "+planted", "+unit=1", "+bit=1")
        self.assertRegex(said[0], r"^fail 10 unit 1 cycle \d+ expected 0 returned 2$")
        self.assertEqual(said[-1], "soc_tap_tb: passed")


class Refused(Chips):
    def refused(self, message: str, *words: str) -> None:
        with self.subTest(words=words), self.assertRaisesRegex(ToolError, message):
            self.tool(*words)

    def test_words_of_access(self) -> None:
        pins = [f"@/{name}.pins" for name in NAMES]
        self.refused("^--sib needs --jtag", "access", "@/four.mem", "@/out", "--sib")
        bus = "^a bus reads the log of a whole chip: write --apb or --jtag"
        self.refused(bus, "access", "@/soc.chip", *pins, "@/out", "--log", "2")
        self.refused(
            "^--in-place keeps the first failure", "access", "@/soc.chip", *pins, "@/out", "--in-place", "--each"
        )
        self.refused("^for one memory --jtag needs --march MARCH", "access", "@/four.mem", "@/out", "--jtag")
        self.refused(
            "^--march is for one memory: a chip file names its marches$",
            "access",
            "@/soc.chip",
            "@/out",
            "--march",
            "@/c.m",
        )
        self.refused("^--log is 1 to 64, and not 65$", "access", "@/four.mem", "@/out", "--log", "65")
        march = ("--march", "@/c.m", "--jtag")
        self.refused("^--mhz is a clock in megahertz", "access", "@/four.mem", "@/out", *march, "--mhz", "0")
        self.refused(
            "^--idcode has eight hexadecimal digits", "access", "@/four.mem", "@/out", *march, "--idcode", "12345678"
        )

    def test_pins_that_are_missing(self) -> None:
        self.refused(
            "^no file lists the pins of other: name each file after its memory, as other.pins$",
            "top",
            "@/soc.chip",
            "@/four.pins",
            "@/out",
        )
        (self.folder / "third.pins").write_text((self.folder / "four.pins").read_text())
        third = "third.pins: there is no memory third; the memories are four, other$"
        self.refused(third, "top", "@/soc.chip", *(f"@/{name}.pins" for name in (*NAMES, "third")), "@/out")


if __name__ == "__main__":
    unittest.main()
