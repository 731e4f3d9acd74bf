"""Tools that write pages, descriptions and makefiles: what stands in their files is worked out by hand."""
from __future__ import annotations

import json
import shutil
import subprocess
import unittest
import unittest.mock

from tests.unit.stand_in import Tools
from tests.unit.test_tools_chips import NAMES, Chips
from vidlakost_tools.pages import signoff
from vidlakost_tools.text import read_text
from vidlakost_tools.texts.memory import parse_memory
from vidlakost_tools.tool import ToolError

MARCH = "{any(w0);up(r0,w1);del;down(r1)}"
MEMORY = "memory 2\nname small\nwords 4\nbits 2\nlatency 2\npause 3\nbackgrounds 0\n"
# a march without a write of 0 over a 1
REPORT = f"""march {MARCH}
memory small words 4 bits 2 backgrounds 1 commands 16
covered <0/1/-> SF
escape <1w0/1/-> TF aggressor none victim 0 content 00 directions uuuu
class SF 1 covered 1
class TF 1 covered 0
total 2 covered 1 escapes 1
"""
LIBRARY = """library(l) {
  type (word) { bit_width : 8; bit_from : 7; bit_to : 0; }
  type (place) { bit_width : 4; bit_from : 3; bit_to : 0; }
  cell(RAM) {
    memory() { type : ram; address_width : 4; word_width : 8; }
    bus(q) { bus_type : word; direction : output; memory_read() { address : a; } }
    bus(d) { bus_type : word; direction : input; memory_write() { address : a; clocked_on : ck; } }
    bus(a) { direction : input; bus_type : place; }
    pin(ck) { direction : input; clock : true; }
    pin(csb) { direction : input; }
    pin(odd) { direction : input; }
  } }
"""


class Written(Tools):
    def refused(self, message: str, *words: str) -> None:
        with self.subTest(words=words), self.assertRaisesRegex(ToolError, message):
            self.tool(*words)

    def text(self, name: str) -> str:
        return (self.folder / name).read_text()


class Reports(Written):
    def setUp(self) -> None:
        super().setUp()
        self.put(report=REPORT, a_mem=MEMORY, c_m=MARCH)

    def test_object(self) -> None:
        made = json.loads("".join(self.tool("report", "@/report", "--json")[1]))
        self.assertEqual((made["schema"], made["length"]), ("vidlakost-report-1", "4n+1D"))
        self.assertEqual(made["memory"]["commands"], 16)
        self.assertEqual(made["verdicts"][0], {"primitive": "<0/1/->", "class": "SF", "covered": True})
        escape = {"cells": 2, "aggressor": None, "victim": 0, "content": "00", "directions": "uuuu"}
        self.assertEqual(made["verdicts"][1]["escape"], escape)
        self.assertEqual(made["classes"]["TF"], {"primitives": 1, "covered": 0})
        self.assertEqual(made["total"], {"primitives": 2, "covered": 1, "escapes": 1})

    def test_page(self) -> None:
        self.tool("report", "@/report", "--html", "@/x.html")
        page = self.text("x.html")
        self.assertIn("Memory small: 4 words of 2 bits, 1 backgrounds, 16 commands.", page)
        self.assertIn('<span class="square escape" title="escapes">&lt;1w0/1/-&gt;</span>', page)
        self.assertIn("<td>never acts: no w0 comes at the cell while it holds 1</td>", page)

    def test_reports_of_several_memories(self) -> None:
        reader = unittest.mock.patch.object(signoff, "read_memory", lambda path: parse_memory(read_text(path)))
        with reader:
            rows = self.tool("report", "--all", "@/report", "--csv", "--memory", "@/a.mem", "--mhz", "10")[1]
        self.assertEqual(rows[0], "memory,words,bits,backgrounds,march,length,SF,TF,total,commands,cycles,ms")
        self.assertTrue(rows[1].endswith(",4n+1D,1/1,0/1,1/2,16,23,0.002"), rows[1])

    def test_page_for_a_tester(self) -> None:
        self.tool("report", "--tester", "@/c.m", "@/a.mem", "--html", "@/x.html")
        self.assertIn("The test takes 22 cycles of clk", self.text("x.html"))

    def test_words_that_do_not_go_together(self) -> None:
        for words in (
            ["@/report"],
            ["--all", "@/report"],
            ["@/report", "--json", "--html", "@/x"],
            ["--tester", "@/c.m"],
        ):
            with self.subTest(words=words), self.assertRaises(ToolError):
                self.tool("report", *words)
        self.refused("is the report itself$", "report", "@/report", "--html", "@/report")


class Liberty(Written):
    def setUp(self) -> None:
        super().setUp()
        self.put(l_lib=LIBRARY)

    def test_cell_of_a_library(self) -> None:
        """The address has four bits; what stands on a name alone has a mark, until the call says what it is."""
        files = self.tool("liberty", "@/l.lib", "RAM", "@/out")[1]
        self.assertEqual(files, ["@/out/ram.mem", "@/out/ram.pins"])
        memory = parse_memory(self.text("out/ram.mem"))
        self.assertEqual((memory.name, memory.words, memory.bits, memory.latency), ("ram", 16, 8, 1))
        pins = self.text("out/ram.pins").splitlines()
        self.assertIn("macro RAM", pins)
        self.assertIn("#? en ~csb  # by its name, active low", pins)
        self.tool("liberty", "@/l.lib", "RAM", "@/out2", "--name", "other", "--pin", "csb=~en", "--pin", "odd=we")
        pins = self.text("out2/other.pins").splitlines()
        self.assertTrue(any(line.startswith("en ~csb") for line in pins), pins)
        self.assertFalse(any(line.startswith("#?") for line in pins), pins)

    def test_port_list(self) -> None:
        ports = "input CLK, input [3:0] A, input [7:0] D, output [7:0] Q, input WEN"
        self.put(p_v=f"module RAM({ports});\nendmodule\n")
        self.tool("liberty", "--verilog", "@/p.v", "RAM", "@/out")
        memory = parse_memory(self.text("out/ram.mem"))
        self.assertEqual((memory.words, memory.bits), (16, 8))

    def test_what_is_refused(self) -> None:
        call = ("liberty", "@/l.lib", "RAM", "@/out")
        self.refused("^'wire' is no name for a memory: give one with --name$", *call, "--name", "wire")
        self.refused("^--pin is PIN=KIND, with KIND one of", *call, "--pin", "csb")
        self.refused("^--pin 'x=en': there is no such pin$", *call, "--pin", "x=en")
        self.refused("^--pin 'csb=we': the pin is named twice$", *call, "--pin", "csb=en", "--pin", "csb=we")
        self.refused("^--pin 'q=en': q is an output$", *call, "--pin", "q=en")
        self.refused("^--pin 'a=wdata': the library says that a is addr$", *call, "--pin", "a=wdata")


class Diagnoses(Written):
    def test_column_that_answers_one_value(self) -> None:
        """Bit 1 is wrong in each read of a 0, and in no read of a 1: its data bit is stuck at 1, or its column."""
        self.put(c_m="{any(w0);up(r0,w1);down(r1)}", a_mem="memory 1\nname small\nwords 4\nbits 2\nbackgrounds 0\n")
        # the reads of 0 are in the cycles 5, 7, 9 and 11, and their words come one later
        self.put(log="".join(f"cycle {cycle} expected 0 returned 2\n" for cycle in (6, 8, 10, 12)))
        status, lines = self.tool("diagnosis", "@/log", "@/c.m", "@/a.mem", "--with", "@/c.m")
        self.assertEqual(status, 0)
        self.assertEqual(lines[2:4], ["data bit: data bit 1 stuck at 1", "column: column 1 stuck at 1"])
        self.assertEqual(lines[4:], ["no march separates the 2 candidates"])

    def test_log_that_nothing_gives(self) -> None:
        """Bit 0 is wrong in one read of word 0, and bit 1 in one of word 1; all other reads are right."""
        self.put(c_m="{any(w0);up(r0,r0,r0)}", a_mem="memory 1\nname small\nwords 4\nbits 2\nbackgrounds 0\n")
        self.put(log="cycle 6 expected 0 returned 1\ncycle 10 expected 0 returned 2\n")
        status, lines = self.tool("diagnosis", "@/log", "@/c.m", "@/a.mem", "--with", "@/c.m")
        self.assertEqual(status, 1)
        self.assertIn("no single defect that this tool knows gives this log", lines)


class Flows(Chips):
    def flow(self, *options: str) -> str:
        self.assertEqual(self.tool("flow", "@/soc.chip", "@/out", *options)[0], 0)
        return (self.folder / "out" / "Makefile").read_text()

    def test_makefile_of_a_chip(self) -> None:
        """The files of pins are found beside the descriptions."""
        text = self.flow()
        for name in NAMES:
            self.assertIn(f"{name}.report", text)
            self.assertIn(f"{self.folder}/{name}.pins", text)
        self.assertIn("all", (self.folder / "out" / "faults.list").read_text().split())

    @unittest.skipIf(shutil.which("make") is None, "make is not installed")
    def test_make_reads_it(self) -> None:
        self.flow()
        words = ["make", "-n", "-C", str(self.folder / "out")]
        done = subprocess.run(words, stdout=subprocess.PIPE, stderr=subprocess.STDOUT, text=True, check=False)
        self.assertEqual(done.returncode, 0, done.stdout)
        for tool in ("compile", "collar", "top", "access"):
            self.assertIn(tool, done.stdout)

    def test_pins_that_are_missing(self) -> None:
        (self.folder / "other.pins").unlink()
        with self.assertRaisesRegex(
            ToolError, "^the folder of the description of other has no file other.pins: name the files"
        ):
            self.flow()


if __name__ == "__main__":
    unittest.main()
