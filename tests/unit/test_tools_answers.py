"""Tools that explain, judge and draw.

`explain` is asked of the tables of FORMATS, `formal` and `plain` of the small controller, `bitmap` of a small log.
"""
from __future__ import annotations

import unittest

from tests.unit.controllers import SMALL, changed, needs
from tests.unit.stand_in import Tools
from vidlakost_tools.commands import explain
from vidlakost_tools.tool import ToolError

MARCH = "{any(w0);up(r0)}"
MEMORY = "memory 1\nname tiny\nwords 2\nbits 2\nbackgrounds 0\n"


class Explain(Tools):
    def told(self, *words: str) -> list[str]:
        status, lines = self.tool("explain", *words)
        self.assertEqual(status, 0)
        return lines

    def test_refusal_by_its_code_its_line_or_its_beginning(self) -> None:
        wanted = [
            "march M8 element E operation O",
            "    the first wrong read expects another bit than was written last",
        ]
        for words in (["M8"], ["march", "M8"], ["march", "M8", "element", "2", "operation", "0"], ["march M8"]):
            self.assertEqual(self.told(*words), wanted, words)
        self.assertEqual(self.told("chip", "C7")[:2], ["chip C7", "    the version is not 1"])

    def test_every_refusal_on_one_page(self) -> None:
        lines = self.told()
        heads = [line.split()[:2] for line in lines if not line.startswith(" ")]
        for code in (
            ["march", "M1"],
            ["fault", "F5"],
            ["memory", "D11"],
            ["chip", "C9"],
            ["verilog", "N10"],
            ["verilog", "B2"],
        ):
            self.assertIn(code, heads)

    def test_classes_and_names_of_the_literature(self) -> None:
        self.assertEqual(self.told("DRF")[1], "    data retention fault: the cell loses a state in a pause")
        self.assertEqual(self.told("SF")[3], "    <0/1/->, <1/0/->")
        self.assertEqual(self.told("CFdrd")[:2], ["CFdrd", "    CFdr here"])
        self.assertIn("both are SF", self.told("SAF")[1])
        self.assertEqual(self.told("other")[1], "    address x reaches the cell of y in place of its own")
        self.assertEqual(len([line for line in self.told("AF") if not line.startswith(" ")]), 3)
        self.assertEqual(self.told("LF2av")[2], "    48 links")
        self.assertEqual(len([line for line in self.told("LF") if line.endswith(" links")]), 5)

    def test_statuses_and_answers(self) -> None:
        self.assertEqual(self.told("13")[0], "status 13: misfit aggressor, misfit directions")
        self.assertEqual(self.told("16")[0], "status 16")
        self.assertRegex(self.told("conforms 43")[1], "^    status 0: these ports are right in each of the C cycles")
        self.assertRegex("\n".join(self.told("caught")), "caught element E address A operation O")

    def test_what_nothing_is_known_of(self) -> None:
        with self.assertRaisesRegex(ToolError, "^nothing is known of 'CFdrx'; did you mean 'CFdr'\\?$") as caught:
            self.tool("explain", "CFdrx")
        self.assertEqual(caught.exception.status, 1)
        with self.assertRaisesRegex(ToolError, "^nothing is known of 'qqqqqq'$"):
            self.tool("explain", "qqqqqq")

    def test_commands_and_tools(self) -> None:
        lines = self.told("--commands")
        self.assertEqual(lines[0], "usage: vidlakost NAME WORD..")
        self.assertTrue(any(line.startswith("  judge ") for line in lines))
        self.assertTrue(any(line.startswith("  13  misfit ") or line.startswith("   13  misfit ") for line in lines))
        self.assertEqual(self.told("--commands", "judge")[0], "usage: vidlakost judge MARCH FAULTS REPORT")
        with self.assertRaisesRegex(ToolError, "'jduge' is no command and no tool; did you mean 'judge'\\?"):
            self.tool("explain", "--commands", "jduge")

    def test_letters_of_a_line_stand_for_numbers_and_names(self) -> None:
        self.assertEqual(explain.pattern("march M5 element E"), r"march M5 element \d+")
        self.assertEqual(explain.plain("a `b`  \\| c"), "a b | c")


@needs("yosys")
class Judged(Tools):
    def setUp(self) -> None:
        super().setUp()
        self.put(c_m=MARCH, a_mem=MEMORY)

    def formal(self, text: str, *options: str) -> tuple[int, list[str]]:
        (self.folder / "a.v").write_text(text)
        return self.tool("formal", "@/a.v", "@/c.m", "@/a.mem", "--no-simulate", *options)

    def test_right_controller(self) -> None:
        calls: list[list[str]] = [[], ["--resets"]]
        for options in calls:
            status, lines = self.formal(SMALL, *options)
            self.assertEqual((status, lines), (0, ["formal: right as Yosys reads it, not simulated"]))

    def test_first_cycle_that_differs(self) -> None:
        wrong = {
            "differs in cycle 2": ("!step[0]", "1'b0"),
            "differs in cycle 6": ("step == 3'd6;", "step == 3'd7;"),
            # the first answer may be wrong in a bit that is not compared
            "differs in cycle 5": ("rdata != 2'd0", "rdata[0]"),
        }
        for line, change in wrong.items():
            with self.subTest(line=line):
                status, lines = self.formal(changed(change))
                self.assertEqual((status, lines[-1]), (1, f"formal: wrong: {line}"))

    def test_ports_of_another_width(self) -> None:
        status, lines = self.formal(changed(("output [1:0] wdata", "output [2:0] wdata")))
        self.assertEqual((status, lines), (1, ["formal: refused"]))

    def test_module_of_the_subset(self) -> None:
        """What `plain` writes conforms as the sources do."""
        (self.folder / "a.v").write_text(SMALL)
        self.assertEqual(self.tool("plain", "@/b.v", "@/a.v", "--no-simulate")[0], 0)
        self.assertEqual(
            self.calls.answer("check", *(str(self.folder / name) for name in ("b.v", "c.m", "a.mem"))),
            (0, "conforms 7"),
        )
        with self.assertRaisesRegex(ToolError, "is what is read$"):
            self.tool("plain", "@/a.v", "@/a.v")


class Files(Tools):
    def setUp(self) -> None:
        super().setUp()
        self.put(c_m=MARCH, a_mem=MEMORY)

    def test_bitmap_of_a_log(self) -> None:
        """The words of the reads of cycles 3 and 4 come in 4 and 5, and have bit 1 wrong: with two words in a row that
        is one row, in which bit 1 of index 0 is in column 2 and that of index 1 in column 3."""
        self.put(log="a line\ncycle 4 expected 0 returned 2\ncycle 5 expected 0 returned 2\nmore\n")
        status, lines = self.tool(
            "bitmap", "@/log", "@/c.m", "@/a.mem", "--mux", "2", "--csv", "@/x.csv", "--svg", "@/x.svg"
        )
        self.assertEqual((status, lines[0]), (0, "pair: 2 cells in 2 reads, and more followed"))
        self.assertEqual(
            lines[1:3],
            [
                "row 0 column 2 index 0 address 0 bit 1 wrong 1",
                "row 0 column 3 index 1 address 1 bit 1 wrong 1",
            ],
        )
        self.assertIn("0,2,0,0,1,1", (self.folder / "x.csv").read_text())
        self.assertIn("tiny: pair, 2 of 4 cells", (self.folder / "x.svg").read_text())

    def test_log_of_another_test(self) -> None:
        self.put(log="cycle 4 expected 1 returned 2\n")
        with self.assertRaises(ToolError):
            self.tool("bitmap", "@/log", "@/c.m", "@/a.mem")

    def test_constraints(self) -> None:
        files = self.tool("sdc", "@/a.mem", "@/out", "--mhz", "100", "--normal-mhz", "200", "--apb")[1]
        self.assertEqual(files, ["@/out/tiny_test.sdc", "@/out/tiny_normal.sdc"])
        self.assertIn("at 200 MHz", (self.folder / "out" / "tiny_normal.sdc").read_text())
        wrong: dict[str, list[str]] = {
            "^give --mhz": [],
            "^--mhz is a number above 0, and not '0'$": ["--mhz", "0"],
            "^--share is below 1, and not 1$": ["--mhz", "100", "--share", "1"],
            "at most one of --apb, --jtag and --under-tap": ["--mhz", "100", "--apb", "--jtag"],
        }
        for message, options in wrong.items():
            with self.subTest(options=options), self.assertRaisesRegex(ToolError, message):
                self.tool("sdc", "@/a.mem", "@/out", *options)


if __name__ == "__main__":
    unittest.main()
