"""Tools that tell cycles, places and sizes, beside a stand-in for the program: their lines are worked out by hand."""
from __future__ import annotations

import io
from unittest import mock

from tests.unit.stand_in import Tools
from vidlakost_tools.tool import ToolError

MARCH = "{any(w0);up(r0,w1);del;down(r1)}"
# in a background 4 writes, 8 commands, a pause of 3 cycles and 4 reads: 19 cycles, which two backgrounds take twice
SMALL = (
    "memory 2\nname small\nwords 4\nbits 2\nlatency 2\npolarity 1\npause 3\n"
    "scramble a0 = p0 ^ p1\nscramble a1 = p1\nbackgrounds 0 2\n"
)
# 2 writes, 4 commands, a pause of one cycle and 2 reads
OTHER = "memory 1\nname other\nwords 2\nbits 1\n"
CHIP = "chip 1\nname soc\nbudget 3\nunit 2 @/c.m @/a.mem\nunit 1 @/c.m @/b.mem\nunit 1 @/c.m @/b.mem\n"


class Told(Tools):
    def setUp(self) -> None:
        super().setUp()
        chip = CHIP.replace("@", str(self.folder))
        self.put(c_m=MARCH, a_mem=SMALL, b_mem=OTHER, x_chip=chip)

    def lines(self, name: str, *words: str) -> list[str]:
        status, lines = self.tool(name, *words)
        self.assertEqual(status, 0)
        return lines

    def refused(self, message: str, name: str, *words: str) -> None:
        with self.subTest(words=words), self.assertRaisesRegex(ToolError, message):
            self.tool(name, *words)


class Locate(Told):
    # the read of cycle 5, whose word stands on rdata in cycle 7
    READ = ["background 0 0", "element 1 up(r0,w1)", "operation 0 r0", "index 0", "address 0"]

    def test_read_of_a_cycle(self) -> None:
        self.assertEqual(self.lines("locate", "@/c.m", "@/a.mem", "7"), self.READ)
        self.assertEqual(self.lines("locate", "@/c.m", "@/a.mem", "8", "--at", "fail"), self.READ)
        # the third read of the last element of the second background, downward: index 1, whose address is 1
        last = ["background 1 2", "element 3 down(r1)", "operation 0 r1", "index 1", "address 1"]
        self.assertEqual(self.lines("locate", "@/c.m", "@/a.mem", str(19 + 16 + 2 + 2)), last)

    def test_bits_that_differ(self) -> None:
        """The polarity inverts bit 0, so 1 is expected of a word of zeros; bit 1 is in column 1 * 2 + 0."""
        found = self.lines("locate", "@/c.m", "@/a.mem", "7", "1", "3", "--mux", "2")
        self.assertEqual(
            found[3:], ["index 0 row 0", "address 0", "bits 1", "columns 2", "stored 0 expected, 2 returned"]
        )
        line = self.lines("locate", "@/c.m", "@/a.mem", "--line", "read cycle 7 expected 1 returned 2")
        self.assertEqual(line[-2:], ["bits 0 1", "stored 0 expected, 3 returned"])

    def test_elements(self) -> None:
        spans = self.lines("locate", "@/c.m", "@/a.mem", "--elements")
        self.assertEqual(spans[0], "background 0 0 element 0 any(w0) cycles 1 to 4")
        self.assertEqual(spans[2], "background 0 0 element 2 del cycles 13 to 15")
        self.assertEqual(spans[7:], ["background 1 2 element 3 down(r1) cycles 35 to 38", "done from cycle 41"])

    def test_line_of_check(self) -> None:
        """Its cycle is that of the command itself."""
        line = "differs cycle 5 port addr expected 0 got 1"
        self.assertEqual(self.lines("locate", "@/c.m", "@/a.mem", "--line", line), self.READ)
        paused = self.lines("locate", "@/c.m", "@/a.mem", "--line", "unknown cycle 13 port en")
        self.assertEqual(paused, ["background 0 0", "element 2 del"])
        cycles = {0: "the reset", 39: "the last answer comes", 41: "done"}
        for cycle, due in cycles.items():
            self.assertEqual(
                self.lines("locate", "@/c.m", "@/a.mem", "--line", f"unknown cycle {cycle} port en"), [due]
            )

    def test_units_of_a_chip(self) -> None:
        """Unit 2 begins in cycle 40, where its own reset is: its first read is of its cycle 3 and is answered in 4."""
        found = self.lines("locate", "@/x.chip", "--chip", "44", "100")
        self.assertEqual(found[0], "unit 2 other, cycle 4 of its test")
        self.assertEqual(found[2:4], ["element 1 up(r0,w1)", "operation 0 r0"])

    def test_line_of_a_unit_s_own_testbench(self) -> None:
        """There the cycles count from the start of the unit, and not of the chip."""
        line = "unit 1 read cycle 7 expected 1 returned 3"
        self.assertEqual(self.lines("locate", "@/c.m", "@/a.mem", "--line", line)[:5], self.READ)

    def test_what_is_no_read(self) -> None:
        call = ("locate", "@/c.m", "@/a.mem")
        self.refused("no answer comes in cycle 8: 2 cycles earlier element 1 does w1$", *call, "8")
        self.refused("no answer comes in cycle 15: 2 cycles earlier element 2 is a pause$", *call, "15")
        self.refused("^this test has answers on rdata in the cycles 3 to 40, but not in 41$", *call, "41")
        self.refused("^the expected word is 0, but this march expects 1 there", *call, "7", "0", "2")
        self.refused("^1 is both expected and returned, so this read is not wrong$", *call, "7", "1", "1")
        self.refused("^'4' is no hexadecimal word of 2 bits$", *call, "7", "1", "4")
        self.refused(
            "^the line expects 3 on addr, but this march has 0 there",
            *call,
            "--line",
            "differs cycle 5 port addr expected 3 got 1",
        )
        self.refused(
            "is no line of check: it names one of the ports en, we", *call, "--line", "differs cycle 5 port addr"
        )
        self.refused(
            "^the line is of unit 1 of a chip", *call, "--line", "fail 10 unit 1 cycle 7 expected 1 returned 2"
        )

    def test_words_that_do_not_go_together(self) -> None:
        self.refused("^too few words", "locate", "@/c.m")
        self.refused("^too many words", "locate", "@/c.m", "@/a.mem", "7", "1", "3", "0")
        self.refused("^--sib needs --tdr", "locate", "@/c.m", "@/a.mem", "--sib")
        self.refused("^--elements takes only a march and a memory", "locate", "@/c.m", "@/a.mem", "7", "--elements")
        self.refused("^--at takes only fail$", "locate", "@/c.m", "@/a.mem", "7", "--at", "done")
        self.refused("^--chip takes a chip file, a cycle", "locate", "@/x.chip", "--chip", "9")


class Tables(Told):
    def test_schedule(self) -> None:
        """The first two fit the budget; the third begins in the last cycle but one of the longest of them."""
        rows = self.lines("schedule", "@/x.chip", "--svg", "@/x.svg")
        self.assertEqual(
            [row.split() for row in rows[1:]],
            [
                ["0", "small", "2", "0", "0", "41"],
                ["1", "other", "1", "0", "0", "11"],
                ["2", "other", "1", "1", "40", "51"],
                ["groups", "2", "done", "51"],
            ],
        )
        self.assertIn("soc: 3 memories in 2 groups", (self.folder / "x.svg").read_text())

    def test_summary(self) -> None:
        rows = self.lines("summary", "@/c.m", "@/a.mem", "@/b.mem", "--mhz", "10")
        self.assertEqual(
            [row.split() for row in rows[1:3]],
            [["small", "4", "2", "2", "42", "0.004"], ["other", "2", "1", "1", "12", "0.001"]],
        )
        self.assertEqual(
            rows[3:], ["one after another 54 cycles, 0.005 ms at 10 MHz", "all at once 42 cycles, 0.004 ms at 10 MHz"]
        )
        self.refused("^--mhz is a positive number, and not '0'$", "summary", "@/c.m", "@/a.mem", "--mhz", "0")

    def test_summary_as_columns(self) -> None:
        with mock.patch("sys.stdout", io.StringIO()):
            rows = self.lines("summary", "@/c.m", "@/b.mem", "--csv", "--mhz", "1")
        self.assertEqual(rows, ["memory,words,bits,backgrounds,cycles,milliseconds", "other,2,1,1,12,0.012"])

    def test_turn(self) -> None:
        """p1 = a1 ^ 1 gives a1 = p1 ^ 1, and so p0 = a0 ^ a1 gives a0 = p0 ^ p1 ^ 1."""
        self.put(rows="p0 = a0 ^ a1\np1 = a1 ^ 1 # the other half\n")
        turned = self.lines("turn", "@/rows")
        self.assertEqual(turned, ["scramble a0 = p0 ^ p1 ^ 1", "scramble a1 = p1 ^ 1"])
        self.put(back="\n".join(turned))
        self.assertEqual(self.lines("turn", "@/back"), ["p0 = a0 ^ a1", "p1 = a1 ^ 1"])

    def test_rows_that_turn_nowhere(self) -> None:
        wrong = {
            "p0 = a0\np1 = a0\n": "row 1 depends on rows before it, so two words would have one place$",
            "p0 = a1\n": "a bit on the right is not one of 0 to 0$",
            "p1 = a0\n": "each bit from 0 on needs a row$",
            "p0 = a0\np0 = a1\n": ":2: there is a row p0 already$",
            "p0 = p1\n": ":1: all bits on the right are of the other side: a0 and so on$",
            "p0 : a0\n": ":1: a line has the form p0 = a0 \\^ a1, and not 'p0 : a0'$",
        }
        for text, message in wrong.items():
            self.put(rows=text)
            self.refused(message, "turn", "@/rows")


class Trace(Told):
    REPORT = """march {any(w0);up(w1,r1);del;any(r1)}
escape <1w0/1/-> TF aggressor none victim 0 content 00 directions uuuu
escape <0r0/1/0> DRDF aggressor none victim 0 content 00 directions uuuu
escape <0w0/1/-> WDF aggressor none victim 0 content 00 directions uuuu
class TF 1 covered 0
class WDF 1 covered 0
class DRDF 1 covered 0
total 3 covered 0 escapes 3
"""

    def setUp(self) -> None:
        super().setUp()
        self.put(report=self.REPORT)

    def test_reasons(self) -> None:
        """Nothing writes 0 over a 1 or reads a 0; where 0 is written over 0, the next write repairs it."""
        told = self.lines("trace", "@/report")
        self.assertEqual(
            told,
            [
                "<1w0/1/-> TF: never acts: no w0 comes at the cell while it holds 1",
                "<0r0/1/0> DRDF: never acts: no r0 comes at the cell while it holds 0",
                "<0w0/1/-> WDF: acts in element 0, and w1 in element 1 writes over it before a read",
            ],
        )

    def test_steps_of_one(self) -> None:
        told = self.lines("trace", "@/report", "<0w0/1/->", "--steps")
        rows = [line.split() for line in told[1:]]
        self.assertEqual(rows[0], ["start", "00"])
        self.assertEqual(rows[1], ["element", "0", "w0", "cell", "0", "10", "*"])
        self.assertEqual(rows[3], ["element", "1", "w1", "cell", "0", "10"])
        self.assertIn("reads 1", told[5])

    def test_calls_that_replay(self) -> None:
        calls = self.lines("trace", "@/report", "--calls")
        self.assertEqual(calls[0], "vidlakost sim @/report.m '<1w0/1/->' 2 00 none 0 uuuu")
        self.assertEqual((self.folder / "report.m").read_text(), "{any(w0);up(w1,r1);del;any(r1)}\n")
        (self.folder / "report.m").write_text("any(w0)")
        self.refused("report.m is there, and does not hold the report's march", "trace", "@/report", "--calls")

    def test_what_is_no_escape(self) -> None:
        self.refused("report has no escape of <0/1/->$", "trace", "@/report", "<0/1/->")
        self.refused("^--memory is for a report of `inword`$", "trace", "@/report", "--memory", "@/a.mem")
        self.refused("^--calls and --run take a report and nothing else", "trace", "@/report", "--calls", "--steps")
