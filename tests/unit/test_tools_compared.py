"""Marches side by side, and refusals and warnings as the launcher asks for them."""
from __future__ import annotations

import json
import unittest
from unittest import mock

from tests.unit.stand_in import Tools
from vidlakost_tools.commands import compare
from vidlakost_tools.commands.compare import Judged
from vidlakost_tools.refusals import finding
from vidlakost_tools.texts.in_word import InWordReport, WordVerdict
from vidlakost_tools.texts.linked import INVERSIONS, LinkedReport, LinkVerdict
from vidlakost_tools.texts.report import Report
from vidlakost_tools.tool import ToolError


class Compared(Tools):
    """The first march reads a 0 alone; the second one reads a 0 and a 1 that it wrote over a 0."""

    def setUp(self) -> None:
        super().setUp()
        self.put(l_list="SF\nTF\n", short_m="{any(w0);any(r0)}", long_m="{any(w0);up(r0,w1);down(r1)}")
        # the list speaks neither of the address decoder nor of linked faults
        for name in ("decoded", "linked"):
            patch = mock.patch.object(compare, name, return_value=None)
            patch.start()
            self.addCleanup(patch.stop)

    def test_table(self) -> None:
        lines = self.tool("compare", "@/l.list", "@/short.m", "@/long.m")[1]
        self.assertEqual(
            [line.split() for line in lines[:3]],
            [
                ["march", "length", "SF", "TF", "total"],
                ["short", "2n", "1/2", "0/2", "1/4"],
                ["long", "4n", "2/2", "1/2", "3/4"],
            ],
        )
        self.assertEqual([line.split() for line in lines[5:]], [["SF", "<1/0/->", "long"], ["TF", "<0w1/0/->", "long"]])

    def test_object(self) -> None:
        made = json.loads("".join(self.tool("compare", "@/l.list", "@/short.m", "@/long.m", "--json")[1]))
        self.assertEqual(made["schema"], "vidlakost-compare-1")
        self.assertEqual(made["reports"]["@/long.m"]["total"], {"primitives": 4, "covered": 3, "escapes": 1})
        self.assertEqual(made["differs"], {"<1/0/->": ["@/long.m"], "<0w1/0/->": ["@/long.m"]})

    def test_equal_names_and_equal_marches(self) -> None:
        """Where two files have one name their paths tell them apart; equal marches differ in nothing."""
        (self.folder / "other").mkdir()
        (self.folder / "other" / "short.m").write_text("{ any(w0) ; any(r0) }")
        lines = self.tool("compare", "@/l.list", "@/short.m", "@/other/short.m")[1]
        self.assertEqual(len(lines), 3)
        self.assertTrue(lines[2].startswith("@/other/short.m"), lines)


class Columns(unittest.TestCase):
    def test_inversion_couplings(self) -> None:
        """March X covers CFin, and none of the primitives that it is made of."""
        links = [LinkVerdict(kind, first, second) for kind, first, second in map(str.split, INVERSIONS)]
        report = mock.Mock(spec=Report, classes={}, total=(12, 0, 12), elements=[])
        decoder = mock.Mock(covered=6, verdicts=[None] * 6)
        lines = [*compare.table(["x"], [Judged(report, decoder, LinkedReport("", [], links))])]
        self.assertEqual(
            [line.split()[2:] for line in lines], [["total", "AF", "LF", "CFin"], ["0/12", "6/6", "2/2", "2/2"]]
        )

    def test_readings_inside_a_word(self) -> None:
        """Of three couplings one is covered in both readings, one in `before` alone, one in neither."""
        verdicts = [
            WordVerdict("<0;0/1/->", "CFst"),
            WordVerdict("<0;0w1/0/->", "CFtr", 1, 0, "00", "behind"),
            WordVerdict("<0w1;0/1/->", "CFds", 1, 0, "00", "both"),
        ]
        lines = [*compare.table(["x"], [Judged(InWordReport("", [], {}, verdicts, 0))])]
        self.assertEqual(
            [line.split()[2:] for line in lines],
            [["CFst", "CFtr", "CFds", "total", "before", "behind"], ["1/1", "0/1", "0/1", "1/3", "2/3", "1/3"]],
        )


class Launcher(Tools):
    def explained(self, *words: str) -> list[str]:
        with mock.patch.object(finding, "quick_program", return_value=None):
            status, lines = self.tool("explain", *words)
        self.assertEqual(status, 0)
        return lines

    def test_refusal_in_its_call(self) -> None:
        self.put(c_m="{any(w2)}")
        lines = self.explained("--said", "3", "march M1 byte 6", "--", "bench", "@/c.m", "@/a.mem")
        self.assertEqual(lines, ["@/c.m:1:6: error: 'w2' is not allowed here", "  {any(w2)}", "       ^"])
        self.assertEqual(self.explained("--said", "9", "no memory", "--", "bench"), ["vidlakost: error: out of memory"])

    def test_warnings_of_a_call(self) -> None:
        self.put(a_v="// full_case\nmodule m(output y);\n  assign y = 1'b1;\nendmodule\n")
        lines = self.explained("--warn", "check", "@/a.v", "c.m", "a.mem")
        self.assertEqual(lines[0], "@/a.v:1:4: warning: a comment that synthesis tools obey")

    def test_wrong_words(self) -> None:
        for words in (["--said", "3", "march M2", "bench"], ["--said", "x", "march M2", "--", "bench"], ["--no"]):
            with self.subTest(words=words), self.assertRaises(ToolError):
                self.tool("explain", *words)


if __name__ == "__main__":
    unittest.main()
