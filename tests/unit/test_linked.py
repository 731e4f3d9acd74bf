"""Reports on linked faults: their reader, the plain model of two linked primitives, and why an escape escapes."""
from __future__ import annotations

import pathlib
import tempfile
import unittest

from tests.integration.files import LINKED
from vidlakost_tools.texts import linked
from vidlakost_tools.texts.linked import LinkVerdict
from vidlakost_tools.texts.march import elements_of
from vidlakost_tools.tool import ToolError


class Reports(unittest.TestCase):
    def read(self, text: str) -> linked.LinkedReport:
        with tempfile.TemporaryDirectory() as folder:
            path = pathlib.Path(folder) / "report"
            path.write_text(text)
            self.assertTrue(linked.is_report(path))
            return linked.read_report(path)

    def test_a_report(self) -> None:
        report = self.read(LINKED)
        self.assertEqual(report.escapes, [LinkVerdict("LF1", "<0w0/1/->", "<1w1/0/->", None, None, 0, "100", "uu")])
        self.assertEqual(report.covered, 599)
        self.assertEqual(report.kinds["LF1"], (12, 11))
        self.assertEqual((report.devices, report.inversions), ((600, 599), (2, 1)))

    def test_each_device_once(self) -> None:
        """Both orders of two primitives are one device; with an aggressor of one alone they are of two kinds."""
        lines = [
            LinkVerdict("LF1", "<0w0/1/->", "<1w1/0/->"),
            LinkVerdict("LF1", "<1w1/0/->", "<0w0/1/->"),
            LinkVerdict("LF2aa", "<0w1;0/1/->", "<0w1;1/0/->", 0, 0, 1, "000", "u"),
            LinkVerdict("LF2av", "<0w1;0/1/->", "<1w0/1/->"),
            LinkVerdict("LF2va", "<1w0/1/->", "<0w1;0/1/->"),
            LinkVerdict("LF3", "<0w1;0/1/->", "<0w1;1/0/->"),
        ]
        report = linked.LinkedReport("", [], lines)
        self.assertEqual(report.devices, (4, 3))
        self.assertEqual(report.inversions, (2, 0))

    def test_what_is_none(self) -> None:
        for old, new in (
            ("covered LF1 <0w1/0/-> <0w0/1/->\n", ""),
            ("covered LF2aa", "covered LF2ab"),
            ("a none b none v 0", "a 1 b none v 0"),
            ("a none b none v 0", "v 0"),
            ("directions uu", "directions u"),
            ("content 100", "content 10"),
            ("kind LF1 total 12 covered 11 escapes 1", "kind LF1 total 12 covered 12 escapes 0"),
            ("devices total 600", "devices total 599"),
            ("march {any(w0)", "march {any(w0"),
        ):
            self.assertRaises(ToolError, self.read, LINKED.replace(old, new, 1))

    def test_other_reports(self) -> None:
        with tempfile.TemporaryDirectory() as folder:
            path = pathlib.Path(folder) / "report"
            path.write_text("march {any(w0)}\ncovered <0w1/0/-> TF\n")
            self.assertFalse(linked.is_report(path))


class Model(unittest.TestCase):
    def steps(self, verdict: LinkVerdict, march: str) -> list[tuple[str, int, bool]]:
        return [(step.cells, step.acting, step.differs) for step in verdict.steps(elements_of(march))]

    def test_the_second_hides_the_first(self) -> None:
        # a transition fails, and the read that would tell turns the bit and answers it
        verdict = LinkVerdict("LF1", "<0w1/0/->", "<0r0/1/1>", None, None, 0, "000", "u")
        self.assertEqual(
            self.steps(verdict, "{up(w1,r1)}")[:3], [("000", 0, False), ("000", 1, False), ("100", 2, False)]
        )

    def test_each_aggressor_is_its_own(self) -> None:
        verdict = LinkVerdict("LF3", "<0w1;0/1/->", "<0w1;1/0/->", 0, 1, 2, "000", "uu")
        found = self.steps(verdict, "{up(w1);up(r1)}")
        self.assertEqual(found[:4], [("000", 0, False), ("101", 1, False), ("110", 2, False), ("111", 0, False)])
        self.assertFalse(any(differs for _, _, differs in found))

    def test_a_shared_aggressor(self) -> None:
        verdict = LinkVerdict("LF2aa", "<0w1;0/1/->", "<1w0;1/0/->", 0, 0, 1, "000", "u")
        self.assertEqual(self.steps(verdict, "{up(w1,w0)}")[1:3], [("110", 1, False), ("000", 2, False)])

    def test_a_read_that_differs_ends_it(self) -> None:
        verdict = LinkVerdict("LF1", "<0w0/1/->", "<1w1/0/->", None, None, 0, "000", "uu")
        self.assertEqual(
            self.steps(verdict, "{up(w0,r0);up(r0)}"), [("000", 0, False), ("100", 1, False), ("100", 0, True)]
        )


class Reasons(unittest.TestCase):
    def reason(self, verdict: LinkVerdict, march: str) -> str:
        return linked.reason(verdict, elements_of(march))[0]

    def test_reasons(self) -> None:
        pair = ("<0w0/1/->", "<1w1/0/->")
        for march, why in (
            ("{up(w0,w1)}", "<0w0/1/-> acts in element 0, and <1w1/0/-> acts on it in element 0"),
            ("{up(w0,w0)}", "<0w0/1/-> acts in element 0, and w0 in element 0 writes over it before a read"),
            ("{up(w0)}", "<0w0/1/-> acts in element 0, and the victim is not visited again"),
            ("{up(w0,r0)}", "is caught in element 0, so it is no escape"),
            ("{up(r0)}", "neither primitive acts"),
        ):
            verdict = LinkVerdict("LF1", *pair, None, None, 0, "000", "u")
            self.assertEqual(self.reason(verdict, march), why, march)
        hidden = LinkVerdict("LF1", "<0w1/0/->", "<0r0/1/1>", None, None, 0, "000", "u")
        self.assertEqual(
            self.reason(hidden, "{up(w1,r1)}"), "<0w1/0/-> acts in element 0, and <0r0/1/1> hides it in element 0"
        )
        second = LinkVerdict("LF1", *pair, None, None, 0, "100", "u")
        self.assertEqual(self.reason(second, "{up(w1)}"), "<0w0/1/-> never acts, and no read shows what <1w1/0/-> does")


if __name__ == "__main__":
    unittest.main()
