"""Reports on the address decoder: their reader, the plain model of a wrong decoder, and why an escape escapes."""
from __future__ import annotations

import itertools
import pathlib
import tempfile
import unittest

from tests.integration.files import DECODER
from vidlakost_tools.texts import decoder
from vidlakost_tools.texts.decoder import DecoderVerdict
from vidlakost_tools.texts.march import elements_of
from vidlakost_tools.tool import ToolError


def passes(name: str, x: int, content: str, march: str, directions: str) -> bool:
    steps = list(DecoderVerdict(name, x, 1 - x, content, directions).steps(elements_of(march)))
    return not steps[-1].differs


class Reports(unittest.TestCase):
    def read(self, text: str) -> decoder.DecoderReport:
        with tempfile.TemporaryDirectory() as folder:
            path = pathlib.Path(folder) / "report"
            path.write_text(text)
            self.assertTrue(decoder.is_report(path))
            return decoder.read_report(path)

    def test_a_report(self) -> None:
        report = self.read(DECODER)
        self.assertEqual([verdict.covered for verdict in report.verdicts], [True, True, True, False, True, False])
        self.assertEqual(report.escapes, [DecoderVerdict(name, 0, 1, "00", "udu") for name in ("both and", "both own")])
        self.assertEqual(report.covered, 4)

    def test_what_is_none(self) -> None:
        for old, new in (
            ("covered none 1\n", ""),
            ("covered none 1", "covered none 2"),
            ("covered none 1", "covered none 1 x 0 y 1 content 00 directions udu"),
            ("escape both and x 0 y 1 content 00 directions udu", "escape both and"),
            ("directions udu", "directions ud"),
            ("x 0 y 1", "x 1 y 1"),
            ("escapes 2", "escapes 1"),
            ("march {any(w0)", "march {any(w0"),
        ):
            self.assertRaises(ToolError, self.read, DECODER.replace(old, new))


class Decoders(unittest.TestCase):
    def test_what_an_address_reaches(self) -> None:
        reached = {name: DecoderVerdict(name, 1, 0, "00", "u").reached(1) for name in decoder.NAMES}
        both = {name: [1, 0] for name in ("both and", "both or", "both own")}
        self.assertEqual(reached, {"none 0": [], "none 1": [], "other": [0], **both})
        self.assertEqual(DecoderVerdict("other", 1, 0, "00", "u").reached(0), [0])

    def test_what_a_read_answers(self) -> None:
        for name, answers in (
            ("none 0", "0000"),
            ("none 1", "1111"),
            ("other", "0101"),
            ("both and", "0001"),
            ("both or", "0111"),
            ("both own", "0011"),
        ):
            verdict = DecoderVerdict(name, 0, 1, "00", "u")
            told = [verdict.answer(list(cells), 0) for cells in itertools.product((0, 1), repeat=2)]
            self.assertEqual("".join(map(str, told)), answers, name)

    def test_mats_hangs_on_the_wiring(self) -> None:
        mats = "{any(w0);any(r0,w1);any(r1)}"
        self.assertTrue(passes("both and", 0, "00", mats, "udu"))
        self.assertFalse(passes("both and", 0, "00", mats, "uuu"))
        self.assertFalse(passes("both or", 0, "00", mats, "udu"))
        self.assertTrue(passes("both and", 1, "00", mats, "uuu"))
        self.assertTrue(passes("both own", 0, "11", "{any(w1);any(r1,w0);any(r0)}", "udu"))
        self.assertFalse(passes("both own", 0, "00", mats, "uuu"))

    def test_a_pause_leaves_the_cells(self) -> None:
        self.assertTrue(passes("other", 0, "01", "{any(w1);del;any(r1)}", "uuu"))


class Reasons(unittest.TestCase):
    def why(self, name: str, march: str, directions: str) -> str:
        return decoder.reason(DecoderVerdict(name, 0, 1, "00", directions), elements_of(march))[0]

    def test_each_reason(self) -> None:
        self.assertIn("no read expects 1", self.why("none 0", "{any(w0);any(r0)}", "uu"))
        self.assertIn("answer alike", self.why("other", "{any(w0);any(r0);any(w1);any(r1)}", "uuuu"))
        self.assertIn("in element 1 y comes first", self.why("both and", "{any(w0);any(r0,w1)}", "ud"))
        self.assertIn("is caught in element 1", self.why("both and", "{any(w0);any(r0,w1)}", "uu"))

    def test_an_element_turns_a_bit(self) -> None:
        for element, read in (
            ("up(r0,w1)", "r0"),
            ("up(r1,w0,r0)", "r1"),
            ("up(r0,w1,w0)", None),
            ("up(w1)", None),
            ("up(r0)", None),
        ):
            self.assertEqual(decoder.turned(elements_of(element)[0]), read, element)
        self.assertIsNone(decoder.turned(elements_of("del")[0]))


if __name__ == "__main__":
    unittest.main()
