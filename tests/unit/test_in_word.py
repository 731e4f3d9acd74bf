"""Reports of `inword`: their reader, the plain model of two bits of one word, and why an escape escapes."""
from __future__ import annotations

import pathlib
import tempfile
import unittest

from vidlakost_tools.texts import in_word
from vidlakost_tools.texts.in_word import WordVerdict
from vidlakost_tools.texts.march import elements_of
from vidlakost_tools.texts.memory import parse_memory
from vidlakost_tools.tool import ToolError

MARCH = "{any(w0);up(r0,w1);any(r1)}"
MEMORY = parse_memory("memory 1\nname duo\nwords 2\nbits 2\n")
REPORT = f"""march {MARCH}
memory duo words 2 bits 2 backgrounds 2 commands 16
covered <0;0/1/-> CFst
escape <0w1;0/1/-> CFds aggressor 0 victim 1 content 00 reading behind
apart 3
total 2 covered 1 escapes 1
"""


class Reports(unittest.TestCase):
    def read(self, text: str) -> in_word.InWordReport:
        with tempfile.TemporaryDirectory() as folder:
            path = pathlib.Path(folder) / "report"
            path.write_text(text)
            return in_word.read_in_word(path)

    def test_a_report(self) -> None:
        report = self.read(REPORT)
        self.assertEqual(
            report.verdicts,
            [WordVerdict("<0;0/1/->", "CFst"), WordVerdict("<0w1;0/1/->", "CFds", 0, 1, "00", "behind")],
        )
        self.assertEqual((report.apart, report.total), (3, (2, 1, 1)))
        self.assertEqual(report.classes, {"CFst": (1, 1), "CFds": (1, 0)})
        self.assertEqual(report.memory["bits"], 2)

    def test_both_readings(self) -> None:
        """What escapes in both passes at its bits in the first; each reading has a count of its own."""
        report = self.read(REPORT.replace("reading behind", "reading both"))
        verdict = report.escapes[0]
        self.assertEqual((verdict.reading, verdict.first), ("both", "before"))
        self.assertEqual(report.by_reading, [1, 1])
        self.assertEqual(self.read(REPORT).by_reading, [2, 1])
        self.assertEqual(self.read(REPORT).as_object()["readings"], {"before": 2, "behind": 1})

    def test_one_bit(self) -> None:
        text = f"march {MARCH}\nmemory duo words 2 bits 1 backgrounds 1 commands 8\napart 3\nno two bits 2\n"
        report = self.read(text + "total 0 covered 0 escapes 0\n")
        self.assertEqual((report.apart, report.unpaired, report.total), (3, 2, (0, 0, 0)))
        self.assertRaises(ToolError, self.read, text.replace("no two bits 2\n", "") + "total 0 covered 0 escapes 0\n")

    def test_what_is_none(self) -> None:
        for old, new in (
            ("apart 3\n", ""),
            ("memory duo", "memory 2"),
            ("escapes 1", "escapes 0"),
            ("victim 1", "victim 0"),
            ("victim 1", "victim 2"),
            ("content 00", "content 0"),
            ("reading behind", "reading beside"),
            (" reading behind", ""),
            ("apart 3\n", "apart 3\nno two bits 2\n"),
            ("escape <0w1;0/1/-> CFds", "escape <0w1/0/-> TF"),
            ("covered <", "covers <"),
            ("march {any(w0)", "march {all(w0)"),
        ):
            self.assertRaises(ToolError, self.read, REPORT.replace(old, new))


class Couples(unittest.TestCase):
    def steps(self, primitive: str, aggressor: int, victim: int, content: str) -> list[tuple[str, str, bool]]:
        verdict = WordVerdict(primitive, "CF", aggressor, victim, content)
        return [(it.operation, it.held, it.acts) for it in in_word.steps_of(verdict, elements_of(MARCH), MEMORY)]

    def test_an_operation_is_on_both_bits(self) -> None:
        # the second background is 10: bit 1 holds the data value, bit 0 its inverse
        self.assertEqual(
            self.steps("<0w1;0/1/->", 0, 1, "00"),
            [
                ("", "00", False),
                ("w0", "00", False),
                ("r0", "00", False),
                ("w1", "11", True),
                ("r1", "11", False),
                ("w0", "01", False),
                ("r0", "01", False),
                ("w1", "10", False),
                ("r1", "10", False),
            ],
        )

    def test_the_word_is_written_first(self) -> None:
        # w0 on both bits, where both hold 0: behind it the victim holds 1, which the read tells
        steps = self.steps("<0w0;0/1/->", 1, 0, "00")
        self.assertEqual(steps, [("", "00", False), ("w0", "01", True), ("r0", "01", False)])

    def test_two_readings(self) -> None:
        # both bits go from 0 to 1: behind the write the other bit holds 1
        for primitive, acts in (
            ("<0;0w1/0/->", (True, False)),
            ("<1;0w1/0/->", (False, True)),
            ("<0w1;1/0/->", (False, True)),
        ):
            for reading, wanted in zip(in_word.READINGS, acts):
                verdict = WordVerdict(primitive, "CF", 1, 0, "00", reading)
                steps = list(in_word.steps_of(verdict, elements_of(MARCH), MEMORY))
                self.assertEqual(steps[3].acts, wanted, (primitive, reading))

    def test_states_alone_act_before_the_test(self) -> None:
        self.assertEqual(self.steps("<1;0/1/->", 1, 0, "10")[0], ("", "11", True))

    def test_what_a_read_answers(self) -> None:
        steps = list(in_word.steps_of(WordVerdict("<0;0r0/1/0>", "CFdr", 1, 0, "00"), elements_of(MARCH), MEMORY))
        self.assertEqual((steps[2].answer, steps[2].held, steps[2].differs), ("00", "01", False))
        steps = list(in_word.steps_of(WordVerdict("<0;0r0/0/1>", "CFir", 1, 0, "00"), elements_of(MARCH), MEMORY))
        self.assertEqual((steps[2].answer, steps[2].held, steps[2].differs), ("01", "00", True))


class Reasons(unittest.TestCase):
    def why(self, primitive: str, aggressor: int, victim: int, content: str = "00") -> str:
        return in_word.reason(WordVerdict(primitive, "CF", aggressor, victim, content), elements_of(MARCH), MEMORY)[0]

    def test_why_an_escape_escapes(self) -> None:
        self.assertEqual(
            self.why("<0w1;0/1/->", 0, 1),
            "acts in background 0, element 1, and the same operation leaves the victim as it has to be",
        )
        self.assertEqual(
            self.why("<0;0r0/1/0>", 1, 0), "acts in background 0, element 1, and w1 writes over it before a read"
        )
        self.assertEqual(self.why("<1w1;0/1/->", 0, 1), "never acts: no w1 comes at the aggressor while it holds 1")
        self.assertEqual(
            self.why("<0w0;1/0/->", 0, 1), "never acts: w0 never comes at the aggressor while the victim holds 1"
        )
        self.assertEqual(self.why("<0;0/1/->", 0, 1), "is caught in background 0, element 1, so it is no escape")


if __name__ == "__main__":
    unittest.main()
