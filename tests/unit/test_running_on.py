"""Where a run of another background goes on into that of the background 0, by hand: acts, words, pauses, a warning."""
from __future__ import annotations

import unittest

from vidlakost_tools.refusals import otherwise
from vidlakost_tools.texts.faults import read_primitive
from vidlakost_tools.texts.march import read_elements
from vidlakost_tools.texts.memory import Memory
from vidlakost_tools.texts.report import Report, Verdict
from vidlakost_tools.texts.running_on import begins_afresh

# in the background 1 its last operation writes 1 to word 0, and in the background 0 its first writes 0 there
MARCH = "{up(w0);up(w1,w0);up(r0,w1);down(w0)}"


def memory(backgrounds: list[int], bits: int = 1) -> Memory:
    return Memory("one", 2, bits, 1, 0, 1, None, backgrounds)


class Runs(unittest.TestCase):
    def afresh(self, primitive: str, march: str, backgrounds: list[int], bits: int = 1) -> bool:
        return begins_afresh(read_primitive(primitive), read_elements(march), memory(backgrounds, bits))

    def test_where_the_background_0_stands(self) -> None:
        self.assertFalse(self.afresh("<0w1w0/1/->", MARCH, [1, 0]))
        self.assertTrue(self.afresh("<0w1w0/1/->", MARCH, [0, 1]))
        self.assertTrue(self.afresh("<0w1w0/1/->", MARCH, [0, 1, 0]))
        # only the run right before counts, and either bit of its words: bit 0 is 0 in 2, and 1 in 1
        self.assertFalse(self.afresh("<0w0w0/1/->", MARCH, [1, 2, 0], 2))
        self.assertTrue(self.afresh("<0w0w0/1/->", MARCH, [2, 3, 0], 2))

    def test_which_acts_they_are(self) -> None:
        self.assertTrue(self.afresh("<0w0w0/1/->", MARCH, [1, 0]))
        self.assertFalse(self.afresh("<0w1w0;0/1/->", MARCH, [1, 0]))
        self.assertTrue(self.afresh("<0r0w0/1/->", MARCH, [1, 0]))
        # of a read the bit that it expects plays no part
        self.assertFalse(self.afresh("<0r0w0/1/->", "{up(w0,r0);up(w1,r1);down(w0,r0)}", [1, 0]))

    def test_where_the_runs_are_at_other_words(self) -> None:
        for march in ("{up(w0);up(w1,w0)}", "{down(w0);down(w1,w0)}", "{up(w0);any(w1,w0)}"):
            self.assertTrue(self.afresh("<0w1w0/1/->", march, [1, 0]))
        for march in ("{down(w0);up(w1,w0)}", "{any(w0);down(w0)}"):
            self.assertFalse(self.afresh("<0w1w0/1/->", march, [1, 0]))

    def test_pauses_leave_nothing_begun(self) -> None:
        self.assertTrue(self.afresh("<0w1w0/1/->", "{del;up(w0);down(w0)}", [1, 0]))
        self.assertTrue(self.afresh("<0w1w0/1/->", "{up(w0);down(w0);del}", [1, 0]))


class Warnings(unittest.TestCase):
    def report(self, *verdicts: Verdict) -> Report:
        return Report(MARCH, read_elements(MARCH), None, list(verdicts), {}, (0, 0, 0))

    def test_covered_dynamic_primitives_are_named(self) -> None:
        found = self.report(
            Verdict("<0w1/0/->", "TF"),
            Verdict("<0w1w0/1/->", "DYN1"),
            Verdict("<0w0w0/1/->", "DYN1"),
            Verdict("<1;0w1w0/1/->", "DYN2"),
        )
        self.assertEqual(
            otherwise.of_compiled("m", memory([1, 0]), found),
            [
                "m: warning: the background 0 is not the first, and the run before it goes on into it without an idle"
                " cycle: the module need not find <0w1w0/1/-> <1;0w1w0/1/->, which the march covers"
            ],
        )
        self.assertEqual(otherwise.of_compiled("m", memory([0, 1]), found), [])

    def test_what_the_march_does_not_cover_is_left_out(self) -> None:
        escape = Verdict("<0w1w0/1/->", "DYN1", None, 0, "00", "uuud")
        self.assertEqual(otherwise.of_compiled("m", memory([1, 0]), self.report(escape)), [])
