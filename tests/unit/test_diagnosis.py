"""The diagnosis of a whole log: right twins that are among the candidates, and wrong ones that are not."""
from __future__ import annotations

import unittest
from typing import Dict, List, Tuple

from vidlakost_tools.access.log import Entry
from vidlakost_tools.diagnosis.addressing import Groups
from vidlakost_tools.diagnosis.answer import answer_of, groups_of
from vidlakost_tools.diagnosis.asked import Asked, Run, of_run
from vidlakost_tools.diagnosis.cells import Aggressors, Fault, Instance
from vidlakost_tools.diagnosis.evidence import Evidence, Test, Wrong, evidence_of
from vidlakost_tools.texts.march import elements_of
from vidlakost_tools.texts.memory import Memory
from vidlakost_tools.texts.reads import read_of
from vidlakost_tools.tool import ToolError

MARCH = elements_of("{any(w0);up(r0,w1);up(r1,w0);down(r0,w1);down(r1,w0);any(r0)}")
MATS = elements_of("{any(w0);up(r0,w1);down(r1)}")
STUCK = [Fault("<0/1/->", "SF"), Fault("<1/0/->", "SF"), Fault("<0w1/0/->", "TF")]
DISTURB = [Fault("<0w1;0/1/->", "CFds"), Fault("<1w0;0/1/->", "CFds"), Fault("<0w1;1/0/->", "CFds")]


def memory(bits: int = 4, polarity: int = 0) -> Memory:
    return Memory("m", words=8, bits=bits, latency=2, polarity=polarity, pause=3, rows=None, backgrounds=[0])


def whats(wrong: Dict[int, Wrong], mux: int = 1, polarity: int = 0, last: int | None = None) -> list[str]:
    test = Test(MARCH, memory(polarity=polarity))
    return [one.what for one in answer_of(Evidence(test, wrong, last), STUCK + DISTURB, mux).candidates]


class Reads(unittest.TestCase):
    def test_each_cycle_is_the_read_of_the_other_reading(self) -> None:
        test = Test(MARCH, memory(polarity=5), 7)
        for cycle in range(90):
            try:
                other = read_of(MARCH, memory(polarity=5), cycle - 7)
            except ToolError:
                with self.assertRaises(ToolError):
                    test.read_in(cycle)
                continue
            read, number = test.read_in(cycle)
            self.assertEqual(read, other)
            self.assertEqual(test.cycle(read.index, number), cycle)

    def test_a_full_log_knows_no_later_read(self) -> None:
        evidence, _ = evidence_of(Test(MARCH, memory()), [Entry(8 + 1 + 2, 0, 1)], True)
        self.assertEqual((evidence.wrong, evidence.last), ({0: {0: 1}}, 11))
        self.assertTrue(evidence.is_known(0, 0))
        self.assertFalse(evidence.is_known(0, 1))


class Runs(unittest.TestCase):
    """A test that runs in the cycles 1 to 60, and again in the cycles 101 to 160."""

    def of(self, run: int, cycles: List[int], more: bool) -> Tuple[List[int], bool]:
        asked = Asked("m", MARCH, memory(), 100 * run, [], 0, [Run(1, 60), Run(101, 160)], run)
        entries, is_full = of_run("log", asked, [Entry(cycle, 0, 1) for cycle in cycles], more)
        return [entry.cycle for entry in entries], is_full

    def test_a_log_of_both(self) -> None:
        self.assertEqual(self.of(0, [9, 60, 101], True), ([9, 60], False))
        self.assertEqual(self.of(1, [9, 60, 101], True), ([101], True))
        self.assertEqual(self.of(0, [9], True), ([9], True))
        self.assertEqual(self.of(1, [9, 110], False), ([110], False))

    def test_what_tells_nothing_of_a_run(self) -> None:
        for run, cycles, more, why in (
            (1, [9], True, "full before the second run"), (1, [9], False, "no read of the second run was wrong"),
            (0, [110], True, "no read of the first run was wrong"),
            (0, [9, 61, 110], False, "in cycle 61 the test of m"),
        ):
            with self.assertRaisesRegex(ToolError, why):
                self.of(run, cycles, more)


class Cells(unittest.TestCase):
    def test_a_cell_that_is_stuck(self) -> None:
        # the reads 0, 2 and 4 expect 0
        found = whats({3: {0: 2, 2: 2, 4: 2}})
        self.assertIn("<0/1/-> SF at index 3 bit 1", found)
        self.assertNotIn("<1/0/-> SF at index 3 bit 1", found)

    def test_one_right_read_less_is_another_defect(self) -> None:
        self.assertNotIn("<0/1/-> SF at index 3 bit 1", whats({3: {0: 2, 2: 2}}))

    def test_the_side_of_an_aggressor(self) -> None:
        # 0 to 1 below: seen by r0 of up(r0,w1), which comes behind it, and not by that of down(r0,w1)
        found = whats({3: {0: 2}})
        self.assertTrue(
            any(one.startswith("<0w1;0/1/-> CFds at index 3 bit 1, aggressor at any index below") for one in found)
        )
        self.assertFalse(any("above" in one and one.startswith("<0w1;0/1/->") for one in found))

    def test_a_border_of_two_elements(self) -> None:
        # of two operations at an aggressor: the word at which an element ends and the next begins is visited twice in a
        # row
        test = Test(elements_of("{up(w0);down(r0);up(r0)}"), memory())
        fault = Fault("<0w0r0;0/1/->", "dCFds")
        seen = []
        for index in (7, 6):
            one = Instance(fault, 2, 0, Aggressors(range(index, index + 1), (0,), ""))
            seen.append([number for number, is_wrong in one.answers(test, "00") if is_wrong])
        self.assertEqual(seen, [[0, 1], []])


class Lines(unittest.TestCase):
    reads = {0: 2, 2: 2, 4: 2}

    def test_a_column_and_a_data_bit(self) -> None:
        self.assertEqual(whats({index: self.reads for index in range(8)}, 2), ["data bit 1 stuck at 1"])
        self.assertEqual(whats({index: self.reads for index in range(0, 8, 2)}, 2), ["column 2 stuck at 1"])

    def test_a_part_of_a_bit_line(self) -> None:
        found = whats({index: self.reads for index in (4, 6)}, 2)
        self.assertEqual(found, ["bit line of column 2, open, from row 2 on stuck at 1"])

    def test_a_word_at_the_port(self) -> None:
        all_ones = {5: {number: 0xF for number in (0, 2, 4)}}
        self.assertIn("all of the word at index 5 stuck at 1", whats(all_ones))
        mixed = {5: {0: 0xA, 1: 0x5, 2: 0xA, 3: 0x5, 4: 0xA}}
        self.assertIn("all of the word at index 5 stuck at 1 at the port", whats(mixed, polarity=5))
        self.assertNotIn("all of the word at index 5 stuck at 1 in the cells", whats(mixed, polarity=5))


class Addresses(unittest.TestCase):
    def test_a_word_that_reaches_another(self) -> None:
        test = Test(MARCH, memory())
        found = Groups(test).found({2: (6,), 6: (6,)}, "and")
        told = whats({index: reads for index, reads in found.items() if reads})
        self.assertIn("word 2 reaches word 6 instead", told)
        self.assertNotIn("word 6 reaches word 1 instead", told)

    def test_an_address_bit(self) -> None:
        test, wrong = Test(MARCH, memory()), {}
        for low in range(4):
            wrong.update(Groups(test).found({low: (low,), low + 4: (low,)}, "and"))
        self.assertIn(
            "address bit 2 open or stuck at 0", whats({index: reads for index, reads in wrong.items() if reads})
        )


class Apart(unittest.TestCase):
    def test_a_march_that_tells_no_two_apart(self) -> None:
        found = answer_of(Evidence(Test(MATS, memory()), {3: {0: 2}}), STUCK + DISTURB, 1).candidates
        self.assertGreater(len(found), 1)
        self.assertEqual(len(groups_of(found, Test(elements_of("{any(w0)}"), memory()))), 1)
        self.assertGreater(len(groups_of(found, Test(MARCH, memory()))), 1)


if __name__ == "__main__":
    unittest.main()
