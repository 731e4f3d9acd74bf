"""Names of the literature, and the classes that they mean."""
from __future__ import annotations

import unittest

from vidlakost_tools.refusals.finding import CLASSES
from vidlakost_tools.texts.old_names import class_meant, class_of, meaning_of


class Names(unittest.TestCase):
    def test_a_class_means_itself(self) -> None:
        for name in CLASSES:
            self.assertEqual(class_of(name), name if name.startswith("CF") else None)
            self.assertIsNone(meaning_of(name))

    def test_letters_that_are_written_out(self) -> None:
        told = {
            "CFdrd": "CFdr",
            "CFdrdf": "CFdr",
            "cfrdf": "CFrd",
            "CFwdf": "CFwd",
            "CF-ir": "CFir",
            "CFtrf": "CFtr",
            "CFd": "CFds",
        }
        self.assertEqual({name: class_of(name) for name in told}, told)
        for name in ("CF", "CFin", "CFid", "CFxx", "CFdrdd", "DRDF", "", "F"):
            self.assertIsNone(class_of(name), name)

    def test_what_is_no_class(self) -> None:
        for name in ("CFin", "cfid", "SAF", "AF", "LF", "LF2aa", "linked", "SOF"):
            self.assertIsNotNone(meaning_of(name), name)
        self.assertIn("`decoder MARCH REPORT`", meaning_of("AF") or "")
        self.assertIn("LF2aa <0w1;0/1/-> <0w1;1/0/->", meaning_of("CFin") or "")
        self.assertIn("`linked MARCH REPORT`", meaning_of("lf3") or "")

    def test_a_slip_means_the_closest(self) -> None:
        self.assertEqual(class_meant("CFdrd", []), "CFdr")
        self.assertEqual(class_meant("DRFF", []), "DRF")
        self.assertEqual(class_meant("judg", ["judge"]), "judge")
        self.assertIsNone(class_meant("nothing", []))


if __name__ == "__main__":
    unittest.main()
