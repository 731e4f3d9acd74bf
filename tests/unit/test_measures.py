"""What of a measured call is a figure, and what is none."""
from __future__ import annotations

import pathlib
import subprocess
import sys
import unittest

ROOT = pathlib.Path(__file__).resolve().parent.parent.parent
sys.path.append(str(ROOT / "bench"))

from measures import page  # noqa: E402
from measures.parts import Timed  # noqa: E402
from measures.simulators import of_loop  # noqa: E402


class Loops(unittest.TestCase):
    def test_a_run_that_fails_or_is_none_is_not_measured(self) -> None:
        self.assertEqual(of_loop(Timed(1.5, 0.0, 0, "- wide_tb.v:9: $finish\nfail 0 done 1680002")), 1.5)
        for said in ("fail 1 done 1680002", "fail 0 done none", "tb: Unable to open input file.", ""):
            with self.assertRaises(SystemExit, msg=said):
                of_loop(Timed(0.01, 0.0, 1, said))


class Pages(unittest.TestCase):
    def test_a_section_begins_with_what_its_measure_says(self) -> None:
        words = [sys.executable, str(ROOT / "bench" / "run"), "--list"]
        listed = subprocess.run(words, check=True, stdout=subprocess.PIPE, text=True).stdout
        lines = dict(line.split(maxsplit=1) for line in listed.splitlines())
        for name, section in page.sections().items():
            self.assertEqual(section.split("\n\n")[1], lines[name], name)


if __name__ == "__main__":
    unittest.main()
