"""A wrong body that the gate tries beside others is one that `bench/wrong` tries alone."""
from __future__ import annotations

import pathlib
import re
import subprocess
import sys
import unittest

ROOT = pathlib.Path(__file__).resolve().parent.parent.parent


class Bodies(unittest.TestCase):
    def test_each_body_of_a_file_of_several_is_tried_alone(self) -> None:
        words = [sys.executable, str(ROOT / "bench" / "wrong"), "--list"]
        listed = subprocess.run(words, check=True, stdout=subprocess.PIPE, text=True).stdout
        rows = {crate: names for crate, *names in (line.split() for line in listed.splitlines())}
        for edit in ROOT.glob("crates/*/must-fail/several.edit"):
            bodies = re.findall(r"^# body (\w+)\n((?:[^#].*\n)+)", edit.read_text(), re.MULTILINE)
            self.assertGreater(len(bodies), 1, edit)
            for name, lines in bodies:
                self.assertIn(name, rows[edit.parent.parent.name], edit)
                # alone it has no file of a body above it
                self.assertTrue(lines.startswith("file: "), edit)

    def test_no_other_file_holds_several(self) -> None:
        for edit in ROOT.glob("crates/*/must-fail/*.edit"):
            if edit.name != "several.edit":
                self.assertNotIn("# body ", edit.read_text(), edit)


if __name__ == "__main__":
    unittest.main()
