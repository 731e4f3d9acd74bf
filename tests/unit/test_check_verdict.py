"""The verdict of `check` for scripts: what the launcher hands on, and what stands in the file."""
from __future__ import annotations

import hashlib
import json
import os
import pathlib
import subprocess
import tempfile
import unittest
from typing import Any

from vidlakost_tools.program import ROOT

MODULE, MARCH, MEMORY = "a module\n", "a march\n", "a memory\n"
PROGRAM = """#!/bin/sh
echo "$*" >called
echo '{}'
exit {}
"""


class Verdict(unittest.TestCase):
    def setUp(self) -> None:
        self.place = tempfile.TemporaryDirectory()
        self.addCleanup(self.place.cleanup)
        self.folder = pathlib.Path(self.place.name)
        for name, text in (("a.v", MODULE), ("a.m", MARCH), ("a.mem", MEMORY)):
            (self.folder / name).write_text(text)

    def call(self, line: str, status: int, *words: str) -> subprocess.CompletedProcess[str]:
        program = self.folder / "program"
        program.write_text(PROGRAM.format(line, status))
        program.chmod(0o755)
        return subprocess.run(
            ["bash", str(ROOT / "vidlakost"), "check", *words],
            cwd=self.folder,
            env={**os.environ, "VIDLAKOST_PROGRAM": str(program), "VIDLAKOST_EXPLAIN": "0"},
            stdin=subprocess.DEVNULL,
            stdout=subprocess.PIPE,
            stderr=subprocess.PIPE,
            text=True,
            check=False,
        )

    def told(self, line: str, status: int) -> dict[str, Any]:
        done = self.call(line, status, "a.v", "a.m", "a.mem", "--json", "out.json")
        self.assertEqual((done.stdout, done.returncode), (f"{line}\n", status), done.stderr)
        self.assertEqual((self.folder / "called").read_text(), "check a.v a.m a.mem\n")
        told: dict[str, Any] = json.loads((self.folder / "out.json").read_text())
        return told

    def test_each_answer_has_its_verdict(self) -> None:
        rows: list[tuple[str, int, list[Any]]] = [
            ("conforms 43", 0, ["right", None, None, None, None]),
            ("differs cycle 13 port addr expected 3 got 0", 1, ["wrong", 13, "addr", "3", "0"]),
            ("unknown cycle 2 port wdata", 1, ["unknown", 2, "wdata", None, "unknown"]),
            ("march M8", 4, ["refused", None, None, None, None]),
            ("absent 2", 3, ["refused", None, None, None, None]),
        ]
        for line, status, due in rows:
            told = self.told(line, status)
            self.assertEqual([told[name] for name in ("verdict", "cycle", "port", "due", "got")], due, line)
            self.assertEqual((told["tool"], told["status"], told["told"]), ("check", status, line))
            self.assertIs(told["simulated"], False)

    def test_it_names_what_read_it_and_the_sum_of_each_input(self) -> None:
        told = self.told("conforms 43", 0)
        self.assertEqual([(it["name"], it["saw"]) for it in told["witnesses"]], [("check", "conforms 43")])
        due = [("a.v", MODULE), ("a.m", MARCH), ("a.mem", MEMORY)]
        sums = [{"file": name, "sha256": hashlib.sha256(text.encode()).hexdigest()} for name, text in due]
        self.assertEqual(told["inputs"], sums)

    def test_the_option_may_stand_anywhere(self) -> None:
        for words in (["--json", "o", "a.v", "a.m", "a.mem"], ["a.v", "--json", "o", "a.m", "a.mem"]):
            done = self.call("conforms 1", 0, *words)
            self.assertEqual((done.returncode, (self.folder / "called").read_text()), (0, "check a.v a.m a.mem\n"))
            (self.folder / "o").unlink()

    def test_no_input_is_written_over(self) -> None:
        done = self.call("conforms 1", 0, "a.v", "a.m", "a.mem", "--json", "./a.m")
        self.assertEqual((done.returncode, (self.folder / "a.m").read_text()), (2, MARCH))
        self.assertIn("is the march", done.stderr)

    def test_a_verdict_that_cannot_be_written_is_none(self) -> None:
        done = self.call("conforms 1", 0, "a.v", "a.m", "a.mem", "--json", "nowhere/out.json")
        self.assertNotEqual(done.returncode, 0)

    def test_other_words_stay_words(self) -> None:
        """With three words each is a file, whatever its name."""
        self.call("conforms 1", 0, "--json", "a.m", "a.mem")
        self.assertEqual((self.folder / "called").read_text(), "check --json a.m a.mem\n")


if __name__ == "__main__":
    unittest.main()
