"""What holds a program that may do harm, by itself: `python3 -m unittest discover -s tests/unit -t .`."""
from __future__ import annotations

import pathlib
import tempfile
import time
import unittest
from unittest import mock

from vidlakost_tools import bounded, confined
from vidlakost_tools.verilog.vhdl import declared_at
from vidlakost_tools.verilog.vhdl_source import reaching

HARM = "echo in >inside; (echo out >../outside); (: >../kept); rm -f ../gone; mkdir ../made; : >/dev/null; exit 0"


def held(folder: pathlib.Path, script: str) -> None:
    """Runs a script that may change this folder alone."""
    bounded.run(bounded.Call(["sh", "-c", script], bounds=bounded.Bounds(20), folder=folder, only=folder))


def may_mount() -> bool:
    """Whether this system gives the caller mounts of its own."""
    with tempfile.TemporaryDirectory() as name:
        folder = pathlib.Path(name) / "own"
        folder.mkdir()
        with mock.patch.object(bounded, "WAYS", ("mounts",)):
            held(folder, "echo >../outside")
        return not (folder.parent / "outside").exists()


class Confined(unittest.TestCase):
    def harmed(self) -> list[str]:
        """What stands beside the folder of a program that tries to change it, and what one file holds."""
        with tempfile.TemporaryDirectory() as name:
            folder = pathlib.Path(name) / "own"
            folder.mkdir()
            for kept in ("kept", "gone"):
                (folder.parent / kept).write_text(kept)
            held(folder, HARM)
            left = sorted(path.name for path in folder.parent.iterdir())
            return [*left, (folder.parent / "kept").read_text(), *(path.name for path in folder.iterdir())]

    def test_only_the_folder_is_changed(self) -> None:
        with tempfile.TemporaryDirectory() as name:
            if confined.ruleset_of(name) is None and not may_mount():
                self.skipTest("this system holds no program")
        self.assertEqual(self.harmed(), ["gone", "kept", "own", "kept", "inside"])

    def test_by_mounts(self) -> None:
        if not may_mount():
            self.skipTest("this system gives no mounts")
        with mock.patch.object(bounded, "WAYS", ("mounts",)):
            self.assertEqual(self.harmed(), ["gone", "kept", "own", "kept", "inside"])


class Sources(unittest.TestCase):
    def test_words_behind_what_ends_a_line(self) -> None:
        for end in "\n\r\v\f":
            found = reaching(f"-- x{end}file")
            self.assertEqual(found and found[:2], (5, "file"))

    def test_what_may_be_read_twice_is_looked_at(self) -> None:
        for text in (
            "'\"' file \"",
            "'\\' file \\",
            "'\"'; -- file",
            "\"open file",
            "'\"' /* \"",
            "\\a\"\\ file \\\"\\",
        ):
            self.assertIsNotNone(reaching(text), text)

    def test_comments_and_texts_say_nothing(self) -> None:
        for text in (
            "-- file",
            "/* file\n*/",
            '"file"',
            '"a""file"',
            "\\file\\",
            '"--" -- file',
            '"/*" -- file */',
            "profile",
        ):
            self.assertIsNone(reaching(text), text)


class Long(unittest.TestCase):
    def test_long_sources_are_read_at_once(self) -> None:
        begun = time.monotonic()
        for text in ("\n" * 300000, '"' * 300000, "/* " * 100000, "'\"' " * 80000, "\\ " * 100000):
            reaching(text)
        for text in ("a " * 200000, "a, " * 100000 + ": b", "\n" * 300000):
            declared_at({"a.vhd": text})
        self.assertLess(time.monotonic() - begun, 10)

    def test_declared_names_have_places(self) -> None:
        found = declared_at({"a.vhd": "signal a, b : bit; -- c : d\n  x := 1; port (q : out bit; r: in bit)\n"})
        self.assertEqual(
            found, {"signal": ("a.vhd", 1), "a": ("a.vhd", 1), "b": ("a.vhd", 1), "q": ("a.vhd", 2), "r": ("a.vhd", 2)}
        )
