"""What stays of a stranger's in the folders that tools write to: files behind a link that comes in at any moment, and
files whose names are like those that we leave behind."""
from __future__ import annotations

import contextlib
import io
import os
import pathlib
import tempfile
import unittest
from typing import Callable
from unittest import mock

from vidlakost_tools import files
from vidlakost_tools.folder import Folder, write_all
from vidlakost_tools.tool import ToolError

OURS = "// made by vidlakost top\n1\n"


class Folders(unittest.TestCase):
    def setUp(self) -> None:
        made = tempfile.TemporaryDirectory()
        self.addCleanup(made.cleanup)
        self.top = pathlib.Path(made.name)
        self.folder, self.outside = self.top / "out", self.top / "outside"
        self.folder.mkdir()
        self.outside.mkdir()
        (self.outside / "a.v").write_text("mine\n")

    def after(self, name: str, change: Callable[[], None]) -> contextlib.AbstractContextManager[object]:
        """Lets a function of the folder be followed by a change that somebody else makes."""
        whole = getattr(Folder, name)

        def changed(folder: Folder, *words: str) -> object:
            answer = whole(folder, *words)
            change()
            return answer

        return mock.patch.object(Folder, name, changed)

    def link(self) -> None:
        """Another user puts a link in the place of a file."""
        with contextlib.suppress(FileNotFoundError):
            (self.folder / "a.v").unlink()
        (self.folder / "a.v").symlink_to(self.outside / "a.v")

    def move(self) -> None:
        """Another user puts a link in the place of the folder."""
        if not self.folder.is_symlink():
            self.folder.rename(self.top / "moved")
            self.folder.symlink_to(self.outside)

    def write(self) -> None:
        with contextlib.redirect_stdout(io.StringIO()), contextlib.suppress(ToolError):
            files.write_own(self.folder, {"a.v": OURS}, [])

    def test_link_that_comes_in_behind_a_look(self) -> None:
        for name in ("found", "content", "stage"):
            for is_there in (False, True):
                with self.subTest(behind=name, is_there=is_there):
                    self.link()
                    (self.folder / "a.v").unlink()
                    if is_there:
                        self.write()
                    with self.after(name, self.link):
                        self.write()
                    self.assertEqual((self.outside / "a.v").read_text(), "mine\n")

    def test_folder_that_becomes_a_link(self) -> None:
        for name in ("found", "stage"):
            with self.subTest(behind=name):
                with self.after(name, self.move):
                    self.write()
                self.assertEqual((self.outside / "a.v").read_text(), "mine\n")
                self.assertEqual(os.listdir(self.outside), ["a.v"])
                self.folder.unlink()
                (self.top / "moved").rename(self.folder)

    def test_named_file_that_becomes_a_link(self) -> None:
        with self.after("stage", self.link):
            write_all({self.folder / "a.v": "new\n"})
        self.assertEqual((self.outside / "a.v").read_text(), "mine\n")
        self.assertEqual((self.folder / "a.v").read_text(), "new\n")

    def test_what_a_killed_tool_left_is_swept(self) -> None:
        ours = [f".vidlakost-staged-{'0a' * 8}", f".vidlakost-{'1' * 19}"]
        theirs = [".vidlakost-settings", ".vidlakost-abcdefg1", ".vidlakost-staged-notes", "other"]
        recent = f".vidlakost-staged-{'0b' * 8}"
        for name in (*ours, *theirs, recent):
            (self.folder / name).write_text("")
            os.utime(self.folder / name, (0, 0))
        os.utime(self.folder / recent)
        with Folder(self.folder) as folder:
            folder.sweep()
        self.assertEqual({path.name for path in self.folder.iterdir()}, {*theirs, recent})

    def test_what_is_read_is_a_plain_file_of_the_folder(self) -> None:
        os.mkfifo(self.folder / "pipe")
        (self.folder / "link").symlink_to(self.outside / "a.v")
        (self.folder / "file").write_text("text\n")
        with Folder(self.folder) as folder:
            found = [folder.text(name) for name in ("pipe", "link", "none", "file")]
            self.assertIsNone(folder.text("file", 2))
        self.assertEqual(found, [None, None, None, "text\n"])
