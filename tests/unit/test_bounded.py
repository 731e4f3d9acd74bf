"""The call of foreign programs: what it bounds, and that nothing of a program is left behind."""
from __future__ import annotations

import os
import pathlib
import signal
import subprocess
import sys
import tempfile
import time
import unittest
from unittest import mock

from tests.unit.signals import as_at_a_terminal
from vidlakost_tools import bounded
from vidlakost_tools.bounded import Bounds, Call, Stopped
from vidlakost_tools.program import ROOT
from vidlakost_tools.temporary import folder_of_its_own
from vidlakost_tools.tool import ToolError

# a program that begins another, which begins a third, and waits for them
BREEDS = "sh -c 'sh -c \"sleep 60; : {mark}\" & sleep 60; : {mark}' & sleep 60; : {mark}"
HERE = "import sys; sys.path.insert(0, sys.argv[1]); from vidlakost_tools import bounded; "


def running(mark: str) -> list[str]:
    """The processes that have a mark among their words."""
    found = []
    for path in pathlib.Path("/proc").glob("[0-9]*/cmdline"):
        try:
            words = path.read_bytes()
        except OSError:
            continue
        if mark.encode() in words and int(path.parent.name) != os.getpid():
            found.append(words.replace(b"\0", b" ").decode())
    return found


def left(mark: str, seconds: float = 5) -> list[str]:
    """What is still running a little later, since a process that is killed takes a moment to end."""
    until = time.monotonic() + seconds
    while running(mark) and time.monotonic() < until:
        time.sleep(0.02)
    return running(mark)


class Runs(unittest.TestCase):
    def run_in(self, script: str, bounds: Bounds = Bounds(20), is_apart: bool = False) -> bounded.Ended:
        return bounded.run(Call(["sh", "-c", script], "it", bounds, is_apart=is_apart))

    def stops(self, script: str, bounds: Bounds, told: str, bound: str) -> None:
        with self.assertRaisesRegex(Stopped, told) as caught:
            self.run_in(script, bounds)
        self.assertEqual((caught.exception.bound, caught.exception.status), (bound, 1))

    def test_status_and_words(self) -> None:
        ended = self.run_in("echo one; echo two >&2; exit 3")
        self.assertEqual((ended.status, sorted(ended.said.split())), (3, ["one", "two"]))
        ended = self.run_in("echo one; echo two >&2", is_apart=True)
        self.assertEqual((ended.status, ended.said, ended.errors), (0, "one\n", "two\n"))
        self.assertEqual(self.run_in("kill -9 $$").status, -9)
        self.assertEqual(bounded.Ended(1, "a\n\nb\nc\n").last(2), ["b", "c"])

    def test_time(self) -> None:
        told = r"^it took longer than 0\.5 seconds and was stopped\n  begun$"
        self.stops("echo begun; sleep 60", Bounds(0.5), told, "time")

    def test_memory(self) -> None:
        script = f"exec {sys.executable} -c 'x = bytes(1 << 30); print(len(x))'"
        self.assertEqual(self.run_in(script, Bounds(20, 2 << 30)).said, f"{1 << 30}\n")
        ended = self.run_in(script, Bounds(20, 256 << 20))
        self.assertIn("MemoryError", ended.said)
        script = "echo 'terminate after std::bad_alloc'; exit 1"
        self.stops(script, Bounds(20, 1 << 30), "more than 1 GB of memory", "memory")

    def test_output(self) -> None:
        script = "exec head -c 9000000 /dev/zero"
        self.stops(script, Bounds(20, output=1 << 20), "^it wrote more than 1 MB and", "output")
        with tempfile.TemporaryDirectory() as name:
            out = pathlib.Path(name) / "out"
            with self.assertRaises(Stopped):
                bounded.run(Call(["head", "-c", "9000000", "/dev/zero"], bounds=Bounds(20, output=1 << 20), out=out))
            self.assertEqual(out.stat().st_size, 1 << 20)

    def test_program_that_is_missing(self) -> None:
        with self.assertRaisesRegex(ToolError, "^no_such_program is not on the PATH$"):
            bounded.run(Call(["no_such_program"]))

    def test_words_of_a_temporary_folder_are_left_out(self) -> None:
        folder = pathlib.Path("/tmp/vidlakost-x")
        self.assertEqual(bounded.without(folder, "/tmp/vidlakost-x/given3/a.v:1: no\n"), "a.v:1: no\n")


class Left(unittest.TestCase):
    """What is left running, and in the folder of temporary files."""

    def setUp(self) -> None:
        folder = tempfile.TemporaryDirectory()
        self.addCleanup(folder.cleanup)
        self.folder = pathlib.Path(folder.name)
        self.mark = f"mark_{os.getpid()}_{time.monotonic_ns()}"
        temporary = mock.patch.object(tempfile, "tempdir", folder.name)
        temporary.start()
        self.addCleanup(temporary.stop)

    def test_nothing_runs_on_behind_a_limit(self) -> None:
        script = BREEDS.format(mark=self.mark)
        with self.assertRaises(Stopped):
            bounded.run(Call(["sh", "-c", script], bounds=Bounds(0.7)))
        self.assertEqual((left(self.mark), os.listdir(self.folder)), ([], []))

    def test_nothing_runs_on_behind_its_end(self) -> None:
        """A program that ends before what it began."""
        script = f"sh -c 'sleep 60; : {self.mark}' & exit 0"
        self.assertEqual(bounded.run(Call(["sh", "-c", script], bounds=Bounds(20))).status, 0)
        self.assertEqual((left(self.mark), os.listdir(self.folder)), ([], []))

    def ended_by(self, number: int) -> list[str]:
        """What is left after a signal to a tool with such a call."""
        script = BREEDS.format(mark=self.mark)
        begin = "import signal; from vidlakost_tools import tool; signal.signal(signal.SIGTERM, tool.stop); "
        call = f"{HERE}{begin}bounded.run(bounded.Call(['sh', '-c', sys.argv[2]]))"
        environment = {**os.environ, "TMPDIR": str(self.folder)}
        words = [sys.executable, "-c", call, str(ROOT / "tools"), script]
        with subprocess.Popen(words, env=environment, stderr=subprocess.DEVNULL) as tool:
            until = time.monotonic() + 20
            # the tool's own words have the mark too
            while len(running(self.mark)) < 4 and time.monotonic() < until:
                time.sleep(0.05)
            tool.send_signal(number)
        return left(self.mark)

    def test_nothing_is_left_behind_a_signal(self) -> None:
        as_at_a_terminal(self)
        for number in (signal.SIGTERM, signal.SIGINT):
            self.assertEqual((self.ended_by(number), os.listdir(self.folder)), ([], []))

    def test_folder_goes_without_rights(self) -> None:
        """Also where the program took the right to write from folders in it."""
        with folder_of_its_own() as own:
            script = "mkdir -p a/b/c && : >a/b/c/d && chmod 0 a/b/c a/b && chmod 500 a"
            bounded.run(Call(["sh", "-c", script], folder=own, only=own))
            self.assertEqual(os.listdir(own), ["a"])
        self.assertEqual(os.listdir(self.folder), [])

    def test_folder_goes_behind_an_error(self) -> None:
        with self.assertRaises(ZeroDivisionError), folder_of_its_own():
            raise ZeroDivisionError
        self.assertEqual(os.listdir(self.folder), [])
