"""What ends with a tool: the program that it called, by whatever signal the tool ends; and what a killed tool
left."""
from __future__ import annotations

import os
import pathlib
import signal
import subprocess
import sys
import tempfile
import time
import unittest
from typing import Any
from unittest import mock

from tests.unit.signals import as_at_a_terminal
from vidlakost_tools import bounded, temporary
from vidlakost_tools.program import ROOT

# a program that begins another one, as the launcher does, and says its number
PROGRAM = """#!/bin/sh
sleep 300 &
echo $! >"$2"
wait
"""
CALL = "from vidlakost_tools import program, tool; tool.start(lambda: program.run('slow', {!r})[0])"


def is_gone(process: int) -> bool:
    """Whether a process ends within some seconds."""
    until = time.monotonic() + 10
    while time.monotonic() < until:
        try:
            state = pathlib.Path(f"/proc/{process}/stat").read_text().rpartition(")")[2].split()[0]
        except (FileNotFoundError, ProcessLookupError):
            return True
        if state == "Z":
            return True
        time.sleep(0.05)
    return False


class Ended(unittest.TestCase):
    def setUp(self) -> None:
        made = tempfile.TemporaryDirectory()
        self.addCleanup(made.cleanup)
        self.folder = pathlib.Path(made.name)
        as_at_a_terminal(self)

    def test_program_ends_with_its_tool(self) -> None:
        program = self.folder / "program"
        program.write_text(PROGRAM)
        program.chmod(0o755)
        environment = {**os.environ, "VIDLAKOST": str(program), "PYTHONPATH": str(ROOT / "tools")}
        others = (signal.SIGQUIT, signal.SIGUSR1, signal.SIGALRM, signal.SIGXCPU, signal.SIGPWR)
        for number in (signal.SIGTERM, signal.SIGINT, signal.SIGHUP, *others):
            said = self.folder / f"said_{number}"
            words = [sys.executable, "-c", CALL.format(str(said))]
            tool = subprocess.Popen(words, env=environment, stderr=subprocess.DEVNULL)
            until = time.monotonic() + 20
            while not (said.exists() and said.read_text().strip()) and time.monotonic() < until:
                time.sleep(0.02)
            tool.send_signal(number)
            self.assertIn(tool.wait(timeout=20), (130, 128 + number))
            self.assertTrue(is_gone(int(said.read_text())), number)

    def test_program_ends_with_its_launcher(self) -> None:
        program = self.folder / "program"
        program.write_text("#!/bin/sh\necho $$ >\"$2\"\nexec sleep 300\n")
        program.chmod(0o755)
        environment = {**os.environ, "VIDLAKOST_PROGRAM": str(program)}
        for number in (signal.SIGTERM, signal.SIGQUIT, signal.SIGUSR1, signal.SIGALRM, signal.SIGXCPU):
            said = self.folder / f"said_{number}"
            launcher = subprocess.Popen([ROOT / "vidlakost", "slow", said], env=environment, stderr=subprocess.DEVNULL)
            until = time.monotonic() + 20
            while not (said.exists() and said.read_text().strip()) and time.monotonic() < until:
                time.sleep(0.02)
            launcher.send_signal(number)
            self.assertIn(launcher.wait(timeout=20), (-number, 128 + number))
            self.assertTrue(is_gone(int(said.read_text())), number)

    def test_a_launcher_removes_what_is_marked_as_the_programs(self) -> None:
        """A name that only ends with such a number is somebody's."""
        program, folder = self.folder / "program", self.folder / "out"
        program.write_text("#!/bin/sh\necho total 1\n")
        program.chmod(0o755)
        folder.mkdir()
        number = "1700000000000000000"
        for name in (f".vidlakost-{number}", f".vidlakost-notes-{number}", f".vidlakost-{number}-{number}"):
            (folder / name).write_text("x")
        words = [str(ROOT / "vidlakost"), "decoder", "march", str(folder / "report")]
        environment = {**os.environ, "VIDLAKOST_PROGRAM": str(program)}
        subprocess.run(words, env=environment, stdout=subprocess.DEVNULL, check=True)
        self.assertEqual(sorted(os.listdir(folder)), [f".vidlakost-{number}-{number}", f".vidlakost-notes-{number}"])

    def test_signal_that_comes_while_a_program_is_begun(self) -> None:
        """The program that was begun ends, and only then the signal is answered."""
        started: list[subprocess.Popen[bytes]] = []
        whole = subprocess.Popen

        def begun(*words: Any, **how: Any) -> subprocess.Popen[bytes]:
            started.append(whole(*words, **how))
            os.kill(os.getpid(), signal.SIGINT)
            return started[-1]

        with mock.patch.object(subprocess, "Popen", begun), self.assertRaises(KeyboardInterrupt):
            bounded.heard(["sleep", "30"], os.environ, None)
        self.assertEqual(started[0].returncode, -signal.SIGKILL)


HOLD = """
import sys, time
from vidlakost_tools.temporary import folder_of_its_own
with folder_of_its_own() as folder:
    (folder / "file").write_text("x")
    print(folder, flush=True)
    time.sleep(300)
"""


class Left(unittest.TestCase):
    def setUp(self) -> None:
        made = tempfile.TemporaryDirectory()
        self.addCleanup(made.cleanup)
        self.top = pathlib.Path(made.name).resolve()
        as_at_a_terminal(self)

    def holder(self, begin: str = "") -> tuple[subprocess.Popen[str], pathlib.Path]:
        """A process with a temporary folder, and that folder."""
        environment = {**os.environ, "TMPDIR": str(self.top), "PYTHONPATH": str(ROOT / "tools")}
        words = [sys.executable, "-c", f"{begin}\n{HOLD}"]
        process = subprocess.Popen(words, env=environment, stdout=subprocess.PIPE, text=True)
        assert process.stdout is not None
        self.addCleanup(process.stdout.close)
        self.addCleanup(process.wait)
        self.addCleanup(process.kill)
        return process, pathlib.Path(process.stdout.readline().rstrip("\n"))

    def test_folders_of_a_killed_tool_go(self) -> None:
        killed, left = self.holder()
        killed.kill()
        killed.wait()
        self.assertTrue((left / "file").exists())
        theirs = ["vidlakost-held-notes", "vidlakost-0123456789abcdef", "tmp0"]
        for name in theirs:
            (self.top / name).mkdir()
        link = self.top / "vidlakost-held-0123456789abcdef"
        link.symlink_to(self.top / theirs[0])
        _, held = self.holder()
        self.assertEqual(sorted(os.listdir(self.top)), sorted([*theirs, link.name, held.name]))
        # a process that runs keeps its own
        _, other = self.holder()
        self.assertTrue((held / "file").exists() and (other / "file").exists())

    def test_folders_of_others_stay(self) -> None:
        (self.top / "vidlakost-held-0123456789abcdef").mkdir()
        with mock.patch.object(os, "geteuid", return_value=os.geteuid() + 1):
            temporary.sweep(self.top)
        self.assertEqual(os.listdir(self.top), ["vidlakost-held-0123456789abcdef"])

    def test_signal_that_comes_while_a_folder_is_made_or_removed(self) -> None:
        for step in ("secrets.token_hex", "pathlib.Path.mkdir", "pathlib.Path.rename", "shutil.rmtree"):
            with self.subTest(step):
                begin = f"""
import os, pathlib, secrets, shutil, signal
from vidlakost_tools import tool
signal.signal(signal.SIGTERM, tool.stop)
inner, once = {step}, []
def outer(*words, **options):
    done = inner(*words, **options) if {step != "shutil.rmtree"} else None
    if not once:
        once.append(1)
        os.kill(os.getpid(), signal.SIGTERM)
    return done if {step != "shutil.rmtree"} else inner(*words, **options)
{step} = outer
"""
                ended, _ = self.holder(begin)
                if step == "shutil.rmtree":
                    ended.send_signal(signal.SIGTERM)
                self.assertEqual(ended.wait(20), 128 + signal.SIGTERM)
                self.assertEqual(os.listdir(self.top), [])


if __name__ == "__main__":
    unittest.main()
