"""How a tool starts and ends, its words, and the program that it asks."""
from __future__ import annotations

import hashlib
import os
import pathlib
import subprocess
import sys
import tempfile
import threading
import unittest
from typing import Any
from unittest import mock

from vidlakost_tools import program, tasks, tool
from vidlakost_tools.tool import Refused, ToolError, words_of

DOC = """A tool.

usage: vidlakost some FILE [--many N] [--yes]

It does something."""
USAGE = "usage: vidlakost some FILE [--many N] [--yes]"
# a tool of its own, whose body is a line of Python
SCRIPT = """import sys
sys.path.insert(0, {tools!r})
sys.argv[0] = "some"
from vidlakost_tools.tool import *
def main():
    {body}
start(main)
"""


class Words(unittest.TestCase):
    def words(self, *arguments: str, least: int = 0, most: int | None = None) -> tuple[list[str], dict[str, Any]]:
        return words_of(DOC, arguments, {"--many": [], "--one": 1, "--two": 2, "--yes": 0}, least, most)

    def test_words_and_options_in_any_order(self) -> None:
        words, options = self.words("a", "--many", "1", "b", "--yes", "--many", "2", "--two", "x", "y")
        self.assertEqual((words, options), (["a", "b"], {"--many": ["1", "2"], "--yes": True, "--two": ["x", "y"]}))

    def test_word_with_one_dash_is_a_word(self) -> None:
        self.assertEqual(self.words("-a", "--one", "-1", "-"), (["-a", "-"], {"--one": "-1"}))

    def test_wrong_words(self) -> None:
        wrong: dict[str, list[str]] = {
            "there is no option --no": ["--no"],
            "there is no option --ye": ["--ye"],
            "--one needs a word after it": ["a", "--one"],
            "too few words": [],
            "too many words": ["a", "b", "c"],
        }
        for message, arguments in wrong.items():
            with self.subTest(arguments=arguments), self.assertRaises(ToolError) as caught:
                self.words(*arguments, least=1, most=2)
            self.assertEqual((str(caught.exception), caught.exception.status), (f"{message}\n{USAGE}", 2))

    def test_help_prints_the_description(self) -> None:
        for arguments in (["a", "--help"], ["-h"]):
            with mock.patch("builtins.print") as said, self.assertRaises(SystemExit) as caught:
                self.words(*arguments)
            said.assert_called_once_with(DOC)
            self.assertEqual(caught.exception.code, 0)

    def test_usage_of_a_description(self) -> None:
        self.assertEqual(tool.usage_of(DOC), USAGE)
        self.assertEqual(tool.usage_of("no words"), "no words")
        self.assertEqual(tool.usage_of(None), "")


class Ends(unittest.TestCase):
    def end(self, body: str, **environment: str) -> tuple[int, str, str]:
        """The status of a tool with this body, and what it says on both outputs."""
        with tempfile.TemporaryDirectory() as name:
            file = pathlib.Path(name) / "some"
            file.write_text(SCRIPT.format(tools=str(program.ROOT / "tools"), body=body))
            done = subprocess.run(
                [sys.executable, str(file)],
                capture_output=True,
                text=True,
                check=False,
                env={**os.environ, **environment},
            )
        return done.returncode, done.stdout, done.stderr

    def test_statuses_and_lines(self) -> None:
        ends = {
            "print('done')": (0, "done\n", ""),
            "return 1": (1, "", ""),
            "raise ToolError('so it is')": (2, "", "some: so it is\n"),
            "raise ToolError('so it is', 7)": (7, "", "some: so it is\n"),
            "open('nowhere')": (2, "", "some: nowhere: No such file or directory\n"),
            "b'\\xff'.decode()": (2, "", "some: a file is not UTF-8: invalid start byte at byte 0\n"),
            "raise MemoryError": (9, "", "some: out of memory\n"),
            "raise RecursionError": (2, "", "some: an input is nested too deeply\n"),
            "raise KeyboardInterrupt": (130, "", ""),
            "raise BrokenPipeError": (141, "", ""),
            "os.kill(os.getpid(), signal.SIGTERM)": (143, "", ""),
            "print('a\\x1b[2Jb')": (0, "a\\x1b[2Jb\n", ""),
        }
        for body, end in ends.items():
            with self.subTest(body=body):
                self.assertEqual(self.end(body), end)

    def test_refusal_is_explained(self) -> None:
        """What the program refused is told, and then what it means in its call."""
        refused = "raise Refused(['judge', 'no.m', 'a.list', 'out'], 'absent 1', 10)"
        line = "some: absent 1\n"
        self.assertEqual(self.end(refused), (10, "", f"{line}no.m: error: there is no such file\n"))
        self.assertEqual(self.end(refused, VIDLAKOST_EXPLAIN="0"), (10, "", line))

    def test_refusal_without_a_line(self) -> None:
        self.assertEqual(str(Refused(["judge"], "", 9)), "the program ends with 9")


class Folder(unittest.TestCase):
    def setUp(self) -> None:
        folder = tempfile.TemporaryDirectory()
        self.addCleanup(folder.cleanup)
        self.folder = pathlib.Path(folder.name)


class Files(Folder):
    def test_file_that_is_read_is_not_written(self) -> None:
        file, link = self.folder / "a.m", self.folder / "link"
        file.write_text("any(w0)")
        link.symlink_to(file)
        inputs = [("the march", str(file))]
        for name in (file, link, self.folder / "." / "a.m"):
            with self.assertRaisesRegex(ToolError, "^'.*' is the march$"):
                tool.refuse_inputs(str(name), inputs)
        for other in (None, str(self.folder / "b.m")):
            tool.refuse_inputs(other, inputs)

    def test_progress_is_told_while_it_takes(self) -> None:
        is_told, wait = threading.Event(), threading.Event.wait
        lines: list[str] = []

        def soon(event: threading.Event, seconds: float | None = None) -> bool:
            """Ten seconds pass at once."""
            return wait(event, 0.001 if seconds == 10 else seconds)

        def tell(line: str) -> None:
            lines.append(line)
            is_told.set()

        with mock.patch.object(threading.Event, "wait", soon), mock.patch.object(tool, "tell", tell):
            with tool.telling("something is done", lambda: "half"):
                wait(is_told, 20)
        self.assertRegex(lines[0], r": something is done \(half\), 10 seconds so far$")
        self.assertEqual(list(tool.progress(range(3), "cycles")), [0, 1, 2])


class Programs(Folder):
    def named(self, text: str) -> mock._patch_dict:
        """A program of this text, which the environment names."""
        file = self.folder / "program"
        file.write_text(f"#!/bin/sh\n{text}\n")
        file.chmod(0o755)
        self.addCleanup(setattr, program, "PROGRAM", program.PROGRAM)
        program.PROGRAM = str(file)
        return mock.patch.dict(os.environ, {"VIDLAKOST_PROGRAM": str(file)})

    def test_answers_and_refusals(self) -> None:
        with self.named('echo "$2 is $1"; exit "$3"'):
            self.assertEqual(program.run("read", "a.m", 1), (1, "a.m is read"))
            self.assertEqual(program.ask("read", "a.m", 1), "a.m is read")
            with self.assertRaises(Refused) as caught:
                program.ask("read", "a.m", 3)
        self.assertEqual((caught.exception.words, caught.exception.status), (["read", "a.m", "3"], 3))
        self.assertEqual(str(caught.exception), "a.m is read")

    def test_program_that_is_slow_or_missing(self) -> None:
        with self.named("exec sleep 5"), mock.patch.object(program, "SECONDS", 0.05):
            with self.assertRaisesRegex(
                ToolError, "^the program took longer than 0.05 seconds, so it was ended$"
            ) as slow:
                program.run("show")
        self.assertEqual(slow.exception.status, 124)
        with mock.patch.object(program, "PROGRAM", str(self.folder / "no")):
            with self.assertRaisesRegex(ToolError, "no can't be run: No such file or directory$") as missing:
                program.run("show")
        self.assertEqual(missing.exception.status, 125)

    def test_program_that_answers_at_once(self) -> None:
        with self.named("exit 0") as environment:
            self.assertEqual(program.quick_program(), environment["VIDLAKOST_PROGRAM"])
            with mock.patch.object(program, "SECONDS", None):
                self.assertEqual(program.settle(3), environment["VIDLAKOST_PROGRAM"])
                self.assertEqual(program.SECONDS, 3)
        self.assertEqual(program.as_file("program"), "./program")

    def test_module_is_read_by_one_of_two_commands(self) -> None:
        """It is read where either misses the march behind it; else what `check` says of it is handed on."""
        with self.named('test "$1" = check && echo absent 2 || echo verilog L1 byte 3; exit 10'):
            program.take_module("m.v", "module")
        with self.named('test "$1" = check && echo verilog L3 byte 4 || echo verilog L1 byte 3; exit 14'):
            with self.assertRaises(Refused) as caught:
                program.take_module("m.v", "module")
        self.assertEqual((caught.exception.words[:2], caught.exception.said), (["check", "m.v"], "verilog L3 byte 4"))

    def test_list_of_commands(self) -> None:
        with self.named('test "$1" = vectors && printf "w 0 0\\nr 0 0\\n" >"$4"'):
            self.assertEqual(program.vectors_of("a.m", "a.mem"), ["w 0 0", "r 0 0"])

    def test_proof_of_a_program(self) -> None:
        """The file `kit` beside a program has its sum, the kit's line and the sum of the sources that were proved."""
        file, kit = self.folder / "vidlakost", self.folder / "kit"
        file.write_bytes(b"program")
        line, told = "rattle-kit logic 1", hashlib.sha256(b"program").hexdigest()
        rows = [
            (line, f"{told}\n{line}\nsources 12\n"),
            (None, f"{told}\n{line}\nsources 13\n"),
            (None, f"{told[:-1]}x\n{line}\nsources 12\n"),
            (None, f"{told}\n{line}\n"),
        ]
        with mock.patch.object(program, "sum_of_sources", return_value="12"):
            self.assertIsNone(program.proof_of(file))
            for proof, text in rows:
                kit.write_text(text)
                self.assertEqual(program.proof_of(file), proof)
                self.assertEqual(program.is_proved(str(file), True), proof is not None)

    def test_program_of_a_release(self) -> None:
        self.addCleanup(setattr, program, "ROOT", program.ROOT)
        program.ROOT = self.folder
        release = self.folder / "RELEASE"
        release.write_text("vidlakost 2026.11.30\ncommit abcdef1, 2026-11-30\n")
        self.assertEqual(program.version(), ("2026.11.30", "2026-11-30", "abcdef1"))
        own = str(self.folder / "libexec" / "vidlakost")
        self.assertTrue(program.is_proved(own, True) and program.is_proved(own, False))
        self.assertFalse(program.is_proved(None, False))
        release.write_text(release.read_text() + "unproved\n")
        self.assertFalse(program.is_proved(own, False))


class Tasks(unittest.TestCase):
    def test_each_command_and_tool_has_a_task(self) -> None:
        named = [name for _, names in tasks.by_task() for name in names]
        known = [command.name for command in program.command_table()] + tasks.tools()
        self.assertEqual(sorted(named), sorted(known))
        self.assertNotIn("Further", [title for title, _ in tasks.by_task()])

    def test_lines_of_commands_and_tools(self) -> None:
        self.assertEqual(tasks.line_of("bench"), "that module, clocked beside a sound memory")
        self.assertEqual(tasks.line_of("vhdl"), "a module of the subset as VHDL-93")
        self.assertEqual(tasks.line_of("nothing"), "")
        self.assertEqual(tasks.doc_of("replay"), tasks.doc_of("trace"))

    def test_tool_without_a_task_comes_last(self) -> None:
        with mock.patch.dict(tasks.TASKS, {"To begin with": []}):
            title, names = tasks.by_task()[-1]
        self.assertEqual((title, names[0]), ("Further", "judge"))
