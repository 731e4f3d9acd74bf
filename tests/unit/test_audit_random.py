"""The random controllers, and the comparison of `audit` with the model checker on damaged modules."""
from __future__ import annotations

import contextlib
import io
import os
import pathlib
import random
import re
import subprocess
import tempfile
import unittest
from typing import Any
from unittest import mock

from tests.unit.controllers import SMALL, needs
from vidlakost_tools.audit import random_comparison, random_sources
from vidlakost_tools.audit.random_sources import Name, Writer, random_source
from vidlakost_tools.texts.memory import parse_memory

SEEDS = range(40)


def sources() -> list[str]:
    return [random_source(random.Random(seed)) for seed in SEEDS]


class Sources(unittest.TestCase):
    def test_seed_tells_the_source(self) -> None:
        self.assertEqual(random_source(random.Random(7)), random_source(random.Random(7)))
        self.assertEqual(len(set(sources())), len(SEEDS))

    def test_ports_are_those_of_a_self_test(self) -> None:
        """The memory has 16 words of 8 bits."""
        memory = parse_memory(random_sources.MEMORY)
        self.assertEqual((memory.words, memory.bits, memory.width), (16, 8, 4))
        ports = ["input clk", "input reset", "input [7:0] rdata", "output en", "output we", "output [3:0] addr"]
        head = f"module random_source({', '.join([*ports, 'output [7:0] wdata', 'output done', 'output fail'])});\n"
        for source in sources():
            self.assertTrue(source.startswith(head) and source.endswith("endmodule\n"), source)
            self.assertEqual([source.count(f"  assign {port} = ") for port in random_sources.OUTPUTS], [1] * 6)

    def test_each_register_is_set(self) -> None:
        for source in sources():
            for register in set(re.findall(r"(?:reg|logic)(?: signed)?(?: \[\d+:0\])? (r\d);", source)):
                self.assertRegex(source, rf"\b{register}(\[[^\]]*\])? <= ")

    def test_what_is_selected_lies_within_its_word(self) -> None:
        for source in sources():
            declared = re.findall(r"^  (?:reg|logic|wire)(?: signed)?(?: \[(\d+):0\])? (\w+);", source, re.MULTILINE)
            widths = {**{name: int(high or 0) for high, name in declared}, "rdata": 7}
            for name, high in re.findall(r"\b([rtw]\d|rdata)\[(\d+)", source):
                self.assertLessEqual(int(high), widths[name], source)

    def test_index_is_no_larger_than_its_word(self) -> None:
        names = [Name("few", 2), Name("many", 3), Name("below", 2, True)]
        writer = Writer(random.Random(1), names, [])
        self.assertEqual({writer.index(4) for _ in range(20)}, {"few"})
        self.assertEqual({writer.index(8) for _ in range(40)}, {"few", "many"})
        self.assertEqual(writer.index(3), "")

    def test_declarations(self) -> None:
        self.assertEqual(Name("a", 1).declared("reg"), "reg a")
        self.assertEqual(Name("a", 5, True).declared("wire"), "wire signed [4:0] a")

    @needs("iverilog")
    def test_sources_are_verilog(self) -> None:
        with tempfile.TemporaryDirectory() as name:
            files = []
            for seed, source in zip(SEEDS, sources()):
                files.append(pathlib.Path(name) / f"{seed}.v")
                files[-1].write_text(source.replace("random_source", f"random_source_{seed}"))
            words = ["iverilog", "-g2012", "-t", "null", *map(str, files)]
            done = subprocess.run(words, stdout=subprocess.PIPE, stderr=subprocess.STDOUT, text=True, check=False)
        self.assertEqual((done.returncode, re.findall(".*error.*", done.stdout)), (0, []))

    def test_damage_changes_one_place(self) -> None:
        for seed in SEEDS:
            source = random_source(random.Random(seed))
            other = random_sources.damaged(source, random.Random(seed))
            self.assertNotEqual(other, source)
            begin = len(os.path.commonprefix([source, other]))
            self.assertGreaterEqual(begin, source.index("assign"))
            end = len(os.path.commonprefix([source[begin:][::-1], other[begin:][::-1]]))
            self.assertLessEqual(len(source) - begin - end, 20)

    def test_source_without_another_place_stays(self) -> None:
        self.assertEqual(random_sources.damaged("assign y = (a + b);", random.Random(1)), "assign y = (a + b);")


class Comparisons(unittest.TestCase):
    """The program and both tools are told what to answer."""

    def compare(self, audited: tuple[int, str], judged: tuple[int, str], number: int = 2) -> tuple[int, str]:
        def ask(*words: Any) -> str:
            pathlib.Path(words[4]).write_text(SMALL)
            return ""

        answers = {"audit": audited, "formal": judged}
        said = io.StringIO()
        with mock.patch.object(random_comparison, "ask", ask), mock.patch.object(
            random_comparison, "run", return_value=(0, "conforms 7")
        ), mock.patch.object(random_comparison, "told", lambda tool, files: answers[tool]), contextlib.redirect_stdout(
            said
        ):
            status = random_comparison.compare(number, random.Random(3))
        return status, said.getvalue()

    def test_same_answers(self) -> None:
        status, said = self.compare((0, "audit: right: conforms"), (0, "formal: right: each port is as it has to be"))
        self.assertEqual((status, said), (0, "2 modules, 0 differences; 2 right, 0 unknown and right\n"))
        status, said = self.compare((1, "audit: wrong: fail is 0"), (1, "formal: wrong: differs in cycle 3"))
        self.assertEqual((status, said), (0, "2 modules, 0 differences; 0 unknown and right, 2 wrong\n"))

    def test_unknown_may_be_right(self) -> None:
        status, said = self.compare((1, "audit: unknown: fail is unknown"), (0, "formal: right as it has to be"))
        self.assertEqual((status, said), (0, "2 modules, 0 differences; 2 unknown, 2 unknown and right\n"))

    def test_difference_is_told_with_its_module(self) -> None:
        status, said = self.compare((0, "audit: right: conforms"), (1, "formal: wrong: differs in cycle 3"), 1)
        first, *_, last = said.splitlines()
        self.assertEqual((status, last), (1, "1 modules, 1 differences; 1 right, 0 unknown and right"))
        self.assertEqual(first, "audit says 'audit: right: conforms', and formal 'formal: wrong: differs in cycle 3'")
        self.assertIn("module walker(", said)


class Damages(unittest.TestCase):
    TEXT = "  wire a;\n  wire b;\n  wire bad;\n  assign bad = (a & 1'h0);\n  assign en = (a | 1'h1);\n"

    def damaged(self, seed: int, said: str) -> tuple[str, str]:
        """What is answered, and the module that is left in its file, where `check` says one line of each change."""
        run = mock.patch.object(random_comparison, "run", return_value=(0, said))
        with tempfile.TemporaryDirectory() as name, run:
            file = pathlib.Path(name) / "module.v"
            file.write_text(self.TEXT)
            return random_comparison.damaged([file], random.Random(seed)), file.read_text()

    def test_place_on_which_fail_hangs_is_changed(self) -> None:
        for seed in SEEDS:
            answer, left = self.damaged(seed, "conforms 7")
            self.assertEqual(answer, left)
            lines = zip(answer.splitlines(), self.TEXT.splitlines())
            (damage,) = [line for line, before in lines if line != before]
            self.assertRegex(damage, r"\bbad\b")

    def test_module_whose_commands_would_differ_stays(self) -> None:
        answer, left = self.damaged(5, "differs cycle 1 port en expected 1 got 0")
        self.assertEqual((answer, left), (self.TEXT, self.TEXT))

    def test_tool_is_asked_for_its_last_line(self) -> None:
        with tempfile.TemporaryDirectory() as name:
            root = pathlib.Path(name)
            (root / "tools").mkdir()
            (root / "tools" / "audit").write_text(
                "import sys\nprint('first')\nprint('audit:', *sys.argv[1:])\nsys.exit(1)\n"
            )
            with mock.patch.object(random_comparison, "ROOT", root):
                told = random_comparison.told("audit", [pathlib.Path("a.v"), pathlib.Path("c.m")])
        self.assertEqual(told, (1, "audit: a.v c.m --no-simulate"))
