"""Collars of macros, clocked by Icarus with a right controller; random lists of pins, right ones and wrong ones."""
from __future__ import annotations

import pathlib
import re
import subprocess
import tempfile
import unittest

from tests.unit.controllers import needs
from vidlakost_tools.collar import random_pins
from vidlakost_tools.collar.bench import Bench
from vidlakost_tools.collar.model import model
from vidlakost_tools.collar.pin_lines import read_macro
from vidlakost_tools.collar.pins import Macro, Word
from vidlakost_tools.collar.text import collar
from vidlakost_tools.program import ROOT
from vidlakost_tools.text import read_text
from vidlakost_tools.texts.memory import Memory, parse_memory
from vidlakost_tools.tool import ToolError

FOREIGN = ROOT / "examples" / "foreign"
# the march MATS+ on four words of two bits, by a machine with a bit for each state
TEST = read_text(FOREIGN / "one_hot.v").replace("module one_hot(", "module four_bist(")
PLAIN = ["macro ram", "clk ck", "addr a", "wdata d", "rdata q", "en ~ce", "we wen 2"]
OTHER = ["port addr b", "port rdata p", "port wdata e", "port we v 2", "port clk ck2"]


def read(lines: list[str], *texts: str) -> tuple[Macro, Word]:
    """The macro of some lines, and the word of some memories, which is that of the four words where none is told."""
    word = Word([parse_memory(text) for text in texts or (read_text(FOREIGN / "four.mem"),)])
    with tempfile.TemporaryDirectory() as name:
        path = pathlib.Path(name) / "m.pins"
        path.write_text("\n".join([*lines, ""]))
        return read_macro(str(path), word), word


def ports_of(memory: Memory) -> str:
    """A self-test of which only the ports are there."""
    word, address = f"[{memory.bits - 1}:0]", f"[{memory.width - 1}:0]"
    ports = f"input clk, input reset, input {word} rdata, output en, output we, output {address} addr"
    return f"module {memory.name}_bist({ports}, output {word} wdata, output done, output fail);\nendmodule\n"


@needs("iverilog", "vvp")
class Benches(unittest.TestCase):
    def said(self, lines: list[str], *words: str, test: str = TEST, theirs: list[str] | str = "") -> list[str]:
        """The lines of a run of a collar's testbench, beside another model, or that of other lines, if it is given."""
        macro, word = read(lines)
        beside = theirs if theirs and isinstance(theirs, str) else model(*read(list(theirs) or lines))
        texts = [Bench(macro, word).text(), collar(macro, word, "bist"), beside, test]
        with tempfile.TemporaryDirectory() as name:
            folder = pathlib.Path(name)
            files = []
            for count, text in enumerate(texts):
                files.append(str(folder / f"{count}.sv"))
                pathlib.Path(files[-1]).write_text(text)
            made = ["iverilog", "-g2012", "-s", "four_collar_tb", "-o", str(folder / "run"), *files]
            subprocess.run(made, check=True, capture_output=True)
            call = ["vvp", "-n", str(folder / "run"), *words]
            done = subprocess.run(call, stdout=subprocess.PIPE, stderr=subprocess.STDOUT, text=True, check=False)
        return done.stdout.splitlines()

    def test_sound_macro(self) -> None:
        """Of one port, of two with a clock of its own each, and of one that a scan bypasses."""
        for lines in (PLAIN, [*PLAIN, *OTHER], [*PLAIN, "bypass"]):
            with self.subTest(lines=lines):
                said = self.said(lines)
                self.assertEqual((said[0], said[-1]), ("four: passes", "four_collar_tb: passed"))

    def test_as_many_fixed_pins_as_half_a_period_has_units(self) -> None:
        """Each pin that has one value in test is moved then, and none of these moves delays the start."""
        for count in (4, 5, 10):
            lines = [*PLAIN, *(f"pass p{number} 1 {number % 2}" for number in range(count))]
            for words in ((), ("+planted",)):
                with self.subTest(count=count, words=words):
                    self.assertEqual(self.said(lines, *words)[-1], "four_collar_tb: passed")

    def test_faults_that_are_planted(self) -> None:
        said = self.said(PLAIN, "+planted")
        found = ["four: a tied address is found", "four: a wrong bit is found"]
        self.assertEqual([line for line in said if line.endswith(" is found")], found)
        self.assertEqual(said[-1], "four_collar_tb: passed")

    def test_port_that_is_dead_is_found(self) -> None:
        said = self.said([*PLAIN, *OTHER], "+planted")
        self.assertIn("four: a dead port is found", said)
        self.assertEqual(said[-1], "four_collar_tb: passed")

    def test_macro_that_never_answers(self) -> None:
        """The enable of the model has the other polarity: what may be wrong with the pins is told."""
        more = ["tie t 1'b1", "pass s 2 1", "pass u 1", "power vdd 1"]
        theirs = [line.replace("~ce", "ce") for line in PLAIN]
        said = "\n".join(self.said([*PLAIN, *more], theirs=[*theirs, *more]))
        told = "in no cycle from 1 to 7 behind them: look at the polarity of ce, wen; what stands at t, s; the supplies"
        told += ", there with USE_POWER_PINS: vdd; inputs and supplies of the model that no line of the pins names"
        self.assertIn(f"four: reads that follow one another bring their words to q {told}", said)
        self.assertNotIn("four_collar_tb: passed", said)
        said = "\n".join(self.said(PLAIN, theirs=theirs))
        self.assertIn("look at the polarity of ce, wen; inputs and supplies of the model", said)

    def test_output_that_a_pin_turns_off(self) -> None:
        """The pin is named that leaves the words of the macro undriven, whether it is fixed in test or not."""
        right = model(*read([*PLAIN, "pass s 2", "pass oe 1 1"]))
        answer = re.search(r"assign q = (.*);", right)
        assert answer
        theirs = right.replace(answer[0], f"assign q = oe ? {answer[1]} : 2'bzz;")
        for line, names in (("pass oe 1 1", "oe"), ("pass oe 1 0", "s or oe"), ("pass oe 1", "oe")):
            with self.subTest(line=line):
                said = self.said([*PLAIN, "pass s 2 1", line], theirs=theirs)
                self.assertRegex(said[0], f"four: q of the macro is zz, since {names} turns it off: .* so tie {names}$")
                self.assertNotIn("four_collar_tb: passed", said)
        self.assertEqual(self.said([*PLAIN, "tie oe 1'b1", "pass s 2"], theirs=theirs)[-1], "four_collar_tb: passed")

    def test_controller_that_finds_nothing(self) -> None:
        never = TEST.replace("assign fail = !reset && failed;", "assign fail = 1'b0;")
        self.assertNotEqual(never, TEST)
        said = "\n".join(self.said(PLAIN, "+planted", test=never))
        self.assertIn("four: fail is 0, and 1 was planted", said)
        self.assertNotIn("four_collar_tb: passed", said)


class RandomLists(unittest.TestCase):
    """What a generator of macros could write."""

    def test_right_lists_are_read(self) -> None:
        for seed in range(60):
            case = random_pins.right(seed)
            macro, word = read(case.lines, *case.memories.values())
            with self.subTest(seed=seed):
                self.assertEqual((macro.name, [memory.name for memory in word.memories]), ("sram", list(case.memories)))
                self.assertIn("sram ", collar(macro, word, "bist"))
                self.assertIn(f"module {word.name}_collar_tb;", Bench(macro, word).text())
                self.assertIn("\nmodule sram", model(macro, word))

    def test_wrong_line_is_refused_at_its_place(self) -> None:
        for seed in range(2 * len(random_pins.ADDED)):
            case, line, why = random_pins.wrong(seed)
            with self.subTest(line=case.lines[line - 1]), self.assertRaises(ToolError) as caught:
                collar(*read(case.lines, *case.memories.values()), "bist")
            self.assertRegex(str(caught.exception), rf"m\.pins:{line}: ")
            self.assertIn(why, str(caught.exception))

    def test_seed_tells_the_list(self) -> None:
        self.assertEqual(random_pins.right(3).pins(), random_pins.right(3).pins())
        self.assertGreater(len({random_pins.right(seed).pins() for seed in range(50)}), 45)

    @needs("iverilog")
    def test_collars_are_verilog(self) -> None:
        """With their models and testbenches, beside self-tests of which only the ports are there."""
        for seed in range(0, 60, 6):
            case = random_pins.right(seed)
            macro, word = read(case.lines, *case.memories.values())
            texts = [Bench(macro, word).text(), collar(macro, word, "bist"), model(macro, word)]
            texts += [ports_of(memory) for memory in word.memories]
            with tempfile.TemporaryDirectory() as name:
                file = pathlib.Path(name) / "a.sv"
                file.write_text("\n".join(texts))
                made = ["iverilog", "-g2012", "-t", "null", str(file)]
                done = subprocess.run(made, stdout=subprocess.PIPE, stderr=subprocess.STDOUT, text=True, check=False)
            self.assertEqual((done.returncode, done.stdout), (0, ""))
