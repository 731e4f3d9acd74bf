"""The tool `audit` from its words to its last line. The plain model of `check` stands for the program."""
from __future__ import annotations

import contextlib
import io
import pathlib
import re
import tempfile
import unittest
from typing import Any
from unittest import mock

from tests.unit.controllers import SMALL, changed, needs
from vidlakost_tools.audit import findings, random_comparison
from vidlakost_tools.audit.outcome import READ_ALONE
from vidlakost_tools.commands import audit
from vidlakost_tools.text import read_text
from vidlakost_tools.texts.march import elements_of
from vidlakost_tools.texts.memory import parse_memory
from vidlakost_tools.tool import Refused, ToolError
from vidlakost_tools.verilog import open_run

MARCH = "{any(w0);up(r0)}"
MEMORY = "memory 1\nname tiny\nwords 2\nbits 2\nbackgrounds 0\n"


def check(command: str, *files: str) -> tuple[int, str]:
    """What `check` says of a module, by the plain model."""
    assert command == "check"
    line = open_run.told(*files)
    return int(not line.startswith("conforms ")), line


class Tool(unittest.TestCase):
    def setUp(self) -> None:
        folder = tempfile.TemporaryDirectory()
        self.addCleanup(folder.cleanup)
        self.folder = pathlib.Path(folder.name)
        (self.folder / "a.m").write_text(MARCH)
        (self.folder / "a.mem").write_text(MEMORY)
        self.addCleanup(mock.patch.stopall)
        mock.patch.object(audit, "march_of", lambda path: ("", elements_of(read_text(path)))).start()
        mock.patch.object(audit, "read_memory", lambda path: parse_memory(read_text(path))).start()
        mock.patch.object(findings, "run", check).start()
        # where a line is due is told by another tool
        mock.patch.object(audit, "place_told").start()

    def audit(self, text: str, *options: str, **more: str) -> tuple[int, list[str], list[str]]:
        """The status, and the lines on both outputs; `more` are further files, by their names' first parts."""
        (self.folder / "a.v").write_text(text)
        for name, content in more.items():
            (self.folder / name).write_text(content)
        words = [str(self.folder / name) for name in ("a.v", "a.m", "a.mem")]
        out, told = io.StringIO(), io.StringIO()
        with contextlib.redirect_stdout(out), contextlib.redirect_stderr(told):
            alone = () if "--simulate" in options else ("--no-simulate",)
            status = audit.main([*words, *alone, *(option.replace("@", str(self.folder)) for option in options)])
        return status, out.getvalue().splitlines(), told.getvalue().splitlines()


@needs("yosys")
class Verdicts(Tool):
    def test_right_controller(self) -> None:
        status, lines, _ = self.audit(SMALL)
        self.assertEqual((status, lines[0], lines[-1]), (0, "check: conforms 7", f"audit: {READ_ALONE}"))

    def test_last_lines(self) -> None:
        idle = ("step <= 3'd1", "step <= 3'd7")
        missed = "fail is 0 in cycle 6 though bit 0 of the answer of cycle 5 is wrong"
        again = "done is 0 in cycle 7, after the end, fail is 1 in cycle 13 though all answers are right"
        last = {
            "audit: wrong: differs cycle 2 port addr expected 1 got 0": [("!step[0]", "1'b0")],
            f"audit: wrong: {missed}": [(" || step == 3'd5", "")],
            # the test begins anew, and looks in cycle 12 at a word that nothing has read
            f"audit: wrong: {again}": [("3'd6 ? 3'd6", "3'd6 ? 3'd7")],
            "audit: wrong: starts 2 cycles late: differs cycle 1 port wdata expected 0 got 3": [
                idle,
                ("wdata = 2'd0", "wdata = 2'd3"),
            ],
            "audit: wrong: en not 0 in the reset, fail is exact": [("en = !reset && step", "en = step")],
        }
        for line, changes in last.items():
            with self.subTest(changes=changes):
                status, lines, _ = self.audit(changed(*changes))
                self.assertEqual((status, lines[-1]), (1, line))

    def test_reset_that_may_be_open(self) -> None:
        open_reset = changed(("en = !reset && step", "en = step"))
        self.assertIn(
            "in the cycle of the reset en has to be 0; --reset-open allows anything there",
            self.audit(open_reset)[1][-2],
        )
        status, lines, _ = self.audit(open_reset, "--reset-open")
        open_there = "conforms, en not 0 in the reset, fail is exact"
        self.assertEqual((status, lines[-1]), (0, f"audit: {READ_ALONE}: {open_there}"))

    def test_late_start(self) -> None:
        status, lines, _ = self.audit(changed(("step <= 3'd1", "step <= 3'd7")))
        # each answer comes two cycles later too, and is compared by its own step
        self.assertEqual(lines[1], "late start: the test begins 2 cycles late; counted from there: conforms 7")
        self.assertEqual(lines[2], "  before it, en and done are 0")
        self.assertEqual((status, lines[-1]), (0, f"audit: {READ_ALONE}: conforms 2 cycles late, fail is exact"))
        never = changed(("&& step <= 3'd4", "&& step <= 3'd0"))
        self.assertTrue(any(line.startswith("no late start: ") for line in self.audit(never)[1]))

    def test_late_end(self) -> None:
        """Where done comes a cycle late, fail may do so too, if that is said."""
        late = changed(
            ("reset && step == 3'd6", "reset && step == 3'd7"), ("step == 3'd6 ? 3'd6", "step == 3'd7 ? 3'd7")
        )
        status, lines, _ = self.audit(late)
        self.assertEqual((status, lines[-1]), (1, "audit: wrong: done 1 cycle late, fail is exact"))
        self.assertIn("late end: the commands are right, and done comes 1 cycle late", lines[1])
        status, lines, _ = self.audit(late, "--fail-late", "1")
        verdict = "conforms, done 1 cycle late, fail is exact"
        self.assertEqual((status, lines[-1]), (0, f"audit: {READ_ALONE}: {verdict}"))

    def test_port_that_is_unknown_has_a_reason(self) -> None:
        unknown = changed(("  reg bad;", "  reg bad;\n  reg lost;"), ("wdata = 2'd0", "wdata = {lost ^ bad, 1'b0}"))
        status, lines, _ = self.audit(unknown)
        self.assertEqual((status, lines[-1]), (1, "audit: unknown: cycle 1 port wdata"))
        self.assertIn("  wdata hangs on lost (a.v:7), which nothing drives", lines)

    def test_fail_that_is_unknown_has_a_reason(self) -> None:
        lost = changed(("  reg bad;", "  reg bad;\n  wire lost;"), ("reset && bad", "reset && (bad || lost)"))
        status, lines, _ = self.audit(lost)
        self.assertEqual(status, 1)
        self.assertIn("  fail hangs on lost (a.v:7), which nothing drives", lines)
        self.assertRegex(lines[-1], "^audit: unknown: fail is unknown in cycle 1 where all answers are right")

    def test_what_still_changes_at_the_end_of_the_look(self) -> None:
        """A counter that goes on does no harm, but with --strict that is a finding."""
        counts = changed(
            ("  reg bad;", "  reg bad;\n  reg [7:0] count;"), ("      bad <= 1'b0;", "      {bad, count} <= 9'd0;")
        )
        counts = changed(("      step <= step", "      count <= count + 8'd1;\n      step <= step"), text=counts)
        counts = changed(("reset && step == 3'd6", "reset && (step == 3'd6 || &count)"), text=counts)
        changes = "done and en are right to cycle 70, fail is exact"
        status, lines, _ = self.audit(counts)
        self.assertEqual((status, lines[-1]), (0, f"audit: {READ_ALONE}: conforms, {changes}"))
        status, lines, _ = self.audit(counts, "--strict")
        self.assertEqual((status, lines[-1]), (1, f"audit: unknown: {changes}"))

    def test_waveform_beside_the_verdict(self) -> None:
        status, _, told = self.audit(SMALL, "--vcd", "@/run.vcd")
        self.assertEqual(
            (status, told),
            (0, [f"audit: the run is in {self.folder}/run.vcd, and a save file for GTKWave is beside it"]),
        )
        self.assertTrue((self.folder / "run.gtkw").exists())

    @needs("iverilog", "vvp")
    def test_sources_beside_icarus(self) -> None:
        status, lines, _ = self.audit(SMALL, "--simulate")
        self.assertRegex(lines[-2], "^beside Icarus: equal in [0-9,]+ cycles$")
        self.assertEqual((status, lines[-1]), (0, "audit: right: conforms, fail is exact, simulated by Icarus"))


@needs("yosys")
class Refusals(Tool):
    def test_ports_of_another_self_test(self) -> None:
        """The lines of a file of pins are a guess."""
        status, lines, told = self.audit(changed(("output fail\n", "output fail, input start\n")))
        self.assertEqual((status, lines), (1, ["audit: refused"]))
        self.assertEqual(told[0], "audit: further ports are there; the module has input start of 1.")
        self.assertEqual((told[2], told[-1]), ("    clk clk", "    tie start 0"))
        status, lines, told = self.audit(SMALL.replace("[1:0]", "[2:0]"))
        self.assertRegex(
            told[0], "^audit: a self-test of tiny has the ports input rdata of 2 bits, output wdata of 2 bits; "
        )

    def test_pins_that_give_other_ports(self) -> None:
        (self.folder / "pins").write_text("clk clk\nrdata rdata\n")
        wide = SMALL.replace("[1:0] wdata", "[2:0] wdata")
        status, _, told = self.audit(wide, "--pins", "@/pins")
        wanted = r"pins: a self-test of tiny has the ports output wdata of 2 bits; the pins give output wdata of 3$"
        self.assertEqual(status, 1)
        self.assertRegex(told[0], wanted)

    def test_source_that_is_refused(self) -> None:
        status, lines, told = self.audit("module m(input a);\n  nothing\nendmodule\n")
        self.assertEqual((status, lines), (1, ["audit: refused"]))
        self.assertRegex(told[0], "^audit: yosys refuses it: ")

    def test_what_check_refuses(self) -> None:
        refuses = "`check` refuses the module that Yosys makes of the sources"
        large = "the module that Yosys makes of the sources has [0-9,]+ bytes, and `check` reads 1,048,576 at most"
        answers: list[tuple[int, str, str]] = [
            (14, "verilog L3 byte 9", f"^audit: {refuses}: verilog L3 byte 9$"),
            (6, "too large 1", f"^audit: {large}"),
        ]
        for status, said, message in answers:
            with mock.patch.object(findings, "run", return_value=(status, said)):
                self.assertRegex(self.audit(SMALL)[2][0], message)
        with mock.patch.object(findings, "run", return_value=(3, "march M2")), self.assertRaises(Refused):
            self.audit(SMALL)

    def test_wrong_words(self) -> None:
        words = [str(self.folder / name) for name in ("a.v", "a.m", "a.mem")]
        (self.folder / "a.v").write_text(SMALL)
        wrong: dict[str, list[Any]] = {
            "^too few words": words[:2],
            "is a source$": [*words, "--vcd", words[0]],
            "is the march$": [*words, "--vcd", words[1]],
            "is the name of the save file": [*words, "--vcd", str(self.folder / "run.gtkw")],
            "--limit is a number of at least 1": [*words, "--limit", "0"],
        }
        for message, arguments in wrong.items():
            with self.subTest(arguments=arguments), self.assertRaisesRegex(ToolError, message):
                with contextlib.redirect_stdout(io.StringIO()):
                    audit.main(arguments)


class Calls(unittest.TestCase):
    def test_call_of_the_model_checker(self) -> None:
        options = {"--top": "m", "--pins": "a pins", "--limit": "3"}
        asked = findings.Audit(
            ["a.v", "b;c.v"], options, None, "c.m", "a.mem", elements_of(MARCH), parse_memory(MEMORY)
        )
        self.assertEqual(findings.formal_call(asked), "vidlakost formal a.v 'b;c.v' c.m a.mem --top m --pins 'a pins'")
        commands = [command is not None for command in asked.commands()]
        self.assertEqual(commands, [False, True, True, True, True, False, False])

    def test_random_modules_are_compared(self) -> None:
        with mock.patch.object(random_comparison, "compare", return_value=0) as compare:
            self.assertEqual(audit.main(["--random", "3", "--seed", "5"]), 0)
        number, chance = compare.call_args.args
        self.assertEqual((number, re.match(r"<random\.Random", repr(chance)) is not None), (3, True))
