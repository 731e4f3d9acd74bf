"""Late starts and late ends of a small controller, and its run as a waveform, each worked out by hand."""
from __future__ import annotations

import pathlib
import re
import tempfile
import unittest

from tests.unit.controllers import DONE, MARCH, MEMORY, SMALL, changed, checked, needs, plain_of
from vidlakost_tools.audit import late_end, late_start, waveform
from vidlakost_tools.verilog import open_run

# the first command is due in cycle 1
FIRST = 1
# a reset to step 7, behind which step 0 comes: the first command comes two cycles late
IDLE = changed(("step <= 3'd1", "step <= 3'd7"))
SLOW = changed(("reset && step == 3'd6", "reset && step == 3'd7"), ("step == 3'd6 ? 3'd6", "step == 3'd7 ? 3'd7"))


@needs("yosys")
class Starts(unittest.TestCase):
    def late(self, text: str) -> late_start.Late | None:
        return late_start.late(plain_of(text), FIRST)

    def test_start_that_is_late(self) -> None:
        self.assertEqual(checked(plain_of(IDLE)), "differs cycle 1 port en expected 1 got 0")
        late = self.late(IDLE)
        assert late is not None
        self.assertEqual((late.cycles, late.in_reset, checked(late.module)), (2, [], "conforms 7"))

    def test_mistake_behind_a_late_start(self) -> None:
        late = self.late(changed(("!step[0]", "step[0]"), text=IDLE))
        assert late is not None
        self.assertEqual((late.cycles, checked(late.module)), (2, "differs cycle 1 port addr expected 0 got 1"))

    def test_start_in_time_with_ports_that_are_not_0_in_the_reset(self) -> None:
        late = self.late(changed(("!reset && step >= 3'd1", "step >= 3'd1")))
        assert late is not None
        self.assertEqual((late.cycles, late.in_reset, checked(late.module)), (0, ["en"], "conforms 7"))

    def test_what_is_no_late_start(self) -> None:
        never = changed(("&& step <= 3'd4", "&& step <= 3'd0"))
        done_before = changed(("reset && step == 3'd6", "reset && (step == 3'd6 || step == 3'd7)"), text=IDLE)
        for text in (never, done_before):
            self.assertIsNone(self.late(text))

    def test_what_is_open_stays_open(self) -> None:
        """What `bad` is at the start is not known, and no reset makes a number of it."""
        late = self.late(changed(("      bad <= 1'b0;\n", ""), text=IDLE))
        assert late is not None
        (bad,) = [register for register in late.module.registers if register.name == "bad"]
        self.assertTrue(bad.value.startswith("(reset ? bad : "), bad.value)


@needs("yosys")
class Ends(unittest.TestCase):
    def test_end_that_is_late(self) -> None:
        slow = plain_of(SLOW)
        self.assertEqual(checked(slow), "differs cycle 6 port done expected 1 got 0")
        self.assertEqual(late_end.late(slow, DONE), 1)
        self.assertEqual(checked(late_end.in_time(slow, DONE)), "conforms 7")

    def test_what_is_no_late_end(self) -> None:
        never = changed(("reset && step == 3'd6", "reset && step == 3'd0"))
        busy = changed(("step <= 3'd4;\n  assign we", "step <= 3'd6;\n  assign we"), text=SLOW)
        for text in (SMALL, never, busy):
            self.assertIsNone(late_end.late(plain_of(text), DONE))

    def test_counter_has_a_name_of_its_own(self) -> None:
        text = re.sub(r"\bstep\b", "cycle_0", SLOW)
        made = late_end.in_time(plain_of(text), DONE)
        self.assertEqual([one.name for one in made.registers], ["cycle_0", "bad", "cycle_1"])
        self.assertEqual(checked(made), "conforms 7")


def read_wave(text: str) -> dict[int, dict[str, str]]:
    """Of each time of a waveform the values of all signals, by their names with the scope in front."""
    names: dict[str, str] = {}
    found: dict[int, dict[str, str]] = {}
    scope, time = "", 0
    for line in text.splitlines():
        words = line.split()
        if words[0] == "$scope":
            scope = f"{words[2]}."
        elif words[0] == "$upscope":
            scope = ""
        elif words[0] == "$var":
            names[words[3]] = scope + words[4]
        elif line[0] == "#":
            time = int(line[1:])
            found[time] = dict(found.get(max(found, default=0), {}))
        elif line[0] in "01xb":
            word, code = words if line[0] == "b" else (line[0], line[1:])
            found[time][names[code]] = word.lstrip("b")
    return found


@needs("yosys")
class Waves(unittest.TestCase):
    def setUp(self) -> None:
        folder = tempfile.TemporaryDirectory()
        self.addCleanup(folder.cleanup)
        self.file = pathlib.Path(folder.name) / "run.vcd"

    def write(self, cycle: int) -> dict[int, dict[str, str]]:
        commands = [None, *open_run.commands_of(MARCH, MEMORY), None, None]
        self.is_new = waveform.write_wave(str(self.file), plain_of(SMALL), commands, MEMORY, cycle)
        return read_wave(self.file.read_text())

    def test_cycles(self) -> None:
        """A cycle takes ten units. In the reset all registers are open, and what the reset makes 0 is 0."""
        wave = self.write(DONE)
        self.assertEqual(max(wave), 10 * (DONE + waveform.BEHIND) + 5)
        ports = ("reset", "ports.en", "ports.addr", "ports.done", "registers.step", "registers.bad")
        rows = {cycle: tuple(wave[10 * cycle][port] for port in ports) for cycle in (0, 1, 2, 5, 6)}
        self.assertEqual(rows[0], ("1", "0", "x", "0", "xxx", "x"))
        self.assertEqual(rows[1], ("0", "1", "0", "0", "001", "0"))
        self.assertEqual(rows[2], ("0", "1", "1", "0", "010", "0"))
        # an answer of cycle 4 may have been wrong
        self.assertEqual(rows[5], ("0", "0", "0", "0", "101", "x"))
        self.assertEqual(rows[6], ("0", "0", "1", "1", "110", "x"))

    def test_what_is_due(self) -> None:
        wave = self.write(DONE)
        ports = ("due.en", "due.we", "due.addr", "due.wdata", "due.done")
        rows = {cycle: tuple(wave[10 * cycle][port] for port in ports) for cycle in (0, 2, 3, 5, 6, 7)}
        self.assertEqual(rows[0], ("0", "x", "x", "xx", "0"))
        self.assertEqual(rows[2], ("1", "1", "1", "00", "0"))
        self.assertEqual(rows[3], ("1", "0", "0", "xx", "0"))
        self.assertEqual(rows[5], ("0", "x", "x", "xx", "0"))
        self.assertEqual(rows[6], rows[7])
        self.assertEqual(rows[7][-1], "1")

    def test_clock_rises_and_falls_in_each_cycle(self) -> None:
        wave = self.write(DONE)
        self.assertEqual({wave[10 * cycle]["clk"] for cycle in range(DONE)}, {"1"})
        self.assertEqual({wave[10 * cycle + 5]["clk"] for cycle in range(DONE)}, {"0"})

    def test_waveform_begins_near_what_was_found(self) -> None:
        self.addCleanup(setattr, waveform, "BEFORE", waveform.BEFORE)
        waveform.BEFORE = 2
        self.assertEqual(min(self.write(DONE)), 10 * (DONE - 2))

    def test_save_file_shows_the_cycle_and_the_pairs(self) -> None:
        self.write(DONE)
        self.assertTrue(self.is_new)
        save = waveform.save_of(str(self.file)).read_text().splitlines()
        self.assertIn(f'[dumpfile] "{self.file.resolve()}"', save)
        self.assertIn(f"*4.0 {10 * DONE}", save)
        begin = save.index("clk")
        self.assertEqual(save[begin + 1 : begin + 4], ["reset", "ports.en", "due.en"])
        self.assertEqual(sorted(save[-2:]), ["registers.bad", "registers.step[2:0]"])
