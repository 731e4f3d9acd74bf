"""What stands round a self-test, as texts: ports, the register of the TAP, and which read a cycle is."""
from __future__ import annotations

import dataclasses
import pathlib
import re
import tempfile
import unittest

from vidlakost_tools.access import apb, log_window, standards, tap
from vidlakost_tools.access.target import Target, Unit
from vidlakost_tools.access.log import Entry, entry_in, read_log
from vidlakost_tools.diagnosis import tester
from vidlakost_tools.pages import signoff
from vidlakost_tools.texts.march import elements_of
from vidlakost_tools.texts.memory import Memory
from vidlakost_tools.texts.reads import first_read, read_of
from vidlakost_tools.tool import ToolError
from vidlakost_tools.verilog import vhdl_text
from vidlakost_tools.verilog.syntax import Reader

MARCH = "{any(w0);up(r0,w1);del;down(r1)}"


def memory() -> Memory:
    return Memory("m", words=4, bits=4, latency=2, polarity=5, pause=3, rows=None, backgrounds=[0, 0xA])


def plain(name: str, bits: int) -> Memory:
    return Memory(name, words=4, bits=bits, latency=1, polarity=0, pause=1, rows=None, backgrounds=[0])


class Reads(unittest.TestCase):
    def test_the_first_read_of_the_second_element(self) -> None:
        # four writes in the cycles 1 to 4, the read in cycle 5, its answer two later; the port has the stored bits
        # inverted where the polarity is 1
        read = read_of(elements_of(MARCH), memory(), 7)
        self.assertEqual((read.background, read.element, read.operation, read.index, read.expected), (0, 1, 0, 0, 5))

    def test_downward_behind_a_pause(self) -> None:
        # 4 + 8 + 3 cycles before it
        read = read_of(elements_of(MARCH), memory(), 16 + 2)
        self.assertEqual((read.element, read.index, read.expected), (3, 3, 0xA))

    def test_the_second_background(self) -> None:
        read = read_of(elements_of(MARCH), memory(), 19 + 5 + 2)
        self.assertEqual((read.background, read.element, read.expected), (1, 1, 0xF))

    def test_where_no_answer_stands(self) -> None:
        for cycle in (0, 1, 6, 8, 13 + 2, 38 + 2 + 1):
            with self.assertRaises(ToolError):
                read_of(elements_of(MARCH), memory(), cycle)


class Register(unittest.TestCase):
    def setUp(self) -> None:
        self.target = Target.of_memory(memory(), 41)

    def test_the_parts_of_a_memory(self) -> None:
        found = [(part.name, part.low, part.width) for part in tap.parts(self.target)]
        state = [("start", 0, 1), ("done", 1, 1), ("fail", 2, 1), ("seen", 3, 1)]
        self.assertEqual(found, [*state, ("cycle", 4, 32), ("expected", 36, 4), ("returned", 40, 4)])

    def test_the_parts_of_a_chip(self) -> None:
        units = [Unit(plain(f"m{number}", bits), f"_{number}") for number, bits in enumerate((4, 9, 4))]
        found = [(part.name, part.low, part.width) for part in tap.parts(Target("x", "x", units, True))][4:]
        words = [("cycle", 4, 32), ("expected", 36, 9), ("returned", 45, 9)]
        self.assertEqual(found, [*words, ("unit", 54, 2), ("failing", 56, 3), ("ignore", 59, 3)])

    def test_a_failure(self) -> None:
        lines = tester.of_register(self.target, [elements_of(MARCH)], "4500000007f", 2)
        self.assertEqual(lines[:2], ["done", "cycle 7 expected 5 returned 4"])
        self.assertEqual(lines[-4:], ["index 0 row 0", "address 0", "bits 0", "columns 0"])

    def test_a_scan_behind_segment_insertion_bits(self) -> None:
        """44 bits of the register, above them that of the self-test, which is 1, and that of the log."""
        target = dataclasses.replace(self.target, has_sib=True)
        lines = tester.of_register(target, [elements_of(MARCH)], "14500000007f", 2)
        self.assertEqual(lines[:2], ["done", "cycle 7 expected 5 returned 4"])
        for text in ("4500000007f", "04500000007f", "24500000007f", "34500000007f", "0014500000007f"):
            with self.assertRaises(ToolError, msg=text):
                tester.of_register(target, [elements_of(MARCH)], text, 1)

    def test_what_can_be_no_register(self) -> None:
        for text in ("", "x", "2", "b", "100000000000", "5500000007f", "4400000007f", "4500000008f"):
            with self.assertRaises(ToolError, msg=text):
                tester.of_register(self.target, [elements_of(MARCH)], text, 1)


class Waits(unittest.TestCase):
    def test_a_test_is_over_before_it_is_read(self) -> None:
        """Whatever the clock, a player that reads the seconds, or whole microseconds of them, waits as long as the test
        goes."""
        for cycles, mhz in ((1_234_400, 100.0), (41, 200.0), (62_725, 33.3), (2_000_000_000, 999.0)):
            text = standards.svf(Target.of_memory(memory(), cycles), mhz)
            said = re.search(r"^RUNTEST IDLE (\S+) SEC;\nRUNTEST IDLE 16 TCK;$", text, re.MULTILINE)
            assert said is not None
            self.assertGreaterEqual(int(1e6 * float(said[1])) * mhz, cycles)


class EndsOfLogs(unittest.TestCase):
    def test_more_behind_an_entry(self) -> None:
        """What is said behind an entry says that it is the last one that was kept: later reads may have been wrong."""
        for unit, before in ((None, ""), (1, "unit 1 ")):
            text = f"{before}cycle 9 expected 0 returned 1\n{before}cycle 13 expected 5 returned 4 more\n"
            with tempfile.TemporaryDirectory() as name:
                path = pathlib.Path(name) / "log"
                path.write_text(text)
                entries, more = read_log(str(path), memory(), unit)
                self.assertEqual(([entry.cycle for entry in entries], more), ([9, 13], True))
                path.write_text(text + f"{before}cycle 17 expected 5 returned 4\n")
                with self.assertRaisesRegex(ToolError, "comes after 'more'"):
                    read_log(str(path), memory(), unit)

    def test_a_word_of_seventy_bits(self) -> None:
        found = entry_in(f"unit 3 cycle 7 expected {0:018x} returned 20{0:016x}")
        assert found is not None
        self.assertEqual(int(found[3], 16), 1 << 69)


class FirstReads(unittest.TestCase):
    def test_behind_writes_and_a_pause(self) -> None:
        """Four words are written in the cycles 1 to 4, a pause of 3 follows, and the read in cycle 9 stands behind a
        write: its answer comes two cycles later, with the bits inverted that are stored inverted."""
        found = first_read(elements_of("{any(w0);del;down(w1,r1);any(r0)}"), memory())
        self.assertEqual(found, (11, 0xF ^ 5))
        self.assertIsNone(first_read(elements_of("{any(w0)}"), memory()))


class Registers(unittest.TestCase):
    def test_a_word_of_more_than_64_bits(self) -> None:
        """Each 32 bits have a register; those after the second are behind the others."""
        wide = dataclasses.replace(memory(), polarity=0, backgrounds=[0])
        wide.bits = 70
        made = apb.registers(Target("m", "m", [Unit(wide, "_0")], True, 41))
        found = {one.name: (one.at, one.fields[0].width) for one in made if one.name.startswith(("EXP", "RET"))}
        self.assertEqual(found, {
            "EXPECTED_LOW": (0x14, 32), "EXPECTED_HIGH": (0x18, 32), "EXPECTED_2": (0x300, 6),
            "RETURNED_LOW": (0x1C, 32), "RETURNED_HIGH": (0x20, 32), "RETURNED_2": (0x340, 6),
        })
        source = next(one for one in made if one.name == "EXPECTED_2").fields[0].source
        self.assertEqual(source, "(is_seen ? expected[69:64] : 6'd0)")


class LogWindow(unittest.TestCase):
    def test_what_a_bus_has_without_a_log_and_with_one(self) -> None:
        target = Target.of_memory(memory(), 41)
        with_log = dataclasses.replace(target, depth=3)
        self.assertNotIn("log_", apb.block(target) + tap.block(target) + apb.table(target))
        self.assertIn("is_there <= paddr[10:5] < 6'd3;", apb.block(with_log))
        self.assertIn("LOG_CYCLE[3] @ 0x800 += 0x20;", apb.system_rdl(with_log))
        self.assertIn('"LOG (1001), "', standards.bsdl(with_log))
        self.assertEqual(log_window.places(with_log), {"valid": "0", "last": "1", "more": "2", "cycle": "34:3",
                                                       "expected": "38:35", "returned": "42:39"})


class Bits(unittest.TestCase):
    def test_the_units_of_the_bits_of_fail(self) -> None:
        self.assertEqual(tester.failing_units("0110", 4), [1, 2])
        for text in ("", "0000", "011", "01100", "0120"):
            with self.assertRaises(ToolError):
                tester.failing_units(text, 4)


class Logs(unittest.TestCase):
    def read(self, text: str, unit: int | None = None) -> tuple[list[Entry], bool]:
        with tempfile.TemporaryDirectory() as folder:
            path = pathlib.Path(folder) / "log"
            path.write_text(text)
            return read_log(str(path), memory(), unit)

    def test_entries_and_more(self) -> None:
        entries, more = self.read("note\ncycle 7 expected 0 returned 4\nread cycle 9 expected 5 returned D\nmore\n")
        self.assertEqual((entries, more), ([Entry(7, 0, 4), Entry(9, 5, 13)], True))

    def test_a_log_behind_a_bus(self) -> None:
        first = "fail 1 cycle 7 expected 0 returned 4\n"
        self.assertEqual(
            self.read(first + "cycle 7 expected 0 returned 4\ncycle 9 expected 5 returned d\n")[0][1:],
            [Entry(9, 5, 13)],
        )
        with self.assertRaises(ToolError):
            self.read("cycle 7 expected 0 returned 4\n" + first)

    def test_the_log_of_a_chip(self) -> None:
        """A line `unit U more` is of one unit, and a line `more` of all."""
        text = "unit 0 cycle 7 expected 0 returned 4\nunit 0 more\nunit 1 cycle 3 expected 0 returned 8\n"
        self.assertEqual(self.read(text, 0), ([Entry(7, 0, 4)], True))
        self.assertEqual(self.read(text, 1), ([Entry(3, 0, 8)], False))
        self.assertEqual(self.read(text + "more\n", 1), ([Entry(3, 0, 8)], True))
        behind = text + "unit 0 cycle 9 expected 0 returned 8\n"
        for wrong, unit in ((text, 2), (text, None), ("unit 0 more\n", None), (behind, 0)):
            with self.assertRaises(ToolError):
                self.read(wrong, unit)

    def test_the_last_word_of_a_log_is_whole(self) -> None:
        with tempfile.TemporaryDirectory() as folder:
            path = pathlib.Path(folder) / "log"
            path.write_text("cycle 7 expected f0 returned f8\ncycle 9 expected 0 returned 0f")
            self.assertEqual(read_log(str(path), plain("m", 8))[0], [Entry(7, 0xF0, 0xF8), Entry(9, 0, 0xF)])
            path.write_text("cycle 7 expected f0 returned f8\ncycle 9 expected 0 returned f")
            with self.assertRaisesRegex(ToolError, "the text ends within the word f"):
                read_log(str(path), plain("m", 8))

    def test_what_is_no_log(self) -> None:
        entry, same = "cycle 7 expected 0 returned 4\n", "cycle 7 expected 4 returned 4\n"
        twice, cut, old = entry + entry, entry + "cycle 9 expected 0 retur", "cycle 7 returned 4\n"
        wide = [entry.replace(word, "14") for word in ("4", " 0")]
        joined = [entry.strip() + " " + more for more in (entry.replace("7", "9"), "cycle 9 expected 0 retur\n")]
        of_chip, behind = "unit 1 " + entry, entry + "more\n" + entry.replace("7", "9")
        for text in (twice, cut, "", "fail 1\n", *wide, entry.replace("7", "x"), same, old, *joined, of_chip, behind):
            with self.assertRaises(ToolError):
                self.read(text)


class Pages(unittest.TestCase):
    def test_a_call_to_copy_runs_no_name(self) -> None:
        self.assertEqual(signoff.locating(["a b;c.m", "d.mem"], False), "vidlakost locate 'a b;c.m' d.mem --tdr HEX")
        self.assertEqual(signoff.locating(["$(x).chip"], True), "vidlakost locate '$(x).chip' --chip --tdr HEX")


class Vhdl(unittest.TestCase):
    def test_names(self) -> None:
        names = vhdl_text.Names(["In", "in", "addr", "a$", "x_", "process"])
        found = [names.of(name) for name in ("In", "addr", "a$", "x_", "process")]
        self.assertEqual(found, ["\\In\\", "addr", "\\a$\\", "\\x_\\", "\\process\\"])

    def test_an_assign(self) -> None:
        source = "module m(input [1:0] a, output b);\n  assign b = (a[1] ? 1'h1 : (a == 2'h1));\nendmodule\n"
        text = vhdl_text.vhdl(Reader(source).module())
        self.assertIn('  v_b <= choose(v_a(1 downto 1), unsigned\'("1"), equal(v_a, unsigned\'("01")));', text)


if __name__ == "__main__":
    unittest.main()
