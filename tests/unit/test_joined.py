"""The logs of a joined chip, as texts: where they stand, what they hang on, and how many reads are wrong."""
from __future__ import annotations

import dataclasses
import itertools
import unittest

from vidlakost_tools.access import apb, block, log, logs, tap
from vidlakost_tools.chip import access, access_log
from vidlakost_tools.chip.ends import words
from vidlakost_tools.chip.system import Part, Placed, System
from vidlakost_tools.chip.text import Text
from vidlakost_tools.collar.pin_lines import read_macro
from vidlakost_tools.collar.pins import Word
from vidlakost_tools.program import ROOT
from vidlakost_tools.texts.chip import Chip, Unit, place
from vidlakost_tools.texts.march import elements_of
from vidlakost_tools.texts.memory import Memory
from vidlakost_tools.tool import ToolError

MARCH = elements_of("{any(w0);up(r0,w1);down(r1)}")


def memory(name: str, size: int, bits: int, latency: int) -> Memory:
    return Memory(name, words=size, bits=bits, latency=latency, polarity=0, pause=1, rows=None, backgrounds=[0, 1])


def whole(depth: int | None) -> access.SystemTarget:
    """Two memories like left, which has a second port, and one like masked, which has none, in one chip file."""
    left, masked = memory("left", 8, 4, 1), memory("masked", 6, 8, 2)
    units = [Unit(1, "m", "f", MARCH, one) for one in (left, left, masked)]
    names = ("left_0", "left_1", "masked")
    parts = [Part(name, unit.memory, None, unit, 0, at) for at, (name, unit) in enumerate(zip(names, units))]
    chip = Chip("x", 3, units)
    place(chip)
    macros = [read_macro(str(ROOT / f"examples/joins/{one.name}.pins"), Word([one])) for one in (left, left, masked)]
    collars = [Placed(macro, Word([part.memory]), [part]) for macro, part in zip(macros, parts)]
    return dataclasses.replace(access.of_system(System("x", 3, parts, [chip], collars)), depth=depth)


class Logs(unittest.TestCase):
    def test_they_stand_in_the_module_round_the_memories(self) -> None:
        text = block.access(whole(5))
        for line in (
            "  input [2:0] log_pick,",
            "  input [1:0] log_unit,",
            "  left_log log_1(.clk(clk), .test(test), .en(asks[1]), .we(1'b0), .wdata(wdata_1), .rdata(rdata_1),",
            "  assign log_more = log_unit == 2'd0 ? log_more_of_0 : log_unit == 2'd1 ? log_more_of_1 : log_more_of_2;",
        ):
            self.assertIn(line, text)
        for bus in (apb.block(whole(5)), tap.block(whole(5))):
            self.assertNotIn("left_log", bus)
            self.assertIn(".log_pick(log_pick[2:0]),\n    .log_unit(log_unit),\n    .log_count(log_count_now)", bus)
            self.assertIn("assign log_cycle = is_done ? (log_cycle_now) : 32'd0;", bus)

    def test_without_a_log_nothing_is_kept(self) -> None:
        target = whole(None)
        self.assertNotIn("log", block.access(target) + apb.block(target) + tap.block(target))
        self.assertEqual((logs.ports(target), logs.told(target), logs.inside(target)), ([], [], ""))

    def test_equal_memories_share_a_module(self) -> None:
        made = log.blocks(whole(5), 5)
        self.assertEqual(list(made), ["left_log.v", "masked_log.v"])
        self.assertIn("module left_log(", made["left_log.v"])

    def test_a_module_of_that_name_is_refused(self) -> None:
        target = whole(5)
        access.refuse_log_names(target)
        target.system.collars[0].macro.name = "Left_Log"
        with self.assertRaisesRegex(ToolError, "a module Left_Log"):
            access.refuse_log_names(target)

    def test_a_pin_of_that_name_is_refused(self) -> None:
        target = whole(5)
        access.refuse_inner_names(target, {"x_access.v": block.access(target)})
        target.system.collars[0].parts[0].name = "log"
        target.system.collars[0].macro.of("addr")[0].name = "pick"
        with self.assertRaisesRegex(ToolError, "x_access.v would have a net log_pick"):
            access.refuse_inner_names(target, {"x_access.v": ""})


class Judged(unittest.TestCase):
    def test_how_many_reads_are_wrong(self) -> None:
        """Two reads of each word in two backgrounds; what has no second port is tested by its only one again."""
        self.assertEqual([access_log.wrong_reads(whole(5), number) for number in range(3)], [32, 32, 48])

    def test_words_in_which_every_two_bits_differ(self) -> None:
        for bits in (1, 2, 3, 8, 13):
            tried = list(words(bits))
            for one, other in itertools.combinations(range(bits), 2):
                self.assertTrue(any((word >> one ^ word >> other) & 1 for word in tried))
            for bit in range(bits):
                self.assertEqual({word >> bit & 1 for word in tried}, {0, 1})

    def test_a_read_is_an_enable_without_a_write(self) -> None:
        text = Text(dataclasses.replace(whole(5).system, has_access=True)).text()
        self.assertIn("  output wire [2:0] asks,", text)
        self.assertIn("  assign asks[2] = n_masked_en & ~n_masked_we;", text)
        self.assertNotIn("asks", Text(whole(5).system).text())


if __name__ == "__main__":
    unittest.main()
