"""Registers of a source beside those of the made module, in a bench for Icarus."""
from __future__ import annotations

import unittest

from vidlakost_tools.audit import beside_icarus
from vidlakost_tools.texts.memory import parse_memory
from vidlakost_tools.verilog.front_end import Plain
from vidlakost_tools.verilog.named_bits import Drive


def two_bits(**origins: list[list[tuple[str, int]]]) -> beside_icarus.Beside:
    """A module with a register of two bits, which are these signals of the sources, and one of two bits that is
    none."""
    memory = parse_memory("memory 1\nname m\nwords 2\nbits 1\n")
    held = Drive("held", 2, "held", [["held"]])
    plain = Plain("m", [], [], [], [held], [], {}, "clk", origins=origins, widths={"q": 2, "low": 1, "wide": 3})
    return beside_icarus.Beside([], plain, None, memory)


class BesideIcarus(unittest.TestCase):
    def test_registers_are_set_as_the_made_ones_are(self) -> None:
        whole = two_bits(held=[[("q", 0)], [("q", 1)]])
        same = {"    $deposit(dut.q, {made.held[1], made.held[0]});": {"made.held[0]", "made.held[1]"}}
        self.assertEqual((whole.same(), whole.is_whole(same)), (same, True))
        self.assertIn("cycle < 1000 && cycle % 20 == 0", whole.bench(same))
        self.assertIn("made.held = then_held;", whole.bench(same))

    def test_registers_that_are_not_known_begin_once(self) -> None:
        part = two_bits(held=[[("low", 0)], []])
        self.assertFalse(part.is_whole(part.same()))
        self.assertIn("cycle < 0 &&", part.bench(part.same()))
        # a signal some bits of which are no registers is set, and doesn't count
        wide = two_bits(held=[[("wide", 0)], [("wide", 2)]])
        self.assertEqual(wide.same(), {"    $deposit(dut.wide, {made.held[1], 1'b0, made.held[0]});": set()})
        self.assertFalse(wide.is_whole(wide.same()))

    def test_names_behind_a_backslash(self) -> None:
        for line, other in (
            ("    dut.q[1] = {made.held[1]};", "    $deposit(dut.\\q[1] , {made.held[1]});"),
            ("    $deposit(judge.dut.part.q, {n_held[1]});", "    $deposit(judge.dut.\\part.q , {n_held[1]});"),
        ):
            self.assertEqual(beside_icarus.escaped(line), other)
            self.assertIsNone(beside_icarus.escaped(other))
            self.assertEqual(beside_icarus.known({line: {"a"}, "b": {"c"}}, {line}), {other: {"a"}, "b": {"c"}})
            self.assertEqual(beside_icarus.known({other: {"a"}}, {other}), {})
