"""The two halves of a module's gates: what is looked up and run in lanes is what the gates are, cycle by cycle."""
from __future__ import annotations

import random
import unittest
from unittest import mock

from tests.unit.controllers import SMALL, needs, plain_of
from vidlakost_tools.audit import halves
from vidlakost_tools.audit.gates import Machine, gates_of
from vidlakost_tools.audit.halves import Halves

# a counter that no word reaches, a word that is kept, a flag that hangs on both, and a register that nothing sets
MIXED = """module mixed(input clk, input reset, input [1:0] rdata, output fail);
  reg [3:0] count;
  reg [1:0] kept;
  reg flag, never;
  assign fail = !reset && (flag ^ (never && count[3])) || kept == rdata && count == 4'd9;
  always @(posedge clk) begin
    count <= reset ? 4'd0 : count + 4'd3;
    kept <= count[0] ? rdata : kept;
    flag <= !reset && (flag || kept != count[1:0]);
    never <= never;
  end
endmodule
"""
LANES = 5


@needs("yosys")
class BothHalves(unittest.TestCase):
    def compared(self, text: str, cycles: int = 60) -> Halves:
        """Both ways give the same, in each lane, of random words that may be open."""
        machine, chance = Machine(gates_of(plain_of(text)), ("fail",)), random.Random(1)
        made, full = Halves(machine), (1 << LANES) - 1
        state, plain = made.start(), [(0, 0)] * len(machine.registers)
        for cycle in range(cycles):
            name = chance.randrange(4)
            drawn = random.Random(name)
            ones = [(drawn.getrandbits(LANES), drawn.getrandbits(LANES)) for _ in machine.words]
            words = [(one & ~other, other & ~one) for one, other in ones]
            is_reset = cycle == 0 or chance.random() < 0.05
            state, (fail,) = made.step(state, words, is_reset, name)
            plain, (due,) = machine.step(plain, [*words, (full, 0) if is_reset else (0, full)], full)
            self.assertEqual((fail[0] & full, fail[1] & full), due, cycle)
        return made

    def test_small_controller(self) -> None:
        self.compared(SMALL)

    def test_what_no_word_reaches_is_in_groups(self) -> None:
        made = self.compared(MIXED)
        self.assertEqual(sorted(len(group) for group in made.groups.bits), [1, 1, 4])
        self.assertEqual(len(made.own), 3)

    def test_one_group_where_there_are_too_many_gates(self) -> None:
        with mock.patch.object(halves, "GATES", 1):
            self.assertEqual(len(self.compared(MIXED).groups.bits), 2)

    def test_values_that_are_forgotten(self) -> None:
        with mock.patch.object(halves, "KEPT", 12):
            self.assertGreater(self.compared(MIXED).groups.era, 0)

    def test_all_words_open(self) -> None:
        machine = Machine(gates_of(plain_of(SMALL)), ("done", "en"))
        made = Halves(machine, is_open=True)
        state, opens = made.start(), [(0, 0)] * len(machine.words)
        plain = [(0, 0)] * len(machine.registers)
        for cycle in range(20):
            state, told = made.step(state, opens, cycle == 0)
            plain, due = machine.step(plain, [*opens, (1, 0) if cycle == 0 else (0, 1)], 1)
            self.assertEqual([(one & 1, zero & 1) for one, zero in told], list(due))
        self.assertEqual(made.own, [])
