"""Cells of Yosys as words of the subset, and clocks behind gates."""
from __future__ import annotations

import unittest
from typing import Any

from tests.unit.modules import A, B, cell, module, port, remembers, value_of
from vidlakost_tools.tool import ToolError
from vidlakost_tools.verilog import clock_tree, replayed
from vidlakost_tools.verilog.replayed import Case
from vidlakost_tools.verilog.yosys_operators import Writer
from vidlakost_tools.verilog.named_bits import NotWords


SIGNED = {"A_SIGNED": "1", "B_SIGNED": "1"}


class Words(unittest.TestCase):
    def test_sums_are_extended(self) -> None:
        self.assertEqual(value_of("$add", 5, A=A, B=B), "({1'b0, a} + {1'b0, b})")
        self.assertEqual(value_of("$sub", 5, SIGNED, A=A, B=B), "({a[3], a} - {b[3], b})")

    def test_signed_comparison_turns_the_highest_bits(self) -> None:
        self.assertEqual(value_of("$lt", 1, SIGNED, A=A, B=B), "({(~a[3]), a[2:0]} < {(~b[3]), b[2:0]})")

    def test_one_sign_is_none(self) -> None:
        self.assertEqual(value_of("$lt", 1, {"A_SIGNED": "1"}, A=A[:2], B=B), "({2'b00, a[1:0]} < b)")

    def test_answer_of_one_bit_is_padded(self) -> None:
        self.assertEqual(value_of("$eq", 3, A=A, B=B), "{2'b00, (a == b)}")

    def test_part_that_may_lie_outside_is_left(self) -> None:
        self.assertEqual(value_of("$shiftx", 1, A=A, B=B[:2]), "shifted[0]")
        with self.assertRaises(NotWords):
            value_of("$shiftx", 1, A=A, B=B[:3])

    def test_constants_and_parts(self) -> None:
        value = value_of("$and", 4, A=["1", 3, 4, "0"], B=[9, 8, 7, 6])
        self.assertEqual(value, "({1'b0, a[2:1], 1'b1} & {b[0], b[1], b[2], b[3]})")

    def test_register_without_a_number_is_any(self) -> None:
        self.assertEqual(replayed.ports_at(remembers(), Case(0, [0], {0}, {"dut.lost": [1]}))["fail"], 1)

    def test_what_nothing_drives_is_open(self) -> None:
        made = cell("$not", A=[50], Y=[20])
        writer = Writer(module({"one": made}, a=port("input", 2)), None, None)
        self.assertEqual(writer.cells()[0][0].value, "(~open)")
        self.assertEqual(writer.opens, ["open"])

    def test_two_x_are_two_numbers(self) -> None:
        self.assertEqual(value_of("$xor", 1, A=["x"], B=["x"]), "(open ^ open_1)")

    def test_clock_is_no_data(self) -> None:
        made = cell("$and", A=[2], B=[3], Y=[20])
        with self.assertRaises(ToolError):
            Writer(module({"one": made}, ck=port("input", 2), a=port("input", 3)), None, "ck").cells()


GATE = {
    "held": cell("$dlatch", {"EN_POLARITY": "0"}, EN=[2], D=[3], Q=[10]),
    "gate": cell("$and", A=[2], B=[10], Y=[11]),
    "state": cell("$dff", {"CLK_POLARITY": "1"}, CLK=[11], D=[4], Q=[12]),
}


class Clocks(unittest.TestCase):
    def tree(self, **changed: dict[str, Any]) -> clock_tree.Tree:
        ports = {"ck": port("input", 2), "on": port("input", 3), "d": port("input", 4), "q": port("output", 12)}
        return clock_tree.Tree(module({**{name: dict(it) for name, it in GATE.items()}, **changed}, **ports))

    def test_gated_clock_is_an_enable(self) -> None:
        path = clock_tree.edges_of(self.tree())["state"].path
        self.assertEqual((path.root, path.enables, path.holders), (2, [3], ["held"]))

    def test_latch_of_the_wrong_level_gates_nothing(self) -> None:
        wrong = cell("$dlatch", {"EN_POLARITY": "1"}, EN=[2], D=[3], Q=[10])
        with self.assertRaisesRegex(ToolError, "by a signal that no latch holds"):
            clock_tree.edges_of(self.tree(held=wrong))

    def test_clock_gated_by_a_plain_signal_is_refused(self) -> None:
        with self.assertRaisesRegex(ToolError, "by a signal that no latch holds"):
            clock_tree.edges_of(self.tree(gate=cell("$and", A=[2], B=[3], Y=[11])))

    def test_latch_that_is_read_is_refused(self) -> None:
        tree = self.tree(other=cell("$not", A=[10], Y=[12]))
        with self.assertRaisesRegex(ToolError, "read outside of a gate"):
            clock_tree.refuse_read(tree, {"held"})

    def test_two_inverters_are_none(self) -> None:
        one, two = cell("$not", A=[2], Y=[20]), cell("$_NOT_", A=[20], Y=[11])
        edge = clock_tree.edges_of(self.tree(gate=one, two=two))["state"]
        self.assertEqual((edge.path.root, edge.rises), (2, True))


if __name__ == "__main__":
    unittest.main()
