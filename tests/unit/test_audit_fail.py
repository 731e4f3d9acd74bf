"""What `audit` finds of the port `fail`, and why a port is unknown: of a small controller in which a line is wrong."""
from __future__ import annotations

import time
import unittest
from unittest import mock

from tests.unit.controllers import DONE, SMALL, changed, needs, plain_of
from vidlakost_tools.audit import fail_lanes as lanes, fail_search, why_unknown
from vidlakost_tools.audit.fail_lanes import Clock, Found, Plan, Side
from vidlakost_tools.audit.gates import Machine, gates_of
from vidlakost_tools.verilog.front_end import Plain

# the answers of the small controller, and of one that only looks at ten words in the cycles 2 to 11
ANSWERS = {4: 0, 5: 0}
TEN = {cycle: 0 for cycle in range(2, 12)}
LOOKS = """module looks(
  input clk, input reset, input [1:0] rdata,
  output en, output we, output addr, output [1:0] wdata, output done, output fail
);
  reg [3:0] now;
  reg bad;
  assign {en, we, addr, wdata, done} = 6'd0;
  assign fail = !reset && bad;
  always @(posedge clk)
    if (reset) begin
      now <= 4'd1;
      bad <= 1'b0;
    end else begin
      now <= now == 4'd15 ? 4'd15 : now + 4'd1;
      if (now >= 4'd2 && now <= 4'd11 && rdata != 2'd0) bad <= 1'b1;
    end
endmodule
"""
COMPARES = "if ((step == 3'd4 || step == 3'd5) && rdata != 2'd0)"


def found_of(text: str, plan: Plan | None = None) -> Found:
    machine = Machine(gates_of(plain_of(text)), ("fail",))
    return lanes.look_at(machine, plan or Plan(ANSWERS, DONE + 1, 2), Clock(60))


@needs("yosys")
class Fail(unittest.TestCase):
    def test_right_in_each_history(self) -> None:
        found = found_of(SMALL)
        self.assertEqual((found.kind, found.short()), ("exact", "fail is exact"))
        everywhere = "fail is exact: in every history with one of 4 first wrong bits, and in that with none, ever after"
        self.assertEqual(found.line(), everywhere)

    def test_mistakes(self) -> None:
        mistakes = {
            "fail is 0 in cycle 5 though bit 1 of the answer of cycle 4 is wrong": ("rdata != 2'd0", "rdata[0]"),
            "fail is 0 in cycle 6 though bit 0 of the answer of cycle 5 is wrong": (" || step == 3'd5", ""),
            "fail is 1 in cycle 5 though all answers are right": ("rdata != 2'd0", "rdata == 2'd0"),
            "fail is 1 in cycle 2 though all answers are right": ("reset && bad", "reset && (bad || step == 3'd2)"),
            "fail is 0 in cycle 6 though bit 0 of the answer of cycle 4 is wrong": (
                COMPARES,
                "bad <= 1'b0; if (step == 3'd4 && rdata != 2'd0)",
            ),
        }
        for line, change in mistakes.items():
            with self.subTest(change=change):
                found = found_of(changed(change))
                self.assertEqual((found.kind, found.line(), found.short()), ("differs", line, line))

    def test_unknown(self) -> None:
        opens = {
            "fail is unknown in cycle 1 where all answers are right: it has to be 0": ("      bad <= 1'b0;\n", ""),
            "fail is unknown in cycle 4 where all answers are right: it has to be 0": (
                "(step == 3'd4",
                "(step == 3'd3",
            ),
        }
        for line, change in opens.items():
            with self.subTest(change=change):
                self.assertEqual(found_of(changed(change)).line(), line)

    def test_late_fail_is_right_where_it_may_be_late(self) -> None:
        late = changed(
            ("  reg bad;", "  reg bad, more;"),
            ("reset && bad", "reset && more"),
            ("bad <= 1'b0", "{bad, more} <= 2'd0"),
        )
        late = changed(("      step <= step ==", "      more <= bad;\n      step <= step =="), text=late)
        self.assertEqual(found_of(late, Plan(ANSWERS, DONE + 2, 2, late=1)).kind, "exact")
        told = "fail is 0 in cycle 5 though bit 0 of the answer of cycle 4 is wrong"
        self.assertEqual(found_of(late).line(), told)

    def test_what_goes_on_for_ever_is_looked_at_for_a_while(self) -> None:
        """Two registers that turn in each cycle are always the same; no state comes twice behind the end."""
        turns = changed(("  reg bad;", "  reg bad, one, other;"), ("reset && bad", "reset && (bad || one != other)"))
        turns = changed(("bad <= 1'b0;", "{bad, one, other} <= 3'd0;"), text=turns)
        turns = changed(
            ("      step <= step ==", "      one <= ~one;\n      other <= ~other;\n      step <= step =="), text=turns
        )
        found = found_of(turns)
        last = DONE + 1 + lanes.BEHIND - 1
        self.assertEqual((found.kind, found.cycle, found.short()), ("exact", last, f"fail is exact to cycle {last}"))
        self.assertTrue(found.line().endswith(f"with none, to cycle {last}"))


@needs("yosys")
class ManyAnswers(unittest.TestCase):
    """More answers than have lanes of their own: earlier ones are laid together."""

    def plan(self) -> Plan:
        return Plan(TEN, 13, 2)

    def test_right(self) -> None:
        self.assertEqual(found_of(LOOKS, self.plan()).short(), "fail is exact")

    def test_each_lane_by_itself_says_the_same(self) -> None:
        machine = Machine(gates_of(plain_of(LOOKS)), ("fail",))
        with mock.patch.object(lanes, "SLICE", 6):
            apart = lanes.run_apart(machine, self.plan(), Clock(60))
        self.assertEqual((apart.kind, apart.cycle, apart.lanes), ("exact", -1, 20))

    def test_early_answer_that_is_forgotten_late(self) -> None:
        """In cycle 12 the mistake of the answer of cycle 2 has a lane that is shared; alone it is told."""
        forgets = changed(("if (now >=", "if (now == 4'd11) bad <= 1'b0; else if (now >="), text=LOOKS)
        found = found_of(forgets, self.plan())
        self.assertEqual((found.cycle, found.got, found.answer, found.bit), (12, "0", 2, 0))

    def test_time_that_is_over_is_a_limit(self) -> None:
        long = Plan({cycle: 0 for cycle in range(2, 300)}, 300, 2)
        looks = changed((" && now <= 4'd11", ""), text=LOOKS)
        machine = Machine(gates_of(plain_of(looks)), ("fail",))
        found = lanes.look_at(machine, long, Clock(-1))
        self.assertEqual((found.kind, found.cycle), ("limit", 127))
        self.assertEqual(found.line(), "fail is exact to cycle 127, where the time ran out")
        self.assertEqual(found.short(), "fail is not known after cycle 127")
        apart = lanes.run_apart(machine, long, Clock(-1))
        self.assertEqual((apart.kind, apart.cycle), ("limit", 2))


class Lanes(unittest.TestCase):
    def test_words_of_a_lane(self) -> None:
        """Answers before the one that is found are right. Of it the bits below are right, and those above open."""
        plan = Plan({4: 0b001, 6: 0b011, 8: 0b111}, 9, 3)
        one, zero, either = (1, 0), (0, 1), (0, 0)
        lowest = lanes.words_of(plan, Found("unknown", answer=6, bit=1))
        self.assertEqual(lowest, {4: [one, zero, zero], 6: [one, zero, either]})
        highest = lanes.words_of(Plan(plan.answers, 9, 3, side=Side.HIGHEST), Found("unknown", answer=6, bit=1))
        self.assertEqual(highest[6], [either, zero, zero])
        self.assertEqual(lanes.words_of(plan, Found("unknown"))[8], [one, one, one])

    def test_histories_of_a_lane(self) -> None:
        cases = {
            "all answers are right": Found("differs", 3, 0, "1"),
            "no answer before that of cycle 5 is wrong": Found("differs", 4, 0, "1", answer=5),
            "bit 2 of the answer of cycle 5 is wrong": Found("differs", 6, 1, "0", answer=5, bit=2),
        }
        for case, found in cases.items():
            self.assertEqual(found.line(), f"fail is {found.got} in cycle {found.cycle} though {case}")

    def test_clock_knows_its_cycle_and_counts_from_the_start(self) -> None:
        clock = Clock(60)
        self.assertFalse(clock.is_over(1200, 5000))
        self.assertEqual(clock.at, "cycle 1,200 of 5,000")
        self.assertTrue(Clock(60, begin=time.monotonic() - 61).is_over(1, 2))


@needs("yosys")
class Reasons(unittest.TestCase):
    def reasons(self, text: str, cycle: int, port: str = "fail") -> list[str]:
        plain = plain_of(text)
        machine = Machine(gates_of(plain), (port,))
        search = why_unknown.Search(machine, why_unknown.values_of(machine, {}, cycle), plain)
        return search.reasons(port, machine.results[0], cycle)

    def test_register_that_the_reset_does_not_set(self) -> None:
        told = self.reasons(changed(("      bad <= 1'b0;\n", "")), 1)
        self.assertEqual(told, ["hangs on bad (0.v:6), which is open from the start by way of fail <- bad"])

    def test_word_on_rdata(self) -> None:
        told = self.reasons(changed(("(step == 3'd4", "(step == 3'd3")), 4)
        bits = [f"hangs on rdata[{bit}] of cycle 3 by way of fail <- bad <- rdata[{bit}]" for bit in (0, 1)]
        self.assertEqual(told, bits)

    def test_what_nothing_drives(self) -> None:
        lost = changed(("  reg bad;", "  reg bad;\n  wire lost;"), ("reset && bad", "reset && (bad || lost)"))
        self.assertEqual(self.reasons(lost, 2), ["hangs on lost (0.v:7), which nothing drives"])
        unknown = changed(("reset && bad", "reset && (bad || 1'bx)"))
        self.assertEqual(self.reasons(unknown, 2), ["hangs on an x, which nothing drives"])

    def test_choice_hangs_on_the_side_that_is_taken(self) -> None:
        """In cycle 3 the step is 3, so the choice takes what is open; in cycle 2 it takes what is known."""
        choice = changed(("  reg bad;", "  reg bad;\n  reg lost;"), ("reset && bad", "(step == 3'd3 ? lost : 1'b0)"))
        self.assertEqual(self.reasons(choice, 3)[0].split(" by way")[0], "hangs on lost (0.v:7), which nothing drives")

    def test_reason_before_what_is_kept(self) -> None:
        """Where the values of few cycles are kept, a register may be open since before."""
        text = changed(("      bad <= 1'b0;\n", ""))
        plain = plain_of(text)
        machine = Machine(gates_of(plain), ("fail",))
        values = {cycle: one for cycle, one in why_unknown.values_of(machine, {}, 3).items() if cycle >= 2}
        told = why_unknown.Search(machine, values, plain).reasons("fail", machine.results[0], 3)
        self.assertEqual(told, ["hangs on bad (0.v:6), which is open since cycle 2 or longer by way of fail <- bad"])


@needs("yosys")
class Searches(unittest.TestCase):
    def told(self, text: str) -> fail_search.Told:
        plain: Plain = plain_of(text)
        machine = Machine(gates_of(plain), ("fail",))
        return fail_search.look_at(machine, Plan(ANSWERS, DONE + 1, 2), plain, Clock(60))

    def test_what_lanes_tell_is_told_at_once(self) -> None:
        self.assertEqual((self.told(SMALL).found.kind, self.told(SMALL).how), ("exact", ""))

    def test_history_begins_with_the_registers_that_are_1(self) -> None:
        """`bad` is not reset: three values tell nothing, and split it is wrong where it is 1 at the start."""
        told = self.told(changed(("      bad <= 1'b0;\n", "")))
        self.assertEqual(told.found.line(), "fail is 1 in cycle 1 though all answers are right")
        self.assertEqual(told.history, "  so with rdata 0, and 0 where nothing was read; at the start 1 in bad")

    def test_what_nothing_drives_is_no_finding(self) -> None:
        lost = changed(("  reg bad;", "  reg bad;\n  wire lost;"), ("reset && bad", "reset && (bad || lost)"))
        told = self.told(lost)
        self.assertEqual((told.found.kind, told.how), ("unknown", ""))
