"""Parts of `audit` by themselves, without any program: `python3 -m unittest discover -s tests/unit -t .`."""
from __future__ import annotations

import pathlib
import tempfile
import unittest
from typing import Any
from unittest import mock

from tests.unit.modules import cell, module, net, port, remembers
from vidlakost_tools.audit import fail_lanes as lanes, fail_search, pins as audit_pins, splits
from vidlakost_tools.audit.cuts import least_cut
from vidlakost_tools.audit.gates import Machine
from vidlakost_tools.audit.pins import Pin, Pins
from vidlakost_tools.texts.memory import parse_memory
from vidlakost_tools.tool import ToolError
from vidlakost_tools.verilog import model_checker, replayed, yosys, yosys_cells as cells
from vidlakost_tools.verilog.front_end import Plain
from vidlakost_tools.verilog.replayed import Case, Test


class PinsFile(unittest.TestCase):
    def told(self, *lines: str) -> Pins:
        pins = Pins("p")
        for line in lines:
            self.assertIsNone(audit_pins.take_line(pins, line.split()), line)
        return pins

    def test_lines(self) -> None:
        pins = self.told("reset ~rst_n", "tie mode 2'b10", "open busy")
        self.assertEqual((pins.pins, pins.ties, pins.opens), ([("reset", Pin("rst_n", True))], {"mode": 2}, ["busy"]))

    def test_wrong_lines(self) -> None:
        for line in ("tie a", "tie a x", "clok c", "en ~~c", "open ~c", "en a b", "tie a 1'b2", "tie a 4'h1f"):
            self.assertIsNotNone(audit_pins.take_line(Pins("p"), line.split()), line)

    def test_pin_is_tied_once(self) -> None:
        pins = self.told("tie start 4'hf")
        self.assertEqual(audit_pins.take_line(pins, ["tie", "start", "0"]), "the pin is tied twice")
        self.assertEqual(pins.ties, {"start": 15})

    def test_each_pin_is_told(self) -> None:
        ports = {name: port("input", 2) for name in ("clk", "reset", "rdata")}
        ports.update({name: port("output", 3) for name in ("en", "we", "addr", "wdata", "done", "fail")})
        self.assertEqual(len(self.told().complete(ports).pins), 9)
        for extra, said in (({"start": port("input", 9)}, "tie start 0"), ({"busy": port("output", 9)}, "open busy")):
            with self.assertRaisesRegex(ToolError, said):
                self.told().complete({**ports, **extra})
        with self.assertRaisesRegex(ToolError, "two lines"):
            self.told("tie en 0", "en en").complete(ports)
        with self.assertRaisesRegex(ToolError, "has to be an input"):
            self.told("tie busy 0").complete({**ports, "busy": port("output", 9)})


class Lanes(unittest.TestCase):
    def test_lanes_begin_where_the_first_is(self) -> None:
        self.assertEqual(lanes.spread(0b1, 3, 0b11), 0b11001)
        self.assertEqual(lanes.spread(0b11000, 3, 0b11), 0)

    def test_lanes_laid_together_keep_what_both_say(self) -> None:
        self.assertEqual(lanes.lay(0b11000, 3, 0b11, False), 0b11110)
        self.assertEqual(lanes.lay(0b11010, 3, 0b11, True), 0b11010)

    def test_lane_of_a_bit_is_wrong(self) -> None:
        self.assertEqual(lanes.given(1, 1, 0b100), (1, 0b100))
        self.assertEqual(lanes.given(0, 1, 0b100), (0b100, 1))

    def test_fail_that_rises_behind_right_answers_is_found_apart(self) -> None:
        class Late:
            """A machine whose `fail` is 1 behind the wrong answer of cycle 2, and from cycle 5 on in any case."""

            registers: list[Any] = []
            words = [0]
            cycle = -1

            def step(self, state: Any, _: Any, full: int) -> Any:
                self.cycle += 1
                ones = full if self.cycle >= 5 else 1 if self.cycle >= 3 else 0
                return state, [(ones, full & ~ones)]

        plan = lanes.Plan({2: 0}, 6, 1)
        start: tuple[int, list[Any]] = (0, [])
        found = lanes.run_slice(Late(), plan, [2], start, lanes.Clock(60))  # type: ignore[arg-type]
        self.assertEqual((found.kind, found.cycle, found.got, found.answer), ("differs", 5, "1", None))


class Toggles:
    """A machine that notes wrong words, those with a bit at 1, in `twice`, which turns with each, and in `once`, which
    stays: its `fail` is `twice | ~twice & once`, so that three values lose what two tell; or by a wrong gate `twice`
    alone."""

    def __init__(self, is_wrong: bool = False):
        rdata, reset, going, hit, twice, once, turned, kept, held, next_twice, next_once, other, fail = range(2, 15)
        gates = {
            "going": cell("$_NOT_", A=[reset], Y=[going]),
            "hit": cell("$_AND_", A=[rdata], B=[going], Y=[hit]),
            "turned": cell("$_XOR_", A=[twice], B=[hit], Y=[turned]),
            "kept": cell("$_OR_", A=[once], B=[hit], Y=[kept]),
            "next_twice": cell("$_AND_", A=[turned], B=[going], Y=[next_twice]),
            "next_once": cell("$_AND_", A=[kept], B=[going], Y=[next_once]),
            "twice": cell("$_DFF_P_", D=[next_twice], C=[99], Q=[twice]),
            "once": cell("$_DFF_P_", D=[next_once], C=[99], Q=[once]),
            "held": cell("$_AND_", A=[once], B=[twice if is_wrong else other], Y=[held]),
            "other": cell("$_NOT_", A=[twice], Y=[other]),
            "fail": cell("$_OR_", A=[twice], B=[held], Y=[fail]),
        }
        ports = {"rdata": port("input", rdata), "reset": port("input", reset), "fail": port("output", fail)}
        self.machine = Machine(
            {**module(gates, **ports), "netnames": {"twice": net(twice), "once": net(once)}}, ("fail",)
        )
        self.hit = hit
        self.plain = Plain("m", [], [], [], [], [], {}, None)
        # a word comes in every cycle that is looked at
        self.plan = lanes.Plan({cycle: 0 for cycle in range(1, 80)}, 4, 1, first=1)


class Splits(unittest.TestCase):
    def test_what_three_values_lose_is_split(self) -> None:
        case = Toggles()
        self.assertEqual(lanes.look_at(case.machine, case.plan, lanes.Clock(60)).got, "open")
        split = splits.look_at(case.machine, case.plan, case.plain, lanes.Clock(60))
        assert split is not None
        self.assertEqual((split.found.kind, split.found.cycle, split.states), ("exact", -1, 3))

    def test_a_history_in_which_it_is_wrong(self) -> None:
        case = Toggles(is_wrong=True)
        told = fail_search.look_at(case.machine, case.plan, case.plain, lanes.Clock(60))
        self.assertEqual(told.found.line(), "fail is 0 in cycle 3 though bit 0 of the answer of cycle 1 is wrong")
        self.assertEqual(
            told.history, "  so with rdata 1 in cycle 1, 1 in cycle 2, 0 in cycle 3, and 0 where nothing was read"
        )

    def test_words_of_the_model_checker(self) -> None:
        rows = ["  Time Signal Name  Dec  Hex  Bin"]
        for step, word in ((1, 0), (2, 0xFFFFFFFF)):
            number = word - (1 << 32) if word >> 31 else word
            rows += [
                f"  {step} \\ok   {2 - step}   {2 - step}    {2 - step}",
                f"  {step} \\rdata   {number}   {word:x}   {word:032b}",
            ]
        with tempfile.TemporaryDirectory() as name, mock.patch.object(yosys, "run", return_value=rows):
            found = model_checker.differs_within(3, "", pathlib.Path(name))
        assert found is not None
        self.assertEqual((found.cycle, found.words), (1, [0, 0xFFFFFFFF]))
        told = model_checker.wrong_at(lanes.Plan({0: 0, 1: 3}, 4, 32), found)
        self.assertEqual((told.wanted, told.answer, told.bit), (0, 1, 2))

    def test_cut_is_as_near_as_can_be(self) -> None:
        case = Toggles()
        self.assertEqual(least_cut(case.machine, case.machine.words, case.machine.results[0]), [case.hit])
        self.assertEqual(least_cut(case.machine, [77], case.machine.results[0]), [])

    def test_cases_side_by_side(self) -> None:
        cases = splits.Cases([0, 1, 2], [5, 6, 7], [(0b011, 0b100), (0b110, 0b000)])
        some = cases.picked(0b101)
        self.assertEqual((some.ages, some.origins, some.columns), ([0, 2], [5, 7], [(0b01, 0b10), (0b10, 0b00)]))
        both = some.with_more(some)
        self.assertEqual((both.columns, both.distinct().columns), ([(0b0101, 0b1010), (0b1010, 0)], some.columns))

    def test_lowest_and_highest_wrong_bit(self) -> None:
        self.assertEqual([lanes.Side.LOWEST.lanes(bit, 3) for bit in range(3)], [0b110, 0b100, 0])
        self.assertEqual([lanes.Side.HIGHEST.lanes(bit, 3) for bit in range(3)], [0, 0b001, 0b011])


class Replays(unittest.TestCase):
    def test_signals_that_are_asked_for(self) -> None:
        self.assertEqual(replayed.signals_of(remembers()), ["dut.bad", "dut.lost"])

    def test_case_is_clocked(self) -> None:
        # in the reset what was on rdata is not remembered, and of cycle 1 it is
        for cycle, bad, lost, fail in (
            (0, 1, [0, 0, 0], 1),
            (1, 1, [0, 0, 0], 0),
            (2, 0, [0, 0, 0], 1),
            (2, 0, [0, 0, 1], 0),
        ):
            case = Case(cycle, [1, 3, 0], {0}, {"dut.bad": [bad], "dut.lost": lost})
            self.assertEqual(replayed.ports_at(remembers(), case)["fail"], fail, (cycle, bad, lost))

    def test_what_nothing_drives_is_open(self) -> None:
        self.assertIsNone(replayed.ports_at(remembers(), Case(1, [0, 0], {0}, {"dut.bad": [0]}))["fail"])

    def test_what_is_due_in_a_case(self) -> None:
        memory = parse_memory("memory 1\nname m\nwords 2\nbits 1\n")
        # two words are written and read, and the second answer is compared in cycle 5
        test = Test(memory, [None, (True, 0, 0), (True, 1, 0), (False, 0, 0), (False, 1, 0), *[None] * 5], 6)
        self.assertEqual(
            test.due(Case(2, [0] * 3)), [("en", 1), ("we", 1), ("addr", 1), ("wdata", 0), ("done", 0), ("fail", 0)]
        )
        self.assertEqual(
            test.due(Case(4, [0, 1, 1, 1, 1])), [("en", 1), ("we", 0), ("addr", 1), ("done", 0), ("fail", 0)]
        )
        self.assertEqual(test.due(Case(5, [0, 0, 0, 0, 1, 0])), [("en", 0), ("done", 0), ("fail", 1)])
        self.assertEqual(test.due(Case(6, [0, 0, 0, 0, 0, 1])), [("en", 0), ("done", 1), ("fail", 1)])
        # a reset begins the test anew
        self.assertEqual(
            test.due(Case(7, [0, 0, 0, 0, 1, 1, 0, 0], {0, 6})),
            [("en", 1), ("we", 1), ("addr", 0), ("wdata", 0), ("done", 0), ("fail", 0)],
        )

    def test_case_that_does_not_come_out_is_no_finding(self) -> None:
        plan, lost = lanes.Plan({1: 0}, 4, 2), lanes.Found("unknown", 2, 1, "open", 1, 0)
        for word, said in ((1, False), (2, True)):
            # fail is said to be 0 in cycle 2 behind this word; so it is behind the second alone
            case = Case(2, [0, word, 0], {0}, {"dut.bad": [0, 0, word], "dut.lost": [0, 0, 0]})
            with mock.patch.object(model_checker, "differs_within", return_value=case):
                checked = model_checker.fail_of(remembers(), plan, 9, 9)
            assert checked is not None
            self.assertEqual((checked.found.got, checked.is_replayed), ("0", said))
            machine = Toggles().machine
            with mock.patch.object(lanes, "look_at", return_value=lost), mock.patch.object(
                splits, "look_at", return_value=None
            ), mock.patch.object(fail_search, "is_undriven", return_value=False), mock.patch.object(
                model_checker, "fail_of", return_value=checked
            ):
                told = fail_search.look_at(machine, plan, remembers(), lanes.Clock(60))
            self.assertEqual(told.found.kind, "differs" if said else "unknown")
            self.assertEqual("so it is no finding" in told.how, not said)


class Places(unittest.TestCase):
    def test_register_of_vhdl_has_its_name_there(self) -> None:
        nets = {
            "n6": net(5),
            "n7_q": {**net(5), "attributes": {"src": "vhdl.v:24"}},
            "index": {**net(5), "attributes": {"src": "walk.vhd:9.3-9.8"}},
        }
        register = {**cell("$dff", Q=[5], D=[6]), "attributes": {"src": "/tmp/x/vhdl.v:24.3"}}
        self.assertEqual(cells.place_of({"netnames": nets}, register), "index, walk.vhd:9")
        self.assertEqual(cells.place_of({"netnames": {"n7_q": nets["n7_q"]}}, register), "n7_q, vhdl.v:24")
        plain = {**register, "attributes": {"src": "/a/m.v:4.3|m.v:9"}}
        self.assertEqual(
            cells.place_of({"netnames": {"q": {**net(5), "attributes": {"src": "m.v:2"}}}}, plain), "q, m.v:4"
        )


if __name__ == "__main__":
    unittest.main()
