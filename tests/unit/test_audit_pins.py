"""The files of pins of `audit`: what they say, what is refused in them, and the guess that begins one."""
from __future__ import annotations

import pathlib
import tempfile
import unittest
from typing import Any

from tests.unit.controllers import DONE, MEMORY, SMALL, changed, checked, needs, plain_of
from vidlakost_tools.audit import fail_lanes as lanes, pins as audit_pins
from vidlakost_tools.audit.gates import Machine, gates_of
from vidlakost_tools.audit.pins import Pin, Pins
from vidlakost_tools.texts.memory import parse_memory
from vidlakost_tools.tool import ToolError

WIDE = parse_memory("memory 1\nname wide\nwords 16\nbits 8\n")
WIDTHS = {"rdata": 8, "wdata": 8, "addr": 4}


def port(way: str, width: int = 1) -> dict[str, Any]:
    return {"direction": way, "bits": list(range(2, 2 + width))}


def ports(**more: dict[str, Any]) -> dict[str, dict[str, Any]]:
    """The ports of a self-test of the wide memory under their own names, and more."""
    own = {name: port("input", WIDTHS.get(name, 1)) for name in audit_pins.INPUTS}
    own.update({name: port("output", WIDTHS.get(name, 1)) for name in audit_pins.OUTPUTS})
    return {**own, **more}


def without(*names: str, **more: dict[str, Any]) -> dict[str, dict[str, Any]]:
    return {name: said for name, said in ports(**more).items() if name not in names}


class Files(unittest.TestCase):
    def read(self, text: str) -> Pins:
        with tempfile.TemporaryDirectory() as name:
            file = pathlib.Path(name) / "a.pins"
            file.write_text(text)
            pins = audit_pins.read_pins(str(file))
        pins.file = "a.pins"
        return pins

    def test_file_is_read(self) -> None:
        pins = self.read("# idle.v\nclk ck\nreset ~rst_n  # low\n\nen ~cen\ntie mode 4'hA\ntie test 3\nopen busy\n")
        self.assertEqual(pins.inputs(), [("clk", Pin("ck", False)), ("reset", Pin("rst_n", True))])
        self.assertEqual(pins.outputs(), [("en", Pin("cen", True))])
        self.assertEqual((pins.ties, pins.opens, pins.clock()), ({"mode": 10, "test": 3}, ["busy"], Pin("ck", False)))
        self.assertTrue({"ck", "rst_n", "cen", "mode", "test", "busy", "wdata"} <= pins.names())

    def test_wrong_line_is_told_by_its_number(self) -> None:
        ports_told = "clk, reset, rdata, en, we, addr, wdata, done, fail"
        wrong = {
            "clok ck": f"there is no line 'clok': they begin with {ports_told}, tie or open",
            "en": "'en' takes the name of one pin, with ~ if it is active low",
            "open ~busy": "'open' takes the name of one pin",
            "tie mode": "tie takes an input and a number, as in 'tie scan_en 0'",
            "tie 1mode 0": "tie takes an input and a number, as in 'tie scan_en 0'",
        }
        for line, message in wrong.items():
            with self.subTest(line=line), self.assertRaises(ToolError) as caught:
                self.read(f"clk ck\n\n{line}\n")
            self.assertRegex(str(caught.exception), "a.pins:3: ")
            self.assertEqual(str(caught.exception).split(":3: ")[1], message)

    def test_numbers(self) -> None:
        numbers = {"12": 12, "4'b1_0": 2, "8'hfF": 255, "6'o17": 15, "3'd7": 7, "2'd7": None, "3'b2": None, "1f": None}
        self.assertEqual({text: audit_pins.number_in(text) for text in numbers}, numbers)
        for text in ("x", "'h1", "٣", "-1"):
            self.assertIsNone(audit_pins.number_in(text))


class Complete(unittest.TestCase):
    def pins(self, *lines: str) -> Pins:
        made = Pins("a.pins")
        for line in lines:
            self.assertIsNone(audit_pins.take_line(made, line.split()), line)
        return made

    def refused(self, message: str, there: dict[str, dict[str, Any]], *lines: str) -> None:
        with self.subTest(lines=lines), self.assertRaises(ToolError) as caught:
            self.pins(*lines).complete(there)
        self.assertEqual(str(caught.exception), f"a.pins: {message}")

    def test_port_without_a_line_is_its_own_pin(self) -> None:
        whole = self.pins("reset ~rst_n").complete(without("reset", rst_n=port("input")))
        self.assertEqual(whole.pins[0], ("reset", Pin("rst_n", True)))
        self.assertEqual(sorted(name for name, pin in whole.pins[1:] if name == pin.name), sorted(without("reset")))
        self.assertEqual(whole.widths(without("reset", rst_n=port("input")))[2], ("input", "rdata", 8))

    def test_what_is_refused(self) -> None:
        names = ", ".join(without("en"))
        self.refused("two lines name the pin 'en'", ports(), "en en", "we en")
        self.refused(f"the module has no pin 'cen'; its pins are {names}", without("en"), "en ~cen")
        self.refused("the input mode of the module has no line, as 'tie mode 0'", ports(mode=port("input")))
        self.refused("the output busy of the module has no line, as 'open busy'", ports(busy=port("output")))
        self.refused("no line names the pin of en, done", without("en", "done"))
        self.refused("'we' stands in one line only", without("we", a=port("output"), b=port("output")), "we a", "we b")
        two = without("clk", a=port("input"), b=port("input"))
        self.refused("'clk' stands in one line only", two, "clk a", "clk b")
        self.refused("mode has 2 bits, and 4 does not fit", ports(mode=port("input", 2)), "tie mode 4")
        self.refused("go is an input of the module, and has to be an output", without("en", go=port("input")), "en go")
        self.refused("b is an output of the module, and has to be an input", ports(b=port("output")), "tie b 0")

    def test_reset_may_have_several_pins(self) -> None:
        two = without("reset", rst=port("input"), por_n=port("input"))
        whole = self.pins("reset rst", "reset ~por_n").complete(two)
        self.assertEqual(len(whole.inputs()), 4)
        wide = without("reset", rst=port("input"), por_n=port("input", 2))
        whole = self.pins("reset rst", "reset ~por_n").complete(wide)
        with self.assertRaisesRegex(ToolError, "^a.pins: the pins of 'reset' have 1 and 2 bits$"):
            whole.widths(wide)


class Proposed(unittest.TestCase):
    def test_ports_of_a_memory(self) -> None:
        there = audit_pins.ports_of(WIDE)
        self.assertIn(("output", "addr", 4), there)
        self.assertEqual(
            audit_pins.told_ports({("output", "addr", 4), ("input", "clk", 1)}),
            "input clk of 1 bit, output addr of 4 bits",
        )

    def test_usual_names_are_guessed(self) -> None:
        module = {
            "i_clk": port("input"),
            "rst_n": port("input"),
            "mem_q": port("input", 8),
            "mem_cen": port("output"),
            "wen": port("output"),
            "mem_addr": port("output", 4),
            "o_wdata": port("output", 8),
            "bist_done": port("output"),
            "err": port("output"),
            "start": port("input"),
            "busy": port("output"),
        }
        told = ["clk i_clk", "reset ~rst_n", "rdata mem_q", "en ~mem_cen", "we ~wen", "addr mem_addr", "wdata o_wdata"]
        told += ["done bist_done", "fail err", "tie start 0", "open busy"]
        self.assertEqual(audit_pins.proposed(module, WIDE, "i_clk"), told)

    def test_clock_that_is_known_and_ports_that_are_not(self) -> None:
        """A port of another width is not taken, and what is not found is left to whoever reads the guess."""
        module = {"tick": port("input"), "rdata": port("input", 4), "x": port("output")}
        told = audit_pins.proposed(module, WIDE, "tick")
        self.assertEqual(told[:4], ["clk tick", "reset ?", "rdata ?", "en ?"])
        self.assertEqual(told[-2:], ["tie rdata 0", "open x"])


# the small controller with other pins: two are active low, one is an input more and one an output more
PINNED = changed(
    ("input clk, input reset, input [1:0] rdata,", "input ck, input rst_n, input [1:0] q, input start,"),
    ("output en, output we, output addr", "output cen, output wen, output addr"),
    ("output done, output fail", "output done, output fail, output busy"),
    ("  reg bad;", "  reg bad;\n  wire reset = !(rst_n && start);\n  assign busy = step != 3'd6;"),
    ("assign en = !reset", "assign cen = !(!reset"),
    ("step <= 3'd4;\n  assign we = step <= 3'd2", "step <= 3'd4);\n  assign wen = !(step <= 3'd2)"),
    ("posedge clk", "posedge ck"),
    ("&& rdata", "&& q"),
)


@needs("yosys")
class Modules(unittest.TestCase):
    def pins(self, start: int = 1) -> Pins:
        pins = Pins("a.pins")
        for line in ("clk ck", "reset ~rst_n", "rdata q", "en ~cen", "we ~wen", f"tie start {start}", "open busy"):
            self.assertIsNone(audit_pins.take_line(pins, line.split()), line)
        return pins

    def test_module_has_the_ports_of_a_self_test(self) -> None:
        plain = plain_of(PINNED, pins=self.pins())
        self.assertEqual(set(plain.ports), audit_pins.ports_of(MEMORY))
        self.assertEqual((plain.clock, checked(plain)), ("ck", "conforms 7"))
        machine = Machine(gates_of(plain), ("fail",))
        found = lanes.look_at(machine, lanes.Plan({4: 0, 5: 0}, DONE + 1, 2), lanes.Clock(60))
        self.assertEqual(found.short(), "fail is exact")

    def test_tied_input_has_its_value(self) -> None:
        """Without the start the reset never ends."""
        self.assertEqual(checked(plain_of(PINNED, pins=self.pins(0))), "differs cycle 1 port en expected 1 got 0")

    def test_falling_edge_is_told_by_the_clock_s_line(self) -> None:
        falls = changed(("posedge ck", "negedge ck"), text=PINNED)
        with self.assertRaisesRegex(ToolError, "it is clocked by the falling edge of ck; 'clk ~ck' in a file of pins"):
            plain_of(falls, pins=self.pins())
        pins = self.pins()
        pins.pins[0] = ("clk", Pin("ck", True))
        self.assertEqual(checked(plain_of(falls, pins=pins)), "conforms 7")
        with self.assertRaisesRegex(ToolError, "it is clocked by the rising edge of ck$"):
            plain_of(PINNED, pins=pins)

    def test_names_of_the_ports_are_free_without_pins(self) -> None:
        self.assertEqual(checked(plain_of(SMALL, pins=Pins("a.pins"))), "conforms 7")
