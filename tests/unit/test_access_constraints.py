"""The timing constraints of what `access` writes, line by line: periods and delays are worked out by hand."""
from __future__ import annotations

import dataclasses
import unittest

from vidlakost_tools.access.target import Target, Unit
from vidlakost_tools.access.constraints import Timing, constraints
from vidlakost_tools.texts.memory import parse_memory

MEMORY = parse_memory("memory 1\nname ram\nwords 16\nbits 8\n")
ONE = Target.of_memory(MEMORY, 100)
TWO = Target("soc", "soc", [Unit(MEMORY, "_0"), Unit(MEMORY, "_1")], True, 100)
# periods of 8, 4 and 20 ns, of which the other side takes a quarter
TIMING = Timing(test=125, normal=250, bus=50, share=0.25, is_falling=False)


class Constraints(unittest.TestCase):
    def lines(self, target: Target, kind: str, timing: Timing = TIMING, in_test: bool = True) -> list[str]:
        text = constraints(target, kind, timing, in_test)
        return [line for line in text.splitlines() if not line.startswith("#")]

    def agree(self, found: list[str], *wanted: str) -> None:
        for line in wanted:
            self.assertIn(line, found)

    def test_ports_of_a_self_test_that_a_signal_starts(self) -> None:
        found = self.lines(ONE, "access")
        memory = "en we addr[*] wdata[*]"
        self.agree(
            found,
            "set_input_delay 0 -clock clk [get_ports {start}]",
            "set_false_path -hold -from [get_ports {start}]",
            "set_output_delay 2 -clock clk [get_ports {done seen cycle[*] expected[*] returned[*] fail}]",
            f"set_output_delay 2 -clock clk [get_ports {{{memory}}}]",
            "set_input_delay 2 -clock clk [get_ports {rdata[*]}]",
            "set_output_delay 2 -clock clk [get_ports test]",
        )
        self.assertNotIn("set_case_analysis", "\n".join(found))

    def test_normal_use_is_a_case_at_its_own_clock(self) -> None:
        found = self.lines(ONE, "access", in_test=False)
        self.agree(found, "set_output_delay 1 -clock clk [get_ports test]")
        self.assertEqual(found[-1], "set_case_analysis 0 [get_pins -of_objects [get_nets ${at}test]]")

    def test_memory_that_answers_at_the_falling_edge(self) -> None:
        falling = dataclasses.replace(TIMING, is_falling=True)
        self.agree(
            self.lines(ONE, "access", falling), "set_input_delay 1 -clock clk -clock_fall [get_ports {rdata[*]}]"
        )

    def test_buses_have_a_clock_of_their_own(self) -> None:
        self.agree(
            self.lines(ONE, "apb"),
            "create_clock -name pclk -period 20 [get_ports pclk]",
            "set_clock_groups -asynchronous -group clk -group pclk",
            "set_input_delay 5 -clock pclk [get_ports {psel penable pwrite paddr[*] pwdata[*]}]",
            "set_output_delay 5 -clock pclk [get_ports {prdata[*] pready pslverr}]",
            "set_input_delay 5 -clock pclk [get_ports {presetn}]",
        )
        # a TAP answers at the falling edge
        self.agree(self.lines(ONE, "tap"), "set_output_delay 5 -clock tck -clock_fall [get_ports {tdo tdo_en}]")

    def test_several_memories(self) -> None:
        self.agree(
            self.lines(TWO, "access"),
            "set_input_delay 0 -clock clk [get_ports {start ignore[*]}]",
            "set_output_delay 2 -clock clk [get_ports {done seen cycle[*] expected[*] returned[*] unit fail[*]}]",
            "set_input_delay 2 -clock clk [get_ports {rdata_0[*] rdata_1[*]}]",
        )

    def test_head_says_of_what_and_when(self) -> None:
        head = constraints(ONE, "apb", TIMING, True).splitlines()
        self.assertIn("ram_apb", "\n".join(head[:3]))
        self.assertIn("under test, at 125 MHz", "\n".join(head[:3]))
        normal = constraints(ONE, "apb", TIMING, False)
        self.assertIn("in normal use, where test is 0, at 250 MHz", normal)
