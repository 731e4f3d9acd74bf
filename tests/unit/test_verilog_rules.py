"""What writes the rule of the ports: assertions, a judge beside a module, and a testbench that works commands out."""
from __future__ import annotations

import pathlib
import re
import subprocess
import tempfile
import unittest
from unittest import mock

from tests.unit.controllers import MARCH, MEMORY, needs
from vidlakost_tools.audit.pins import Pin, Pins
from vidlakost_tools.texts.march import Element, elements_of
from vidlakost_tools.texts.memory import Memory, parse_memory
from vidlakost_tools.verilog import bench_end, open_run, port_judge, rule_of_ports, stream

# an address is not its index, bit 0 is stored inverted, a pause has three cycles, and there are two backgrounds
SCRAMBLED = parse_memory(
    "memory 2\nname mixed\nwords 4\nbits 3\nlatency 2\npolarity 1\npause 3\n"
    "scramble a0 = p0 ^ p1\nscramble a1 = p1 ^ 1\nbackgrounds 0 5\n"
)
TURNS = elements_of("{any(w0);del;up(r0,w1);down(r1,w0,r0)}")
ONE_BIT = parse_memory("memory 1\nname narrow\nwords 3\nbits 1\n")
CASES: list[tuple[list[Element], Memory]] = [(MARCH, MEMORY), (TURNS, SCRAMBLED), (TURNS, ONE_BIT)]


def simulated(text: str, top: str, *plusargs: str) -> list[str]:
    """What a testbench says, line by line."""
    with tempfile.TemporaryDirectory() as name:
        folder = pathlib.Path(name)
        (folder / "bench.sv").write_text(text)
        words = ["iverilog", "-g2012", "-s", top, "-o", str(folder / "run"), str(folder / "bench.sv")]
        subprocess.run(words, check=True)
        done = subprocess.run(
            ["vvp", "-n", str(folder / "run"), *plusargs], stdout=subprocess.PIPE, text=True, check=False
        )
    return done.stdout.splitlines()


def told(command: open_run.Command) -> str:
    """A command as the testbenches here print it: whether it writes, its address and its word."""
    writes, address, word = command
    return f"{int(writes)} {address} {word}"


@needs("iverilog", "vvp")
class Commands(unittest.TestCase):
    def test_testbench_works_them_out(self) -> None:
        for elements, memory in CASES:
            commands = [told(command) for command in open_run.commands_of(elements, memory) if command]
            self.assertEqual(len(commands), stream.number_of_commands(memory, elements))
            entry, bits = memory.width + memory.bits, memory.bits
            word = f"command[{entry}], command[{entry - 1}:{bits}], command[{bits - 1}:0]"
            body = (
                f"  integer j;\n  initial begin\n    work_out;\n    for (j = 0; j < {len(commands)}; j = j + 1) begin\n"
            )
            body += f'      $display("%0d %0d %0d", {word});\n      step_on;\n    end\n  end\n'
            bench = f"module bench;\n{stream.streamed(memory, elements)}{body}endmodule\n"
            with self.subTest(memory=memory.name):
                self.assertEqual(simulated(bench, "bench"), commands)

    def test_file_of_commands_ends_with_a_mark(self) -> None:
        """A list that is not whole is told before anything is compared."""
        body = '  initial begin\n    work_out;\n    $display("%h", command);\n    $finish(0);\n  end\n'
        bench = f"module bench;\n  localparam COUNT = 2;\n  integer j = 0;\n{stream.listed(MEMORY)}{body}endmodule\n"
        for lines, said in ((["9", "5", "f"], "9"), (["9", "5", "5"], "could not be read")):
            with tempfile.TemporaryDirectory() as name:
                file = pathlib.Path(name) / "tiny_commands.hex"
                file.write_text("\n".join(lines) + "\n")
                found = simulated(bench.replace("tiny_commands.hex", str(file)), "bench")
            self.assertIn(said, "\n".join(found))


@needs("iverilog", "vvp")
class Assertions(unittest.TestCase):
    """The machine of the rule, whose assertions Icarus doesn't know: what it wants in each cycle is printed."""

    def wanted(self, elements: list[Element], memory: Memory, answers: dict[int, int]) -> list[list[str]]:
        """Of each cycle behind the reset the command as `told` has it, or -; then done and fail.

        The words on rdata are right but in the cycles that are named.
        """
        text = rule_of_ports.rule(elements, memory)
        machine = re.sub(r"^  in_reset: assert.*^endmodule$", "endmodule", text, flags=re.MULTILINE | re.DOTALL)
        machine = machine.split("bind `CONTROLLER")[0]
        cycles = memory.cycles(elements)
        cases = "".join(f"      {cycle}: rdata = {word};\n" for cycle, word in answers.items())
        bench = f"""module bench;
  reg clk = 0, reset = 1;
  reg [{memory.bits - 1}:0] rdata;
  integer cycle;
  {memory.name}_rule rule(.clk(clk), .reset(reset), .rdata(rdata));
  initial for (cycle = 0; cycle < {cycles}; cycle = cycle + 1) begin
    reset = cycle == 0;
    #1 rdata = rule.wanted[{memory.latency}];
    case (cycle)
{cases}      default: ;
    endcase
    #1;
    if (cycle > 0) begin
      if (rule.command) $write("%0d %0d %0d", rule.writes, rule.address, rule.expected); else $write("-");
      $display("|%0d|%0d", rule.over[{memory.latency}], rule.bad);
    end
    clk = 1; #1 clk = 0;
  end
endmodule
"""
        return [line.split("|") for line in simulated(machine + bench, "bench")]

    def test_commands_and_end(self) -> None:
        for elements, memory in CASES:
            commands = [told(command) if command else "-" for command in open_run.commands_of(elements, memory)]
            idle = ["-"] * (memory.latency + 1)
            rows = [[command, "0", "0"] for command in commands + idle]
            rows[-1][1] = "1"
            with self.subTest(memory=memory.name):
                self.assertEqual(self.wanted(elements, memory, {}), rows)

    def test_wrong_answer_is_told_behind_its_comparison(self) -> None:
        """The first read of the small memory is in cycle 3, its word comes in cycle 4, and fail rises in cycle 5."""
        rows = self.wanted(MARCH, MEMORY, {4: 2})
        self.assertEqual([int(fail) for _, _, fail in rows], [0, 0, 0, 0, 1, 1])
        # a word that nobody asked for says nothing
        self.assertEqual([int(fail) for _, _, fail in self.wanted(MARCH, MEMORY, {3: 2})], [0] * 6)

    def test_assertions_speak_of_each_port(self) -> None:
        text = rule_of_ports.rule(TURNS, SCRAMBLED)
        self.assertTrue(
            text.startswith("// The rule of the ports of a self-test of mixed, for the march any(w0);del;up(r0,w1)")
        )
        self.assertEqual(len(re.findall(r"^  \w+: assert property ", text, re.MULTILINE)), 7)
        self.assertIn("`define CONTROLLER mixed_bist\n", text)
        self.assertIn("  assign address[0] = place[0] ^ place[1] ^ 1'b0;\n", text)


class Judges(unittest.TestCase):
    LINES = ["w 0 0", "w 1 0", "r 0 0", "r 1 0"]

    def cycles(self, elements: list[Element], text: str, lines: list[str]) -> tuple[Memory, list[port_judge.Cycle]]:
        with tempfile.TemporaryDirectory() as name:
            file = pathlib.Path(name) / "a.mem"
            file.write_text(text)
            listed = mock.patch.object(port_judge, "vectors_of", return_value=lines)
            march = mock.patch.object(port_judge, "march_of", return_value=("", elements))
            with listed, march:
                return port_judge.cycles_of("a.m", file)

    def test_cycles_of_a_test(self) -> None:
        text = "memory 1\nname tiny\nwords 2\nbits 2\nbackgrounds 0\n"
        memory, cycles = self.cycles(MARCH, text, self.LINES)
        self.assertEqual(memory, MEMORY)
        commands = [line.split() for line in self.LINES]
        self.assertEqual(cycles, [None, *commands, None, None, None, None, None])
        paused = elements_of("{any(w0);del;up(r0)}")
        _, cycles = self.cycles(paused, f"{text}pause 2\n".replace("memory 1", "memory 2"), self.LINES)
        self.assertEqual(cycles[1:7], [*commands[:2], None, None, *commands[2:]])

    def test_list_that_is_too_long_is_no_test(self) -> None:
        with self.assertRaises(AssertionError):
            self.cycles(MARCH, "memory 1\nname tiny\nwords 2\nbits 2\nbackgrounds 0\n", [*self.LINES, "r 0 0"])

    def test_same_test_in_numbers(self) -> None:
        cycles: list[port_judge.Cycle] = [None, ["w", "1", "a"], ["r", "0", "5"], *[None] * 5]
        test = port_judge.test_of(SCRAMBLED, cycles)
        self.assertEqual(test.commands[:3], [None, (True, 1, 10), (False, 0, 5)])
        self.assertEqual(test.done, len(cycles) - port_judge.BEHIND - 1)

    def test_pins_and_wires(self) -> None:
        plain, wires = port_judge.connected(None, MEMORY)
        self.assertTrue(plain.startswith(".clk(clk), .reset(reset), .rdata(rdata), .en(en)"), plain)
        self.assertEqual(wires, "")
        told_pins = [
            ("clk", Pin("ck", True)),
            ("reset", Pin("rst_n", True)),
            ("en", Pin("cen", True)),
            ("we", Pin("we", False)),
        ]
        pins, wires = port_judge.connected(Pins("p", told_pins, {"mode": 2}), MEMORY)
        self.assertEqual(pins, ".\\ck (clk), .\\rst_n (~reset), .\\cen (low_en), .\\we (we), .\\mode (2)")
        self.assertEqual(wires, "  wire low_en;\n  assign en = ~low_en;\n")

    def test_judge_has_a_row_for_each_command_and_answer(self) -> None:
        cycles: list[port_judge.Cycle] = [None, ["w", "1", "5"], ["r", "3", "2"], *[None] * 6]
        text = port_judge.checker(SCRAMBLED, cycles, "other", False)
        self.assertIn("      1: wanted = {1'b1, 1'b1, 2'd1, 3'h5};\n", text)
        self.assertIn("      2: wanted = {1'b1, 1'b0, 2'd3, 3'h2};\n", text)
        # the latency is 2
        self.assertIn("      4: answer = {1'b1, 3'h2};\n", text)
        self.assertIn("  wire reset = step == 0;\n", text)
        again = port_judge.checker(SCRAMBLED, cycles, "other", True)
        self.assertIn("  wire reset = step == 0 | again;\n", again)


@needs("iverilog", "vvp")
class Ends(unittest.TestCase):
    def said(self, *plusargs: str) -> str:
        """The last line of a testbench of two memories, of four words of two bits and of two words of one bit."""
        body = '  initial #1 $display("%0d %0d %0d %0d", at_unit, at_address, at_bit, at_value);\n'
        bench = f"module bench;\n{bench_end.planted('bench', [(4, 2), (2, 1)])}{body}endmodule\n"
        return (simulated(bench, "bench", *plusargs) or [""])[-1]

    def test_place_that_is_there(self) -> None:
        self.assertEqual(self.said(), "0 0 0 0")
        self.assertEqual(self.said("+planted", "+address=3", "+bit=1", "+value=1"), "0 3 1 1")
        self.assertEqual(self.said("+planted", "+unit=1", "+address=1"), "1 1 0 0")

    def test_place_that_is_not_there(self) -> None:
        for words in (["+address=4"], ["+bit=2"], ["+value=2"], ["+unit=2"], ["+unit=1", "+bit=1"], ["+address=65536"]):
            self.assertNotRegex(self.said("+planted", *words), r"^\d+ \d+ \d+ \d+$")

    def test_run_passes_where_its_last_line_says_so(self) -> None:
        self.assertIn('$display("tiny: passed")', bench_end.over("tiny"))
        self.assertIn('$fatal(1, "tiny: not passed', bench_end.over("tiny"))
        self.assertTrue(bench_end.FINISH.startswith("is_over = 1'b1;"))
