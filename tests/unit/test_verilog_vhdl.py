"""Modules written as VHDL with a testbench, which GHDL runs, and sources in VHDL, which GHDL makes Verilog of."""
from __future__ import annotations

import pathlib
import subprocess
import tempfile
import unittest
from unittest import mock

from tests.unit.controllers import MARCH, MEMORY, SMALL, changed, needs
from vidlakost_tools.program import ROOT
from vidlakost_tools.text import read_text
from vidlakost_tools.texts.march import elements_of
from vidlakost_tools.texts.memory import parse_memory
from vidlakost_tools.tool import ToolError
from vidlakost_tools.verilog import front_end, open_run, vhdl, vhdl_text
from vidlakost_tools.verilog.syntax import Module, Reader

# the commands of the small controller, as `vectors` lists them
COMMANDS = ["w 0 0", "w 1 0", "r 0 0", "r 1 0"]
HEAD = "module every(input [3:0] a, input [3:0] b, input c, output [3:0] y);\n"


def module_of(text: str) -> Module:
    return Reader(text).module()


class Ghdl(unittest.TestCase):
    def setUp(self) -> None:
        folder = tempfile.TemporaryDirectory()
        self.addCleanup(folder.cleanup)
        self.folder = pathlib.Path(folder.name)

    def run_of(self, top: str, *options: str, **files: str) -> str:
        """What GHDL says of a run of some texts, by their names."""
        for name, text in files.items():
            (self.folder / f"{name}.vhd").write_text(text)
        sources = [f"{name}.vhd" for name in files]
        for words in (["-a", "--std=93", *sources], ["-e", "--std=93", top]):
            subprocess.run(["ghdl", *words], cwd=self.folder, check=True, capture_output=True)
        words = ["ghdl", "-r", "--std=93", top, *options]
        done = subprocess.run(
            words, cwd=self.folder, stdout=subprocess.PIPE, stderr=subprocess.STDOUT, text=True, check=False
        )
        return done.stdout


@needs("ghdl")
class Testbenches(Ghdl):
    def said(self, text: str, *options: str) -> list[str]:
        """What the testbench reports of a controller of the small march."""
        module = module_of(text)
        rows = vhdl_text.rows(MARCH, MEMORY, COMMANDS)
        (self.folder / "walker_cycles.txt").write_text("".join(f"{row}\n" for row in ["head", *rows]))
        bench = vhdl_text.bench(module, MARCH, MEMORY)
        said = self.run_of("walker_tb", *options, walker=vhdl_text.vhdl(module), walker_tb=bench)
        return [line.split("): ")[1] for line in said.splitlines() if "): " in line]

    def test_right_controller(self) -> None:
        self.assertEqual(self.said(SMALL), ["fail 0 done 6"])

    def test_planted_answer_is_told_by_fail(self) -> None:
        self.assertEqual(self.said(SMALL, "-gplant=4"), ["fail 1 done 6"])
        self.assertEqual(self.said(SMALL, "-gplant=3"), ["no answer stands on rdata in the cycle of plant"])

    def test_wrong_controllers(self) -> None:
        differs = {
            "differs cycle 2 port addr": ("!step[0]", "1'b0"),
            "differs cycle 1 port wdata": ("wdata = 2'd0", "wdata = 2'd1"),
            "differs cycle 6 port done": ("step == 3'd6;", "step == 3'd7;"),
        }
        for line, change in differs.items():
            with self.subTest(line=line):
                said = self.said(changed(change))
                self.assertEqual((said[0], said[-1]), (line, "the ports are not as the march's commands say"))

    def test_fail_that_is_never_1(self) -> None:
        never = changed(("reset && bad", "reset && 1'b0"))
        self.assertEqual(self.said(never), ["fail 0 done 6"])
        self.assertIn("differs cycle 5 port fail", self.said(never, "-gplant=4"))


@needs("ghdl")
class Values(Ghdl):
    BENCH = """library ieee;
use ieee.std_logic_1164.all;
entity bench is end bench;
architecture test of bench is
  signal a, b, y : std_logic_vector(3 downto 0);
  signal c : std_logic;
begin
  dut : entity work.every port map (a => a, b => b, c => c, y => y);
  process begin
    a <= "{a}"; b <= "{b}"; c <= '{c}';
    wait for 1 ns;
    for i in y'range loop
      report "bit " & std_logic'image(y(i));
    end loop;
    wait;
  end process;
end test;
"""

    def value(self, expression: str, a: str = "1100", b: str = "0101", c: str = "0") -> str:
        bench = self.BENCH.format(a=a, b=b, c=c)
        text = f"{HEAD}  assign y = {expression};\nendmodule\n"
        said = self.run_of("bench", every=vhdl_text.vhdl(module_of(text)), bench=bench)
        return "".join(line.split("bit '")[1][0] for line in said.splitlines() if "bit '" in line)

    def test_operators(self) -> None:
        """Four bits at once, each by operators of its own, with a at 1100 and b at 0101."""
        values = {
            "{a > b, a <= b, ^b, &a}": "1000",
            "{a && b, a == b, !a, |b}": "1001",
            "(a + b) ^ (b - a)": "1000",
            "(a << b[1:0]) | (a >> 3'h3)": "1001",
            "c ? a : (b & ~a)": "0001",
            "{~&a, ~|a, a >= b, a != b}": "1011",
        }
        for expression, value in values.items():
            with self.subTest(expression=expression):
                self.assertEqual(self.value(expression), value)

    def test_what_is_not_known_stays_so(self) -> None:
        self.assertEqual(self.value("{a[0] & c, a[0] | c, a[0] && c, a[0] || c}", a="0000", c="X"), "0X0X")
        self.assertEqual(self.value("c ? a : b", a="1100", b="1010", c="X"), "1XX0")
        self.assertEqual(self.value("a + b", a="000X"), "XXXX")


class Texts(unittest.TestCase):
    def test_statements(self) -> None:
        body = """  always @(posedge clk)
    case (a)
      2'h0: q <= 1'h0;
      2'h1, 2'h2: if (b) q <= 1'h1; else begin end
      default: q <= b;
    endcase
"""
        text = vhdl_text.vhdl(
            module_of(f"module m(input clk, input [1:0] a, input b, output reg q);\n{body}endmodule\n")
        )
        lines = [line.strip() for line in text.split("rising_edge(clk) then\n")[1].splitlines()]
        wanted = """if same(v_a, unsigned'("00")) then
            v_q <= unsigned'("0");
            elsif same(v_a, unsigned'("01")) or same(v_a, unsigned'("10")) then
            if is_true(v_b) then
            v_q <= unsigned'("1");
            else
            null;
            end if;
            else
            v_q <= v_b;
            end if;
            end if;
            end process;
            end rtl;"""
        self.assertEqual(lines, [line.strip() for line in wanted.splitlines()])

    def test_case_of_a_default_alone(self) -> None:
        head = "module m(input clk, input a, output reg q);\n  always @(posedge clk) case (a) "
        self.assertIn(
            "      v_q <= v_a;\n    end if;", vhdl_text.vhdl(module_of(f"{head}default: q <= a; endcase\nendmodule"))
        )
        empty = "2'h0: q <= a; endcase\nendmodule"
        self.assertIn(
            "      end if;\n    end if;", vhdl_text.vhdl(module_of(head.replace("input a", "input [1:0] a") + empty))
        )

    def test_rows_of_a_test(self) -> None:
        """en, we, addr, wdata, done, fail and rdata; the answers to the reads of cycles 3 and 4 are due in 4 and 5."""
        rows = ["0----00--", "1100000--", "1110000--", "100--00--", "101--0000", "0----0000", "0----10--"]
        self.assertEqual(list(vhdl_text.rows(MARCH, MEMORY, COMMANDS)), rows)

    def test_rows_of_a_pause(self) -> None:
        memory = parse_memory("memory 2\nname m\nwords 2\nbits 1\npause 2\n")
        rows = list(vhdl_text.rows(elements_of("{any(w0);del;up(r0)}"), memory, COMMANDS))
        self.assertEqual([row[0] for row in rows], list("011001100"))

    def test_testbench_is_of_a_self_test_alone(self) -> None:
        with self.assertRaisesRegex(ToolError, "^walker does not have the ports of a self-test"):
            vhdl_text.bench(module_of(SMALL.replace("fail", "error")), MARCH, MEMORY)
        wide = parse_memory("memory 1\nname wide\nwords 2\nbits 8\n")
        with self.assertRaisesRegex(ToolError, "^the ports of walker are not as wide as those of wide$"):
            vhdl_text.bench(module_of(SMALL), MARCH, wide)


@needs("ghdl", "yosys")
class Sources(Ghdl):
    STYLES = ROOT / "examples" / "foreign" / "styles"

    def line(self, text: str) -> str:
        """What the model of `check` says of a source in VHDL for the march and the memory of the example."""
        (self.folder / "walk.vhd").write_text(text)
        file = self.folder / "plain.v"
        file.write_text(front_end.plain_of([str(self.folder / "walk.vhd")], {}).text())
        elements = elements_of(read_text(ROOT / "examples" / "mats_plus.m"))
        memory = parse_memory(read_text(self.STYLES.parent / "four.mem"))
        return open_run.line_of(open_run.read_module(file), elements, memory)

    def test_example(self) -> None:
        self.assertEqual(self.line(read_text(self.STYLES / "walk.vhd")), "conforms 43")
        lost = read_text(self.STYLES / "walk_element_lost.vhd")
        self.assertEqual(self.line(lost), "differs cycle 33 port en expected 1 got 0")

    def test_source_that_ghdl_refuses(self) -> None:
        text = read_text(self.STYLES / "walk.vhd").replace("wdata <= data;", "wdata <= dat;")
        line = text[: text.index("wdata <= dat;")].count("\n") + 1
        with self.assertRaisesRegex(ToolError, rf"^ghdl refuses it: .*walk.vhd:{line}:\d+:.*dat"):
            self.line(text)

    def test_source_that_opens_a_file(self) -> None:
        text = "-- a file\n" + read_text(self.STYLES / "walk.vhd").replace("begin\n", "file kept : text;\nbegin\n", 1)
        line = text[: text.index("file kept")].count("\n") + 1
        why = "'file': GHDL would open a file of the system when it elaborates this"
        with self.assertRaises(ToolError) as caught:
            self.line(text)
        self.assertEqual(str(caught.exception), f"'{self.folder}/walk.vhd':{line}: {why}")

    def test_part_in_vhdl_of_a_top_in_verilog(self) -> None:
        entity = "entity inverted is port (a : in bit; y : out bit); end;\n"
        part = f"{entity}architecture rtl of inverted is begin y <= not a; end;\n"
        files = {"part.vhd": part, "top.v": "module top(input a, output y);\n  inverted u(.a(a), .y(y));\nendmodule\n"}
        for name, text in files.items():
            (self.folder / name).write_text(text)
        sources = [str(self.folder / name) for name in files]
        plain = front_end.plain_of(sources, {"--top": "top"})
        (wire,), (output,) = plain.wires, plain.outputs
        self.assertEqual((wire.value, output.value), ("(~a)", wire.name))
        with self.assertRaisesRegex(
            ToolError, "some sources are Verilog and some VHDL, so name the top with --top"
        ):
            front_end.plain_of(sources, {})

    def test_file_without_an_entity(self) -> None:
        with self.assertRaisesRegex(ToolError, "walk.vhd has no entity$"):
            self.line("package p is end;\n")

    def test_time_of_ghdl_is_bounded(self) -> None:
        with mock.patch.object(vhdl, "SECONDS", 0), self.assertRaisesRegex(
            ToolError, "^ghdl took longer than 0 seconds and was stopped$"
        ):
            self.line(read_text(self.STYLES / "walk.vhd"))

    def test_ghdl_is_needed(self) -> None:
        with mock.patch("shutil.which", return_value=None), self.assertRaisesRegex(
            ToolError, "ghdl, which turns it into Verilog"
        ):
            vhdl.verilog_of(["a.vhd"], {}, self.folder)

    def test_verilog_alone_stays(self) -> None:
        self.assertEqual(vhdl.verilog_of(["a.v"], {"--top": "a"}, self.folder), (["a.v"], {"--top": "a"}))
