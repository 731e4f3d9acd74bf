"""The second witness of a yes: which simulator is asked, what GHDL is given, and what a verdict says."""
from __future__ import annotations

import contextlib
import io
import json
import pathlib
import random
import tempfile
import unittest
from typing import Any
from unittest import mock

from tests.unit.controllers import MARCH, MEMORY, needs
from vidlakost_tools.audit import beside_ghdl, rule_vectors, witness
from vidlakost_tools.audit.beside_ghdl import BesideVhdl
from vidlakost_tools.audit.beside_icarus import Differs, Seen, Unclocked
from vidlakost_tools.audit.outcome import READ_ALONE, Outcome
from vidlakost_tools.audit.rule_vectors import Rule, Run
from vidlakost_tools.audit.stretches import Whole, borders, of_test
from vidlakost_tools.texts.march import elements_of
from vidlakost_tools.texts.memory import parse_memory
from vidlakost_tools.tool import ToolError
from vidlakost_tools.verilog import front_end
from vidlakost_tools.verilog.front_end import Plain

PLAIN = Plain("m", [], [], [], [], [], {}, None, top="walker")
ENTITY = """library ieee;
use ieee.std_logic_1164.all;
use ieee.numeric_std.all;
entity walker is
  generic (width : positive := 2);
  port (clk, reset : in std_logic; rdata : in unsigned(width - 1 downto 0); -- : in bit
    en, we, done : out std_logic; addr : out std_logic_vector(0 downto 0);
    signal wdata : out ieee.numeric_std.signed(1 downto 0);
    fail : buffer std_ulogic);
end walker;
"""
BODY = """architecture rtl of walker is
  signal step : unsigned(2 downto 0);
  signal bad : std_logic;
begin
  en <= '1' when reset = '0' and step >= 1 and step <= 4 else '0';
  we <= '1' when step <= 2 else '0';
  addr(0) <= not step(0);
  wdata <= "00";
  done <= '1' when reset = '0' and step = 6 else '0';
  fail <= bad and not reset;
  process (clk) begin
    if rising_edge(clk) then
      if reset = '1' then
        step <= "001";
        bad <= '0';
      else
        if step /= 6 then step <= step + 1; end if;
        if (step = 4 or step = 5) and rdata /= "00" then bad <= '1'; end if;
      end if;
    end if;
  end process;
end rtl;
"""


def run_of(length: int, wrong: int, **more: Any) -> list[dict[str, str]]:
    rule = Rule(MARCH, MEMORY, **more)
    return list(Run(rule, rule.commands(), length, wrong, 1).rows(random.Random(1)))


class Vectors(unittest.TestCase):
    """The small test: the reset, two writes in 1 and 2, two reads in 3 and 4, whose words come in 4 and 5, the end in
    6."""

    def test_ports_by_the_rule(self) -> None:
        rows = run_of(9, 9)
        self.assertEqual("".join(row["en"] for row in rows), "011110000")
        self.assertEqual("".join(row["we"] for row in rows), "-1100----")
        self.assertEqual("".join(row["addr"] for row in rows), "-0101----")
        self.assertEqual([row["wdata"] for row in rows[:4]], ["--", "00", "00", "--"])
        self.assertEqual("".join(row["done"] for row in rows), "000000111")
        self.assertEqual("".join(row["fail"] for row in rows), "000000000")
        self.assertEqual([row["rdata"] for row in rows[4:6]], ["00", "00"])
        self.assertEqual("".join(row["reset"] for row in rows), "100000000")

    def test_wrong_answers(self) -> None:
        """Each answer is wrong from cycle 4 on, so fail is 1 from cycle 5 on; from 5 on, from cycle 6 on."""
        rows = run_of(8, 4)
        self.assertNotEqual(rows[4]["rdata"], "00")
        self.assertEqual("".join(row["fail"] for row in rows), "00000111")
        self.assertEqual("".join(row["fail"] for row in run_of(8, 5)), "00000011")

    def test_late_tests(self) -> None:
        late = run_of(10, 10, delay=2)
        self.assertEqual("".join(row["en"] for row in late), "0001111000")
        self.assertEqual("".join(row["done"] for row in late), "0000000011")
        rows = run_of(9, 4, late=1, is_open=True)
        self.assertEqual("".join(row["done"] for row in rows), "-00000011")
        self.assertEqual("".join(row["fail"] for row in rows), "-0000-111")

    def test_runs_end_in_resets(self) -> None:
        rows = list(rule_vectors.rows(Rule(MARCH, MEMORY), 1, 3, 5, 10))
        self.assertEqual(sum(row["reset"] == "1" for row in rows), 8)
        self.assertEqual(rows, list(rule_vectors.rows(Rule(MARCH, MEMORY), 1, 3, 5, 10)))
        self.assertNotEqual(rows, list(rule_vectors.rows(Rule(MARCH, MEMORY), 2, 3, 5, 10)))


class Stretches(unittest.TestCase):
    def test_long_test_has_its_borders(self) -> None:
        """Three elements of 65,536 words with 1, 2 and 2 operations, in two backgrounds."""
        memory = parse_memory("memory 1\nname b\nwords 65536\nbits 2\nbackgrounds 0 1\n")
        elements = elements_of("{any(w0);up(r0,w1);down(r1,w0)}")
        self.assertEqual(list(borders(elements, memory))[:4], [1, 65537, 196609, 327681])
        whole = of_test(elements, memory)
        self.assertEqual((whole.length, whole.histories), (655362 + 70, 2))
        for border in borders(elements, memory):
            self.assertTrue(any(start <= border < start + whole.span for start in whole.starts), border)
        self.assertEqual(whole.starts[0], 0)
        self.assertGreaterEqual(whole.starts[-1] + whole.span, whole.length)
        self.assertEqual(of_test(MARCH, MEMORY), Whole(76, -1, 40))


class Ghdl(unittest.TestCase):
    def setUp(self) -> None:
        folder = tempfile.TemporaryDirectory()
        self.addCleanup(folder.cleanup)
        self.file = pathlib.Path(folder.name) / "a.vhd"

    def seen(self, text: str, is_any: bool = False) -> Seen:
        self.file.write_text(text)
        plain = front_end.plain_of([str(self.file)], {})
        rule = None if is_any else Rule(MARCH, MEMORY)
        return beside_ghdl.beside(BesideVhdl([str(self.file)], plain, None, rule), "s1")

    def test_types_of_ports(self) -> None:
        self.file.write_text(ENTITY + BODY)
        kinds = beside_ghdl.declared(beside_ghdl.entity_of([str(self.file)], "Walker"))
        outputs = {name: "std_logic" for name in ("clk", "reset", "en", "we", "done")}
        more = {"rdata": "unsigned", "addr": "std_logic_vector", "wdata": "signed", "fail": "std_ulogic"}
        self.assertEqual(kinds, {**outputs, **more})
        with self.assertRaisesRegex(Unclocked, "^the entity 'other' was not found"):
            beside_ghdl.entity_of([str(self.file)], "other")

    @needs("ghdl", "yosys")
    def test_right_controller(self) -> None:
        seen = self.seen(ENTITY + BODY)
        self.assertEqual((seen.simulator, seen.unknown, seen.doubt), ("GHDL", -1, None))
        self.assertGreater(seen.cycles, 2 * 40 * 77)
        self.assertEqual(self.seen(ENTITY + BODY, is_any=True).cycles, 4000)

    @needs("ghdl", "yosys")
    def test_what_synthesis_reads_otherwise(self) -> None:
        fail = "fail <= bad and not reset;"
        for wrong in (
            "process (bad) begin fail <= bad and not reset; end process;",
            "fail <= bad and not reset after 300 ns;",
            "process (bad, reset) variable k : std_logic; begin fail <= k; k := bad and not reset; end process;",
        ):
            for is_any in (False, True):
                told = "fail is . in cycle .* by GHDL"
                with self.subTest(wrong=wrong, is_any=is_any), self.assertRaisesRegex(Differs, told):
                    self.seen((ENTITY + BODY).replace(fail, wrong), is_any)
        early = BODY.replace("begin\n  en <=", "  signal c1 : std_logic;\nbegin\n  c1 <= clk;\n  en <=")
        begins = "process (c1) begin\n if rising_edge(c1) then\n if reset = '1' then bad <= '0'; else\n if (step = 4"
        late = early.replace("        bad <= '0';\n", "")
        late = late.replace("if (step = 4", f"end if; end if; end process;\n  {begins}")
        with self.assertRaisesRegex(Differs, "fail is . in cycle .* by GHDL"):
            self.seen(ENTITY + late)

    @needs("ghdl", "yosys")
    def test_assert_of_the_sources_ends_no_run(self) -> None:
        begin = "begin\n  assert step /= 3 report \"three\" severity failure;\n  en <="
        right = BODY.replace("begin\n  en <=", begin)
        self.assertEqual(self.seen(ENTITY + right).cycles, self.seen(ENTITY + BODY).cycles)
        wrong = right.replace("fail <= bad and not reset;", "fail <= bad and not reset after 300 ns;")
        with self.assertRaisesRegex(Differs, "fail is . in cycle .* by GHDL"):
            self.seen(ENTITY + wrong)

    @needs("ghdl", "yosys")
    def test_what_counts_and_has_no_number(self) -> None:
        weak = BODY.replace("fail <= bad and not reset;", "fail <= 'H' when bad = '1' and reset = '0' else 'L';")
        self.assertEqual(self.seen(ENTITY + weak).doubt, ("fail", 0))

    @needs("ghdl", "yosys")
    def test_port_of_another_type(self) -> None:
        bits = (ENTITY + BODY).replace("std_ulogic", "bit").replace("bad and not reset;", "to_bit(bad and not reset);")
        told = "^the port fail has the type 'bit', which the bench for GHDL doesn't know$"
        with self.assertRaisesRegex(Unclocked, told):
            self.seen(bits)


class Verdicts(unittest.TestCase):
    def asked(self, *options: str, files: list[str] | None = None) -> witness.Asked:
        return witness.Asked("audit", files or ["a.v"], {option: True for option in options}, PLAIN)

    def outcome(self, seen: Seen | Exception, *options: str, told: str = "conforms, fail is exact") -> Outcome:
        clocked = mock.patch.object(witness, "clocked", side_effect=[seen])
        quiet = contextlib.redirect_stderr(io.StringIO()), contextlib.redirect_stdout(io.StringIO())
        with clocked, quiet[0], quiet[1]:
            return witness.outcome(self.asked(*options), told, "conforms, fail is exact", {})

    def test_lines(self) -> None:
        right = self.outcome(Seen("Icarus", 9))
        said = "audit: right: conforms, fail is exact, simulated by Icarus"
        self.assertEqual((right.status, right.line()), (0, said))
        vhdl = self.outcome(Seen("GHDL", 9))
        self.assertEqual(vhdl.line(), "audit: right: conforms, fail is exact, one front end (GHDL), simulated")
        alone = self.outcome(Unclocked("nothing is there"))
        self.assertEqual((alone.status, alone.line()), (1, f"audit: unknown: {READ_ALONE}"))
        chosen = self.outcome(Seen("Icarus", 9), "--no-simulate")
        self.assertEqual((chosen.status, chosen.line()), (0, f"audit: {READ_ALONE}"))
        late = self.outcome(Seen("Icarus", 9), "--no-simulate", told="conforms 1 cycle late, fail is exact")
        self.assertEqual(late.line(), f"audit: {READ_ALONE}: conforms 1 cycle late, fail is exact")
        lost = self.outcome(Seen("Icarus", 9, 3, ("fail", 7)))
        said = "audit: unknown: fail is unknown to Icarus in cycle 7, where Yosys has a number"
        self.assertEqual((lost.status, lost.line(), lost.cycle, lost.port), (1, said, 7, "fail"))

    def test_refusals(self) -> None:
        two = witness.refusal("audit", Differs("Icarus", "en", 3, "1", "0"))
        self.assertEqual((two.status, two.line()), (1, "audit: refused: en is 1 in cycle 3 by Icarus, and 0 by Yosys"))
        self.assertEqual((two.cycle, two.port, two.due, two.got), (3, "en", "0", "1"))
        self.assertEqual(witness.refusal("audit", ToolError("x", 1)).line(), "audit: refused")

    def test_who_is_asked(self) -> None:
        with self.assertRaisesRegex(Unclocked, "no simulator clocks Verilog and VHDL together"):
            witness.clocked(self.asked(files=["a.v", "b.vhd"]))
        with mock.patch("shutil.which", return_value=None):
            for file, tool in (("a.v", "Icarus"), ("a.vhd", "ghdl")):
                with self.assertRaisesRegex(Unclocked, f"^{tool} .*is not on the PATH$"):
                    witness.clocked(self.asked(files=[file]))

    def test_findings_in_json(self) -> None:
        found = Outcome("audit", "wrong", "x").at("differs cycle 21 port wdata expected 2 got 1")
        told = json.loads(found.json([__file__]))
        keys = ("verdict", "status", "cycle", "port", "due", "got")
        self.assertEqual([told[key] for key in keys], ["wrong", 1, 21, "wdata", "2", "1"])
        self.assertEqual((len(told["inputs"][0]["sha256"]), told["simulated"]), (64, False))
        fail = Outcome("audit", "wrong").at("fail is 0 in cycle 9 though bit 3 of the answer of cycle 8 is wrong")
        self.assertEqual((fail.cycle, fail.port, fail.due, fail.got), (9, "fail", "1", "0"))
        self.assertEqual(Outcome("audit", "unknown").at("unknown cycle 2 port en").got, "unknown")
