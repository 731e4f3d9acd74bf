"""Equal memories of a list that share a controller: which of them do, what their unit weighs, what compares them."""
from __future__ import annotations

import os
import pathlib
import tempfile
import unittest

from vidlakost_tools.chip import sharing, system as soc
from vidlakost_tools.chip.steps import plan
from vidlakost_tools.in_place.sequencer import of_places
from vidlakost_tools.program import ROOT, quick_program
from vidlakost_tools.tool import ToolError

HEAD = "list 1\nname soc\nbudget 60\n"
GRAY = "unit 10 examples/six/march.m examples/six/gray.mem instances 8 shared\n"
LOW, HIGH = (f"unit 12 examples/six/march.m examples/six/wide_{half}.mem instances 3" for half in ("low", "high"))
PINS = [f"examples/six/{name}.pins" for name in ("gray", "wide")]


@unittest.skipUnless(quick_program(), "no program is here that answers at once")
class Sharing(unittest.TestCase):
    """All of these read the examples from the root."""

    def setUp(self) -> None:
        before = os.getcwd()
        os.chdir(ROOT)
        self.addCleanup(os.chdir, before)
        kept = tempfile.TemporaryDirectory()
        self.addCleanup(kept.cleanup)
        self.path = pathlib.Path(kept.name) / "soc.list"

    def system(self, units: str) -> soc.System:
        self.path.write_text(HEAD + units)
        system = soc.read_system(str(self.path))
        soc.give_collars(system, PINS[: 1 + ("wide" in units)])
        return system

    def test_as_many_as_have_room(self) -> None:
        """Six of ten find room in 60, so that of eight the first six share a controller, and the last two another."""
        system = self.system(GRAY)
        leaders = [part.leader.name if part.leader else part.name for part in system.parts]
        self.assertEqual(leaders, ["gray_0"] * 6 + ["gray_6"] * 2)
        self.assertEqual([part.unit.weight for part in system.parts], [60] * 6 + [20] * 2)
        self.assertEqual([part.weight for part in system.parts], [10] * 8)
        self.assertEqual([part.name for part in sharing.followers(system, system.parts[6])], ["gray_7"])

    def test_units(self) -> None:
        """The chip has a unit for each controller; both stand one behind the other, since 60 and 20 have no room."""
        system = self.system(GRAY)
        soc.planned(system, str(self.path))
        self.assertEqual([part.name for part in system.of_chip(0)], ["gray_0", "gray_6"])
        self.assertEqual([unit.group for unit in system.chips[0].units], [0, 1])
        rows = [line.split()[1:5] for line in plan(system)[1:]]
        self.assertEqual(rows, [[f"gray_{number}", "0", str(number // 6), str(number // 6)] for number in range(8)])

    def test_words_of_two(self) -> None:
        """Both parts weigh 24, so that two words share, and the third has controllers of its own."""
        system = self.system(f"{GRAY}{LOW} shared\n{HIGH} shared\n")
        leaders = {part.name: part.leader.name for part in system.parts if part.leader}
        self.assertEqual({name: leaders[name] for name in leaders if "wide" in name}, {
            "wide_low_1": "wide_low_0",
            "wide_high_1": "wide_high_0",
        })
        soc.planned(system, str(self.path))
        for part in system.parts:
            self.assertEqual((part.chip, part.place), ((part.leader or part).chip, (part.leader or part).place))

    def test_not_shared(self) -> None:
        system = self.system(GRAY.replace(" shared", ""))
        self.assertTrue(all(part.leader is None and part.unit.weight == 10 for part in system.parts))

    def test_refusals(self) -> None:
        for units, why in (
            (GRAY.replace("shared", "together"), r"a line is unit WEIGHT MARCH MEMORY \[instances N \[shared\]\]"),
            (GRAY.replace("instances 8 ", ""), "a line is unit WEIGHT"),
            (f"{GRAY}{LOW} shared\n{HIGH}\n", "wide_low and wide_high are parts of one word: either both lines"),
        ):
            with self.assertRaisesRegex(ToolError, why):
                self.system(units)
        with self.assertRaisesRegex(ToolError, "gray is shared, but a memory in its place has a controller"):
            of_places(self.system(GRAY))

    def test_comparators(self) -> None:
        """With a latency of one what was expected in a cycle is compared in the next one."""
        system = self.system(GRAY)
        lines = sharing.comparators(system.parts[6], [system.parts[7]], "on", lambda name: name)
        self.assertEqual(lines[3:], [
            "  always @(posedge clk) begin",
            "    n_gray_6_reads_1 <= on & n_gray_6_en & ~n_gray_6_we;",
            "    n_gray_6_want_1 <= n_gray_6_given;",
            "    n_gray_7_bad <= on & (n_gray_7_bad | n_gray_6_reads_1 & (n_gray_7_taken != n_gray_6_want_1));",
            "  end",
        ])


if __name__ == "__main__":
    unittest.main()
