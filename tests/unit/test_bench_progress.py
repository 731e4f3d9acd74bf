"""Each line of a testbench that says how far a run is comes out at once, whatever takes it."""
from __future__ import annotations

import os
import re
import unittest

from tests.unit.test_joined import whole
from vidlakost_tools.chip import system as soc
from vidlakost_tools.chip.bench import bench
from vidlakost_tools.collar.bench import Bench
from vidlakost_tools.in_place.bench import PlaceBench
from vidlakost_tools.in_place.due import Due
from vidlakost_tools.in_place.place_list import read_places
from vidlakost_tools.in_place.places_bench import ChipBench
from vidlakost_tools.in_place.sequencer import of_places
from vidlakost_tools.program import ROOT, quick_program

LINE = re.compile(r'\$display\("([^"]*)".*?\);(\s*\$fflush;)?')
PINS = [f"examples/joins/{name}.pins" for name in ("late", "left", "low", "masked", "kept")]


class Progress(unittest.TestCase):
    def lines(self, text: str) -> list[str]:
        """The lines that come out at once; the last line of a run alone needs not."""
        found = [(match[1], match[2] is not None) for match in LINE.finditer(text)]
        kept = [told for told, is_flushed in found if not is_flushed]
        self.assertEqual(len([told for told in kept if re.fullmatch(r"\w+: passed", told)]), len(kept), kept)
        return [told for told, is_flushed in found if is_flushed]

    def test_a_collar_and_a_memory_in_its_place(self) -> None:
        placed = whole(None).system.collars[0]
        told = self.lines(Bench(placed.macro, placed.word).text())
        self.assertIn("left: a wrong bit is found", told)
        text = PlaceBench(placed.macro, placed.word, Due(placed)).text()
        self.assertIn("left: the first failure is read", self.lines(text))

    def test_a_chip(self) -> None:
        text = bench(whole(None).system)
        self.assertIn("x: a wrong bit at left_1 is found", self.lines(text.replace("if (seed != 0) $display", "")))

    @unittest.skipUnless(quick_program(), "no program is here that answers at once")
    def test_memories_in_their_places(self) -> None:
        before = os.getcwd()
        os.chdir(ROOT)
        self.addCleanup(os.chdir, before)
        system = soc.read_system("examples/in_place/camera.list")
        soc.give_collars(system, PINS)
        target = of_places(system)
        told = self.lines(ChipBench(target, read_places("examples/in_place/camera.places", system)).text())
        self.assertIn("camera: a wrong bit at left is found, first in cycle %0d", told)
        self.assertIn("camera: passes once more", told)


if __name__ == "__main__":
    unittest.main()
