"""Memories that stay where they are: the groups, the text of places, the test by the chip's TAP, and the proof of its
use."""
import os
import pathlib
import shutil
import subprocess
import sys
import tempfile
import unittest
from typing import List

from vidlakost_tools.chip import system as soc
from vidlakost_tools.in_place import places_proof
from vidlakost_tools.in_place.place_list import read_places
from vidlakost_tools.in_place.sequencer import PlaceTarget, of_places
from vidlakost_tools.program import ROOT, quick_program
from vidlakost_tools.tool import ToolError

CASE = ROOT / "examples" / "in_place"
PINS = [str(ROOT / "examples" / "joins" / f"{name}.pins") for name in ("late", "left", "low", "masked", "kept")]
HEAD = "places 1\nchip camera\nsource examples/in_place/camera.v\naccess tap.tested\nclock clk 10\n"
TAP = "tap tck tms tdi trst_n tdo\n"
AT = "at late_0 a\nat late_1 b\nat left c\nat low d\nat masked e\nat kept f\n"


def system_of(budget: int = 65) -> PlaceTarget:
    """The memories of the camera, with another budget."""
    with tempfile.TemporaryDirectory() as folder:
        path = pathlib.Path(folder) / "camera.list"
        path.write_text((CASE / "camera.list").read_text().replace("budget 65", f"budget {budget}"))
        system = soc.read_system(str(path))
    soc.give_collars(system, PINS)
    return of_places(system)


@unittest.skipUnless(quick_program(), "no program is here that answers at once")
class InPlace(unittest.TestCase):
    """All of these read the examples from the root."""

    def setUp(self) -> None:
        before = os.getcwd()
        os.chdir(ROOT)
        self.addCleanup(os.chdir, before)
        kept = tempfile.TemporaryDirectory()
        self.addCleanup(kept.cleanup)
        self.folder = pathlib.Path(kept.name)

    def text(self, said: str) -> str:
        path = self.folder / "chip.places"
        path.write_text(said)
        return str(path)

    # ---- the groups

    def test_groups(self) -> None:
        """The long tests first, each in the first group that has room: 25 and 25 of late, 30 of left beside 20 of kept,
        then 40 of masked, to which 40 of low find no room in 65."""
        self.assertEqual(system_of().groups, [[0, 1], [2, 5], [4], [3]])
        self.assertEqual(system_of(200).groups, [[0, 1, 2, 3, 4, 5]])

    def test_too_heavy(self) -> None:
        """A memory that weighs more than the budget has no place in any group."""
        with self.assertRaisesRegex(ToolError, "masked weighs more than the budget"):
            system_of(39)

    # ---- the text

    def refused(self, said: str, why: str) -> None:
        with self.assertRaisesRegex(ToolError, why):
            read_places(self.text(said), system_of().system)

    def test_texts(self) -> None:
        self.refused(HEAD + AT, "write either the lines start, done and fail, or the line tap")
        self.refused(HEAD + TAP + AT.replace("at kept f\n", ""), "no line 'at' is for kept")
        self.refused(HEAD + TAP + AT.replace("kept f", "kept a"), "late_0 has that place, too")
        self.refused(HEAD + TAP + AT + "at other g\n", "there is no memory other")
        self.refused(HEAD + TAP + AT + "at kept g\n", "line 12 has kept, too")
        self.refused(HEAD + TAP + AT + "clock seen 10\n", "seen is no input of camera")
        self.refused(HEAD + TAP + AT + "set margin 2'b01\n", "margin has 3 bits")
        self.refused(HEAD + TAP + AT + "set tck 1'b0\n", "tck is named twice")
        self.refused(HEAD.replace("camera.v", "camera.list") + TAP + AT, "no source has the module camera")
        self.refused(HEAD + TAP + AT.replace("d\n", "d; $finish\n"), "a line is at MEMORY PATH")
        self.refused("chip camera\n", "begins with 'places 1'")

    # ---- the proof

    def differences(self, old: str, new: str) -> List[str]:
        """What the proof tells where a text of the chip is another."""
        chip = (CASE / "camera.v").read_text()
        self.assertIn(old, chip)
        (self.folder / "camera.v").write_text(chip.replace(old, new))
        said = (CASE / "camera.places").read_text().replace("source examples/in_place", f"source {self.folder}")
        target = system_of()
        return places_proof.differences(target, read_places(self.text(said), target.system))

    @unittest.skipUnless(shutil.which("yosys"), "yosys is not installed")
    def test_proof(self) -> None:
        self.assertEqual(self.differences("", ""), [])
        found = self.differences(".d(word), .q(found)", ".d({word[7:2], word[0], word[1]}), .q(found)")
        self.assertEqual(found, [f"d[{bit}] of low is not what it was" for bit in (1, 0)])
        self.assertEqual(self.differences(".clkb(dot_clk)", ".clkb(bus_clk)"), ["clkb of left is not what it was"])
        found = self.differences(".cea(command[0] | command[1])", ".cea(command[0])")
        self.assertEqual(found, ["cea of left is not what it was"])
        found = self.differences("total <= total + word", "total <= total - word")
        self.assertEqual(found[0], "back.total.d[3] is not what it was")

    @unittest.skipUnless(shutil.which("yosys"), "yosys is not installed")
    def test_tied_before(self) -> None:
        """An input that was tied to something else than the pins tell is no use as before."""
        before = (CASE / "camera_before.v").read_text().replace(".mode(2'b01)", ".mode(2'b11)")
        (self.folder / "before.v").write_text(before)
        said = (CASE / "camera.places").read_text()
        said = said.replace("before examples/in_place/camera_before.v", f"before {self.folder}/before.v")
        target = system_of()
        found = places_proof.differences(target, read_places(self.text(said), target.system))
        self.assertEqual(found, ["mode of kept is tied to 2'b01 by the file of pins, and was not before"])

    # ---- the run

    def called(self, *words: str) -> "subprocess.CompletedProcess[str]":
        return subprocess.run(words, stdout=subprocess.PIPE, stderr=subprocess.STDOUT, text=True, check=False)

    @unittest.skipUnless(shutil.which("iverilog"), "iverilog is not installed")
    def test_run(self) -> None:
        """By hand: late writes its six words in the cycles 1 to 6 and reads in cycle 7, and the word comes four cycles
        later; left has eight words and a latency of one."""
        words = [str(CASE / "camera.list"), *PINS, str(self.folder)]
        tools = [["top", *words, "--in-place"], ["access", *words, "--in-place", "--jtag"]]
        for tool in [*tools, ["places", str(CASE / "camera.places"), *words]]:
            done = self.called(sys.executable, str(ROOT / "tools" / tool[0]), *tool[1:])
            self.assertEqual(done.returncode, 0, done.stdout)
        build = f"cd {self.folder} && iverilog -g2012 -o tb -c camera_places.f && vvp -n tb"
        found = {
            f"+planted={name}": f"{name} is found, first in cycle {cycle}"
            for name, cycle in (("late_1", 11), ("left", 10))
        }
        for more, told in {"": "camera: passes once more", **found}.items():
            done = self.called("bash", "-c", f"{build} {more}")
            self.assertEqual(done.returncode, 0, done.stdout)
            self.assertIn(told, done.stdout)
            self.assertEqual(done.stdout.splitlines()[-1], "camera_places_tb: passed")


if __name__ == "__main__":
    unittest.main()
