"""Timing constraints and the makefile of memories that stay where they are: each port is told, each clock is one by
itself, and OpenSTA may tell of those pins alone to which no path goes."""
from __future__ import annotations

import dataclasses
import itertools
import os
import pathlib
import re
import shutil
import subprocess
import tempfile
import unittest

from vidlakost_tools.access import under_tap
from vidlakost_tools.access.constraints import Timing
from vidlakost_tools.chip import system as soc
from vidlakost_tools.collar.port_list import Ports
from vidlakost_tools.commands import flow as flow_command, sdc
from vidlakost_tools.in_place import constraints
from vidlakost_tools.in_place.flow import PlaceFlow
from vidlakost_tools.in_place.place_list import Places, read_places
from vidlakost_tools.in_place.sequencer import PlaceTarget, of_places
from vidlakost_tools.in_place.text import InPlace
from vidlakost_tools.program import ROOT, quick_program
from vidlakost_tools.tool import ToolError

LIST = "examples/in_place/camera.list"
PLACES = "examples/in_place/camera.places"
PINS = [f"examples/joins/{name}.pins" for name in ("late", "left", "low", "masked", "kept")]
TIMING = Timing(100, 80, 20, 0.4, False)
# a chip whose test is started by ports of its own, by one clock
CHIP = "module camera(input clk, input go, input [1:0] x, output over, output [5:0] bad, output y); endmodule\n"


def told(text: str, *commands: str) -> list[str]:
    """The ports that these commands name, each as often as they do."""
    found: list[str] = []
    for line in text.splitlines():
        if line.split()[:1] and line.split()[0] in commands:
            names = re.search(r"get_ports (?:\{(.*?)\}|(\w+))", line)
            found += [name.replace("[*]", "") for name in (names[1] or names[2]).split()] if names else []
    return found


def ports_in(text: str, module: str, way: str) -> set[str]:
    """The ports of a module, as the reader of port lists has them."""
    return {port.name for port in Ports("a", text, module).ports() if port.way == way}


@unittest.skipUnless(quick_program(), "no program is here that answers at once")
class InPlaceFlow(unittest.TestCase):
    """All of these read the examples from the root."""

    def setUp(self) -> None:
        before = os.getcwd()
        os.chdir(ROOT)
        self.addCleanup(os.chdir, before)
        system = soc.read_system(LIST)
        soc.give_collars(system, PINS)
        self.target: PlaceTarget = of_places(system)
        self.places: Places = read_places(PLACES, system)

    def texts(self, kind: str = "access") -> dict[str, str]:
        return constraints.texts(self.target, self.places, kind, TIMING, {"low": 125.0})

    # ---- the constraints

    def is_told(self, text: str, inputs: set[str], outputs: set[str]) -> None:
        """Each input is a clock or has a delay, each output has one, and no other port is named."""
        inward = {*told(text, "create_clock"), *told(text, "set_input_delay")}
        self.assertEqual(inward, inputs)
        self.assertEqual(set(told(text, "set_output_delay")), outputs)

    def test_each_port_of_a_module(self) -> None:
        for placed in self.target.system.collars:
            made, name = InPlace(placed.macro, placed.word), f"{placed.word.name}_in_place"
            ports = {way: {port for side, _, port in made.ports() if side == way} for way in ("input", "output")}
            for case in ("test", "normal"):
                self.is_told(self.texts()[f"{name}_{case}.sdc"], ports["input"], ports["output"])

    def test_each_port_of_the_sequencer(self) -> None:
        module = re.sub("`.*", "", self.target.module())
        inputs, outputs = (ports_in(module, "camera_access", way) for way in ("input", "output"))
        self.assertIn("of_5", inputs)
        self.is_told(self.texts()["camera_test.sdc"], inputs, outputs)

    def test_each_port_of_a_register_under_another_tap(self) -> None:
        """The pins of the host interface are of tck, which takes `tdo` at its falling edge; reset_n may come at any
        time."""
        module = re.sub("`.*", "", under_tap.block(self.target))
        inputs, outputs = (ports_in(module, "camera_register", way) for way in ("input", "output"))
        text = self.texts("register")["camera_test.sdc"]
        self.is_told(text, inputs, outputs)
        self.assertIn("set_output_delay 20 -clock tck -clock_fall [get_ports {tdo}]\n", text)
        self.assertIn("set_input_delay 20 -clock tck [get_ports {select capture shift update tdi}]\n", text)
        self.assertTrue(text.startswith("# camera_register under test, at 100 MHz."))

    def test_each_port_of_a_chip(self) -> None:
        ports = {way: {port.name for port in self.places.ports if port.way == way} for way in ("input", "output")}
        self.is_told(self.texts()["camera_chip_test.sdc"], ports["input"], ports["output"])

    def test_clocks(self) -> None:
        """By the pins of left: qb, ceb and ab are of clkb, and clkc is a clock by itself; low has another clock."""
        left, low = self.texts()["left_in_place_test.sdc"], self.texts()["low_in_place_test.sdc"]
        self.assertIn("set_clock_groups -asynchronous -group clka -group clkb -group clkc\n", left)
        self.assertIn("set_input_delay 4 -clock clkb [get_ports {ceb ab[*]}]\n", left)
        self.assertIn("set_output_delay 4 -clock clkb [get_ports {qb[*]}]\n", left)
        self.assertIn("create_clock -name clk -period 8 [get_ports {clk}]\n", low)
        self.assertNotIn("set_clock_groups", low)
        self.assertIn("-period 12.5 ", self.texts()["late_in_place_normal.sdc"])

    def test_crossing(self) -> None:
        """What goes to a clock has a period of that, from whichever other one; the TAP is cut from all."""
        text = self.texts()["camera_chip_test.sdc"]
        for clock, period, others in (("clk", 10, "dot_clk bus_clk"), ("bus_clk", 8, "clk dot_clk")):
            self.assertIn(f"set_max_delay {period} -from [get_clocks {{{others}}}] -to [get_clocks {clock}]\n", text)
            self.assertIn(f"set_false_path -hold -from [get_clocks {{{others}}}] -to [get_clocks {clock}]\n", text)
        self.assertIn("set_clock_groups -asynchronous -group tck -group {clk dot_clk bus_clk}\n", text)
        self.assertIn("set_case_analysis 0 [get_ports {scan_mode}]\n", text)
        self.assertNotIn("get_nets", text)
        self.assertIn("[get_nets {back/sums/test}]", self.texts()["camera_chip_normal.sdc"])

    def test_started_by_ports(self) -> None:
        """What starts the test comes of any clock; with one clock nothing crosses."""
        places = Places("a", "camera", ports=Ports("a", CHIP, "camera").ports())
        places.clocks, places.start = {"clk": 20}, {"start": "go", "done": "over", "fail": "bad"}
        text = constraints.chip(self.target, places, TIMING, True)
        self.is_told(text, {"clk", "go", "x"}, {"over", "bad", "y"})
        self.assertIn("set_input_delay 0 -clock clk -add_delay [get_ports {go}]\n", text)
        self.assertIn("set_false_path -hold -from [get_ports {go}]\n", text)
        self.assertNotIn("set_max_delay", text)

    def test_generated(self) -> None:
        self.assertEqual(constraints.instance("core.bank[2].word.mem"), "core/bank[2].word/mem")

    # ---- the words

    def refused(self, why: str, *words: str) -> None:
        main = flow_command.main if words[0] == "flow" else sdc.main
        with self.assertRaisesRegex(ToolError, why):
            main(list(words[1:]))

    def test_words(self) -> None:
        common = ("sdc", LIST, *PINS, "none", "--mhz", "50")
        self.refused("--places needs --in-place", *common, "--places", PLACES)
        self.refused("--clock needs --in-place", *common, "--clock", "low=9")
        why = "--clock is MEMORY=F, and not 'x=9'; the memories are late, left"
        self.refused(why, *common, "--in-place", "--clock", "x=9")
        self.refused("the clock of low twice", *common, "--in-place", "--clock", "low=9", "--clock", "low=8")
        self.refused("the clock of low is a number above 0", *common, "--in-place", "--clock", "low=-9")
        self.refused("--under-tap needs --in-place", *common, "--under-tap")
        self.refused("at most one of --apb, --jtag and --under-tap", *common, "--in-place", "--jtag", "--under-tap")
        self.refused("--falling is for ports to the memories", *common, "--in-place", "--falling")
        self.refused("--in-place needs the files of pins", "sdc", LIST, "none", "--mhz", "50", "--in-place")
        self.refused("--places needs --in-place", "flow", LIST, *PINS, "none", "--places", PLACES)
        self.refused("--under-tap needs --in-place", "flow", LIST, *PINS, "none", "--under-tap")
        why = f"{PLACES} has no line under, so there is no TAP for --under-tap"
        self.refused(why, "flow", LIST, *PINS, "none", "--in-place", "--places", PLACES, "--under-tap")
        self.places.under = (6, 0x2C)
        with self.assertRaisesRegex(ToolError, f"{PLACES} has the line under: say --under-tap"):
            flow_command.refuse_other_tap(self.places, False)

    # ---- the makefile

    def flow(self, places: Places | None) -> PlaceFlow:
        folder = pathlib.Path("build/flow")
        return PlaceFlow(self.target.system, LIST, PINS, "all.list", folder, {}, "", places)

    def test_steps(self) -> None:
        words = ["late", "left", "low", "masked", "kept"]
        steps = self.flow(self.places).steps()
        self.assertEqual(steps["collars"], [f"{word}/passed" for word in words])
        self.assertEqual(steps["places"], ["places/passed"])
        self.assertEqual(steps["sta"], [f"{word}/sta.txt" for word in [*words, "chip", "places"]])
        self.assertNotIn("places", self.flow(None).steps())
        text = self.flow(self.places).text()
        for step in (step for made in steps.values() for step in made):
            self.assertEqual(len(re.findall(rf"^{re.escape(step)}: .*FORCE$", text, re.MULTILINE)), 1, step)

    def test_under_another_tap(self) -> None:
        """What `access` writes for the chip's own TAP is made, tried and timed, and no TAP is."""
        usual = self.flow(self.places)
        under = dataclasses.replace(usual, is_under=True).text()
        cases = ((usual.text(), "--jtag", "tap", "register"), (under, "--under-tap", "register", "tap"))
        for text, option, turn, other in cases:
            self.assertIn(f"--in-place --apb {option} >/dev/null", text)
            self.assertIn(f"for kind in access apb {turn}; do", text)
            self.assertIn(f"../chip/camera_{turn}.v", text)
            self.assertNotIn(f"camera_{other}.v", text)

    def test_models_of_vendors(self) -> None:
        """Verilator takes an array that two blocks write where the model is a vendor's, and only there."""
        flow = self.flow(None)
        self.assertNotIn("MULTIDRIVEN", flow.text())
        file = os.path.realpath("examples/six/march.m")
        flow.vendors = {file: ["ram8x4r"]}
        self.assertIn("build = verilator --binary -Wno-MULTIDRIVEN $(MORE) --top-module", flow.text())

    def test_known(self) -> None:
        """By the pins mode and stby of kept are tied, and clkb and clkc of left have another clock in test."""
        lines = self.flow(self.places).known().splitlines()[1:]
        self.assertEqual(lines[:2], ["left:  collar.memory/clkb", "left:  collar.memory/clkc"])
        pins = ["mode", "mode[0]", "mode[1]", "stby", "stby[0]"]
        self.assertEqual(lines[2:7], [f"kept:  collar.memory/{pin}" for pin in pins])
        self.assertEqual(lines[7], "places:  front.line.collar.memory/clkb")
        self.assertEqual(lines[9:], [f"places:  back.sums.collar.memory/{pin}" for pin in pins])

    @unittest.skipIf(shutil.which("make") is None, "make runs the steps")
    def test_what_stands_there_before_stays(self) -> None:
        """No step is done, and nothing is cleaned, where a folder or a file of its name is somebody's."""
        text = self.flow(self.places).text()
        files = ("reports.html", "reports.html.sums", "reports.html.read", "late/run.log", "chip/tb", "chip/passed")
        for theirs, word in itertools.product(files, ("reports.html", "clean")):
            with self.subTest(theirs=theirs, word=word), tempfile.TemporaryDirectory() as name:
                folder = pathlib.Path(name)
                (folder / "Makefile").write_text(text)
                (folder / theirs).parent.mkdir(exist_ok=True)
                (folder / theirs).write_text("mine\n")
                done = subprocess.run(["make", word], cwd=folder, stderr=subprocess.PIPE, text=True, check=False)
                self.assertEqual(done.returncode, 2)
                self.assertIn("is there, and this makefile did not make it", done.stderr)
                self.assertEqual((folder / theirs).read_text(), "mine\n")
                self.assertEqual(sorted(os.listdir(folder)), sorted(["Makefile", theirs.split("/")[0]]))

    @unittest.skipIf(shutil.which("make") is None, "make runs the steps")
    def test_what_comes_behind_a_clean_stays(self) -> None:
        """What `clean` took away is ours no more, and neither is what somebody puts there then."""
        with tempfile.TemporaryDirectory() as name:
            folder = pathlib.Path(name)
            (folder / "Makefile").write_text(self.flow(self.places).text())
            for ours in (".vidlakost-flow/reports.html", ".vidlakost-flow/late", "late/passed", "reports.html"):
                (folder / ours).parent.mkdir(exist_ok=True)
                (folder / ours).write_text("ours\n")
            words = ["make", "-s", "clean"]
            subprocess.run(words, cwd=folder, stdout=subprocess.DEVNULL, check=True)
            self.assertEqual(os.listdir(folder), ["Makefile"])
            for theirs in ("reports.html", "late/passed"):
                (folder / theirs).parent.mkdir(exist_ok=True)
                (folder / theirs).write_text("mine\n")
                done = subprocess.run(words, cwd=folder, stderr=subprocess.PIPE, text=True, check=False)
                self.assertIn("is there, and this makefile did not make it", done.stderr)
                self.assertEqual((folder / theirs).read_text(), "mine\n")
                (folder / theirs).unlink()

    def test_folders(self) -> None:
        """A memory can't have a folder of the whole."""
        self.target.system.parts[0].memory.name = "places"
        with self.assertRaisesRegex(ToolError, "a memory named places would have the folder of the whole"):
            self.flow(None)


if __name__ == "__main__":
    unittest.main()
