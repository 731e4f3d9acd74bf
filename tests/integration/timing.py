"""What `python3 -m tests.integration` does with makefiles and timing: a chip of six memories, and a camera whose
memories stay in their places, go through `make` with libraries of cells and of macros, and what is wrong is told."""
from __future__ import annotations

import pathlib
import shutil

from tests.integration.access import library
from tests.integration.bench import Bench
from tests.integration.macro_library import library_of, with_resets
from vidlakost_tools.chip import system as soc

SIX = [f"examples/six/{name}.pins" for name in ("bytes", "dual", "late", "wide", "rest", "gray")]
CAMERA = [f"examples/joins/{name}.pins" for name in ("late", "left", "low", "masked", "kept")]
# what is cut from constraints, the folder of the step that then fails, and what it tells
CUT = [
    ("late_in_place_test.sdc", "set_output_delay 4 -clock clk [get_ports {bist_out[*]}]\n", "", "late", "bist_out"),
    ("kept_in_place_test.sdc", "scan_mode", "scan_node", "kept", "port 'scan_node' not found"),
    ("camera_test.sdc", "of_4[*] ", "", "chip", "of_4"),
    ("camera_chip_test.sdc", "create_clock -name bus_clk -period 8 [get_ports {bus_clk}]\n", "", "places", "bus_clk"),
]
LIST, PLACES = "examples/in_place/camera.list", "examples/in_place/camera.places"


def is_there(*tools: str) -> bool:
    """Whether all of these are installed."""
    missing = [tool for tool in tools if not shutil.which(tool)]
    if missing:
        print(f"{' and '.join(missing)} is not installed, so a makefile is not run")
    return not missing


def libraries(bench: Bench, name: str, path: str, pins: list[str]) -> list[str]:
    """Writes the libraries; the words of `make` that name them."""
    # the descriptions that it names go from the root
    system = soc.read_system(str(bench.folder / path))
    soc.give_collars(system, [str(bench.folder / file) for file in pins])
    made = {"cells.lib": with_resets(library()), f"{name}.lib": library_of([one.macro for one in system.collars])}
    for file, text in made.items():
        (bench.folder / file).write_text(text)
    return ["LIBERTY=../cells.lib", f"MACRO_LIBERTY=../{name}.lib"]


def make_of(bench: Bench, folder: str, libraries_told: list[str]) -> list[str]:
    """The words of `make` in a folder."""
    return ["make", "-s", "-j4", f"LAUNCHER={bench.folder}/vidlakost", "SIM=iverilog", "-C", folder, *libraries_told]


def ends(bench: Bench, make: list[str], status: int, *told: str) -> None:
    """A run of `make` ends with a status and tells each of these."""
    done = bench.run(make)
    is_right = done.returncode == status and all(one in done.stdout + done.stderr for one in told)
    bench.is_so(is_right, f"{' '.join(make[-3:])}: {told} is wanted: {done.stdout}{done.stderr}")


def replaced(path: pathlib.Path, old: str, new: str) -> str:
    """Changes a text at each place, and answers what it was."""
    text = path.read_text()
    assert old in text, f"{old!r} does not stand in {path}"
    path.write_text(text.replace(old, new))
    return text


def six_timed(bench: Bench) -> None:
    """OpenSTA reads the six memories to the end. It tells of what has no time: an output without a delay, a port that
    is not there, and a pin of a macro that is in no list."""
    if not is_there("make", "iverilog", "yosys", "sta"):
        return
    bench.run(["tools/flow", "examples/six/six.chip", "six_flow"])
    make = [*make_of(bench, "six_flow", libraries(bench, "six", "examples/six/six.chip", SIX)), "sta"]
    ends(bench, make, 0, "six_tap_tb: passed")
    said = (bench.folder / "six_flow" / "chip" / "sta.txt").read_text()
    known = "Warning: There is 1 register/latch pin with multiple clocks.\n  self_test.dual.memory/clkb\nStartpoint"
    bench.is_so(said.startswith(known), f"OpenSTA of the six memories: {said}")
    constraints = bench.folder / "six_flow" / "chip" / "six_test.sdc"
    right = replaced(constraints, "set_output_delay 4 -clock clk [get_ports test]\n", "")
    ends(bench, make, 2, "  test\n")
    constraints.write_text(right.replace("[get_ports test]", "[get_ports tets]"))
    ends(bench, make, 2, "port 'tets' not found")
    constraints.write_text(right)
    ends(bench, make, 0)
    replaced(bench.folder / "six_flow" / "sta.known", "/clkb", "/clk")
    ends(bench, make, 2, "  self_test.dual.memory/clkb")


def camera_flow(bench: Bench) -> None:
    """The makefile of memories in their places ends well, with the chip in which they stand."""
    if not is_there("make", "iverilog", "yosys", "sta"):
        return
    bench.run(["tools/flow", LIST, "camera_flow", "--in-place", "--places", PLACES])
    make = make_of(bench, "camera_flow", libraries(bench, "camera", LIST, CAMERA))
    told = [f"{word}: the first failure is read\n" for word in ("late", "left", "low", "masked", "kept")]
    told += ["camera: in use each memory, each flip-flop and each output has what it had\n"]
    told += ["camera: a wrong bit at late_1 is found, first in cycle 11\n", "camera: passes once more\n"]
    ends(bench, make, 0, *told, "camera_tap_tb: passed\n", "camera: every step is done\n")
    done = bench.run(make)
    bench.is_so(done.stdout == "camera: every step is done\n", f"a second run of make does something: {done.stdout}")
    for linted in (bench.folder / "camera_flow").glob("*/lint.txt"):
        bench.is_so(not linted.read_text() or not shutil.which("verilator"), f"{linted} is not empty")
    for file, old, new, step, why in CUT:
        right = replaced(bench.folder / "camera_flow" / "chip" / file, old, new)
        ends(bench, [*make, f"{step}/sta.txt"], 2, why)
        (bench.folder / "camera_flow" / "chip" / file).write_text(right)
    in_use(bench)
    if bench.is_long and shutil.which("verilator"):
        ends(bench, [*make, "SIM=verilator", "places/passed"], 0, "camera: passes once more\n")
    damaged(bench)


# the chip as cells in its hierarchy, which the constraints of its use name
CELLS = """read_verilog -lib chip/camera_boxes.v; read_verilog ../examples/in_place/camera.v {};
synth -top camera; dfflibmap -liberty ../cells.lib; abc -liberty ../cells.lib; clean;
read_liberty -lib -ignore_miss_func ../cells.lib; splitnets -ports; clean; write_verilog -noattr camera.v"""
# a netlist with the constraints of its use
USE = """read_liberty ../cells.lib
read_liberty ../camera.lib
read_verilog {}
link_design {}
read_sdc chip/{}
puts "the constraints are read"
"""


def in_use(bench: Bench) -> None:
    """OpenSTA finds each port, net and clock that the constraints of normal use name, and says what is not there."""
    folder = bench.folder / "camera_flow"
    words = ("late", "left", "low", "masked", "kept")
    cases = [(f"{word}/{word}_in_place_timed.v", f"{word}_in_place", f"{word}_in_place_normal.sdc") for word in words]
    cases.append(("chip/camera_access_timed.v", "camera_access", "camera_normal.sdc"))
    cases.append(("camera.v", "camera", "camera_chip_normal.sdc"))
    names = [f"{word}_{what}" for word in words for what in ("in_place", "collar", "bist")]
    names += ["high_bist", "camera_access", "camera_cross", "camera_tap"]
    (folder / "cells.ys").write_text(CELLS.format(" ".join(f"chip/{name}.v" for name in names)))
    done = bench.run(["bash", "-c", "cd camera_flow && yosys -q -s cells.ys"])
    bench.is_so(not done.returncode, f"yosys: {done.stdout}{done.stderr}")
    call = ["bash", "-c", "cd camera_flow && sta -no_splash -exit use.tcl 2>&1"]
    for case in cases:
        (folder / "use.tcl").write_text(USE.format(*case))
        done = bench.run(call)
        bench.is_so(done.stdout == "the constraints are read\n", f"{case}: {done.stdout}")
    right = replaced(folder / "chip" / "camera_chip_normal.sdc", "back/words/test", "back/word/test")
    told = bench.run(call).stdout
    bench.is_so("back/word/test' not found" in told, f"a net that is not there: {told}")
    (folder / "chip" / "camera_chip_normal.sdc").write_text(right)


def damaged(bench: Bench) -> None:
    """A chip that is connected in another way, and a macro that answers wrongly, fail in their steps."""
    chip = (bench.folder / "examples" / "in_place" / "camera.v").read_text()
    (bench.folder / "wrong_camera.v").write_text(chip.replace(".clkb(dot_clk)", ".clkb(bus_clk)"))
    places = (bench.folder / PLACES).read_text().replace("source examples/in_place/camera.v", "source wrong_camera.v")
    (bench.folder / "wrong.places").write_text(places)
    done = bench.run(["tools/flow", LIST, "wrong_flow", "--in-place", "--places", "wrong.places"])
    bench.is_so(not done.returncode, f"flow: {done.stderr}")
    make = make_of(bench, "wrong_flow", [])
    ends(bench, [*make, "places"], 2, "camera: in use clkb of left is not what it was\n")
    (bench.folder / "wrong.places").write_text(places + "# another text\n")
    ends(bench, [*make, "lint"], 2, "wrong.places is another than the one that this makefile is of")
    model = (bench.folder / "camera_flow" / "chip" / "ram6x5.v").read_text()
    (bench.folder / "stuck.v").write_text(model.replace("assign q = ", "assign q = 5'h1e & "))
    done = bench.run(["tools/flow", LIST, "stuck_flow", "--in-place", "--model", "stuck.v"])
    bench.is_so(not done.returncode, f"flow: {done.stderr}")
    ends(bench, [*make_of(bench, "stuck_flow", []), "late/passed"], 2, "late_in_place_tb: not passed")


PARTS = (six_timed, camera_flow)
