"""A makefile for a whole chip: controllers, collars, the top, testbenches, lint, synthesis and reports.

usage: vidlakost flow CHIPFILE|LIST [PINS..] FOLDER [--list FAULTS] [--model FILE]..
                      [--in-place [--places FILE] [--log N] [--under-tap]]
                      [--clock-mux CELL:SELECT:CHIP:TEST:OUT]
       vidlakost flow --help

The words are those of `vidlakost top`, and so are --clock-mux and --in-place. If you name no PINS, flow takes the files
NAME.pins in the folder of each memory's description, or those there that list the pins of a word of two memories. flow
writes to FOLDER
    Makefile       the steps; file names in it start from the folder in which you call flow
    faults.list    the primitives of the reports, all and DRF, if --list names no list
    sta.known      the pins of macros that OpenSTA may warn of
`make -j -C FOLDER` makes for each memory MEMORY.report, and in a folder of its own the controller, the collar and its
testbench. The testbench passes, and finds what it plants. Yosys makes gates of the collar, and they run in the same
testbench. FOLDER/chip gets what `top` writes, its testbench, the messages of Verilator's lint (none), Yosys' netlist
and count of cells, and what `access` writes with its testbenches. `make` also writes reports.html and a page for the
tester. Lint and synthesis read only the ports of a macro, so its model need not please them.

With --in-place `make` makes for each memory, in the folder WORD, the testbench of the module WORD_in_place, its gates
in that testbench, its lint, its count of cells and its timing. FOLDER/chip gets the same for the sequencer, and what
`access` writes with its testbenches, without a wrong bit and with one. FILE of --places is a text that
`vidlakost places` reads. With it FOLDER/places gets the testbench of the chip, without wrong bits and with them, and
its timing, and Yosys proves its use; `make places` is that step. There is no page for a tester. With --log each memory
keeps N wrong reads. With --under-tap the chip has a TAP already: `access` writes the register under it in place of a
TAP, and FILE has the line `under`.

Words for `make`; name a file in them from FOLDER on:
    SIM=verilator    uses Verilator in place of Icarus
    MORE=..          further options of the simulator; LINT_MORE=.. those of lint, SYNTH_MORE=.. those with which Yosys
                     reads
    LIBERTY=FILE     the library to whose cells Yosys maps. From their functions it makes the models for the runs of
                     gates
    MACRO_LIBERTY=.. the libraries of the macros. OpenSTA reads both with the constraints of `vidlakost sdc`, at MHZ=N
                     (100)
    PARTS=N          divides the planted runs of the whole into N parts that run at once
The status of `make` is that of all steps. A testbench passes if its last line says so. A step runs again unless all its
files are as they were when it was done: those that it reads or writes, and those that a simulator was seen to read.
If a model opens files while it runs, as by $readmemh, its step runs each time. If the chip file or FILE changed since,
`make` runs no step, because the makefile belongs to the old one. Names have letters, digits and _./+@- alone."""
from __future__ import annotations

import pathlib
from typing import Any

from vidlakost_tools.access.logs import log_depth
from vidlakost_tools.chip import system as soc, text as system_text
from vidlakost_tools.chip.flow import MARK, Flow
from vidlakost_tools.chip.system import System
from vidlakost_tools.collar.clock_mux import clock_mux
from vidlakost_tools.collar.vendor import files_of, refuse_other_ports
from vidlakost_tools.files import write_own
from vidlakost_tools.in_place import files as in_place_files
from vidlakost_tools.in_place.flow import PlaceFlow
from vidlakost_tools.in_place.place_list import Places, inputs_of, read_places
from vidlakost_tools.tool import ToolError, usage_of, words_of

# the options of memories in their places
PLACED = ("--places", "--log", "--under-tap")


def pins_beside(system: System) -> list[str]:
    """The files of pins in the folders of the descriptions."""
    names = {part.memory.name: pathlib.Path(part.unit.memory_file).parent for part in system.parts}
    found: dict[str, pathlib.Path] = {}
    for folder in dict.fromkeys(names.values()):
        for path in sorted(folder.glob("*.pins")):
            halves = soc.halves_in(str(path))
            if len(halves) == 2 and all(half in names and half not in found for half in halves):
                found.update({half: path for half in halves})
    alone = {name: folder / f"{name}.pins" for name, folder in names.items() if name not in found}
    found.update({name: path for name, path in alone.items() if path.is_file()})
    missing = [name for name in names if name not in found]
    if missing:
        told = f"the folder of the description of {missing[0]} has no file {missing[0]}.pins"
        raise ToolError(f"{told}: name the files of pins")
    return list(dict.fromkeys(map(str, found.values())))


def vendors_of(system: System, options: dict[str, Any], is_placed: bool) -> dict[str, list[str]]:
    """The files of --model and their modules; refuses those that don't fit."""
    vendors = files_of(options.get("--model", []))
    modules = [name for names in vendors.values() for name in names]
    refuse = in_place_files.refuse_modules if is_placed else system_text.refuse_modules
    refuse(system, modules)
    for file, names in vendors.items():
        for macro in (placed.macro for placed in system.collars if placed.macro.name in names):
            refuse_other_ports(macro, file)
    return vendors


def refuse_other_tap(places: Places | None, is_under: bool) -> None:
    """The chip of a text has the TAP that `access` writes, or one of its own."""
    if places and places.has_tap and is_under != bool(places.under[0]):
        none = "has no line under, so there is no TAP for --under-tap"
        raise ToolError(f"{places.path} {none if is_under else 'has the line under: say --under-tap'}")


def main(arguments: list[str]) -> int:
    allowed: dict[str, int | list[str]] = {"--list": 1, "--model": [], "--clock-mux": 1, "--in-place": 0}
    allowed.update({"--places": 1, "--log": 1, "--under-tap": 0})
    (path, *pins, folder), options = words_of(__doc__, arguments, allowed, 2)
    is_placed = "--in-place" in options
    alone = next((name for name in PLACED if name in options and not is_placed), None)
    if alone:
        raise ToolError(f"{alone} needs --in-place\n{usage_of(__doc__)}")
    system = soc.read_system(path)
    pins = pins or pins_beside(system)
    soc.give_collars(system, pins)
    system.keep(log_depth(options))
    if not is_placed:
        soc.planned(system, path)
    vendors = vendors_of(system, options, is_placed)
    if not is_placed:
        system_text.refuse_names(system)
    if "--clock-mux" in options:
        clock_mux(options["--clock-mux"])
    out = pathlib.Path(folder)
    told = (system, path, pins, options.get("--list", str(out / "faults.list")), out, vendors)
    mux = options.get("--clock-mux", "")
    places = read_places(options["--places"], system) if "--places" in options else None
    refuse_other_tap(places, "--under-tap" in options)
    flow = PlaceFlow(*told, mux, places, "--under-tap" in options) if is_placed else Flow(*told, mux)
    texts = {"Makefile": flow.text(), "sta.known": flow.known()}
    if "--list" not in options:
        texts["faults.list"] = f"{MARK}\nall\nDRF\n"
    inputs = [path, *pins, *vendors, *([options["--list"]] if "--list" in options else [])]
    inputs += [name for part in system.parts for name in (part.unit.march, part.unit.memory_file)]
    inputs += [places.path, *inputs_of(places)] if places else []
    write_own(out, texts, inputs)
    return 0
