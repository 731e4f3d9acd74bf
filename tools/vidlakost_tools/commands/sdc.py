"""Timing constraints of what `vidlakost access` writes, for synthesis and timing analysis.

usage: vidlakost sdc MEMORY|CHIPFILE FOLDER --mhz F [--normal-mhz F] [--apb | --jtag] [--bus-mhz F] [--share S]
                     [--falling]
       vidlakost sdc LIST|CHIPFILE PINS.. FOLDER .. with the same options
       vidlakost sdc LIST|CHIPFILE PINS.. FOLDER --in-place [--clock MEMORY=F].. [--places FILE] [--under-tap] ..
                     but for --falling
       vidlakost sdc --help

sdc writes to FOLDER two files for the module NAME_access, or NAME_apb, or NAME_tap:
    NAME_test.sdc            under test: the clocks, the ports, and that `start` goes through two registers
    NAME_normal.sdc          in normal use: the same at that clock. `test` is 0 by case analysis, so what it holds
                             still is not timed
--mhz is the clock of the test. --normal-mhz is the clock of normal use; without it, that of the test. --bus-mhz is the
clock of the bus; without it, 20. The other side of a port takes the share S of a period; without --share, 0.4. With
--falling the memories answer at the falling edge, and half a period is left for their words. With PINS the files are
for the whole chip that `vidlakost top` joins. Its pins belong to the clock of their port, and each further clock of the
chip is a clock of its own. The clock of a bus is asynchronous to that of the memories.

With --in-place the files are for the memories that `vidlakost top --in-place` left in their places. NAME_test.sdc and
NAME_normal.sdc are for the sequencer NAME_access, or for the module of its bus; with --under-tap for NAME_register,
which is under the chip's own TAP. Each memory has two more files:
    WORD_in_place_test.sdc, WORD_in_place_normal.sdc
                             for the module WORD_in_place: each of its clocks, and its pins by the clock of their port
--clock gives a memory another clock than the sequencer's. With --places FILE, a text that `vidlakost places` reads, sdc
writes two files for the chip itself:
    NAME_chip_test.sdc, NAME_chip_normal.sdc
                             with the periods of that text. What goes from one clock to another has at most a period of
                             the clock that takes it. Each port of the chip is timed by each clock, because no file says
                             which clock uses it"""
from __future__ import annotations

import pathlib
import re
from typing import Any

from vidlakost_tools.access.constraints import Timing, constraints
from vidlakost_tools.access.target import Target, is_chip_file, is_list
from vidlakost_tools.chip import access as system_access, system as soc
from vidlakost_tools.files import marked, write_own
from vidlakost_tools.in_place import constraints as in_place
from vidlakost_tools.in_place.files import depth_in
from vidlakost_tools.in_place.place_list import inputs_of, read_places
from vidlakost_tools.in_place.sequencer import of_places
from vidlakost_tools.text import shown
from vidlakost_tools.texts.chip import read_chip
from vidlakost_tools.texts.memory import read_memory
from vidlakost_tools.tool import ToolError, usage_of, words_of

# the options of memories in their places
PLACED = ("--clock", "--places", "--under-tap")
# the module that each option asks for
KINDS = {"--apb": "apb", "--jtag": "tap", "--under-tap": "register"}


def number(name: str, text: str) -> float:
    """A number above 0."""
    if not re.fullmatch(r"[0-9]{1,6}(\.[0-9]{1,6})?", text) or not float(text):
        raise ToolError(f"{name} is a number above 0, and not {shown(text)}")
    return float(text)


def positive(options: dict[str, Any], name: str, usual: float) -> float:
    """A number above 0 after an option."""
    return number(name, options[name]) if name in options else usual


def target_of(path: str, pins: list[str]) -> Target:
    if pins or is_list(path):
        if not pins:
            raise ToolError(f"a list needs the files of pins, as for `vidlakost top`\n{usage_of(__doc__)}")
        system = soc.read_system(path)
        soc.give_collars(system, pins)
        soc.planned(system, path)
        return system_access.of_system(system)
    if is_chip_file(path):
        return Target.of_chip(read_chip(path))
    return Target.of_memory(read_memory(path), None)


def clocks_of(options: dict[str, Any], names: list[str]) -> dict[str, float]:
    """The clocks of memories in megahertz, as --clock gives them."""
    found: dict[str, float] = {}
    for text in options.get("--clock", []):
        name, _, mhz = text.partition("=")
        if name not in names:
            raise ToolError(f"--clock is MEMORY=F, and not {shown(text)}; the memories are {', '.join(names)}")
        if name in found:
            raise ToolError(f"--clock sets the clock of {name} twice")
        found[name] = number(f"the clock of {name}", mhz)
    return found


def texts_in_place(
    path: str, pins: list[str], folder: str, kind: str, timing: Timing, options: dict[str, Any]
) -> tuple[dict[str, str], list[str]]:
    """The files of memories in their places, and what was read for them."""
    if not pins:
        raise ToolError(f"--in-place needs the files of pins\n{usage_of(__doc__)}")
    if timing.is_falling:
        raise ToolError("--falling is for ports to the memories, and with --in-place these are inside the modules")
    system = soc.read_system(path)
    soc.give_collars(system, pins)
    system.keep(depth_in(pathlib.Path(folder), system))
    target = of_places(system)
    places = read_places(options["--places"], system) if "--places" in options else None
    clocks = clocks_of(options, list(dict.fromkeys(placed.word.name for placed in system.collars)))
    read = [options["--places"], *inputs_of(places)] if places else []
    return in_place.texts(target, places, kind, timing, clocks), read


def main(arguments: list[str]) -> int:
    allowed: dict[str, int | list[str]] = dict.fromkeys(
        ("--mhz", "--normal-mhz", "--bus-mhz", "--share", "--places"), 1
    )
    allowed.update({"--apb": 0, "--jtag": 0, "--under-tap": 0, "--falling": 0, "--in-place": 0, "--clock": []})
    (path, *pins, folder), options = words_of(__doc__, arguments, allowed, 2, None)
    kinds = [kind for option, kind in KINDS.items() if option in options]
    if "--mhz" not in options or len(kinds) > 1:
        raise ToolError(f"give --mhz, and at most one of --apb, --jtag and --under-tap\n{usage_of(__doc__)}")
    alone = next((name for name in PLACED if name in options and "--in-place" not in options), None)
    if alone:
        raise ToolError(f"{alone} needs --in-place\n{usage_of(__doc__)}")
    test, share = positive(options, "--mhz", 0), positive(options, "--share", 0.4)
    if share >= 1:
        raise ToolError(f"--share is below 1, and not {share:g}")
    normal, bus = positive(options, "--normal-mhz", test), positive(options, "--bus-mhz", 20)
    timing = Timing(test, normal, bus, share, "--falling" in options)
    kind = kinds[0] if kinds else "access"
    if "--in-place" in options:
        texts, read = texts_in_place(path, pins, folder, kind, timing, options)
    else:
        target, read = target_of(path, pins), []
        cases = (("test", True), ("normal", False))
        texts = {f"{target.name}_{name}.sdc": constraints(target, kind, timing, in_test) for name, in_test in cases}
    write_own(pathlib.Path(folder), marked("sdc", texts), [path, *pins, *read])
    return 0
