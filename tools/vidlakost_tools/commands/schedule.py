"""When the memories of a chip file are tested, and the weight of those that are enabled.

usage: vidlakost schedule CHIPFILE                 the group, the start and the end of each unit
       vidlakost schedule CHIPFILE --svg PICTURE   also a picture: time to the right, weights upward to the budget
       vidlakost schedule LIST|CHIPFILE PINS..     also the steps of the whole that `vidlakost top` joins
       vidlakost schedule --help

A unit begins in the cycle of its group's start, which is the cycle of its reset, and is done in its last cycle. The
cycles count from the chip's own reset. Units of one group run side by side. Each group begins in the last cycle but
one of the group before it."""
from __future__ import annotations

from typing import Iterator

from vidlakost_tools.access.target import is_chip_file
from vidlakost_tools.chip import steps as system_steps, system as soc
from vidlakost_tools.folder import write_whole
from vidlakost_tools.pages import chip_picture
from vidlakost_tools.texts.chip import Chip, read_chip
from vidlakost_tools.tool import ToolError, refuse_inputs, words_of


def lines(chip: Chip) -> Iterator[str]:
    """A table of the units."""
    widest = max(len(unit.memory.name) for unit in chip.units)
    yield f"unit  {'memory':{max(widest, 6)}}  weight  group   start    done"
    for count, unit in enumerate(chip.units):
        name = f"{unit.memory.name:{max(widest, 6)}}"
        yield f"{count:4}  {name}  {unit.weight:6}  {unit.group:5}  {unit.start:6}  {unit.done:6}"
    yield f"groups {chip.groups} done {chip.done}"


def main(arguments: list[str]) -> int:
    (chip_file, *pins), options = words_of(__doc__, arguments, {"--svg": 1}, 1, None)
    if pins or not is_chip_file(chip_file):
        if "--svg" in options:
            raise ToolError("--svg draws a chip file without pins")
        system = soc.read_system(chip_file)
        soc.give_collars(system, pins)
        soc.planned(system, chip_file)
        print("\n".join([*system_steps.plan(system), *system_steps.in_time(system)]))
        return 0
    chip = read_chip(chip_file)
    inputs = [("the chip file itself", chip_file)]
    inputs += [("a file of the chip file", file) for unit in chip.units for file in (unit.march, unit.memory_file)]
    refuse_inputs(options.get("--svg"), inputs)
    print("\n".join(lines(chip)))
    if "--svg" in options:
        write_whole(options["--svg"], chip_picture.picture(chip))
    return 0
