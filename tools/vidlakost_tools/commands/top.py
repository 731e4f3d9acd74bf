"""A whole chip: the tests that `chip` writes, a collar round each memory, and a module that joins them.

usage: vidlakost top CHIPFILE|LIST PINS.. FOLDER [--model FILE].. [--access | --in-place [--log N]]
                     [--clock-mux CELL] [--plan]
       vidlakost top --help

CHIPFILE is a chip file of at most 16 units. Each file of PINS lists the pins of one memory's macro, in the form that
`vidlakost collar` reads; it is named after the memory, NAME.pins. A file may also list the pins of a word of two
memories, which it names in its lines low and high. These two have one march, and must be in one group of the chip file.
If they are not, top refuses the call, and names an order of the units that puts them in one, if it finds any.
For more units, at most 1,024, a LIST replaces the chip files:
    list 1                                  the version
    name IDENT                              the name of the whole
    budget N                                the most weight of the tests that run at once
    unit WEIGHT MARCH MEMORY [instances N [shared]]
                                            a memory, or N equal ones, named NAME_0 to NAME_N-1; its pins are NAME.pins
From a list, top writes chip files of at most 16 units. They run one after the other, each within the budget. top orders
the units so that the parts of a word are in one group. Equal memories that are shared have one controller, as many of
them as the budget has room for: their unit weighs as much as all of them. The controller tests the first memory, and
its commands go to all. Each other memory has a comparator and a bit of fail of its own.

top writes these files to FOLDER; NAME is the name of the chip or of the list:
    NAME.v (or NAME_0.v ..)   what the command `chip` writes
    MEMORY_collar.v           the collar of each memory, without a controller
    NAME_system.v             the module NAME_system: clk, test, done, a bit of fail for each memory, and the functional
                              pins of each collar, with the memory's name in front
    NAME_system_tb.sv         a testbench. It uses the functional pins and runs the test. With +planted it plants a
                              fault at each memory in turn, with +planted=MEMORY at that one alone. With +planted
                              +parts=N +part=K it does each Nth of these runs, from K on; with +planted +parts=N +seed=S
                              the seed chooses one part in N of them. A run that passes ends with the line
                              `NAME_system_tb: passed`
    files.f                   what a simulator has to read, in this order
    NAME_boxes.v              the ports of the macros alone, for lint and synthesis
    MACRO.v                   a model of each macro that is in no FILE of --model
--clock-mux names the cell that chooses each further clock, as for `vidlakost collar`. With --access NAME_system also
has outputs for what each test writes and reads; `vidlakost access` needs them. From a list, top also writes NAME_0.chip
and so on, and the descriptions of the instances. --plan writes nothing. It prints for each memory its bit of fail, and
its unit and chip.

With --in-place each memory stays where it is in the hierarchy, and no module joins them. top writes to FOLDER
    WORD_in_place.v          the module WORD_in_place: the ports of the macro, and also bist_in[1:0] and bist_out[2:0].
                             Inside are WORD_collar.v, its controllers NAME_bist.v, and what keeps the first failure. It
                             replaces the macro; you bring its two further ports up through the hierarchy
    WORD_in_place_tb.sv      its testbench, like that of `vidlakost collar`, with WORD_in_place.f
    NAME_access.v            the module NAME_access. It starts the memories in groups within the budget: to_I and of_I
                             go to bist_in and bist_out of memory I. `vidlakost access --in-place` writes APB and JTAG
                             for it
    files.f                  all but the testbenches
Each macro then has one bit of fail, even for a word of two memories. Each memory may have a clock of its own. With
--log each memory keeps its first N wrong reads, 1 to 64, in place of the first one.
`vidlakost places` checks the chip that has these modules, and `vidlakost flow --in-place` does all of this.
    cd FOLDER && iverilog -g2012 -o tb -c files.f && vvp -n tb && vvp -n tb +planted"""
from __future__ import annotations

import pathlib
from typing import Any, Mapping

from vidlakost_tools.access.logs import log_depth
from vidlakost_tools.chip import bench as system_bench, system as soc, text as system_text
from vidlakost_tools.chip.steps import plan
from vidlakost_tools.chip.system import System
from vidlakost_tools.collar.clock_mux import chosen_clocks, clock_mux
from vidlakost_tools.collar.model import boxes, model
from vidlakost_tools.collar.names import MARK
from vidlakost_tools.collar.pins import Macro, alike
from vidlakost_tools.collar.text import collar
from vidlakost_tools.collar.untested import Untested, beyond, told_pins, untested
from vidlakost_tools.collar.vendor import file_with, files_by_module, files_of, refuse_other_ports, undriven
from vidlakost_tools.files import is_own, refuse_twins, write_own
from vidlakost_tools.in_place import files as in_place_files
from vidlakost_tools.in_place.sequencer import of_places
from vidlakost_tools.program import ask
from vidlakost_tools.temporary import folder_of_its_own
from vidlakost_tools.text import LARGE_BYTES, read_text
from vidlakost_tools.texts.chip import read_chip
from vidlakost_tools.tool import ToolError, tell, usage_of, words_of


def look_at_ports(macro: Macro, file: str) -> None:
    """Refuses a model with other ports than the pins, and reports inputs that nothing drives."""
    refuse_other_ports(macro, file)
    for told in undriven(macro, file):
        tell(f"top: {told}")


def models(system: System, given: Mapping[str, str], folder: pathlib.Path) -> dict[str, str]:
    """A model of each macro that no file has; one macro has one model."""
    found: dict[str, tuple[str, str]] = {}
    for placed in system.collars:
        macro, theirs = placed.macro, folder / f"{placed.macro.name}.v"
        if macro.name in given:
            look_at_ports(macro, given[macro.name])
            continue
        if theirs.exists() and not is_own(theirs):
            look_at_ports(macro, str(theirs))
        text = model(macro, placed.word)
        if macro.name in found and found[macro.name][0] != text:
            told = f"{macro.path} and {found[macro.name][1]} describe the macro {macro.name} differently"
            raise ToolError(f"{told}: name its model by --model")
        found[macro.name] = text, macro.path
    kept = [name for name in found if (folder / f"{name}.v").exists() and not is_own(folder / f"{name}.v")]
    for name in kept:
        tell(f"top: {folder / name}.v exists and this tool did not write it, so it stays")
    texts = {f"{name}.v": text for name, (text, _) in found.items() if name not in kept}
    for cell in {
        placed.macro.clock_cell.cell: placed.macro.clock_cell for placed in system.collars if placed.macro.clock_cell
    }.values():
        if cell.cell not in given and (not (folder / f"{cell.cell}.v").exists() or is_own(folder / f"{cell.cell}.v")):
            texts[f"{cell.cell}.v"] = cell.model(MARK)
    return texts


def chips(system: System, path: str, folder: pathlib.Path) -> dict[str, str]:
    """What `chip` writes, untouched; and of a list the chip files and the descriptions of instances."""
    if not system.is_list:
        soc.place_chip(system, path)
        return {f"{system.name}.v": made_by_chip(path)}
    texts: dict[str, str] = {}
    with folder_of_its_own() as held:
        for number, parts in enumerate(soc.place_list(system)):
            for part in parts:
                if part.number is not None:
                    texts[f"{part.name}.mem"] = soc.description_of(part)
                    (held / f"{part.name}.mem").write_text(texts[f"{part.name}.mem"], encoding="utf-8")
            file = held / f"{number}.chip"
            file.write_text(chip_file(system, number, parts, held), encoding="utf-8")
            texts[f"{system.name_of(number)}.chip"] = chip_file(system, number, parts, folder)
            texts[f"{system.name_of(number)}.v"] = made_by_chip(str(file))
            system.chips.append(read_chip(file))
    return texts


def chip_file(system: System, number: int, parts: list[soc.Part], folder: pathlib.Path) -> str:
    """A chip file of a list, with the descriptions of instances in a folder."""
    lines = ["# made by vidlakost top", "chip 1", f"name {system.name_of(number)}", f"budget {system.budget}"]
    lines += [f"unit {part.unit.weight} {soc.plain_path(part.unit.march)} {file_of(part, folder)}" for part in parts]
    return "\n".join([*lines, ""])


def file_of(part: soc.Part, folder: pathlib.Path) -> str:
    return soc.plain_path(part.unit.memory_file if part.number is None else str(folder / f"{part.name}.mem"))


def made_by_chip(path: str) -> str:
    """The text that `chip` writes."""
    with folder_of_its_own() as folder:
        file = folder / "chip.v"
        ask("chip", path, file)
        return read_text(file, LARGE_BYTES)


def texts_of(system: System, path: str, folder: pathlib.Path, vendors: dict[str, list[str]]) -> dict[str, str]:
    """All files by their names."""
    made, given = chips(system, path, folder), files_by_module(vendors)
    system_text.refuse_modules(system, list(given))
    words = {placed.word.name: placed for placed in system.collars}
    collars = {f"{name}_collar.v": collar(placed.macro, placed.word, "open") for name, placed in words.items()}
    modules = models(system, given, folder)
    whole = {f"{system.name}_system_tb.sv": system_bench.bench(system)}
    whole[f"{system.name}_system.v"] = system_text.Text(system).text()
    whole[f"{system.name}_boxes.v"] = boxes([placed.macro for placed in system.collars])
    macros = list(
        dict.fromkeys(f"{placed.macro.name}.v" for placed in system.collars if placed.macro.name not in given)
    )
    cells = {f"{placed.macro.clock_cell.cell}.v" for placed in system.collars if placed.macro.clock_cell}
    macros += sorted(name for name in cells if name[:-2] not in given)
    own = [name for name in macros if name in modules or (folder / name).exists()]
    listed = [
        *(name for name in whole if not name.endswith("_boxes.v")),
        *collars,
        *(name for name in made if name.endswith(".v")),
        *own,
        *vendors,
    ]
    return {**whole, **collars, **made, **modules, "files.f": "\n".join([f"{MARK} top", *listed, ""])}


def texts_in_place(system: System, folder: pathlib.Path, vendors: dict[str, list[str]]) -> dict[str, str]:
    """All files of memories that stay in their places."""
    given = files_by_module(vendors)
    in_place_files.refuse_modules(system, list(given))
    modules = models(system, given, folder)
    return in_place_files.texts_of(of_places(system), modules, vendors)


def give_clocks(system: System, options: dict[str, Any]) -> None:
    """Gives the collars the cell that chooses their clocks, or says that none is named."""
    choices = {
        placed.word.name: chosen_clocks(placed.macro) for placed in system.collars if chosen_clocks(placed.macro)
    }
    if "--clock-mux" in options:
        for placed in [placed for placed in system.collars if placed.word.name in choices]:
            placed.macro.clock_cell = clock_mux(options["--clock-mux"])
    elif choices:
        names = ", ".join(f"{name}.{pin}" for name, pins in choices.items() for pin in pins)
        tell(f"top: `? :` chooses the clock of {names}: name a cell by --clock-mux")


def tell_untested(system: System, texts: dict[str, str], vendors: dict[str, list[str]]) -> None:
    """Says what of the macros is not tested. A model that is not among the texts is somebody else's."""
    words = {placed.word.name: placed for placed in system.collars}
    left = [
        Untested(f"{name}.{one.pin}", one.why)
        for name, placed in words.items()
        for one in (
            *untested(placed.macro, placed.word, f"{placed.macro.name}.v" not in texts),
            *beyond(placed.macro, placed.word, file_with(placed.macro.name, vendors)),
        )
    ]
    if left:
        tell(f"top: not tested: {told_pins(left)}")
    same = [name for name, placed in words.items() if alike(placed.word)]
    if same:
        told = "two bits of a word hold the same in every background"
        tell(f"top: of {', '.join(same)}: {told}, so the test does not see if one depends on the other")


def main(arguments: list[str]) -> int:
    words, options = words_of(
        __doc__,
        arguments,
        {"--model": [], "--access": 0, "--in-place": 0, "--log": 1, "--clock-mux": 1, "--plan": 0},
        2,
    )
    if {"--access", "--in-place"} <= set(options):
        why = "--access needs the module that joins the memories, and --in-place writes none"
        raise ToolError(f"{why}\n{usage_of(__doc__)}")
    if "--log" in options and "--in-place" not in options:
        why = "--log is for memories in their places: those of a joined chip have theirs by `vidlakost access --log`"
        raise ToolError(f"{why}\n{usage_of(__doc__)}")
    path, *files = words
    system = soc.read_system(path)
    system.has_access = "--access" in options
    folder = pathlib.Path(files.pop())
    soc.give_collars(system, files)
    give_clocks(system, options)
    system.keep(log_depth(options))
    vendors = files_of(options.get("--model", []))
    is_placed = "--in-place" in options
    texts = texts_in_place(system, folder, vendors) if is_placed else texts_of(system, path, folder, vendors)
    if "--plan" in options:
        print("\n".join(in_place_files.plan(of_places(system)) if is_placed else plan(system)))
        return 0
    inputs = [path, *files, *vendors]
    inputs += [name for part in system.parts for name in (part.unit.march, part.unit.memory_file)]
    refuse_twins(texts)
    write_own(folder, texts, inputs)
    tell_untested(system, texts, vendors)
    return 0
