"""The files of memories that stay where they are in a chip: of each its module, collar, controller and testbench,
and the sequencer that starts them."""
from __future__ import annotations

import collections
import pathlib
import re
from vidlakost_tools.chip.system import Part, Placed, System
from vidlakost_tools.collar.model import boxes
from vidlakost_tools.collar.names import MARK
from vidlakost_tools.collar.text import collar
from vidlakost_tools.collar.vendor import files_beside, files_by_module
from vidlakost_tools.files import marked
from vidlakost_tools.in_place.bench import PlaceBench
from vidlakost_tools.in_place.due import Due
from vidlakost_tools.in_place.sequencer import PlaceTarget, Sequencer, length
from vidlakost_tools.in_place.text import KEEPS, InPlace, kind_of
from vidlakost_tools.program import ask
from vidlakost_tools.temporary import folder_of_its_own
from vidlakost_tools.text import LARGE_BYTES, read_text
from vidlakost_tools.tool import ToolError


def words_in(system: System) -> list[Placed]:
    """One collar of each word, however many places it has."""
    found: dict[str, Placed] = {}
    for placed in system.collars:
        found.setdefault(placed.word.name, placed)
    return list(found.values())


def refuse_modules(system: System, given: list[str]) -> None:
    """No two modules have one name; `given` are those of the vendor's files."""
    macros = {placed.macro.name for placed in system.collars}
    made = [f"{system.name}_{what}" for what in ("access", "cross", "apb", "tap", "register", "places_tb")]
    made += [f"{part.memory.name}_bist" for part in bases(system)]
    whats = ("in_place", "in_place_tb", "collar", "lanes")
    made += [f"{placed.word.name}_{what}" for placed in words_in(system) for what in whats]
    counts = collections.Counter(name.lower() for name in [*made, *macros, *(set(given) - macros)])
    twice = next((name for name in [*made, *macros] if counts[name.lower()] > 1), None)
    if twice:
        raise ToolError(f"two modules would have the name {twice} if case is ignored: rename one")


def depth_in(folder: pathlib.Path, system: System) -> int | None:
    """How many wrong reads the modules of a folder keep, if that is more than the first failure."""
    module = folder / f"{system.collars[0].word.name}_in_place.v"
    if not module.is_file():
        return None
    begin, _, end = KEEPS.partition("{depth}")
    told = re.search(rf"^{re.escape(begin)}(\d+){re.escape(end)}$", read_text(str(module), LARGE_BYTES), re.MULTILINE)
    return int(told[1]) if told else None


def bases(system: System) -> list[Part]:
    """One part of each description."""
    found: dict[str, Part] = {}
    for part in system.parts:
        found.setdefault(part.memory.name, part)
    return list(found.values())


def controllers(system: System) -> dict[str, str]:
    """What `compile` writes of each memory; what its march covers is a matter of its report."""
    made = {}
    with folder_of_its_own() as folder:
        (folder / "none.list").write_text("", encoding="utf-8")
        for part in bases(system):
            module = folder / "module.v"
            ask("compile", part.unit.march, part.unit.memory_file, folder / "none.list", module, folder / "report")
            made[f"{part.memory.name}_bist.v"] = read_text(module, LARGE_BYTES)
    return made


def models_beside(system: System, placed: Placed, vendors: dict[str, list[str]]) -> list[str]:
    """What a simulator reads of the macro of a collar, and of its cell of clocks."""
    names = [placed.macro.name, *([placed.macro.clock_cell.cell] if placed.macro.clock_cell else [])]
    theirs = files_beside(placed.macro.name, vendors, {other.macro.name for other in system.collars})
    given = files_by_module(vendors)
    return list(dict.fromkeys([*theirs, *(given.get(name, f"{name}.v") for name in names)]))


def texts_of(target: PlaceTarget, models: dict[str, str], vendors: dict[str, list[str]]) -> dict[str, str]:
    """All files by their names; `models` are those that are written, `vendors` the vendor's files with their
    modules."""
    system, made = target.system, controllers(target.system)
    every: list[str] = [f"{target.name}_access.v"]
    for placed in words_in(system):
        name = placed.word.name
        own = [f"{name}_in_place.v", f"{name}_collar.v", *(f"{memory.name}_bist.v" for memory in placed.word.memories)]
        made[own[0]] = InPlace(placed.macro, placed.word).text()
        made[own[1]] = collar(placed.macro, placed.word, kind_of(placed.word))
        made[f"{name}_in_place_tb.sv"] = PlaceBench(placed.macro, placed.word, Due(placed)).text()
        beside = models_beside(system, placed, vendors)
        made[f"{name}_in_place.f"] = "\n".join([f"{MARK} top", f"{name}_in_place_tb.sv", *own, *beside, ""])
        every += [*own, *beside]
    made.update(marked("top", {f"{target.name}_access.v": Sequencer(target).text()}))
    made[f"{target.name}_boxes.v"] = boxes([placed.macro for placed in system.collars])
    listed = "\n".join([f"{MARK} top", *dict.fromkeys(every), ""])
    return {**made, **models, "files.f": listed}


def plan(target: PlaceTarget) -> list[str]:
    """Which memory is which bit of fail, in which group it is tested, and how many cycles of its clock that takes at
    most."""
    widest = max(6, *(len(unit.memory.name) for unit in target.units))
    lines = [f"bit  {'memory':{widest}}  group  weight  cycles"]
    for number, (unit, placed) in enumerate(zip(target.units, target.system.collars)):
        weight = sum(part.unit.weight for part in placed.parts)
        numbers = f"{target.group_of(number):5}  {weight:6}  {length(placed):6}"
        lines.append(f"{number:3}  {unit.memory.name:{widest}}  {numbers}")
    return lines
