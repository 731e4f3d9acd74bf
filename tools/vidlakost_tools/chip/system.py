"""The memories of a whole chip: those of a chip file, or of a list that replaces chip files, whose lines may mean many
equal memories; the chip files that test them, and their collars."""
from __future__ import annotations

import collections
import dataclasses
import pathlib
import random
import re
from typing import Iterable

from vidlakost_tools.access.target import is_chip_file
from vidlakost_tools.chip.sharing import follow, share
from vidlakost_tools.collar.pin_lines import is_name, read_macro
from vidlakost_tools.verilog.reserved_words import RESERVED
from vidlakost_tools.collar.pins import Macro, Word
from vidlakost_tools.text import lines_of, read_described, shown, statements, words_in
from vidlakost_tools.texts.chip import Chip, Unit, place, read_chip
from vidlakost_tools.texts.march import march_of
from vidlakost_tools.texts.memory import Memory, read_memory
from vidlakost_tools.tool import ToolError, number_of

# the most units of a chip file, and of a list
OF_CHIP = 16
OF_LIST = 1024
HEADS = {"list": "list 1", "name": "name NAME", "budget": "budget N"}


@dataclasses.dataclass
class Part:
    """A memory of the whole: its name, the description that it is an instance of, its number among equal ones, and its
    unit; then the number of its chip file, and its place there. If its line says so, equal memories share a controller:
    how many of them, and whose the unit is."""

    name: str
    memory: Memory
    number: int | None
    unit: Unit
    chip: int = 0
    place: int = 0
    is_shared: bool = False
    shares: int = 1
    leader: Part | None = dataclasses.field(default=None, compare=False)

    @property
    def weight(self) -> int:
        """What it weighs by itself."""
        return self.unit.weight // self.shares


@dataclasses.dataclass
class Placed:
    """A collar in the system: what it is made of, and its memories, of a wide word the low one first."""

    macro: Macro
    word: Word
    parts: list[Part]

    @property
    def name(self) -> str:
        return self.parts[0].name


@dataclasses.dataclass
class System:
    """The whole: its name, its budget, the memories in their order, the chips that test them, and the collars."""

    name: str
    budget: int
    parts: list[Part]
    chips: list[Chip] = dataclasses.field(default_factory=list)
    collars: list[Placed] = dataclasses.field(default_factory=list)
    is_list: bool = False
    # whether the module that joins all tells a tester what each test writes and reads
    has_access: bool = False
    # how many wrong reads each memory in its place keeps, if that is more than its first failure
    depth: int | None = None

    def keep(self, depth: int | None) -> None:
        """Has each memory in its place keep so many wrong reads."""
        self.depth = depth
        for placed in self.collars:
            placed.word.depth = depth

    def name_of(self, chip: int) -> str:
        return f"{self.name}_{chip}" if self.is_list else self.name

    def of_chip(self, chip: int) -> list[Part]:
        """The memories of a chip file, in its order; of those that share a controller the first."""
        own = (part for part in self.parts if part.chip == chip and part.leader is None)
        return sorted(own, key=lambda part: part.place)


# ---- reading


def unit_of(path: str, line: int, words: list[str]) -> tuple[Unit, int | None]:
    """The unit of a line of a list, and how many of it there are."""
    if len(words) not in (3, 5, 6) or words[3:4] not in ([], ["instances"]) or words[5:] not in ([], ["shared"]):
        raise ToolError(f"{path}:{line}: a line is unit WEIGHT MARCH MEMORY [instances N [shared]]")
    count = number_of(words[4], f"{path}:{line}: instances", 1) if words[3:] else None
    weight = number_of(words[0], f"{path}:{line}: a weight", 1)
    if (count or 1) > OF_LIST:
        raise ToolError(f"{path}:{line}: there are at most {OF_LIST} units")
    return Unit(weight, words[1], words[2], march_of(words[1])[1], read_memory(words[2])), count


def read_list(path: str) -> System:
    """The memories of a list, each in as many instances as its line says."""
    said: dict[str, str] = {}
    parts: list[Part] = []
    bases: dict[str, int] = {}
    for line, text in enumerate(lines_of(read_described(path)), 1):
        words = words_in(text)
        if not words:
            continue
        if not said and words != ["list", "1"]:
            raise ToolError(f"{path}:{line}: a list begins with 'list 1', and a chip file with 'chip 1'")
        if words[0] in HEADS:
            if len(words) != 2 or words[0] in said:
                raise ToolError(f"{path}:{line}: write the line {HEADS[words[0]]} once, in this form")
            said[words[0]] = words[1]
            continue
        if words[0] != "unit":
            raise ToolError(f"{path}:{line}: there is no line {shown(words[0])} here")
        unit, count = unit_of(path, line, words[1:])
        base = unit.memory.name
        if bases.setdefault(base, line) != line:
            raise ToolError(
                f"{path}:{line}: line {bases[base]} has the memory {base}, too: give it more instances there"
            )
        for number in range(count or 1):
            name = base if count is None else f"{base}_{number}"
            part = Part(name, unit.memory, None if count is None else number, dataclasses.replace(unit))
            part.is_shared = words[-1] == "shared"
            parts.append(part)
    return checked(path, said, parts)


def checked(path: str, said: dict[str, str], parts: list[Part]) -> System:
    """The system of a list's lines, if they are all there and fit together."""
    missing = [name for name in HEADS if name not in said] + ([] if parts else ["unit"])
    if missing:
        raise ToolError(f"{path}: no line for {', '.join(missing)}")
    budget = number_of(said["budget"], f"{path}: budget", 1)
    if not is_name(said["name"]) or said["name"] in RESERVED or len(said["name"]) > 40:
        why = "give an identifier of at most 40 characters that is not reserved"
        raise ToolError(f"{path}: no module can have the name {shown(said['name'])}: {why}")
    if len(parts) > OF_LIST:
        raise ToolError(f"{path}: there are at most {OF_LIST} units, and these are {len(parts)}")
    heavy = next((part.name for part in parts if part.unit.weight > budget), None)
    if heavy:
        raise ToolError(f"{path}: {heavy} weighs more than the budget")
    long = next((part.name for part in parts if len(part.name) > 48), None)
    if long:
        raise ToolError(f"{path}: the name {long} has more than 48 letters")
    refuse_twice(path, [part.name for part in parts])
    return System(said["name"], budget, parts, is_list=True)


def refuse_twice(path: str, names: list[str]) -> None:
    """No two memories have names that differ in case alone."""
    counts = collections.Counter(name.lower() for name in names)
    twice = next((name for name in names if counts[name.lower()] > 1), None)
    if twice:
        raise ToolError(f"{path}: two memories would have the name {twice} if case is ignored: rename one")


def read_system(path: str) -> System:
    """The memories of a chip file or of a list."""
    if not is_chip_file(path):
        return read_list(path)
    chip = read_chip(path)
    if chip.name in RESERVED or not is_name(chip.name):
        why = "has a $" if "$" in chip.name else "is a reserved word of SystemVerilog"
        told = f"the name '{chip.name}' {why}, so some tools refuse the chip's module"
        raise ToolError(f"{path}: {told}: rename the chip")
    parts = [Part(unit.memory.name, unit.memory, None, unit, 0, number) for number, unit in enumerate(chip.units)]
    refuse_twice(path, [part.name for part in parts])
    return System(chip.name, chip.budget, parts, [chip])


# ---- the collars


def stem_of(path: str) -> str:
    return pathlib.Path(path).name[: -len(".pins")] if path.endswith(".pins") else ""


def halves_in(path: str) -> list[str]:
    """The names of the parts in a file of pins, the low one first."""
    said = {word: rest for _, word, rest in statements(read_described(path)) if word in ("low", "high")}
    return [said[word] for word in ("low", "high") if word in said]


def give_collars(system: System, files: list[str]) -> None:
    """Gives each memory the collar of the pins of its name, and each pair of parts that of both."""
    bases = {part.memory.name: part.memory for part in system.parts}
    taken: dict[str, str] = {}
    for path in files:
        names = halves_in(path) or [stem_of(path)]
        for name in names:
            if name not in bases:
                told = f"there is no memory {name}" if name else "name a file of pins after its memory, as m.pins"
                raise ToolError(f"{path}: {told}; the memories are {', '.join(bases)}")
            if name in taken:
                raise ToolError(f"{path}: {taken[name]} lists the pins of {name}, too")
            taken[name] = path
        word = Word([bases[name] for name in dict.fromkeys(names)])
        macro = read_macro(path, word)
        of_each = [[part for part in system.parts if part.memory is memory] for memory in word.memories]
        if len({len(parts) for parts in of_each}) > 1:
            raise ToolError(f"{path}: {names[0]} and {names[1]} have different numbers of instances")
        system.collars += [Placed(macro, word, list(parts)) for parts in zip(*of_each)]
    missing = [name for name in bases if name not in taken]
    if missing:
        raise ToolError(
            f"no file lists the pins of {', '.join(missing)}: name each file after its memory, as {missing[0]}.pins"
        )
    order = {part.name: number for number, part in enumerate(system.parts)}
    system.collars.sort(key=lambda placed: order[placed.name])
    share(system)
    for placed in system.collars:
        first = placed.parts[0].unit.elements
        if any([one.text for one in part.unit.elements] != [one.text for one in first] for part in placed.parts):
            raise ToolError(f"{placed.macro.path}: its two parts have different marches, but the two run in step")


# ---- the chip files of a list


def are_together(system: System, units: Iterable[Part]) -> bool:
    """Whether the two parts of each word are in one group, if the units are in this order."""
    listed = list(units)
    chip = Chip("", system.budget, [part.unit for part in listed])
    place(chip)
    names = {part.name for part in listed}
    pairs = [placed.parts for placed in system.collars if placed.parts[0].name in names]
    return all(len({part.unit.group for part in pair}) == 1 for pair in pairs)


def orders(units: list[Placed]) -> Iterable[list[Part]]:
    """Orders to try: the given one, wide words first, the heavy ones first, and others by chance."""
    yield [part for placed in units for part in placed.parts]
    yield [part for placed in sorted(units, key=lambda placed: -len(placed.parts)) for part in placed.parts]

    def weight(placed: Placed) -> int:
        return sum(part.unit.weight for part in placed.parts)

    yield [part for placed in sorted(units, key=weight, reverse=True) for part in placed.parts]
    chance, mixed = random.Random(1), list(units)
    for _ in range(500):
        chance.shuffle(mixed)
        yield [part for placed in mixed for part in placed.parts]


def together(system: System, units: list[Placed]) -> list[Part] | None:
    """An order of the memories of these collars in which first fit keeps the parts of each word in one group."""
    return next((order for order in orders(units) if are_together(system, order)), None)


def place_chip(system: System, path: str) -> None:
    """Refuses a chip file in which the parts of a word are apart, with an order in which they are not, if there is
    one."""
    given = system.of_chip(0)
    if are_together(system, given):
        return
    pair = next(placed.parts for placed in system.collars if len({part.unit.group for part in placed.parts}) > 1)
    apart = f"{' and '.join(part.name for part in pair)} are parts of one word, but are in two groups"
    found = together(system, system.collars)
    if found is None and sum(part.unit.weight for part in pair) > system.budget:
        raise ToolError(f"{path}: {apart}: the budget has no room for both")
    if found is None:
        raise ToolError(
            f"{path}: {apart}, in each order that was tried: move some units to another chip file, or write a list"
        )
    raise ToolError(f"{path}: {apart}: write the units in the order {', '.join(part.name for part in found)}")


def groups_of(system: System, collars: list[Placed], most: int = OF_CHIP) -> list[list[Placed]]:
    """These collars in groups of so many memories at most that the budget has room for: the long tests first, each in
    the first group that has room."""
    found: list[list[Placed]] = []

    def length(placed: Placed) -> int:
        return placed.parts[0].unit.length

    def has_room(group: list[Placed], placed: Placed) -> bool:
        parts = [part for one in [*group, placed] for part in one.parts]
        return sum(part.unit.weight for part in parts) <= system.budget and len(parts) <= most

    for placed in sorted(collars, key=length, reverse=True):
        group = next((group for group in found if has_room(group, placed)), None)
        if group is None:
            group = []
            found.append(group)
        group.append(placed)
    return found


def place_list(system: System) -> list[list[Part]]:
    """The memories in chips of at most sixteen, the parts of a word in one group: a chip ends when the next group has
    no room in it. Those with a second port have chips of their own, because these run twice."""
    chips: list[list[Part]] = []
    led = [placed for placed in system.collars if placed.parts[0].leader is None]
    for second in (False, True):
        batch: list[Placed] = []
        for group in groups_of(system, [placed for placed in led if placed.macro.has_second == second]):
            tried = [*batch, *group]
            order = together(system, tried) if batch and sum(len(one.parts) for one in tried) <= OF_CHIP else None
            if order is None:
                tried, order = group, together(system, group)
                chips.append([])
            if order is None:
                names = " and ".join(part.name for one in group for part in one.parts)
                raise ToolError(f"{names} together weigh more than the budget")
            batch, chips[-1:] = tried, [order]
    for number, parts in enumerate(chips):
        for at, part in enumerate(parts):
            part.chip, part.place = number, at
    follow(system)
    return chips


def planned(system: System, path: str) -> None:
    """Puts a list in chips, and looks at a chip file's groups."""
    if not system.is_list:
        place_chip(system, path)
        return
    for number, parts in enumerate(place_list(system)):
        chip = Chip(system.name_of(number), system.budget, [part.unit for part in parts])
        place(chip)
        system.chips.append(chip)


def description_of(part: Part) -> str:
    """The description of an instance: that of its memory with another name."""
    lines, found = [], False
    for text in lines_of(read_described(part.unit.memory_file)):
        words = words_in(text)
        if not found and words[:1] == ["name"]:
            text, found = f"name {part.name}", True
        lines.append(text)
    return "\n".join(["# made by vidlakost top: an instance of " + part.memory.name, *lines, ""])


def plain_path(path: str) -> str:
    """The name of a file as a chip file can have it."""
    if not re.fullmatch(r"[!-\"$-~]{1,255}", path):
        why = "a file name in a chip file has at most 255 bytes of printable ASCII, and no blank or #"
        raise ToolError(f"{shown(path)}: {why}")
    return path
