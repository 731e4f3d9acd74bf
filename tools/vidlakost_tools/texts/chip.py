"""Chip files: several memories under a power budget, the groups in which they are tested, and when each test begins."""
from __future__ import annotations

import dataclasses
import os
from vidlakost_tools.program import ask, run
from vidlakost_tools.temporary import folder_of_its_own
from vidlakost_tools.text import statements
from vidlakost_tools.texts.march import Element, march_of
from vidlakost_tools.texts.memory import Memory, read_memory
from vidlakost_tools.tool import Refused, identifier, number_of


@dataclasses.dataclass
class Unit:
    """A memory of a chip with its march, its weight, its group, and the cycle in which its own reset ends."""

    weight: int
    march: str
    memory_file: str
    elements: list[Element]
    memory: Memory
    group: int = 0
    start: int = 0

    @property
    def length(self) -> int:
        """How many cycles after its start its test is done."""
        return self.memory.cycles(self.elements) - 1

    @property
    def done(self) -> int:
        return self.start + self.length


@dataclasses.dataclass
class Chip:
    name: str
    budget: int
    units: list[Unit]

    @property
    def files(self) -> list[str]:
        """The files that its units name."""
        return [name for unit in self.units for name in (unit.march, unit.memory_file)]

    @property
    def groups(self) -> int:
        return 1 + max(unit.group for unit in self.units)

    @property
    def done(self) -> int:
        """The first cycle in which the whole test is done."""
        last = [unit for unit in self.units if unit.group == self.groups - 1]
        return last[0].start + max(unit.length for unit in last)


def place(chip: Chip) -> None:
    """Gives each unit the first group that has room for it, and its start. A group begins, with the cycle of its reset,
    in the last cycle but one of the longest test of the group before it."""
    loads: list[int] = []
    for unit in chip.units:
        room = (number for number, load in enumerate(loads) if load + unit.weight <= chip.budget)
        unit.group = next(room, len(loads))
        loads += [0] * (unit.group + 1 - len(loads))
        loads[unit.group] += unit.weight
    start = 0
    for group in range(len(loads)):
        members = [unit for unit in chip.units if unit.group == group]
        for unit in members:
            unit.start = start
        start += max(unit.length for unit in members) - 1


def check_with_program(path: str | os.PathLike[str]) -> None:
    """Raises a refusal of the program."""
    with folder_of_its_own() as folder:
        status, said = run("chip", path, folder / "chip.v")
    if status > 1 or status < 0:
        raise Refused(["chip", str(path), "chip.v"], said, status)


def units_of(said: list[tuple[int, str, str]]) -> list[tuple[int, str, str, str]]:
    """For each unit: its line, its weight, its march and its memory."""
    rows = [(line, rest.split(" ")) for line, word, rest in said if word == "unit"]
    return [(line, parts[0], parts[1], parts[2]) for line, parts in rows if len(parts) == 3]


def read_chip(path: str | os.PathLike[str]) -> Chip:
    """The chip of a file, as the program reads it, with its units in their groups."""
    check_with_program(path)
    lines = statements(ask("show", "chip", path))
    said = {word: rest for _, word, rest in lines}
    rows = units_of(lines)
    # units often share a march, or a memory
    marches = {march: march_of(march)[1] for march in dict.fromkeys(march for _, _, march, _ in rows)}
    memories = {memory: read_memory(memory) for memory in dict.fromkeys(memory for *_, memory in rows)}
    units = [
        Unit(number_of(weight, "a weight"), march, memory, marches[march], memories[memory])
        for _, weight, march, memory in rows
    ]
    chip = Chip(identifier(said["name"], "the name of a chip"), number_of(said["budget"], "budget", 1), units)
    place(chip)
    return chip
