"""What comes to a controller in each cycle, and what its ports have to be by the rule of the ports, for simulators that
set no registers: tests from a reset on, whole ones and ones that another reset ends, with right and wrong answers."""
from __future__ import annotations

import dataclasses
import random
from typing import Dict, Iterator

from vidlakost_tools.texts.march import Element
from vidlakost_tools.texts.memory import Memory
from vidlakost_tools.verilog.open_run import Command, commands_of

# of one cycle what comes in, and what is due: `-` for each bit that is open
Row = Dict[str, str]


@dataclasses.dataclass
class Rule:
    """A test as the rule of the ports has it; how many cycles late it begins, and how many more late it may end; and
    whether en, done and fail are open in the cycle of the reset."""

    elements: list[Element]
    memory: Memory
    delay: int = 0
    late: int = 0
    is_open: bool = False

    def commands(self) -> list[Command | None]:
        """Of each cycle from the reset to the one of `done` its command."""
        idle: list[Command | None] = [None] * (1 + self.delay)
        return [*idle, *commands_of(self.elements, self.memory), *[None] * (self.memory.latency + 1 + self.late)]


@dataclasses.dataclass
class Run:
    """A run of a test: its commands, how many cycles of it come, and from which on answers may be wrong."""

    rule: Rule
    commands: list[Command | None]
    length: int
    wrong: int
    odds: int

    def answer(self, cycle: int) -> int | None:
        """The word that is due on rdata."""
        asked = cycle - self.rule.memory.latency
        command = self.commands[asked] if 0 <= asked < len(self.commands) else None
        return None if command is None or command[0] else command[2]

    def rows(self, chance: random.Random) -> Iterator[Row]:
        bits, failed = self.rule.memory.bits, -1
        for cycle in range(self.length):
            answer = self.answer(cycle)
            word = chance.getrandbits(bits) if answer is None else answer
            if answer is not None and cycle >= self.wrong and chance.random() < 1 / self.odds:
                word = answer ^ 1 << chance.randrange(bits) if chance.random() < 0.7 else chance.getrandbits(bits)
            yield {"reset": str(int(cycle == 0)), "rdata": f"{word:0{bits}b}", **self.due(cycle, failed)}
            if failed < 0 and answer is not None and word != answer:
                failed = cycle

    def due(self, cycle: int, failed: int) -> Row:
        """What the ports have to be, where the first wrong answer came in a cycle (-1: in none)."""
        memory = self.rule.memory
        command = self.commands[cycle] if cycle < len(self.commands) else None
        writes = command is not None and command[0]
        row = {
            "en": str(int(command is not None)),
            "we": "-" if command is None else str(int(writes)),
            "addr": "-" * memory.width if command is None else f"{command[1]:0{memory.width}b}",
            "wdata": f"{command[2]:0{memory.bits}b}" if command is not None and writes else "-" * memory.bits,
            "done": str(int(cycle >= len(self.commands) - 1)),
            "fail": "0" if failed < 0 else "1" if cycle > failed + self.rule.late else "-",
        }
        if cycle == 0 and self.rule.is_open:
            row.update(en="-", done="-", fail="-", we="-", addr="-" * memory.width, wdata="-" * memory.bits)
        return row


def rows(rule: Rule, seed: int, whole: int, parts: int, behind: int) -> Iterator[Row]:
    """Whole tests, to so many cycles behind their ends, with tests between them that the next reset ends."""
    chance, commands = random.Random(seed), rule.commands()
    most = len(commands) + behind
    for number in range(max(whole, parts)):
        if number < parts:
            length = chance.randrange(1, min(most, 400) + 1)
            yield from Run(rule, commands, length, chance.randrange(length), chance.randrange(1, 9)).rows(chance)
        if number < whole:
            wrong = most if number == 0 else chance.randrange(most)
            yield from Run(rule, commands, most, wrong, chance.randrange(1, 17)).rows(chance)
