"""A case of Yosys' model checker, clocked once more by plain Python from the text of the module: its numbers in the
registers at first, and its words and resets in each cycle. It shares nothing with Yosys but that text."""
from __future__ import annotations

import dataclasses
import itertools
from typing import Dict, Iterator, List, Optional, Set

from vidlakost_tools.program import with_text
from vidlakost_tools.texts.memory import Memory
from vidlakost_tools.verilog import open_run
from vidlakost_tools.verilog.front_end import Plain
from vidlakost_tools.verilog.open_run import Command, Numbers

# what a name of the module is behind in a judge
DUT = "dut."


@dataclasses.dataclass
class Case:
    """A cycle in which a judge finds something wrong, with the words on `rdata` to it that make it so, the cycles with
    a reset, and the numbers of further signals in each cycle."""

    cycle: int
    words: List[int]
    resets: Set[int] = dataclasses.field(default_factory=lambda: {0})
    numbers: Dict[str, List[int]] = dataclasses.field(default_factory=dict)


def signals_of(plain: Plain) -> list[str]:
    """The signals of a judge on whose numbers a case of a module hangs: its registers, and what nothing drives."""
    return [f"{DUT}{name}" for name in [*(register.name for register in plain.registers), *plain.opens]]


def inputs_of(plain: Plain, case: Case) -> Iterator[Numbers]:
    """What comes in in each cycle of a case; what nothing drives comes in too."""
    opens = {name: case.numbers[DUT + name] for name in plain.opens if DUT + name in case.numbers}
    for cycle, word in enumerate(case.words[: case.cycle + 1]):
        yield {
            "reset": int(cycle in case.resets),
            "rdata": word,
            **{name: found[cycle] for name, found in opens.items()},
        }


def ports_at(plain: Plain, case: Case) -> Numbers:
    """The numbers of all names in the cycle of a case, None where one is open."""
    run = with_text(plain.text(), open_run.read_module)
    first: Dict[str, Optional[int]] = {}
    for name in run.registers:
        # a case doesn't hang on a register without a number, so that any is right
        found = case.numbers.get(DUT + name)
        first[name] = found[0] if found else None if name in plain.opens else 0
    return next(itertools.islice(open_run.clocked(run, first, inputs_of(plain, case)), case.cycle, None))


@dataclasses.dataclass
class Test:
    """A test as a judge has it: of each cycle from the reset its command, and the cycle from which on `done` is due."""

    memory: Memory
    commands: list[Optional[Command]]
    done: int

    def answer(self, cycle: int) -> int | None:
        """The word that is due on `rdata` in a cycle, if a read's is."""
        command = self.commands[cycle - self.memory.latency] if cycle >= self.memory.latency else None
        return None if command is None or command[0] else command[2]

    def due(self, case: Case) -> list[tuple[str, int]]:
        """The ports that are looked at in the cycle of a case, with what each has to be."""
        now, is_bad = 0, False
        for cycle in range(case.cycle + 1):
            now, is_bad = (0, False) if cycle in case.resets else (now, is_bad)
            if cycle < case.cycle:
                wanted = self.answer(now)
                is_bad |= wanted is not None and wanted != case.words[cycle]
                now = min(now + 1, len(self.commands) - 1)
        return [*open_run.compared(self.commands[now], now >= self.done), ("fail", int(is_bad))]

    def differs(self, plain: Plain, case: Case) -> bool:
        """Whether a port has another number in the cycle of a case than it has to have."""
        at = ports_at(plain, case)
        return any(at[port] not in (None, wanted) for port, wanted in self.due(case))
