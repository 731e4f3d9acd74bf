"""Why a port is open in a cycle: back through what is open to a register that was open from the start, or to a word on
`rdata`; and what a run that leaves these open looks like."""
from __future__ import annotations

import collections
import dataclasses
from typing import Any

from vidlakost_tools.audit.gates import Machine
from vidlakost_tools.tool import progress
from vidlakost_tools.verilog.front_end import Plain

# so many values are kept at most of a run
KEPT = 8_000_000

# what there is to do about rows of a case
OVERLAP = ": more than one holds, and a tool may take any; without the word that denies it, the first is taken"


@dataclasses.dataclass
class Values:
    """Of a cycle the bits that are open, and those that are 1."""

    opens: set[Any]
    ones: set[Any]


def values_of(machine: Machine, words: dict[int, list[tuple[int, int]]], last: int) -> dict[int, Values]:
    """Of the cycles up to the last, or as many of them as are kept, each bit; `words` are the answers that are not
    open."""
    bits = [*machine.order, *machine.registers, *machine.inputs]
    step = machine.compiled(bits)
    state = [(0, 0)] * len(machine.registers)
    nothing = [(0, 0)] * len(machine.words)
    kept: collections.deque[Any] = collections.deque(maxlen=max(256, KEPT // max(1, len(bits))))
    for cycle in progress(range(last + 1), "looking for what it hangs on"):
        state, told = step(state, [*words.get(cycle, nothing), (1, 0) if cycle == 0 else (0, 1)], 1)
        pairs = list(zip(bits, told))
        opens = {bit for bit, (one, zero) in pairs if not one and not zero}
        kept.append((cycle, Values(opens, {bit for bit, (one, _) in pairs if one})))
    return dict(kept)


class Search:
    """Back from a bit that is open to what it hangs on."""

    def __init__(self, machine: Machine, values: dict[int, Values], plain: Plain):
        self.machine, self.values, self.plain = machine, values, plain
        self.names = machine.names()
        self.first = min(values)
        self.shown = {*machine.inputs, *machine.registers} & set(self.names)

    def named(self, bit: object) -> str | None:
        """The name of a register's bit or of an input's; None of a gate's."""
        if bit not in self.shown:
            return None
        name, index, width = self.names[bit]
        told = self.plain.places.get(name, name).split(" (")[0]
        return told if width == 1 else f"{told}[{index}]"

    def operands(self, bit: object, cycle: int) -> list[Any]:
        """The open bits on which a gate's output hangs."""
        cell = self.machine.driver[bit]
        pins = cell["connections"]
        values = self.values[cycle]
        if cell["type"] == "$_MUX_" and pins["S"][0] not in values.opens:
            one = pins["S"][0] in values.ones or pins["S"][0] == "1"
            return [found for found in [pins["B" if one else "A"][0]] if self.is_open(found, cycle)]
        return [found for found in self.machine.operands(cell) if self.is_open(found, cycle)]

    def is_open(self, bit: object, cycle: int) -> bool:
        if bit in self.values[cycle].opens:
            return True
        cell = self.machine.driver.get(bit)
        return bit == "x" or cell is not None and cell["type"] == "$anyseq"

    def reasons(self, port: str, bit: object, cycle: int) -> list[str]:
        """What a bit of a port hangs on in a cycle, the shortest ways first."""
        todo: collections.deque[Any] = collections.deque([(cycle, bit, (port,))])
        seen: set[Any] = set()
        found: dict[str, tuple[Any, ...]] = {}
        while todo and len(found) < 4:
            here, bit, way = todo.popleft()
            if (here, bit) in seen:
                continue
            seen.add((here, bit))
            name = self.named(bit)
            if name and name != way[-1]:
                way = (*way, name)
            end = self.end(here, bit, name)
            if end:
                found.setdefault(end, way)
                continue
            cell = self.machine.driver[bit]
            if self.machine.is_register(cell):
                todo.append((here - 1, cell["connections"]["D"][0], way))
            else:
                todo += [(here, operand, way) for operand in self.operands(bit, here)]
        return [f"{end}{' by way of ' + ' <- '.join(way) if len(way) > 1 else ''}" for end, way in found.items()]

    def ends(self, bit: object, cycle: int) -> set[Any]:
        """The bits on which an open one hangs that hang on nothing before them."""
        todo, seen, found = [(cycle, bit)], set(), set()
        while todo:
            here, bit = todo.pop()
            if (here, bit) in seen:
                continue
            seen.add((here, bit))
            cell = self.machine.driver.get(bit)
            if self.end(here, bit, ""):
                found.add(bit)
            elif cell is not None and self.machine.is_register(cell):
                todo.append((here - 1, cell["connections"]["D"][0]))
            else:
                todo += [(here, operand) for operand in self.operands(bit, here)]
        return found

    def end(self, cycle: int, bit: object, name: str | None) -> str | None:
        """What is told of a bit that hangs on nothing before it."""
        if bit in self.machine.words:
            return f"hangs on {name} of cycle {cycle}"
        cell = self.machine.driver.get(bit)
        if cell is None or cell["type"] == "$anyseq":
            source = self.source(bit)
            return f"hangs on {source}{OVERLAP if source.startswith('rows_that_overlap') else ', which nothing drives'}"
        if self.machine.is_register(cell) and cycle == self.first:
            since = "from the start" if cycle == 0 else f"since cycle {cycle} or longer"
            return f"hangs on {self.source(bit)}, which is open {since}"
        return None

    def source(self, bit: object) -> str:
        """The signal of the sources, with its place."""
        if bit not in self.names:
            return "an x"
        name, index, width = self.names[bit]
        told = self.plain.places.get(name, name)
        signal, _, where = told.partition(" (")
        return (signal if width == 1 else f"{signal}[{index}]") + (f" ({where}" if where else "")
