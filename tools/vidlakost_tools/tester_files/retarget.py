"""What the procedures of PDL ask of the pins of a TAP. ICL has the path to each register, with the bits to set before
it. BSDL has the instruction that reaches it."""
from __future__ import annotations

import itertools
from typing import Dict, Iterator, List, Mapping, Sequence, Set

from vidlakost_tools.tester_files.bsdl import Bsdl
from vidlakost_tools.tester_files.cycles import Cycle
from vidlakost_tools.tester_files.icl import Module
from vidlakost_tools.tester_files.pdl import Command, Procedures
from vidlakost_tools.tester_files.scan_path import Bit, Where, bits_of, every, path
from vidlakost_tools.tool import ToolError

# the most scans before the one in which all registers are in the path, and the most bits that may choose the path
MOST_SCANS, MOST_CHOICES = 4, 8


def to_shift(is_instruction: bool, values: Sequence[int], wanted: Sequence[str]) -> Iterator[Cycle]:
    """From Run-Test/Idle through Shift-IR or Shift-DR and back; the first value shifts first."""
    yield from (Cycle(int(tms), 0, 1, "X") for tms in ("1100" if is_instruction else "100"))
    for place, (value, compared) in enumerate(zip(values, wanted)):
        yield Cycle(int(place == len(values) - 1), value, 1, compared)
    yield from (Cycle(int(tms), 0, 1, "X") for tms in "10")


class Session:
    """A TAP after a reset, and what its registers hold."""

    def __init__(self, modules: Mapping[str, Module], bsdl: Bsdl):
        tops = [module for module in modules.values() if module.links]
        if len(tops) != 1 or tops[0].entity.lower() != bsdl.name:
            raise ToolError("ICL needs exactly one module with an access link, and BSDL its entity")
        self.modules, self.bsdl, self.top = modules, bsdl, tops[0].name
        self.state: Dict[Bit, int] = {}
        self.kept: Set[Bit] = set()
        self.choosing: Set[Bit] = set()
        for where, module in every(modules, self.top):
            self.hold(where, module)
        self.instruction = ""
        self.check_lengths()

    def hold(self, where: Where, module: Module) -> None:
        """What the registers of a module hold after a reset, which of them capture themselves, and which choose a
        path."""
        for name, register in module.registers.items():
            for bit in range(register.width):
                self.state[(where, name, bit)] = (register.reset or 0) >> bit & 1
            if [one.name for one in register.capture] == [name] and register.capture[0].bits is None:
                self.kept.update((where, name, bit) for bit in range(register.width))
        for choice in module.muxes.values():
            self.choosing.update(bits_of(where, module, choice.selected_by.name))

    def check_lengths(self) -> None:
        """Checks each path by BSDL, which has its length after a reset."""
        for link in self.modules[self.top].links:
            told, found = self.bsdl.registers.get(link), len(path(self.modules, self.top, link, self.state))
            if told is None or told[1] != found:
                by_bsdl = told[1] if told else "none"
                raise ToolError(f"the path of {link} has {found} bits by ICL, but {by_bsdl} by BSDL")

    def begin(self) -> Iterator[Cycle]:
        """The reset."""
        self.instruction = ""
        yield Cycle(1, 0, 0, "X")
        yield Cycle(1, 0, 1, "X", 5)
        yield Cycle(0, 0, 1, "X")

    def identify(self) -> Iterator[Cycle]:
        """The identity, from BSDL."""
        if self.bsdl.identity is None:
            return
        yield from self.instruct("IDCODE")
        yield from to_shift(False, [0] * 32, [bit.upper() for bit in reversed(self.bsdl.identity)])

    def instruct(self, name: str) -> Iterator[Cycle]:
        code = self.bsdl.opcodes[name][0]
        self.instruction = name
        yield from to_shift(True, [int(bit) for bit in reversed(code)], ["X"] * len(code))

    def places(self, module: str) -> Where:
        """The place of the one instance of a module."""
        found = [where for where, it in every(self.modules, self.top) if it.name == module]
        if len(found) != 1:
            raise ToolError(f"{self.top} has {module} {len(found)} times")
        return found[0]

    def run(self, procedures: Procedures, module: str, name: str, *given: str) -> Iterator[Cycle]:
        """The cycles of a procedure, where a call gives these words."""
        if name not in procedures.get(module, {}):
            raise ToolError(f"PDL: {module} has no procedure {name}")
        where, it = self.places(module), self.modules[module]
        writes: Dict[Bit, str] = {}
        reads: Dict[Bit, str] = {}
        for command in procedures[module][name].given(given):
            if command.name in ("iWrite", "iRead"):
                take(writes if command.name == "iWrite" else reads, asked(where, it, command))
            elif command.name == "iRunLoop":
                yield Cycle(0, 0, 1, "X", int(command.words[0]))
            elif command.name == "iApply":
                yield from self.apply(writes, reads)
                writes, reads = {}, {}
        if writes or reads:
            raise ToolError(f"PDL: {name} ends without iApply")

    def apply(self, writes: Mapping[Bit, str], reads: Mapping[Bit, str]) -> Iterator[Cycle]:
        """The scans that write and read some bits."""
        needed = {*writes, *reads}
        for link in self.modules[self.top].links:
            ways = self.ways_to(link, needed)
            if ways is None:
                continue
            if self.instruction != link:
                yield from self.instruct(link)
            for way in ways:
                yield from self.scan(link, way, {})
            yield from self.scan(link, {bit: int(value) for bit, value in writes.items()}, reads)
            return
        raise ToolError("no instruction has all these registers in its path")

    def ways_to(self, link: str, needed: Set[Bit]) -> List[Dict[Bit, int]] | None:
        """The values to write in the scans before the one in which all these bits are in the path of an instruction."""
        known = [(dict(self.state), [])]  # type: List[tuple[Dict[Bit, int], List[Dict[Bit, int]]]]
        for _ in range(MOST_SCANS):
            following = []
            for state, ways in known:
                there = path(self.modules, self.top, link, state)
                if needed <= set(there):
                    return ways
                choosing = [bit for bit in there if bit in self.choosing][:MOST_CHOICES]
                for values in itertools.product((0, 1), repeat=len(choosing)):
                    way = dict(zip(choosing, values))
                    following.append(({**state, **way}, [*ways, way]))
            known = following
        return None

    def scan(self, link: str, writes: Mapping[Bit, int], reads: Mapping[Bit, str]) -> Iterator[Cycle]:
        """A scan of the whole path; a bit without a new value keeps its own."""
        there = path(self.modules, self.top, link, self.state)
        compared = [reads.get(bit, str(self.state[bit]) if bit in self.kept else "X") for bit in there]
        values = [writes.get(bit, self.state[bit]) for bit in there]
        self.state.update(zip(there, values))
        yield from to_shift(False, values, compared)


def take(taken: Dict[Bit, str], more: Mapping[Bit, str]) -> None:
    """Takes the values that a command asks of some bits; no other command may ask another value of them."""
    for bit, value in more.items():
        if taken.setdefault(bit, value) != value:
            raise ToolError(f"PDL: bit {bit[2]} of {bit[1]} has to be both {taken[bit]} and {value}")


def asked(where: Where, module: Module, command: Command) -> Dict[Bit, str]:
    """The bits of a register that a command writes or reads."""
    bits, value = bits_of(where, module, command.words[0]), command.value
    if value is not None and value >> len(bits):
        raise ToolError(f"PDL: {' '.join(command.words)} has more bits than the register")
    return {bit: "X" if value is None else str(value >> place & 1) for place, bit in enumerate(bits)}
