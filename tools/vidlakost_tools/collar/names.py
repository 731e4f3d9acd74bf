"""The names inside a collar, which give way to those of the pins, and its own ports."""
from __future__ import annotations

from vidlakost_tools.access.target import Port, Target
from vidlakost_tools.collar import bus as collar_bus, lane_machine as collar_lanes, planted as collar_planted
from vidlakost_tools.collar.pins import Macro, Word, literal
from vidlakost_tools.texts.memory import Memory


MARK = "// made by vidlakost"
# the kinds of a collar that has its controllers inside; `told` hands out the words that they write and read, too, and
# `logged` also whether they command a read
TOLD = ("told", "logged")
INSIDE = ("bist", *TOLD)


class Names:
    """The names of nets inside: none is a name of the macro's pins or of a port."""

    def __init__(self, taken: set[str]):
        self.taken = set(taken)
        self.given: dict[str, str] = {}

    def of(self, name: str) -> str:
        """The name of the net that is called so here."""
        if name not in self.given:
            self.given[name] = self.fresh(name)
        return self.given[name]

    def fresh(self, name: str) -> str:
        """A name that nothing has, as this one."""
        while name in self.taken:
            name += "_"
        self.taken.add(name)
        return name


def halves(word: Word) -> list[tuple[str, Memory]]:
    """The memories, each with what stands before the names of its self-test's nets."""
    if len(word.memories) == 1:
        return [("bist", word.first)]
    return [("low", word.memories[0]), ("high", word.memories[1])]


def last_phase(macro: Macro) -> int:
    """The number of the phase in which all is over: marches are even, what stands behind them odd."""
    if not macro.has_second:
        return 2
    return 4 if True in collar_lanes.counted(macro)[1] and macro.masks else 3


def own_ports(macro: Macro, word: Word, kind: str) -> list[Port]:
    """The ports of the collar that are no pins: `kind` is bist, told, open, or a way of `vidlakost access`."""
    scan = [Port("input", "scan_mode")] if macro.bypass else []
    if kind in INSIDE:
        told = [Port("output", name, word.bits) for name in ("given", "taken")] if kind in TOLD else []
        told += [Port("output", "asks")] if kind == "logged" else []
        return [
            Port("input", "clk"),
            Port("input", "test"),
            *scan,
            Port("output", "done"),
            Port("output", "fail"),
            *told,
        ]
    if kind != "open":
        if len(word.memories) > 1 or macro.masks or macro.has_second:
            raise macro.refuse(0, "--through is for one memory without masks and port")
        return [Port("input", "clk"), *scan, *collar_bus.bus_of(Target.of_memory(word.first, None), kind)]
    found = [Port("input", "clk"), Port("input", "test"), *scan]
    found += [Port("input", "second")] if macro.has_second else []
    for half, memory in halves(word):
        widths = {"en": 1, "we": 1, "addr": memory.width, "wdata": memory.bits}
        found += [Port("input", f"{half}_{name}", width) for name, width in widths.items()]
        found += [Port("output", f"{half}_rdata", memory.bits)]
    found += [Port("output", "apart")] if len(word.memories) > 1 else []
    lanes = [Port("input", "lanes_go"), Port("output", "lanes_over"), Port("output", "lanes_fail")]
    return [*found, *(lanes if macro.masks else [])]


def refuse_names(macro: Macro, word: Word, own: list[Port]) -> None:
    """No pin of the chip's is a port of the collar, no tie hangs on something else, and no module is another."""
    taken = {port.name for port in own} | planted_names()
    inputs = {port.name for port in own if port.direction == "input"}
    for way, pin in macro.chip_pins():
        for name in pin.names():
            if name in taken:
                raise macro.refuse(
                    pin.line, f"'{name}' is a port of the collar itself, so the chip's pin can't have that name"
                )
            if name == f"{word.name}_collar":
                raise macro.refuse(pin.line, f"'{name}' is the collar's own name, so the chip's pin can't have it")
            inputs |= {name} if way == "input" else set()
    for pin in macro.of("tie"):
        if literal(pin.value) is None and pin.value not in inputs:
            told = "a literal with its size, as 2'b01, or the name of an input of the collar"
            raise macro.refuse(pin.line, f"an input is tied to {told}, and not '{pin.value}'")
    made = [f"{memory.name}_bist" for memory in word.memories]
    made += [f"{word.name}_{what}" for what in ("collar", "collar_tb", "lanes", "access", "apb", "tap", "cross")]
    if macro.clock_cell and macro.clock_cell.cell.lower() in [name.lower() for name in [*made, macro.name]]:
        raise macro.refuse(0, f"'{macro.clock_cell.cell}' is a module beside the macro, so it can't be a cell")
    if macro.name.lower() in [name.lower() for name in made]:
        raise macro.refuse(macro.name_line, f"'{macro.name}' is a module beside the macro")


def planted_names() -> set[str]:
    return {name for name, _ in collar_planted.INPUTS}
