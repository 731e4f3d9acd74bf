"""On what clock a module's registers stand: buffers and inverters are followed, and a clock that a latch gates is an
enable of its registers. What is left is one input, whose rising edge is the only one."""
from __future__ import annotations

import dataclasses
import json
import pathlib
import re
from typing import Any

from vidlakost_tools.audit.pins import Pins
from vidlakost_tools.tool import ToolError
from vidlakost_tools.verilog import source_texts, yosys
from vidlakost_tools.verilog.yosys_cells import is_refused, live_cells, place_of, refuse_cells, short

INVERTERS = ("$not", "$logic_not", "$_NOT_")
BUFFERS = ("$pos", "$_BUF_", "$reduce_or", "$reduce_and", "$reduce_bool", "$reduce_xor")
GATES = ("$and", "$logic_and", "$_AND_")
LATCH = re.compile(r"\$dlatch$|\$_DLATCH_([NP])_$")
PLAIN = re.compile(r"\$dff$|\$_DFF_([NP])_$")
WORD = re.compile(r"\$(dff|adff|dffsr|sdff|sdffc)(e?)$")
FINE = re.compile(r"\$_(DFF|DFFSR|SDFF|DFFE|DFFSRE|SDFFE|SDFFCE)_([NP])([NP01]*)_$")
# what else has a state, or knows the first cycle, as somebody may write it who names Yosys' own cells
STATEFUL = re.compile(r"\$[a-z]*dff|\$_[A-Z]*DFF|\$mem(_v2)?$|\$(fsm|anyinit|initstate)$")
# those that stand behind `proc` or in a library of cells: they take an enable
BARE = ("$dff", "$adff", "$dffsr")
BARE_FINE = ("DFF", "DFFSR")


@dataclasses.dataclass
class Clock:
    """The input that is the clock, and what there is to warn of."""

    port: str | None
    warnings: list[str] = dataclasses.field(default_factory=list)


@dataclasses.dataclass
class Path:
    """How a bit hangs on an input: inverted or not, and the bits that enable it, in the cells that hold them."""

    root: int
    is_inverted: bool
    enables: list[int] = dataclasses.field(default_factory=list)
    holders: list[str] = dataclasses.field(default_factory=list)


class Tree:
    """The clocks of a module before anything in it is made simpler."""

    def __init__(self, module: dict[str, Any]):
        self.module, self.cells = module, module["cells"]
        self.inputs = {said["bits"][0]: port for port, said in module["ports"].items() if said["direction"] == "input"}
        self.drivers = {
            bit: name
            for name, cell in self.cells.items()
            for pin, bits in cell["connections"].items()
            if pin in ("Y", "Q")
            for bit in bits
        }
        self.gates: set[str] = set()

    def refuse(self, cell: dict[str, Any], why: str) -> None:
        raise ToolError(f"{place_of(self.module, cell) or 'a register'}: {why}", 1)

    def pin(self, cell: dict[str, Any], *names: str) -> list[Any]:
        return next((cell["connections"][name] for name in names if name in cell["connections"]), [])

    def level(self, cell: dict[str, Any], parameter: str, letter: str | None) -> int:
        """A polarity: of a fine cell its letter, of another its parameter."""
        return int(letter == "P") if letter else int(cell["parameters"].get(parameter, "1"), 2)

    def constant(self, bit: object, depth: int = 0) -> str | None:
        """The constant that a bit is, as Yosys leaves them in what makes a latch of a process."""
        if bit in ("0", "1"):
            return str(bit)
        cell = self.cells.get(self.drivers.get(bit, ""))
        if (
            cell is None
            or depth > 8
            or cell["type"] not in (*INVERTERS, *BUFFERS)
            or len(cell["connections"]["A"]) != 1
        ):
            return None
        found = self.constant(cell["connections"]["A"][0], depth + 1)
        return {"0": "1", "1": "0"}.get(found or "", None) if cell["type"] in INVERTERS else found

    def past_choices(self, bit: object, clock: Path) -> object:
        """What a latch takes, which is open while a clock is low, past the choices that this clock makes."""
        for _ in range(16):
            cell = self.cells.get(self.drivers.get(bit, ""))
            if cell is None or cell["type"] != "$mux":
                break
            pins = cell["connections"]
            try:
                chosen = self.path(pins["S"][0], cell)
            except ToolError:
                break
            if chosen.root != clock.root or chosen.enables:
                break
            bit = pins["B" if chosen.is_inverted != clock.is_inverted else "A"][pins["Y"].index(bit)]
        return bit

    def path(self, bit: object, register: dict[str, Any], depth: int = 0) -> Path:
        """The path of a clock to an input."""
        if isinstance(bit, int) and bit in self.inputs:
            return Path(bit, False)
        cell = self.cells.get(self.drivers.get(bit, ""))
        if cell is None or depth > 64:
            self.refuse(register, "its clock is not an input of the module")
        if cell["type"] in (*INVERTERS, *BUFFERS) and len(cell["connections"]["A"]) == 1:
            path = self.path(cell["connections"]["A"][0], register, depth + 1)
            return dataclasses.replace(path, is_inverted=path.is_inverted ^ (cell["type"] in INVERTERS))
        if cell["type"] in GATES and all(len(cell["connections"][pin]) == 1 for pin in "ABY"):
            for one, other in (("A", "B"), ("B", "A")):
                if self.constant(cell["connections"][other][0]) == "1":
                    return self.path(cell["connections"][one][0], register, depth + 1)
            return self.gated(self.drivers[bit], register, depth)
        self.refuse(
            register, f"a cell {cell['type']} ({place_of(self.module, cell)}) makes its clock, which has to be an input"
        )
        raise AssertionError

    def gated(self, name: str, register: dict[str, Any], depth: int) -> Path:
        """The path through a clock gate: one of its operands is held while the other, a clock, is high."""
        pins = self.cells[name]["connections"]
        for clock, enable in ((pins["A"][0], pins["B"][0]), (pins["B"][0], pins["A"][0])):
            holder = self.drivers.get(enable, "")
            kind = self.cells[holder]["type"] if holder else ""
            if not (LATCH.match(kind) or PLAIN.match(kind)):
                continue
            path = self.path(clock, register, depth + 1)
            if self.holds_while_high(self.cells[holder], path, register, depth):
                self.gates.add(name)
                data = self.cells[holder]["connections"]["D"][self.pin(self.cells[holder], "Q").index(enable)]
                bit = self.past_choices(data, path) if LATCH.match(kind) else data
                return dataclasses.replace(path, enables=[*path.enables, bit], holders=[*path.holders, holder])
        self.refuse(
            register,
            f"its clock is gated at {place_of(self.module, self.cells[name])} by a signal that no latch holds while the"
                " clock is high",
        )
        raise AssertionError

    def holds_while_high(self, holder: dict[str, Any], clock: Path, register: dict[str, Any], depth: int) -> bool:
        """Whether a latch is open while a clock is low, or a flip-flop takes what it holds when the clock falls."""
        latch, plain = LATCH.match(holder["type"]), PLAIN.match(holder["type"])
        letter = latch[1] if latch else plain[1] if plain else None
        pin, parameter = ("EN", "EN_POLARITY") if latch else ("CLK", "CLK_POLARITY")
        path = self.path(self.pin(holder, pin, pin[0])[0], register, depth + 1)
        level = self.level(holder, parameter, letter)
        # the level of the input at which it is open, or to which the input goes when it takes
        opens_at = level ^ path.is_inverted
        return path.root == clock.root and not path.enables and opens_at == (1 if clock.is_inverted else 0)


@dataclasses.dataclass
class Edge:
    """A register's clock: its path, and whether it takes at the rising edge of the input."""

    path: Path
    rises: bool


def edges_of(tree: Tree) -> dict[str, Edge]:
    """The clock of each flip-flop and of each clocked port of a memory."""
    found = {}
    for name, cell in tree.cells.items():
        fine = FINE.match(cell["type"])
        clocked = fine or WORD.match(cell["type"])
        written = re.match(r"\$memwr|\$memrd", cell["type"]) and int(cell["parameters"].get("CLK_ENABLE", "0"), 2)
        if clocked or written:
            path = tree.path(tree.pin(cell, "CLK", "C")[0], cell)
            level = tree.level(cell, "CLK_POLARITY", fine[2] if fine else None)
            found[name] = Edge(path, bool(level) ^ path.is_inverted)
            if written and (path.enables or path.is_inverted):
                tree.refuse(cell, "a memory whose clock is gated or inverted is outside the subset")
        elif STATEFUL.match(cell["type"]) and not is_refused(cell["type"]):
            tree.refuse(cell, f"a register of the kind {cell['type']} is outside the subset")
    return found


def settled(sources: source_texts.Sources, pins: Pins | None, folder: pathlib.Path) -> tuple[str, Clock]:
    """The script that reads the sources with every register at the rising edge of one input, and that input."""
    tree = Tree(sources.module)
    edges = edges_of(tree)
    holders = {holder for edge in edges.values() for holder in edge.path.holders}
    registers = {name: edge for name, edge in edges.items() if name not in holders}
    port = clock_of(tree, registers, pins)
    refuse_cells(sources.module, holders)
    refuse_read(tree, holders)
    pin = pins.clock() if pins else None
    wanted = not (pin and pin.is_low)
    for name, edge in registers.items():
        if edge.rises != wanted:
            falling = "falling" if wanted else "rising"
            is_one = len({other.rises for other in registers.values()}) == 1
            hint = f"; 'clk ~{port}' in a file of pins tells audit so" if is_one and wanted else ""
            tree.refuse(tree.cells[name], f"it is clocked by the {falling} edge of {port}{hint}")
    clock = Clock(port, resets_of(tree))
    if all(edge.rises and not edge.path.enables and not edge.path.is_inverted for edge in registers.values()):
        return sources.script, clock
    rewrite(tree, registers, holders)
    file = folder / "clocked.json"
    file.write_text(json.dumps({"creator": "vidlakost", "modules": {sources.top: sources.module}}), encoding="utf-8")
    _, _, rest = sources.script.partition("flatten\n")
    return f"read_json {yosys.quoted(file)}\n{rest}", clock


def clock_of(tree: Tree, registers: dict[str, Edge], pins: Pins | None) -> str | None:
    """The one input on which all registers stand."""
    pin = pins.clock() if pins else None
    told = pin.name if pin else None
    first = None
    for name, edge in registers.items():
        port = tree.inputs[edge.path.root]
        first = first or port
        if port != (told or first):
            tree.refuse(
                tree.cells[name],
                f"its clock is {port}, but other registers have {told or first}; all need the same clock",
            )
    chosen = told or first
    ports = tree.module["ports"]
    if not pins and chosen not in (None, "clk") and "clk" in ports:
        raise ToolError(
            f"the registers' clock is {chosen}, and clk is another port: name both in a file of pins (--pins)", 1
        )
    if chosen and len(ports[chosen]["bits"]) != 1:
        source = tree.module["netnames"].get(chosen, {}).get("attributes", {}).get("src", "no place")
        said = f"{chosen} ({short(source)})"
        raise ToolError(f"the clock is one bit of {said}, which has several; give it a port of its own", 1)
    return chosen


def refuse_read(tree: Tree, holders: set[str]) -> None:
    """What holds the enable of a clock may gate that clock and nothing else."""
    live = live_cells(tree.module)
    held = {bit: holder for holder in holders for bit in tree.pin(tree.cells[holder], "Q")}
    for name in live:
        for pin, bits in tree.cells[name]["connections"].items():
            found = [bit for bit in bits if bit in held]
            if found and pin not in ("Q", "Y") and name not in tree.gates:
                why = "a latch or a flip-flop of the other edge that is read outside of a gate"
                tree.refuse(tree.cells[held[found[0]]], why)
    for said in tree.module["ports"].values():
        if said["direction"] == "output" and set(said["bits"]) & set(held):
            raise ToolError("a latch of a clock gate is an output of the module", 1)


def rewrite(tree: Tree, registers: dict[str, Edge], holders: set[str]) -> None:
    """Puts every register at the rising edge of the input, with an enable where its clock is gated."""
    signals = [bits for cell in tree.cells.values() for bits in cell["connections"].values()]
    signals += [net["bits"] for net in tree.module["netnames"].values()]
    fresh = max((bit for bits in signals for bit in bits if isinstance(bit, int)), default=1)
    for count, (name, edge) in enumerate(registers.items()):
        cell = tree.cells[name]
        pins = cell["connections"]
        fine = FINE.match(cell["type"])
        pins["C" if "C" in pins and fine else "CLK"] = [edge.path.root]
        enable = None
        for place, bit in enumerate(edge.path.enables):
            if enable is None:
                enable = bit
                continue
            fresh += 1
            tree.cells[f"$enables${count}${place}"] = both(enable, bit, fresh)
            enable = fresh
        if enable is not None and cell["type"] not in BARE and not (fine and fine[1] in BARE_FINE):
            tree.refuse(cell, "a register has a gated clock and an enable of its own")
        set_kind(cell, fine, enable)
    for holder in holders:
        del tree.cells[holder]


def both(first: object, second: object, result: int) -> dict[str, Any]:
    return {
        "hide_name": 1,
        "type": "$_AND_",
        "parameters": {},
        "attributes": {},
        "port_directions": {"A": "input", "B": "input", "Y": "output"},
        "connections": {"A": [first], "B": [second], "Y": [result]},
    }


def set_kind(cell: dict[str, Any], fine: re.Match[str] | None, enable: object) -> None:
    """The kind of a flip-flop at the rising edge, with or without an enable."""
    if fine:
        family, _, rest = fine.groups()
        kinds = f"{family}E" if enable is not None else family
        cell["type"] = f"$_{kinds}_P{rest}{'P' if enable is not None else ''}_"
    else:
        cell["parameters"]["CLK_POLARITY"] = "1"
        if enable is not None:
            cell["type"] += "e"
            cell["parameters"]["EN_POLARITY"] = "1"
    if enable is not None:
        pin = "E" if fine else "EN"
        cell["connections"][pin] = [enable]
        cell.setdefault("port_directions", {})[pin] = "input"


def resets_of(tree: Tree) -> list[str]:
    """The registers whose asynchronous reset is made of several registers by gates, where a glitch may reset them."""
    warnings = []
    for cell in tree.cells.values():
        for pin in ("ARST", "SET", "CLR", "R", "S"):
            bits = cell["connections"].get(pin, []) if re.match(r"\$(adff|dffsr)|\$_DFF", cell["type"]) else []
            if any(is_mixed(tree, bit) for bit in bits):
                what = f"{place_of(tree.module, cell)}: gates make its asynchronous reset from registers"
                warnings.append(f"{what}, so a short pulse may reset it; such pulses are not seen")
    return list(dict.fromkeys(warnings))[:8]


def is_mixed(tree: Tree, bit: object) -> bool:
    """Whether a bit hangs on a register by way of a gate of two operands."""
    todo, seen, gates, registers = [bit], set(), 0, 0
    while todo:
        here = todo.pop()
        name = tree.drivers.get(here)
        if here in seen or name is None:
            continue
        seen.add(here)
        cell = tree.cells[name]
        if re.search(r"dff|DFF", cell["type"]):
            registers += 1
            continue
        operands = [other for pin, bits in cell["connections"].items() if pin not in ("Y", "Q") for other in bits]
        gates += len([other for other in operands if isinstance(other, int)]) > 1
        todo += operands
    return gates > 0 and registers > 0
