"""The cells of a module, as Yosys writes them in JSON, as operators of the subset with their widths and the sources'
names."""
from __future__ import annotations

from typing import Any

from vidlakost_tools.tool import ToolError
from vidlakost_tools.verilog.cell_kinds import (
    BITWISE,
    CHOICES,
    COMPOUND,
    EQUAL,
    FLIP_FLOPS,
    HALVES,
    INVERTED,
    NOT,
    OPEN_CELLS,
    ORDERS,
    REDUCTIONS,
    SAME,
    SHIFTS,
    SUMS,
)
from vidlakost_tools.verilog.named_bits import WIDEST, Drive, NamedBits, NotWords, chunks, literal


class Writer(NamedBits):
    """Writes the cells of a module."""

    def cells(self) -> tuple[list[Drive], list[Drive]]:
        """The wires and the registers."""
        cells = list(self.module["cells"].values())
        for cell in cells:
            self.declare(cell)
        wires: list[Drive] = []
        registers: list[Drive] = []
        for cell in cells:
            if cell["type"] in OPEN_CELLS:
                continue
            into = registers if cell["type"] in FLIP_FLOPS else wires
            into += self.drives(cell)
        return wires, registers

    def declare(self, cell: dict[str, Any]) -> None:
        """Names what a cell drives."""
        pin = next((pin for pin in ("Q", "Y") if pin in cell["connections"]), None)
        if pin is None:
            raise ToolError(f"a cell {cell['type']} is outside the subset", 1)
        cell["parts"] = []
        if cell["type"] in OPEN_CELLS:
            for bit in cell["connections"][pin]:
                self.open_bit(bit)
            return
        for first, bits in enumerate(chunks(cell["connections"][pin])):
            name = self.name_of(bits)
            cell["parts"].append((name, first * WIDEST, len(bits)))
            self.take(name, bits)

    def origins(self) -> dict[str, list[list[tuple[str, int]]]]:
        """Of each register the signals of the sources that each of its bits is, with the place in them; those of an
        asynchronous reset stand behind the choice which the reset makes."""
        at: dict[object, list[tuple[str, int]]] = {}
        for name, net in self.nets():
            for index, bit in enumerate(net["bits"]):
                at.setdefault(bit, []).append((name, index))
        for cell in self.module["cells"].values():
            pins = cell["connections"] if cell["type"] in CHOICES else {"A": [], "B": [], "Y": []}
            for bit, result in ((bit, result) for pin in "AB" for bit, result in zip(pins[pin], pins["Y"])):
                if result in at:
                    at.setdefault(bit, at[result])
        found = {}
        for cell in self.module["cells"].values():
            for name, first, width in cell["parts"] if cell["type"] in FLIP_FLOPS else []:
                found[name] = [at.get(bit, []) for bit in cell["connections"]["Q"][first : first + width]]
        return found

    def drives(self, cell: dict[str, Any]) -> list[Drive]:
        self.told()
        found = []
        for name, first, width in cell["parts"]:
            value, groups = self.value(cell, first, width)
            found.append(Drive(name, width, value, groups if groups else [self.told()]))
            self.told()
        return found

    def operand(self, cell: dict[str, Any], pin: str, width: int, signed: bool | None = None) -> list[Any]:
        """An operand, extended to a width."""
        bits = cell["connections"][pin]
        extend = self.signed(cell, pin) if signed is None else signed
        return [*bits[:width], *[bits[-1] if extend else "0"] * (width - len(bits))]

    @staticmethod
    def signed(cell: dict[str, Any], pin: str) -> bool:
        return int(cell["parameters"].get(f"{pin}_SIGNED", "0"), 2) == 1

    def value(self, cell: dict[str, Any], first: int, width: int) -> tuple[str, list[list[str]]]:
        """The part of what a cell drives that begins at a bit, and its names where they stand in groups."""
        kind, pins = cell["type"], cell["connections"]
        part = slice(first, first + width)
        if kind in FLIP_FLOPS:
            if pins.get("CLK", pins.get("C")) != [self.clock]:
                raise ToolError("a register has another clock", 1)
            return self.signal(pins["D"][part]), []
        if kind in CHOICES:
            return self.choice(cell, part)
        if kind in NOT or kind in SAME:
            text = self.signal(self.operand(cell, "A", len(pins["Y"]))[part])
            return f"(~{text})" if kind in NOT else text, []
        if kind in BITWISE or kind in INVERTED:
            both = self.both(cell)
            texts = [self.signal(self.operand(cell, pin, len(pins["Y"]), both)[part]) for pin in "AB"]
            text = f"({texts[0]} {({**BITWISE, **INVERTED})[kind]} {texts[1]})"
            return text if kind in BITWISE else f"(~{text})", []
        if kind in HALVES:
            return f"({self.signal(pins['A'])} {HALVES[kind]} (~{self.signal(pins['B'])}))", []
        if kind in COMPOUND:
            return COMPOUND[kind].format(**{pin: self.signal(pins[pin]) for pin in "ABCD" if pin in pins}), []
        return self.whole_value(cell, width), []

    def both(self, cell: dict[str, Any]) -> bool:
        return self.signed(cell, "A") and self.signed(cell, "B")

    def choice(self, cell: dict[str, Any], part: slice) -> tuple[str, list[list[str]]]:
        texts, groups = {}, []
        self.told()
        for pin in "SBA":
            bits = cell["connections"][pin]
            texts[pin] = self.signal(bits if pin == "S" else bits[part])
            groups.append(self.told())
        text = f"({texts['S']} ? {texts['B']} : {texts['A']})"
        return f"(~{text})" if cell["type"] == "$_NMUX_" else text, groups

    def whole_value(self, cell: dict[str, Any], width: int) -> str:
        """What a cell drives whose bits hang on all of its operands."""
        kind, pins = cell["type"], cell["connections"]
        if len(cell["parts"]) > 1:
            raise NotWords(f"a word of {len(pins['Y'])} bits is wider than the {WIDEST} bits of the subset")
        if kind in SUMS:
            texts = [self.signal(self.operand(cell, pin, width, self.both(cell))) for pin in "AB"]
            return f"({texts[0]} {SUMS[kind]} {texts[1]})"
        if kind == "$neg":
            return f"({literal('0' * width)} - {self.signal(self.operand(cell, 'A', width))})"
        if kind in SHIFTS:
            return self.shift(cell, width)
        return self.padded(self.truth(cell), width)

    @staticmethod
    def padded(text: str, width: int) -> str:
        return text if width == 1 else "{" + literal("0" * (width - 1)) + ", " + text + "}"

    def truth(self, cell: dict[str, Any]) -> str:
        """A cell that answers one bit."""
        kind, pins = cell["type"], cell["connections"]
        if kind in EQUAL:
            return self.equal(cell)
        if kind in ORDERS:
            return self.ordered(cell)
        if kind in REDUCTIONS:
            text = self.reduced(REDUCTIONS[kind], pins["A"])
            return f"(~{text})" if kind == "$reduce_xnor" else text
        if kind == "$logic_not":
            return f"(!{self.reduced('|', pins['A'])})"
        if kind in ("$logic_and", "$logic_or"):
            mark = "&&" if kind == "$logic_and" else "||"
            return f"({self.reduced('|', pins['A'])} {mark} {self.reduced('|', pins['B'])})"
        raise NotWords(f"a cell {kind} is outside the subset")

    def reduced(self, mark: str, bits: list[Any]) -> str:
        parts = [self.signal(part) if len(part) == 1 else f"({mark}{self.signal(part)})" for part in chunks(bits)]
        return self.joined(mark, parts)

    @staticmethod
    def joined(mark: str, parts: list[str]) -> str:
        text = parts[0]
        for part in parts[1:]:
            text = f"({text} {mark} {part})"
        return text

    def equal(self, cell: dict[str, Any]) -> str:
        width = max(len(cell["connections"][pin]) for pin in "AB")
        mark, join = EQUAL[cell["type"]]
        sides = [chunks(self.operand(cell, pin, width, self.both(cell))) for pin in "AB"]
        return self.joined(join, [f"({self.signal(a)} {mark} {self.signal(b)})" for a, b in zip(*sides)])

    def ordered(self, cell: dict[str, Any]) -> str:
        width = max(len(cell["connections"][pin]) for pin in "AB")
        if width > WIDEST:
            raise NotWords(f"a comparison of {width} bits is wider than the words of the subset")
        texts = []
        for pin in "AB":
            bits = self.operand(cell, pin, width, self.both(cell))
            # of signed numbers the highest bit counts the other way round
            top = self.signal(bits[-1:])
            rest = self.signal(bits[:-1]) if bits[:-1] else ""
            low = ", ".join(part for part in (f"(~{top})", rest) if part)
            texts.append("{" + low + "}" if self.both(cell) else self.signal(bits))
        return f"({texts[0]} {ORDERS[cell['type']]} {texts[1]})"

    def shift(self, cell: dict[str, Any], width: int) -> str:
        """A shift by an unsigned number; one that may go beyond the word is left to the gates where an `x` comes in."""
        kind, pins = cell["type"], cell["connections"]
        by = list(pins["B"])
        while len(by) > 1 and by[-1] == "0":
            by.pop()
        if kind in ("$shift", "$shiftx") and self.signed(cell, "B"):
            raise NotWords(f"a cell {kind} is outside the subset")
        inner = max(len(pins["A"]), width)
        if inner > WIDEST or len(by) > WIDEST:
            raise NotWords(f"a shift of {inner} bits is wider than the words of the subset")
        if kind == "$shiftx" and (1 << len(by)) - 1 + width > len(pins["A"]):
            raise NotWords("a selected part may be outside its word")
        text = f"({self.signal(self.operand(cell, 'A', inner))} {SHIFTS[kind]} {self.signal(by)})"
        if inner == width:
            return text
        name = self.fresh("shifted")
        self.helpers.append(Drive(name, inner, text, [self.told()]))
        self.read.append(name)
        return f"{name}[{width - 1}:0]" if width > 1 else f"{name}[0]"
