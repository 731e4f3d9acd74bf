"""Sources that can mean two things: rows of a case that overlap though they are said not to, a word of a memory that
two blocks write, a register that two blocks set, and cells of a library whose driver can be off."""
from __future__ import annotations

import dataclasses
import re
from typing import Any, Iterator

from vidlakost_tools.text import LARGE_BYTES, lines_of, read_bytes, shown, template
from vidlakost_tools.tool import ToolError
from vidlakost_tools.verilog.yosys_cells import place_of, short

# ---- rows that overlap

WIRES = ("holds", "later", "alone", "open", "may", "taken")
CELL = "  cell {kind} {name}$cell\n{pins}    connect \\Y {name}\n  end"
PIN = "    parameter \\{pin}_SIGNED 0\n    parameter \\{pin}_WIDTH 1\n    connect \\{pin} {signal}\n"
HOLDS = template(__file__, "two_meanings_holds.sv")


@dataclasses.dataclass
class Rows:
    """A case: its number, its depth in the text, what it looks at, its place, whether it is said that no two rows of it
    hold at once, and its rows but for the default."""

    number: int
    depth: int
    signal: str
    place: str
    is_said: bool
    rows: list[str] = dataclasses.field(default_factory=list)

    def name(self, what: str, row: int) -> str:
        begin = "\\rows_that_overlap" if what == "open" else f"$rows${what}"
        return f"{begin}${self.number}${row}"

    def meet(self) -> bool:
        """Whether two rows may hold at once, of which the contrary is said."""
        return self.is_said and any(
            not_apart(one, other) for at, one in enumerate(self.rows) for other in self.rows[:at]
        )

    def wires(self) -> list[str]:
        return [f"{self.place}\n  wire {self.name(what, at)}" for at in range(len(self.rows)) for what in WIRES]

    def parts(self) -> list[str]:
        """What drives the wires: that a row holds; that a later one does; that this one is taken even so, which is
        open."""
        found = []
        for at, row in enumerate(self.rows):
            holds, later, alone, is_open, may, taken = (self.name(what, at) for what in WIRES)
            found.append(HOLDS.substitute(name=holds, signal=self.signal, row=row))
            behind = (
                [self.name(what, at + 1) for what in ("holds", "later")] if at + 1 < len(self.rows) else ["1'0", "1'0"]
            )
            found += [gate("$or", later, *behind), gate("$not", alone, later), gate("$or", may, is_open, alone)]
            found.append(gate("$and", taken, holds, may))
            found.append(f"  cell $anyseq {is_open}$cell\n    parameter \\WIDTH 1\n    connect \\Y {is_open}\n  end")
        return found


def gate(kind: str, name: str, *signals: str) -> str:
    pins = "".join(PIN.format(pin=pin, signal=signal) for pin, signal in zip("AB", signals))
    return CELL.format(kind=kind, name=name, pins=pins + "    parameter \\Y_WIDTH 1\n")


def not_apart(one: str, other: str) -> bool:
    """Whether two rows may hold at once: none of their numbers may differ in a bit that both say, or one is no
    number."""
    numbers = [[re.fullmatch(r" *\d+'([01-]+) *", part) for part in row.split(",")] for row in (one, other)]
    return any(
        first is None or second is None or not any({"0", "1"} == {*bits} for bits in zip(first[1], second[1]))
        for first in numbers[0]
        for second in numbers[1]
    )


def open_rows(rtlil: str) -> str:
    """The modules where of rows that are said not to overlap, and do, any may be taken: a simulator takes the first,
    and a synthesizer need not."""
    kept: list[str] = []
    cases: list[Rows] = []
    stack: list[tuple[Rows, list[int]]] = []
    begin, is_said, place = 0, False, ""
    for line in lines_of(rtlil):
        words, depth = line.split(), len(line) - len(line.lstrip())
        kept.append(line)
        if words[:1] == ["module"]:
            begin, cases = len(kept), []
        elif words[:2] == ["attribute", "\\parallel_case"]:
            is_said = words[2] != "0"
            kept.pop()
        elif words[:2] == ["attribute", "\\src"]:
            place = "  " + line.strip()
        elif words[:1] == ["switch"]:
            # the places at which its lines stand, that of the switch first
            one = Rows(len(kept), depth, line.strip()[len("switch ") :], place, is_said)
            stack.append((one, [len(kept) - 1]))
            is_said = False
        elif stack and words[:1] == ["case"] and depth == stack[-1][0].depth + 2 and len(words) > 1:
            row = of_constant(line.strip()[len("case ") :], stack[-1][0].signal)
            kept[-1] = " " * depth + f"case {row}"
            stack[-1][0].rows.append(row)
            stack[-1][1].append(len(kept) - 1)
        elif words == ["end"] and stack and kept[stack[-1][1][0]].startswith(" " * depth + "switch"):
            one, places = stack.pop()
            if one.meet():
                cases.append(one)
                put_rows(kept, one, places)
        elif words == ["end"] and depth == 0 and cases:
            kept[-1:] = [*(part for one in cases for part in one.parts()), line]
            kept[begin:begin] = [wire for one in cases for wire in one.wires()]
            cases = []
    return "\n".join(kept) + "\n"


def of_constant(row: str, signal: str) -> str:
    """A row of a case that looks at a constant: a pattern that this meets is the constant itself, since Yosys passes
    over one with a wild bit."""
    if not re.fullmatch(r"\d+'[01]+", signal):
        return row
    width, _, bits = signal.partition("'")
    parts = [part.strip() for part in row.split(",")] if "'" in row and "{" not in row else []
    met = [part for part in parts if re.fullmatch(f"{width}'" + "".join(f"[{bit}-]" for bit in bits), part)]
    return signal if met else row


def put_rows(kept: list[str], one: Rows, places: list[int]) -> None:
    """Says of a case which of its rows is taken, in place of what they look for."""
    kept[places[0]] = " " * one.depth + "switch 1'1"
    for row, at in enumerate(places[1:]):
        kept[at] = " " * (one.depth + 2) + "case " + one.name("taken", row)


# ---- two blocks


def drivers(module: dict[str, Any]) -> dict[object, tuple[str, int]]:
    """Of each bit the cell that drives it, and which bit of its output it is."""
    found = {}
    for name, cell in module["cells"].items():
        for bit, index in (
            (bit, index) for pin in ("Y", "Q") for index, bit in enumerate(cell["connections"].get(pin, []))
        ):
            found[bit] = name, index
    return found


def refuse_two_blocks(module: dict[str, Any]) -> None:
    """Refuses a register that two blocks set, and a memory of which two blocks may write one bit in one cycle."""
    driven: dict[object, str] = {}
    for name, cell in module["cells"].items():
        bits = [
            bit
            for pin, bits in cell["connections"].items()
            if cell["port_directions"].get(pin) == "output"
            for bit in bits
        ]
        other = next((driven[bit] for bit in bits if bit in driven), None)
        if other is not None:
            both = [module["cells"][other], cell]
            what = "two blocks set it" if all("Q" in one["connections"] for one in both) else "it has two drivers"
            signal = place_of(module, cell).split(", ")[0]
            raise ToolError(f"{signal} ({' and '.join(sorted(map(where, both)))}): {what}; only one may", 1)
        driven.update((bit, name) for bit in bits if isinstance(bit, int))
    refuse_writers(module)


def where(cell: dict[str, Any]) -> str:
    return short(cell["attributes"].get("src", "no place"))


def refuse_writers(module: dict[str, Any]) -> None:
    """Refuses a memory with two writers between which the language has no order, as two blocks on one edge."""
    ports: dict[str, list[dict[str, Any]]] = {}
    for cell in module["cells"].values():
        if cell["type"].startswith("$memwr"):
            ports.setdefault(cell["parameters"]["MEMID"], []).append(cell)
    driver = drivers(module)
    for memory, cells in ports.items():
        for later, earlier in ((later, earlier) for later in cells for earlier in cells):
            if is_open_order(later, earlier) and any(meets(module, driver, later, earlier)):
                lines = " and ".join(sorted(map(where, (earlier, later))))
                why = "two blocks write this memory, and the language does not say which is last"
                raise ToolError(f"{shown(memory.lstrip(chr(92)))} ({lines}): {why}; let one block write it", 1)


def is_open_order(later: dict[str, Any], earlier: dict[str, Any]) -> bool:
    """Whether the first of two writers is behind the second in the text, and not behind it in one block."""
    numbers = [
        int(cell["parameters"]["PORTID" if "PORTID" in cell["parameters"] else "PRIORITY"], 2)
        for cell in (later, earlier)
    ]
    if later is earlier or numbers[0] < numbers[1]:
        return False
    mask = later["parameters"].get("PRIORITY_MASK", "")[::-1]
    return bool(mask[numbers[1] : numbers[1] + 1] != "1")


def meets(
    module: dict[str, Any], driver: dict[object, tuple[str, int]], one: dict[str, Any], other: dict[str, Any]
) -> Iterator[bool]:
    """Of each bit whether two writers may both write it."""
    for first, second in zip(one["connections"]["EN"], other["connections"]["EN"]):
        yield may_be_one(module, driver, first) and may_be_one(module, driver, second)


def may_be_one(module: dict[str, Any], driver: dict[object, tuple[str, int]], bit: object) -> bool:
    """Whether a bit may be 1, by the constants among which choices choose."""
    todo, seen = [bit], set()
    while todo:
        here = todo.pop()
        if here in seen or here == "0":
            continue
        seen.add(here)
        name, index = driver.get(here, ("", 0))
        cell = module["cells"].get(name)
        if cell is None or cell["type"] not in ("$mux", "$pmux"):
            return True
        pins = cell["connections"]
        todo += [pins["A"][index], *pins["B"][index :: len(pins["Y"])]]
    return False


def beyond_words(module: dict[str, Any]) -> Iterator[str]:
    """What there is to warn of where an address has more bits than the number of a memory's last word: it is cut to
    these. With fewer bits too it may lie beyond the words, and then it is open."""
    memories = {f"\\{name}": said for name, said in module.get("memories", {}).items()}
    for cell in module["cells"].values():
        said = memories.get(cell["parameters"].get("MEMID", "")) if re.match(r"\$mem(rd|wr)", cell["type"]) else None
        if said is None:
            continue
        bits = (said["start_offset"] + said["size"] - 1).bit_length()
        if any(bit != "0" for bit in cell["connections"].get("ADDR", [])[bits:]):
            name = shown(cell["parameters"]["MEMID"].lstrip(chr(92)))
            why = f"an address beyond its {said['size']} words is cut to {bits} bits"
            yield f"{name} ({where(cell)}): {why}; a simulator reads an x there and writes nothing"


# ---- drivers that can be off

CAN_BE_OFF = "a driver that can be off is outside the subset; use a multiplexer"
TOKEN = re.compile(r'/\*.*?\*/|"(?:\\.|[^"\\])*"|[{}]|\bcell\s*\(\s*"?([^")\s]*)"?\s*\)|\b(three_state)\b', re.DOTALL)


def off_cells(text: str) -> set[str]:
    """The cells of a library of which a driver can be off."""
    found, cell, depth, inside = set(), "", 0, 0
    for match in TOKEN.finditer(text):
        depth += {"{": 1, "}": -1}.get(match[0], 0)
        if match[1] is not None:
            cell, inside = match[1], depth
        elif match[2] and depth > inside:
            found.add(cell)
    return found


def refuse_off(libraries: list[str], rtlil: str) -> None:
    """Refuses a part that is such a cell: Yosys leaves out what turns its driver off. A `$pmux` that a source names is
    one too: rows that overlap."""
    off = {name for file in libraries for name in off_cells(read_bytes(file, LARGE_BYTES).decode("utf-8", "replace"))}
    place = ""
    for line in lines_of(rtlil):
        if line.startswith("  attribute \\src "):
            place = short(line.split('"')[1])
        found = re.fullmatch(r"  cell \\(\S+) \\?(\S+)", line)
        if found and found[1] in off:
            what = f"the cell {found[1]} is a three-state driver"
            raise ToolError(f"{shown(found[2])} ({place}): {what}; {CAN_BE_OFF}", 1)
        if found is None and line.startswith("  cell $pmux "):
            raise ToolError(f"{place}: a cell $pmux, which Yosys reads differently if two of its rows hold", 1)


# gates of the language whose driver can be off, of which Yosys inverts some
OFF = re.compile(r"\b(?:bufif[01]|notif[01])\b")
MODULE = re.compile(r"\bmodule\s+(?:automatic\s+|static\s+)?\\?([^\s(#;]+)")


def refuse_off_gates(file: str, text: str, rtlil: str) -> None:
    """Refuses such a gate where its module is a part of the whole."""
    for match in OFF.finditer(text):
        named = [found[1] for found in MODULE.finditer(text, 0, match.start())][-1:]
        if not named or re.search(rf"^module (?:\S*\\)?{re.escape(named[0])}(?:\\|$)", rtlil, re.MULTILINE):
            line = text.count("\n", 0, match.start()) + 1
            raise ToolError(f"{shown(file)}:{line}: {match[0]}: {CAN_BE_OFF}", 1)
