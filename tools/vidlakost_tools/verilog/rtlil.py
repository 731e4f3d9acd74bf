"""What Yosys writes of a module as text: signals with two drivers, and modules without their initial values."""
from __future__ import annotations

import re
from typing import Any, Mapping

from vidlakost_tools.text import lines_of


def parts_of(signal: str) -> list[str]:
    """The parts of a signal as RTLIL writes it: `\\a`, `\\a [3]`, `\\a [3:0]`, a constant, or several in braces."""
    return re.findall(r"[\\$][^ ]+(?: \[[0-9:]+\])?|[0-9]+'[^ ]+", signal)


def bits_of(part: str, widths: Mapping[str, int]) -> list[tuple[str, int]]:
    """The bits of a part; none of a constant."""
    if part[0] not in "\\$":
        return []
    name, _, at = part.partition(" ")
    if not at:
        return [(name, bit) for bit in range(widths.get(name, 1))]
    high, _, low = at[1:-1].partition(":")
    return [(name, bit) for bit in range(int(low or high), int(high) + 1)]


def left_of(line: str) -> str:
    """The left side of a connection."""
    body = line[len("connect ") :]
    if body.startswith("{"):
        # a name may have a brace in it, but none begins with one
        return body[: body.index(" }") + 2]
    found = re.match(r"[^ ]+(?: \[[0-9:]+\])?", body)
    return found[0] if found else ""


def driven_twice(rtlil: str) -> str | None:
    """A signal with two `assign`s, also where both are constants, which Yosys' `check` does not see."""
    widths: dict[str, int] = {}
    places: dict[str, str] = {}
    driven: set[tuple[str, int]] = set()
    depth, place = 0, ""
    for line in map(str.strip, lines_of(rtlil)):
        if line.startswith("module "):
            depth, driven = 0, set()
        depth += line.startswith(("cell ", "process ", "switch ")) - (line == "end")
        if line.startswith("attribute \\src "):
            place = line.split('"')[1]
        found = re.fullmatch(r"wire (?:.* )?([\\$][^ ]+)", line)
        if found:
            width = re.search(r" width ([0-9]+) ", line)
            widths[found[1]], places[found[1]] = int(width[1]) if width else 1, place
        if depth > 0 or not line.startswith("connect "):
            continue
        for bit in [bit for part in parts_of(left_of(line)) for bit in bits_of(part, widths)]:
            if bit in driven:
                return f"{bit[0].lstrip(chr(92))} ({places.get(bit[0], 'no place')}) has two drivers"
            driven.add(bit)
    return None


def driven_constant(module: Mapping[str, Any]) -> str | None:
    """A cell whose output is tied to a constant."""
    for cell in module["cells"].values():
        for pin, bits in cell["connections"].items():
            outward = cell.get("port_directions", {}).get(pin) == "output"
            if outward and any(bit in ("0", "1", "x", "z") for bit in bits):
                return f"what is driven at {cell['attributes'].get('src', 'no place')} is also tied to a constant"
    return None


def without_initial(rtlil: str) -> tuple[str, bool]:
    """The modules without what their `initial` blocks and initial values say, and whether they said anything. Of a
    register that nothing else sets Yosys makes a constant where it reads them. What a memory holds at first is left to
    `written_contents`: which of its bits are said is written as the number that it is."""
    kept: list[str] = []
    process: list[str] | None = None
    enables: dict[str, str] = {}
    had = False
    for line in lines_of(rtlil):
        if line.startswith("  process "):
            process = []
        if process is None:
            kept.append(line)
            continue
        process.append(line)
        if line == "  end":
            if any(part.strip() == "sync init" for part in process):
                enables.update(enables_of(process))
                rest = [part for part in process if not part.strip().startswith(("update ", "memwr "))]
                had |= sum("$memwr$" not in part for part in process if part not in rest) > 0
                process = rest
            kept += process
            process = None
    return "\n".join(map(lambda line: told_enable(line, enables), kept)) + "\n", had


def enables_of(process: list[str]) -> dict[str, str]:
    """The constants in a process of `initial` that say which bits of a memory it sets."""
    words = [part.split() for part in process]
    constants = {part[1]: part[2] for part in words if len(part) == 3 and part[0] == "assign" and "'" in part[2]}
    updates = [part for part in words if len(part) == 3 and part[0] == "update" and part[1].startswith("$memwr$")]
    return {part[1]: constants[part[2]] for part in updates if part[2] in constants}


def told_enable(line: str, enables: dict[str, str]) -> str:
    """A line of a cell, with the constant where it names one of them."""
    words = line.split()
    return f"    connect \\EN {enables[words[2]]}" if words[:2] == ["connect", "\\EN"] and words[2] in enables else line


def written_contents(module: dict[str, Any]) -> str:
    """A script that takes away what the memories hold at first that are written; what is only read keeps it."""
    cells = [(cell["type"], cell["parameters"].get("MEMID", "")) for cell in module["cells"].values()]
    written = {name for kind, name in cells if re.match(r"\$memwr|\$mem(_v2)?$", kind)}
    dropped = sorted({name for kind, name in cells if kind.startswith("$meminit") and name in written})
    if not all(re.fullmatch(r"\\[\w.]+", name) for name in dropped):
        return "delete t:$meminit*\n"
    return "".join(f"delete t:$meminit* r:MEMID=\\{name} %i\n" for name in dropped)
