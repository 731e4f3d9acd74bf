"""The cells of a netlist that Yosys made for a family of FPGAs: Yosys' own models of those that the netlist uses,
without their times and without what their registers hold at first."""
from __future__ import annotations

import pathlib
import re
import shutil
from typing import Any, Mapping, NamedTuple

from vidlakost_tools.collar.vendor import modules_in
from vidlakost_tools.text import LARGE_BYTES, lines_of, read_bytes
from vidlakost_tools.tool import ToolError
from vidlakost_tools.verilog.conditions import taken



class Family(NamedTuple):
    """The models' file in Yosys' share folder, the cells of it that are logic and registers alone, and these in
    words."""

    file: str
    cells: str
    told: str


FAMILIES = {
    "ice40": Family(
        "ice40/cells_sim.v",
        "SB_LUT4|SB_CARRY|SB_GB|SB_DFFN?E?(?:S|R|SS|SR)?",
        "SB_LUT4, SB_CARRY, SB_GB, and SB_DFF with N, E, S, R, SS and SR behind it",
    ),
    "ecp5": Family(
        "ecp5/cells_sim.v",
        "LUT4|LUT2|L6MUX21|PFUMX|INV|CCU2C|TRELLIS_FF",
        "LUT4, LUT2, L6MUX21, PFUMX, INV, CCU2C and TRELLIS_FF",
    ),
}
MODULE = re.compile(r"^module\s+(\w+)\b.*?^endmodule\b", re.MULTILINE | re.DOTALL)
GENERIC = re.compile(r"^module\s+\\(\$_\w+_)\s.*?^endmodule\b", re.MULTILINE | re.DOTALL)
DEFINE = re.compile(r"\s*`define\s+(\w+)(?:\((\w+)\))?[ \t]*(.*)")
TIMES = re.compile(r"\bspecify\b.*?\bendspecify\b", re.DOTALL)
MACRO = re.compile(r"`(\w+)(?:\(([^()]*)\))?")


def share() -> pathlib.Path:
    """Yosys' share folder."""
    program = shutil.which("yosys") or ""
    for folder in (pathlib.Path(program).resolve().parent, pathlib.Path(program).parent):
        place = folder.parent / "share" / "yosys"
        if place.is_dir():
            return place
    raise ToolError("Yosys' share folder was not found beside its program")


def models(text: str) -> dict[str, str]:
    """Of each module of the models its text, with the macros in it written out; initial values are ignored."""
    macros: dict[str, tuple[str, str]] = {}
    lines = []
    for line in lines_of(taken("the models of Yosys", text)):
        define = DEFINE.match(line)
        if define:
            value = re.sub(r"\s*//.*", "", define[3])
            macros[define[1]] = (define[2] or "", "" if value.startswith("initial") else value)
        elif line and not line.strip().startswith(("`timescale", "//", "(*")):
            lines.append(re.sub(r"^\s*initial\b[^;]*;", "", line))

    def written(match: re.Match[str]) -> str:
        parameter, value = macros.get(match[1], ("", match[0]))
        rest = f"({match[2]})" if match[2] is not None and not parameter else ""
        return (re.sub(rf"\b{parameter}\b", match[2] or "", value) if parameter else value) + rest

    whole = TIMES.sub("", MACRO.sub(written, "\n".join(lines)))
    return {match[1]: match[0] for match in MODULE.finditer(whole)}


def generic(texts: list[str]) -> str:
    """Yosys' own models of its generic cells that texts name, for a simulator."""
    named = {name for text in texts for name in re.findall(r"\\(\$_\w+_)\s", text)}
    path = share() / "simcells.v" if named else None
    if path is None or not path.is_file():
        return ""
    text = read_bytes(path, LARGE_BYTES).decode("utf-8", "replace")
    return "\n\n".join(match[0] for match in GENERIC.finditer(text) if match[1] in named) + "\n"


def family_of(options: Mapping[str, Any]) -> str | None:
    """The family that `--cells` names."""
    family = options.get("--cells")
    if family is not None and family not in FAMILIES:
        told = "; ".join(f"{name}, of it {one.told}" for name, one in FAMILIES.items())
        raise ToolError(f"--cells knows {told}")
    return family


def told(options: Mapping[str, Any]) -> str:
    """The cells of the family that `--cells` names, in words; nothing where it names none."""
    family = family_of(options)
    return FAMILIES[family].told if family else ""


def closed(names: set[str], given: dict[str, str], known: str) -> list[str]:
    """Cells with those of which their models are made, in the order of their names."""
    found, todo = set(names), list(names)
    while todo:
        parts = set(re.findall(rf"\b(?:{known})\b(?= +#?\()", given.get(todo.pop(), "")))
        more = {part for part in parts if part in given} - found
        found |= more
        todo += more
    return sorted(found)


def cells_of(options: Mapping[str, Any], texts: list[str]) -> str:
    """The models of the cells that sources name and do not have themselves; nothing where no family is named."""
    family = family_of(options)
    if family is None:
        return ""
    known = FAMILIES[family].cells
    path = share() / FAMILIES[family].file
    if not path.is_file():
        raise ToolError(f"this Yosys has no models of {family}'s cells")
    given = models(read_bytes(path, LARGE_BYTES).decode("utf-8", "replace"))
    own = {name for text in texts for name in modules_in(text)}
    named = {match[0] for text in texts for match in re.finditer(rf"\b(?:{known})\b", text)}
    used = [name for name in closed(named - own, given, known) if name not in own]
    missing = next((name for name in used if name not in given or "`" in given[name]), None)
    if missing:
        raise ToolError(f"the models of this Yosys have no {missing} that can be read")
    return "\n\n".join(given[name] for name in used) + "\n"
