"""Of cells that Yosys makes of the sources: where they stand there, and which are refused before a pass makes something
else of them."""
from __future__ import annotations

import re
from typing import Any

from vidlakost_tools.tool import ToolError

REFUSED = [
    (r"\$a?dlatch|\$dlatchsr|\$sr$|\$ff$|\$_DLATCH|\$_SR_|\$_FF_", "a latch"),
    (r"\$aldff|\$_ALDFF", "an asynchronous load"),
    (r"\$tribuf|\$_TBUF_", "a tri-state driver"),
]
HINTS = {
    "a latch": (
        "set the signal in every branch, or give it a default first; a latch is allowed only in a clock gate"
    ),
    "an asynchronous load": "let the asynchronous reset load a constant",
    "a tri-state driver": "a multiplexer says which driver is taken",
}


def place_of(module: dict[str, Any], cell: dict[str, Any]) -> str:
    """The signal that a cell drives, and where it stands in the sources."""
    driven = {bit for pin, bits in cell["connections"].items() if pin in ("Q", "Y", "RD_DATA") for bit in bits}
    names = [name for name, net in module["netnames"].items() if not net["hide_name"] and driven & set(net["bits"])]
    places = {name: module["netnames"][name]["attributes"].get("src", "") for name in names}
    # a name of the sources, before one that stands in what is made of them alone
    names.sort(
        key=lambda name: (not places[name] or is_made(places[name]), re.fullmatch(r"n\d+_[a-z]", name) is not None)
    )
    found = [place for place in (cell["attributes"].get("src", ""), *map(places.__getitem__, names)) if place]
    where = next((place for place in found if not is_made(place)), found[0] if found else "")
    return ", ".join([*names[:1], *([short(where)] if where else [])])


def is_made(source: str) -> bool:
    """Whether a place is in the text that is made of sources in VHDL."""
    return short(source).startswith("vhdl.v:")


def short(source: str) -> str:
    """A place of the sources without the columns."""
    first = source.split("|")[0]
    return re.sub(r":(\d+)(\.\d+.*)?$", r":\1", re.sub(r"^.*/", "", first))


def is_refused(kind: str) -> bool:
    return any(re.match(pattern, kind) for pattern, _ in REFUSED)


def live_cells(module: dict[str, Any]) -> set[str]:
    """The cells on which an output, a memory or a part of another kind hangs, by way of any pin that goes out."""
    cells = module["cells"]
    drivers: dict[object, str] = {}
    found = set()
    for name, cell in cells.items():
        ways = cell.get("port_directions", {})
        drivers.update(
            (bit, name) for pin, bits in cell["connections"].items() if ways.get(pin) == "output" for bit in bits
        )
        if (
            cell["type"].startswith("$mem")
            or not set(cell["connections"]) <= set(ways)
            or "output" not in ways.values()
        ):
            found.add(name)
    todo = [bit for said in module["ports"].values() if said["direction"] != "input" for bit in said["bits"]]
    todo += [bit for name in found for bits in cells[name]["connections"].values() for bit in bits]
    while todo:
        driver = drivers.get(todo.pop())
        if driver is not None and driver not in found:
            found.add(driver)
            todo += [bit for bits in cells[driver]["connections"].values() for bit in bits]
    return found


def choices_of(module: dict[str, Any], latch: dict[str, Any]) -> set[str]:
    """The choices by which a latch takes what it takes. Yosys leaves out of them that it keeps what it holds, so that
    what else reads them reads something else."""
    drivers = {bit: name for name, cell in module["cells"].items() for bit in cell["connections"].get("Y", [])}
    todo, found = list(latch["connections"].get("D", [])), set()
    while todo:
        name = drivers.get(todo.pop(), "")
        if name not in found and module["cells"].get(name, {}).get("type") in ("$mux", "$pmux", "$_MUX_"):
            found.add(name)
            todo += [bit for pin in "AB" for bit in module["cells"][name]["connections"][pin]]
    return found


def refuse_cells(module: dict[str, Any], taken: set[str]) -> None:
    """Refuses what later passes would make something else of, as a flip-flop of a latch; not those that are taken, nor
    those on which nothing hangs, as the latch of a loop's variable that nothing reads behind the loop."""
    live = live_cells(module)
    for name, cell in module["cells"].items():
        if name in taken or name not in live and not choices_of(module, cell) & live:
            continue
        what = next((what for pattern, what in REFUSED if re.match(pattern, cell["type"])), None)
        if what:
            raise ToolError(f"{place_of(module, cell) or 'a cell'}: {what} is outside the subset; {HINTS[what]}", 1)
