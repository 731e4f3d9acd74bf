"""How long the self-tests of many memories take, and how large they are.

usage: vidlakost summary MARCH MEMORY .. [--mhz F] [--csv] [--cells]
       vidlakost summary --help

summary prints a line for each description: words, bits, backgrounds, the cycles of the whole test, and its
milliseconds at F MHz (100 by default). Below are the cycles of all tests one after another, and those of the longest,
which all tests at once take. --cells has Yosys make gates of each module, and counts cells, and flip-flops among them.
--csv writes columns separated by commas."""
from __future__ import annotations

import csv
import re
import shutil
import sys
from typing import Any, Iterator

from vidlakost_tools.program import ask
from vidlakost_tools.temporary import folder_of_its_own
from vidlakost_tools.texts.march import Element, march_of
from vidlakost_tools.texts.memory import read_memory
from vidlakost_tools.tool import ToolError, words_of
from vidlakost_tools.verilog.yosys import gates_of


def cells_of(march: str, memory_file: str) -> tuple[int, int]:
    """The number of cells and of flip-flops that Yosys needs for a self-test."""
    with folder_of_its_own() as folder:
        (folder / "list").write_text("")
        ask("compile", march, memory_file, folder / "list", folder / "module.v", folder / "report")
        gates = gates_of(folder / "module.v", "AND,OR,XOR,MUX")
        return gates.cells, gates.flip_flops


def row_of(march: str, elements: list[Element], memory_file: str, mhz: float, with_cells: bool) -> dict[str, Any]:
    memory = read_memory(memory_file)
    cycles = memory.cycles(elements)
    row = {
        "memory": memory.name,
        "words": memory.words,
        "bits": memory.bits,
        "backgrounds": len(memory.backgrounds),
        "cycles": cycles,
        "milliseconds": f"{cycles / mhz / 1000:.3f}",
    }
    if with_cells:
        row["cells"], row["flip-flops"] = cells_of(march, memory_file)
    return row


def table(rows: list[dict[str, Any]]) -> Iterator[str]:
    lines = [list(rows[0]), *([str(cell) for cell in row.values()] for row in rows)]
    widths = [max(map(len, column)) for column in zip(*lines)]
    for line in lines:
        yield "  ".join([line[0].ljust(widths[0]), *(cell.rjust(width) for cell, width in zip(line[1:], widths[1:]))])


def frequency(text: str) -> float:
    if not re.fullmatch(r"\d{1,6}(\.\d{1,6})?", text) or float(text) <= 0:
        raise ToolError(f"--mhz is a positive number, and not '{text}'")
    return float(text)


def main(arguments: list[str]) -> int:
    (march, *memories), options = words_of(__doc__, arguments, {"--mhz": 1, "--csv": 0, "--cells": 0}, 2)
    mhz = frequency(options.get("--mhz", "100"))
    if "--cells" in options and shutil.which("yosys") is None:
        raise ToolError("--cells needs yosys, which is not on the PATH")
    elements = march_of(march)[1]
    rows = [row_of(march, elements, memory, mhz, "--cells" in options) for memory in memories]
    if "--csv" in options:
        writer = csv.DictWriter(sys.stdout, list(rows[0]), lineterminator="\n")
        writer.writeheader()
        writer.writerows(rows)
        return 0
    print("\n".join(table(rows)))
    total, longest = sum(row["cycles"] for row in rows), max(row["cycles"] for row in rows)
    for what, cycles in (("one after another", total), ("all at once", longest)):
        print(f"{what} {cycles:,} cycles, {cycles / mhz / 1000:.3f} ms at {mhz:g} MHz")
    return 0
