"""The part of python3 -m tests.integration in which Icarus clocks right sources and their wrong twins by the rule of
the ports: what `audit` says of each is seen by a simulator too."""
from __future__ import annotations

import pathlib
import shutil
import subprocess
from typing import Dict

from tests.integration.bench import Bench
from tests.integration.judges import FILES, STYLES, TEST, for_ice40, netlist
from vidlakost_tools.audit import beside_rule
from vidlakost_tools.audit.beside_icarus import Beside
from vidlakost_tools.tool import ToolError
from vidlakost_tools.verilog import known_cells, port_judge
from vidlakost_tools.verilog.front_end import plain_of

RIGHT = [
    "rows_apart.v",
    "rows_of_one_word.v",
    "comment_apart.v",
    "priority_rows.v",
    "full.v",
    "net_on.v",
    "kept.v",
    "kept_by_lanes.v",
]
RIGHT += [
    "list_whole.v",
    "read_late.v",
    "counts.v",
    "minus.v",
    "signed.v",
    "member.v",
    "says.v",
    "keeps_not.v",
    "turns.v",
]
# those that `audit` says to be wrong or unknown; of the last two it warns
WRONG = [
    "rows_meet.v",
    "net_off.v",
    "counts_on.v",
    "minus_short.v",
    "signed_half.v",
    "member_beyond.v",
    "pipelined.v",
    "pipelined_forgets.v",
]
WRONG += ["says_not.v", "read_early.v", "delayed.v"]
# netlists: of generic gates with an asynchronous reset, and of the cells of ice40
GATES = {
    "counts.v": "right",
    "counts_on.v": "wrong",
    "minus.v": "right",
    "minus_short.v": "wrong",
    "signed.v": "right",
    "signed_half.v": "wrong",
}
ICE40 = {
    "counts.v": "right",
    "counts_on.v": "wrong",
    f"{STYLES}two_processes.v": "right",
    f"{STYLES}two_processes_forgets.v": "wrong",
}


def clocked(bench: Bench, file: str, options: Dict[str, str], said: str) -> None:
    """Looks at whether Icarus says `right` or `wrong` of a file."""
    source = bench.folder / file
    memory, cycles = port_judge.cycles_of(*(bench.folder / name for name in TEST.split()))
    try:
        plain = plain_of([str(source)], options)
        cells = known_cells.cells_of(options, [source.read_text()])
        told = beside_rule.told(beside_rule.Clocked(Beside([str(source)], plain, None, memory, cells), cycles, 100))
    except ToolError as error:
        told = f"refused: {error}"
    bench.is_so(told.startswith(said), f"{file} is {said}, and by Icarus {told}")


def made(bench: Bench, command: str) -> None:
    """Makes a netlist by the first part of a command."""
    subprocess.run(["bash", "-c", command.partition(" && ")[0]], cwd=bench.folder, check=True)


def twins(bench: Bench) -> None:
    """Right sources and wrong ones, and their netlists."""
    if not (shutil.which("iverilog") and shutil.which("yosys")):
        print("iverilog or yosys is not installed, so no simulator clocks the sources of the judges")
        return
    for name, said in [*((name, "right") for name in RIGHT), *((name, "wrong") for name in WRONG)]:
        (bench.folder / name).write_text(FILES[name])
        clocked(bench, name, {}, said)
    for name, said in GATES.items():
        made(bench, netlist(name, f"gates_{name}"))
        clocked(bench, f"gates_{name}", {}, said)
    for name, said in ICE40.items():
        out = f"ice40_{pathlib.Path(name).name}"
        made(bench, for_ice40(name, out))
        clocked(bench, out, {"--cells": "ice40"}, said)


PARTS = [twins]
