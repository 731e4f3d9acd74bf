"""A module's way through standard cells: qflow maps it for delay and buffers its fan-outs, vesta and OpenSTA time it.

The cells are those of osu018 (0.18 micrometres), which come with qflow; nothing is placed. What the mapper and the
buffers choose hangs on the order in which they meet equal logic, so a figure scatters by a fifth and more: a module is
mapped seven times, with its lines in other orders that mean the same, and a figure is the middle one of the seven."""
import concurrent.futures
import itertools
import os
import random
import re
import shutil
import statistics
import subprocess
from typing import Dict, List, NamedTuple, Optional

TECHNOLOGY = "/usr/share/qflow/tech/osu018"
LIBRARY = os.path.join(TECHNOLOGY, "osu018_stdcells.lib")
SCRIPTS = "/usr/lib/qflow/scripts"
ORDERS = range(7)
PERIOD = 5  # nanoseconds; the slack against it tells the longest path

TIMING = """read_liberty {library}
read_verilog {netlist}
link_design {top}
create_clock -name clk -period {period} {{clk}}
report_checks -path_delay max -from [all_registers -clock_pins] -to [all_registers -data_pins] -digits 3
exit
"""


class Figures(NamedTuple):
    """Square micrometres of cells, and megahertz from register to register by each timer."""
    area: int
    vesta: int
    opensta: int

    def __str__(self) -> str:
        return f"{self.area}/{self.vesta}/{self.opensta}"


def missing() -> List[str]:
    """What this flow wants and this machine has not."""
    tools = [tool for tool in ("yosys", "sta") if not shutil.which(tool)]
    files = [path for path in (LIBRARY, os.path.join(SCRIPTS, "synthesize.sh")) if not os.path.exists(path)]
    return tools + files


def run(*words: str, folder: Optional[str] = None) -> str:
    done = subprocess.run(words, cwd=folder, stdout=subprocess.PIPE, stderr=subprocess.STDOUT, text=True, check=False)
    return done.stdout


def cell_areas() -> Dict[str, float]:
    with open(LIBRARY) as file:
        found = re.findall(r"cell\s*\((\w+)\)\s*\{.*?area\s*:\s*([\d.]+)", file.read(), re.S)
    return {cell: float(area) for cell, area in found}


def begin_project(folder: str) -> None:
    """The folders and the settings that qflow's scripts read."""
    names = {"source": "sourcedir", "synthesis": "synthdir", "layout": "layoutdir", "log": "logdir"}
    for name in names:
        os.makedirs(os.path.join(folder, name))
    settings = {"projectpath": folder, "techdir": TECHNOLOGY, "techname": "osu018", "scriptdir": SCRIPTS,
                "bindir": "/usr/lib/qflow/bin", **{word: os.path.join(folder, name) for name, word in names.items()}}
    with open(os.path.join(folder, "qflow_vars.sh"), "w") as file:
        file.write("#!/usr/bin/tcsh -f\n" + "".join(f"set {word}={value}\n" for word, value in settings.items()))
    open(os.path.join(folder, "project_vars.sh"), "w").close()


def kind_of(line: str) -> Optional[str]:
    """What a line is whose neighbours of the same kind can stand in any order: a declaration, or an assignment."""
    found = re.match(r"\s*(?:(reg|wire|assign)\b|\w+ <=).*;$", line)
    return (found[1] or "sets") if found else None


def reordered(text: str, order: int) -> str:
    """A module in the order of a number, in which tools meet its lines; 0 is the order in which they stand."""
    if not order:
        return text
    lines: List[str] = []
    shuffle = random.Random(order).shuffle
    for kind, group in itertools.groupby(re.sub(r"; (?=reg\b|\w+ <=)", ";\n", text).split("\n"), kind_of):
        same = list(group)
        if kind:
            shuffle(same)
        lines += same
    return "\n".join(lines)


def megahertz_by_opensta(folder: str, netlist: str, top: str) -> int:
    script = os.path.join(folder, "timing.tcl")
    with open(script, "w") as file:
        file.write(TIMING.format(library=LIBRARY, netlist=netlist, top=top, period=PERIOD))
    slack = re.search(r"([-\d.]+)\s+slack", run("sta", "-no_splash", "-exit", script))
    if slack is None:
        raise SystemExit(f"OpenSTA finds no path in {netlist}")
    return round(1000 / (PERIOD - float(slack.group(1))))


def netlist_of(module: str, top: str, order: int, folder: str) -> str:
    """The file of cells that a module becomes, in an empty folder."""
    begin_project(folder)
    source = os.path.join(folder, "source", f"{top}.v")
    with open(module) as text, open(source, "w") as copy:
        copy.write(reordered(text.read(), order))
    said = run(os.path.join(SCRIPTS, "synthesize.sh"), folder, top, source, folder=folder)
    netlist = os.path.join(folder, "synthesis", f"{top}.rtlnopwr.v")
    if not os.path.exists(netlist):
        raise SystemExit(f"qflow made no netlist of {module}; it ends with:\n{said[-400:]}")
    return netlist


def area_of(netlist: str) -> int:
    with open(netlist) as file:
        cells = re.findall(r"^\s*(\w+) \w+ \(", file.read(), re.M)
    areas = cell_areas()
    return round(sum(areas.get(cell, 0.0) for cell in cells))


def megahertz_by_vesta(folder: str, top: str) -> int:
    said = run(os.path.join(SCRIPTS, "vesta.sh"), folder, top, folder=folder)
    log = os.path.join(folder, "log", "sta.log")
    if os.path.exists(log):
        with open(log) as file:
            said = file.read()
    found = re.search(r"zero margin\) = ([\d.]+)", said)
    if found is None:
        raise SystemExit(f"vesta finds no path in {folder}; it ends with:\n{said[-400:]}")
    return round(float(found[1]))


def mapped_once(module: str, top: str, order: int, folder: str) -> Figures:
    """One run of the flow, in an empty folder."""
    netlist = netlist_of(module, top, order, folder)
    return Figures(area_of(netlist), megahertz_by_vesta(folder, top), megahertz_by_opensta(folder, netlist, top))


def mapped(module: str, top: str, folder: str) -> Figures:
    """The middle figures of the runs of a module, in folders below this one."""
    places = [os.path.join(os.path.realpath(folder), f"flow_{top}_{order}") for order in ORDERS]
    with concurrent.futures.ThreadPoolExecutor(os.cpu_count()) as pool:
        runs = list(pool.map(lambda order: mapped_once(module, top, order, places[order]), ORDERS))
    for place in places:
        shutil.rmtree(place)
    return Figures(*(round(statistics.median(figures)) for figures in zip(*runs)))
