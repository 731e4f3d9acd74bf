"""The commands of the program and the tools beside them, by task, a line each."""
from __future__ import annotations

import os
import re

from vidlakost_tools.program import ROOT, command_table
from vidlakost_tools.text import read_text

TOOLS = ROOT / "tools"
# old names of tools, by the old name
OLD = {"replay": "trace"}
TASKS = {
    "To begin with": ["judge", "compile", "bench", "show", "explain"],
    "Marches and their escapes": [
        "explore",
        "design",
        "decoder",
        "linked",
        "inword",
        "sim",
        "trace",
        "report",
        "compare",
    ],
    "A module beside its memory": [
        "vectors",
        "benchfault",
        "benchall",
        "testbench",
        "locate",
        "turn",
        "liberty",
        "collar",
        "hold",
        "summary",
    ],
    "Modules of others": ["audit", "check", "benchfile", "plain", "formal"],
    "Chips": ["chip", "schedule", "top", "places", "flow"],
    "Start, watch, diagnose": ["access", "sdc", "bitmap", "diagnosis", "share", "vhdl"],
    "Handing it on": ["release", "make"],
}


def tools() -> list[str]:
    """The tools that are here, by their own names."""
    names = sorted(path.name for path in TOOLS.iterdir() if path.is_file() and os.access(path, os.X_OK))
    return [name for name in names if re.fullmatch("[a-z]+", name) and name not in OLD]


def doc_of(tool: str) -> str:
    """The description at the head of a tool."""
    found = re.search(
        r'^"""(.*?)"""',
        read_text(TOOLS / "vidlakost_tools" / "commands" / f"{OLD.get(tool, tool)}.py"),
        re.MULTILINE | re.DOTALL,
    )
    return found[1] if found else ""


def line_of(name: str) -> str:
    """What a command or a tool is for, in a line. For a tool this is the first sentence of its head."""
    purpose = next((command.purpose for command in command_table() if command.name == name), None)
    if purpose is not None:
        return purpose
    first = " ".join(doc_of(name).split("\n\n")[0].split()) if name in tools() else ""
    return first[:1].lower() + first[1:].rstrip(".") if first[1:2].islower() or first[1:2] == " " else first.rstrip(".")


def by_task() -> list[tuple[str, list[str]]]:
    """The names of all commands and tools that are here. Those that no task names come last."""
    known = [*(command.name for command in command_table()), *tools()]
    listed = [(title, [name for name in names if name in known]) for title, names in TASKS.items()]
    named = {name for _, names in listed for name in names}
    rest = [name for name in known if name not in named]
    return [(title, names) for title, names in [*listed, ("Further", rest)] if names]
