"""Several files that a tool writes to one folder."""
from __future__ import annotations

import hashlib
import os
import pathlib
import re
from typing import Collection, Iterable

from vidlakost_tools.folder import Folder, staging
from vidlakost_tools.text import INPUT_BYTES, lines_of, shown
from vidlakost_tools.tool import ToolError, refuse_inputs

# the mark in the first line of a file that a tool may write again, and the place of the file's sum there
OWN = re.compile(r"made by vidlakost [a-z]+")
SUM = re.compile(r"(made by vidlakost [a-z]+) \(([0-9a-f]{16})\)")
# the sum in a list of files, for a file that has no such line
LISTED = re.compile(r"// ([A-Za-z0-9_.]+) \(([0-9a-f]{16})\)")
LIST = "files.f"
# how a comment looks in a file of each kind
COMMENTS = {
    **dict.fromkeys((".v", ".sv", ".hex", ".cpp", ".rdl", ".icl", ".f", ".stil"), "// {}"),
    **dict.fromkeys((".vhd", ".bsdl", ".txt"), "-- {}"),
    **dict.fromkeys((".sdc", ".cfg", ".pdl", ".tcl", ".wgl"), "# {}"),
    ".svf": "! {}",
    ".md": "<!-- {} -->",
}


def marked(tool: str, texts: dict[str, str]) -> dict[str, str]:
    """The texts, each after a line that says which tool made it."""
    lines = {name: COMMENTS[pathlib.PurePath(name).suffix].format(f"made by vidlakost {tool}") for name in texts}
    return {name: f"{lines[name]}\n{text}" for name, text in texts.items()}


def sum_of(text: str) -> str:
    return hashlib.sha256(text.encode("utf-8", "surrogatepass")).hexdigest()[:16]


def summed(text: str) -> str:
    """The text with its sum in the first line, if that line says which tool made it."""
    head, line, rest = text.partition("\n")
    return OWN.sub(lambda match: f"{match[0]} ({sum_of(text)})", head, count=1) + line + rest


def is_own(path: pathlib.Path) -> bool:
    """Whether a tool wrote a file and nobody changed it since."""
    if not path.parent.is_dir():
        return False
    with Folder(path.parent) as folder:
        return is_own_in(folder, path.name)


def is_own_in(folder: Folder, name: str) -> bool:
    """The same of a file of an opened folder: its own first line or the list beside it has its sum. A link, a pipe or a
    device is nobody's."""
    text = folder.text(name)
    if text is None:
        return False
    head, line, rest = text.partition("\n")
    found = SUM.search(head)
    if found is not None:
        return sum_of(SUM.sub(r"\1", head, count=1) + line + rest) == found[2]
    if name == LIST or not is_own_in(folder, LIST):
        return False
    matches = (LISTED.fullmatch(one) for one in lines_of(folder.text(LIST) or ""))
    return any(match is not None and (match[1], match[2]) == (name, sum_of(text)) for match in matches)


def refuse_twins(names: Collection[str]) -> None:
    """Refuses two names that differ only in case, since a file system may keep only one of them."""
    lower = [name.lower() for name in names]
    twice = next((name for name in names if lower.count(name.lower()) > 1), None)
    if twice:
        raise ToolError(f"two files would have the name {shown(twice)}, with a difference in case alone")


def refuse_strangers(folder: Folder, names: Iterable[str]) -> None:
    """Refuses to write over a file that no tool wrote or somebody changed, and over a link."""
    for name in names:
        if folder.found(name) is not None and not is_own_in(folder, name):
            raise ToolError(
                f"{folder.path / name} is there and was not written by vidlakost, or was changed since, so nothing is"
                " written"
            )


def refuse_no_folder(folder: pathlib.Path) -> None:
    """Refuses a file where a folder has to be."""
    if os.path.lexists(folder) and not folder.is_dir():
        raise ToolError(f"{shown(str(folder))} is a file, not a folder")


def look_first(folder: pathlib.Path, name: str, head: str) -> None:
    """Refuses a file that `write_own` would refuse, before its text is made. A text that begins with this head may be
    one of an older version."""
    refuse_no_folder(folder)
    if folder.is_dir():
        with Folder(folder) as opened:
            if not (opened.text(name) or "").startswith(head):
                refuse_strangers(opened, [name])


def begins(text: str) -> str:
    """The first file that a list names."""
    return next((line for line in lines_of(text) if line and not line.startswith("//")), "")


def refuse_another_list(folder: Folder, text: str) -> None:
    """Refuses to write over the list of another testbench, which would lose it."""
    first, path = begins(folder.text(LIST, INPUT_BYTES) or ""), folder.path / LIST
    if first not in ("", begins(text)):
        raise ToolError(f"{path} is the list of {shown(first)}, so nothing is written: use another folder")


def is_unmarked(folder: Folder, name: str, text: str) -> bool:
    """Whether a file has the text to write, apart from the line that says which tool made it. Older versions wrote
    files so."""
    head, _, rest = text.partition("\n")
    return OWN.search(head) is not None and folder.text(name) == rest


def write_own(folder: pathlib.Path, texts: dict[str, str], inputs: list[str], told: list[str] | None = None) -> None:
    """Writes all of these files or none, and none over an input. It replaces a file only if nobody changed it. The list
    beside the files has the sums of those without a first line that says which tool made them. Only after that it
    prints the names of the files, or those in `told`: whoever closes the pipe after the first line has all files."""
    refuse_no_folder(folder)
    for name in texts:
        refuse_inputs(str(folder / name), [("what is read", given) for given in inputs])
    listed = [f"// {name} ({sum_of(text)})" for name, text in texts.items() if not OWN.search(text.partition("\n")[0])]
    if listed and LIST in texts:
        head, line, rest = texts[LIST].partition("\n")
        texts = {**texts, LIST: "\n".join([head, *listed, rest])}
    folder.mkdir(parents=True, exist_ok=True)
    with Folder(folder) as opened:
        refuse_strangers(opened, [name for name, text in texts.items() if not is_unmarked(opened, name, text)])
        if LIST in texts:
            refuse_another_list(opened, texts[LIST])
        with staging([(opened, name, summed(text)) for name, text in texts.items()]) as all_are_there:
            all_are_there()
    print("\n".join(str(folder / name) for name in told or texts), flush=True)
