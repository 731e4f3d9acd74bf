"""What is asked of the sources' text before Yosys reads them: which files they read, and what they must not say."""
from __future__ import annotations

import dataclasses
import os
import pathlib
import re
from typing import Any

from vidlakost_tools.text import SOURCE_BYTES, read_bytes, shown
from vidlakost_tools.tool import ToolError
from vidlakost_tools.verilog import members
from vidlakost_tools.verilog.vhdl import is_vhdl


# where Yosys lists what it opened
OPENED = "opened"


@dataclasses.dataclass
class Sources:
    """What is read: the script that reads it without initial values and opens what nothing drives, the top's name and
    its parts before anything is made simpler, what there is to warn of, and the files that Yosys opened."""

    script: str
    top: str
    module: dict[str, Any]
    warnings: list[str]
    opened: list[str]


# a text or a comment, in which a word means nothing to the preprocessor: as it is read without escaped names, and as
# Yosys reads it, to which neither begins in such a name, and a text may go over several lines
READINGS = [
    re.compile(pattern, re.DOTALL)
    for pattern in (
        r'"(?:\\.|[^"\\\n])*(?:"|(?P<open>(?=\n)|\Z))|//[^\n]*|/\*.*?(?:\*/|(?P<never>\Z))',
        r'\\[!-~]+|"(?:\\.|[^"\\])*(?:"|(?P<open>\Z))|//[^\n]*|/\*.*?(?:\*/|(?P<never>\Z))',
    )
]
ASKED = re.compile(r"\b(YOSYS|SYNTHESIS)\b", re.ASCII)
# attributes that make another net of one, or drive it, and that put other cells or connections in a place, for Yosys
# alone
ATTRIBUTES = re.compile(r"\(\*(?!\s*\)).*?(?:\*\)|\Z)", re.DOTALL)
ATTRIBUTE = re.compile(r"\b(defaultvalue|wand|wor|hierconn|via_celltype|wildcard_port_conns)\b")
STRUCTURE = re.compile(r"\b(struct|union)\b")
SELECTED = re.compile(r"\.\s*(\w+)\s*\[([^\]]*)\]")
# a name behind a backslash; and without one a name of the system or of something elsewhere
ESCAPED = re.compile(r"\\([!-~]+)")
ELSEWHERE = re.compile(
    r"(?<![\w$\\.:])(?:\$[A-Za-z_][\w$]*"
    r"|[A-Za-z_][\w$]*(?:\s*\[[^\]\n]*\])?(?:\s*(?:\.|::)\s*[A-Za-z_][\w$]*(?:\s*\[[^\]\n]*\])?)+)"
)
INCLUDED = re.compile(r"`include\s*(\S*)")


def blanked(text: str, but_texts: bool = False) -> list[str]:
    """A source in each reading, with blanks for its comments, and for what stands in quotes unless that is kept."""

    def blank(match: re.Match[str]) -> str:
        # what is never closed is kept, so that all that stands in it is looked at
        is_closed = match["open"] is None and match["never"] is None
        is_kept = match[0].startswith("\\") or but_texts and match[0].startswith('"') or not is_closed
        return match[0] if is_kept else re.sub(r"[^\n]", " ", match[0])

    return [reading.sub(blank, text) for reading in READINGS]


def plain_text(file: str) -> str:
    """A source as Yosys' preprocessor sees it, which passes over carriage returns. It unpacks what is packed, and takes
    a byte 0 for the end: such a file is refused."""
    content = read_bytes(file, SOURCE_BYTES)
    if content.startswith(b"\x1f\x8b") or b"\0" in content:
        raise ToolError(f"{shown(file)} is packed or has a byte 0, so it is not a source", 1)
    return content.decode("utf-8", "replace").replace("\r", "")


def with_included(files: list[str]) -> list[tuple[str, str]]:
    """The sources and what they include, as Yosys finds it: from here, or from the folder of who includes it."""
    found: dict[str, str] = {}
    waiting = list(files)
    while waiting:
        file = waiting.pop(0)
        if file in found:
            continue
        found[file] = plain_text(file)
        for match in (match for text in blanked(found[file], but_texts=True) for match in INCLUDED.finditer(text)):
            name = match[1].strip('"')
            if match[1] != f'"{name}"':
                raise ToolError(f"{shown(file)}: it includes {shown(match[1])}, which is not a name in quotes", 1)
            places = [pathlib.Path(name), pathlib.Path(file).parent / name]
            waiting += [str(place) for place in places if place.is_file()][:1]
    return list(found.items())


QUOTED = re.compile(r'"([^"\n]+)"')


def included(files: list[str]) -> list[str]:
    """The sources, what those in Verilog include, and each file that a text in quotes names in one of them, as what a
    memory holds at first."""
    texts = with_included([file for file in files if not is_vhdl(file)])
    texts += [(file, plain_text(file)) for file in files if is_vhdl(file)]
    found = dict.fromkeys([*files, *(file for file, _ in texts)])
    for file, text in texts:
        found.update(dict.fromkeys(str(place) for place in named_in(file, text)))
    return list(found)


# what a memory holds at first, read by a name that is no text in quotes alone
READ_BY_NAME = re.compile(r'\$readmem(?![hb]\s*\(\s*"[^"\n]*"\s*,)')


def refuse_untold(out: str | None, files: list[str], begin: str) -> None:
    """Refuses to write over what a source may read by a name that is put together: in a branch that isn't taken nobody
    tells which file that is. A file that begins as an output does holds no memory."""
    if out is None or not os.path.isfile(out) or not os.path.getsize(out):
        return
    with open(out, "rb") as file:
        if file.read(len(begin)) == begin.encode():
            return
    sources = with_included([name for name in files if not is_vhdl(name)])
    for name, source in sources:
        for match in (match for text in blanked(source, but_texts=True) for match in READ_BY_NAME.finditer(text)):
            place = f"{shown(name)}:{source.count(chr(10), 0, match.start()) + 1}"
            raise ToolError(
                f"{place}: what it reads has no name in quotes, and may be {shown(out)}: take that away, or write"
                " another"
            )


def named_in(file: str, text: str) -> list[pathlib.Path]:
    """What is there of that which a text in quotes names in a source, from here or from its folder."""
    names = dict.fromkeys(match[1] for match in QUOTED.finditer(text))
    places = [place for name in names for place in (pathlib.Path(name), pathlib.Path(file).parent / name)]
    return [place for place in places if os.path.lexists(place)]


def opened(folder: pathlib.Path) -> list[str]:
    """The files that Yosys opened, as it lists them behind those that it wrote: sources, what they include, and what
    they read into memories by names of any kind."""
    listed = (folder / OPENED).read_bytes().decode("utf-8", "surrogateescape").rstrip("\n")
    return [re.sub(r"\\ ", " ", name) for name in re.split(r"(?<!\\) ", listed.partition(": ")[2]) if name]


def refuse_attributes(file: str, source: str) -> None:
    """Refuses attributes that mean something to Yosys alone, with their place."""
    for text in blanked(source):
        for attribute in ATTRIBUTES.finditer(text):
            match = ATTRIBUTE.search(attribute[0])
            if match:
                line = text.count("\n", 0, attribute.start() + match.end()) + 1
                raise ToolError(f"{shown(file)}:{line}: an attribute that means something to Yosys alone", 1)


def asked(files: list[str]) -> list[str]:
    """What there is to warn of in sources that say something else to a simulator; those that ask for Yosys are refused,
    since what is found would hold of no other tool's reading."""
    warnings, sources = [], with_included(files)
    for file, source in sources:
        endless = next((place for place in named_in(file, source) if not place.is_file() and not place.is_dir()), None)
        if endless:
            raise ToolError(
                f"{shown(file)}: it names {shown(str(endless))}, which is not a plain file and may never end", 1
            )
    for file, source in sources:
        refuse_attributes(file, source)
    if has_structures(sources):
        for file, source in sources:
            refuse_members(file, source, "\n".join(text for _, other in sources for text in blanked(other)))
    for file, source in sources:
        refuse_one_name(file, source)
        for match in (match for text in blanked(source) for match in ASKED.finditer(text)):
            place = f"{shown(file)}:{source.count(chr(10), 0, match.start()) + 1}"
            if match[1] == "YOSYS":
                raise ToolError(f"{place}: it asks whether Yosys reads it, so other tools read something else", 1)
            warnings.append(f"{place}: it is read as with SYNTHESIS; a simulator may read something else")
    return list(dict.fromkeys(warnings))


def has_structures(sources: list[tuple[str, str]]) -> bool:
    return any(STRUCTURE.search(text) for _, source in sources for text in blanked(source))


def refuse_members(file: str, source: str, whole: str) -> None:
    """Refuses a bit or a part of a member, by numbers, that does not lie in each range with which the sources declare
    the name; where one of these is no numbers, all but bit 0."""
    for text in blanked(source):
        for match in SELECTED.finditer(text):
            ends = [int(number) for number in re.findall(r"[0-9]+", match[2])]
            ranges = re.findall(rf"\[([^\]]*)\]\s*(?:\w+\s*,\s*)*{match[1]}\b", whole)
            declared = [re.fullmatch(r"\s*([0-9]+)\s*:\s*([0-9]+)\s*", one) for one in ranges]
            is_beyond = any(one and not int(one[2]) <= end <= int(one[1]) for one in declared for end in ends)
            is_open = any(ends) and (not declared or None in declared)
            if re.fullmatch(r"[0-9\s:]+", match[2]) and (is_beyond or is_open):
                raise ToolError(
                    f"{shown(file)}:{source.count(chr(10), 0, match.start()) + 1}: {members.WHY}{members.INSTEAD}", 1
                )


def with_members(files: list[str], folder: pathlib.Path) -> tuple[list[str], list[str]]:
    """The sources, those in which a member's part has no number for its place as copies that say so in a way that Yosys
    reads as a simulator does; and what there is to say of these."""
    sources = with_included([file for file in files if not is_vhdl(file)])
    if not has_structures(sources):
        return files, []
    given = {file: file for file in files}
    told: list[str] = []
    texts = members.Sources("\n".join(text for _, source in sources for text in blanked(source)))
    for count, (file, source) in enumerate(sources):
        both = [members.rewritten(file, source, text, texts) for text in blanked(source)]
        text, found = both[0]
        if found and (file not in given or both[1] != both[0]):
            raise ToolError(f"{found[0].partition(' ')[0]} {members.WHY}{members.INSTEAD}", 1)
        if found:
            (folder / f"given{count}").mkdir()
            copy = folder / f"given{count}" / pathlib.Path(file).name
            copy.write_text(text, encoding="utf-8")
            given[file], told = str(copy), told + found
    return list(given.values()), told


def refuse_one_name(file: str, source: str) -> None:
    """Refuses a name that is one with another behind a backslash to Yosys alone, which takes `$random` for the name of
    a wire `\\$random`, and `u.x` for that of a wire `\\u.x`."""
    for text in blanked(source):
        escaped = set(ESCAPED.findall(text))
        for match in ELSEWHERE.finditer(text) if escaped else ():
            if re.sub(r"\s", "", match[0]) in escaped:
                place = f"{shown(file)}:{source.count(chr(10), 0, match.start()) + 1}"
                raise ToolError(f"{place}: {shown(match[0])} is, to Yosys alone, the same as the escaped name", 1)
