"""What is wrong with the words of a call of the program."""
from __future__ import annotations

import re
from typing import Mapping

from vidlakost_tools.program import commands, form_of
from vidlakost_tools.refusals.finding import close_to, listed, thousands
from vidlakost_tools.tasks import tools

CONSOLE = "vidlakost"
# the name of the file of `show` in the forms of the other commands
SHOWN_AS = {"march": "MARCH", "memory": "MEMORY", "list": "FAULTS", "chip": "CHIPFILE", "module": "VERILOG"}


def words_by_name(words: list[str]) -> dict[str, str]:
    """The words of a call, by their names in the command's form. The file of `show` has the name of its kind."""
    named = dict(zip(form_of(words[0])[1:], words[1:])) if words else {}
    kind = named.get("KIND")
    if kind in SHOWN_AS and "FILE" in named:
        named[SHOWN_AS[kind]] = named.pop("FILE")
    return named


def wrong_word(name: str, word: str, named: Mapping[str, str]) -> str | None:
    """What is wrong with one word of a command, by itself."""
    if name == "KIND":
        return None if word in SHOWN_AS else f"KIND is {listed([*SHOWN_AS], 'or')}, and not '{word}'"
    if not word:
        return f"{name} is empty"
    if word.startswith("-"):
        return f"{name} is '{word}', but no word may begin with '-'"
    size = int(named["SIZE"]) if re.fullmatch(r"\d{1,9}", named.get("SIZE", "")) else None
    if name in ("SIZE", "NUMBER"):
        least, most = (2, 4096) if name == "SIZE" else (0, 65534)
        if not re.fullmatch(r"0|[1-9]\d{0,8}", word):
            return f"{name} is a decimal number without a leading zero, and not '{word}'"
        if not least <= int(word) <= most:
            return f"{name} is {thousands(least)} to {thousands(most)}, and not {word}"
    if name == "CONTENT" and not re.fullmatch("[01]+", word):
        return f"CONTENT has the digits 0 and 1, one for each cell, and not '{word}'"
    if name == "CONTENT" and size is not None and len(word) != size:
        return f"CONTENT has {len(word)} digits, but SIZE is {size}"
    if name == "DIRS" and not re.fullmatch("[ud]{1,64}", word):
        return f"DIRS is a letter u or d for each element, 1 to 64 of them, and not '{word}'"
    if name in ("AGG", "VIC"):
        return wrong_cell(name, word, named, size)
    return None


def wrong_cell(name: str, word: str, named: Mapping[str, str], size: int | None) -> str | None:
    if word == "none" and name == "AGG":
        return None
    number = r"(?:0|[1-9]\d{0,8})"
    if size is None and "SIZE" not in named:
        return (
            None
            if re.fullmatch(rf"{number}\.{number}", word)
            else f"{name} names a cell by the index of its word, a full stop and its bit, as 6.3, and not '{word}'"
        )
    if not re.fullmatch(number, word):
        return f"{name} is the number of a cell{' or none' if name == 'AGG' else ''}, and not '{word}'"
    if size is not None and int(word) >= size:
        return f"{name} is cell {word}, but the cells are 0 to {size - 1}"
    return f"AGG and VIC are both cell {word}" if name == "VIC" and word == named.get("AGG") else None


def usage(words: list[str]) -> list[str]:
    """What is wrong with the words of a call."""
    names = [command.name for command in commands()]
    if not words or words[0] not in names:
        meant = close_to(words[0], [*names, *tools()]) if words else None
        what = f"'{words[0]}' is no command" if words else "there is no command"
        return [
            f"{CONSOLE}: error: {what}" + (f"; did you mean '{meant}'?" if meant else ""),
            f"  the commands are {listed(names, 'and')}",
        ]
    form = form_of(words[0])
    line = [f"  usage: {CONSOLE} {' '.join(form)}"]
    if len(words) != len(form):
        few = len(words) < len(form)
        what = (
            f"{listed(form[len(words):], 'and')} {'is' if len(form) - len(words) == 1 else 'are'} missing"
            if few
            else f"'{words[len(form)]}' is one word too many"
        )
        return [
            f"{CONSOLE}: error: {words[0]} takes {len(form) - 1} words, but the call has {len(words) - 1}: {what}",
            *line,
        ]
    named = words_by_name(words)
    for name, word in named.items():
        wrong = wrong_word(name, word, named)
        if wrong:
            return [f"{CONSOLE}: error: {wrong}", *line]
    files = [name for name in named if name not in ("PRIM", "SIZE", "CONTENT", "AGG", "VIC", "DIRS", "NUMBER", "KIND")]
    for place, name in enumerate(files):
        same = next((other for other in files[:place] if named[other] == named[name]), None)
        if same:
            return [
                (
                    f"{CONSOLE}: error: {same} and {name} are both '{named[name]}', but the files of a call need"
                    " different names"
                ),
                *line,
            ]
    return [f"{CONSOLE}: error: these words don't fit {words[0]}", *line]
