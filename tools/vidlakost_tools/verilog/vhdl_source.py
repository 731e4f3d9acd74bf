"""What of a source in VHDL reaches beyond it: files of the system, and functions that are not VHDL.

GHDL opens a file that a source declares when it elaborates it, to write too, so such a source is refused before GHDL
sees it."""
from __future__ import annotations

import re

from vidlakost_tools.text import shown
from vidlakost_tools.tool import ToolError

# a line of GHDL's, which ends with any of these
END = re.compile("\r\n|[\n\r\v\f]")
REST = "[^\n\r\v\f]*"
# A comment and a text in quotes say nothing. Where a quote, a backslash or a `%` may be a letter or begin a text, all
# that follows on the line is looked at.
COMMENT = rf"--{REST}|/\*.*?(?:\*/|\Z)"
QUOTED = r'"[^"\n\r\v\f]*"|\\[^\\\n\r\v\f]*\\'
EITHER = rf"""'["\\%]'{REST}|["\\%]{REST}"""
PIECE = re.compile(rf"(?P<comment>{COMMENT})|(?P<quoted>{QUOTED})|(?P<either>{EITHER})", re.DOTALL)
BEYOND = re.compile(r"\b(file|file_open|file_close|\w*textio|foreign)\b", re.ASCII | re.IGNORECASE)
OPENS = "GHDL would open a file of the system when it elaborates this"
FOREIGN = "it would run a function that is not VHDL"
TWICE = "a comment begins here, or a text with these letters: part the line"


def code_of(text: str) -> str:
    """A source with blanks for its comments and for what stands in quotes."""

    def blank(match: re.Match[str]) -> str:
        return match[0] if match["either"] else re.sub("[^\n\r\v\f]", " ", match[0])

    return PIECE.sub(blank, text)


def reaching(text: str) -> tuple[int, str, str] | None:
    """The first word that reaches beyond a source, with the place behind which it stands, and why; None where none
    does."""
    found = BEYOND.search(code_of(text))
    if found:
        return found.start(), found[0], FOREIGN if found[0].lower() == "foreign" else OPENS
    unclear = next((match for match in PIECE.finditer(text) if match["either"] and "/*" in match[0]), None)
    return (unclear.start(), "/*", TWICE) if unclear else None


def refuse_reaching(file: str, text: str) -> None:
    """Refuses a source that names files of the system or functions that are not VHDL, with the place."""
    found = reaching(text)
    if found:
        at, word, why = found
        raise ToolError(f"{shown(file)}:{len(END.findall(text[:at])) + 1}: {shown(word)}: {why}", 1)
