"""The text that a simulator reads of a source with conditions: where `ifdef, `ifndef, `elsif and `else choose, only the
branch that is taken is left. `define and `undef of a name count; what a name stands for is not written out."""
from __future__ import annotations

import re
from typing import Iterable

from vidlakost_tools.tool import ToolError
from vidlakost_tools.verilog.syntax import COMMENT

# comments, names behind a backslash and texts in quotes, in which a mark means nothing; and the directives that count,
# `define with all that its name means. What is begun and does not end goes to the end of the text, so that no place is
# looked at twice
PART = re.compile(
    rf'{COMMENT}|/\*.*|\\\S+|"(?:\\.|[^"\\\n])*"?'
    r"|`(?P<kind>ifdef|ifndef|elsif|else|endif|undef|define)\b(?:(?<=`define)(?:\\\r?\n|[^\n])*)?",
    re.DOTALL | re.ASCII,
)
NAME = re.compile(r"[ \t]*([A-Za-z_][\w$]*)", re.ASCII)


class Conditions:
    """What is defined at a place of a text, and the conditions that are open there."""

    def __init__(self, path: str, text: str, defined: Iterable[str]):
        self.path, self.text = path, text
        self.defined = set(defined)
        # of each open condition whether its branch is taken, and whether no further one is
        self.branches: list[tuple[bool, bool]] = []

    @property
    def is_taken(self) -> bool:
        return not self.branches or self.branches[-1][0]

    def refuse(self, at: int, why: str) -> ToolError:
        return ToolError(f"{self.path}:{self.text.count(chr(10), 0, at) + 1}: {why}")

    def part(self, begin: int, end: int) -> str:
        """A part of the text; of a branch that is not taken the ends of its lines alone."""
        return self.text[begin:end] if self.is_taken else "\n" * self.text.count("\n", begin, end)

    def obey(self, kind: str, at: int, end: int) -> int:
        """Obeys a directive, and answers where the text behind it begins."""
        if kind in ("else", "endif"):
            self.turn(kind, at, kind == "else")
            return end
        match = NAME.match(self.text, end)
        if match is None:
            raise self.refuse(at, f"`{kind} without a plain name")
        is_defined = match[1] in self.defined
        if kind in ("ifdef", "ifndef"):
            is_over = not self.is_taken
            holds = is_defined == (kind == "ifdef")
            self.branches.append((holds and not is_over, holds or is_over))
        elif kind == "elsif":
            self.turn(kind, at, is_defined)
        elif self.is_taken:
            (self.defined.discard if kind == "undef" else self.defined.add)(match[1])
        return match.end()

    def turn(self, kind: str, at: int, holds: bool) -> None:
        """Ends a branch, and begins the next one where the condition goes on."""
        if not self.branches:
            raise self.refuse(at, f"`{kind} without a begin")
        _, is_over = self.branches.pop()
        if kind != "endif":
            self.branches.append((holds and not is_over, holds or is_over))

    def taken(self) -> str:
        """The text without the branches that are not taken. Each line keeps its number."""
        kept, at = [], 0
        for match in PART.finditer(self.text):
            if match["kind"] is None:
                continue
            is_kept = match["kind"] == "define"
            kept.append(self.part(at, match.end() if is_kept else match.start()))
            at = max(self.obey(match["kind"], match.start(), match.end("kind")), match.end())
        if self.branches:
            raise self.refuse(len(self.text), "a condition has no `endif")
        return "".join([*kept, self.text[at:]])


def taken(path: str, text: str, defined: Iterable[str] = ()) -> str:
    """What is left of a text where these names are defined before it."""
    return Conditions(path, text, defined).taken()


def asked_in(text: str) -> list[str]:
    """The names that the conditions of a text ask for."""
    kinds = ("ifdef", "ifndef", "elsif")
    asked = (NAME.match(text, match.end("kind")) for match in PART.finditer(text) if match["kind"] in kinds)
    return list(dict.fromkeys(match[1] for match in asked if match))
