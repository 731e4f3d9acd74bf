"""What other tools may read otherwise than the program, although the standard is on its side. In comments these are
bytes that some tools obey, or take for the end of a line. There are also a `?` that some take for a digit, shifts by so
much that some take another value, and names of a chip that SystemVerilog reserves. And where a module finds less than
its report says of the march."""
from __future__ import annotations

import pathlib
import re
from typing import Iterator

from vidlakost_tools.refusals.finding import place
from vidlakost_tools.refusals.verilog import Events
from vidlakost_tools.text import read_bytes, read_described, statements
from vidlakost_tools.texts.faults import read_primitive
from vidlakost_tools.texts.memory import Memory, read_memory
from vidlakost_tools.texts.report import Report, read_report
from vidlakost_tools.texts.running_on import begins_afresh
from vidlakost_tools.verilog.syntax import COMMENT, Expression, Unread
from vidlakost_tools.verilog.reserved_words import OF_SYSTEM_VERILOG

# what may be in a comment, or be a blank, and why another tool may read it otherwise
IN_TEXT = [
    (rb"\r(?!\n)", "a carriage return without a line feed: some tools end the line there, and a comment with it"),
    (rb"\f", "a form feed: some tools end the line there, and a comment with it"),
]
IN_COMMENT = [
    (rb"\x0b", "a vertical tab in a comment: some tools end the line there, and the comment with it"),
    (rb"[\x00-\x08\x0e-\x1f\x7f]", "a control byte in a comment: some tools end the text or the comment there"),
    (rb"`", "a back quote in a comment: some tools obey a directive there"),
    (
        rb"\\\r?(?:\n|\Z)",
        "a backslash that ends a line of a comment: for some tools the comment goes on in the next line",
    ),
    (
        rb"\b(?:(?:translate|synthesis)_o(?:n|ff)|full_case|parallel_case|synopsys|pragma|synthesis[ \t]+\w+)\b",
        "a comment that synthesis tools obey",
    ),
]
BEHIND_DECIMAL = (
    rb"'[dD][0-9][0-9_]*(\?)",
    "a `?` right after a decimal literal: Verilator and Yosys take it for a digit, and refuse the module",
)
# from this amount of a shift on, Yosys takes it for a negative number
FAR = 1 << 31
FAR_SHIFT = "a shift whose amount can be 2147483648 or more: Yosys takes another value"


class Shifts(Events):
    """The places of the shifts in a module whose amount can be too large."""

    def __init__(self, text: bytes):
        self.far: list[int] = []
        self.known: dict[int, int | None] = {}
        super().__init__(text)

    def width(self, it: Expression) -> int | None:
        if id(it) not in self.known:
            self.known[id(it)] = super().width(it)
            if it.kind == "infix" and it.token.text in ("<<", ">>") and self.greatest(it.operands[1]) >= FAR:
                self.far.append(it.token.at)
        return self.known[id(it)]

    def greatest(self, it: Expression) -> int:
        """An upper bound of the value of an expression."""
        if it.kind == "literal":
            return it.value
        if it.kind == "choice":
            return max(map(self.greatest, it.operands[1:]))
        if it.kind == "join":
            number = 0
            for part in it.operands:
                number = number << (self.width(part) or 0) | self.greatest(part)
            return number
        return (1 << (self.width(it) or 0)) - 1


def far_shift(text: bytes) -> int | None:
    """The place of the first shift whose amount can be too large."""
    try:
        return min(Shifts(text).far, default=None)
    except Unread:
        return None


def blanked(match: re.Match[bytes]) -> bytes:
    """Blanks in the place of a comment."""
    return b" " * len(match[0])


def places_in(text: bytes) -> Iterator[tuple[int, str]]:
    """For each kind: its first byte, and what it is."""
    pattern, why = BEHIND_DECIMAL
    behind = re.search(pattern, re.sub(COMMENT.encode(), blanked, text, flags=re.DOTALL))
    if behind:
        yield behind.start(1), why
    far = far_shift(text)
    if far is not None:
        yield far, FAR_SHIFT
    for pattern, why in IN_TEXT:
        found = re.search(pattern, text)
        if found:
            yield found.start(), why
    found_comments = re.finditer(COMMENT.encode(), text, re.DOTALL)
    comments = [(match.start(), match[0] + text[match.end() : match.end() + 1]) for match in found_comments]
    for pattern, why in IN_COMMENT:
        hits = (
            begin + found.start() for begin, comment in comments for found in [re.search(pattern, comment)] if found
        )
        first = next(hits, None)
        if first is not None:
            yield first, why


def of_module(name: str, text: bytes) -> list[str]:
    """The warnings about an accepted module."""
    lines = []
    for at, why in sorted(places_in(text)):
        row, column = place(text, at)
        lines.append(f"{name}:{row}:{column}: warning: {why}")
    return [*lines, "  in such a tool this answer need not hold"] if lines else []


def of_chip(name: str, text: str) -> list[str]:
    """The warnings about a chip file: its name, as the name of a module, beside reserved words and the ports."""
    said = [(line, rest) for line, word, rest in statements(text) if word == "name"]
    units = sum(word == "unit" for _, word, _ in statements(text))
    ports = {"clk", "reset", "done", "fail"} | {
        f"{port}_{unit}" for port in ("rdata", "en", "we", "addr", "wdata") for unit in range(units)
    }
    for line, chip in said:
        if chip in OF_SYSTEM_VERILOG:
            return [
                f"{name}:{line}: warning: SystemVerilog reserves '{chip}': a tool that reads it refuses the chip's"
                " module"
            ]
        if chip in ports:
            return [f"{name}:{line}: warning: '{chip}' is also a port of the chip's module, which some tools refuse"]
    return []


def of_compiled(name: str, memory: Memory, report: Report) -> list[str]:
    """The warning about a memory in whose test a run goes on into that of the background 0: the dynamic primitives that
    the march covers, and that the module need not find."""
    missed = [
        verdict.primitive
        for verdict in report.verdicts
        if verdict.covered
        and verdict.is_dynamic
        and not begins_afresh(read_primitive(verdict.primitive), report.elements, memory)
    ]
    if not missed:
        return []
    return [
        f"{name}: warning: the background 0 is not the first, and the run before it goes on into it without an idle"
        " cycle:"
        f" the module need not find {' '.join(missed)}, which the march covers"
    ]


def warnings_of(words: list[str]) -> list[str]:
    """The warnings for a call that succeeded."""
    if words[:1] == ["compile"] and len(words) == 6:
        return of_compiled(words[2], read_memory(pathlib.Path(words[2])), read_report(pathlib.Path(words[5])))
    if words[:1] in (["check"], ["benchfile"]) and len(words) == 4:
        return of_module(words[1], read_bytes(words[1]))
    if words[:1] == ["chip"] and len(words) == 3:
        return of_chip(words[1], read_described(words[1]))
    return []
