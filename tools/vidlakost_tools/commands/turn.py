"""Inverts a scrambling: index bits by address bits become address bits by index bits.

usage: vidlakost turn FILE
       vidlakost turn --help

A memory description says for each bit of an address which bits of the physical index make it. A data sheet may say it
the other way: which bits of the address select a row or a column. For such a data sheet, FILE has a line for each bit
of the index (`#` begins a comment):
    p0 = a0 ^ a1
    p1 = a1 ^ 1
turn prints the `scramble` lines of a description. It also turns these lines back: turned twice, lines are as they
were."""
from __future__ import annotations

import re
from typing import Mapping

from vidlakost_tools.text import BLANKS, lines_of, read_described
from vidlakost_tools.texts.memory import Memory, Row, terms_of
from vidlakost_tools.tool import ToolError, words_of

TERM = "(?:[ap][0-9]{1,2}|[01])"
LINE = re.compile(rf"(?:scramble[ \t]+)?([ap])([0-9]{{1,2}})[ \t]*=[ \t]*({TERM}(?:[ \t]*\^[ \t]*{TERM})*)")


def read_rows(path: str) -> tuple[str, dict[int, Row]]:
    """The letter of the rows, and for each row its bits and its constant."""
    rows: dict[int, Row] = {}
    letters = set()
    for count, line in enumerate(lines_of(read_described(path)), 1):
        said = line.split("#")[0].strip(BLANKS)
        match = LINE.fullmatch(said)
        if said and match is None:
            raise ToolError(f"{path}:{count}: a line has the form p0 = a0 ^ a1, and not '{said}'")
        if match is None:
            continue
        letter, row, terms = match[1], int(match[2]), [term.strip() for term in match[3].split("^")]
        other = "a" if letter == "p" else "p"
        letters.add(letter)
        if any(term[0] == letter for term in terms) or len(letters) > 1:
            raise ToolError(f"{path}:{count}: all bits on the right are of the other side: {other}0 and so on")
        if row in rows:
            raise ToolError(f"{path}:{count}: there is a row {letter}{row} already")
        rows[row] = terms_of(" ^ ".join(term.replace(other, "p") for term in terms))
    if not rows or sorted(rows) != list(range(len(rows))):
        raise ToolError(f"{path}: each bit from 0 on needs a row")
    return letters.pop(), rows


def check(path: str, rows: Mapping[int, Row]) -> None:
    """Refuses bits that don't exist, and rows that depend on each other."""
    if any(bit >= len(rows) for bits, _ in rows.values() for bit in bits):
        raise ToolError(f"{path}: a bit on the right is not one of 0 to {len(rows) - 1}")
    left: list[int] = []
    for row in sorted(rows):
        value = sum(1 << bit for bit in rows[row][0])
        for other in left:
            value = min(value, value ^ other)
        if not value:
            raise ToolError(f"{path}: row {row} depends on rows before it, so two words would have one place")
        left = sorted([*left, value], reverse=True)


def main(arguments: list[str]) -> int:
    (path,), _ = words_of(__doc__, arguments, least=1, most=1)
    letter, rows = read_rows(path)
    check(path, rows)
    memory = Memory("turned", 1 << len(rows), 1, 1, 0, 1, [rows[row] for row in sorted(rows)], [0])
    from_letter, to_letter, head = ("p", "a", "scramble ") if letter == "p" else ("a", "p", "")
    for row, (bits, constant) in enumerate(memory.way_back()):
        terms = [f"{from_letter}{bit}" for bit in bits] + (["1"] if constant else [])
        print(f"{head}{to_letter}{row} = {' ^ '.join(terms)}")
    return 0
