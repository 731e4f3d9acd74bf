"""A bit or a part of a structure's member whose place is no number: Yosys takes another member's bit where it lies
beyond the member. Where it is read, a function of the member's word takes the place of the select, so that it lies in a
word of its own."""
from __future__ import annotations

import dataclasses
import re
from typing import Iterator

from vidlakost_tools.text import shown
from vidlakost_tools.tool import ToolError

TOKEN = re.compile(
    r"\\[!-~]+|`?[A-Za-z_$][\w$]*|\d*'s?[bodh][\w?]*|\d[\w.]*|<=|>=|[=!]==?|[+-]:|&&|\|\||::|\S", re.IGNORECASE
)
NAME = re.compile(r"[A-Za-z_][\w$]*")
# behind these begins a statement
BEGINS = {
    ";",
    "begin",
    "end",
    "else",
    "endcase",
    "endfunction",
    "endtask",
    "generate",
    "endgenerate",
    "always_comb",
    "fork",
    "join",
}
# what stands before a parenthesis in which something is read
READING = {
    "if",
    "case",
    "casez",
    "(",
    "=",
    "<=",
    "?",
    ":",
    ",",
    "{",
    "[",
    "return",
    *"+-*/%&|^~!<>",
    "&&",
    "||",
    "==",
    "!=",
    "===",
    "!==",
    ">=",
}
SIGNED = re.compile(r"\b(?:signed|byte|shortint)\b|'s", re.IGNORECASE)
MEMBERS = re.compile(r"\b(?:struct|union)\s+packed\s*\{([^{}]*)\}")
WORD = re.compile(r"\s*(?:logic|bit|reg)\s*\[\s*(\d+)\s*:\s*(\d+)\s*\]\s*((?:\w+\s*,\s*)*\w+)\s*")
WHY = "a part of a structure's member, beyond which Yosys takes another member's bit"
INSTEAD = "; a wire of its own that is the whole member, and the part of that wire, says the same"


@dataclasses.dataclass
class Select:
    """A select of a member: where it stands, the member as the source names it, and the place in it."""

    begin: int
    end: int
    word: str
    member: str
    index: str
    width: int | None


def members_of(text: str) -> dict[str, tuple[int, int]]:
    """The ranges of the members that structures declare as words of so many bits; none of a name that is declared
    twice."""
    found: dict[str, list[tuple[int, int] | None]] = {}
    for body in MEMBERS.finditer(text):
        for line in body[1].split(";"):
            match = WORD.fullmatch(line)
            names = NAME.findall(match[3]) if match else NAME.findall(line)[-1:]
            for name in names:
                found.setdefault(name, []).append((int(match[1]), int(match[2])) if match else None)
    ranges = {name: one[0] for name, one in found.items() if len(set(one)) == 1}
    return {name: one for name, one in ranges.items() if one is not None and one[0] >= one[1]}


class Reader:
    """Reads the tokens of a text, with what stands before each."""

    def __init__(self, text: str):
        matches = list(TOKEN.finditer(text))
        self.text, self.tokens = text, [match[0] for match in matches]
        self.places = [match.start() for match in matches]

    def closing(self, begin: int) -> int:
        """The token that closes a bracket."""
        depth = 0
        for at in range(begin, len(self.tokens)):
            depth += {"[": 1, "(": 1, "{": 1, "]": -1, ")": -1, "}": -1}.get(self.tokens[at], 0)
            if depth == 0:
                return at
        return len(self.tokens) - 1

    def mark(self, begin: int, end: int) -> int | None:
        """The mark of a part between two brackets."""
        at = begin + 1
        while at < end:
            if self.tokens[at] in ("+:", ":", "-:"):
                return at
            at = self.closing(at) + 1 if self.tokens[at] in ("[", "(", "{") else at + 1
        return None

    def selects(self) -> Iterator[tuple[Select, bool]]:
        """Each select of a member whose place is no number, the innermost first, and whether it is read for certain."""
        open_at: list[int] = []
        start, is_behind = 0, False
        for at, token in enumerate(self.tokens):
            if token in ("(", "[", "{"):
                open_at.append(at)
            elif token in (")", "]", "}") and open_at:
                open_at.pop()
            elif token in BEGINS and not any(self.tokens[one] == "(" for one in open_at):
                start, is_behind = at, False
            elif token in ("=", "<=") and not open_at and at > start:
                is_behind = True
            if token == "[" and at > 2 and self.tokens[at - 2] == "." and NAME.fullmatch(self.tokens[at - 1]):
                select = self.select(at)
                if select:
                    yield select, self.is_read(open_at[:-1], is_behind)

    def is_read(self, open_at: list[int], is_behind: bool) -> bool:
        """Whether a select within some open brackets is read: in a condition, or behind the mark of an assignment."""
        parens = [one for one in open_at if self.tokens[one] == "("]
        if not parens:
            return is_behind
        return all(one > 0 and self.tokens[one - 1] in READING for one in parens) and (
            is_behind or self.tokens[parens[0] - 1] in ("if", "case", "casez")
        )

    def select(self, at: int) -> Select | None:
        """The select whose bracket begins here; None where its place is numbers."""
        first = at - 1
        while first >= 2 and self.tokens[first - 1] == "." and NAME.fullmatch(self.tokens[first - 2]):
            first -= 2
        last = self.closing(at)
        inside, is_twofold = self.tokens[at + 1 : last], self.tokens[last + 1 : last + 2] == ["["]
        if all(re.fullmatch(r"\d+|:", token) for token in inside) and not is_twofold:
            return None
        is_plain = self.tokens[first - 1] not in (".", "]", ")") and first < at - 1
        word = "".join(self.tokens[first:at]) if is_plain else ""
        mark = self.mark(at, last)
        width = self.tokens[last - 1] if mark and self.tokens[mark] == "+:" and mark == last - 2 else ""
        if mark and not width.isdigit() or is_twofold:
            word = ""
        index = self.text[self.places[at] + 1 : self.places[mark or last]].strip()
        return Select(
            self.places[first],
            self.places[last] + 1,
            word,
            self.tokens[at - 1],
            index,
            int(width) if width.isdigit() else None,
        )


@dataclasses.dataclass
class Sources:
    """All sources without comments and texts, and what their structures declare."""

    whole: str

    def span(self, member: str) -> tuple[int, int] | None:
        """The range of a member, where all that has its name has this one."""
        span = members_of(self.whole).get(member)
        ranges = re.findall(rf"\[([^\]]*)\]\s*(?:\w+\s*,\s*)*{member}\b", self.whole)
        numbers = {tuple(re.findall(r"\w+", one)) for one in ranges}
        return span if span and numbers == {(str(span[0]), str(span[1]))} else None

    def is_simple(self, select: Select) -> bool:
        """Whether a place is a number from 0 on, whatever its width, and no select of a member itself."""
        is_signed = SIGNED.search(self.whole) or "vidlakost_part" in self.whole
        return not is_signed and bool(select.word) and not re.search(r"\.\s*\w+\s*\[", select.index)


def module_end(blank: str, at: int) -> int | None:
    """Where the module ends in which a place lies."""
    last = [match for match in re.finditer(r"\b(?:end)?module\b", blank) if match.start() < at][-1:]
    end = re.compile(r"\bendmodule\b").search(blank, at)
    return end.start() if last and last[0][0] == "module" and end else None


def function_of(name: str, select: Select, span: tuple[int, int]) -> str:
    width = f"[{select.width - 1}:0] " if select.width else ""
    part = f"at +: {select.width}" if select.width else "at"
    head = f"function automatic {width}{name}(input [{span[0]}:{span[1]}] word, input [63:0] at);"
    return f"{head} {name} = word[{part}]; endfunction "


def rewritten(file: str, source: str, blank: str, sources: Sources) -> tuple[str, list[str]]:
    """A source with functions in place of such selects, and what there is to say of each; `blank` is the source without
    comments and texts. What can't be written so is refused, with what to write in its stead."""
    edits: list[tuple[int, int, str]] = []
    told = []
    for count, (select, is_read) in enumerate(Reader(blank).selects()):
        place = f"{shown(file)}:{blank.count(chr(10), 0, select.begin) + 1}"
        span, end = sources.span(select.member), module_end(blank, select.begin)
        if span is None or end is None or not is_read or not sources.is_simple(select):
            raise ToolError(f"{place}: {WHY}{INSTEAD}", 1)
        name, lines = f"vidlakost_part_{count}", "\n" * source.count("\n", select.begin, select.end)
        # the place keeps the width that it has by itself
        edits.append((select.begin, select.end, f"{name}({select.word}, $unsigned({select.index})){lines}"))
        edits.append((end, end, function_of(name, select, span)))
        said = " ".join(source[select.begin : select.end].split())
        told.append(f"{place}: {said} is read as a part of its own word; beyond that word it is open")
    text = source
    for begin, last, body in sorted(edits, reverse=True):
        text = text[:begin] + body + text[last:]
    return text, told
