"""What a simulator reads otherwise in a source of Verilog than a synthesizer, by its text: sensitivity lists that are
not whole, delays, signals that are read before they are set, assignments whose order is open, and what only one of both
sees."""
from __future__ import annotations

import dataclasses
import re
from typing import Iterator

from vidlakost_tools.text import shown

TOKEN = re.compile(
    r"\\[!-~]+|`?[A-Za-z_$][\w$]*|\d*'s?[bodh][\w?]*|'[01xz]|\d[\w.]*|[<>=!]=+|\+\+|--|::|\S", re.IGNORECASE
)
NAME = re.compile(r"[A-Za-z_][\w$]*|\\[!-~]+")
ALWAYS = ("always", "always_comb", "always_ff", "always_latch")
LOCAL = ("reg", "logic", "bit", "integer", "int", "automatic", "static", "byte", "genvar", "localparam", "time", "real")
WORDS = {
    *LOCAL,
    *ALWAYS,
    *"""or and not posedge negedge begin end if else case casez casex endcase for while repeat default signed unsigned
    unique unique0 priority inside iff assign disable return break continue forever wait fork join""".split(),
}
CONSTANT = re.compile(r"\b(?:parameter|localparam|genvar|enum)\b[^;]*")
DEEPEST = 200
HIDDEN = re.compile(r"\b(?:synopsys|synthesis|pragma)\s+translate_off\b|\bpragma\s+translate\s+off\b")
DELAY = re.compile(r"(?:=\s*|\bassign\s*)#|#\s*[\d.`]|(?:^|;)[ \t]*#[ \t]*[A-Za-z_]", re.MULTILINE)


@dataclasses.dataclass
class Event:
    """That a name is read or set, and where; whether it is set by a blocking assignment."""

    name: str
    at: int
    is_set: bool
    is_blocking: bool = False


@dataclasses.dataclass
class Block:
    """An `always`: where it begins, what it waits for (None: for all that it reads), whether for an edge, and its
    events."""

    at: int
    waits: set[str] | None
    is_clocked: bool
    events: list[Event]
    # the edges that it waits for, as `posedge clk`, and where it ends
    edges: set[str] = dataclasses.field(default_factory=set)
    end: int = 0

    def first_read(self) -> dict[str, int]:
        """The names that are read and not set before, each with the place."""
        found: dict[str, int] = {}
        done: set[str] = set()
        for event in self.events:
            if event.is_set:
                done.add(event.name)
            elif event.name not in done:
                found.setdefault(event.name, event.at)
        return found

    def sets(self, blocking: bool) -> set[str]:
        return {event.name for event in self.events if event.is_set and event.is_blocking == blocking}


class Reader:
    """Reads the blocks of a text, statement by statement, as far as it is of the usual form."""

    def __init__(self, text: str):
        matches = list(TOKEN.finditer(text))
        # at the end it may go on by some tokens for each statement that is open
        self.last = len(matches)
        self.tokens = [match[0] for match in matches] + [""] * 5 * DEEPEST
        self.places = [match.start() for match in matches] + [len(text)] * 5 * DEEPEST
        self.constants = {name for match in CONSTANT.finditer(text) for name in NAME.findall(match[0])}
        self.locals: set[str] = set()
        self.here = 0
        self.events: list[Event] = []

    def blocks(self) -> Iterator[Block]:
        while self.here < self.last:
            if self.tokens[self.here] not in ALWAYS:
                self.here += 1
                continue
            at, word = self.places[self.here], self.tokens[self.here]
            self.here, self.events, self.locals = self.here + 1, [], set()
            waited = self.waited()
            self.statement(0)
            names = (
                None
                if waited is None or not waited or "*" in waited
                else {word for word in waited if NAME.fullmatch(word)}
            )
            is_clocked = bool(waited) and ("posedge" in waited or "negedge" in waited) or word == "always_ff"
            events = [event for event in self.events if event.name not in self.locals]
            pairs = zip(waited or [], (waited or [])[1:])
            edges = {f"{edge} {name}" for edge, name in pairs if edge in ("posedge", "negedge")}
            end = self.places[min(self.here, self.last)]
            yield Block(at, names if word == "always" else None, is_clocked, events, edges, end)

    def waited(self) -> list[str]:
        """What stands behind the `@` of a block."""
        if self.tokens[self.here] != "@":
            return []
        self.here += 1
        return self.group() if self.tokens[self.here] == "(" else self.one()

    def one(self) -> list[str]:
        self.here += 1
        return [self.tokens[self.here - 1]]

    def group(self) -> list[str]:
        """The tokens in parentheses, behind which it goes on."""
        begin, depth = self.here, 0
        while self.here < self.last:
            depth += {"(": 1, ")": -1}.get(self.tokens[self.here], 0)
            self.here += 1
            if depth == 0:
                break
        return self.tokens[begin : self.here]

    def until(self, *ends: str) -> tuple[int, int]:
        """The tokens to one of these outside of parentheses; it goes on at that one."""
        begin, depth = self.here, 0
        while self.here < self.last and (depth > 0 or self.tokens[self.here] not in ends):
            depth += (
                1
                if self.tokens[self.here] in ("(", "[", "{")
                else -1 if self.tokens[self.here] in (")", "]", "}") else 0
            )
            self.here += 1
        return begin, self.here

    def read(self, begin: int, end: int) -> None:
        """Notes the names that are read among these tokens."""
        for at in range(begin, end):
            name, before = self.tokens[at], self.tokens[at - 1]
            is_name = NAME.fullmatch(name) and name not in WORDS and name not in self.constants
            if is_name and before not in (".", "::") and self.tokens[at + 1] not in ("(", "::"):
                self.events.append(Event(name, self.places[at], False))

    def statement(self, depth: int) -> None:
        while self.tokens[self.here : self.here + 2] == ["(", "*"]:
            self.group()
        word = self.tokens[self.here]
        if depth >= DEEPEST:
            self.here = self.last
        elif word in ("begin", "fork"):
            self.sequence(depth)
        elif word in ("unique", "unique0", "priority"):
            self.here += 1
            self.statement(depth + 1)
        elif word == "if":
            self.choice(depth)
        elif word in ("case", "casez", "casex"):
            self.cases(depth)
        elif word in ("for", "while", "repeat", "@", "#"):
            self.loop(depth)
        else:
            self.assignment(*self.until(";"))
            self.here += 1

    def sequence(self, depth: int) -> None:
        self.here += 1
        if self.tokens[self.here] == ":":
            self.here += 2
        while self.here < self.last and self.tokens[self.here] not in ("end", "join", "join_any", "join_none"):
            self.statement(depth + 1)
        self.here += 1
        if self.tokens[self.here] == ":":
            self.here += 2

    def condition(self) -> None:
        self.here += 1
        begin = self.here
        self.group()
        self.read(begin, self.here)

    def choice(self, depth: int) -> None:
        self.condition()
        self.statement(depth + 1)
        if self.tokens[self.here] == "else":
            self.here += 1
            self.statement(depth + 1)

    def cases(self, depth: int) -> None:
        self.condition()
        while self.here < self.last and self.tokens[self.here] != "endcase":
            is_default = self.tokens[self.here] == "default"
            self.here += is_default
            if not is_default:
                self.read(*self.until(":"))
            self.here += self.tokens[self.here] == ":"
            self.statement(depth + 1)
        self.here += 1

    def loop(self, depth: int) -> None:
        self.here += 1
        if self.tokens[self.here] == "(":
            begin = self.here + 1
            self.group()
            last = next((at for at in range(begin, self.here) if self.tokens[at] == ";"), begin)
            self.assignment(begin, last)
            self.read(last, self.here - 1)
        else:
            self.here += 1
        self.statement(depth + 1)

    def assignment(self, begin: int, end: int) -> None:
        """An assignment, a declaration, or a call."""
        if self.tokens[begin] in LOCAL:
            self.locals |= {name for name in self.tokens[begin:end] if NAME.fullmatch(name)}
        depth, mark = 0, end
        for at in range(begin, end):
            depth += 1 if self.tokens[at] in ("(", "[", "{") else -1 if self.tokens[at] in (")", "]", "}") else 0
            if depth == 0 and self.tokens[at] in ("=", "<="):
                mark = at
                break
        self.read(mark, end)
        if mark == end:
            self.read(begin, end)
            return
        depth = 0
        for at in range(begin, mark):
            depth += {"[": 1, "]": -1}.get(self.tokens[at], 0)
            is_name = NAME.fullmatch(self.tokens[at]) and self.tokens[at - 1] != "." and self.tokens[at] not in WORDS
            if is_name and depth > 0:
                self.read(at, at + 1)
            elif is_name:
                self.events.append(Event(self.tokens[at], self.places[at], True, self.tokens[mark] == "="))


def told(names: list[str]) -> str:
    return ", ".join(names[:4]) + (", .." if len(names) > 4 else "")


def of_blocks(text: str) -> Iterator[tuple[int, str]]:
    """What there is to warn of in a text's blocks, each with its place."""
    blocks = list(Reader(text).blocks())
    for block in blocks:
        first = block.first_read()
        if block.is_clocked:
            continue
        missing = [name for name in first if block.waits is not None and name not in block.waits]
        if missing:
            yield block.at, f"the block reads {told(missing)}, which is not in its sensitivity list"
        early = [name for name in first if name in block.sets(True)]
        if early:
            yield first[early[0]], f"the block reads {told(early)} before it sets it"


def warnings_of(file: str, source: str, text: str) -> list[str]:
    """The warnings of a source, whose text without comments is given; each has its file and line."""
    found = []
    # each module by itself, since names are its own
    for module in re.finditer(r"\bmodule\b.*?(?:\bendmodule\b|\Z)", text, re.DOTALL):
        found += [(module.start() + at, why) for at, why in of_blocks(module[0])]
    delay = DELAY.search(text)
    if delay:
        found.append((delay.end(), "a delay is skipped"))
    hidden = HIDDEN.search(source)
    if hidden:
        found.append((hidden.start(), "what follows translate_off is skipped"))
    wild = re.search(r"\bcasex\b", text)
    if wild:
        found.append((wild.start(), "casex matches an x in its operand with anything"))
    return [
        f"{shown(file)}:{text.count(chr(10), 0, at) + 1}: {why}; a simulator reads it differently"
        for at, why in sorted(found)[:8]
    ]


def initial_places(file: str, text: str) -> list[str]:
    """Where a source has initial values, as far as a word says so."""
    return [f"{shown(file)}:{text.count(chr(10), 0, match.start()) + 1}" for match in re.finditer(r"\binitial\b", text)]
