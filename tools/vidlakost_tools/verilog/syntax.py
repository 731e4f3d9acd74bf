"""The Verilog of the subset: the one lexer, and the tree of a module that the program can read."""
from __future__ import annotations

import dataclasses
import re
import sys
from typing import Union

COMMENT = r"//[^\n]*|/\*.*?\*/"
LEXEME = re.compile(
    rf"(?:\s|{COMMENT})+|"
    r"(?P<literal>\d+'[bodhBODH][0-9a-fA-F_]+)|(?P<number>\d+)|(?P<name>[A-Za-z_][\w$]*)|"
    r"(?P<mark><=|>=|==|!=|&&|\|\||<<|>>|~&|~\||~\^|\^~|.)",
    re.DOTALL | re.ASCII,
)
# operators of two operands, from the loosest to the tightest, for modules without all their parentheses
LEVELS = ["||", "&&", "|", "^", "&", "== !=", "< <= > >=", "<< >>", "+ -"]
RANK = {mark: rank for rank, level in enumerate(LEVELS) for mark in level.split()}
PREFIXES = ("~", "!", "&", "|", "^", "~&", "~|", "~^", "^~")
BASES = {"b": 2, "o": 8, "d": 10, "h": 16}


class Unread(ValueError):
    """What keeps a text from being a module of the subset, and the place where that shows."""

    def __init__(self, message: str, at: int):
        super().__init__(message)
        self.at = at


@dataclasses.dataclass
class Token:
    kind: str
    text: str
    at: int


# ---- the tree


@dataclasses.dataclass
class Expression:
    """An expression: `literal`, `name` (with the bits that are selected of it), `prefix`, `infix`, `choice` or `join`;
    its first byte, the token that says what it is, and its operands. `width` and `value` are those of a literal."""

    kind: str
    start: int
    token: Token
    operands: list[Expression] = dataclasses.field(default_factory=list)
    bits: tuple[int, int] | None = None
    width: int = 0
    value: int = 0


@dataclasses.dataclass
class Set:
    target: Token
    value: Expression


@dataclasses.dataclass
class Block:
    parts: list[Statement]


@dataclasses.dataclass
class If:
    condition: Expression
    then: Statement
    otherwise: Statement | None


@dataclasses.dataclass
class Case:
    """A case; an arm without labels is the default."""

    subject: Expression
    arms: list[tuple[list[Expression], Statement]]


Statement = Union[Set, Block, If, Case]


@dataclasses.dataclass
class Declared:
    """A port or a name: `input`, `output`, `wire` or `reg`, which an output may be too."""

    kind: str
    width: int
    token: Token


@dataclasses.dataclass
class Assign:
    target: Token
    value: Expression


@dataclasses.dataclass
class Always:
    clock: Token
    body: Statement


Item = Union[Declared, Assign, Always]


@dataclasses.dataclass
class Module:
    name: str
    ports: list[Declared]
    items: list[Item]


# ---- the reader


class Reader:
    """Reads a module; operators bind by precedence where no parentheses say otherwise."""

    def __init__(self, text: str):
        matches = [match for match in LEXEME.finditer(text) if match.lastgroup]
        self.tokens = [Token(str(match.lastgroup), match[0], match.start()) for match in matches]
        self.tokens.append(Token("end", "", len(text)))
        self.here = 0
        # an expression takes a dozen calls for each of its 64 openings at most
        sys.setrecursionlimit(max(sys.getrecursionlimit(), 20000))

    def peek(self) -> Token:
        return self.tokens[self.here]

    def take(self, *wanted: str) -> Token:
        token = self.peek()
        if wanted and token.text not in wanted or token.kind == "end":
            raise Unread(f"'{token.text}' stands where {' or '.join(wanted) or 'more'} has to", token.at)
        self.here += 1
        return token

    def skip(self, text: str) -> bool:
        """Takes the next token where it is this one."""
        found = self.peek().text == text
        self.here += found
        return found

    def kind(self, kind: str) -> Token:
        if self.peek().kind != kind:
            raise Unread(f"'{self.peek().text}' stands where a {kind} has to", self.peek().at)
        return self.take()

    def range(self) -> int:
        if not self.skip("["):
            return 1
        high = int(self.kind("number").text)
        for mark in (":", "0", "]"):
            self.take(mark)
        return high + 1

    def module(self) -> Module:
        self.take("module")
        name, ports, items = self.kind("name").text, [], []
        self.take("(")
        while not self.skip(")"):
            kind = self.take("input", "output").text
            if self.peek().text in ("wire", "reg"):
                kind = "reg" if self.take().text == "reg" else kind
            ports.append(Declared(kind, self.range(), self.kind("name")))
            self.skip(",")
        self.take(";")
        while not self.skip("endmodule"):
            items += self.item()
        return Module(name, ports, items)

    def item(self) -> list[Item]:
        kind = self.take("wire", "reg", "assign", "always").text
        if kind == "always":
            for mark in ("@", "(", "posedge"):
                self.take(mark)
            clock = self.kind("name")
            self.take(")")
            return [Always(clock, self.statement())]
        made: list[Item] = []
        if kind == "assign":
            target = self.kind("name")
            self.take("=")
            made.append(Assign(target, self.expression()))
        else:
            width = self.range()
            made.append(Declared(kind, width, self.kind("name")))
            while self.skip(","):
                made.append(Declared(kind, width, self.kind("name")))
        self.take(";")
        return made

    # statements

    def statement(self) -> Statement:
        if self.skip("begin"):
            parts = []
            while not self.skip("end"):
                parts.append(self.statement())
            return Block(parts)
        if self.skip("if"):
            condition, then = self.in_parentheses(), self.statement()
            return If(condition, then, self.statement() if self.skip("else") else None)
        if self.skip("case"):
            return self.cases()
        target = self.kind("name")
        self.take("<=")
        value = self.expression()
        self.take(";")
        return Set(target, value)

    def cases(self) -> Case:
        subject, arms = self.in_parentheses(), []
        while not self.skip("endcase"):
            labels = []
            if self.skip("default"):
                self.skip(":")
            else:
                labels.append(self.expression())
                while self.skip(","):
                    labels.append(self.expression())
                self.take(":")
            arms.append((labels, self.statement()))
        return Case(subject, arms)

    # expressions

    def in_parentheses(self) -> Expression:
        start = self.take("(").at
        inside = self.expression()
        self.take(")")
        inside.start = start
        return inside

    def expression(self) -> Expression:
        condition = self.infix(0)
        if self.peek().text != "?":
            return condition
        mark, first = self.take(), self.expression()
        self.take(":")
        return Expression("choice", condition.start, mark, [condition, first, self.expression()])

    def infix(self, rank: int) -> Expression:
        if rank == len(LEVELS):
            return self.prefix()
        left = self.infix(rank + 1)
        while RANK.get(self.peek().text) == rank:
            mark = self.take()
            left = Expression("infix", left.start, mark, [left, self.infix(rank + 1)])
        return left

    def prefix(self) -> Expression:
        token = self.peek()
        if token.text in PREFIXES:
            return Expression("prefix", token.at, self.take(), [self.prefix()])
        if token.text == "(":
            return self.in_parentheses()
        if self.skip("{"):
            parts = [self.expression()]
            while self.skip(","):
                parts.append(self.expression())
            self.take("}")
            return Expression("join", token.at, token, parts)
        if token.kind == "literal":
            size, digits = self.take().text.split("'")
            value = int(digits[1:].replace("_", ""), BASES[digits[0].lower()])
            return Expression("literal", token.at, token, width=int(size), value=value)
        return Expression("name", token.at, self.kind("name"), bits=self.selected())

    def selected(self) -> tuple[int, int] | None:
        """The greatest and the least bit that are selected of a name."""
        if not self.skip("["):
            return None
        high = low = int(self.kind("number").text)
        if self.skip(":"):
            low = int(self.kind("number").text)
        self.take("]")
        return high, low


def ranged(width: int) -> str:
    """The range of a name of so many bits, in Verilog."""
    return f"[{width - 1}:0] " if width > 1 else ""
