"""The ports of a module of Verilog, with their widths as far as its parameters tell them; for pins of a macro to begin
with."""
from __future__ import annotations

import re
from typing import Collection, Mapping

from vidlakost_tools.collar.liberty import Found
from vidlakost_tools.collar.pins import WIDEST
from vidlakost_tools.tool import ToolError
from vidlakost_tools.verilog.conditions import taken
from vidlakost_tools.verilog.syntax import COMMENT, LEXEME

KINDS = {"wire", "reg", "logic", "tri", "var", "signed", "supply0", "supply1", "bit"}
WAYS = ("input", "output", "inout")
# what the lexer has no token for: attributes, texts in quotes, directives with their word. What is begun and does not
# end goes to the end of the text, so that no place is looked at twice; (*) is no attribute, but what a process waits
# for.
DIRECTIVE = r"`define(?:\\\r?\n|[^\n])*|`(?:include|timescale)[^\n]*|`\w+"
ATTRIBUTE = r"\(\*(?!\s*\)).*?(?:\*\)|\Z)"
OTHER = re.compile(rf'{COMMENT}|/\*.*|{ATTRIBUTE}|"(?:\\.|[^"\\\n])*"|{DIRECTIVE}', re.DOTALL)


class Ports:
    """Reads the head of a module, and in the older style the declarations behind it, where these names are defined."""

    def __init__(
        self,
        path: str,
        text: str,
        module: str,
        given: Mapping[str, int] | None = None,
        defined: Collection[str] = (),
    ):
        self.path, self.module = path, module
        # the parameters that whoever uses the module gives it
        self.given = given or {}
        plain = OTHER.sub(" ", taken(path, text, defined))
        self.words = [match[0] for match in LEXEME.finditer(plain) if match.lastgroup]
        heads = [at for at, word in enumerate(self.words) if word in ("module", "macromodule")]
        starts = [at for at in heads if self.words[at + 1 : at + 2] == [module]]
        if not starts:
            raise ToolError(f"{path}: there is no module {module}")
        if len(starts) > 1:
            raise ToolError(f"{path}: the module {module} is defined twice")
        self.here = starts[0] + 2
        self.end = next(
            (at for at in range(self.here, len(self.words)) if self.words[at] == "endmodule"), len(self.words)
        )
        self.numbers: dict[str, int] = {}
        self.found: dict[str, Found] = {}
        # the names of ports that no declaration has told yet
        self.missing: set[str] = set()

    def peek(self) -> str:
        return self.words[self.here] if self.here < self.end else ""

    def take(self) -> str:
        word = self.peek()
        if not word:
            raise ToolError(f"{self.path}: the module {self.module} stops early")
        self.here += 1
        return word

    def until(self, *marks: str) -> list[str]:
        """The words to one of these marks, which stands in no parentheses of these words."""
        found: list[str] = []
        depth = 0
        while depth or self.peek() not in marks:
            word = self.take()
            depth += {"(": 1, "[": 1, "{": 1, ")": -1, "]": -1, "}": -1}.get(word, 0)
            found.append(word)
        return found

    def value(self, words: list[str]) -> int | None:
        """The number of an expression of numbers, parameters and + - * / << and parentheses; None of any other."""
        texts = []
        for word in words:
            known = str(self.numbers[word]) if word in self.numbers else word
            if not re.fullmatch(r"[0-9]{1,9}|[-+*/()]|<<", known):
                return None
            texts.append(known.replace("/", "//"))
        return Sum(texts).value()

    def parameter(self, end: str) -> None:
        """A parameter and its number, behind the word `parameter`, to a comma or the end of all."""
        words = self.until(",", end)
        if "=" in words:
            at = words.index("=")
            number = self.given.get(words[at - 1], self.value(words[at + 1 :]))
            if number is not None:
                self.numbers[words[at - 1]] = number

    def parameters(self) -> None:
        if self.peek() != "#":
            return
        self.take()
        self.take()
        while self.peek() != ")":
            if self.peek() in ("parameter", "localparam", ","):
                self.take()
                continue
            self.parameter(")")
        self.take()

    def range(self) -> tuple[int, int]:
        """The width and the lowest bit of a range, 0 where it is not known."""
        self.take()
        high = self.value(self.until(":", "]"))
        if self.peek() == "]":
            self.take()
            return 0, 0
        self.take()
        low = self.value(self.until("]"))
        self.take()
        if high is None or low is None or not 0 < abs(high - low) + 1 <= WIDEST:
            return 0, 0
        return abs(high - low) + 1, min(high, low)

    def declaration(self, ends: tuple[str, ...]) -> None:
        """The ports of a direction, behind that word."""
        way = self.take()
        width, low = self.shape()
        while True:
            name = self.take()
            # what is told twice, as the input of a function may be, is not known
            is_other = name in self.found and self.found[name].width != width
            self.found[name] = Found(name, way, 0 if is_other else width, low=low)
            self.missing.discard(name)
            self.until(",", *ends)
            following = self.words[self.here + 1 : self.here + 2]
            if self.peek() != "," or following and following[0] in WAYS:
                return
            self.take()
            if self.peek() in KINDS or self.peek() == "[":
                width, low = self.shape()

    def shape(self) -> tuple[int, int]:
        """The width and the lowest bit that the words of a type and a range tell."""
        while self.peek() in KINDS:
            self.take()
        return self.range() if self.peek() == "[" else (1, 0)

    def ports(self) -> list[Found]:
        self.parameters()
        if self.peek() != "(":
            return []
        self.take()
        names: set[str] = set()
        while self.peek() != ")":
            if self.peek() in WAYS:
                self.declaration((")",))
            else:
                names.add(self.take())
        names.discard(",")
        if self.found:
            return list(self.found.values())
        self.missing = names - self.found.keys()
        while self.missing and self.here < self.end:
            if self.peek() in ("parameter", "localparam"):
                self.take()
                self.parameter(";")
                while self.peek() == ",":
                    self.take()
                    self.parameter(";")
            elif self.peek() in WAYS:
                self.declaration((";",))
            else:
                self.take()
        return [pin for name, pin in self.found.items() if name in names]


class Sum:
    """The number of an expression, read from its words; None where it is none."""

    def __init__(self, words: list[str]):
        self.words, self.here = words, 0

    def value(self) -> int | None:
        found = self.shift(0)
        return found if self.here == len(self.words) else None

    def take(self, *wanted: str) -> str | None:
        if self.here < len(self.words) and self.words[self.here] in wanted:
            self.here += 1
            return self.words[self.here - 1]
        return None

    def shift(self, depth: int) -> int | None:
        left = self.sum(depth)
        while left is not None and self.take("<<"):
            right = self.sum(depth)
            left = left << right if right is not None and 0 <= right <= 32 and abs(left) < 1 << 32 else None
        return left

    def sum(self, depth: int) -> int | None:
        left = self.product(depth)
        while left is not None:
            mark = self.take("+", "-")
            if mark is None:
                return left
            right = self.product(depth)
            left = None if right is None else left + right if mark == "+" else left - right
        return None

    def product(self, depth: int) -> int | None:
        left = self.one(depth)
        while left is not None:
            mark = self.take("*", "//")
            if mark is None:
                return left
            right = self.one(depth)
            if right is None or mark == "//" and right == 0 or abs(left) > 1 << 32:
                return None
            left = left * right if mark == "*" else left // right
        return None

    def one(self, depth: int) -> int | None:
        if self.take("("):
            inner = self.shift(depth + 1) if depth < 40 else None
            return inner if self.take(")") else None
        if self.here < len(self.words) and self.words[self.here].isdigit():
            self.here += 1
            return int(self.words[self.here - 1])
        return None
