"""The reader of memory descriptions that the program accepts, with the addresses, words and cycles of such a memory."""
from __future__ import annotations

import dataclasses
from typing import List, Sequence, Tuple

from vidlakost_tools.program import ask
from vidlakost_tools.text import Path, statements
from vidlakost_tools.texts.march import Element
from vidlakost_tools.tool import ToolError, identifier


@dataclasses.dataclass
class Memory:
    """An accepted memory description: words by physical index, rows of the scrambling (None: none), backgrounds."""

    name: str
    words: int
    bits: int
    latency: int
    polarity: int
    pause: int
    rows: list[Row] | None
    backgrounds: list[int]

    def __post_init__(self) -> None:
        """Checks what goes into paths and Verilog texts, whatever was read."""
        identifier(self.name, "the name of a memory")
        limits = ((self.words, 2, 65536), (self.bits, 1, 64), (self.latency, 1, 4), (self.pause, 1, 65535))
        words = (self.polarity, *self.backgrounds)
        rows = all(max(bits, default=0) < self.width for bits, _ in self.rows or [])
        if not all(least <= value <= most for value, least, most in limits) or any(word >> self.bits for word in words):
            raise ToolError(f"the description of {self.name} has a number out of its range")
        if not 1 <= len(self.backgrounds) <= 8 or not rows or self.rows is not None and len(self.rows) != self.width:
            raise ToolError(f"the description of {self.name} has wrong rows or backgrounds")

    @property
    def width(self) -> int:
        return max(1, (self.words - 1).bit_length())

    def row(self, i: int) -> Row:
        """The index bits and the constant of bit i of an address."""
        return ([i], 0) if self.rows is None else self.rows[i]

    def address_of(self, index: int) -> int:
        """The address of a physical index."""
        rows = (self.row(i) for i in range(self.width))
        return sum(
            (sum(index >> bit & 1 for bit in bits) + constant & 1) << i for i, (bits, constant) in enumerate(rows)
        )

    def way_back(self) -> list[Row]:
        """For each bit of an index: the address bits whose exclusive or it is, and its constant."""
        rows = []
        for i in range(self.width):
            bits, constant = self.row(i)
            rows.append([sum(1 << b for b in bits), 1 << i, constant])
        for column in range(self.width):
            pivot = next(r for r in range(column, self.width) if rows[r][0] >> column & 1)
            rows[column], rows[pivot] = rows[pivot], rows[column]
            for r in range(self.width):
                if r != column and rows[r][0] >> column & 1:
                    rows[r] = [x ^ y for x, y in zip(rows[r], rows[column])]
        return [([b for b in range(self.width) if row[1] >> b & 1], row[2]) for row in rows]

    def cycles_of(self, element: Element) -> int:
        """The cycles of an element in one background."""
        return self.pause if element.is_pause else len(element.operations) * self.words

    def cycles(self, elements: list[Element]) -> int:
        """The cycles of a whole test, from the reset to the cycle that shows the last comparison."""
        return len(self.backgrounds) * sum(map(self.cycles_of, elements)) + self.latency + 2

    def digits(self, word: int) -> str:
        """A word as the program prints it."""
        return f"{word:0{(self.bits + 3) // 4}x}"


# the index bits and the constant of an exclusive or
Row = Tuple[List[int], int]


def terms_of(text: str) -> Row:
    """An exclusive or; equal terms cancel."""
    bits: set[int] = set()
    constant = 0
    for term in (part.strip() for part in text.split("^")):
        if term.startswith("p"):
            bits ^= {int(term[1:])}
        else:
            constant ^= int(term)
    return sorted(bits), constant


def logarithmic(bits: int) -> list[int]:
    """The word 0, and for each bit of a position, the word in which every position has that bit of its number."""
    planes = range((bits - 1).bit_length())
    return [0] + [sum(1 << i for i in range(bits) if i >> plane & 1) for plane in planes]


def rows_of(said: list[tuple[int, str, str]]) -> dict[int, tuple[int, Row]]:
    """For each row of the scrambling: its line and its terms."""
    split = [(line, rest.split("=")) for line, word, rest in said if word == "scramble"]
    return {int(parts[0].strip()[1:]): (line, terms_of(parts[1])) for line, parts in split if len(parts) == 2}


def parse_memory(text: str) -> Memory:
    """The memory of a text that the program accepts."""
    said = {"latency": "1", "polarity": "0", "pause": "1", "backgrounds": "log"}
    said.update({word: rest for _, word, rest in statements(text)})
    rows = rows_of(statements(text))
    bits = int(said["bits"])
    log = said["backgrounds"] == "log"
    backgrounds = logarithmic(bits) if log else [int(word, 16) for word in said["backgrounds"].split()]
    return Memory(
        said["name"],
        int(said["words"]),
        bits,
        int(said["latency"]),
        int(said["polarity"], 16),
        int(said["pause"]),
        [rows[i][1] for i in sorted(rows)] or None,
        backgrounds,
    )


def with_backgrounds(text: str, memory: Memory, words: Sequence[int]) -> str:
    """The description of a memory with other backgrounds."""
    lines = [f"{word} {rest}\n" for _, word, rest in statements(text) if word != "backgrounds"]
    return "".join([*lines, f"backgrounds {' '.join(map(memory.digits, words))}\n"])


def read_memory(path: Path) -> Memory:
    """The memory of a file, as the program reads it."""
    return parse_memory(ask("show", "memory", path))
