"""Rows on refusals: a text with a mark in front of the byte that is meant, the refusal, and what is said there."""
from __future__ import annotations

import dataclasses
import unittest
from typing import Callable, Mapping, Sequence
from unittest import mock

from vidlakost_tools.refusals import finding
from vidlakost_tools.refusals.explained import values_of
from vidlakost_tools.refusals.finding import Finding

MARK = "‸"
# how a kind of text is told: its name, its bytes, the code and the values of a refusal
Tell = Callable[[str, bytes, str, Mapping[str, str]], Finding]


@dataclasses.dataclass
class Row:
    """A marked text (one without a mark is meant as a whole), the refusal behind its kind, the message, the notes."""

    text: str
    refusal: str
    message: str
    notes: Sequence[str] = ()


def split(marked: str) -> tuple[bytes, int | None]:
    """The bytes of a marked text, and the byte behind the mark."""
    before, mark, after = marked.partition(MARK)
    return (before + after).encode(), len(before.encode()) if mark else None


class WithoutProgram(unittest.TestCase):
    """Tests that no program answers, so that nothing is told of what could stand at a place."""

    def setUp(self) -> None:
        patch = mock.patch.object(finding, "quick_program", return_value=None)
        patch.start()
        self.addCleanup(patch.stop)

    def agree(self, tell: Tell, rows: Sequence[Row]) -> None:
        for row in rows:
            with self.subTest(refusal=row.refusal, text=row.text[:200]):
                text, at = split(row.text)
                code, _, rest = row.refusal.partition(" ")
                found = tell("FILE", text, code, values_of(code, rest))
                self.assertEqual((found.message, found.at, found.notes), (row.message, at, list(row.notes)))
