"""The gallery's table of what is known: which march of the literature stands there, and that bounds fit each other."""
from __future__ import annotations

import unittest
from typing import Dict, List
from unittest import mock

from vidlakost_tools.design import known, table
from vidlakost_tools.design.known import Claimed, Sources, published
from vidlakost_tools.design.table import Entry, Published
from vidlakost_tools.tool import ToolError

# what some lists hold
HELD: Dict[str, List[str]] = {"a": ["1"], "b": ["2"], "ab": ["1", "2"], "": []}


def entry(words: str, beside: str = "-", least: int = 1) -> Entry:
    return Entry(words.split(), beside, least, "{any(w0);any(r0)}")


def names(it: Entry) -> List[str]:
    return HELD["".join(it.words)]


def judged(name: str, operations: int, covered: List[str], links: bool = False) -> Published:
    return Published(f"{name}.m", name, f"{operations}n", operations, set(covered), False, links, f"{name}s source")


class Known(unittest.TestCase):
    def setUp(self) -> None:
        patched = mock.patch.object(Entry, "names", names)
        patched.start()
        self.addCleanup(patched.stop)

    def test_the_shortest_of_the_literature(self) -> None:
        """A march that was not judged is named where it is shorter, and what it claims holds the list."""
        marches = [judged("long", 9, ["1", "2"], True), judged("one", 5, ["1"]), judged("other", 5, ["1"])]
        claims = [Claimed(entry("a b"), "said", "7n", "said"), Claimed(entry("a b", "linked"), "both", "8n", "both")]
        sources = Sources()
        for row, cells in (
            (entry("a"), ["", "one [1], other [2], 5n"]),
            (entry("b"), ["said [3], 7n", "long [4], 9n"]),
            (entry("", "linked"), ["both [5], 8n", "long [4], 9n"]),
            (entry("a b", "decoder"), ["", ""]),
        ):
            self.assertEqual(published(row, marches, claims, sources), cells, row)
        self.assertEqual(list(sources.lines())[2:], ["3. said.", "4. longs source.", "5. both."])

    def test_the_file_of_what_is_published(self) -> None:
        with mock.patch.object(known, "read_text", lambda _: "# a remark\na | linked | M | 18n+2D | S, 2005\n"):
            (it,) = known.claimed()
        self.assertEqual((it.entry.words, it.name, it.operations, it.source), (["a"], "M", 18, "S, 2005"))
        with mock.patch.object(known, "read_text", lambda _: "a | M | 18n | S, 2005\n"):
            self.assertRaises(ToolError, known.claimed)

    def test_bounds_fit_each_other(self) -> None:
        """A list that holds another needs as many operations, if the other asks for no more beside it."""
        table.check([entry("a", least=4), entry("a b", least=4), entry("a", "linked", 4), entry("b", "linked", 9)])
        for found in (
            [entry("a", least=4), entry("a b", least=3)],
            [entry("a", least=4), entry("a b", "decoder", 3)],
            [entry("a b", "linked", 5), entry("a", "linked", 6)],
        ):
            self.assertRaises(ToolError, table.check, found)


if __name__ == "__main__":
    unittest.main()
