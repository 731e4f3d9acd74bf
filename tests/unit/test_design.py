"""The search for a march: what survives one, how short it can be at best, and what it ends with."""
from __future__ import annotations

import itertools
import time
import unittest
import unittest.mock
from typing import List, Sequence

from vidlakost_tools.design.bound import Bound
from vidlakost_tools.design.finder import Finder, Wish
from vidlakost_tools.design.instances import Instance, decoder_instances, instances_of, linked_instances
from vidlakost_tools.design.one_cell import OneCell, parted
from vidlakost_tools.design.parts import (
    Limits,
    Part,
    Parts,
    elements_from,
    is_complete,
    length,
    opened,
    parts_of,
    shorter,
    text_of,
    trimmed,
)
from vidlakost_tools.design.progress import Progress
from vidlakost_tools.design.reach import can_cover
from vidlakost_tools.design.survivors import Survivors
from vidlakost_tools.texts.decoder import NAMES, DecoderVerdict
from vidlakost_tools.texts.faults import Array, read_primitive
from vidlakost_tools.texts.linked import LinkVerdict
from vidlakost_tools.texts.march import Element, elements_of

C_MINUS = "{any(w0);up(r0,w1);up(r1,w0);down(r0,w1);down(r1,w0);any(r0)}"
# marches of the literature: SL covers the linked faults too
SS = "{any(w0);up(r0,r0,w0,r0,w1);up(r1,r1,w1,r1,w0);down(r0,r0,w0,r0,w1);down(r1,r1,w1,r1,w0);any(r0)}"
SL = (
    "{any(w0);up(r0,r0,w1,w1,r1,r1,w0,w0,r0,w1);up(r1,r1,w0,w0,r0,r0,w1,w1,r1,w0);"
    "down(r0,r0,w1,w1,r1,r1,w0,w0,r0,w1);down(r1,r1,w0,w0,r0,r0,w1,w1,r1,w0)}"
)
TRANSITIONS = ["<0w1/0/->", "<1w0/1/->"]
STUCK = ["<0/1/->", "<1/0/->"]
SOME = [
    *STUCK,
    *TRANSITIONS,
    "<0r0/0/1>",
    "<1w1/0/->",
    "<0t/1/->",
    "<0;0/1/->",
    "<1;0/1/->",
    "<0w1;0/1/->",
    "<1r1;1/0/->",
    "<0;1w1/0/->",
    "<1;0r0/1/0>",
    "<0w1r1/0/1>",
    "<0;0w1w0/1/->",
    "<1w1r1;0/1/->",
]
MARCHES = [
    C_MINUS,
    SS,
    "{up(w0,w1);down(r1,w0,r0);any(r0)}",
    "{down(w1);del;up(r1,w1,w0);any(r0,r0,w1);up(r1)}",
    "{any(w1,w0);up(w0,w1,r1);down(w1,r1,w0,r0);del;any(r0,w1,w0,w1,r1)}",
]


def directions(elements: Sequence[Element]) -> List[str]:
    """All that the orders leave open."""
    ways = {"up": "u", "down": "d", "any": "ud", "del": "u"}
    return ["".join(chosen) for chosen in itertools.product(*(ways[element.order] for element in elements))]


def plainly_escapes(text: str, march: str) -> bool:
    """Whether a primitive escapes in an array of two to four cells, by the definition."""
    primitive, elements = read_primitive(text), elements_of(march)
    for cells in (2, 3, 4):
        for victim, aggressor in itertools.product(
            range(cells), [None] if primitive.aggressor is None else range(cells)
        ):
            if victim == aggressor:
                continue
            for content in itertools.product("01", repeat=cells):
                for way in directions(elements):
                    array = Array(primitive, aggressor, victim, "".join(content))
                    if not list(array.march(elements, way))[-1].differs:
                        return True
    return False


def survives(instances: Sequence[Instance], march: str) -> bool:
    return any(Survivors(instances).run(elements_of(march))[0])


class Surviving(unittest.TestCase):
    def test_as_in_arrays(self) -> None:
        for march, text in itertools.product(MARCHES, SOME):
            self.assertEqual(survives(instances_of(text), march), plainly_escapes(text, march), (text, march))

    def test_wrong_decoders(self) -> None:
        for march in (
            "{any(w0);any(r0,w1);any(r1)}",
            "{any(w0);up(r0,w1);up(r1,w0)}",
            "{any(w0);up(r0,w0);down(r0,w1,r1,w0)}",
        ):
            elements = elements_of(march)
            plainly = {
                name
                for name in NAMES
                for x, content, way in itertools.product((0, 1), ("00", "01", "10", "11"), directions(elements))
                if not list(DecoderVerdict(name, x, 1 - x, content, way).steps(elements))[-1].differs
            }
            survivors = Survivors([], decoder_instances())
            self.assertEqual(survivors.left(survivors.run(elements)[0]), plainly, march)

    def test_links(self) -> None:
        """March C- covers each of the two; March SL alone covers them linked, as its authors say."""
        pair = ("<0w1;0/1/->", "<0w1;1/0/->")
        self.assertTrue(survives(linked_instances("LF3", *pair), C_MINUS))
        self.assertFalse(survives(linked_instances("LF3", *pair), SL))
        verdict = LinkVerdict("LF3", *pair, 0, 1, 2, "000", "uuuddu")
        self.assertFalse(list(verdict.steps(elements_of(C_MINUS)))[-1].differs)

    def test_a_shared_aggressor(self) -> None:
        """An aggressor has one content: of both primitives at once there is no array where one asks for 0 and one for
        1."""
        made = linked_instances("LF2aa", "<0;0w1/0/->", "<1w0;0/1/->")
        self.assertEqual(
            {(it.links[0].aggressor, it.links[1].aggressor, it.victim) for it in made}, {(0, 0, 1), (1, 1, 0)}
        )


class Marches(unittest.TestCase):
    def setUp(self) -> None:
        self.survivors = Survivors([it for text in TRANSITIONS for it in instances_of(text)])

    def test_texts(self) -> None:
        for march in (C_MINUS, SS, SL):
            self.assertEqual(text_of(parts_of(elements_of(march))), march)

    def test_one_operation_less(self) -> None:
        found = [text_of(parts) for parts in shorter(parts_of(elements_of("{up(w0,w1);up(r1)}")), 0)]
        self.assertEqual(found, ["{up(w1);up(r1)}", "{up(w0);up(r0)}", "{up(w0,w1)}"])
        self.assertEqual(
            [text_of(it) for it in shorter(parts_of(elements_of("{up(w0,w1);up(r1)}")), 1)], ["{up(w0,w1)}"]
        )

    def test_what_is_too_much_goes(self) -> None:
        parts = trimmed(self.survivors, parts_of(elements_of("{any(w0);up(r0,w1);up(r1,w0,r0);up(r0)}")))
        self.assertEqual(length(parts), 5)

    def test_orders_are_opened(self) -> None:
        self.assertEqual(
            text_of(opened(self.survivors, parts_of(elements_of("{up(w0,w1,r1,w0,r0)}")))), "{any(w0,w1,r1,w0,r0)}"
        )


class Bounds(unittest.TestCase):
    def least(self, texts: Sequence[str], decoder: bool = False) -> int:
        """How short a march of these is at best, by the search of all."""
        survivors = Survivors(
            [it for text in texts for it in instances_of(text)], decoder_instances() if decoder else []
        )
        bound = Bound(survivors, Limits(), [], lambda text: None)
        for operations in itertools.count(bound.least):
            parts = bound.search(operations)
            if parts is not None:
                self.assertFalse(any(survivors.run(elements_of(text_of(parts)))[0]))
                return operations
        raise AssertionError

    def shortest(self, texts: Sequence[str], most: int) -> int:
        """The same without any thought: each march of elements of single directions is tried."""
        survivors = Survivors([it for text in texts for it in instances_of(text)])
        layer: List[Parts] = [[Part("up", (write,))] for write in ("w0", "w1")]
        for operations in range(1, most + 1):
            if any(not any(survivors.run(elements_of(text_of(parts)))[0]) for parts in layer):
                return operations
            longer = [
                made
                for parts in layer
                for operation in ("w0", "w1", "r")
                for made in (
                    [*parts[:-1], Part(parts[-1].order, (*parts[-1].operations, operation))],
                    [*parts, Part("up", (operation,))],
                    [*parts, Part("down", (operation,))],
                )
            ]
            layer = longer
        return 0

    def test_against_all_marches(self) -> None:
        for texts in (
            STUCK,
            ["<0/1/->"],
            ["<0w1/0/->"],
            ["<0w1;0/1/->"],
            ["<1;0/1/->"],
            ["<0r0/0/1>"],
            ["<0;0r0/1/1>"],
            ["<1r1;1/0/->"],
        ):
            self.assertEqual(self.least(texts), self.shortest(texts, 6) or self.least(texts), texts)
            self.assertLessEqual(self.least(texts), 6, texts)

    def test_by_hand(self) -> None:
        """A stuck-at fault of each kind asks for both writes and a read of each; MATS+ is the least with the
        decoder."""
        self.assertEqual(self.least(STUCK), 4)
        self.assertEqual(self.least(TRANSITIONS), 5)
        self.assertEqual(self.least(STUCK, decoder=True), 5)

    def test_behind_a_march(self) -> None:
        survivors = Survivors([it for text in TRANSITIONS for it in instances_of(text)])
        given = parts_of(elements_of("{any(w0);any(r0,w1);any(r1,w0)}"))
        bound = Bound(survivors, Limits(), given, lambda text: None)
        self.assertIsNone(bound.search(0))
        self.assertEqual(bound.search(1), [Part("up", ("r",))])


class OneCells(unittest.TestCase):
    """The search over the states of a cell alone, beside a search of all marches."""

    def least(self, texts: Sequence[str], most: int = 40) -> int:
        every = [it for text in texts for it in instances_of(text)]
        chosen = [it for it in every if it.below == it.above]
        bounds: List[int] = []
        parts = OneCell(chosen, bounds.append, lambda text: None).shortest(most)
        if parts is None:
            return 0
        self.assertEqual(max(bounds), length(parts))
        self.assertTrue(is_complete(Survivors(every), parted(Survivors(every), parts, 16)))
        return length(parts)

    def plainly(self, texts: Sequence[str], most: int) -> int:
        """Each march of single directions, one operation after the other; a state is looked at once."""
        survivors = Survivors([it for text in texts for it in instances_of(text)])
        layer: List[Parts] = [[Part("up", (write,))] for write in ("w0", "w1")]
        seen = set()
        for operations in range(1, most + 1):
            if any(is_complete(survivors, parts) for parts in layer):
                return operations
            longer = []
            for parts in layer:
                for operation in ("w0", "w1", "r"):
                    for made in (
                        [*parts[:-1], Part(parts[-1].order, (*parts[-1].operations, operation))],
                        [*parts, Part("up", (operation,))],
                    ):
                        before = survivors.run(elements_from(made[:-1])) if len(made) > 1 else None
                        key = (before, made[-1], survivors.run(elements_from(made)))
                        if key not in seen:
                            seen.add(key)
                            longer.append(made)
            layer = longer
        return 0

    def test_against_all_marches(self) -> None:
        for texts in (["<0w1r1/0/1>"], ["<0r0w0/1/->"], ["<1w1w0/1/->"], TRANSITIONS, ["<0w0/1/->", "<0r0r0/1/0>"]):
            self.assertEqual(self.least(texts), self.plainly(texts, 7), texts)

    def test_none_is_so_short(self) -> None:
        self.assertEqual(self.least(TRANSITIONS, 4), 0)


class Reach(unittest.TestCase):
    def test_two_operations_of_one_cell_ask_for_an_element_of_two(self) -> None:
        for text, operations, is_covered in (
            ("<0/1/->", 1, True),
            ("<0w1r1/0/1>", 1, False),
            ("<0w1r1/0/1>", 2, True),
            ("<0w0w0;1/0/->", 2, False),
            ("<0w0w0;1/0/->", 3, True),
            ("<0t/1/->", 1, True),
        ):
            self.assertEqual(can_cover(text, operations), is_covered, (text, operations))


class Finding(unittest.TestCase):
    def find(self, texts: Sequence[str], limits: Limits = Limits(), behind: str = "") -> Finder:
        given = parts_of(elements_of(behind)) if behind else []
        wish = Wish([it for text in texts for it in instances_of(text)], [], limits, given, 40)
        finder = Finder(wish, Progress())
        finder.run()
        return finder

    def test_one_primitive(self) -> None:
        finder = self.find(["<0w1/0/->"])
        self.assertEqual((length(finder.best or []), finder.is_shortest), (3, True))

    def test_a_bound_that_is_shown_ends_the_walks(self) -> None:
        wish = Wish([it for text in TRANSITIONS for it in instances_of(text)], [], Limits(), [], 40)
        finder, begun = Finder(wish, Progress()), time.monotonic()
        finder.run(seconds=300, workers=2)
        self.assertEqual((length(finder.best or []), finder.is_shortest), (5, True))
        self.assertLess(time.monotonic() - begun, 100)

    def test_pauses(self) -> None:
        finder = self.find([*TRANSITIONS, "<0t/1/->", "<1t/0/->"])
        self.assertTrue(finder.is_shortest)
        self.assertEqual((length(finder.best or []), [part.order for part in finder.best or []].count("del")), (5, 2))

    def test_what_does_not_fit(self) -> None:
        finder = self.find([*TRANSITIONS, "<0w1;0/1/->", "<1;0/1/->"], Limits(elements=1))
        self.assertIsNone(finder.best)
        self.assertEqual(len(finder.nearest or []), 1)

    def test_what_is_extended_stays(self) -> None:
        finder = self.find([*TRANSITIONS, "<0r0/1/0>"], behind=C_MINUS)
        self.assertTrue(text_of(finder.best or []).startswith(C_MINUS[:-1]))
        self.assertEqual(length(finder.best or []), 11)
        self.assertTrue(finder.is_shortest)

    def test_nothing_is_left_to_do(self) -> None:
        finder = self.find(TRANSITIONS, behind=C_MINUS)
        self.assertEqual((text_of(finder.best or []), finder.is_shortest), (C_MINUS, True))


if __name__ == "__main__":
    unittest.main()
