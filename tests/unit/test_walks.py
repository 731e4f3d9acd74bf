"""Walks of random changes: what a march leaves, which changes there are, and how several processes search."""
from __future__ import annotations

import contextlib
import os
import pathlib
import random
import signal
import subprocess
import sys
import tempfile
import time
import unittest
import unittest.mock
from typing import Iterator, List, Optional, Tuple

from tests.unit.signals import as_at_a_terminal
from tests.unit.test_design import C_MINUS, SOME, STUCK, TRANSITIONS
from vidlakost_tools.design import effects
from vidlakost_tools.design.changes import Changes, Marked, Words, changed, part_of, word_of
from vidlakost_tools.design.finder import Finder, Wish
from vidlakost_tools.design.instances import Instance, decoder_instances, instances_of, linked_instances
from vidlakost_tools.design.parts import Limits, Part, Parts, elements_from, is_complete, length, parts_of, text_of
from vidlakost_tools.design.progress import Progress
from vidlakost_tools.design.survivors import Survivors
from vidlakost_tools.design.walk import TURNS, Place, Walk
from vidlakost_tools.design.workers import Search, Walks
from vidlakost_tools.program import ROOT
from vidlakost_tools.texts.march import elements_of

# a march that is much longer than it has to be, for most of SOME
LONG = "{up(w0);up(r0,w1,r1,r1,w0,r0);up(r0,w1,r1,r1,w0,r0);up(r0,w1,r1,r1,w0,r0);up(r0,w1,r1,r1,w0,r0);"
LONG += "del;down(r0,w1,w1,r1,r1,w0,w0,r0)}"
# how soon a process has to end whose parent is gone
SOON = 1.0


def parts_in(march: Words) -> Parts:
    return [part_of(word) for word in march]


def one(changes: Changes, march: Words) -> Optional[Words]:
    span = changes.one(Marked(march))
    return None if span is None else changed(march, span)


def children(parent: int) -> Iterator[int]:
    """The processes of a process."""
    for path in pathlib.Path("/proc").glob("[0-9]*"):
        with contextlib.suppress(OSError):
            after = (path / "stat").read_text().rpartition(")")[2].split()
            if int(after[1]) == parent and after[0] != "Z":
                yield int(path.name)


def is_running(process: int) -> bool:
    with contextlib.suppress(OSError):
        return pathlib.Path(f"/proc/{process}/stat").read_text().rpartition(")")[2].split()[0] != "Z"
    return False


class Walking(unittest.TestCase):
    def test_what_is_left_as_survivors_say(self) -> None:
        """Marches at random and their changes, with links, pauses, a wrong decoder and a march in front."""
        pairs = [
            linked_instances("LF3", "<0w1;0/1/->", "<1;1r1/0/1>"),
            linked_instances("LF1", "<0w1/0/->", "<0r0/1/1>"),
        ]
        cases: List[Tuple[List[Instance], Parts]] = [
            ([it for text in SOME for it in instances_of(text)], []),
            ([it for pair in pairs for it in pair], []),
            ([it for text in SOME for it in instances_of(text)], parts_of(elements_of(C_MINUS))),
        ]
        for instances, behind in cases:
            survivors = Survivors(instances, decoder_instances())
            chance = random.Random(1)
            changes = Changes(chance, Limits(pauses=survivors.pauses), not behind, 64)
            place = Place(survivors, behind)
            place.take(changes.any(10))
            for _ in range(300):
                span = changes.one(place.marked)
                if span is None:
                    continue
                made = changed(place.march, span)
                parts = parts_in(made)
                state = survivors.run(elements_from([*behind, *parts]))[0]
                self.assertEqual(place.left(span), state[0] | state[1] | state[2] | state[3], (place.march, span))
                self.assertEqual(length(parts), 10)
                if chance.random() < 0.3:
                    place.take(made)

    def test_processors_do_not_matter(self) -> None:
        """Each number of processes finds the same marches, one after the other."""
        instances = [it for text in SOME[:8] for it in instances_of(text)]
        survivors = Survivors(instances)
        limits = Limits(pauses=survivors.pauses)
        found: List[List[str]] = []
        for workers in (1, 3):
            told: List[str] = []

            def tell(parts: Parts) -> Parts:
                told.append(text_of(parts))
                return parts

            def is_short() -> bool:
                return bool(told) and length(parts_of(elements_of(told[-1]))) <= 14

            search = Search(Walks(survivors, limits, [], workers, 60, 7), tell, lambda text: None, is_short)
            search.run(parts_of(elements_of(LONG)))
            found.append(told)
        self.assertEqual(found[0], found[1])
        self.assertTrue(is_complete(survivors, parts_of(elements_of(found[0][-1]))))

    def test_limits(self) -> None:
        """No change makes a march that may not be."""
        for limits in (Limits(operations=2), Limits(elements=4), Limits(3, 5, 1)):
            changes = Changes(random.Random(3), limits, True, limits.elements)
            march = changes.any(8)
            for _ in range(300):
                made = one(changes, march)
                if made is not None:
                    march, parts = made, parts_in(made)
                    self.assertTrue(limits.allow(parts), made)
                    self.assertEqual((length(parts), parts[0].operations[0][0]), (8, "w"))

    def test_the_seed_reaches_the_walks(self) -> None:
        """Also where marches with open orders are asked for, which take the beams several times."""
        wish = Wish([it for text in TRANSITIONS for it in linked_instances("LF1", text, STUCK[0])], [], Limits(), [], 4)
        for is_open in (False, True):
            wish.is_open = is_open
            finder, seeds = Finder(wish, Progress()), []  # type: Finder, List[int]
            with unittest.mock.patch.object(Finder, "at_once", lambda _, tried, walks: seeds.append(walks.seed)):
                finder.run(seconds=1, seed=7)
            self.assertEqual(seeds, [7])

    def test_words(self) -> None:
        """A word has all of its element."""
        for part in parts_of(elements_of(LONG)):
            self.assertEqual(part_of(word_of(part)), part)
        self.assertEqual(word_of(Part("down", ("r", "w1", "w0"))), "dr10")

    def test_what_is_forgotten_is_found_again(self) -> None:
        """A walk with a small memory goes the same way."""
        survivors = Survivors([it for text in SOME[:8] for it in instances_of(text)])
        limits = Limits(pauses=survivors.pauses)
        ways = []
        for most in (effects.MOST, 3):
            with unittest.mock.patch.object(effects, "MOST", most):
                walk = Walk(survivors, limits, [])
                found = walk.run("1", TURNS[0], tuple(parts_of(elements_of(LONG))), lambda: False)
                ways.append((found, walk.place.march))
        self.assertEqual(ways[0], ways[1])

    def test_parts_joined_are_the_whole(self) -> None:
        """The first walks find nothing and the next ones do. So two machines come to the march of one."""
        survivors = Survivors([it for text in SOME[:12] for it in instances_of(text)])
        limits = Limits(pauses=survivors.pauses)
        marches: List[Parts] = []

        def tell(parts: Parts) -> Parts:
            marches.append(parts)
            return parts

        def searched(part: Optional[Tuple[int, int]], begin: Parts) -> Search:
            walks = Walks(survivors, limits, [], 2, 120, 5, None, part)
            search = Search(walks, tell, lambda text: None, lambda: bool(marches))
            search.run(begin)
            return search

        begin = parts_of(elements_of(LONG))
        # shorter and shorter marches, until the first walk finds none
        for _ in range(40):
            marches.clear()
            whole = searched((1, 60), begin)
            self.assertTrue(whole.number, "no walk of 60 finds a march, so the test needs another list")
            if whole.number > 1:
                break
            begin = marches[0]
        joined, marches[:] = marches[0], []
        first = searched((1, whole.number - 1), begin)
        self.assertEqual((first.number, first.done, marches), (0, whole.number - 1, []))
        second = searched((whole.number, 60), begin)
        self.assertEqual((second.number, marches), (whole.number, [joined]))


class Alone(unittest.TestCase):
    def test_no_process_outlives_the_search(self) -> None:
        """Whatever the processes of a search do while it is killed."""
        as_at_a_terminal(self)
        for words in (["all", "--linked"], ["dyn1"]):
            with tempfile.TemporaryDirectory() as folder:
                faults = pathlib.Path(folder) / "a.list"
                faults.write_text(words[0] + "\n")
                call = [sys.executable, str(ROOT / "tools" / "design"), str(faults), *words[1:], "--width", "40"]
                with subprocess.Popen(call, stdout=subprocess.DEVNULL, stderr=subprocess.DEVNULL) as search:
                    self.addCleanup(search.kill)
                    left = self.begun(search.pid)
                    time.sleep(2)
                    os.kill(search.pid, signal.SIGKILL)
                    search.wait()
                time.sleep(SOON)
                self.assertEqual([it for it in left if is_running(it)], [], words)

    def begun(self, search: int) -> List[int]:
        """The walks and the search beside them, when all are there."""
        until = time.monotonic() + 120
        while time.monotonic() < until:
            left = list(children(search))
            if len(left) > len(os.sched_getaffinity(0)):
                return left
            time.sleep(0.2)
        raise AssertionError(f"only {len(list(children(search)))} processes search")


if __name__ == "__main__":
    unittest.main()
