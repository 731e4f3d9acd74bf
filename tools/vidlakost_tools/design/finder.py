"""The shortest march that the searches find for a list, and whether a search of all shorter ones shows that it is the
shortest."""
from __future__ import annotations

import contextlib
import dataclasses
from typing import Callable, Optional, Sequence, Tuple

from vidlakost_tools.design.beam import Beam
from vidlakost_tools.design.beside import Beside
from vidlakost_tools.design.blocks import Blocks
from vidlakost_tools.design.bound import Bound
from vidlakost_tools.design.instances import DecoderInstance, Instance
from vidlakost_tools.design.one_cell import OneCell, parted
from vidlakost_tools.design.parts import Limits, Part, Parts, is_complete, length, opened, pauses, trimmed, with_pauses
from vidlakost_tools.design.progress import Progress
from vidlakost_tools.design.survivors import Survivors
from vidlakost_tools.design.workers import Search, Walks

# the most operations of a search, and the most that a march may have
LONGEST, MOST = 160, 256
# how many elements the search of all shorter marches tries, unless the call has it go on to its end
TRIED = 8_000_000
# how many marches of a length it compares before it chooses one, and by how many operations they may be longer than
# the first
CHOSEN_OF, LONGER_BY = 24, 4


@dataclasses.dataclass
class Wish:
    """What a march has to cover, and what it may have. `behind` is the march to extend. `fits` says whether a march
    that covers all this also meets the further wish (None: there is none)."""

    instances: Sequence[Instance]
    decoder: Sequence[DecoderInstance]
    limits: Limits
    behind: Parts
    width: int = 300
    is_open: bool = False
    fits: Optional[Callable[[Parts], bool]] = None


class Showing(Progress):
    """Takes over what the searches in another process show."""

    def __init__(self, finder: "Finder"):
        self.finder = finder

    def better(self, parts: Parts) -> None:
        self.finder.take(parts)

    def bounded(self, operations: int) -> None:
        self.finder.bounded(operations - self.finder.given)

    def look(self) -> None:
        self.finder.progress.look()


class Finder:
    """The search. Whatever ends it, `best` is the shortest complete march so far, and `nearest` the next best one.
    `least` is how many operations a march needs, beside the given ones."""

    def __init__(self, wish: Wish, progress: Progress):
        self.wish, self.progress = wish, progress
        self.survivors = Survivors(wish.instances, wish.decoder)
        self.limits = dataclasses.replace(wish.limits, pauses=self.survivors.pauses)
        self.best: Parts | None = None
        self.nearest: Parts | None = None
        self.least = 0

    @property
    def given(self) -> int:
        return length(self.wish.behind)

    @property
    def longest(self) -> int:
        """The most operations of the search."""
        return min(LONGEST, MOST - self.given)

    @property
    def kept(self) -> int:
        """The elements that stay as they are."""
        return len(self.wish.behind)

    def take(self, parts: Parts) -> None:
        """Takes a complete march if it is better than the best."""
        found = [trimmed(self.survivors, parts, self.kept), *([parts] if self.wish.fits else [])]
        for made in (opened(self.survivors, it, self.kept) for it in found):
            if self.best is not None and rank(made) >= rank(self.best) or not self.limits.allow(made):
                continue
            if self.wish.fits is None or self.wish.fits(made):
                self.best = made
                self.progress.better(made)
            else:
                self.nearest = self.nearest or made

    # ---- the parts of the search

    def regular(self) -> None:
        """Marches of a regular form; pauses come in afterwards."""
        if self.wish.behind:
            return
        plain = [it for it in self.wish.instances if it.links[0].acts != ["t"]]
        survivors = Survivors(plain, self.wish.decoder)
        for elements in (2, 4):
            blocks = Blocks(survivors, self.limits, self.wish.width // 2 + 1, elements)
            most = length(self.best) if self.best else self.longest
            parts = blocks.run(most + 1, lambda count, least: self.progress.at(f"blocks of {elements}, {count}n"))
            parts = trimmed(survivors, parts) if parts else None
            whole = with_pauses(self.survivors, parts) if parts and self.survivors.pauses else parts
            if whole:
                self.take(whole)

    def free(self, seed: int) -> None:
        """Marches of any form."""
        most = self.longest if self.best is None else length(self.best) - self.given
        beam = Beam(self.survivors, self.limits, self.wish.width, self.wish.behind, seed)
        first = 0
        for marches in beam.run(most, lambda count, least: self.progress.at(f"{self.given + count}n")):
            first = first or length(marches[0])
            for parts in marches[: CHOSEN_OF if self.wish.is_open or self.wish.fits else 1]:
                self.take(parts)
            if self.best is not None or length(marches[0]) >= first + LONGER_BY:
                return
        if beam.nearest is not None:
            self.nearest = self.nearest or beam.nearest[1]

    def exhaust(self, tried: Optional[int]) -> None:
        """Raises the bound for the primitives that it handles: first the static ones, then also those with pauses."""
        self.grow([it for it in self.wish.instances if is_static(it)], tried)
        if self.survivors.pauses and not self.is_shortest:
            self.grow([it for it in self.wish.instances if is_static(it) or it.links[0].acts == ["t"]], tried)

    def grow(self, plain: Sequence[Instance], tried: Optional[int]) -> None:
        """Looks for a march of each number of operations below the best, from the least on, until one turns up."""
        survivors = Survivors(plain, self.wish.decoder)
        most = length(self.best or []) - self.given - 1
        if len(plain) < len(self.wish.instances) and not self.wish.behind and not survivors.pauses:
            # a march for these alone is short, and their bound can't exceed its length
            alone = Blocks(survivors, self.limits, self.wish.width, 2).run(most, lambda count, least: None)
            most = min(most, length(alone) - 1 if alone else most)
        bound = Bound(survivors, self.limits, self.wish.behind, self.progress.at)
        for operations in range(max(bound.least, self.least), most + 1):
            self.bounded(operations)
            parts = bound.search(operations, tried)
            if parts is not None:
                parts = [*self.wish.behind, *parts]
                if is_complete(self.survivors, parts):
                    self.take(parts)
                return
        self.bounded(most + 1)

    def one_cell(self) -> None:
        """Raises the bound by the primitives of one cell, if some have two operations. If they are the whole list, this
        finds a shortest march."""
        chosen = [it for it in self.wish.instances if is_of_one_cell(it)]
        if self.wish.behind or all(is_static(it) for it in chosen):
            return
        search = OneCell(chosen, self.bounded, self.progress.at)
        parts = search.shortest(length(self.best or []) - 1)
        if parts is not None:
            parts = parted(self.survivors, parts, self.limits.operations)
            if is_complete(self.survivors, parts):
                self.take(parts)

    def all_shorter(self, tried: Optional[int]) -> None:
        """Raises the bound by each search of all shorter marches."""
        with contextlib.suppress(TimeoutError):
            self.exhaust(tried)
        if not self.is_shortest:
            with contextlib.suppress(TimeoutError):
                self.one_cell()

    def at_once(self, tried: Optional[int], walks: Walks) -> None:
        """Looks for a shorter march by random changes, beside the searches of all shorter ones."""

        def exact(progress: Progress) -> None:
            self.progress = progress
            self.all_shorter(tried)

        def told(parts: Parts) -> Parts:
            self.take(parts)
            return self.best or parts

        with Beside(exact, Showing(self)) as beside:
            Search(walks, told, self.progress.at, lambda: self.is_shortest, beside).run(self.best or [])
            while not beside.is_over and not self.is_shortest:
                beside.hear()

    def bounded(self, operations: int) -> None:
        if operations > self.least:
            self.least = operations
            self.progress.bounded(self.given + operations)

    def walks(self, workers: int, seconds: float, seed: int, part: Optional[Tuple[int, int]] = None) -> Walks:
        wish = self.wish
        return Walks(self.survivors, self.limits, wish.behind, workers, seconds, seed, wish.fits, part)

    def part(self, begin: Optional[Parts], walks: Walks) -> Optional[Search]:
        """A part of the walks for the next march that is shorter than `begin`, or than the one that the beams find.
        What came of it stands in the search."""
        self.progress.begin()
        if begin is None:
            self.beams()
        elif is_complete(self.survivors, begin):
            self.take(begin)
        if self.best is None:
            return None

        def told(parts: Parts) -> Parts:
            self.take(parts)
            return self.best or parts

        search = Search(walks, told, self.progress.at, lambda: False)
        search.run(self.best)
        return search

    def beams(self) -> None:
        """The searches that find a first march."""
        self.regular()
        for order in (1, 2, 3) if self.wish.is_open else (1,):
            self.free(order)

    def run(self, tried: Optional[int] = TRIED, seconds: float = 0, workers: int = 1, seed: int = 1) -> None:
        """The whole search. The search of all shorter marches ends after a number of elements, and that by random
        changes after so many seconds."""
        self.progress.begin()
        self.beams()
        if self.best is None:
            return
        if seconds:
            self.at_once(tried, self.walks(workers, seconds, seed))
        else:
            self.all_shorter(tried)

    @property
    def is_shortest(self) -> bool:
        return self.best is not None and length(self.best) - self.given <= self.least


def is_static(instance: Instance) -> bool:
    """Whether an instance has one primitive, of at most one operation."""
    acts = instance.links[0].acts
    return len(instance.links) == 1 and len(acts) < 2 and acts != ["t"]


def is_of_one_cell(instance: Instance) -> bool:
    """Whether an instance is of one cell. Of a primitive of two operations it is the one with other cells below and
    above."""
    acts = instance.links[0].acts
    is_alone = len(instance.links) == 1 and instance.links[0].aggressor is None and acts != ["t"]
    return is_alone and (len(acts) < 2 or instance.below and instance.above)


def rank(parts: Sequence[Part]) -> tuple[int, int, int, int]:
    """What makes a march better: fewer operations, fewer pauses, fewer orders that are not open, fewer elements."""
    return length(parts), pauses(parts), sum(part.order in ("up", "down") for part in parts), len(parts)
