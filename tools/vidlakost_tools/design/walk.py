"""A walk from march to march. It takes a march of a fixed number of operations, changes it at random, and keeps the
changes that leave less, or (less and less often) more."""
from __future__ import annotations

import math
import random
from typing import Callable, Dict, List, NamedTuple, Optional, Sequence, Tuple

from vidlakost_tools.design.changes import NOTHING, Changes, Marked, Span, Words, changed, part_of, words_of
from vidlakost_tools.design.effects import Effects, Held, applied, before
from vidlakost_tools.design.parts import Limits, Part, elements_from, length
from vidlakost_tools.design.survivors import Survivors

March = Tuple[Part, ...]
# how many bits of a mask are set; Python 3.10 has this of its own, and four times as fast
count: Callable[[int], int] = getattr(int, "bit_count", lambda mask: bin(mask).count("1"))
# after how many changes a walk looks whether it is over
LOOKS = 256


class Turn(NamedTuple):
    """A walk: whether it begins with the best march so far, of which part of its length it looks for a march that is
    shorter by (0: by one operation), how often it takes a change for the worse at first and at last (the warmth), and
    how many changes it tries."""

    is_best: bool
    part: float
    hot: float
    cold: float
    changes: int

    def operations(self, longest: int) -> int:
        """How many operations the walk's march has."""
        return max(1, longest - 1 - int(longest * self.part))


# the walks, one after another; a warmth below 0.5 or above 2 finds much less
TURNS = (
    Turn(True, 0, 1.0, 0.5, 40_000),
    Turn(False, 0.12, 1.3, 0.6, 60_000),
    Turn(True, 0.05, 1.5, 0.5, 60_000),
    Turn(False, 0, 1.3, 0.6, 60_000),
)


class Place:
    """A march, with what is left before each of its elements and what of that survives the rest."""

    def __init__(self, survivors: Survivors, behind: Sequence[Part]):
        self.effects = Effects(survivors)
        every = survivors.everyone | survivors.extra
        self.end: Held = (every,) * len(self.effects.states)
        self.start: Optional[Held] = None
        self.due = 0
        if behind:
            state, due = survivors.run(elements_from(behind))
            by_bit = (state[due], state[1 - due], state[2 + due], state[3 - due])
            self.start, self.due = by_bit[: len(self.effects.states)], due
        self.marked = Marked(())
        self.left_before: List[Held] = [self.start or self.end]
        self.dues: List[int] = [self.due]
        self.rest: List[Held] = [self.end]

    @property
    def march(self) -> Words:
        return self.marked.march

    def take(self, march: Words) -> None:
        """The new march. What is left before its first new element is known, and what survives behind the last one."""
        first = same_from(march, self.march)
        left_before, dues = self.left_before[: first + 1], self.dues[: first + 1]
        for place in range(first, len(march)):
            held, due = self.passed(place, march[place], left_before[place], dues[place])
            left_before.append(held)
            dues.append(due)
        self.rest = self.surviving(march, dues)
        self.marked, self.left_before, self.dues = Marked(march), left_before, dues

    def surviving(self, march: Words, dues: Sequence[int]) -> List[Held]:
        """What survives each end of a march, of each state before it. No state is before a first element."""
        free = 1 if self.start is None else 0
        same = min(same_from(march[::-1], self.march[::-1]), min(len(march), len(self.march)) - free)
        while same > 0 and dues[-1 - same] != self.dues[-1 - same]:
            same -= 1
        rest = self.rest[len(self.rest) - 1 - max(same, 0) :][::-1]
        for place in range(len(march) - len(rest), free - 1, -1):
            rest.append(before(self.effects.of(march[place], dues[place])[0], rest[-1]))
        return [*[self.end] * free, *rest[::-1]]

    def passed(self, place: int, word: str, held: Held, due: int) -> Tuple[Held, int]:
        """What is left after an element, and what good cells then hold."""
        if not place and self.start is None:
            return self.effects.begun(word)
        effect, due = self.effects.of(word, due)
        return applied(held, effect), due

    def left(self, span: Span) -> int:
        """What the march leaves after a change. Only the elements that change are asked, and those behind them which
        find other bits in the cells."""
        start, stop, words = span
        march, dues = self.marked.march, self.dues
        held, due = self.left_before[start], dues[start]
        if not start and self.start is None:
            if not words:
                stop, words = stop + 1, march[stop : stop + 1]
            held, due = self.effects.begun(words[0])
            words = words[1:]
        held, due = self.through(held, words, due)
        while due != dues[stop] and stop < len(march):
            held, due = self.through(held, march[stop : stop + 1], due)
            stop += 1
        return union(held, self.rest[stop])

    def through(self, held: Held, words: Words, due: int) -> Tuple[Held, int]:
        """What is left after some elements, and what good cells then hold."""
        known, once = self.effects.known, self.effects.once
        if len(held) == 4:
            for word in words:
                found = known[due].get(word)
                held, due = (applied(held, found[0]), found[1]) if found else once(held, word, due)
            return held, due
        a, b = held
        for word in words:
            found = known[due].get(word)
            if found:
                (p, q), due = found
                a, b = a & p[0] | b & q[0], a & p[1] | b & q[1]
            else:
                (a, b), due = once((a, b), word, due)
        return (a, b), due


def same_from(one: Sequence[object], other: Sequence[object]) -> int:
    """How many elements are the same in both from the first on."""
    count = 0
    for first, second in zip(one, other):
        if first != second:
            break
        count += 1
    return count


def union(held: Held, rest: Held) -> int:
    if len(held) == 2:
        return held[0] & rest[0] | held[1] & rest[1]
    return held[0] & rest[0] | held[1] & rest[1] | held[2] & rest[2] | held[3] & rest[3]


class Walk:
    """Walks with one number that decides all of its chances."""

    def __init__(self, survivors: Survivors, limits: Limits, behind: Sequence[Part]):
        self.place = Place(survivors, behind)
        self.limits, self.behind = limits, behind
        self.elements = limits.elements - len(behind)

    def run(self, seed: str, turn: Turn, best: March, is_over: Callable[[], bool]) -> Optional[March]:
        """A march that leaves nothing and is shorter than the best one, if the walk comes to one. A seed of text is the
        same on all machines."""
        operations = turn.operations(length(best))
        random_one = random.Random(seed)
        changes, chance = Changes(random_one, self.limits, not self.behind, self.elements), random_one.random
        start = changes.without(words_of(best), operations) if turn.is_best else changes.any(operations)
        place, one, exp = self.place, changes.one, math.exp
        place.take(start)
        left, known = place.left, {}  # type: Callable[[Span], int], Dict[Words, int]
        now = count(left(NOTHING))
        warmth, falling = turn.hot, (turn.cold / turn.hot) ** (LOOKS / turn.changes)
        for step in range(turn.changes):
            if not step % LOOKS:
                warmth *= falling
                if is_over():
                    return None
            if not now and changes.allows(place.march):
                return tuple([part_of(word) for word in place.march])
            span = one(place.marked)
            if span is None:
                continue
            march = changed(place.marked.march, span)
            then = known.get(march, -1)
            if then < 0:
                then = known[march] = count(left(span))
            if then <= now or chance() < exp((now - then) / warmth):
                place.take(march)
                now = then
        return None
