"""What elements do to all instances at once, put together from what single operations do, and kept.

Survivors tell the same element by element. A search that changes a march asks for a hundred times as many elements as
a beam; most are others with one operation more, so that what the visit of a cell does grows by one operation."""
from __future__ import annotations

import itertools
from typing import Dict, List, Set, Tuple

from vidlakost_tools.design.changes import OPERATIONS, STOPPED, part_of
from vidlakost_tools.design.instances import left_by
from vidlakost_tools.design.survivors import BITS, LinkMasks, Survivors

# the instances by what their victims hold (0, 1), and the same for those that wait, if any do
Held = Tuple[int, ...]
# for each of these, in which of them it is left
Effect = Tuple[Held, ...]
# what a cell holds that an element has not yet written: what it held before
BEFORE = 2
# by what a cell holds, and by the letter of an operation: its effect, and what the cell then holds
Steps = List[Dict[str, Tuple[Effect, int]]]
# how many elements are kept
MOST = 20_000


def applied(held: Held, effect: Effect) -> Held:
    """What is left after an element."""
    if len(held) == 2:
        a, b = held
        p, q = effect
        return a & p[0] | b & q[0], a & p[1] | b & q[1]
    a, b, c, d = held
    p, q, r, s = effect
    if not c and not d:
        return a & p[0] | b & q[0], a & p[1] | b & q[1], a & p[2] | b & q[2], a & p[3] | b & q[3]
    return (
        a & p[0] | b & q[0] | c & r[0] | d & s[0],
        a & p[1] | b & q[1] | c & r[1] | d & s[1],
        a & p[2] | b & q[2] | c & r[2] | d & s[2],
        a & p[3] | b & q[3] | c & r[3] | d & s[3],
    )


def before(effect: Effect, rest: Held) -> Held:
    """Of each state before an element, what survives the rest of the march; `rest` says so of each state behind it."""
    if len(rest) == 2:
        a, b = rest
        p, q = effect
        return p[0] & a | p[1] & b, q[0] & a | q[1] & b
    a, b, c, d = rest
    made = [p[0] & a | p[1] & b | p[2] & c | p[3] & d for p in effect]
    return made[0], made[1], made[2], made[3]


def joined(one: Effect, other: Effect) -> Effect:
    return tuple([applied(row, other) for row in one])


class Visit:
    """The visits of a cell by all elements of an order that find and leave the same bits. It keeps what beginnings of
    elements do there."""

    def __init__(self, nothing: Effect, steps: Steps):
        self.steps = steps
        self.known: Dict[str, Tuple[Effect, int]] = {"": (nothing, BEFORE)}

    def of(self, letters: str) -> Tuple[Effect, int]:
        """What operations do, and what the cell then holds."""
        found = self.known.get(letters)
        if found is None:
            effect, now = self.of(letters[:-1])
            step, now = self.steps[now][letters[-1]]
            found = self.known[letters] = joined(effect, step), now
        return found


class Effects:
    """The effects of the elements of a search."""

    def __init__(self, survivors: Survivors):
        self.survivors = survivors
        self.states = range(4 if survivors.waits else 2)
        every = survivors.everyone | survivors.extra
        self.every = every
        self.nothing: Effect = tuple([tuple([every if at == to else 0 for to in self.states]) for at in self.states])
        self.enters = [self.parting(survivors.below), self.parting(survivors.above)]
        self.operations_known: Dict[Tuple[int, bool, Tuple[int, ...], Tuple[int, ...], int, str], Effect] = {}
        self.visits_known: Dict[Tuple[bool, Tuple[int, ...], int], List[Visit]] = {}
        # by what good cells hold before an element: its effect
        self.known: Tuple[Dict[str, Tuple[Effect, int]], ...] = ({}, {})
        # the elements that were asked for once
        self.asked: Tuple[Set[str], ...] = (set(), set())
        self.begun_known: Dict[str, Tuple[Held, int]] = {}
        self.caught_known: Dict[Tuple[bool, ...], int] = {}

    def parting(self, where: int) -> Effect:
        """Some instances stop waiting."""
        if len(self.states) == 2:
            return self.nothing
        every, rest = self.every, self.every & ~where
        return (every, 0, 0, 0), (0, every, 0, 0), (where, 0, rest, 0), (0, where, 0, rest)

    def alone(self, at: int) -> List[int]:
        """All instances in one state."""
        return [self.survivors.everyone if at == to else 0 for to in range(4)]

    # ---- visits

    def operation(
        self, cell: int, down: bool, was: Tuple[int, ...], now: Tuple[int, ...], end: int, operation: str
    ) -> Effect:
        """What one operation does. The aggressors that no visit has reached hold `was`, the cell holds `now`."""
        key = (cell, down, was, now, end, operation)
        if key not in self.operations_known:
            survivors, due = self.survivors, (left_by((operation,), now[0]),) * len(now)
            fits = [link.fits(cell, down, old, new, end) for link, old, new in zip(survivors.links, was, now)]
            closing = survivors.links[0].fits(cell, down, was[0], due[0] if operation[0] == "w" else now[0], end)
            rows = []
            for at in self.states:
                held = survivors.operated(self.alone(at), cell, operation, fits, now[0])
                survivors.closed(held, closing, survivors.touched[cell])
                rows.append(tuple(held[: len(self.states)]))
            # a wrong decoder is looked at element by element
            self.operations_known[key] = tuple(
                [tuple([it | (survivors.extra if at == to else 0) for to, it in enumerate(row)])
                 for at, row in enumerate(rows)]
            )  # fmt: skip
        return self.operations_known[key]

    def visits(self, down: bool, was: Tuple[int, ...], end: int) -> List["Visit"]:
        """The cells in their order, as elements visit them that find and leave these bits."""
        key = (down, was, end)
        found = self.visits_known.get(key)
        if found is None:
            cells = reversed(self.survivors.cells) if down else self.survivors.cells
            found = self.visits_known[key] = [Visit(self.nothing, self.steps(cell, *key)) for cell in cells]
        return found

    def steps(self, cell: int, down: bool, was: Tuple[int, ...], end: int) -> Steps:
        """What each operation does in a visit."""
        return [
            {
                letter: (
                    self.operation(cell, down, was, was if now == BEFORE else (now,) * len(was), end, operation),
                    now if letter == "r" else int(letter),
                )
                for letter, operation in OPERATIONS.items()
            }
            for now in (*BITS, BEFORE)
        ]

    def crossed(self, word: str, was: Tuple[int, ...], end: int) -> Effect:
        """What an element does, without a wrong decoder."""
        down = word[0] == "d"
        made = self.nothing if len(self.states) == 2 else self.enters[down]
        for visit in self.visits(down, was, end):
            made = joined(made, visit.of(word[1:])[0])
        return made if len(self.states) == 2 else joined(made, self.enters[not down])

    def crossing(self, held: Held, word: str, was: Tuple[int, ...], end: int) -> Held:
        """What is left after an element, without a wrong decoder: operation by operation, from the longest beginning of
        the element on whose effect is known."""
        letters, down, at = word[1:], word[0] == "d", len(word)
        visits = self.visits(down, was, end)
        if len(held) == 2:
            a, b = held
            for visit in visits:
                while letters[:at] not in visit.known:
                    at -= 1
                (p, q), now = visit.known[letters[:at]]
                a, b = a & p[0] | b & q[0], a & p[1] | b & q[1]
                for letter in letters[at:]:
                    (p, q), now = visit.steps[now][letter]
                    a, b = a & p[0] | b & q[0], a & p[1] | b & q[1]
            return a, b
        held = applied(held, self.enters[down])
        for visit in visits:
            while letters[:at] not in visit.known:
                at -= 1
            effect, now = visit.known[letters[:at]]
            held = applied(held, effect)
            for letter in letters[at:]:
                effect, now = visit.steps[now][letter]
                held = applied(held, effect)
        return applied(held, self.enters[not down])

    # ---- elements

    def caught(self, word: str, due: int, end: int) -> int:
        """The faults of the decoder that an element catches, on cells that hold `due`. It looks at the first operation,
        at what the element leaves, and at the bits that are read."""
        if not self.survivors.decoder:
            return 0
        is_read = word[1] == "r"
        reads = ["0r" in word or is_read and not due, "1r" in word or is_read and due == 1]
        key = (word[0] == "d", is_read, due == 1, end == 1, *reads)
        found = self.caught_known.get(key)
        if found is None:
            found = self.survivors.caught(part_of(word).operations, word[0] == "d", due)
            self.caught_known[key] = found
        return found

    def without(self, effect: Effect, caught: int) -> Effect:
        """An effect that also catches some faults of the decoder. They are where the right bit is at first, and never
        leave that place."""
        return tuple([tuple([it & ~caught for it in row]) for row in effect]) if caught else effect

    def once(self, held: Held, word: str, due: int) -> Tuple[Held, int]:
        """What is left after an element on good cells that hold `due`, and what these then hold. Most elements of a
        walk come up once, so an effect is put together when it is asked for again."""
        asked = self.asked[due]
        if word == STOPPED or word in asked:
            effect, end = self.of(word, due)
            return applied(held, effect), end
        asked.add(word)
        end = ended(word, due)
        held = self.crossing(held, word, (due,) * len(self.survivors.links), end)
        caught = self.caught(word, due, end)
        return (tuple([it & ~caught for it in held]) if caught else held), end

    def of(self, word: str, due: int) -> Tuple[Effect, int]:
        """The effect of an element on good cells that hold `due`, and what these then hold."""
        found = self.known[due].get(word)
        if found is None:
            end = ended(word, due)
            if word == STOPPED:
                effect = self.paused(due)
            else:
                effect = self.crossed(word, (due,) * len(self.survivors.links), end)
                effect = self.without(effect, self.caught(word, due, end))
            self.forget()
            found = self.known[due][word] = effect, end
        return found

    def forget(self) -> None:
        """Keeps the memory of a long search small."""
        if max(len(self.known[0]), len(self.known[1]), len(self.begun_known)) >= MOST:
            self.known, self.asked = ({}, {}), (set(), set())
            self.begun_known, self.visits_known = {}, {}

    def paused(self, due: int) -> Effect:
        link = self.survivors.links[0]
        falls, rises = link.pausing[0], link.pausing[1]
        every = self.every
        rows: List[Held] = [(every & ~falls, falls), (rises, every & ~rises)]
        if len(self.states) == 2:
            return tuple(rows)
        return tuple([(*row, 0, 0) for row in (*rows, *rows)])

    def begun(self, word: str) -> Tuple[Held, int]:
        """What is left after a first element, which begins with a write."""
        found = self.begun_known.get(word)
        if found is None:
            survivors = self.survivors
            end = ended(word, 0)
            union: Held = (0,) * len(self.states)
            for contents in itertools.product(BITS, repeat=len(survivors.links)):
                some = survivors.everyone if len(set(contents)) == 1 else survivors.apart
                held = [some, some, 0, 0]
                link = survivors.links[0]
                survivors.closed(
                    held, link.alone | LinkMasks.union(link.at) & link.wants[contents[0]], survivors.everyone
                )
                behind = self.crossing(tuple(held[: len(self.states)]), word, contents, end)
                union = tuple([one | other for one, other in zip(union, behind)])
            extra = survivors.extra & ~survivors.caught(part_of(word).operations, word[0] == "d", end)
            self.forget()
            found = self.begun_known[word] = (union[0] | extra, *union[1:]), end
        return found


def ended(word: str, due: int) -> int:
    """What a good cell holds after an element."""
    at = max(word.rfind("0"), word.rfind("1"))
    return due if at < 0 else int(word[at])
