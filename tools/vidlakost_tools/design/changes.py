"""Marches at random, and random changes of one. A change keeps the number of operations.

A walk has its elements as words: a letter for the order, and one for each operation. A word is cut and looked up in a
fraction of the time that a list of operations takes."""
from __future__ import annotations

import itertools
import random
from bisect import bisect_right
from typing import Callable, List, Optional, Sequence, Tuple

from vidlakost_tools.design.instances import READ
from vidlakost_tools.design.parts import PAUSE, Limits, Part

# the letters of the orders, and of the operations
ORDERS = {"u": "up", "d": "down"}
OPERATIONS = {"0": "w0", "1": "w1", "r": READ}
LETTERS = {operation: letter for letter, operation in OPERATIONS.items()}
STOPPED = "p"
# a march as words
Words = Tuple[str, ...]
# a change: the words of a march from the first number to before the second one, and what comes in their place
Span = Tuple[int, int, Words]
NOTHING: Span = (0, 0, ())
INVERTED = str.maketrans("01", "10")
TURNED = {"u": "d", "d": "u"}
# each operation that may come in the place of another one
OTHERS = {letter: [other for other in OPERATIONS if other != letter] for letter in OPERATIONS}


def word_of(part: Part) -> str:
    if part.order == PAUSE.order:
        return STOPPED
    return ("d" if part.order == "down" else "u") + "".join([LETTERS[it] for it in part.operations])


def part_of(word: str) -> Part:
    if word == STOPPED:
        return PAUSE
    return Part(ORDERS[word[0]], tuple([OPERATIONS[letter] for letter in word[1:]]))


def words_of(parts: Sequence[Part]) -> Words:
    return tuple([word_of(part) for part in parts])


def changed(march: Words, span: Span) -> Words:
    """The march after a change."""
    start, stop, words = span
    return march[:start] + words + march[stop:]


class Marked:
    """A march, and how many operations it has up to the end of each element."""

    __slots__ = ("march", "ends")

    def __init__(self, march: Words):
        self.march = march
        self.ends = list(itertools.accumulate([len(word) - 1 for word in march]))


class Changes:
    """The changes, of a march whose beginning is free, or of one that comes after a given march."""

    def __init__(self, chance: random.Random, limits: Limits, is_first: bool, elements: int):
        self.chance, self.limits, self.is_first, self.elements = chance.random, limits, is_first, elements
        ways: List[Tuple[Callable[[Marked], Span], int]] = [
            (self.operation, 4),
            (self.boundary, 3),
            (self.order, 2),
            (self.moved, 4),
            (self.two, 2),
            (self.inverted, 1),
            (self.turned, 1),
            (self.shifted, 1),
            (self.swapped, 1),
        ]
        if limits.pauses:
            ways.append((self.pause, 2))
        self.ways = [one for one, often in ways for _ in range(often)]

    def below(self, most: int) -> int:
        return int(self.chance() * most)

    def way(self) -> str:
        return "d" if self.chance() < 0.5 else "u"

    def letter(self) -> str:
        return "01r"[self.below(3)]

    # ---- marches

    def any(self, operations: int) -> Words:
        """A march of so many operations."""
        words: List[str] = []
        while operations:
            count = min(operations, 1 + self.below(min(7, self.limits.operations)))
            if len(words) + 1 >= self.elements:
                count = min(operations, self.limits.operations)
            made = "".join([self.letter() for _ in range(count)])
            words.append(self.way() + made)
            operations -= count
        for _ in range(self.limits.pauses):
            words.insert(1 + self.below(len(words)), STOPPED)
        return self.begun(tuple(words))

    def without(self, march: Words, operations: int) -> Words:
        """A march of so many operations: this one, without some of its own or with others."""
        marked = Marked(march)
        while marked.ends[-1] > operations:
            marked = Marked(changed(marked.march, self.taken(marked, *self.place(marked))))
        while marked.ends[-1] < operations:
            marked = Marked(changed(marked.march, self.put(marked, self.letter())))
        return self.begun(marked.march)

    def one(self, marked: Marked) -> Optional[Span]:
        """A change; none if the march would have too much then."""
        chance, ways = self.chance, self.ways
        span = ways[int(chance() * len(ways))](marked)
        while chance() < 0.25:
            span = joined(marked, span, ways[self.below(len(ways))])
        if not span[0] and self.is_first:
            span = self.opened(marked.march, span)
        start, stop, words = span
        march = marked.march
        if len(march) + len(words) - stop + start > self.elements:
            return None
        for word in words:
            if len(word) > self.limits.operations + 1:
                return None
        last = march[-1] if stop < len(march) else words[-1] if words else march[start - 1]
        return None if last == STOPPED else span

    def allows(self, march: Words) -> bool:
        longest = max([len(word) for word in march]) - 1
        return len(march) <= self.elements and longest <= self.limits.operations and march[-1] != STOPPED

    def opened(self, march: Words, span: Span) -> Span:
        """A change whose march begins with a write."""
        made = changed(march, span)
        if made[0] == STOPPED:
            return 0, len(march), self.begun(made)
        if made[0][1] != "r":
            return span
        _, stop, words = span
        first = self.begun(made[:1])
        return 0, stop if words else stop + 1, first + words[1:]

    def begun(self, march: Words) -> Words:
        """The march, with a write at first."""
        if self.is_first:
            while march[0] == STOPPED:
                march = march[1:] + march[:1]
            first = march[0]
            if first[1] == "r":
                march = (f"{first[0]}{self.below(2)}{first[2:]}", *march[1:])
        return march

    # ---- operations

    def place(self, marked: Marked) -> Tuple[int, int]:
        """An operation, each as probable as the others: its element, and its place in the word."""
        ends = marked.ends
        at = int(self.chance() * ends[-1])
        place = bisect_right(ends, at)
        return place, at - ends[place] + len(marked.march[place])

    def taken(self, marked: Marked, place: int, at: int) -> Span:
        word = marked.march[place]
        return place, place + 1, (word[:at] + word[at + 1 :],) if len(word) > 2 else ()

    def put(self, marked: Marked, letter: str) -> Span:
        """Puts an operation into an element, or as an element of its own."""
        march = marked.march
        if not march or self.chance() < 0.15 or not marked.ends[-1]:
            made = self.way() + letter
            place = self.below(len(march) + 1)
            return place, place, (made,)
        place, at = self.place(marked)
        at += self.chance() < 0.5
        word = march[place]
        return place, place + 1, (word[:at] + letter + word[at:],)

    def operation(self, marked: Marked) -> Span:
        """Another operation in the place of one."""
        place, at = self.place(marked)
        word = marked.march[place]
        made = OTHERS[word[at]][self.chance() < 0.5]
        return place, place + 1, (word[:at] + made + word[at + 1 :],)

    def two(self, marked: Marked) -> Span:
        """Two operations, one in the place of the other."""
        (one, at), (other, there) = sorted((self.place(marked), self.place(marked)))
        march = marked.march
        first, second = march[one], march[other]
        made = first[:at] + second[there] + first[at + 1 :]
        if one == other:
            return one, one + 1, (made[:there] + first[at] + made[there + 1 :],)
        last = second[:there] + first[at] + second[there + 1 :]
        return one, other + 1, (made, *march[one + 1 : other], last)

    def moved(self, marked: Marked) -> Span:
        """One operation elsewhere, or another one there."""
        place, at = self.place(marked)
        letter = marked.march[place][at]
        span = self.taken(marked, place, at)
        if self.chance() < 0.5:
            letter = self.letter()
        return joined(marked, span, lambda left: self.put(left, letter))

    def inverted(self, marked: Marked) -> Span:
        """The other bit in the writes of some elements."""
        one, other = self.some(marked)
        return one, other, tuple([word.translate(INVERTED) for word in marked.march[one:other]])

    # ---- elements

    def some(self, marked: Marked) -> Tuple[int, int]:
        """Some elements in sequence."""
        count = len(marked.march)
        one, other = self.below(count), self.below(count)
        return (one, other + 1) if one < other else (other, one + 1)

    def boundary(self, marked: Marked) -> Span:
        """Two elements in the place of one, or one in the place of two."""
        place, at = self.place(marked)
        march = marked.march
        word = march[place]
        if at > 1:
            return place, place + 1, (word[:at], self.way() + word[at:])
        if place and march[place - 1] != STOPPED:
            return place - 1, place + 1, (march[place - 1] + word[1:],)
        return NOTHING

    def shifted(self, marked: Marked) -> Span:
        """The first operation of an element as the last one of the element before, or the other way round."""
        march = marked.march
        place = 1 + self.below(len(march) - 1) if len(march) > 1 else 0
        if not place or STOPPED in (march[place], march[place - 1]):
            return NOTHING
        one, other = march[place - 1], march[place]
        if self.chance() < 0.5:
            one, other = one[:-1], other[0] + one[-1] + other[1:]
        else:
            one, other = one + other[1], other[0] + other[2:]
        return place - 1, place + 1, tuple([it for it in (one, other) if len(it) > 1])

    def order(self, marked: Marked) -> Span:
        """The other direction."""
        place = self.below(len(marked.march))
        return place, place + 1, (turned(marked.march[place]),)

    def turned(self, marked: Marked) -> Span:
        """The other directions of some elements."""
        one, other = self.some(marked)
        return one, other, tuple([turned(word) for word in marked.march[one:other]])

    def swapped(self, marked: Marked) -> Span:
        """Two neighbours, one in the place of the other."""
        march = marked.march
        if len(march) < 2:
            return NOTHING
        place = self.below(len(march) - 1)
        return place, place + 2, (march[place + 1], march[place])

    def pause(self, marked: Marked) -> Span:
        """A pause elsewhere, one more, or one less."""
        march = marked.march
        places = [place for place, word in enumerate(march) if word == STOPPED]
        kind = self.below(4)
        span = NOTHING
        if places and kind:
            place = places[self.below(len(places))]
            span = place, place + 1, ()
        if kind > 1 or len(places) < self.limits.pauses and not kind:
            return joined(marked, span, self.stopped)
        return span

    def stopped(self, marked: Marked) -> Span:
        place = self.below(len(marked.march) + 1)
        return place, place, (STOPPED,)


def turned(word: str) -> str:
    return TURNED[word[0]] + word[1:] if word != STOPPED else word


def joined(marked: Marked, span: Span, way: Callable[[Marked], Span]) -> Span:
    """A change and one more, as one."""
    start, stop, words = span
    made = Marked(changed(marked.march, span))
    again, end, more = way(made)
    if again == end and not more:
        return span
    if start == stop and not words:
        return again, end, more
    first, last = min(start, again), max(start + len(words), end)
    middle = made.march[first:again] + more + made.march[end:last]
    return first, last - len(words) + stop - start, middle
