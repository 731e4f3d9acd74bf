"""A search for backgrounds: a list with which a march covers the most between any two bits of a word."""
from __future__ import annotations

import collections
import contextlib
import itertools
import math
import random
from typing import Dict, List, Sequence, Tuple

from vidlakost_tools.texts.faults import Primitive, read_primitive
from vidlakost_tools.texts.in_word import CONTENTS, READINGS, Couple
from vidlakost_tools.texts.march import Element
from vidlakost_tools.texts.memory import Memory, logarithmic

# how many changes of a column a walk tries, times the bits of a word
CHANGES = 240_000
# how often it accepts a change for the worse at first
WARMTH = 0.5

# for each content of two bits, the primitives that survive with it
Left = Tuple[int, ...]


def behind_march(couple: Couple, elements: Sequence[Element], background: str) -> str:
    """What two bits hold after a march in one background, which has these digits; nothing if a read differs."""
    turned = background.translate(str.maketrans("01", "10"))
    for element in elements:
        if element.is_pause:
            couple.close()
        for operation in element.operations:
            word = turned if operation[1] == "1" else background
            answer, _ = couple.operate(word if operation[0] == "w" else None)
            if answer not in (None, word):
                return ""
    return couple.shown()


class Columns:
    """What a march covers at two bits. A column is what one bit holds in the backgrounds, the first of them lowest.
    Each primitive stands once for each reading, and is covered where it is in both."""

    def __init__(self, elements: Sequence[Element], names: Sequence[str]):
        primitives = [it for it in map(read_primitive, names) if it.aggressor is not None]
        self.number, self.everything = len(primitives), (1 << len(primitives)) - 1
        read = [(primitive, reading) for reading in READINGS for primitive in primitives]
        self.begun: Left = tuple(self.held(read, content) for content in CONTENTS)
        self.behind = {
            digits: [self.after(read, elements, content, digits) for content in CONTENTS] for digits in CONTENTS
        }
        self.known: Dict[Tuple[int, int, int], Left] = {(0, 0, 0): self.begun}

    @staticmethod
    def held(read: Sequence[Tuple[Primitive, str]], content: str) -> int:
        """The primitives that may begin with a content: all but those that it makes act at once."""
        found = 0
        for place, (primitive, reading) in enumerate(read):
            for first in CONTENTS:
                couple = Couple(primitive, first, reading)
                couple.close()
                found |= (couple.shown() == content) << place
        return found

    @staticmethod
    def after(
        read: Sequence[Tuple[Primitive, str]], elements: Sequence[Element], content: str, background: str
    ) -> Left:
        """For each content, the primitives that leave it after a march that begins with another one."""
        ends = [behind_march(Couple(primitive, content, reading), elements, background) for primitive, reading in read]
        return tuple(sum((end == content) << place for place, end in enumerate(ends)) for content in CONTENTS)

    def left(self, count: int, aggressor: int, victim: int) -> Left:
        """What survives so many backgrounds, at two bits with these columns."""
        key = (count, aggressor, victim)
        if key not in self.known:
            last = count - 1
            rest = (1 << last) - 1
            before = self.left(last, aggressor & rest, victim & rest)
            behind = self.behind[f"{aggressor >> last & 1}{victim >> last & 1}"]
            self.known[key] = tuple(
                some[0] | some[1] | some[2] | some[3]
                for some in ([it & after[place] for it, after in zip(before, behind)] for place in range(4))
            )
        return self.known[key]

    def covered(self, count: int, one: int, other: int) -> int:
        """What is covered at two bits, with either of them as the aggressor."""
        left = 0
        for mask in (*self.left(count, one, other), *self.left(count, other, one)):
            left |= mask | mask >> self.number
        return self.everything & ~left


class Couples:
    """What is covered at each two columns, with so many backgrounds and bits of a word, and the total of that."""

    def __init__(self, columns: Columns, count: int, bits: int):
        self.count, self.everything = count, columns.everything
        codes = range(1 << count)
        self.masks = [[0] * len(codes) for _ in codes]
        for one, other in itertools.combinations_with_replacement(codes, 2):
            self.masks[one][other] = self.masks[other][one] = columns.covered(count, one, other)
        self.counts = [list(map(ones, row)) for row in self.masks]
        # no list covers more than the best two bits; with more bits than columns, some two bits have equal columns
        is_crowded = bits > 1 << count - 1
        self.most = max(self.counts[code][code] if is_crowded else max(self.counts[code]) for code in codes)


class Trial:
    """A list of backgrounds, column by column, with what it covers everywhere and the total over all two bits."""

    def __init__(self, couples: Couples, codes: Sequence[int]):
        self.couples, self.codes = couples, list(codes)
        self.whole = self.without(len(self.codes))
        self.some = sum(couples.counts[one][other] for one, other in itertools.combinations(self.codes, 2))
        self.known: Dict[int, int] = {}

    def without(self, place: int) -> int:
        """What is covered at all two bits, without the bit at this place."""
        found, masks = self.couples.everything, self.couples.masks
        number = collections.Counter(self.codes[:place] + self.codes[place + 1 :])
        for code, times in number.items():
            found &= masks[code][code] if times > 1 else found
        for one, other in itertools.combinations(number, 2):
            found &= masks[one][other]
        return found

    def changed(self, place: int, code: int) -> Tuple[int, int]:
        """What would be covered everywhere, and the total, with another column."""
        if place not in self.known:
            self.known[place] = self.without(place)
        whole, some = self.known[place], self.some
        masks, counts = self.couples.masks[code], self.couples.counts[code]
        before = self.couples.counts[self.codes[place]]
        for at, other in enumerate(self.codes):
            if at != place:
                whole &= masks[other]
                some += counts[other] - before[other]
        return whole, some

    def take(self, place: int, code: int, whole: int, some: int) -> None:
        self.codes[place], self.whole, self.some = code, whole, some
        self.known.clear()

    def worth(self, whole: int, some: int) -> float:
        """How good it is: first what is covered everywhere, then what is covered somewhere."""
        pairs = len(self.codes) * (len(self.codes) - 1) // 2
        return ones(whole) + some / pairs / max(1, ones(self.couples.everything))

    @property
    def words(self) -> List[int]:
        places = range(self.couples.count)
        return [sum((code >> place & 1) << bit for bit, code in enumerate(self.codes)) for place in places]


def ones(mask: int) -> int:
    return bin(mask).count("1")


def codes_of(words: Sequence[int], bits: int) -> List[int]:
    """The column of each bit."""
    return [sum((word >> bit & 1) << place for place, word in enumerate(words)) for bit in range(bits)]


def annealed(trial: Trial, zero: int, chance: random.Random) -> Tuple[int, List[int]]:
    """Changes one column after another, and accepts a change for the worse less and less often. The word at the place
    `zero` stays 0. Returns how much the best list covers, and that list."""
    bits, places = len(trial.codes), [place for place in range(trial.couples.count) if place != zero]
    best, now = (ones(trial.whole), trial.words), trial.worth(trial.whole, trial.some)
    changes = CHANGES // bits
    for step in range(changes):
        warmth = WARMTH * (1 - step / changes) + 1e-4
        place = chance.randrange(bits)
        turned = 1 << chance.choice(places) if step % 2 else chance.randrange(1 << trial.couples.count) & ~(1 << zero)
        whole, some = trial.changed(place, trial.codes[place] ^ turned)
        then = trial.worth(whole, some)
        if then >= now or math.exp((then - now) / warmth) > chance.random():
            trial.take(place, trial.codes[place] ^ turned, whole, some)
            now = then
            if ones(whole) > best[0]:
                best = ones(whole), trial.words
        if best[0] == trial.couples.most:
            break
    return best


def begun(bits: int, count: int, zero: int) -> List[int]:
    """The logarithmic set as a list of so many words, with the word 0 at a place."""
    known = logarithmic(bits)[1:]
    words = [known[min(place, len(known) - 1)] for place in range(count - 1)]
    return [*words[:zero], 0, *words[zero:]]


def found(elements: Sequence[Element], names: Sequence[str], memory: Memory, most: int) -> List[int]:
    """The best list of at most so many backgrounds among those that the search tries, with the memory's own among them.
    Of equally good lists it is one of the shortest."""
    bits, own = memory.bits, memory.backgrounds
    columns = Columns(elements, names)
    best = ones(columns.covered(1, 0, 0)), [0]
    # Ctrl-C ends the search with the best list so far
    with contextlib.suppress(KeyboardInterrupt):
        for count in range(2, most + 1 if bits > 1 else 0):
            couples = Couples(columns, count, bits)
            if len(own) == count:
                best = max(best, (ones(Trial(couples, codes_of(own, bits)).whole), own), key=lambda made: made[0])
            for zero, seed in itertools.product((0, count - 1), (1, 2)):
                if best[0] < couples.most:
                    trial = Trial(couples, codes_of(begun(bits, count, zero), bits))
                    best = max(best, annealed(trial, zero, random.Random(seed)), key=lambda made: made[0])
    return best[1]
