"""Lists of backgrounds for a march: what they cover inside a word, and the best of all short lists."""
from __future__ import annotations

import itertools
import unittest
from typing import List, Sequence

from vidlakost_tools.design.backgrounds import Columns, Couples, Trial, codes_of, found, ones
from vidlakost_tools.texts.in_word import CONTENTS, READINGS, WordVerdict, steps_of
from vidlakost_tools.texts.march import elements_of
from vidlakost_tools.texts.memory import Memory, logarithmic, with_backgrounds

C_MINUS = "{any(w0);up(r0,w1);up(r1,w0);down(r0,w1);down(r1,w0);any(r0)}"
SS = "{any(w0);up(r0,r0,w0,r0,w1);up(r1,r1,w1,r1,w0);down(r0,r0,w0,r0,w1);down(r1,r1,w1,r1,w0);any(r0)}"
MATS = "{any(w0);any(r0,w1);del;any(r1)}"


def couplings() -> List[str]:
    """The 36 static primitives of two cells."""
    made = []
    for a, v in itertools.product("01", repeat=2):
        n = str(1 - int(v))
        made += [f"<{a};{v}/{n}/->", *(f"<{a}{operation};{v}/{n}/->" for operation in ("w0", "w1", f"r{a}"))]
        made += [f"<{a};{v}w{n}/{v}/->", f"<{a};{v}w{v}/{n}/->"]
        made += [f"<{a};{v}r{v}/{f}/{r}>" for f, r in ((n, n), (n, v), (v, n))]
    return made


def memory(bits: int, backgrounds: Sequence[int]) -> Memory:
    return Memory("s", 4, bits, 1, 0, 1, None, list(backgrounds))


def plainly(march: str, name: str, bits: int, backgrounds: Sequence[int]) -> bool:
    """Whether a coupling is covered at all two bits, from each content and in each reading, step by step."""
    elements, held = elements_of(march), memory(bits, backgrounds)
    return all(
        list(steps_of(WordVerdict(name, "CF", one, other, content, reading), elements, held))[-1].differs
        for one, other in itertools.permutations(range(bits), 2)
        for content, reading in itertools.product(CONTENTS, READINGS)
    )


def counted(march: str, bits: int, backgrounds: Sequence[int]) -> int:
    columns = Columns(elements_of(march), couplings())
    return ones(Trial(Couples(columns, len(backgrounds), bits), codes_of(backgrounds, bits)).whole)


class Backgrounds(unittest.TestCase):
    def test_as_step_by_step(self) -> None:
        names = couplings()
        lists = ((2, [0, 1, 3]), (3, [0, 5, 6, 0]), (3, [1, 0]))
        for march, (bits, backgrounds) in itertools.product((C_MINUS, MATS), lists):
            columns = Columns(elements_of(march), names)
            whole = Trial(Couples(columns, len(backgrounds), bits), codes_of(backgrounds, bits)).whole
            covered = [name for place, name in enumerate(names) if whole >> place & 1]
            wanted = [name for name in names if plainly(march, name, bits, backgrounds)]
            self.assertEqual(covered, wanted, (march, backgrounds))

    def test_the_logarithmic_set(self) -> None:
        for bits in (2, 8, 32):
            self.assertEqual(counted(C_MINUS, bits, logarithmic(bits)), 16)
            self.assertEqual(counted(SS, bits, logarithmic(bits)), 32)

    def test_a_changed_column_is_counted_as_a_new_list(self) -> None:
        couples = Couples(Columns(elements_of(SS), couplings()), 3, 5)
        trial = Trial(couples, codes_of([0, 9, 18], 5))
        for place, code in ((0, 4), (3, 2), (4, 6), (0, 2), (1, 2)):
            whole, some = trial.changed(place, code)
            trial.take(place, code, whole, some)
            again = Trial(couples, trial.codes)
            self.assertEqual((whole, some), (again.whole, again.some))

    def test_the_best_of_all_short_lists(self) -> None:
        elements, names = elements_of(C_MINUS), couplings()
        for most in (1, 2, 3):
            lists = [it for it in itertools.product(range(4), repeat=most) if 0 in it]
            best = max(counted(C_MINUS, 2, it) for it in lists)
            made = found(elements, names, memory(2, [0, 2]), most)
            self.assertIn(0, made)
            self.assertLessEqual(len(made), most)
            self.assertEqual(counted(C_MINUS, 2, made), best)

    def test_own_list_and_small_words(self) -> None:
        elements, names = elements_of(SS), couplings()
        self.assertEqual(found(elements, names, memory(1, [0, 1]), 8), [0])
        self.assertEqual(found(elements, [], memory(8, [0, 1]), 3), [0])
        own = [0, 0xAA, 0xCC, 0xF0]
        self.assertGreaterEqual(counted(SS, 8, found(elements, names, memory(8, own), 4)), 32)

    def test_texts(self) -> None:
        text = "memory 2 # one\nname s\nbackgrounds log\nwords 4\nbits 8\npolarity 1\n"
        made = with_backgrounds(text, memory(8, [0]), [0, 0x5A])
        self.assertEqual(made, "memory 2\nname s\nwords 4\nbits 8\npolarity 1\nbackgrounds 00 5a\n")


if __name__ == "__main__":
    unittest.main()
