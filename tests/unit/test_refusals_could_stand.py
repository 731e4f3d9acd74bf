"""What could stand at a place that a refusal names. A reader is asked, here one that knows a few texts alone."""
from __future__ import annotations

import os
import pathlib
import re
import tempfile
import unittest
from typing import List, Sequence, Tuple
from unittest import mock

from tests.unit.refused import MARK, split
from vidlakost_tools.refusals import finding, texts
from vidlakost_tools.refusals.finding import Trier, could_stand, word_at

TOKEN = re.compile(r"\w+|\n|[^\w\s]")


def tokens_of(text: str) -> list[str]:
    return TOKEN.findall(text)


def common(word: str, others: Sequence[str]) -> int:
    """How many letters of a word one of the others begins with."""
    return max((len(os.path.commonprefix([word, other])) for other in others), default=0)


class FewTexts:
    """The reader of a language of a few texts, by the words of FORMATS.

    It names the first byte with which a text can no longer become one of them, or says that the text stops early.
    """

    def __init__(self, code: str, *known: str):
        self.code, self.known = code, [tokens_of(text) for text in known]

    def refusal(self, text: str) -> str:
        begun: list[str] = []
        for token in TOKEN.finditer(text):
            after = [
                known[len(begun)] for known in self.known if known[: len(begun)] == begun and len(known) > len(begun)
            ]
            fits = common(token[0], after)
            ends = token.end() == len(text)
            if token[0] not in after and not (ends and fits == len(token[0])):
                at = token.start() + fits
                line = text[:at].count("\n") + 1
                lines = "" if self.code == "march M" else f" line {line}"
                return f"{self.code}1{lines} byte {at - text.rfind(chr(10), 0, at) - 1 if lines else at}"
            begun.append(token[0])
        return "absent 2" if begun in self.known else f"{self.code}2"


Told = Tuple[List[str], bool]


def told_by(reader: FewTexts, kind: str, marked: str, is_word: bool = False) -> Told:
    """The tokens that could stand at the mark, as they are told, and whether the word in front is whole."""
    text, at = split(marked)
    assert at is not None
    answers = mock.patch.object(Trier, "refusal", lambda _self, _folder, asked: reader.refusal(asked.decode()))
    with mock.patch.object(finding, "quick_program", return_value="program"), answers:
        _, notes, whole = could_stand(kind, text, at, is_word)
    return [note[len("expected here: ") :] for note in notes], whole


MARCHES = FewTexts("march M", "{any(w0)}", "{any(w0,w1);up(r1)}", "{any(w0);up(r0)}", "{any(w0);del;any(r0)}")
PRIMITIVES = FewTexts("fault F", "<0w1/0/->", "<0/1/->", "SF\n", "SF#\n")
BODY = "memory 1\nname x\n"
MEMORIES = FewTexts(
    "memory D",
    f"{BODY}words 1\n",
    *(f"{BODY}backgrounds {words}\n" for words in ("log", "a0", "1")),
    f"{BODY}scramble a0 = p0 ^ 1\n",
)
CHIPS = FewTexts("chip C", "chip 1\nname x\n", "chip 1\nbudget 1\n", "chip 1\nunit 1 x x\n")
MODULES = FewTexts("verilog L", *(f"assign y = {value};" for value in ("x", "~x", "1'h0", "x[0]")))


class CouldStand(unittest.TestCase):
    def agree(self, reader: FewTexts, kind: str, rows: dict[str, Told]) -> None:
        for marked, expected in rows.items():
            with self.subTest(text=marked):
                self.assertEqual(told_by(reader, kind, marked), expected)

    def test_reader_of_few_texts(self) -> None:
        """The reader that is asked here is exact itself."""
        self.assertEqual(MARCHES.refusal("{any(w0)}"), "absent 2")
        self.assertEqual(MARCHES.refusal("{any(w2)}"), "march M1 byte 6")
        self.assertEqual(MARCHES.refusal("{any(w0);u"), "march M2")
        self.assertEqual(MARCHES.refusal("{any(w0);u "), "march M1 byte 10")
        self.assertEqual(MEMORIES.refusal("memory 1\nname\n"), "memory D1 line 2 byte 4")

    def test_marches(self) -> None:
        rows: dict[str, Told] = {
            # a word that is none: what could stand in its place
            "{any(w0);‸x(r0)}": (["up or del"], False),
            "{a‸yn(w0)}": (["any"], False),
            # behind a whole word: what could follow it
            "{any(w0‸ w1)}": ([") or ,"], True),
            "{any(w0)‸": (["} or ;"], False),
            "{any(w0)}‸}": ([], False),
        }
        self.agree(MARCHES, "march", rows)

    def test_primitives(self) -> None:
        rows: dict[str, Told] = {
            # a letter of an operation is taken back, so that whole operations are told
            "<0w‸2/0/->": (["w1 or /"], False),
            "<0w1/‸\n": (["0"], False),
            # in place of a word that is not whole
            "S‸\n": (["SF or a primitive (<)"], False),
            "SF‸ x\n": (["a comment (#) or the end of the line"], True),
        }
        self.agree(PRIMITIVES, "list", rows)
        self.assertEqual(told_by(PRIMITIVES, "list", "<0/1‸>", True), (["/"], False))

    def test_memories(self) -> None:
        rows: dict[str, Told] = {
            "‸words 1\n": (["memory 1"], False),
            "memory 1\nname‸\n": (["a name"], True),
            f"{BODY}w‸rods 1\n": (["words, scramble or backgrounds"], False),
            f"{BODY}backgrounds ‸g\n": (["log or a hexadecimal word"], False),
            f"{BODY}scramble a0 = ‸\n": (["an index bit as p0"], False),
            f"{BODY}words‸\n": (["a number"], True),
        }
        self.agree(MEMORIES, "memory", rows)

    def test_chips(self) -> None:
        rows: dict[str, Told] = {
            "‸name x\n": (["chip 1"], False),
            "chip 1\n‸chip 1\n": (["name, budget or unit"], False),
            "chip 1\nunit 1 x‸\n": (["a name"], True),
        }
        self.agree(CHIPS, "chip", rows)

    def test_modules(self) -> None:
        rows: dict[str, Told] = {
            "assign y = ‸;": (["~, a name or a literal with its size as 1'h0"], False),
            "assign y = x[‸y]": (["a number"], False),
        }
        self.agree(MODULES, "verilog", rows)

    def test_nothing_is_told_of_a_long_text_or_without_a_program(self) -> None:
        self.assertEqual(told_by(MARCHES, "march", f"{' ' * finding.LONGEST}{MARK}x"), ([], False))
        with mock.patch.object(finding, "quick_program", return_value=None):
            self.assertEqual(could_stand("march", b"x", 0), ([], [], False))


class Messages(unittest.TestCase):
    """What is said where a program answers what could stand."""

    def setUp(self) -> None:
        self.addCleanup(mock.patch.stopall)
        mock.patch.object(finding, "quick_program", return_value="program").start()

    def answer(self, reader: FewTexts) -> None:
        answers = mock.patch.object(Trier, "refusal", lambda _self, _folder, asked: reader.refusal(asked.decode()))
        answers.start()

    def test_word_that_could_stand_is_meant(self) -> None:
        self.answer(MARCHES)
        found = texts.march("c.m", b"{any(w0);dle}", "M1", {"byte": "10"})
        self.assertEqual(found.message, "'dle' is not allowed here; did you mean 'del'?")
        self.assertEqual((found.at, found.notes), (9, ["expected here: up or del"]))

    def test_whole_word_is_not_to_blame(self) -> None:
        self.answer(MEMORIES)
        found = texts.memory("a.mem", b"memory 1\nname\n", "D1", {"line": "2", "byte": "4"})
        self.assertEqual((found.message, found.at), ("the line can't end here", 13))
        self.assertEqual(found.notes, ["expected here: a name"])

    def test_text_that_stops_early(self) -> None:
        self.answer(MARCHES)
        found = texts.march("c.m", b"{any(w0);", "M2", {})
        self.assertEqual((found.message, found.at), ("the march ends here, but is not complete", 9))
        self.assertEqual(found.notes, ["expected here: up or del"])


class Asked(unittest.TestCase):
    """The calls of a program, which here writes its words down and refuses everything."""

    def setUp(self) -> None:
        folder = tempfile.TemporaryDirectory()
        self.addCleanup(folder.cleanup)
        self.folder = pathlib.Path(folder.name)
        program = self.folder / "program"
        program.write_text(f"#!/bin/sh\necho \"$@\" >{self.folder}/words\necho 'march M1 byte 3'\n")
        program.chmod(0o755)
        self.addCleanup(mock.patch.stopall)
        mock.patch.object(finding, "quick_program", return_value=str(program)).start()

    def words(self, trier: Trier, text: bytes) -> str:
        self.assertEqual(trier.refusal(self.folder, text), "march M1 byte 3")
        return (self.folder / "words").read_text().replace(f"{self.folder}/", "@").strip()

    def test_words_of_the_calls(self) -> None:
        self.assertEqual(self.words(Trier("march"), b"any(w0)"), "show march @text")
        self.assertEqual((self.folder / "text").read_bytes(), b"any(w0)")
        with mock.patch.object(Trier, "reader", "check"):
            self.assertEqual(self.words(Trier("verilog"), b"module"), "check @text @missing @march")
        self.assertEqual(self.words(Trier("list", True), b"<0/1/->"), "sim @march <0/1/-> 2 00 none 0 u")

    def test_text_fits_up_to_its_end(self) -> None:
        trier = Trier("march")
        self.assertTrue(trier.fits(self.folder, b"any"))
        self.assertFalse(trier.fits(self.folder, b"anyx"))

    def test_word_with_a_byte_of_no_argument_fits_nowhere(self) -> None:
        self.assertFalse(Trier("list", True).fits(self.folder, b"\0"))


class WordsAt(unittest.TestCase):
    def test_word_or_mark_at_a_byte(self) -> None:
        text = "up(r0) ⇕".encode()
        self.assertEqual(word_at(text, 1), "up")
        self.assertEqual(word_at(text, 2), "up")
        self.assertEqual(word_at(text, 2, behind=True), "(")
        self.assertEqual(word_at(text, 7), "⇕")
        self.assertEqual(word_at(text, len(text)), "")
