"""The parts of the page of `explore`, with answers found by hand."""
from __future__ import annotations

import pathlib
import socket
import tempfile
import unittest

from vidlakost_tools.explorer import answers, caught, kept, questions, search, server
from vidlakost_tools.pages import cycles_picture
from vidlakost_tools.program import is_proved, sum_of_sources
from vidlakost_tools.texts.faults import Array, read_primitive
from vidlakost_tools.texts.march import elements_of
from vidlakost_tools.texts.memory import parse_memory
from vidlakost_tools.texts.old_names import apart
from vidlakost_tools.texts.report import Verdict


class Words(unittest.TestCase):
    def test_what_a_row_says_of_several_classes_is_said_of_each(self) -> None:
        told = list(apart("TF and WDF of the victim, while the aggressor is in a state"))
        self.assertEqual(told, [f"{name} of the victim, while the aggressor is in a state" for name in ("TF", "WDF")])
        self.assertEqual(answers.in_words()["CFir"], "IRF of the victim, while the aggressor is in a state")
        self.assertEqual(answers.in_words()["DRF"], "data retention fault: the cell loses a state in a pause")

    def test_a_long_line_is_shortened(self) -> None:
        self.assertEqual(questions.shortened("a" * 400), "a" * 400)
        self.assertEqual(questions.shortened("a" * 500), "a" * 200 + "..." + "a" * 200)

    def test_a_text_is_one_of_unicode(self) -> None:
        self.assertEqual(questions.text_in({"march": "⇑(w0)"}, "march"), "⇑(w0)")
        for wrong in (1, None, ["x"], "\ud800"):
            with self.assertRaises(questions.Wrong):
                questions.text_in({"march": wrong}, "march")


class Steps(unittest.TestCase):
    def test_the_place_of_an_operation_is_that_in_its_element(self) -> None:
        array = Array(read_primitive("<0w0/1/->"), None, 1, "10")
        steps = answers.shown_steps(list(array.march(elements_of("{up(w0,w1);del;up(r1)}"), "uuu")))
        places = [(step["element"], step["place"], step["cell"]) for step in steps]
        written = [(0, 0, 0), (0, 1, 0), (0, 0, 1), (0, 1, 1)]
        self.assertEqual(places, [(None, 0, None), *written, (1, 0, None), (2, 0, 0), (2, 0, 1)])
        self.assertEqual([step["acts"] for step in steps], [False, False, False, True, False, False, False, False])

    def test_pauses_stand_among_the_first_cycles(self) -> None:
        memory = parse_memory("memory 2\nname s\nwords 2\nbits 1\npause 2\nbackgrounds 0 1\n")
        told = "w 0 0,w 1 0,r 0 0,r 1 0,w 0 1,w 1 1".split(",")
        given = cycles_picture.first_cycles(elements_of("{any(w0);del;any(r0)}"), memory, told)
        kinds = [command[0] if command else None for command in given]
        self.assertEqual(kinds, [None, "w", "w", None, None, "r", "r", "w", "w", None, None, None])

    def test_done_rises_where_the_test_is_over(self) -> None:
        memory = parse_memory("memory 1\nname s\nwords 2\nbits 1\n")
        given = cycles_picture.first_cycles(elements_of("{any(w0)}"), memory, ["w 0 0", "w 1 0"])
        done = dict(cycles_picture.signals(given, memory.latency, memory.cycles(elements_of("{any(w0)}")) - 1))["done"]
        self.assertEqual(done, [0] * 4 + [1] * 8)


class Caught(unittest.TestCase):
    def reads(self, primitive: str, march: str) -> list[tuple[object, ...]]:
        found = caught.catches(Verdict(primitive, "x"), elements_of(march))
        return [(it.array.aggressor, it.array.victim, it.read.element, it.read.operation, it.read.cell) for it in found]

    def test_the_first_read_on_each_side(self) -> None:
        march = "{any(w0);up(r0,w1);up(r1,w0);down(r0,w1);down(r1,w0);any(r0)}"
        self.assertEqual(self.reads("<0w1/0/->", march), [(None, 0, 2, "r1", 0)])
        self.assertEqual(self.reads("<0w1;0/1/->", march), [(0, 1, 1, "r0", 1), (1, 0, 3, "r0", 0)])
        self.assertEqual(self.reads("<0w1;1/0/->", march), [(0, 1, 4, "r1", 1), (1, 0, 2, "r1", 0)])

    def test_nothing_is_told_of_an_array_that_passes(self) -> None:
        self.assertEqual(self.reads("<0w0/1/->", "{any(w1);any(r1)}"), [])


class Searched(unittest.TestCase):
    def test_what_no_page_asks(self) -> None:
        searches = search.Searches()
        asked: list[dict[str, object]] = [{}, {"search": 0}, {"search": "1"}]
        for question in asked:
            for answer in (searches.heard, searches.stop):
                with self.assertRaises(questions.Wrong):
                    answer(question)
        for wrong in (1, "true", None):
            with self.assertRaises(questions.Wrong):
                searches.begin({"list": "TF\n", "decoder": wrong, "linked": False})
        for letter in ("", "AB", "/", "E"):
            with self.assertRaises(questions.Wrong):
                searches.begin(
                    {"list": "TF\n", "decoder": False, "linked": False, "march": "any(w0)", "letter": letter}
                )


class Bounds(unittest.TestCase):
    def test_no_more_is_read_than_may_be(self) -> None:
        one, other = socket.socketpair()
        with one, other:
            reader = server.Reader(one)
            reader.allow(5.0, 3)
            other.sendall(b"four")
            self.assertEqual(reader.read(10), b"fou")
            with self.assertRaises(socket.timeout):
                reader.read(1)

    def test_nothing_is_waited_for_longer_than_may_be(self) -> None:
        one, other = socket.socketpair()
        with one, other:
            reader = server.Reader(one)
            reader.allow(0.05, 3)
            with self.assertRaises(socket.timeout):
                reader.read(1)


class Proved(unittest.TestCase):
    def test_a_named_program_has_its_proof_beside_it(self) -> None:
        with tempfile.TemporaryDirectory() as name:
            program, kit = pathlib.Path(name) / "program", pathlib.Path(name) / "kit"
            program.write_bytes(b"abc")
            self.assertFalse(is_proved(str(program), True))
            of_program = "ba7816bf8f01cfea414140de5dae2223b00361a396177a9cb410ff61f20015ad\na kit\n"
            for told in ("", "sources 0\n", f"sources {sum_of_sources()}\nmore\n"):
                kit.write_text(of_program + told)
                self.assertFalse(is_proved(str(program), True))
            kit.write_text(f"{of_program}sources {sum_of_sources()}\n")
            self.assertTrue(is_proved(str(program), True))
            program.write_bytes(b"abd")
            self.assertFalse(is_proved(str(program), True))

    def test_the_launcher_takes_no_other_by_itself(self) -> None:
        self.assertTrue(is_proved("program", False))
        self.assertFalse(is_proved(None, False))


class Kept(unittest.TestCase):
    def test_a_page_stands_by_itself(self) -> None:
        page = kept.whole({"text": "</script><b>"})
        self.assertEqual(page.count("</script>"), 2)
        self.assertNotIn("<b>", page.split('id="kept"')[1].split("</script>")[0])
        self.assertNotIn("page.css", page)
        self.assertNotIn("src=", page.split("<style>")[0])


if __name__ == "__main__":
    unittest.main()
