"""Lines of pins, literals and widths in them, and files that are written where others may stand."""
from __future__ import annotations

import contextlib
import io
import os
import pathlib
import tempfile
import unittest.mock

from vidlakost_tools.collar import lane_machine as collar_lanes, pin_lines, pins as macro_pins
from vidlakost_tools.collar.hold import holds_of
from vidlakost_tools.collar.names import Names
from vidlakost_tools.collar.pin_lines import read_macro
from vidlakost_tools.collar.pins import Macro, Word, alike
from vidlakost_tools.collar.text import collar
from vidlakost_tools.collar.untested import beyond, told_pins, untested
from vidlakost_tools.files import COMMENTS, is_own, marked, refuse_twins, write_own
from vidlakost_tools.folder import permissions, write_all
from vidlakost_tools.texts.march import elements_of
from vidlakost_tools.texts.memory import Memory
from vidlakost_tools.tool import ToolError

PINS = ["macro ram", "clk ck", "en ~ce", "we wen 2", "addr a", "wdata d", "rdata q"]
PORT = ["port addr b", "port rdata p", "port wdata e", "port we v 4"]


def memory(name: str = "m", bits: int = 8, latency: int = 1) -> Memory:
    return Memory(name, words=4, bits=bits, latency=latency, polarity=0, pause=1, rows=None, backgrounds=[0])


def read(lines: list[str], *memories: Memory) -> Macro:
    with tempfile.TemporaryDirectory() as folder:
        path = pathlib.Path(folder) / "m.pins"
        path.write_text("\n".join(lines))
        return read_macro(str(path), Word(list(memories) or [memory()]))


class Literals(unittest.TestCase):
    def test_literals(self) -> None:
        found = [macro_pins.literal(text) for text in ("4'ha", "2'b01", "3'd7", "12'o17_77", "1'B1")]
        self.assertEqual(found, [(4, 10), (2, 1), (3, 7), (12, 1023), (1, 1)])

    def test_what_is_no_literal(self) -> None:
        for text in (
            "1",
            "1'b2",
            "2'd4",
            "0'b0",
            "1'bx",
            "2'b_1",
            "4'hg",
            "'b1",
            "2'sb1",
            "99999'h0",
            "2000'h0",
            "1'b",
        ):
            self.assertIsNone(macro_pins.literal(text), msg=text)
        self.assertEqual((macro_pins.literal("3", 2), macro_pins.literal("4", 2)), ((2, 3), None))

    def test_bits(self) -> None:
        self.assertEqual(pin_lines.bits_in("15:7,5"), [5, *range(7, 16)])
        for text in ("", "5,7", "7:8", "5,5", "9999", "3:", ":3", "a"):
            self.assertEqual(pin_lines.bits_in(text), [], msg=text)


class Lines(unittest.TestCase):
    def refusal(self, lines: list[str], *memories: Memory) -> str:
        with self.assertRaises(ToolError) as caught:
            read(lines, *memories)
        return str(caught.exception).split("m.pins")[1]

    def test_the_order_does_not_decide(self) -> None:
        one, other = read(PINS), read(PINS[::-1])
        for found in (one, other):
            found.path = ""
            for pin in found.pins:
                pin.line = 0
        self.assertEqual(sorted(map(str, one.pins)), sorted(map(str, other.pins)))

    def test_comments_and_carriage_returns(self) -> None:
        self.assertEqual(
            read([f"{line}\r" for line in PINS] + ["# all", "tie t 1'b0 # one"]).of("tie")[0].value, "1'b0"
        )

    def test_what_is_missing(self) -> None:
        self.assertEqual(self.refusal([]), ": no line for macro, clk, rdata, addr, wdata, we or write")
        self.assertEqual(self.refusal([*PINS, "port clk c"]), ": no line for port rdata, port addr")
        self.assertEqual(self.refusal([*PINS, *PORT[:3]]), ": no line for port we or port write")

    def test_what_is_twice(self) -> None:
        once = ":8: 'addr' may stand in one line only, and line 5 has it; a macro"
        self.assertIn(once, self.refusal([*PINS, "addr b"]))
        self.assertIn("an address in two pins, as a bank and a word", self.refusal([*PINS, "addr b"]))
        self.assertIn(":8: two lines name the pin 'a': line 5 has it", self.refusal([*PINS, "open a"]))
        self.assertIn(":8: 'raddr' replaces 'addr'", self.refusal([*PINS, "raddr r", "waddr w"]))

    def test_parameters(self) -> None:
        self.assertEqual(read([*PINS, "parameter P 1", "parameter Q 1"]).parameters, [("P", "1"), ("Q", "1")])
        self.assertIn(": two lines name the parameter 'P'", self.refusal([*PINS, "parameter P 1", "parameter P 2"]))
        self.assertIn(":5: 'a' is also a parameter", self.refusal([*PINS, "parameter a 1"]))

    def test_too_many(self) -> None:
        for line in ("parameter p{} 1", "mask p{} 1", "pins p{} 0 1023"):
            more = [line.format(number) for number in range(2000)]
            self.assertIn("there are at most 1024 pins, buses and parameters", self.refusal([*PINS, *more]), msg=line)

    def test_widths(self) -> None:
        self.assertIn(":6: d has 7 bits, and a word 8", self.refusal([*PINS[:5], "wdata d 7", PINS[6]]))
        self.assertIn(":8: a mask does not divide the word: 3 parts of 8 bits", self.refusal([*PINS, "mask m 3"]))
        self.assertIn("the address is too narrow", self.refusal([*PINS[:4], "addr a 1", *PINS[5:]]))
        self.assertIn(":8: q has 8 bits, and its bus 4", self.refusal(["pins q 0 3", *PINS[:6], "rdata q 8"]))

    def test_two_parts(self) -> None:
        lines = [*PINS, "high big", "low little"]
        macro = read(lines, memory("big", 4), memory("little", 4))
        self.assertEqual(macro.of("wdata")[0].width, 8)
        self.assertIn("two memories make one word", self.refusal(PINS, memory("big", 4), memory("little", 4)))
        self.assertIn(":9: low and high are little and big", self.refusal(lines, memory("big", 4), memory("other", 4)))
        self.assertIn(":8: big has other latency", self.refusal(lines, memory("big", 4, 2), memory("little", 4)))

    def test_what_is_not_tested(self) -> None:
        def left(lines: list[str]) -> str:
            word = Word([memory()])
            return told_pins(untested(read(lines, word.first), word))

        more = ["tie t 3'd0", "tie u 1'b0", "open o", "pass s 1 0"]
        off, alone = "ce: whether it is ever off", "its lanes are never tried alone"
        self.assertEqual(left([*PINS, *more]), f"{off}; wen: {alone}; t, u: tied; o: left open; s: fixed in test")
        self.assertEqual(left([*PINS, *PORT, "masks"]), "")
        self.assertEqual(left([*PINS, *PORT]), f"{off}; wen, v: {alone}")

    def test_words_behind_those_of_the_description(self) -> None:
        """A macro of 8 words of which 5 are described; three bits of an address count to 7."""
        five = Word([Memory("m", words=5, bits=8, latency=1, polarity=0, pause=1, rows=None, backgrounds=[0])])
        told = "a: from 5 to 7, if the macro has these words"
        self.assertEqual(told_pins(beyond(read(PINS, five.first), five)), told)
        whole = Word([memory()])
        self.assertEqual(beyond(read(PINS, whole.first), whole), [])

    def test_a_further_clock_is_not_tested_where_the_model_ignores_it(self) -> None:
        def of_clock(lines: list[str], is_theirs: bool) -> str:
            word = Word([memory()])
            left = untested(read([*lines, "clock2 ck2"], word.first), word, is_theirs)
            return next((one.why for one in left if one.pin == "ck2"), "")

        split = [line.replace("addr a", "waddr a") for line in PINS] + ["raddr b"]
        for lines in (PINS, split):
            self.assertEqual(of_clock(lines, False), "a further clock, which the model ignores")
        self.assertEqual(of_clock(PINS, True), "a further clock, which the test may not need")
        self.assertEqual(of_clock(split, True), "")

    def test_bits_that_no_background_tells_apart(self) -> None:
        told = "bits {} of a word hold the same in every background{}"
        four, high = memory(bits=4), memory("high", 2)
        self.assertEqual(alike(Word([four])), told.format("0 and 1", " (and 5 more pairs)"))
        four.backgrounds = [0, 10, 12]
        self.assertEqual(alike(Word([four])), "")
        high.backgrounds = [0, 2, 3]
        self.assertEqual(alike(Word([four, high])), told.format("2 and 4", " (and 1 more pair)"))
        high.backgrounds = [3, 2, 0]
        self.assertEqual(alike(Word([four, high])), "")
        self.assertEqual(alike(Word([memory(bits=1)])), "")


class Texts(unittest.TestCase):
    def test_lanes_are_numbered_for_each_port(self) -> None:
        self.assertEqual(collar_lanes.counted(read([*PINS, *PORT, "masks"])), ([0, 0], {False: 2, True: 4}))

    def test_names_that_cannot_collide(self) -> None:
        names = Names({"s_en", "s_en_"})
        self.assertEqual([names.of("s_en"), names.of("s_we"), names.of("s_en")], ["s_en__", "s_we", "s_en__"])

    def test_ports_and_modules_that_would_collide(self) -> None:
        for line, more in (
            ("macro m_bist", PINS[1:]),
            ("macro M_COLLAR", PINS[1:]),
            ("out fail 1", PINS),
            ("out m_collar 1", PINS),
        ):
            with self.assertRaises(ToolError, msg=line):
                collar(read([line, *more]), Word([memory()]), "bist")

    def test_another_way_of_the_self_test(self) -> None:
        text = collar(read(PINS), Word([memory()]), "open")
        self.assertIn("input wire [1:0] bist_addr", text)
        self.assertNotIn("m_bist", text)


class Holds(unittest.TestCase):
    def test_where_pauses_are(self) -> None:
        held = Memory("m", words=4, bits=4, latency=1, polarity=0, pause=3, rows=None, backgrounds=[0, 5])
        found = [
            (hold.background, hold.element, hold.first, hold.last)
            for hold in holds_of(elements_of("any(w0);del;any(r0)"), held)
        ]
        self.assertEqual(found, [(0, 1, 5, 7), (1, 1, 16, 18)])


class Files(unittest.TestCase):
    def setUp(self) -> None:
        made = tempfile.TemporaryDirectory()
        self.addCleanup(made.cleanup)
        self.folder = pathlib.Path(made.name)

    def write(self, **texts: str) -> None:
        given = {name.replace("_", "."): text for name, text in texts.items()}
        with contextlib.redirect_stdout(io.StringIO()):
            write_own(
                self.folder,
                given or {"a.v": "// made by vidlakost top\n1\n", "b.v": "// made by vidlakost top\n2\n"},
                [],
            )

    def test_what_others_wrote_stays(self) -> None:
        self.write()
        self.write()
        (self.folder / "a.v").unlink()
        (self.folder / "b.v").write_text("mine\n")
        with self.assertRaises(ToolError):
            self.write()
        self.assertFalse((self.folder / "a.v").exists())
        self.assertEqual((self.folder / "b.v").read_text(), "mine\n")

    def test_what_somebody_changed_stays(self) -> None:
        self.write()
        path = self.folder / "a.v"
        path.write_text(path.read_text() + "more\n")
        with self.assertRaises(ToolError):
            self.write()

    def test_a_pipe_is_not_read(self) -> None:
        with tempfile.TemporaryDirectory() as name:
            os.mkfifo(f"{name}/a.v")
            (pathlib.Path(name) / "b.v").symlink_to("/dev/zero")
            self.assertFalse(is_own(pathlib.Path(name) / "a.v") or is_own(pathlib.Path(name) / "b.v"))

    def test_a_link_stays(self) -> None:
        (self.folder / "a.v").symlink_to("elsewhere")
        with self.assertRaises(ToolError):
            self.write()
        self.assertFalse((self.folder / "elsewhere").exists())

    def test_a_file_that_the_list_tells(self) -> None:
        texts = {"c_v": "module c;\n", "files_f": "// made by vidlakost top\nc.v\n"}
        self.write(**texts)
        self.assertEqual((self.folder / "c.v").read_text(), "module c;\n")
        self.write(**{**texts, "c_v": "module d;\n"})
        (self.folder / "c.v").write_text("module mine;\n")
        with self.assertRaises(ToolError):
            self.write(**texts)

    def test_each_kind_of_file_has_a_mark(self) -> None:
        for ending in COMMENTS:
            texts = marked("access", {f"m{ending}": "text\n"})
            for _ in range(2):
                with contextlib.redirect_stdout(io.StringIO()) as said:
                    write_own(self.folder, texts, [])
                self.assertEqual(said.getvalue(), f"{self.folder}/m{ending}\n")
            path = self.folder / f"m{ending}"
            self.assertRegex(path.read_text(), r"made by vidlakost access \([0-9a-f]{16}\).*\ntext\n$")
            path.write_text(path.read_text().replace("text", "mine"))
            with self.assertRaises(ToolError, msg=ending):
                write_own(self.folder, texts, [])

    def test_an_older_file_without_a_mark_is_replaced(self) -> None:
        texts = marked("sdc", {"m.sdc": "text\n"})
        (self.folder / "m.sdc").write_text("text\n")
        os.link(self.folder / "m.sdc", self.folder / "copy")
        with contextlib.redirect_stdout(io.StringIO()):
            write_own(self.folder, texts, [])
        self.assertTrue(is_own(self.folder / "m.sdc"))
        self.assertEqual((self.folder / "copy").read_text(), "text\n")
        (self.folder / "m.sdc").write_text("mine\n")
        with self.assertRaises(ToolError):
            write_own(self.folder, texts, [])

    def test_an_input_stays(self) -> None:
        with self.assertRaises(ToolError):
            write_own(self.folder, marked("sdc", {"m.sdc": "text\n"}), [str(self.folder / "m.sdc")])
        self.assertFalse((self.folder / "m.sdc").exists())

    def test_names_that_differ_in_case(self) -> None:
        refuse_twins(["a.v", "a.sv"])
        with self.assertRaises(ToolError):
            refuse_twins(["a.v", "A.v"])

    def test_all_or_none(self) -> None:
        self.write()
        with self.assertRaises(UnicodeEncodeError):
            write_all({self.folder / "a.v": "new\n", self.folder / "b.v": "\ud800"})
        self.assertIn("1\n", (self.folder / "a.v").read_text())
        self.assertEqual(sorted(path.name for path in self.folder.iterdir()), ["a.v", "b.v"])

    def test_a_signal_behind_a_renaming_leaves_nothing(self) -> None:
        def replaced_and_ended(before: str, after: str, **folders: int) -> None:
            os.rename(before, after, **folders)
            raise SystemExit(143)

        with unittest.mock.patch("os.replace", replaced_and_ended), self.assertRaises(SystemExit):
            write_all({self.folder / "a.v": "new\n", self.folder / "b.v": "new\n"})
        self.assertEqual([path.name for path in self.folder.iterdir()], ["a.v"])

    def test_a_file_with_two_names_keeps_both(self) -> None:
        (self.folder / "one").write_text("old\n")
        os.link(self.folder / "one", self.folder / "other")
        write_all({self.folder / "one": "new\n"})
        self.assertEqual((self.folder / "other").read_text(), "new\n")

    def test_another_group_gets_no_more(self) -> None:
        for mode, wanted in ((0o640, 0o600), (0o664, 0o644), (0o606, 0o600), (0o755, 0o755)):
            before = os.stat_result((0o100000 | mode, 0, 0, 1, 0, 5, 0, 0, 0, 0))
            self.assertEqual((permissions(before, 5), permissions(before, 0)), (mode, wanted))


if __name__ == "__main__":
    unittest.main()
