"""What is said of a march, a list, a memory description or a chip file that the program refuses.

The refusals are those of the tables of FORMATS. The mark stands in front of the byte that is shown.
"""
from __future__ import annotations

import pathlib
import tempfile
import unittest
from typing import Mapping

from tests.unit.refused import MARK, Row, WithoutProgram, split
from vidlakost_tools.refusals import texts
from vidlakost_tools.refusals.chips import chip, unit_call
from vidlakost_tools.refusals.explained import values_of
from vidlakost_tools.refusals.finding import Finding, caret, close_to, line_start, listed, place


class Marches(WithoutProgram):
    def test_grammar(self) -> None:
        self.agree(
            texts.march,
            [
                Row("{any(‸w2)}", "M1 byte 6", "'w2' is not allowed here"),
                Row("any(w0)‸}", "M1 byte 7", "'}' is not allowed here"),
                Row("{any(w0);‸upp(r0)}", "M1 byte 11", "'upp' is not allowed here; did you mean 'up'?"),
                Row("{‸ANY(w0)}", "M1 byte 1", "'ANY' is not allowed here; did you mean 'any'?"),
                Row("{any(w0);up(r0,‸ \n", "M2", "the march ends here, but is not complete"),
                # ⇑ ends with another byte than the arrows that a march may have
                Row("{any(w0);‸\u21d1(r0)}", "M1 byte 10", "'\u21d1' is not allowed here"),
            ],
        )

    def test_limits(self) -> None:
        full = f"up({','.join(['r0'] * 16)})"
        self.agree(
            texts.march,
            [
                Row("{}", "M3", "the march has no element"),
                Row("{del;del}", "M3", "the march has only pauses, and visits no cell"),
                Row(
                    f"{'any(w0);' * 64}‸any(r0)",
                    "M4",
                    "this is the 65th of 65 elements; a march has at most 64",
                ),
                Row(
                    f"{{any(w0);{full[:-1]},‸r0,w1)}}",
                    "M5 element 1",
                    "this is the 17th of 18 operations of element 1; an element has at most 16",
                ),
                Row(
                    f"any(w0,{','.join(['r0'] * 15)});{';'.join([full] * 15)};up(‸r0)",
                    "M6",
                    "this is the 257th of 257 operations; a march has at most 256",
                ),
            ],
        )

    def test_wrong_reads(self) -> None:
        self.agree(
            texts.march,
            [
                Row(
                    "{up(‸r0,w1)}",
                    "M7 element 0 operation 0",
                    "r0 reads a cell that nothing has written yet",
                    ["a march begins with a write, as any(w0)"],
                ),
                Row(
                    "{any(w0);\n up(‸r1)}",
                    "M8 element 1 operation 0",
                    "r1 expects 1, but w0 of element 0 (line 1, column 6) wrote 0 last",
                ),
                # bytes are counted for the place, characters for the column
                Row(
                    "{⇕(w0);⇑(r0,w1,‸r0)}",
                    "M8 element 1 operation 2",
                    "r0 expects 0, but w1 of element 1 (line 1, column 13) wrote 1 last",
                ),
            ],
        )


def in_list(name: str, text: bytes, code: str, values: Mapping[str, str]) -> Finding:
    return texts.fault(name, text, code, values, False)


def as_word(name: str, text: bytes, code: str, values: Mapping[str, str]) -> Finding:
    return texts.fault(name, text, code, values, True)


class Lists(WithoutProgram):
    def test_grammar(self) -> None:
        decoder = "faults of the address decoder are no primitives: `decoder MARCH REPORT` judges them"
        two = "a coupling fault is a primitive of two cells: 'two' has all 36 static ones"
        self.agree(
            in_list,
            [
                Row("<0w1/0‸>", "F1 line 1 byte 6", "'>' is not allowed here"),
                Row("SF\n<0w1/‸\n", "F1 line 2 byte 5", "the line can't end here"),
                Row("‸tf\n", "F1 line 1 byte 1", "'tf' is not allowed here; did you mean 'TF'?"),
                Row("SF ‸one\n", "F1 line 1 byte 3", "'one' is not allowed here"),
                Row("<0w1‸ x/0/->", "F1 line 1 byte 4", "a blank is not allowed here"),
                Row("<0w1/0‸", "F2 line 1", "the last line ends here, but is not complete"),
                Row("‸AF\n", "F1 line 1 byte 0", "'AF' is no name of a class here", [decoder]),
                Row("SF\n‸CF\n", "F1 line 2 byte 2", "'CF' is no name of a class here", [two]),
                Row("‸CFrdr\n", "F1 line 1 byte 4", "'CFrdr' is no name of a class here; 'CFrd' is"),
            ],
        )

    def test_primitives_that_are_no_faults(self) -> None:
        nothing = "nothing goes wrong, since the victim ends with"
        wrong = {
            "<0r0/0/0>": f"{nothing} 0, and the read answers it, as it does without a fault",
            "<0w1/1/->": f"{nothing} 1, as it does without a fault",
            "<0w1r1/1/1>": f"{nothing} 1, and the read answers it, as it does without a fault",
            "<0;0t/1/->": "a pause (t) comes alone, after the state of a single cell, without an aggressor",
            "<0tt/1/->": "a pause (t) comes alone, after the state of a single cell, without an aggressor",
            "<0w1r0/0/1>": "r0 reads 0, but the cell holds 1 before it",
            "<0r0/1/->": "S ends in a read of the victim, so R has to be the bit that it answers, not '-'",
            "<0w1;0/1/0>": "S does not end in a read of the victim, so R has to be '-'",
        }
        rows = [Row(f"SF\n  ‸{it} # a comment\n", "F3 line 2", f"this is no fault: {why}") for it, why in wrong.items()]
        self.agree(in_list, rows)

    def test_too_many_operations(self) -> None:
        parted = "the primitive has an operation on each cell; it may have operations on one cell alone"
        three = "the primitive has 3 operations; it may have one at most, or two in one part"
        self.agree(
            in_list,
            [
                Row("‸<0w1r1w0/1/->", "F4 line 1", three),
                Row("‸<0w1;0r0/1/0>", "F4 line 1", parted),
                Row("‸<0t;0w0/1/->", "F4 line 1", parted),
                Row("all\n" * 21 + "‸all\n", "F5 line 22", "with this line the list has more than 1,024 primitives"),
            ],
        )

    def test_a_primitive_among_the_words(self) -> None:
        two = "the primitive has two operations, but this command takes at most one; a list may have it"
        self.agree(
            as_word,
            [
                Row("‸SF", "F1 line 1 byte 0", "a primitive is needed here, as <0w1/0/->, not a class"),
                Row("<0w1/0‸>", "F1 line 1 byte 6", "'>' is not allowed here"),
                Row("<0w1/0/‸", "F2 line 1", "the primitive ends here, but is not complete"),
                Row("‸<0w1r1/0/0>", "F4 line 1", two),
            ],
        )


class Memories(WithoutProgram):
    BODY = "memory 1\nname m\nwords 4\nbits 2\n"

    def test_grammar(self) -> None:
        first = "the first line that says anything has to be 'memory 1' or 'memory 2'"
        self.agree(
            texts.memory,
            [
                Row(" # nothing\n", "D2", "the description is empty, or has only comments"),
                Row("memory‸", "D2", "the last line ends here, but is not complete"),
                Row("# sizes\n  ‸words 4\n", "D1 line 2 byte 2", first),
                Row("memory 1\n‸wrods 4\n", "D1 line 2 byte 1", "'wrods' is not allowed here; did you mean 'words'?"),
                Row("memory ‸7\n", "D11", "there is no version 7: write 'memory 1' or 'memory 2'"),
                Row(
                    "memory 1\nname m\n  ‸latency 2\n",
                    "D1 line 3 byte 2",
                    "'latency' is a line of version 2",
                    ["write 'memory 2' in place of 'memory 1'"],
                ),
            ],
        )

    def test_what_is_said_twice_or_not(self) -> None:
        self.agree(
            texts.memory,
            [
                Row("memory 1\nname a\n‸name b\n", "D3 line 3", "line 2 already has 'name'"),
                Row(
                    self.BODY + "scramble a0 = p0\nscramble a1 = p1\n‸scramble a00 = p1\n",
                    "D3 line 7",
                    "line 5 already has row a0",
                ),
                Row("memory 1\nname m\nwords 4\n", "D4 bits", "the line 'bits N' is missing, the bits of a word"),
                Row("memory 1\nwords 4\n", "D4 name", "the line 'name IDENT' is missing, the memory's name"),
                Row(
                    "memory 1\nname m\nwords 8\nbits 1\n‸scramble a0 = p0\nscramble a2 = p2\n",
                    "D4 a1",
                    "row a1 is missing: a scrambling has a row for each address bit, a0 to a2",
                    ["the description has a0 and a2"],
                ),
            ],
        )

    def test_ranges(self) -> None:
        ranges = {
            "words ‸1": "'words 1' is outside its range, 2 to 65,536 words",
            "bits ‸65": "'bits 65' is outside its range, 1 to 64 bits of a word",
            "latency ‸5": "'latency 5' is outside its range, 1 to 4 cycles",
            "pause ‸0": "'pause 0' is outside its range, 1 to 65,535 cycles",
            "name ‸wire": "'wire' can't name a memory: it is a reserved word of Verilog",
            f"name ‸{'n' * 49}": f"'{'n' * 49}' can't name a memory: it has 49 bytes, but a name has at most 48",
        }
        rows = [Row(f"memory 2\n{line} # so\n", "D5 line 2", message) for line, message in ranges.items()]
        self.agree(texts.memory, rows)

    def test_values_that_this_memory_has_not(self) -> None:
        outside = {
            "scramble ‸a2 = p0": "there is no a2: an address of 4 words has 2 bits, a0 to a1",
            "scramble a1 = p0 ^ ‸p2": "there is no p2: an index of 4 words has 2 bits, p0 to p1",
            "backgrounds 0 ‸1f": "the background 1f needs 5 bits, but a word of this memory has 2",
            "polarity ‸4": "the polarity 4 needs 3 bits, but a word of this memory has 2",
        }
        rows = [Row(f"{self.BODY}{line}\n", "D5 line 5", message) for line, message in outside.items()]
        self.agree(texts.memory, rows)

    def test_rows_that_depend(self) -> None:
        body, note = "memory 1\nname m\nwords 8\nbits 1\n", ["so two words would have one address"]
        self.agree(
            texts.memory,
            [
                Row(f"{body}scramble ‸a0 = p1 ^ p1\n", "D6 rows a0", self.no_index("a0"), note),
                Row(
                    f"{body}scramble a0 = p1\nscramble ‸a1 = p1\n",
                    "D6 rows a0 a1",
                    "row a1 is the same as row a0",
                    note,
                ),
                Row(
                    f"{body}scramble a0 = p1 ^ 1\nscramble ‸a1 = p1\n",
                    "D6 rows a0 a1",
                    "row a1 is the same as row a0, apart from the constant 1",
                    note,
                ),
                Row(
                    f"{body}scramble a0 = p1\nscramble a1 = p2\nscramble ‸a2 = p1 ^ p2\n",
                    "D6 rows a0 a1 a2",
                    "row a2 is the exclusive or of a0 and a1",
                    note,
                ),
            ],
        )

    def no_index(self, row: str) -> str:
        return f"row {row} has no index bit, so this bit of an address never changes"

    def test_scrambling_and_backgrounds(self) -> None:
        power = "a scrambling needs words 4 or 8; without scramble lines any number works"
        self.agree(
            texts.memory,
            [
                Row(
                    "memory 1\nname m\n‸words 6\nbits 1\nscramble a0 = p0\n",
                    "D7",
                    "the memory has a scrambling, but words 6 is no power of two",
                    [power],
                ),
                Row(
                    f"{self.BODY}‸backgrounds 1 2\n",
                    "D8",
                    "the word 0 is not among the backgrounds",
                    ["write 'backgrounds 0 1 2'"],
                ),
                Row(
                    f"{self.BODY}‸backgrounds{' 0' * 9}\n", "D9", "there are 9 backgrounds, but a memory has at most 8"
                ),
            ],
        )


class Chips(WithoutProgram):
    BODY = "chip 1\nname c\nbudget 5\n"

    def test_grammar(self) -> None:
        self.agree(
            chip,
            [
                Row("# nothing\n", "C2", "the chip file is empty, or has only comments"),
                Row("chip‸", "C2", "the last line ends here, but is not complete"),
                Row("‸name c\n", "C1 line 1 byte 0", "the first line that says anything has to be 'chip 1'"),
                Row("chip 1\n‸namw c\n", "C1 line 2 byte 3", "'namw' is not allowed here; did you mean 'name'?"),
                Row("chip ‸2\n", "C7", "there is no version 2: write 'chip 1'"),
            ],
        )

    def test_rules(self) -> None:
        self.agree(
            chip,
            [
                Row(f"{self.BODY}‸budget 6\n", "C3 line 4", "line 3 already has 'budget'"),
                Row(
                    self.BODY, "C4 unit", "there is no line 'unit N MARCHFILE MEMORYFILE', so there is nothing to test"
                ),
                Row("chip 1\nname ‸wire\n", "C5 line 2", "'wire' can't name a chip: it is a reserved word of Verilog"),
                Row(
                    f"chip 1\nname ‸{'n' * 49}\n",
                    "C5 line 2",
                    f"'{'n' * 49}' can't name a chip: it has 49 bytes, but a name has at most 48",
                ),
                Row("chip 1\nbudget ‸0\n", "C5 line 2", "a budget is 1 to 1,000,000, and not 0"),
                Row(f"{self.BODY}unit ‸1000001 a b\n", "C5 line 4", "a weight is 1 to 1,000,000, and not 1000001"),
                Row(
                    f"{self.BODY}unit ‸3 a {'b' * 256}\n",
                    "C5 line 4",
                    "a file name has 256 bytes, but may have at most 255",
                ),
                Row(
                    self.BODY + "unit 1 a b\n" * 16 + "‸unit 1 a b\n",
                    "C6",
                    "this is the 17th unit, but a chip has at most 16",
                ),
                Row(
                    f"{self.BODY}unit 5 a b\nunit ‸6 a b\n",
                    "C9 line 5",
                    "this unit weighs 6, but the budget in line 3 is 5",
                    ["so no group has room for it"],
                ),
            ],
        )

    def test_names_that_are_taken(self) -> None:
        with tempfile.TemporaryDirectory() as name:
            folder = pathlib.Path(name)
            for memory in ("one", "two", "c"):
                (folder / memory).write_text(f"memory 1\nname {memory}\nwords 4\nbits 1\n")
            one, two, own = (folder / memory for memory in ("one", "two", "c"))
            units = f"unit 1 m {one}\nunit 1 m {two}\n{MARK}unit 1 m "
            lead = "needs another name"
            twice = f"{lead}: its memory has the name of unit 0, 'one'"
            taken = f"{lead}: its module would be 'c_bist', which is the name of the chip"
            self.agree(
                chip,
                [
                    Row(f"chip 1\nname x\nbudget 1\n{units}{one}\n", "C8 unit 2", f"unit 2 ({one}) {twice}"),
                    Row(f"chip 1\nname c_bist\nbudget 1\n{units}{own}\n", "C8 unit 2", f"unit 2 ({own}) {taken}"),
                ],
            )

    def test_refusal_of_a_unit_is_that_of_a_call(self) -> None:
        with tempfile.TemporaryDirectory() as name:
            file = pathlib.Path(name) / "soc.chip"
            file.write_text(f"{self.BODY}unit 1 c.m a.mem\nunit 2 mats.m b.mem\n")
            self.assertEqual(unit_call(str(file), "unit 1 march M2"), (["bench", "mats.m", "b.mem"], "march M2"))
            self.assertRaises(ValueError, unit_call, str(file), "unit march M2")
            self.assertRaises(IndexError, unit_call, str(file), "unit 2 march M2")


class Places(unittest.TestCase):
    def test_values_of_refusals(self) -> None:
        self.assertEqual(values_of("M1", "byte 6"), {"byte": "6"})
        self.assertEqual(values_of("F1", "line 2 byte 6"), {"line": "2", "byte": "6"})
        self.assertEqual(values_of("M8", "element 1 operation 0"), {"element": "1", "operation": "0"})
        self.assertEqual(values_of("D6", "rows a0 a1"), {"rows": "a0 a1"})
        self.assertEqual(values_of("N3", "2 4"), {"x": "2", "y": "4"})
        self.assertEqual(values_of("N7", "line 2"), {"names": "line 2"})
        self.assertEqual(values_of("N1", "line"), {"name": "line"})
        self.assertEqual(values_of("M3", ""), {})

    def test_line_and_column_count_characters_from_one(self) -> None:
        text, at = split("a\n⇕(‸w0)")
        assert at is not None
        self.assertEqual(place(text, at), (2, 3))
        self.assertEqual(line_start(text, 2), 2)
        self.assertEqual(caret(text, at), ["  ⇕(w0)", "    ^"])

    def test_line_is_shown_around_its_place(self) -> None:
        text, at = split(f"{'a' * 100}\x1b‸b\tc\r\nx")
        assert at is not None
        shown, under = caret(text, at)
        self.assertEqual(shown, f"  {'a' * 59}?b c")
        self.assertEqual(under.index("^"), shown.index("b"))

    def test_lines_of_a_finding(self) -> None:
        here = Finding("c.m", b"any(w2)", 4, "no", ["so"])
        self.assertEqual(here.lines(), ["c.m:1:5: error: no", "  any(w2)", "      ^", "  so"])
        self.assertEqual(Finding("c.m", b"", None, "no", ["so"]).lines(), ["c.m: error: no", "  so"])

    def test_words_in_a_sentence(self) -> None:
        self.assertEqual(listed(["a"]), "a")
        self.assertEqual(listed(["a", "b", "c"], "and"), "a, b and c")
        self.assertEqual(close_to("sf", ["SF", "TF"]), "SF")
        self.assertEqual(close_to("comiple", ["compile", "check"]), "compile")
        self.assertIsNone(close_to("quux", ["compile", "check"]))
