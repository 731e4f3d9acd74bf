"""What a refusal means in a call: its words, its files, and the numbers that the program names. No program is asked."""
from __future__ import annotations

import dataclasses
import os
import pathlib
import tempfile
from unittest import mock

from tests.unit.refused import WithoutProgram
from vidlakost_tools.refusals import explained

MARCH = "{any(w0);up(r0,w1);del;down(r1)}"
MEMORY = "memory 1\nname ram\nwords 16\nbits 4\nbackgrounds 0\n"
LIST = "# nothing\n<0w1/0/>\n"
TEXTS = {
    "c.m": MARCH,
    "wrong.m": "{any(w2)}",
    "a.mem": MEMORY,
    "bad.list": LIST,
    "long.mem": MEMORY.replace("16", "65536"),
}
# the words of `sim`, of `benchfault` and of `judge` behind their files
SIM = ["<0w1/0/->", "4", "0000", "none", "3", "uuuu"]
FAULT = ["<0w1;0/1/->", "2.0", "3.1"]


@dataclasses.dataclass
class Call:
    """What the launcher was given, the program's line and status, and the lines that are told of it."""

    words: list[str]
    said: str
    status: int
    told: list[str]


class Calls(WithoutProgram):
    """Calls whose files stand in a folder; `@` is the folder's name."""

    def setUp(self) -> None:
        super().setUp()
        folder = tempfile.TemporaryDirectory()
        self.addCleanup(folder.cleanup)
        self.folder = pathlib.Path(folder.name)
        for name, text in TEXTS.items():
            (self.folder / name).write_text(text)

    def told(self, words: list[str], said: str, status: int) -> list[str]:
        lines = explained.lines([word.replace("@", str(self.folder)) for word in words], said, status)
        return [line.replace(str(self.folder), "@") for line in lines]

    def agree_on(self, *calls: Call) -> None:
        for call in calls:
            with self.subTest(words=call.words, said=call.said):
                self.assertEqual(self.told(call.words, call.said, call.status), call.told)


class Texts(Calls):
    def test_place_of_a_text_is_shown(self) -> None:
        self.agree_on(
            Call(
                ["judge", "@/wrong.m", "@/bad.list", "@/out"],
                "march M1 byte 6",
                3,
                ["@/wrong.m:1:6: error: 'w2' is not allowed here", "  {any(w2)}", "       ^"],
            ),
            Call(
                ["judge", "@/c.m", "@/bad.list", "@/out"],
                "fault F1 line 2 byte 7",
                5,
                ["@/bad.list:2:8: error: '>' is not allowed here", "  <0w1/0/>", "         ^"],
            ),
            Call(
                ["show", "memory", "@/a.mem"],
                "memory D5 line 3",
                4,
                ["@/a.mem:3:7: error: 'words 16' is outside its range, 2 to 65,536 words", "  words 16", "        ^"],
            ),
            Call(
                ["sim", "@/c.m", "<0w1/0/>", *SIM[1:]],
                "fault F1 line 1 byte 7",
                5,
                ["PRIM:1:8: error: '>' is not allowed here", "  <0w1/0/>", "         ^"],
            ),
        )

    def test_check_tells_the_tool_that_reads_any_verilog(self) -> None:
        (self.folder / "x.v").write_text("")
        another = "  `vidlakost audit` reads a controller in any Verilog, also with other port names"
        empty = "@/x.v: error: the file is empty"
        self.agree_on(
            Call(["check", "@/x.v", "@/c.m", "@/a.mem"], "verilog L2", 14, [empty, another]),
            Call(["benchfile", "@/x.v", "@/c.m", "@/a.mem"], "verilog L2", 14, [empty]),
        )

    def test_texts_of_another_kind(self) -> None:
        looks = "  the file looks like a memory description, but MARCH has to be a march: did you swap two words?"
        (self.folder / "marked.m").write_bytes(b"\xef\xbb\xbf{any(w0)}")
        mark = "  the file begins with a byte-order mark: save it as plain UTF-8, without one"
        self.assertEqual(self.told(["bench", "@/a.mem", "@/c.m"], "march M1 byte 0", 3)[-1], looks)
        self.assertEqual(self.told(["bench", "@/marked.m", "@/a.mem"], "march M1 byte 0", 3)[-1], mark)

    def test_unit_of_a_chip_is_told_by_its_own_file(self) -> None:
        chip = self.folder / "soc.chip"
        chip.write_text(f"chip 1\nname soc\nbudget 1\nunit 1 {self.folder}/wrong.m {self.folder}/a.mem\n")
        told = ["@/wrong.m:1:6: error: 'w2' is not allowed here", "  {any(w2)}", "       ^"]
        self.agree_on(
            Call(["chip", "@/soc.chip", "@/out"], "unit 0 march M1 byte 6", 3, told),
            Call(["chip", "@/soc.chip", "@/out"], "unit 7 march M1 byte 6", 3, []),
        )

    def test_text_that_came_by_a_pipe_is_not_opened_again(self) -> None:
        os.mkfifo(self.folder / "pipe")
        note = "  the text came by a pipe or a device, so its place is not shown"
        self.agree_on(
            Call(
                ["bench", "@/pipe", "@/a.mem"],
                "march M2",
                3,
                ["@/pipe: error: the text stops early", note],
            ),
            Call(
                ["chip", "@/pipe", "@/out"],
                "unit 0 memory D7",
                4,
                ["@/pipe: error: there are rows, and the number of words is no power of two", note],
            ),
            Call(["benchfault", "@/c.m", "@/pipe", *FAULT], "device V2", 11, []),
        )

    def test_text_that_changed_meanwhile_is_not_told(self) -> None:
        self.agree_on(Call(["bench", "@/c.m", "@/a.mem"], "march M4", 3, []))


class Words(Calls):
    def usage(self, *words: str) -> str:
        """What is wrong with the words of a call, whose form is told below."""
        wrong, form = self.told(list(words), "usage", 2)
        self.assertTrue(form.startswith(f"  usage: vidlakost {words[0]} "), form)
        self.assertTrue(wrong.startswith("vidlakost: error: "), wrong)
        return wrong.split(": ", 2)[2]

    def test_no_command(self) -> None:
        (wrong, names) = self.told(["jduge", "a"], "usage", 2)
        self.assertEqual(wrong, "vidlakost: error: 'jduge' is no command; did you mean 'judge'?")
        self.assertRegex(names, "^  the commands are sim, judge, .* and show$")
        self.assertEqual(self.told(["quux"], "usage", 2)[0], "vidlakost: error: 'quux' is no command")
        self.assertEqual(self.told([], "usage", 2)[0], "vidlakost: error: there is no command")

    def test_number_of_words(self) -> None:
        one, two = (
            "judge takes 3 words, but the call has 2: REPORT is missing",
            "judge takes 3 words, but the call has 1: ",
        )
        self.assertEqual(self.usage("judge", "c.m", "x.list"), one)
        self.assertEqual(self.usage("judge", "c.m"), two + "FAULTS and REPORT are missing")
        self.assertEqual(
            self.usage("decoder", "c.m", "out", "more"),
            "decoder takes 2 words, but the call has 3: 'more' is one word too many",
        )

    def test_files(self) -> None:
        same = "MARCH and REPORT are both 'c.m', but the files of a call need different names"
        self.assertEqual(self.usage("judge", "c.m", "x.list", "c.m"), same)
        self.assertEqual(self.usage("judge", "c.m", "", "out"), "FAULTS is empty")
        self.assertEqual(self.usage("judge", "-c", "x", "out"), "MARCH is '-c', but no word may begin with '-'")
        self.assertEqual(self.usage("judge", "c.m", "x.list", "out"), "these words don't fit judge")

    def test_kind_of_show(self) -> None:
        kinds = "KIND is march, memory, list, chip or module, and not 'netlist'"
        self.assertEqual(self.usage("show", "netlist", "x"), kinds)

    def test_words_of_sim(self) -> None:
        places = ["PRIM", "SIZE", "CONTENT", "AGG", "VIC", "DIRS"]
        wrong = [
            ("SIZE", "04", "SIZE is a decimal number without a leading zero, and not '04'"),
            ("SIZE", "1", "SIZE is 2 to 4,096, and not 1"),
            ("CONTENT", "0020", "CONTENT has the digits 0 and 1, one for each cell, and not '0020'"),
            ("CONTENT", "000", "CONTENT has 3 digits, but SIZE is 4"),
            ("AGG", "nobody", "AGG is the number of a cell or none, and not 'nobody'"),
            ("VIC", "none", "VIC is the number of a cell, and not 'none'"),
            ("VIC", "4", "VIC is cell 4, but the cells are 0 to 3"),
            ("AGG", "3", "AGG and VIC are both cell 3"),
            ("DIRS", "uxu", "DIRS is a letter u or d for each element, 1 to 64 of them, and not 'uxu'"),
        ]
        for name, word, message in wrong:
            with self.subTest(name=name, word=word):
                words = [*SIM]
                words[places.index(name)] = word
                self.assertEqual(self.usage("sim", "c.m", *words), message)

    def test_words_of_other_commands(self) -> None:
        form = "AGG names a cell by the index of its word, a full stop and its bit, as 6.3, and not '6'"
        self.assertEqual(self.usage("benchfault", "c.m", "a.mem", "<0/1/->", "6", "1.0"), form)
        self.assertEqual(
            self.usage("make", "65535", "a", "b", "c", "d", "e"),
            "NUMBER is 0 to 65,534, and not 65535",
        )

    def test_words_that_are_no_text(self) -> None:
        self.agree_on(
            Call(["bench", "\udcff", "a.mem"], "", 16, ["vidlakost: error: word 1 is not UTF-8"]),
            Call(["bench", "c.m", "a.mem"], "", 16, ["vidlakost: error: the words could not be read"]),
        )


class Files(Calls):
    def test_missing(self) -> None:
        near = "@/c.mm: error: there is no such file; did you mean '@/c.m'?"
        self.agree_on(
            Call(["bench", "@/c.mm", "@/a.mem"], "absent 1", 10, [near]),
            Call(["bench", "@/quux", "@/a.mem"], "absent 1", 10, ["@/quux: error: there is no such file"]),
            Call(["bench", "@/no/c.m", "@/a.mem"], "absent 1", 10, ["@/no/c.m: error: there is no folder '@/no'"]),
        )

    def test_size(self) -> None:
        (self.folder / "huge.m").write_bytes(b" " * 1048577)
        huge = "@/huge.m: error: the file has 1,048,577 bytes, but an input may have at most 1,048,576"
        device = "/dev/zero: error: the file has too many bytes, but an input may have at most 1,048,576"
        self.agree_on(
            Call(["bench", "@/huge.m", "@/a.mem"], "too large 1", 6, [huge]),
            Call(["bench", "/dev/zero", "@/a.mem"], "too large 1", 6, [device]),
        )

    def test_what_can_t_be_opened(self) -> None:
        judge = ["judge", "@/c.m", "@/bad.list"]
        written = "error: the file could not be written:"
        self.agree_on(
            Call(
                ["bench", "@", "@/a.mem"], "read failed 1", 7, ["@: error: the file could not be read: it is a folder"]
            ),
            Call([*judge, "@"], "write failed 3", 8, [f"@: {written} it is a folder"]),
            Call([*judge, "@/no/out"], "write failed 3", 8, [f"@/no/out: {written} there is no folder '@/no'"]),
            Call([*judge, "@/out"], "write failed 3", 8, [f"@/out: {written} the system had no more room, or failed"]),
        )

    def test_what_the_caller_may_not_open(self) -> None:
        (self.folder / "out").write_text("")
        judge, write = ["judge", "@/c.m", "@/bad.list"], "error: the file could not be written:"
        read = "@/c.m: error: the file could not be read: you may not open it"
        with mock.patch.object(os, "access", return_value=False):
            self.agree_on(
                Call(["bench", "@/c.m", "@/a.mem"], "read failed 1", 7, [read]),
                Call([*judge, "@/out"], "write failed 3", 8, [f"@/out: {write} you may not open it"]),
                Call(
                    [*judge, "@/new"], "write failed 3", 8, [f"@/new: {write} you may not create files in this folder"]
                ),
            )

    def test_line_and_memory(self) -> None:
        self.agree_on(
            Call(["show", "march", "@/c.m"], "", 8, ["vidlakost: error: the line of the answer could not be written"]),
            Call(["show", "march", "@/c.m"], "no memory", 9, ["vidlakost: error: out of memory"]),
        )


class Meanings(Calls):
    def test_boxes(self) -> None:
        call = ["benchfault", "@/c.m", "@/a.mem", "<0w1;0/1/->"]
        outside = "is outside ram: its words are 0 to 15, by physical index"
        one_word = "VIC: error: aggressor 2.0 and victim 2.1 are in one word; they have to be in two words"
        none = "vidlakost: error: the program has no model of a memory for this run"
        room = "vidlakost: error: the model has too little room for this memory"
        self.agree_on(
            Call([*call, "16.0", "3.1"], "device V2", 11, [f"AGG: error: 16.0 {outside}"]),
            Call([*call, "none", "16.0"], "device V2", 11, [f"VIC: error: 16.0 {outside}"]),
            Call(
                [*call, "2.0", "3.4"],
                "device V2",
                11,
                ["VIC: error: 3.4 is outside ram: the bits of its words are 0 to 3"],
            ),
            Call([*call, "2.0", "2.1"], "device V2", 11, [one_word]),
            Call(["bench", "@/c.m", "@/a.mem"], "device V4", 11, [none]),
            Call(["bench", "@/c.m", "@/a.mem"], "device V1 words 16 room 8", 11, [room]),
        )

    def test_aggressor_that_does_not_fit(self) -> None:
        two = "AGG: error: <0w1;0/1/-> has two cells, so AGG has to be the cell of its aggressor, not 'none'"
        one = "AGG: error: <0w1/0/-> has one cell, so AGG has to be none, not '2'"
        self.agree_on(
            Call(["sim", "@/c.m", "<0w1;0/1/->", *SIM[1:]], "misfit aggressor", 13, [two]),
            Call(["sim", "@/c.m", "<0w1/0/->", "4", "0000", "2", "3", "uuuu"], "misfit aggressor", 13, [one]),
        )

    def test_directions_that_do_not_fit(self) -> None:
        """The march is any, up, a pause and down: the second has u, the pause u, the last d."""
        columns = "  {:24} {}".format
        elements = ["any(w0)", "up(r0,w1)", "del", "down(r1)"]
        few = ["DIRS: error: 'uu' has 2 letters, but @/c.m has 4 elements"]
        few += map(columns, elements, ["u", "u", "(no letter)", "(no letter)"])
        wrong = [
            "DIRS: error: letter 1 is 'd', which does not fit element 1",
            columns("any(w0)", "d"),
            columns("up(r0,w1)", "d   this element goes up: u"),
            columns("del", "u"),
            columns("down(r1)", "d"),
        ]
        pause = columns("del", "d   a pause has u")
        self.agree_on(
            Call(["sim", "@/c.m", *SIM[:-1], "uu"], "misfit directions", 13, few),
            Call(["sim", "@/c.m", *SIM[:-1], "ddud"], "misfit directions", 13, wrong),
        )
        self.assertEqual(self.told(["sim", "@/c.m", *SIM[:-1], "uudd"], "misfit directions", 13)[3], pause)

    def test_test_that_is_too_long(self) -> None:
        """In a background the march takes 4 operations on 65,536 words and a pause of 1 cycle: 262,145 cycles. Seven
        backgrounds and the 3 cycles of reset and latency are within 2,000,000, eight are not."""
        (self.folder / "long.mem").write_text(TEXTS["long.mem"].replace("backgrounds 0", "backgrounds" + " 0" * 8))
        lead = "@/long.mem: error: the test takes 2,097,163 cycles, but the program runs at most 2,000,000"
        each = "  the march takes 262,145 cycles in each of 8 backgrounds; with 7 backgrounds the test would fit"
        self.agree_on(
            Call(
                ["bench", "@/c.m", "@/long.mem"],
                "too long 2097163",
                12,
                [lead, each, "  (compile has no such limit)"],
            ),
            Call(["bench", "@", "@/long.mem"], "too long 2097163", 12, [lead]),
        )

    def test_march_that_is_too_long_by_itself(self) -> None:
        (self.folder / "long.m").write_text(f"{{any(w0);{';'.join(['up(r0,w0)'] * 16)}}}")
        said = f"too long {33 * 65536 + 3}"
        self.assertIn(
            "; use a shorter march, or fewer words", self.told(["bench", "@/long.m", "@/long.mem"], said, 12)[1]
        )

    def test_empty_list_is_a_warning(self) -> None:
        call = ["judge", "@/c.m", "@/bad.list", "@/out"]
        warning = "@/bad.list: warning: the list holds no primitive, so nothing was judged"
        self.agree_on(
            Call(call, "total 0 covered 0 escapes 0", 0, [warning]),
            Call(call, "total 3 covered 3 escapes 0", 0, []),
            Call(call, "", 77, []),
        )
