"""Pages over reports and pictures: what stands in them is worked out by hand."""
from __future__ import annotations

import csv
import io
import pathlib
import re
import tempfile
import unittest
import xml.dom.minidom
from unittest import mock

from vidlakost_tools.chip import system as soc
from vidlakost_tools.pages import chip_picture, claims, cycles_picture, drawing, signoff
from vidlakost_tools.texts import chip as chip_texts
from vidlakost_tools.texts.chip import Chip, Unit
from vidlakost_tools.texts.linked import LinkVerdict
from vidlakost_tools.texts.march import elements_of
from vidlakost_tools.texts.memory import Memory, parse_memory
from vidlakost_tools.texts.report import Verdict
from vidlakost_tools.tool import ToolError

MARCH = "{any(w0);up(r0,w1);del;down(r1)}"
# a test of 4 * (1 + 2 + 1) + 3 cycles in one background, and of reset, latency and the last comparison
SMALL = "memory 2\nname small\nwords 4\nbits 2\nlatency 2\npause 3\nbackgrounds 0\n"
CYCLES = 4 * 4 + 3 + 2 + 2
REPORT = """march {any(w0);up(r0,w1);del;down(r1)}
memory small words 4 bits 2 backgrounds 1 commands 16
covered <0/1/-> SF
escape <1w0/1/-> TF aggressor none victim 0 content 00 directions uuuu
class SF 1 covered 1
class TF 1 covered 0
total 2 covered 1 escapes 1
"""


def memory(text: str = SMALL, name: str = "small") -> Memory:
    return parse_memory(text.replace("name small", f"name {name}"))


class SignOff(unittest.TestCase):
    def rows(self, reports: dict[str, str], *memories: str) -> list[signoff.Row]:
        """The rows of some reports and descriptions, which need no program here."""
        with tempfile.TemporaryDirectory() as name:
            folder = pathlib.Path(name)
            for file, text in [*reports.items(), *((f"{count}.mem", text) for count, text in enumerate(memories))]:
                (folder / file).write_text(text)
            described = [str(folder / f"{count}.mem") for count in range(len(memories))]
            reader = mock.patch.object(
                signoff, "read_memory", lambda path: parse_memory(pathlib.Path(path).read_text())
            )
            with reader:
                return signoff.rows_of([str(folder / file) for file in reports], described)

    def test_table(self) -> None:
        """At 10 MHz the 23 cycles take 2.3 microseconds."""
        rows = self.rows({"a": REPORT}, SMALL)
        heads, cells = csv.reader(io.StringIO(signoff.as_csv(rows, 10)))
        told = dict(zip(heads, cells))
        self.assertEqual((told["memory"], told["words"], told["bits"], told["backgrounds"]), ("small", "4", "2", "1"))
        self.assertEqual((told["march"], told["length"], told["commands"]), (MARCH, "4n+1D", "16"))
        self.assertEqual((told["SF"], told["TF"], told["total"]), ("1/1", "0/1", "1/2"))
        self.assertEqual((told["cycles"], told["ms"]), (str(CYCLES), "0.002"))

    def test_page_of_several_memories(self) -> None:
        other = REPORT.replace("memory small", "memory other")
        rows = self.rows({"a": REPORT, "b": other}, SMALL, SMALL.replace("name small", "name other"))
        page = signoff.sign_off(rows, 100)
        self.assertIn(
            f"<p>One after another {2 * CYCLES} cycles, 0.000 ms at 100 MHz; all at once {CYCLES} cycles.</p>", page
        )
        self.assertIn("<title>Self-test of 2 memories</title>", page)
        without = signoff.sign_off(self.rows({"a": REPORT, "b": other}, SMALL), 100)
        self.assertIn("A memory has cycles here if the call has its description", without)
        self.assertIn(f"<td>{CYCLES}</td>", without)

    def test_instances_of_a_list(self) -> None:
        """Forty memories are tested forty times, and six of which each two share a controller three times."""
        other = REPORT.replace("memory small", "memory other")
        rows = self.rows({"a": REPORT, "b": other}, SMALL, SMALL.replace("name small", "name other"))
        unit = Unit(1, "a.m", "a.mem", elements_of(MARCH), memory())
        parts = [soc.Part(f"small_{at}", memory(), at, unit) for at in range(40)]
        led = [soc.Part(f"other_{at}", memory(name="other"), at, unit) for at in range(6)]
        for at in (1, 3, 5):
            led[at].leader = led[at - 1]
        with mock.patch.object(soc, "read_system", return_value=soc.System("x", 5, [*parts, *led])):
            signoff.counted(rows, "x.list", [])
        page = signoff.sign_off(rows, 100)
        self.assertIn("<title>Self-test of 46 memories</title>", page)
        self.assertIn(f"One after another {43 * CYCLES} cycles", page)
        self.assertIn(f"all at once {CYCLES} cycles", page)
        self.assertIn("<th>memory</th><th>instances</th><th>words</th>", page)
        self.assertIn("<td>other</td><td>6</td>", page)
        with mock.patch.object(soc, "read_system", return_value=soc.System("x", 5, parts)):
            with self.assertRaisesRegex(ToolError, "^x.list has no memory other$"):
                signoff.counted(rows, "x.list", [])
            with self.assertRaisesRegex(ToolError, "^there is no report of small$"):
                signoff.counted([], "x.list", [])

    def test_what_does_not_belong_together(self) -> None:
        of_judge = re.sub("memory .*\n", "", REPORT)
        refused: list[tuple[str, str, list[str]]] = [
            ("/a: this is a report of `judge`, which names no memory; --all needs reports of `compile`$", of_judge, []),
            (
                "/a: small has another size or another test in its description$",
                REPORT,
                [SMALL.replace("words 4", "words 5")],
            ),
            ("^there is no report of other$", REPORT, [SMALL, SMALL.replace("name small", "name other")]),
            (
                "/1.mem: the call has another description of small",
                REPORT,
                [SMALL, SMALL.replace("latency 2", "latency 3")],
            ),
        ]
        for message, report, memories in refused:
            with self.subTest(message=message), self.assertRaisesRegex(ToolError, message):
                self.rows({"a": report}, *memories)

    def test_names_are_no_html(self) -> None:
        self.assertIn("<td>a&lt;b&gt;</td>", signoff.table(["x"], [["a<b>"]]))
        self.assertIn("<h1>a&amp;b</h1>", signoff.document("a&b", []))


class TesterPage(unittest.TestCase):
    def test_page_of_a_memory(self) -> None:
        march = mock.patch.object(signoff, "march_of", return_value=(MARCH, elements_of(MARCH)))
        with march, mock.patch.object(signoff, "read_memory", return_value=memory()):
            page = signoff.tester_page(["c.m", "small.mem"], 10)
        self.assertIn(f"The test takes {CYCLES - 1} cycles of clk, 0.002 ms at 10 MHz", page)
        self.assertIn("<pre>vidlakost locate c.m small.mem --tdr HEX</pre>", page)
        # the commands of the first two elements are in the cycles 1 to 12, and the pause takes three
        self.assertIn("<td>c.m</td><td>0</td><td>13 to 15</td>", page)

    def test_page_of_a_chip(self) -> None:
        elements = elements_of("{any(w0);up(r0)}")
        units = [Unit(1, "c.m", "a.mem", elements, memory(name=name)) for name in ("one", "two")]
        chip = Chip("soc", 1, units)
        chip_texts.place(chip)
        with mock.patch.object(signoff, "read_chip", return_value=chip):
            page = signoff.tester_page(["soc.chip"], 10)
        self.assertIn("<title>To test soc</title>", page)
        self.assertIn("<pre>vidlakost locate soc.chip --chip --tdr HEX</pre>", page)
        self.assertIn(f"<td>two</td><td>4</td><td>2</td><td>c.m</td><td>{units[1].start}</td><td>none</td>", page)


class Pictures(unittest.TestCase):
    def texts(self, picture: str) -> list[str]:
        """The texts of a picture, which has to be one of XML."""
        found = xml.dom.minidom.parseString(picture).getElementsByTagName("text")
        return ["".join(node.data for node in element.childNodes) for element in found]

    def test_parts_of_drawings(self) -> None:
        self.assertIn(">a &lt; b</text>", drawing.text(1, 2.5, "a < b"))
        self.assertIn('points="1,2 3,4.5"', drawing.line([(1, 2), (3, 4.5)]))

    def test_groups_of_a_chip(self) -> None:
        """Under a budget of 3 the units of weight 2 and 1 are a group, and the other one of weight 1 is the next."""
        elements = elements_of("{any(w0);up(r0)}")
        units = [Unit(weight, "c.m", "a.mem", elements, memory(name=f"m{weight}")) for weight in (2, 1, 1)]
        chip = Chip("soc", 3, units)
        chip_texts.place(chip)
        picture = chip_picture.picture(chip)
        told = self.texts(picture)
        self.assertEqual(told[0], "soc: 3 memories in 2 groups")
        for label in ("0 m2", "1 m1", "2 m1", "budget", "3", f"done {chip.done}"):
            self.assertIn(label, told)
        boxes = [float(high) for high in re.findall(r'<rect x=.* height="(\S+)" fill="#c', picture)]
        self.assertEqual(len(boxes), 2)
        self.assertAlmostEqual(boxes[0], 2 * boxes[1], 2)

    def test_first_cycles_of_a_test(self) -> None:
        """Four writes, four reads with a write each, of which eleven commands are in the picture."""
        told = [f"w {index} 0" for index in range(4)]
        for index in range(4):
            told += [f"r {index} 0", f"w {index} 3"]
        given = cycles_picture.first_cycles(elements_of(MARCH), memory(), told)
        self.assertEqual(
            (given[0], given[1], given[5], given[6]), (None, ["w", "0", "0"], ["r", "0", "0"], ["w", "0", "3"])
        )
        values = dict(cycles_picture.signals(given, 2, CYCLES - 1))
        self.assertEqual(values["reset"], [1] + [0] * 11)
        self.assertEqual(values["we"], [0, 1, 1, 1, 1, 0, 1, 0, 1, 0, 1, 0])
        # the latency is 2: the word of the read of cycle 5 stands in cycle 7
        self.assertEqual(values["rdata"], ["", "", "", "", "", "", "", "0", "", "0", "", "0"])
        picture = cycles_picture.picture(MARCH, memory(), told)
        texts = self.texts(picture)
        self.assertEqual(texts[0], f"The first 12 cycles of {MARCH} on 4 words of 2 bits, latency 2")
        self.assertIn("Dashed: the word of a read stands on rdata two cycles after its command.", texts)

    def test_pause_and_end_in_the_picture(self) -> None:
        """Two writes, a pause of three cycles and two reads; behind them the test is done."""
        short = parse_memory("memory 2\nname s\nwords 2\nbits 1\npause 3\nbackgrounds 0\n")
        elements = elements_of("{any(w0);del;up(r0)}")
        given = cycles_picture.first_cycles(elements, short, ["w 0 0", "w 1 0", "r 0 0", "r 1 0"])
        self.assertEqual([command is not None for command in given], [bit == "1" for bit in "011000110000"])
        values = dict(cycles_picture.signals(given, 1, short.cycles(elements) - 1))
        self.assertEqual(values["done"], [0] * 9 + [1] * 3)
        self.assertEqual(cycles_picture.first_read([None] * 12, 1, 62), [])


class Claims(unittest.TestCase):
    def test_primitives_of_a_read_behind_a_write(self) -> None:
        """Two states with two writes have three faults each; beside an aggressor they have them in both its states."""
        one = claims.write_read([""])
        self.assertEqual(len(one), 12)
        self.assertEqual(one[:3], ["<0w0r0/1/1>", "<0w0r0/1/0>", "<0w0r0/0/1>"])
        self.assertEqual(len(claims.write_read(["0;", "1;"])), 24)

    def test_march_with_another_first_element(self) -> None:
        whole, changed = (
            next(it for it in claims.CLAIMS if it.name == name) for name in ("March RAW", "March RAW with `up(w0)`")
        )
        self.assertTrue(changed.march.startswith("{up(w0);"))
        self.assertEqual(changed.march.split(";")[1:], whole.march.split(";")[1:])

    def test_escapes_as_reports_have_them(self) -> None:
        one = Verdict("<0w1;0/1/->", "CFds", 1, 0, "01", "uud")
        self.assertEqual(claims.shown_escape(one), "<0w1;0/1/-> cells 2 aggressor 1 victim 0 content 01 directions uud")
        single = Verdict("<0/1/->", "SF", None, 1, "00", "u")
        self.assertEqual(claims.shown_escape(single), "<0/1/-> cells 2 aggressor none victim 1 content 00 directions u")

    def test_row_of_a_claim(self) -> None:
        judged = mock.Mock(total=(12, 11, 1), escapes=[Verdict("<0/1/->", "SF", None, 0, "00", "u")])
        with mock.patch.object(claims, "judged", return_value=judged):
            row = claims.looked(claims.CLAIMS[0], pathlib.Path("c.m"))
        self.assertEqual(row, "11/12 | `<0/1/-> cells 2 aggressor none victim 0 content 00 directions u`")
        report = mock.Mock(covered=2, verdicts=[mock.Mock()] * 2, escapes=[])
        links = next(it for it in claims.CLAIMS if it.items == [claims.LINKS])
        with mock.patch.object(claims, "linked", return_value=report):
            self.assertEqual(claims.looked(links, pathlib.Path("c.m")), "2/2 | ")

    def test_link_names_its_cells(self) -> None:
        link = mock.Mock(
            spec=LinkVerdict, primitive="<0w1/0/-> -> <0/1/->", a=None, b=2, v=0, content="000", directions="uu"
        )
        self.assertEqual(claims.shown_link(link), "<0w1/0/-> -> <0/1/-> b 2 v 0 content 000 directions uu")
