"""The readers of the texts: what each makes of a text that is worked out by hand."""
from __future__ import annotations

import pathlib
import tempfile
import unittest

from vidlakost_tools import text
from vidlakost_tools.refusals import otherwise
from vidlakost_tools.refusals.explained import another_kind
from vidlakost_tools.texts import chip, report
from vidlakost_tools.texts.faults import place_of, read_primitive
from vidlakost_tools.texts.march import elements_of, length_of, read_elements
from vidlakost_tools.texts.memory import logarithmic, parse_memory, rows_of, terms_of
from vidlakost_tools.tool import ToolError, identifier, number_of
from vidlakost_tools.verilog import syntax as verilog


class Texts(unittest.TestCase):
    def test_lines_end_at_line_feeds_alone(self) -> None:
        self.assertEqual(text.lines_of("a\rb\x0bc\u2028d\n\ne"), ["a\rb\x0bc\u2028d", "", "e"])
        self.assertEqual(text.lines_of("a\n"), ["a"])
        self.assertEqual(text.lines_of(""), [])

    def test_words_stand_before_a_comment(self) -> None:
        self.assertEqual(text.words_in(" name\tbuf \r # x y"), ["name", "buf"])
        self.assertEqual(text.words_in("a\x0cb"), ["a\x0cb"])

    def test_what_a_terminal_obeys_is_shown(self) -> None:
        self.assertEqual(text.shown("a\x1b[2J"), "'a\\x1b[2J'")

    def test_words_of_a_call(self) -> None:
        self.assertEqual(number_of("007", "N"), 7)
        for word in ("-1", "1_0", "٣", "", "1234567890"):
            self.assertRaises(ToolError, number_of, word, "N")
        self.assertRaises(ToolError, number_of, "0", "N", 1)
        self.assertEqual(identifier("a$1"), "a$1")
        for name in ("../x", "1a", "", "a b", "a" * 65, "a\n"):
            self.assertRaises(ToolError, identifier, name)


class Kinds(unittest.TestCase):
    def test_what_a_text_looks_like(self) -> None:
        comments = b"/* a */\n" * 400
        self.assertEqual(list(another_kind("VERILOG", "verilog", comments + b"`timescale 1ns/1ns\nmodule m;")), [])
        self.assertEqual(list(another_kind("VERILOG", "verilog", comments + b"module m;")), [])
        (said,) = another_kind("MARCH", "march", comments + b"module m;")
        self.assertIn("the file looks like a module of Verilog", said)


class Marches(unittest.TestCase):
    def test_elements_and_their_places(self) -> None:
        march = " { any ( w0 ) ;\n del; ⇓(r0, w1)}\n"
        elements = read_elements(march)
        self.assertEqual([it.order for it in elements], ["any", "del", "down"])
        self.assertEqual([it.operations for it in elements], [["w0"], [], ["r0", "w1"]])
        self.assertEqual([march[it.at] for it in elements], ["a", "d", "⇓"])
        self.assertEqual([march[at : at + 2] for it in elements for at in it.places], ["w0", "r0", "w1"])
        self.assertEqual(length_of(elements), "3n+1D")

    def test_the_texts_of_orders(self) -> None:
        for word, order in (("up", "up"), ("^", "up"), ("v", "down"), ("↓", "down"), ("*", "any"), ("↕", "any")):
            self.assertEqual(elements_of(f"{{any(w0);{word}(r0)}}")[1].order, order)

    def test_what_is_no_march(self) -> None:
        for march in (
            "{}",
            "any()",
            "up w0",
            "{any(w2)}",
            "del(w0)",
            "any",
            "{any(w0)};",
            "any{(w0)",
            "{any(w0);" * 70 + "up(r0)}",
        ):
            self.assertRaises(ToolError, elements_of, march)
        self.assertRaises(ToolError, elements_of, f"{{any({','.join(['w0'] * 17)})}}")
        self.assertEqual(len(read_elements(";".join(["any(w0)"] * 65))), 65)


class Memories(unittest.TestCase):
    TEXT = (
        "memory 2 # \udce9\nname m\nwords 4\nbits 4\nlatency 2\npolarity A\npause 7\n"
        "scramble a0 = p0 ^ p1 ^ 1\nscramble a1 = p1 ^ p0 ^ p0\n"
    )

    def test_a_description(self) -> None:
        memory = parse_memory(self.TEXT)
        self.assertEqual((memory.name, memory.words, memory.bits, memory.latency), ("m", 4, 4, 2))
        self.assertEqual((memory.polarity, memory.pause, memory.backgrounds), (10, 7, [0, 10, 12]))
        self.assertEqual(memory.rows, [([0, 1], 1), ([1], 0)])
        self.assertEqual([memory.address_of(index) for index in range(4)], [1, 0, 2, 3])
        self.assertEqual(memory.way_back(), [([0, 1], 1), ([1], 0)])
        self.assertEqual(memory.cycles(elements_of("{any(w0);del;up(r0,w1)}")), 3 * (4 + 7 + 8) + 4)

    def test_terms_and_rows(self) -> None:
        self.assertEqual(terms_of("p3 ^ 1 ^p1^ p3 ^1"), ([1], 0))
        self.assertEqual(rows_of([(5, "scramble", "a1 = p0"), (6, "name", "m")]), {1: (5, ([0], 0))})

    def test_logarithmic_backgrounds(self) -> None:
        self.assertEqual(logarithmic(1), [0])
        self.assertEqual(logarithmic(5), [0, 0b01010, 0b01100, 0b10000])

    def test_numbers_out_of_their_range(self) -> None:
        for old, new in (
            ("words 4", "words 1"),
            ("bits 4", "bits 65"),
            ("latency 2", "latency 5"),
            ("polarity A", "polarity 1A"),
        ):
            self.assertRaises(ToolError, parse_memory, self.TEXT.replace(old, new))
        self.assertRaises(ToolError, parse_memory, self.TEXT.replace("name m", "name ../m"))


class Faults(unittest.TestCase):
    def test_a_primitive(self) -> None:
        found = read_primitive("<0w1; 1/0/->")
        assert found.aggressor is not None
        self.assertEqual((found.aggressor.state, found.aggressor.operations), (0, ["w1"]))
        self.assertEqual((found.victim.state, found.victim.operations, found.after, found.answer), (1, [], 0, None))
        self.assertEqual(read_primitive("<r1/0/0>").victim.state, 1)
        self.assertEqual(read_primitive("<0w1r1/0/1>").operations, ["w1", "r1"])
        for word in ("<0w1/0>", "0w1/0/-", "<2/0/->", "<w1;/0/->", "<0/0/2>"):
            self.assertRaises(ToolError, read_primitive, word)

    def test_a_place(self) -> None:
        self.assertEqual(place_of("63.05"), (63, 5))
        for word in ("6", "6.", "-1.0", "6.3.1", "1234567890.0"):
            self.assertRaises(ToolError, place_of, word)


class Reports(unittest.TestCase):
    TEXT = (
        "march {any(w0);up(r0)}\nmemory s words 4 bits 1 backgrounds 1 commands 8\ncovered <0/1/-> SF\n"
        "escape <0w1;0/1/-> CFds aggressor 0 victim 1 content 00 directions uu\n"
        "class SF 1 covered 1\nclass CFds 1 covered 0\ntotal 2 covered 1 escapes 1\n"
    )

    def read(self, said: str) -> report.Report:
        with tempfile.TemporaryDirectory() as folder:
            path = pathlib.Path(folder) / "report"
            path.write_text(said)
            return report.read_report(path)

    def test_a_report(self) -> None:
        found = self.read(self.TEXT)
        self.assertEqual(found.memory, {"name": "s", "words": 4, "bits": 1, "backgrounds": 1, "commands": 8})
        self.assertEqual([verdict.covered for verdict in found.verdicts], [True, False])
        self.assertEqual((found.classes, found.total), ({"SF": (1, 1), "CFds": (1, 0)}, (2, 1, 1)))
        self.assertEqual(found.escapes[0].words("m")[1:], ["m", "<0w1;0/1/->", "2", "00", "0", "1", "uu"])

    def test_what_is_no_report(self) -> None:
        for old, new in (
            ("march ", "marsh "),
            ("total 2", "total 3"),
            ("directions uu", "directions u"),
            ("victim 1", "victim 0"),
            ("victim 1", "victim 2"),
            ("aggressor 0", "aggressor none"),
            ("class SF 1 covered 1", "class SF one covered 1"),
            ("class SF 1 covered 1", "class SF 2 covered 1"),
            ("class CFds 1 covered 0", "class CFds 1 covered 1"),
            ("class CFds 1 covered 0\n", ""),
            ("class SF 1", "class TF 1 covered 1\nclass SF 1"),
            ("<0/1/->", "<0/1>"),
        ):
            with self.assertRaises(ToolError, msg=new):
                self.read(self.TEXT.replace(old, new))


class Chips(unittest.TestCase):
    def test_units(self) -> None:
        said = text.statements("chip 1\nname c\nunit 2 a.m b.mem # x\n\tunit 3 c.m  d.mem\n")
        self.assertEqual(chip.units_of(said), [(3, "2", "a.m", "b.mem"), (4, "3", "c.m", "d.mem")])

    def test_groups_and_starts(self) -> None:
        memory = parse_memory("memory 1\nname m\nwords 4\nbits 1\n")
        units = [chip.Unit(weight, "", "", elements_of("{any(w0)}"), memory) for weight in (3, 3, 2)]
        made = chip.Chip("c", 5, units)
        chip.place(made)
        self.assertEqual([unit.group for unit in units], [0, 1, 0])
        self.assertEqual([unit.start for unit in units], [0, 5, 0])
        self.assertEqual(made.done, 11)


class Modules(unittest.TestCase):
    def module(self, body: str, ports: str = "input clk, input [3:0] a, output reg [1:0] b") -> verilog.Module:
        return verilog.Reader(f"// m\nmodule m({ports});\n{body}\nendmodule\n").module()

    def expression(self, said: str) -> verilog.Expression:
        item = self.module(f"wire w; assign w = {said};").items[1]
        assert isinstance(item, verilog.Assign)
        return item.value

    def test_ports_and_names(self) -> None:
        found = self.module("wire [7:0] x, y; reg z;")
        self.assertEqual(
            [(it.kind, it.width, it.token.text) for it in found.ports],
            [("input", 1, "clk"), ("input", 4, "a"), ("reg", 2, "b")],
        )
        told = [(it.kind, it.width, it.token.text) for it in found.items if isinstance(it, verilog.Declared)]
        self.assertEqual(told, [("wire", 8, "x"), ("wire", 8, "y"), ("reg", 1, "z")])

    def test_operators_bind_by_precedence(self) -> None:
        def shape(it: verilog.Expression) -> str:
            inside = " ".join(map(shape, it.operands))
            return f"({it.token.text} {inside})" if inside else it.token.text

        for said, wanted in (
            ("a | b & c ^ d", "(| a (^ (& b c) d))"),
            ("a == b << 2'd1 + c", "(== a (<< b (+ 2'd1 c)))"),
            ("a - b - c", "(- (- a b) c)"),
            ("~a && !b || |c", "(|| (&& (~ a) (! b)) (| c))"),
            ("a ? b : c ? d : e", "(? a b (? c d e))"),
            ("(a | b) & c", "(& (| a b) c)"),
            ("{a, b[1]}", "({ a b)"),
        ):
            self.assertEqual(shape(self.expression(said)), wanted, said)

    def test_literals_and_selected_bits(self) -> None:
        for said, width, value in (("4'hA", 4, 10), ("3'b1_01", 3, 5), ("6'o17", 6, 15), ("8'd200", 8, 200)):
            found = self.expression(said)
            self.assertEqual((found.kind, found.width, found.value), ("literal", width, value))
        self.assertEqual(self.expression("a[3:1]").bits, (3, 1))
        self.assertEqual(self.expression("a[2]").bits, (2, 2))
        self.assertIsNone(self.expression("a").bits)

    def test_statements(self) -> None:
        body = (
            "always @(posedge clk) begin if (a) b <= 2'd1; else case (a) 4'd0, 4'd1: b <= 2'd0; default b <= b;"
            " endcase end"
        )
        always = self.module(body).items[0]
        assert isinstance(always, verilog.Always) and isinstance(always.body, verilog.Block)
        found = always.body.parts[0]
        assert isinstance(found, verilog.If) and isinstance(found.otherwise, verilog.Case)
        self.assertEqual([len(labels) for labels, _ in found.otherwise.arms], [2, 0])

    def test_where_a_text_is_no_module(self) -> None:
        for body, word in (
            ("assign = a;", "="),
            ("wire w", "endmodule"),
            ("assign w = 5;", "5"),
            ("always @(negedge clk);", "negedge"),
        ):
            with self.assertRaises(verilog.Unread, msg=body) as caught:
                self.module(body)
            said = f"// m\nmodule m(input clk, input [3:0] a, output reg [1:0] b);\n{body}\nendmodule\n"
            self.assertEqual(said[caught.exception.at :].split()[0].rstrip(";"), word)
        self.assertRaises(verilog.Unread, verilog.Reader("module m(").module)

    def test_comments_are_no_tokens(self) -> None:
        self.assertEqual(self.expression("a /* b\n; */ & // c\n d").token.text, "&")


class Warnings(unittest.TestCase):
    """What other tools read otherwise in a module that is read."""

    def told(self, value: str, names: str = "input [31:0] n, input [3:0] b") -> list[str]:
        text = f"module m(input clk, {names}, output [3:0] y);\n  assign y = {value};\nendmodule\n"
        return [line.split(": ", 2)[2] for line in otherwise.of_module("m.v", text.encode())[:-1]]

    def test_far_shifts(self) -> None:
        for value in (
            "(b << 32'hffffffff)",
            "(b >> n)",
            "(b << {b, 28'h0})",
            "(b << (b[0] ? n : 32'h0))",
            "(b << 33'h100000000)",
        ):
            self.assertEqual(self.told(value), [otherwise.FAR_SHIFT], value)
        for value in (
            "(b << 32'h7fffffff)",
            "(b >> n[30:0])",
            "(b << {1'h0, n[30:0]})",
            "(b << (n == 32'h0))",
            "(b << b) /* << n */",
        ):
            self.assertEqual(self.told(value), [], value)

    def test_shifts_within_amounts_take_no_time(self) -> None:
        deep = "b"
        for _ in range(60):
            deep = f"(b << {deep})"
        self.assertEqual(self.told(deep), [])

    def test_a_question_mark_behind_a_decimal_literal(self) -> None:
        self.assertEqual(len(self.told("4'd1?b:b")), 1)
        for value in ("4'd1 ?b:b", "(4'd1)?b:b", "b[0]?4'd1:4'd2", "b /* 4'd1?b:b */"):
            self.assertEqual(self.told(value), [], value)


if __name__ == "__main__":
    unittest.main()
