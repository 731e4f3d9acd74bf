"""What is said of a module of Verilog that the program refuses: where it breaks which rule of FORMATS, and why."""
from __future__ import annotations

import pathlib
import tempfile
from typing import Mapping

from tests.unit.refused import Row, WithoutProgram
from vidlakost_tools.refusals import verilog
from vidlakost_tools.refusals.finding import Finding

HEAD = "module m(input clk, input [3:0] a, output [3:0] y, output reg q);\n"
MEMORY = "memory 1\nname ram\nwords 16\nbits 8\n"
PORTS = {
    "clk": "input clk",
    "reset": "input reset",
    "rdata": "input [7:0] rdata",
    "en": "output en",
    "we": "output reg we",
    "addr": "output [3:0] addr",
    "wdata": "output [7:0] wdata",
    "done": "output done",
    "fail": "output fail",
}


def module(name: str, text: bytes, code: str, values: Mapping[str, str]) -> Finding:
    return verilog.verilog(name, text, code, values, None)


def inside(body: str) -> str:
    """A module with a marked body, whose ports are those of HEAD."""
    return f"{HEAD}{body}\nendmodule\n"


class Grammar(WithoutProgram):
    def test_texts_that_are_no_module(self) -> None:
        self.agree(
            module,
            [
                Row("module ‸1", "L1 byte 7", "'1' is not allowed here"),
                Row("‸modul m(input clk);", "L1 byte 5", "'modul' is not allowed here; did you mean 'module'?"),
                Row(
                    f"{HEAD}  ‸assigm y = a;",
                    f"L1 byte {len(HEAD) + 7}",
                    "'assigm' is not allowed here; did you mean 'assign'?",
                ),
                Row(" \n", "L2", "the file is empty"),
                Row(f"{HEAD}assign y =‸ \n", "L2", "the module ends here, but is not complete"),
            ],
        )

    def test_limits_of_texts(self) -> None:
        opens = "this opens the 65th of (, {, begin, case and if that are open at once; at most 64 may be open"
        size = "a literal has 1 to 64 bits and a value that they hold, and an index is at most 63"
        start = len(HEAD)
        self.agree(
            module,
            [
                Row(inside(f"assign y = {'(' * 64}‸(a"), f"L3 byte {start + 75}", opens),
                Row(
                    inside(f"assign y = a{' + a' * 256} ‸+ a;"),
                    f"L3 byte {start + 12 + 4 * 256 + 1}",
                    "this is the 257th operator of an expression; it may have at most 256",
                ),
                Row(f"module {'m' * 64}‸m(", "L4 byte 71", "this name goes on for more than 64 bytes"),
                Row(inside("assign y = ‸65'h0;"), f"L5 byte {start + 11}", f"this number is too large: {size}"),
            ],
        )

    def test_no_module_opens_too_much_at_its_first_byte(self) -> None:
        """There `show` speaks of the text that it would print, in full parentheses."""
        self.assertEqual(
            module("FILE", b"module m(input clk);endmodule", "L3", {"byte": "0"}).message,
            "with parentheses round each operator, this module opens more than 64 of (, {, begin, case and if at once",
        )


class Rules(WithoutProgram):
    def test_names(self) -> None:
        self.agree(
            module,
            [
                Row(inside("assign y = a & ‸b;"), "N1 b", "'b' is no port and is not declared above"),
                Row(inside("always @(posedge ‸ck) q <= a[0];"), "N1 ck", "'ck' is no port and is not declared above"),
                Row(inside("wire w;\nreg ‸w;"), "N2 w", "'w' is declared twice"),
                Row(inside("assign y = a;\nassign ‸y = ~a;"), "N2 y", "'y' has an assign already"),
                Row(HEAD.replace("] y", "] ‸y") + "endmodule", "N9 y", "no assign drives 'y'"),
            ],
        )

    def test_widths(self) -> None:
        sides = "one side has {} bits and the other {}, but both have to be equally wide".format
        self.agree(
            module,
            [
                Row(inside("assign ‸y = a[0];"), "N3 4 1", sides(4, 1)),
                Row(inside("assign y = a ‸+ 3'h1;"), "N3 4 3", sides(4, 3)),
                Row(inside("assign y = q ? ‸a : 2'b0;"), "N3 4 2", sides(4, 2)),
                Row(inside("assign y = {a[0], (a ‸^ q)};"), "N3 4 1", sides(4, 1)),
                Row(
                    inside("always @(posedge clk) case (a) 4'h0: q <= 1'b0; ‸3'h1: q <= 1'b1; endcase"),
                    "N3 4 3",
                    sides(4, 3),
                ),
                Row(
                    inside(f"assign y = ‸{{{', '.join(['a'] * 17)}}};"),
                    "N3 64 68",
                    "this concatenation has 68 bits, but may have at most 64",
                ),
            ],
        )

    def test_widths_that_may_differ(self) -> None:
        """The operands of && || << >> and a condition may have any width, so the first unequal sides come behind."""
        free = "assign y = (a && q) ? a << 3'h1 : {2'b00, a[3:2]};\n"
        block = "always @(posedge clk) if (a) q <= a || q; else ‸q <= a;"
        message = "one side has 1 bit and the other 4, but both have to be equally wide"
        self.agree(module, [Row(inside(free + block), "N3 1 4", message)])

    def test_what_is_driven(self) -> None:
        self.agree(
            module,
            [
                Row(
                    inside("always @(posedge clk) q <= 1'b0;\nalways @(posedge clk) begin ‸q <= 1'b1; end"),
                    "N4 q",
                    "'q' is set in an earlier always block",
                ),
                Row(inside("assign ‸a = y;"), "N5 a", "'a' is an input, which no assign can drive"),
                Row(inside("assign ‸q = 1'b0;"), "N5 q", "'q' is a register, which no assign can drive"),
                Row(
                    inside("always @(posedge clk) ‸y <= a;"),
                    "N5 y",
                    "'y' is no register, and only a register is set with <=",
                ),
            ],
        )

    def test_selects(self) -> None:
        self.agree(
            module,
            [
                Row(inside("assign y = {3'h0, ‸a[4]};"), "N6 a", "'a' has the bits 0 to 3, and not 4"),
                Row(inside("assign y = {2'h0, ‸a[1:2]};"), "N6 a", "'a' has the bits 0 to 3, and 2 is above 1"),
                Row(inside("assign y = {3'h0, ‸q[0]};"), "N6 q", "'q' has one bit, so nothing can be selected from it"),
            ],
        )

    def test_loops(self) -> None:
        self.agree(
            module,
            [
                Row(
                    inside("wire v;\nwire w;\nassign ‸v = ~w;\nassign w = v & q;"),
                    "N7 v w",
                    "these wires form a loop: each uses the next",
                    ["v -> w -> v"],
                ),
                Row(inside("assign ‸y = y & a;"), "N7 y", "this wire uses itself", ["y -> y"]),
            ],
        )

    def test_clock(self) -> None:
        wrong = "the clock has to be an input of one bit named 'clk'"
        self.agree(
            module,
            [
                Row(inside("always @(posedge ‸a) q <= 1'b0;"), "N10 a", wrong),
                Row(
                    "module m(input [1:0] ‸clk, output reg q);\nalways @(posedge clk) q <= 1'b0;\nendmodule",
                    "N10 clk",
                    "'clk' can only be an input of one bit",
                ),
                Row(
                    inside("assign y = {a[2:0], ‸clk};"),
                    "N10 clk",
                    "'clk' is the clock, so no expression may use it",
                ),
            ],
        )

    def test_rule_without_a_place_is_told_of_the_whole(self) -> None:
        self.agree(module, [Row(inside("assign y = a;"), "N4 y", "the module breaks rule N4 y")])


class Ports(WithoutProgram):
    def test_ports_of_a_self_test(self) -> None:
        with tempfile.TemporaryDirectory() as name:
            memory = pathlib.Path(name) / "ram.mem"
            memory.write_text(MEMORY)

            def beside(name: str, text: bytes, code: str, values: Mapping[str, str]) -> Finding:
                return verilog.verilog(name, text, code, values, str(memory))

            names = "clk, reset, rdata, en, we, addr, wdata, done and fail"
            self.agree(
                beside,
                [
                    Row(self.ports(done=""), "B2 done", "the port 'done' is missing: an output of 1 bit"),
                    Row(self.ports(rdata=""), "B2 rdata", "the port 'rdata' is missing: an input of 8 bits"),
                    Row(
                        self.ports(we="input ‸we"),
                        "B2 we",
                        "'we' is an input here, but an output of the self-test of ram",
                    ),
                    Row(
                        self.ports(reset="output reg ‸reset"),
                        "B2 reset",
                        "'reset' is an output here, but an input of the self-test of ram",
                    ),
                    Row(
                        self.ports(addr="output [4:0] ‸addr"),
                        "B2 addr",
                        "'addr' has 5 bits here, but 4 bits in the self-test of ram",
                    ),
                    Row(
                        self.ports(fail="output fail, input ‸scan"),
                        "B2 scan",
                        "the self-test of ram has no port 'scan'",
                        [f"its ports are {names}"],
                    ),
                ],
            )

    def ports(self, **changed: str) -> str:
        """A module that has the ports of the memory's self-test, but for some."""
        return f"module m({', '.join(filter(None, {**PORTS, **changed}.values()))});\nendmodule\n"
