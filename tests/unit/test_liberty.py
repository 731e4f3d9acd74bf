"""Memory cells of libraries, port lists of Verilog, and what pins are by their names."""
from __future__ import annotations

import unittest

from vidlakost_tools.collar import pin_names
from vidlakost_tools.collar.liberty import Found, memory_cell
from vidlakost_tools.collar.port_list import Ports, Sum
from vidlakost_tools.collar.vendor import modules_in
from vidlakost_tools.commands.liberty import ports_in
from vidlakost_tools.tool import ToolError

CELL = """library(l) { /* cell(ram) { } */
  type (word) { bit_width : 8; bit_from : 7; bit_to : 0; }
  cell(other) { ff(IQ) { x : "}"; } }
  cell(ram) {
    memory() { type : ram; address_width : 4; word_width : 8; }
    bus(q) { bus_type : word; direction : output; memory_read() { address : a; }
      pin(q[7:0]) { timing() { related_pin : "ck"; timing_type : falling_edge; cell_rise(t) { values("0.1, \\
        0.2"); } } } }
    bus(d) { bus_type : word; direction : input; memory_write() { address : a; clocked_on : ck; } }
    bus(a) { direction : input; bus_type : address;
    }
    type(address) { base_type : array; bit_from : 0; bit_to : 3; }
    pin(ck) { direction : input; clock : true; }
    pin(csb) { direction : input; }
    pin(cen) { direction : input; }
    pin("odd\nmacro evil") { direction : input; }
    pg_pin(vss) { pg_type : primary_ground; }
  } }
"""


class Libraries(unittest.TestCase):
    def test_a_memory_cell(self) -> None:
        address, word, pins = memory_cell("l.lib", CELL, "ram")
        self.assertEqual((address, word), (4, 8))
        lines, left = pin_names.pins("ram", pins)
        told = ["macro ram", "rdata q 8  # changes at the falling edge of ck", "wdata d 8", "addr a 4", "clk ck"]
        self.assertEqual(lines[:6], [*told, "#? en ~csb  # by its name, active low"])
        self.assertEqual((lines[6], left), ("power vss 0", 2))
        self.assertTrue(all(line.startswith("# ") and "\n" not in line for line in lines[7:]))

    def test_supplies(self) -> None:
        """What a supply has is its kind's, or else its name's; where neither says it, both stand in a comment."""
        told = {"pwell": "power vss 0", "nwell": "power vss 1", "internal_power": "power vss 1"}
        for kind, line in {**told, "other": "#? power vss 0"}.items():
            text = CELL.replace("primary_ground", kind)
            lines = pin_names.pins("ram", memory_cell("l.lib", text, "ram")[2])[0]
            self.assertEqual([one.split("  ")[0] for one in lines if "vss" in one], [line], kind)
        text = CELL.replace("pg_pin(vss) { pg_type : primary_ground; }", "pg_pin(bias) { }")
        lines = pin_names.pins("ram", memory_cell("l.lib", text, "ram")[2])[0]
        self.assertIn("# bias, an inout of 1 bits: power bias 1, or power bias 0", lines)

    def test_a_bundle_is_no_pin(self) -> None:
        text = CELL.replace("pin(cen)", "bundle(we) { members(we0, we1); direction : input; } pin(cen)")
        lines, left = pin_names.pins("ram", memory_cell("l.lib", text, "ram")[2])
        self.assertIn("# we, an input of ? bits: tie we WIDTH'h0, or pass we WIDTH", lines)
        self.assertEqual(left, 3)

    def refusal(self, old: str, new: str) -> str:
        """What is said of the library with a part changed."""
        self.assertIn(old, CELL)
        with self.assertRaises(ToolError) as told:
            memory_cell("l.lib", CELL.replace(old, new, 1), "ram")
        return str(told.exception)

    def test_widths_that_contradict_the_buses(self) -> None:
        for width in (3, 5):
            told = self.refusal("address_width : 4", f"address_width : {width}")
            self.assertEqual(told, f"l.lib:5: address_width is {width}, and 'a' on line 10 has 4 bits")
        told = self.refusal("word_width : 8", "word_width : 16")
        self.assertEqual(told, "l.lib:5: word_width is 16, and 'q' on line 6 has 8 bits")
        told = self.refusal("bus_type : word; direction : input", "bus_type : address; direction : input")
        self.assertEqual(told, "l.lib:5: word_width is 8, and 'd' on line 9 has 4 bits")

    def test_what_is_no_ram(self) -> None:
        self.assertEqual(self.refusal("type : ram", "type : rom"), "l.lib:5: the memory is a 'rom', not a ram")

    def test_two_of_one_name(self) -> None:
        more = "cell(other) { ff(IQ)"
        told = self.refusal(more, f"type(word) {{ bit_width : 9; }} {more}")
        self.assertEqual(told, "l.lib:3: the type 'word' has 8 bits by line 2, and 9 here")
        memory_cell("l.lib", CELL.replace(more, f"type(word) {{ bit_width : 8; }} {more}"), "ram")
        self.assertIn("has a bit_width of 8, and bits from 6 to 0", self.refusal("bit_from : 7", "bit_from : 6"))
        self.assertIn("line 14 already has the pin 'csb'", self.refusal("pin(cen)", "pin(csb)"))
        self.assertIn(
            "word_width is 8 by line 5, and 9 here", self.refusal("word_width : 8;", "word_width : 8; word_width : 9;")
        )
        self.assertIn(
            "a second group memory(); the first is on line 5",
            self.refusal("bus(q)", "memory() { type : ram; } bus(q)"),
        )

    def test_an_address_that_is_no_pin(self) -> None:
        told = self.refusal("memory_write() { address : a;", "memory_write() { address : b;")
        self.assertEqual(told, "l.lib:9: the address of 'd' is 'b', which is not a pin")

    def test_names_alone_wait(self) -> None:
        for name in ("me", "mea", "meb", "MEA"):
            pins = memory_cell("l.lib", CELL.replace("pin(cen)", f"pin({name})"), "ram")[2]
            lines, _ = pin_names.pins("ram", pins)
            self.assertFalse([line for line in lines if name in line.split()[1:] and not line.startswith("# ")], lines)
            self.assertIn(f"en {name}", pin_names.pins("ram", pins, {name: "en"})[0])
        pins = memory_cell("l.lib", CELL, "ram")[2]
        self.assertIn("en ~csb", pin_names.pins("ram", pins, {"csb": "~en"})[0])

    def test_what_is_no_library(self) -> None:
        for text in (
            "",
            "library",
            "library(l){",
            'library(l){ x"',
            "library(l){ a b }",
            CELL.replace("memory()", "memories()"),
        ):
            with self.assertRaises(ToolError, msg=text):
                memory_cell("l.lib", text, "ram")
        with self.assertRaises(ToolError):
            memory_cell("l.lib", CELL, "none")
        with self.assertRaises(ToolError):
            memory_cell("l.lib", CELL.replace("cell(other)", "cell(ram)"), "ram")
        with self.assertRaises(ToolError):
            memory_cell("l.lib", CELL.replace("address_width : 4", "address_width : 40"), "ram")
        with self.assertRaises(ToolError):
            memory_cell("l.lib", "library(l){" + "type(a){" * 100, "ram")


class Lists(unittest.TestCase):
    def read(self, text: str, module: str = "m", defined: str = "") -> list[tuple[str, str, int]]:
        return [(pin.name, pin.way, pin.width) for pin in Ports("m.v", text, module, None, defined.split()).ports()]

    def test_the_new_style(self) -> None:
        text = (
            "module m #(parameter int W = 2*(3+1), localparam H = W/2) (input wire [W-1:0] a, b, (* keep *) output reg"
            " q = 1'b0"
        )
        found = [("a", "input", 8), ("b", "input", 8), ("q", "output", 1), ("r", "output", 4)]
        self.assertEqual(self.read(text + ", output [H-1:0] r); endmodule"), found)

    def test_types_behind_commas(self) -> None:
        text = "module m(input a, wire [3:0] b, other.way x, output logic q); always @(*) q = a; endmodule // (* *)"
        found = [("a", "input", 1), ("b", "input", 4)]
        self.assertEqual(self.read(text)[:2], found)
        self.assertEqual(
            [name for name, _, _ in self.read("module n; always @(*) x; endmodule module m(input z); endmodule")], ["z"]
        )

    def test_the_old_style(self) -> None:
        text = (
            "module m(a, q\n`ifdef P\n, v\n`endif\n); parameter A = 3, W = A*2; inout v; input [W-1:0] a; output q;"
            " function f; input z; f = z;"
        )
        found = [("a", "input", 6), ("q", "output", 1)]
        self.assertEqual(sorted(self.read(text + " endfunction endmodule")), found)
        self.assertEqual(
            sorted(self.read(text + " endfunction endmodule", defined="P")), [*found, ("v", "inout", 1)]
        )

    def test_a_module_in_both_branches(self) -> None:
        text = (
            "`ifdef WIDE // `else\nmodule m(input [7:0] a, inout v);\n`else\nmodule m(input [3:0] a);\n`endif\n"
            " wire w; endmodule\n"
        )
        self.assertEqual(self.read(text), [("a", "input", 4)])
        self.assertEqual(self.read(f"`define WIDE\n{text}"), [("a", "input", 8), ("v", "inout", 1)])
        self.assertEqual(self.read(f"`define WIDE\n`undef WIDE\n{text}"), [("a", "input", 4)])

    def test_ports_of_supplies(self) -> None:
        """What is there with supplies alone is one; by its name it has a number, or it is asked for."""
        text = "module m(input a\n`ifdef USE_POWER_PINS\n, inout vccd1, input x\n`endif\n); endmodule"
        found = ports_in("m.v", text, "m", [])
        self.assertEqual([(pin.name, pin.is_supply) for pin in found], [("a", False), ("vccd1", True), ("x", True)])
        lines = pin_names.pins("m", found)[0]
        self.assertIn("#? power vccd1 1  # by its name", lines)
        self.assertIn("# x, an input of 1 bits: power x 1, or power x 0", lines)
        self.assertFalse(ports_in("m.v", text, "m", ["USE_POWER_PINS"])[1].is_supply)

    def test_what_is_not_known(self) -> None:
        self.assertEqual(
            self.read("module m(input [W:0] a, input [9999:0] b); endmodule"), [("a", "input", 0), ("b", "input", 0)]
        )
        for text in ("", "// module m\n", '"module m"', "module m(input a); endmodule module m(input b); endmodule"):
            with self.assertRaises(ToolError, msg=text):
                self.read(text)

    def test_what_a_process_waits_for_is_no_attribute(self) -> None:
        text = "module one(input a, output reg b); always @(*) b = a; endmodule\n"
        self.assertEqual(self.read(text + text.replace("one", "m")), [("a", "input", 1), ("b", "output", 1)])

    def test_what_does_not_end_is_read_once(self) -> None:
        for more in ("(* x ", "/* x "):
            self.assertEqual(self.read("module m(input a); endmodule " + more * 100000), [("a", "input", 1)])
            self.assertEqual(modules_in("module m; endmodule " + "/* x " * 100000), ["m"])

    def test_many_ports_and_a_long_body(self) -> None:
        text = f"module m({', '.join(f'p{one}' for one in range(5000))}); {'wire w; ' * 20000} endmodule"
        self.assertEqual(self.read(text), [])

    def test_what_stops_early(self) -> None:
        for text in ("module m #(parameter A = 1; ", "module m #(", "module m(input [", "module m(a); parameter"):
            with self.assertRaises(ToolError, msg=text):
                self.read(text)

    def test_sums(self) -> None:
        found = [Sum(text.split()).value() for text in ("1 + 2 * 3", "( 8 - 1 ) // 2", "4 // 0", "1 +", ") 1", "2 3")]
        self.assertEqual(found, [7, 3, None, None, None, None])

    def test_modules_outside_of_comments(self) -> None:
        text = (
            '// module a\n/* module b */ module /* */ c; "module d"; endmodule macromodule e; endmodule `define'
            ' module f'
        )
        self.assertEqual(modules_in(text), ["c", "e"])


class Usual(unittest.TestCase):
    def lines(self, *names: str) -> list[str]:
        pins = [
            Found(name, "output" if name.lower()[-1] in "qo" else "input", 4 if len(name) == 1 else 1) for name in names
        ]
        return pin_names.pins("m", pins)[0][1:]

    def test_ports_by_their_names(self) -> None:
        lines = self.lines("A_ADDR", "A_DI", "A_DO", "B_ADDR", "B_DO", "A_CLK", "B_CLK")
        told = [
            "addr A_ADDR",
            "wdata A_DI",
            "rdata A_DO",
            "port addr B_ADDR",
            "port rdata B_DO",
            "clk A_CLK",
            "port clk B_CLK",
        ]
        self.assertEqual([line.split("  #")[0] for line in lines], [f"#? {line}" for line in told])

    def test_an_address_for_each_way(self) -> None:
        lines = self.lines("WADDR", "WDATA", "RADDR", "dout", "WCLK", "RCLK")
        self.assertEqual(lines[0].split("  #")[0], "#? waddr WADDR")
        self.assertIn("#? clock2 RCLK  # by its name", lines)

    def test_names_that_mean_either(self) -> None:
        self.assertIn("en ~CEN where it is active low, or en CEN", self.lines("A", "CEN")[1])

    def told(self, names: str, *given: str) -> list[str]:
        """The lines of pins, each with its width behind a colon, without comments; outputs begin with Q."""
        found = [Found(one.split(":")[0], "output" if one[0] == "Q" else "input") for one in names.split()]
        for pin, one in zip(found, names.split()):
            pin.width = int((one + ":1").split(":")[1])
        confirmed = dict(one.split("=") for one in given)
        lines = pin_names.pins("m", pin_names.joined(found, confirmed), confirmed)[0][1:]
        return [line.split("  #")[0].replace("#? ", "") for line in lines]

    def test_a_letter_is_a_port(self) -> None:
        """B is active low, or the letter of a port where the same name has an A; where only others have one, either."""
        self.assertEqual(self.told("CLK A:3 D:4 Q:4 CEB WEB")[4:], ["en ~CEB", "we ~WEB"])
        two = "CLKA CLKB AA:3 AB:3 DA:4 DB:4 QA:4 QB:4"
        lines = self.told(f"{two} CEA CEB WEA WEB WENA WENB")[8:]
        self.assertEqual(lines[:4], ["en CEA", "port en CEB", "we WEA", "port we WEB"])
        self.assertIn("port we ~WENB where it is active low, or port we WENB", lines[5])
        self.assertEqual(self.told(f"{two} CE_A CE_B")[8:], ["en CE_A", "port en CE_B"])
        asked = "we ~WEB if B means active low; port we ~WEB, or port we WEB if B is a port"
        self.assertIn(asked, self.told(f"{two} CEA CEB WEB")[-1])
        self.assertIn("port we WEB", self.told(f"{two} CEA CEB WEB", "WEB=port we"))

    def test_what_is_told_is_never_dropped(self) -> None:
        pins = "CK CE WE X:3 Y:3 DI:4 Q:4"
        for kind, kinds in (("addr", "'port addr', or raddr and waddr"), ("clk", "'port clk'")):
            why = f"--pin Y={kind}: X is {kind}, too; that of the second port is {kinds}"
            with self.assertRaisesRegex(ToolError, why):
                self.told(pins, f"X={kind}", f"Y={kind}")
        self.assertIn("port addr Y 3", self.told(pins, "X=addr", "Y=port addr"))
        self.assertLess({"waddr X 3", "raddr Y 3", "write WE"}, {*self.told(pins, "X=waddr", "Y=raddr")})
        # what is told goes before what a name says, in whichever order they stand
        lines = self.told("CK A:3 X:3 DI:4 Q:4", "X=addr")
        self.assertIn("addr X 3", lines)
        asked = "# A, an input of 3 bits: addr A 3, or port addr A 3, or raddr A 3, or waddr A 3"
        self.assertIn(asked, lines)

    def test_words_without_the_letter_of_their_address(self) -> None:
        """Which of two addresses a word goes with is asked for, and no address is to be tied."""
        lines = self.told("CLKA CLKB ADA:3 ADB:3 DI:4 QO:4 CEA CEB", "QO=rdata")
        self.assertEqual(lines[:2], ["wdata DI 4", "rdata QO 4"])
        for letter in "AB":
            self.assertIn(f": addr AD{letter} 3, or port addr AD{letter} 3, or raddr AD{letter} 3", "\n".join(lines))
            self.assertIn(f"# CE{letter}, an input of 1 bits: en CE{letter}, or port en CE{letter}", lines)
        self.assertIn("# CLKB, an input of 1 bits: clk CLKB, or port clk CLKB, or clock2 CLKB", lines)
        lines = self.told("CLKA CLKB ADA:3 ADB:3 DI:4 QO:4", "QO=rdata", "ADA=waddr", "ADB=raddr")
        self.assertLess({"waddr ADA 3", "raddr ADB 3", "wdata DI 4", "rdata QO 4"}, {*lines})

    def test_a_width_that_is_not_known(self) -> None:
        """What the call says of such a pin is written, and the description gives its width."""
        self.assertIn("# A, an input of ? bits: tie A WIDTH'h0, or pass A WIDTH", self.told("CK A:0 D:4 Q:4"))
        self.assertIn("addr A", self.told("CK A:0 D:4 Q:4", "A=addr"))
        self.assertIn("# BM, an input of ? bits: tie BM WIDTH'h0, or pass BM WIDTH", self.told("CK BM:0", "BM=mask"))

    def test_a_supply_beside_three_ports(self) -> None:
        lines = self.told("CLKA CLKB AA:3 AB:3 DA:4 QA:4 QB:4 DATA:4 VDD XE", "XE=port en")
        self.assertLess({"power VDD 1", "port en XE"}, {*lines})

    def test_buses_bit_by_bit(self) -> None:
        bits = " ".join(f"{front}{bit}" for front, count in (("A", 3), ("D", 8), ("Q", 8)) for bit in range(count))
        told = ["clk CK", "pins A 0 2", "addr A 3", "pins D 0 7", "wdata D 8", "pins Q 0 7", "rdata Q 8"]
        self.assertEqual(self.told(f"CK {bits}"), told)
        self.assertEqual(self.told(f"CK {bits} BM1 BM2")[7:], ["pins BM 1 2", "mask BM 2"])
        self.assertEqual(self.told("CLK0 CLK1 CLK2")[0], "clk CLK0")
        # two numbers are two ports, unless addresses or longer buses come bit by bit
        self.assertEqual(self.told("ADDR0:3 ADDR1:3 D0 D1 Q0 Q1")[2:4], ["wdata D0", "port wdata D1"])
        two = " ".join(f"{front}_{bit}" for front in ("AA", "AB", "DA", "DB") for bit in (0, 1))
        self.assertEqual(self.told(two)[-2:], ["pins DB_ 0 1", "port wdata DB_ 2"])

    def test_numbers_of_no_bus(self) -> None:
        for names in ("X0 X1 X2", "A0 A1 A3", "A00 A01 A02", "A A0 A1", "A0:2 A1:2 A2:2"):
            self.assertFalse([line for line in self.told(f"CK {names}") if line.startswith("pins")], names)
        self.assertIn("addr X 3", self.told("CK X0 X1 X2", "X=addr"))
        self.assertIn("write A1", self.told("CK A0 A1 A2", "A1=we"))

    def test_an_unknown_bus_is_asked_for(self) -> None:
        line = self.told("A0 A1 WEN0 WEN1 WEN2 WEN3")[-1]
        told = "# WEN0 to WEN3: pins WEN 0 3, and we ~WEN 4 where it is active low, or we WEN 4"
        self.assertEqual(line, told)


if __name__ == "__main__":
    unittest.main()
