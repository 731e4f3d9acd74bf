"""Calls of the tools that join macros, and their files."""
from __future__ import annotations

from typing import List

from tests.integration.call import Call
from tests.integration.files import FILES
from vidlakost_tools.files import summed

LIBRARY = """library(few) {
  type(word) { bit_width : 4; } type(place) { bit_width : 3; }
  cell(RAM8X4) { memory() { type : ram; address_width : 3; word_width : 4; }
    pin(CLK) { direction : input; clock : true; } pin(CSB) { direction : input; } pin(WEB) { direction : input; }
    bus(A) { bus_type : place; direction : input; } pin(sleep) { direction : input; }
    bus(D) { bus_type : word; direction : input; memory_write() { address : A; clocked_on : CLK; } }
    bus(Q) { bus_type : word; direction : output; memory_read() { address : A; }
      timing() { related_pin : CLK; timing_type : falling_edge; } } } }
"""
PLAIN = "macro {}\nclk ck\nen ce\nwe we\naddr a\nwdata d\nrdata q\n"
HALF = "memory 1\nname {}\nwords 4\nbits 4\n"
PAIR = "chip 1\nname apart\nbudget {}\n{}unit 3 c.m lo.mem\nunit 3 c.m hi.mem\n"
FILES.update(
    {
        "lo.mem": HALF.format("lo"),
        "hi.mem": HALF.format("hi"),
        "LO.mem": HALF.format("LO"),
        "s.pins": PLAIN.format("ram4x1"),
        "t.pins": PLAIN.format("ram4x2"),
        "lo.pins": PLAIN.format("both") + "low lo\nhigh hi\n",
        "apart.chip": PAIR.format(7, "unit 4 c.m s.mem\n"),
        "never.chip": PAIR.format(4, ""),
        "twice.list": "list 1\nname all\nbudget 10\nunit 3 c.m lo.mem instances 2\nunit 3 c.m hi.mem instances 2\n",
        "light.list": "list 1\nname all\nbudget 5\nunit 3 c.m lo.mem\nunit 3 c.m hi.mem\n",
        "logic.chip": "chip 1\nname logic\nbudget 3\nunit 2 c.m s.mem\n",
        "case.list": "list 1\nname all\nbudget 9\nunit 2 c.m lo.mem\nunit 2 c.m LO.mem\n",
        "head.list": "name all\nlist 1\n",
        "line.list": "list 1\nname all\nbudget 3\nunits 1\n",
        "crowd.list": "list 1\nname all\nbudget 3\nunit 1 c.m s.mem instances 1025\n",
        "crowds.list": "list 1\nname all\nbudget 3\nunit 1 c.m s.mem instances 1000\nunit 1 c.m t.mem instances 25\n",
        "none.list1": "list 1\nname all\nbudget 3\nunit 1 c.m s.mem instances 0\n",
        "again.list": "list 1\nname all\nbudget 3\nunit 1 c.m s.mem\nunit 1 c.m s.mem instances 2\n",
        "heavy.list": "list 1\nname all\nbudget 3\nunit 4 c.m s.mem\n",
        "path.list": "list 1\nname ../all\nbudget 3\nunit 1 c.m s.mem\n",
        "two.list1": "list 1\nname all\nbudget 3\nname all\nunit 1 c.m s.mem\n",
        "clash.pins": PLAIN.format("s_bist"),
        "hidden.v": (
            '// module ram4x1\n/* module ram4x1 */ module other; initial $display("module ram4x1 "); endmodule\n'
        ),
        "part.v": "module ram4x1_part; endmodule\n",
        "shown.v": "module /* a */ ram4x1(input ck, ce, we, input [1:0] a, input d, output q); endmodule\n",
        "mine/s_collar.v": "module mine; endmodule\n",
        "mine/Makefile": "all:\n\techo mine\n",
        "listed/files.f": summed("// made by vidlakost collar\nt_collar_tb.sv\n"),
        "odd;name.chip": "chip 1\nname both\nbudget 3\nunit 2 c.m s.mem\nunit 2 c.m t.mem\n",
        "chip.chip": "chip 1\nname both\nbudget 3\nunit 2 c.m chip.mem\n",
        "chip.mem": HALF.format("chip"),
        "cash.mem": HALF.format("a$b"),
        "chip.pins": PLAIN.format("ram4x4"),
        "weak.m": "{any(w0);any(r0)}\n",
        "weak.chip": "chip 1\nname weak\nbudget 3\nunit 2 weak.m s.mem\n",
        "mine/p_hold.v": "module mine; endmodule\n",
        "hold.m": "{any(w0);del;any(r0,w1);del;del;any(r1)}\n",
        "paired.m": "{any(w0);del;del;any(r0)}\n",
        "blind.m": "{any(w0);del;any(w1);any(r1)}\n",
        "pause.mem": "memory 2\nname p\nwords 5\nbits 3\npause 4\n",
        "mine/both_system.v": "module mine; endmodule\n",
        "few.lib": LIBRARY,
        "unsure.pins": "macro ram\nclk ck\n  #? en ~ce  # by its name, active low\nwe w\naddr a\nwdata d\nrdata q\n",
        "evil.lib": LIBRARY.replace("pin(sleep)", 'pin("x\nmacro evil")'),
        "cut.lib": LIBRARY[:200],
        "down.lib": LIBRARY.replace("clocked_on : CLK", 'clocked_on : "!CLK"').replace("falling_edge", "rising_edge"),
        "ways.v": (
            "module ways(input WCLK, RCLK, WE, RE, input [1:0] WA, RA, input D, output reg Q); reg m [0:3];\n"
            "always @(posedge WCLK) if (WE) m[WA] <= D;\nalways @(posedge RCLK) if (RE) Q <= m[RA];\nendmodule\n"
        ),
        "ways.pins": (
            "macro ways\nclk WCLK\nwrite WE\nread RE\nwaddr WA\nraddr RA\nwdata D\nrdata Q\nclock2 RCLK\n"
        ),
        "bits.v": (
            "`ifdef BITS\nmodule bits(input CK, CE, WE, A0, A1, D0, D1, output Q0, Q1); endmodule\n"
            "`elsif NONE\nmodule bits; endmodule\n`endif\n"
        ),
        "header.v": (
            "// module ram8x4\nmodule ram8x4(input clk, csb, web, input [2:0] addr, input [3:0] din, output [3:0]"
            " dout); endmodule\n"
        ),
    }
)
TOP = "tools/top two.chip s.pins t.pins"
WAYS = "tools/collar s.mem --macro ways.pins --clock-mux CK:S:A:B:Z"
LEFT = "tools/collar examples/joins/left.mem --macro examples/joins/left.pins"
COLLAR = "tools/collar s.mem --macro s.pins"
CALLS: List[Call] = [
    Call(f"{TOP} whole", prints="whole/both_system.v\n", says="top: not tested: s.ce, t.ce: whether it is ever off\n"),
    Call(f"{TOP} whole --plan", prints="  1  t     0     1      1     41   123\n"),
    Call(f"{TOP} mine", status=2, says="top: mine/both_system.v is there and was not written by vidlakost"),
    Call(f"{TOP} examples t.pins", status=2, says="top: examples: Is a directory"),
    Call("tools/top two.chip none", status=2, says="top: no file lists the pins of s, t"),
    Call("tools/top two.chip s.pins s.pins none", status=2, says="top: s.pins: s.pins lists the pins of s, too"),
    Call(
        "tools/top two.chip lo.pins none", status=2, says="top: lo.pins: there is no memory lo; the memories are s, t"
    ),
    Call("tools/top two.chip c.m none", status=2, says="top: c.m: name a file of pins after its memory"),
    Call(f"{TOP} whole --model shown.v", prints="whole/files.f", says="top: not tested: s.ce, t.ce"),
    Call("tools/top two.chip clash.pins none", status=2, says="top: clash.pins: there is no memory clash"),
    Call(
        "tools/top apart.chip lo.pins s.pins none",
        status=2,
        says="top: apart.chip: lo and hi are parts of one word, but",
    ),
    Call(
        "tools/top never.chip lo.pins none",
        status=2,
        says="top: never.chip: lo and hi are parts of one word, but are in two",
    ),
    Call("tools/top twice.list lo.pins twice --plan", prints="  3  hi_1     1     1      0    122   244\n"),
    Call("tools/top light.list lo.pins none", status=2, says="top: lo and hi together weigh more than the budget"),
    Call(
        "tools/top logic.chip s.pins none",
        status=2,
        says="top: logic.chip: the name 'logic' is a reserved word of SystemVerilog",
    ),
    Call("tools/top case.list lo.pins none", status=2, says="top: case.list: two memories would have the name lo if"),
    Call("tools/top head.list s.pins none", status=2, says="top: head.list:1: a list begins with 'list 1'"),
    Call("tools/top line.list s.pins none", status=2, says="top: line.list:4: there is no line 'units' here"),
    Call("tools/top crowd.list s.pins none", status=2, says="top: crowd.list:4: there are at most 1024 units"),
    Call(
        "tools/top crowds.list s.pins none",
        status=2,
        says="top: crowds.list: there are at most 1024 units, and these are 1025",
    ),
    Call("tools/top none.list1 s.pins none", status=2, says="top: none.list1:4: instances is a number of at least 1"),
    Call("tools/top again.list s.pins none", status=2, says="top: again.list:5: line 4 has the memory s, too"),
    Call("tools/top heavy.list s.pins none", status=2, says="top: heavy.list: s weighs more than the budget"),
    Call("tools/top path.list s.pins none", status=2, says="top: path.list: no module can have the name '../all'"),
    Call("tools/top two.list1 s.pins none", status=2, says="top: two.list1:4: write the line name NAME once"),
    Call(f"{COLLAR} mine", status=2, says="collar: mine/s_collar.v is there and was not written by vidlakost"),
    Call(
        f"{COLLAR} listed",
        status=2,
        says="collar: listed/files.f is the list of 't_collar_tb.sv', so nothing is written",
    ),
    Call(f"{COLLAR} vendor --model hidden.v", status=2, says="collar: s.pins:1: there is no module ram4x1 in /"),
    Call(f"{COLLAR} vendor --model 'no such.v'", status=2, says="collar: --model: 'no such.v' is not a file"),
    Call(f"{COLLAR} vendor --model shown.v", prints="vendor/files.f", says="collar: not tested: ce: whether"),
    Call(f"{COLLAR} vendor --model shown.v --model part.v", prints="vendor/files.f", says="collar: not tested: ce"),
    Call(f"{COLLAR} vendor --model part.v", status=2, says="collar: s.pins:1: there is no module ram4x1 in /"),
    Call(f"{COLLAR} open --open", prints="open/s_collar.v\nopen/ram4x1.v\n", says="collar: not tested: ce: whether"),
    Call(f"{COLLAR} open --open --through apb", status=2, says="collar: use --open or --through, not both"),
    Call(
        "tools/collar s.mem --macro clash.pins none",
        status=2,
        says="collar: clash.pins:1: 's_bist' is a module beside the macro",
    ),
    Call(
        "tools/liberty few.lib RAM8X4 cells",
        prints="cells/ram8x4.pins\n",
        says="liberty: Q changes at the falling edge",
    ),
    Call("tools/liberty evil.lib RAM8X4 cells --name evil", prints="cells/evil.pins", says="liberty: Q changes"),
    Call(
        "tools/liberty down.lib RAM8X4 down",
        prints="down/ram8x4.pins\n",
        says="liberty: D are sampled at the falling edge",
    ),
    Call("tools/liberty cut.lib RAM8X4 cells", status=2, says="liberty: cut.lib:4: the text stops early"),
    Call("tools/liberty few.lib RAM cells", status=2, says="liberty: few.lib: there is no cell 'RAM'"),
    Call("tools/liberty few.lib ../RAM8X4 cells", status=2, says="liberty: '../ram8x4' is no name for a memory"),
    Call("tools/liberty few.lib RAM8X4 mine --name mine", prints="mine/mine.mem", says="liberty: Q"),
    Call("tools/liberty --verilog header.v ram8x4 header", prints="header/ram8x4.mem", says="liberty: 6 of"),
    Call(
        "tools/liberty --verilog hidden.v ram4x1 header", status=2, says="liberty: hidden.v: there is no module ram4x1"
    ),
    Call("tools/liberty --verilog latin.mem a header", status=2, says="liberty: latin.mem: there is no module a"),
    Call("tools/liberty few.lib RAM8X4 sure --pin 'CSB=~en' --pin 'WEB=~we'", prints="sure/", says="liberty: Q"),
    Call("tools/liberty few.lib RAM8X4 cells --pin CSB=no", status=2, says="liberty: --pin is PIN=KIND, with"),
    Call("tools/liberty few.lib RAM8X4 cells --pin A=port", status=2, says="liberty: --pin is PIN=KIND, with"),
    Call("tools/liberty few.lib RAM8X4 cells --pin 'A=port clk'", status=2, says="liberty: --pin 'A=port clk': the"),
    Call("tools/liberty few.lib RAM8X4 cells --define X", status=2, says="liberty: --define needs --verilog"),
    Call("tools/liberty --verilog bits.v bits bits", status=2, says="liberty: bits.v: a define brings the module bits"),
    Call(
        "tools/liberty --verilog bits.v bits bits --define BITS",
        prints="bits/bits.pins",
        says="liberty: 6 of 6 pins are guessed",
    ),
    Call(
        "tools/liberty --verilog bits.v bits bits --define BITS --pin CK=clk --pin CE=clk",
        status=2,
        says="liberty: --pin CE=clk: CK is clk, too; that of the second port is 'port clk'",
    ),
    Call("tools/liberty few.lib RAM8X4 cells --pin X=en", status=2, says="liberty: --pin 'X=en': there is no such pin"),
    Call("tools/liberty few.lib RAM8X4 cells --pin Q=en", status=2, says="liberty: --pin 'Q=en': Q is an output"),
    Call(
        "tools/liberty few.lib RAM8X4 cells --pin A=wdata", status=2, says="liberty: --pin 'A=wdata': the library says"
    ),
    Call(
        "tools/collar s.mem --macro unsure.pins unsure", status=2, says="collar: unsure.pins:3: this stands on the name"
    ),
    Call("tools/liberty s.mem a header", status=2, says="liberty: s.mem:1: 'library' is missing"),
    Call("tools/hold hold.m pause.mem holds", prints="holds/p_hold.v\nholds/p_hold.md\nholds/p_hold_tb.sv\n"),
    Call("tools/hold hold.m s.mem holds", prints="holds/s_hold.v", says="hold: a pause has 1 cycle, so the clock"),
    Call("tools/hold blind.m pause.mem holds", prints="holds/p_hold.v", says="hold: no read follows a pause"),
    Call("tools/hold c.m pause.mem holds", status=2, says="hold: c.m: the march has no pause"),
    Call(
        "tools/hold hold.m pause.mem mine",
        status=2,
        says="hold: mine/p_hold.v is there and was not written by vidlakost",
    ),
    Call("tools/flow two.chip flow", prints="flow/Makefile\nflow/sta.known\nflow/faults.list\n"),
    Call("tools/flow two.chip s.pins t.pins flow --list tf.list", prints="flow/Makefile\n"),
    Call(
        "tools/flow two.chip s.pins t.pins mine", status=2, says="flow: mine/Makefile is there and was not written by"
    ),
    Call("tools/flow apart.chip flow", status=2, says="flow: apart.chip: lo and hi are parts of one word"),
    Call("tools/flow case.list flow", status=2, says="flow: case.list: two memories would have the name lo"),
    Call(
        "tools/flow examples/chip/soc.chip flow",
        status=2,
        says="flow: the folder of the description of buffer has no file buffer.pins",
    ),
    Call(
        "tools/flow two.chip s.pins t.pins 'a b'",
        status=2,
        says="flow: 'a b': a file name in the makefile has only letters",
    ),
    Call(
        "tools/flow two.chip s.pins t.pins '$(touch harm)'",
        status=2,
        says="flow: '$(touch harm)': a file name in the makefile has only letters",
    ),
    Call(
        "tools/flow 'odd;name.chip' s.pins t.pins flow",
        status=2,
        says="flow: 'odd;name.chip': a file name in the makefile has only letters",
    ),
    Call(
        "tools/flow two.chip s.pins t.pins flow --list 'a`b.list'",
        status=2,
        says="flow: 'a`b.list': a file name in the makefile has only letters",
    ),
    Call("tools/flow chip.chip chip.pins flow", status=2, says="flow: a memory named chip would have the folder"),
    Call(
        f"{WAYS} ways",
        prints="ways/CK.v\n",
        says="collar: not tested: WE, RE: whether it is ever off; RCLK: a further clock, which the model ignores\n",
    ),
    Call(f"{WAYS} theirs --model ways.v", says="collar: not tested: WE, RE: whether it is ever off\n"),
    Call(
        f"{LEFT} mux",
        prints="mux/left_collar.v\n",
        says="collar: `? :` chooses the clock of clkb, clkc: name a cell by --clock-mux",
    ),
    Call(f"{LEFT} mux2 --clock-mux CK:S:A:B:Z", prints="mux2/CK.v\n", says="collar: not tested"),
    Call(
        f"{LEFT} mux3 --clock-mux CK:S:A:B",
        status=2,
        says="collar: --clock-mux is CELL:SELECT:CHIP:TEST:OUT, five names",
    ),
    Call(
        f"{LEFT} mux3 --clock-mux wire:S:A:B:Z",
        status=2,
        says="collar: --clock-mux is CELL:SELECT:CHIP:TEST:OUT, five names",
    ),
    Call(
        f"{LEFT} mux3 --clock-mux left_bist:S:A:B:Z",
        status=2,
        says="collar: examples/joins/left.pins: 'left_bist' is a module",
    ),
    Call("tools/flow examples/joins/joins.chip flow2 --clock-mux CK:S", status=2, says="flow: --clock-mux is CELL"),
    Call(
        "tools/collar cash.mem --macro s.pins none", status=2, says="collar: s.pins: the memory a$b has a $ in its name"
    ),
    Call("tools/collar lo.mem hi.mem --macro s.pins none", status=2, says="collar: s.pins: two memories make one word"),
]
