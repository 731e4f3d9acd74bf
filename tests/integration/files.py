"""The files of the cases."""
from __future__ import annotations

from typing import Dict

from tests.integration import audit, judges


MARCHES = [
    "{any(w0);up(r0,w1);down(r1,w0)}",
    "{any(w0);up(r0,w1);up(r1,w0);down(r0,w1);down(r1,w0);any(r0)}",
    "{any(w0);del;any(r0,w1);del;any(r1)}",
    "{up(w0);up(r0,r0,w0,r0,w1);down(r1,r1,w1,r1,w0);any(r0)}",
    "{any(w1);down(r1,w0,r0);up(r0,w1)}",
]
PORTS = (
    "module b(input clk, input reset, input rdata, output en, output we, output [1:0] addr, output wdata, output done,"
    " output fail);\n"
)
SCRAMBLED = (
    "memory 2\nname s\nwords 8\nbits 4\nlatency 2\npolarity 5\nscramble a0 = p0 ^ p1\nscramble a1 = p2\nscramble a2 ="
    " p1 ^ 1\nbackgrounds 0 a\n"
)
REPORT = (
    "march {any(w0);up(r0,w1);down(r1,w0)}\ncovered <0w1/0/-> TF\nescape <1w0/1/-> TF aggressor none victim 0 content"
    " 00 directions uud\nclass TF 2 covered 1\ntotal 2 covered 1 escapes 1\n"
)
DECODER = (
    "march {any(w0);any(r0,w1);any(r1)}\ncovered none 0\ncovered none 1\ncovered other\n"
    "escape both and x 0 y 1 content 00 directions udu\ncovered both or\n"
    "escape both own x 0 y 1 content 00 directions udu\ntotal 6 covered 4 escapes 2\n"
)
IN_WORD = (
    "march {any(w0);up(r0,w1);any(r1)}\nmemory t words 4 bits 2 backgrounds 2 commands 32\n"
    "escape <0w1;0/1/-> CFds aggressor 0 victim 1 content 00 reading before\napart 1\ntotal 1 covered 0 escapes 1\n"
)
# of each kind one line again and again, since a reader asks for as many as there are; a cell that holds 1 is never
# disturbed
LINKED = "".join(
    [
        "march {any(w0);any(r0)}\n",
        "covered LF1 <0w1/0/-> <0w0/1/->\n" * 11,
        "escape LF1 <0w0/1/-> <1w1/0/-> a none b none v 0 content 100 directions uu\n",
        "covered LF2aa <0w1;0/1/-> <0w1;1/0/->\n" * 240,
        "covered LF2av <0w1;0/1/-> <1w1/0/->\n" * 48,
        "covered LF2va <0w0/1/-> <0w1;1/0/->\n" * 60,
        "covered LF3 <0w1;0/1/-> <0w1;1/0/->\n" * 240,
        "kind LF1 total 12 covered 11 escapes 1\nkind LF2aa total 240 covered 240 escapes 0\n",
        "kind LF2av total 48 covered 48 escapes 0\nkind LF2va total 60 covered 60 escapes 0\n",
        "kind LF3 total 240 covered 240 escapes 0\ndevices total 600 covered 599 escapes 1\n",
        "total 600 covered 599 escapes 1\n",
    ]
)
PINS = "macro ram\nclk ck\nen ~ce\nwe ~wen\naddr a\nwdata d\nrdata q\nregisters out 1\n"
# a lone byte that is no text is one of \udc80 to \udcff
FILES: Dict[str, str] = {
    "c.m": MARCHES[1] + "\n",
    "early.m": "{any(w0);up(r0,",
    "stray.m": "{any(w0); upp(r0)}\n",
    "wrong.m": "{any(w0);\n up(r1)}\n",
    "unwritten.m": "{up(r0,w1)}",
    "none.m": "{}",
    "many.m": "{any(w0)" + ";up(r0)" * 64 + "}",
    "long.m": "{any(" + ",".join(["w0"] * 17) + ")}",
    "bytes.m": "\udcff\udcfe",
    "tf.list": "TF\n",
    "lower.list": "tf\n",
    "old.list": "# stuck\nSAF\n",
    "decoder.list": "TF\nAF\n",
    "linked.list": "LF2aa\n",
    "letters.list": "CFdrd\n",
    "empty.list": "# nothing\n",
    "none.list": "<0w1/1/->\n",
    "parts.list": "<0w1;0r0/1/0>\n",
    "cut.list": "<0w1/0",
    "many.list": "all\n" * 22,
    "dyn.list": "dyn1\n",
    "s.mem": "memory 1\nname s\nwords 4\nbits 1\n",
    "eight.mem": "memory 1\nname s\nwords 4\nbits 8\n",
    "scrambled.mem": SCRAMBLED,
    "old.mem": "memory 1\nname s\nwords 4\nbits 1\nlatency 2\n",
    "range.mem": "memory 1\nname s\nwords 1\nbits 1\n",
    "field.mem": "memory 1\nname s\nbits 1\n",
    "rows.mem": "memory 1\nname s\nwords 8\nbits 1\nscramble a0 = p0\nscramble a1 = p1\nscramble a2 = p0 ^ p1\n",
    "word.mem": "memory 1\nname s\nword 4\n",
    "twice.mem": "memory 1\nname s\nname t\n",
    "power.mem": "memory 1\nname s\nwords 12\nbits 1\nscramble a0 = p0\n",
    "seven.mem": "memory 7\n",
    "solid.mem": "memory 1\nname s\nwords 4\nbits 2\nbackgrounds 1\n",
    "nine.mem": "memory 1\nname s\nwords 4\nbits 2\nbackgrounds 0 1 2 3 0 1 2 3 0\n",
    "huge.mem": "memory 1\nname s\nwords 65536\nbits 64\n",
    "blank.mem": "\n",
    "large.m": " " * 1048577,
    "unknown.v": PORTS + "  assign en = x;\nendmodule\n",
    "wide.v": PORTS + "  assign addr = (2'h1 + 3'h1);\nendmodule\n",
    "token.v": PORTS + "  wir x;\nendmodule\n",
    "drives.v": PORTS + "  reg x;\n  assign x = 1'h0;\nendmodule\n",
    "loop.v": (
        PORTS.replace(";\n", ";\n  wire x;\n  wire y;\n  assign x = (~y);\n  assign y = (~x);\n")
        + "".join(
            f"  assign {name} = {value};\n"
            for name, value in (
                ("en", "x"),
                ("we", "x"),
                ("addr", "2'h0"),
                ("wdata", "x"),
                ("done", "x"),
                ("fail", "x"),
            )
        )
        + "endmodule\n"
    ),
    "port.v": "module b(input clk, input reset, input [3:0] rdata, output en);\n  assign en = reset;\nendmodule\n",
    "t.mem": "memory 1\nname t\nwords 4\nbits 2\n",
    "-x.chip": "chip 1\nname x\nbudget 3\nunit 2 c.m s.mem\n",
    "two.chip": "chip 1\nname both # memories\nbudget 3\nunit 2 c.m s.mem\nunit 2 c.m t.mem\n",
    "great.mem": "memory 1\nname S\nwords 4\nbits 2\n",
    "twins.chip": "chip 1\nname twins\nbudget 3\nunit 2 c.m s.mem\nunit 2 c.m great.mem\n",
    "blank.v": "",
    "operand.v": PORTS + "  assign en = reset reset;\nendmodule\n",
    "operators.v": PORTS + "  assign en = reset" + " | reset" * 257 + ";\nendmodule\n",
    "deep.v": "module m(input a, output y);\n  assign y = a" + " ^ a" * 65 + ";\nendmodule\n",
    "a.report": REPORT,
    "cut.report": REPORT[: -len("total 2 covered 1 escapes 1\n")],
    "count.report": REPORT.replace("escapes 1", "escapes 2"),
    "word.report": REPORT.replace("covered <0w1/0/-> TF\n", "covered <0w1/0/-> TF\nhello\n"),
    "way.report": REPORT.replace("directions uud", "directions uu"),
    "class.report": REPORT.replace("class TF 2", "class TF 1"),
    "kept.report": REPORT,
    "kept.report.m": "{any(w0)}\n",
    "empty.report": "",
    "decoder.report": DECODER,
    "caught.report": DECODER.replace("directions udu", "directions uuu"),
    "place.report": DECODER.replace("x 0 y 1", "x 1 y 1"),
    "order.report": DECODER.replace("covered other\n", "").replace(
        "covered both or\n", "covered both or\ncovered other\n"
    ),
    "sum5.report": DECODER.replace("covered 4 escapes 2", "covered 3 escapes 3"),
    "inside.report": IN_WORD,
    "outside.report": IN_WORD.replace("victim 1", "victim 2"),
    "shown.report": IN_WORD.replace("<0w1;0/1/-> CFds", "<0;0/1/-> CFst"),
    "linked.report": LINKED,
    "linkcount.report": LINKED.replace("\ntotal 600 covered 599", "\ntotal 600 covered 600"),
    "linkonce.report": LINKED.replace("devices total 600", "devices total 455"),
    "linkcell.report": LINKED.replace("v 0 content", "v 3 content"),
    "linkhit.report": LINKED.replace("content 100 directions uu", "content 000 directions uu"),
    "ram.pins": PINS,
    "bad.pins": PINS + "foo x\n",
    "few.pins": "macro ram\nclk ck\n",
    "latency.mem": "memory 2\nname s\nwords 4\nbits 8\nlatency 2\n",
    "free.v": (
        "module t #(parameter N = 2)(input clk, input reset, input [N-1:0] d, output reg [N-1:0] q);\n  always"
        " @(posedge clk or posedge reset)\n    if (reset) q <= 0; else q <= q + d;\nendmodule\n"
    ),
    "latch.v": "module t(input clk, input a, output reg q);\n  always @* if (a) q = clk;\nendmodule\n",
    "no.v": "module t(input clk,, output q);\nendmodule\n",
}
FILES = {**FILES, **audit.FILES, **judges.FILES}
