"""The rows of python3 -m tests.integration for `audit`, and what it needs of files."""
from __future__ import annotations

from typing import List

from tests.integration.call import Call
from vidlakost_tools.program import ROOT
from vidlakost_tools.text import read_text

FOLDER = "examples/foreign/"
PORTS = (
    "input clk, input reset, input rdata, output en, output we, output [1:0] addr, output wdata,\n"
    "  output done, output fail);\n"
)
NAMES = "other_names.v"
# a right controller, in whose words stand shifts that leave nothing: by a constant, and by what only late becomes one
FAR = read_text(ROOT / FOLDER / "styles" / "two_processes.v").replace(
    "wdata = ground;", "wdata = ground ^ (ground << 32'hffffffff) ^ (ground >> (none - 1));"
).replace("  integer i;", "  integer i;\n  wire [31:0] none;\n  nothing part(none);") + (
    "module nothing(output [31:0] none);\n  assign none = 0;\nendmodule\n"
)
FILES = {
    "far.v": FAR,
    "asks.v": "`ifdef YOSYS\nmodule t(input clk);\nendmodule\n`endif\n",
    "escapes.v": "module t(input clk);\n  wire \\x// ; `ifdef YOSYS\n  wire y;\n`endif\nendmodule\n",
    "includes.v": "`include \"inner.vh\"\n",
    "inner.vh": "`ifdef // of no\n YOSYS\nmodule t(input clk);\nendmodule\n`endif\n",
    "no_clear.v": f"module no_clear({PORTS}  assign en = later;\nendmodule\n",
    NAMES: "module other_names(input ck, input rst_n, input q, output cen, output wen, output [1:0] a, output d,\n"
    "  output ready, output error);\n  reg r;\n  always @(posedge ck) r <= q & rst_n;\n"
    "  assign {cen, wen, a, d, ready, error} = {7{r}};\nendmodule\n",
    "twice.pins": "clk ck\nreset ~rst_n\nen ck\n",
    "unsaid.pins": "clk ck\nreset ~rst_n\n",
    "upside.v": f"module upside({PORTS.replace('rdata', '[1:0] rdata').replace('wdata', '[1:0] wdata')}  wire right;\n"
    "  walk inner(clk, reset, rdata, en, right, done, fail, addr, wdata);\n  assign we = !right;\nendmodule\n",
    "word.pins": "clok ck\n",
    "simulated.v": f"module simulated({PORTS}  assign en = $time;\nendmodule\n",
}


ALONE, USUAL = "right as Yosys reads it, not simulated", "conforms, fail is exact"


def rows() -> list[Call]:
    """Each line of the table as a call."""
    found = []
    for line in read_text(ROOT / FOLDER / "styles" / "answers").splitlines():
        if line.startswith("#"):
            continue
        call, _, told = line.partition(" : ")
        status, *words = call.split()
        files = [word if word.startswith("--") else FOLDER + word for word in words]
        line, needs = " ".join(["tools/audit", *files]), "ghdl yosys" if ".vhd" in call else "yosys"
        if status != "0":
            found.append(Call(line, int(status), f"audit: {told}\n", needs=needs))
            continue
        kept = told[len("right: ") :]
        alone = ALONE if kept == USUAL else f"{ALONE}: {kept}"
        found.append(Call(f"{line} --no-simulate", 0, f"audit: {alone}\n", needs=needs))
        by = "one front end (GHDL), simulated" if ".vhd" in call else "simulated by Icarus"
        needs = needs if ".vhd" in call else "yosys iverilog"
        found.append(Call(line, 0, f"audit: {told}, {by}\n", needs=needs))
    return found


WALK = f"{FOLDER}styles/walk.vhd examples/mats_plus.m {FOLDER}four.mem"
PINNED = f"tools/audit {NAMES} c.m s.mem --pins unsaid.pins"
CALLS: List[Call] = [
    Call(
        "tools/audit asks.v c.m s.mem",
        status=1,
        prints="audit: refused",
        says="audit: 'asks.v':1: it asks whether Yosys",
        needs="yosys",
    ),
    Call(
        "tools/audit includes.v c.m s.mem",
        status=1,
        prints="audit: refused",
        says="audit: 'inner.vh':2: it asks whether",
        needs="yosys",
    ),
    Call(
        "tools/audit escapes.v c.m s.mem",
        status=1,
        prints="audit: refused",
        says="audit: 'escapes.v':2: it asks whether",
        needs="yosys",
    ),
    Call("tools/audit latch.v c.m s.mem", status=1, prints="audit: refused", says="audit: ", needs="yosys"),
    Call(
        f"tools/audit far.v examples/mats_plus.m {FOLDER}four.mem",
        prints=f"audit: right: {USUAL}, simulated by Icarus\n",
        needs="yosys iverilog",
    ),
    Call("tools/audit no_clear.v c.m s.mem", status=1, prints="en hangs on later", says="audit: ", needs="yosys"),
    Call(f"tools/audit {NAMES} c.m s.mem", status=1, says="audit: a self-test of s has the ports", needs="yosys"),
    Call("tools/audit simulated.v c.m s.mem", status=1, says="audit: simulated.v:3: $time is a call", needs="yosys"),
    Call(
        f"tools/audit {NAMES} c.m s.mem --pins twice.pins",
        status=2,
        says="audit: twice.pins: two lines name the pin 'ck'",
        needs="yosys",
    ),
    Call(
        f"tools/audit {NAMES} c.m s.mem --pins unsaid.pins",
        status=2,
        says="audit: unsaid.pins: the input q",
        needs="yosys",
    ),
    Call(f"tools/audit {NAMES} c.m s.mem --pins word.pins", status=2, says="audit: word.pins:1: there is no line"),
    Call(f"tools/audit {NAMES} c.m", status=2, says="audit: too few words"),
    Call(f"tools/audit {NAMES} wrong.m s.mem", status=3, says="audit: march M8"),
    Call(f"tools/audit {NAMES} c.m s.mem --vcd c.m", status=2, says="audit: 'c.m' is the march"),
    Call(f"{PINNED} --vcd unsaid.pins", status=2, says="audit: 'unsaid.pins' is what is read"),
    Call(f"{PINNED} --liberty cells.lib --vcd ./cells.lib", status=2, says="audit: './cells.lib' is what is read"),
    Call(f"{PINNED} --vcd run.gtkw", status=2, says="audit: 'run.gtkw' is the name of the save file"),
    Call(
        f"tools/audit upside.v {WALK}",
        status=2,
        says="audit: some sources are Verilog and some VHDL",
        needs="ghdl",
    ),
    Call(
        f"tools/audit upside.v {WALK} --top upside",
        status=1,
        prints="audit: wrong: differs cycle 1 port we",
        needs="ghdl yosys",
    ),
    *rows(),
]
