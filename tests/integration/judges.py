"""The rows of python3 -m tests.integration for sources that can mean two things: a wrong twin, which is told, beside a
right one."""
from __future__ import annotations

import shlex
from typing import Dict, Tuple

from vidlakost_tools.program import ROOT
from vidlakost_tools.text import read_text

STYLES = "examples/foreign/styles/"
RIGHT = read_text(ROOT / STYLES / "two_processes.v")
TEST = "examples/mats_plus.m examples/foreign/four.mem"
# the last line of a yes that no simulator saw by the user's choice, and of one that Icarus saw
EXACT = "audit: right as Yosys reads it, not simulated\n"
SEEN = "audit: right: conforms, fail is exact, simulated by Icarus\n"
FAIL = "  assign fail = wrong & ~reset;\n"


def changed(*pairs: Tuple[str, str], text: str = RIGHT) -> str:
    """A controller with the first of each text replaced by another."""
    for old, new in pairs:
        assert old in text, old
        text = text.replace(old, new, 1)
    return text


def with_rows(first: str, head: str = "unique case (1'b1)", last: str = "default: wdata = ground;") -> str:
    """Whether the word is inverted is told by rows, of which the first holds for these states."""
    rows = f"""{head}
      {first}: wdata = ground;
      state == WRITE_UP: wdata = ~ground;
      {last}
    endcase"""
    return changed(
        ("        wdata = ~ground;\n        next_state = READ_UP;", "        next_state = READ_UP;"),
        ("wdata = ground;", rows),
    )


# what a synthesizer is told by comments
PARALLEL, FULL = "case (1'b1) // synopsys parallel_case", "case (1'b1) /* synthesis full_case */"
ELSE = "state != WRITE_UP && state != FILL: wdata = ground;"
PRIORITY = RIGHT.replace(
    "        if (&word) next_state = READ_UP;",
    "        priority if (&word) next_state = READ_UP; else next_state = FILL;",
)
# the comparison takes one cycle more, and so does the end
PIPELINED = changed(
    ("  reg reading, wrong;", "  reg reading, wrong, differs, ended;"),
    ("      wrong <= 0;\n", "      wrong <= 0;\n      differs <= 0;\n      ended <= 0;\n"),
    (
        "      if (reading) for (i = 0; i < W; i = i + 1) if (rdata[i] != wanted[i]) wrong <= 1;\n",
        "      differs <= reading && rdata != wanted;\n      if (differs) wrong <= 1;\n      ended <= state == END;\n",
    ),
    ("done = ~reset;", "done = ~reset & ended;"),
)


COMPARED = "      if (reading) for (i = 0; i < W; i = i + 1) if (rdata[i] != wanted[i]) wrong <= 1;\n"


def counting(more: str) -> str:
    """How many words were wrong is counted in three bits, while something holds."""
    return changed(
        ("  reg reading, wrong;", "  reg reading;\n  reg [2:0] count;\n  wire wrong = count != 0;"),
        ("      wrong <= 0;\n", "      count <= 0;\n"),
        (COMPARED, f"      if (reading && rdata != wanted{more}) count <= count + 1;\n"),
    )


def compared(condition: str) -> str:
    """A controller whose words differ where a condition holds."""
    return changed((COMPARED, f"      if (reading && ({condition})) wrong <= 1;\n"))


# up to seven, and with more of them from 0 on again
COUNTS, COUNTS_ON = counting(" && count != 7"), counting("")
SIGNED = "$signed(rdata) < $signed(wanted) || {} > {}"


def with_member(index: str) -> str:
    """What a read has to answer is a member of a structure, of which a bit is taken."""
    return changed(
        (
            "  reg reading, wrong;",
            (
                "  typedef struct packed { logic high; logic [1:0] expected; logic low; } kept_t;\n  kept_t kept;\n "
                " reg reading, wrong;"
            ),
        ),
        ("wanted <= state", "kept.expected <= state"),
        (COMPARED, COMPARED.replace("wanted[i]", f"kept.expected[{index}]")),
    )


def in_shell(command: str) -> str:
    return f"bash -c {shlex.quote(command)}"


def netlist(source: str, out: str) -> str:
    """The command that makes gates of a source, whose registers keep their asynchronous reset, and audits them."""
    passes = f"read_verilog {source}; synth -flatten; abc -g NAND,NOR,XOR; opt_clean; write_verilog -noattr {out}"
    return f"yosys -q -p '{passes}' && tools/audit {out} {TEST} --no-simulate"


# a netlist whose cells, some of them registers, are Yosys' own
CELLS = f"yosys -q -p 'read_verilog {STYLES}two_processes.v; synth -flatten; write_verilog -noattr -noexpr cells_own.v'"
CELLS += f" && tools/audit cells_own.v {TEST}"


def for_ice40(source: str, out: str, *options: str) -> str:
    """The command that maps a source to the cells of ice40, and audits the netlist."""
    passes = f"read_verilog {source}; synth_ice40 -flatten; write_verilog -noattr {out}"
    return f"yosys -q -p '{passes}' && tools/audit {out} {TEST} --cells ice40 {' '.join(options)}"


COMPILE = "./vidlakost compile examples/mats_plus.m examples/foreign/four.mem nothing.list own.v own.report"
WRONG_WORD = "./vidlakost compile pairs.m pairs.mem nothing.list pairs.v pairs.report && "
WRONG_WORD += (
    "sed 's/value1 <= (reset/value1 <= (visit/' pairs.v > pairs_wrong.v && tools/formal pairs_wrong.v pairs.m pairs.mem"
)
RAM_CELL = "module ram_cell(input clk, output y);\n  SB_RAM40_4K ram(.RCLK(clk), .RDATA(y));\nendmodule\n"
PINNED = RIGHT + """module pinned(input ck, rst_n, mode, input [1:0] q,
  output cen, wen, output [1:0] a, d, output ready, error, busy);
  wire en, we;
  two_processes inner(~ck, ~rst_n & mode, q, en, we, a, d, ready, error);
  assign {cen, wen, busy} = {~en, ~we, 1'b1};
endmodule
"""
IDLE = f"{STYLES}idle.v {TEST} --pins {STYLES}idle.pins"


def with_kept(*writers: str) -> str:
    """What a read has to answer is kept in a memory of two words."""
    return changed(
        (
            "  reg reading, wrong;",
            "  reg reading, wrong, at;\n  reg [W-1:0] kept [0:1];\n  wire [W-1:0] wanted = kept[at];",
        ),
        ("ground, next_ground, wanted;", "ground, next_ground;"),
        ("      reading <= 0;", "      reading <= 0;\n      at <= 0;"),
        (
            "      if (en && !we) wanted <= state == READ_DOWN ? ~ground : ground;\n",
            "      if (en && !we) at <= ~at;\n",
        ),
        (
            "  always @* begin\n    next_state",
            "".join(f"  always @(posedge clk) {one}\n" for one in writers) + "  always @* begin\n    next_state",
        ),
    )


def with_cells(last: str) -> str:
    """The port `fail` behind two cells of a library, the second of which is this."""
    parts = (
        f"  output fail;\n  wire bad_n;\n  INV one(.A(wrong & ~reset), .Y(bad_n));\n  {last} two(.A(bad_n), .EN(wrong),"
        " .Y(fail));"
    )
    return changed(("  output fail;", parts), (FAIL, "")).replace(
        "INV two(.A(bad_n), .EN(wrong),", "INV two(.A(bad_n),"
    )


PIN = "pin({0}) {{ direction : input; }}"
LIBRARY = f"""library(l) {{
  cell(INV) {{ {PIN.format("A")} pin(Y) {{ direction : output; function : "(!A)"; }} }}
  cell("TBUF") {{ {PIN.format("A")} {PIN.format("EN")}
    pin(Y) {{ direction : output; function : "(!A)"; three_state : "(!EN)"; }} }}
}}
"""
UNUSED = "module unused(output y, input a, e);\n  bufif1 (y, a, e);\nendmodule\n"
WANTED = "kept[~at] <= state == READ_DOWN ? ~ground : ground;"
FILES: Dict[str, str] = {
    "rows_apart.v": with_rows("state == FILL"),
    # in the states 2 and 3 both hold: a simulator takes the first, which is wrong in one of them
    "rows_meet.v": with_rows("state[1] || state == FILL"),
    # the first row comes back to the second's word where both hold
    "rows_of_one_word.v": with_rows("state == READ_UP || state[2] && !state[0]"),
    "comment_apart.v": with_rows("state == FILL", PARALLEL),
    "comment_meet.v": with_rows("state[1] || state == FILL", PARALLEL),
    "priority_rows.v": with_rows("state[1] && state != WRITE_UP || state == FILL", "priority case (1'b1)"),
    "full.v": with_rows("state == FILL", FULL, ELSE),
    # in the state WRITE_DOWN none holds
    "full_not.v": with_rows("state == FILL", FULL, "state[0] || state == 6: wdata = ground;"),
    "full_priority.v": with_rows("state == FILL", "priority case (1'b1)", "state[0] || state == 6: wdata = ground;"),
    "priority_if.v": PRIORITY,
    "three_state.lib": LIBRARY,
    "cells.v": with_cells("INV"),
    "cells_off.v": with_cells("TBUF"),
    "gate_off.v": changed((FAIL, "  bufif1 (fail, wrong & ~reset, wrong);\n")),
    "gate_unused.v": RIGHT + UNUSED,
    "net_off.v": changed((FAIL, "  tri t;\n  assign t = wrong ? ~reset : 1'bz;\n  assign fail = t;\n")),
    "net_on.v": changed((FAIL, "  tri t;\n  assign t = wrong & ~reset;\n  assign fail = t;\n")),
    "kept.v": with_kept(f"if (en && !we) {WANTED}"),
    "kept_by_lanes.v": with_kept(
        *(
            f"if (en && !we) {WANTED}".replace("] <=", f"][{bit}] <=").replace("ground", f"ground[{bit}]")
            for bit in (0, 1)
        )
    ),
    "kept_twice.v": with_kept("if (en && !we) kept[~at] <= ground;", f"if (en && !we && state == READ_DOWN) {WANTED}"),
    "set_twice.v": changed(
        ("  always @* begin\n", "  always @(posedge clk) if (reset) wrong <= 0;\n  always @* begin\n")
    ),
    "list_short.v": changed(("  always @* begin\n", "  always @(state or word or ground) begin\n")),
    "list_whole.v": changed(("  always @* begin\n", "  always @(state or word or ground or reset) begin\n")),
    "read_early.v": changed(
        (
            FAIL,
            (
                "  reg said, now;\n  always @* begin\n    said = now;\n    now = wrong & ~reset;\n  end\n  assign fail"
                " = said;\n"
            ),
        )
    ),
    "read_late.v": changed(
        (
            FAIL,
            (
                "  reg said, now;\n  always @* begin\n    now = wrong & ~reset;\n    said = now;\n  end\n  assign fail"
                " = said;\n"
            ),
        )
    ),
    "delayed.v": changed((FAIL, "  assign #20 fail = wrong & ~reset;\n")),
    "writes.v": changed((FAIL, FAIL + "  always @(posedge clk) $fdisplay(1, wrong);\n")),
    "pipelined.v": PIPELINED,
    "pipelined_twice.v": PIPELINED.replace(
        "assign fail = wrong & ~reset",
        "reg later;\n  always @(posedge clk) later <= wrong & ~reset;\n  assign fail = later & ~reset",
    ),
    "pipelined_forgets.v": PIPELINED.replace("if (differs) wrong <= 1;", "wrong <= differs;"),
    "pinned.v": PINNED,
    "pinned.pins": (
        "clk ~ck\nreset ~rst_n\nrdata q\nen ~cen\nwe ~wen\naddr a\nwdata d\ndone ready\nfail error\ntie mode 1\nopen"
        " busy\n"
    ),
    "unique_if.v": RIGHT.replace(
        "        if (&word) next_state = READ_UP;",
        "        unique if (&word) next_state = READ_UP; else next_state = FILL;",
    ),
    "pairs.m": "{up(w1);up(r1,r1)}\n",
    "pairs.mem": "memory 2\nname m\nwords 2\nbits 4\nlatency 2\n",
    "returns.v": changed(
        (FAIL, "  function said(input x);\n    return x;\n  endfunction\n  assign fail = said(wrong) & ~reset;\n")
    ),
    "says.v": changed(
        (FAIL, "  function said(input x);\n    said = x;\n  endfunction\n  assign fail = said(wrong) & ~reset;\n")
    ),
    "says_not.v": changed(
        (FAIL, "  function said(input x);\n    said = ~x;\n  endfunction\n  assign fail = said(wrong) & ~reset;\n")
    ),
    "keeps.v": changed(
        (FAIL, "  reg said;\n  always_comb if (state != FILL || reset) said = wrong & ~reset;\n  assign fail = said;\n")
    ),
    "keeps_not.v": changed(
        (
            FAIL,
            (
                "  reg said;\n  always_comb begin\n    said = 0;\n    if (!reset) said = wrong;\n  end\n  assign fail ="
                " said;\n"
            ),
        )
    ),
    "turns.v": changed(
        (
            FAIL,
            (
                "  reg said;\n  always @* begin : b\n    integer k;\n    said = 0;\n    if (!reset) for (k = 0; k < 1;"
                " k = k + 1) said = wrong;\n  end\n  assign fail = said;\n"
            ),
        )
    ),
    # the place at which the loop ended is kept where it is not run
    "turns_kept.v": changed(
        (
            FAIL,
            (
                "  reg said;\n  always @* begin : b\n    integer k;\n    said = 0;\n    if (!reset) for (k = 0; k < 1;"
                " k = k + 1) said = wrong;\n    if (k == 0) said = 1;\n  end\n  assign fail = said;\n"
            ),
        )
    ),
    "pulled.v": changed((FAIL, "  tri1 t;\n  assign fail = wrong & ~reset & t;\n")),
    "falls_late.v": changed(
        (
            FAIL,
            (
                "  reg [9:0] since;\n  always @(posedge clk) since <= reset ? 0 : since + 1;\n  assign fail = wrong &"
                " ~reset & since != 1000;\n"
            ),
        )
    ),
    "counts.v": COUNTS,
    "counts_on.v": COUNTS_ON,
    "minus.v": compared("wanted - rdata != 0"),
    "minus_short.v": compared("((wanted - rdata) >> 1) != 0"),
    "signed.v": compared(SIGNED.format("$signed(rdata)", "$signed(wanted)")),
    "signed_half.v": compared(SIGNED.format("rdata", "wanted")),
    "nothing.list": "",
    "member.v": with_member("i"),
    # beyond the member, where Yosys by itself would take a bit of the next one
    "member_beyond.v": with_member("i + 1"),
    "member_written.v": with_member("i").replace(
        "kept.expected <= state", "for (i = 0; i < 2; i = i + 1) kept.expected[i] <= state"
    ),
    "ram_cell.v": RAM_CELL,
    "nothing.v": "module m(input clk);\nendmodule\n",
    "dollar.v": "module \\$paramod$x\\part (input a, output y);\n  assign y = a;\nendmodule\n",
    "unclosed.v": "module m(input clk);" + "(*a" * 8000 + "\n",
}
