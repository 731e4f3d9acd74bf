"""Calls of the other tools."""
from __future__ import annotations

from typing import List

from tests.integration.call import Call
from tests.integration.files import FILES

FILES.update(
    {
        "sheet.txt": "p0 = a0 ^ a1\np1 = a1 ^ a2 ^ 1 # inverted\np2 = a2\n",
        "same.txt": "p0 = a0\np1 = a0 ^ 1\n",
        "mixed.txt": "p0 = p1\np1 = a1\n",
        "gap.txt": "p0 = a0\np2 = a1\n",
    }
)

TEST = "tools/testbench c.m eight.mem tb"
CHIP_TEST = "tools/testbench two.chip chiptb"
HUGE = "tools/testbench c.m huge.mem long --stream --fault '<0w1/0/->'"
CALLS: List[Call] = [
    Call("tools/summary c.m s.mem scrambled.mem --mhz 50", prints="one after another"),
    Call("tools/summary c.m s.mem --csv", prints="memory,words,bits"),
    Call("dev/foreign", prints="13 controllers, 0 differences"),
    Call("dev/foreign --random 20", prints="20 modules, 0 differences"),
    Call(
        "dev/foreign examples/foreign/not_reset.v c.m examples/foreign/six.mem",
        status=1,
        prints="unknown cycle 2 port wdata\n",
    ),
    Call(
        "dev/foreign examples/foreign/one_hot.v examples/mats_plus.m examples/foreign/four.mem", prints="conforms 43\n"
    ),
    Call("dev/foreign stray.m c.m s.mem", status=14, says="foreign: verilog L1 byte 0\nstray.m:1:1: error: "),
    Call("dev/foreign port.v c.m s.mem", status=14, says="foreign: verilog B2 rdata\n"),
    Call("dev/foreign port.v c.m huge.mem", status=14, says="foreign: verilog B2 rdata\n"),
    Call("dev/foreign token.v c.m s.mem", status=14, says="foreign: verilog L1 byte"),
    Call("dev/foreign loop.v c.m s.mem", status=14, says="foreign: verilog N7 x y\n"),
    Call("dev/foreign c.m", status=2, says="foreign: three files, or none"),
    Call(
        "tools/turn sheet.txt", prints="scramble a0 = p0 ^ p1 ^ p2 ^ 1\nscramble a1 = p1 ^ p2 ^ 1\nscramble a2 = p2\n"
    ),
    Call("tools/turn same.txt", status=2, says="turn: same.txt: row 1 depends"),
    Call("tools/turn mixed.txt", status=2, says="turn: mixed.txt:1: all bits on the right"),
    Call("tools/turn gap.txt", status=2, says="turn: gap.txt: each bit from 0 on needs a row"),
    Call("tools/turn c.m", status=2, says="turn: c.m:1: a line has the form p0 = a0 ^ a1"),
    Call("tools/turn", status=2, says="turn: too few words"),
    Call("dev/pictures x", status=2, says="pictures: too many words"),
    Call("tools/summary c.m", status=2, says="summary: too few words"),
    Call("tools/summary c.m s.mem --mhz 0", status=2, says="summary: --mhz is a positive number"),
    Call("tools/summary c.m range.mem", status=4, says="summary: memory D5 line 3\nrange.mem:3:7: error:"),
    Call("tools/summary c.m s.mem --cells", prints="flip-flops", needs="yosys"),
    Call(TEST, prints="tb/s_tb.v"),
    Call(f"{TEST} --sv", prints="tb/s_tb.sv"),
    Call(f"{TEST} --assert", prints="tb/s_rule.sv"),
    Call(f"{TEST} --fault '<0w1/0/->' --victim 1.0", prints="tb/s_tb.v"),
    Call(
        f"{TEST} --fault '<0w1/1/->' --victim 1.0",
        status=5,
        says="testbench: fault F3 line 1\nPRIM:1:1: error: this is no fault",
    ),
    Call(f"{TEST} --fault TF --victim 1.0", status=5, says="testbench: fault F1"),
    Call(f"{TEST} --fault '<0w1r1/0/0>' --victim 1.0", status=5, says="testbench: fault F4"),
    Call(f"{TEST} --fault '<0w1/0/->' --victim 4.0", status=11, says="testbench: device V2"),
    Call(
        f"{TEST} --fault '<0w1;0/1/->' --victim 1.0 --aggressor 1.1",
        status=11,
        says="testbench: device V2\nVIC: error: aggressor 1.1 and victim 1.0 are in one word",
    ),
    Call(f"{TEST} --fault '<0w1/0/->' --victim 3", status=2, says="testbench: usage"),
    Call(f"{TEST} --fault '<0w1/0/->'", status=2, says="testbench: --fault needs the cell"),
    Call(f"{TEST} --victim 1.0", status=2, says="testbench: --victim and --aggressor"),
    Call(f"{TEST} --content 100", status=2, says="testbench: --content is a hexadecimal word of 8 bits"),
    Call(f"{TEST} --fault", status=2, says="testbench: --fault needs a word after it"),
    Call("tools/testbench wrong.m s.mem tb", status=3, says="testbench: march M8"),
    Call("tools/testbench c.m huge.mem tb", status=12, says="testbench: too long 4587523"),
    Call("tools/testbench c.m huge.mem long --stream", prints="long/s_tb.v"),
    Call(f"{HUGE} --victim 65535.63", prints="long/s_tb.v"),
    Call(f"{HUGE} --victim 65536.0", status=11, says="testbench: a cell of the fault is outside"),
    Call(f"{HUGE} --victim 0.64", status=11, says="testbench: a cell of the fault is outside"),
    Call("tools/testbench c.m s.mem c.m", status=2, says="testbench: 'c.m' is a file, not a folder"),
    Call("tools/schedule two.chip", prints="   1  t            2      1      41     123\ngroups 2 done 123\n"),
    Call("tools/schedule two.chip --svg two.svg", prints="groups 2 done 123"),
    Call("tools/schedule two.chip --svg ./two.chip", status=2, says="schedule: './two.chip' is the chip file itself"),
    Call("tools/schedule -x.chip", status=2, says="schedule: usage\n"),
    Call("tools/schedule", status=2, says="schedule: too few words"),
    Call(f"{CHIP_TEST} --chip", prints="chiptb/both_tb.v"),
    Call("tools/testbench two.chip c.m --chip", status=2, says="testbench: 'c.m' is a file, not a folder"),
    Call(f"{CHIP_TEST} --chip --unit 1 --fault '<0w1/0/->' --victim 1.0", prints="chiptb/both_tb.v"),
    Call(f"{CHIP_TEST} --chip --unit 2 --fault '<0w1/0/->' --victim 1.0", status=2, says="testbench: --unit is 0 to 1"),
    Call(f"{CHIP_TEST} --chip --unit 1", status=2, says="testbench: --unit and --fault need each other"),
    Call(f"{CHIP_TEST} --chip --assert", status=2, says="testbench: --chip takes a chip file and a folder"),
    Call("tools/testbench twins.chip chiptb --chip", prints="chiptb/twins_tb.v\n"),
    Call(CHIP_TEST, status=2, says="testbench: too few words"),
    Call(f"{TEST} --unit 1", status=2, says="testbench: --unit needs --chip"),
    Call(
        "tools/collar latency.mem --macro ram.pins collar",
        prints="collar/s_collar.v",
        says="collar: not tested: ce: whether",
    ),
    Call("tools/collar latency.mem collar", status=2, says="collar: name the file of the pins with --macro"),
    Call("tools/collar eight.mem --macro ram.pins collar", status=2, says="collar: ram.pins: s has latency 1"),
    Call(
        "tools/collar latency.mem --macro bad.pins collar", status=2, says="collar: bad.pins:9: there is no line 'foo'"
    ),
    Call("tools/collar latency.mem --macro few.pins collar", status=2, says="collar: few.pins: no line for rdata"),
    Call("tools/collar field.mem --macro ram.pins collar", status=4, says="collar: memory D4 words"),
    Call("tools/collar latency.mem --macro no.pins collar", status=2, says="collar: no.pins: No such file"),
    Call("tools/plain plain.v free.v --no-simulate", 0, "", "plain: right as Yosys reads it, not", "yosys"),
    Call(
        "tools/plain plain.v free.v", 0, "beside Icarus: equal in ", "plain: right: plain.v is what", "yosys iverilog"
    ),
    Call("tools/plain free.v free.v", status=2, says="plain: 'free.v' is what is read", needs="yosys"),
    Call(
        "tools/plain ram.pins free.v --pins ram.pins", status=2, says="plain: 'ram.pins' is what is read", needs="yosys"
    ),
    Call("tools/plain plain.v latch.v", status=1, says="plain: ", needs="yosys"),
    Call("tools/plain plain.v no.v", status=1, says="plain: yosys refuses it", needs="yosys"),
    Call("tools/plain plain.v missing.v", status=2, says="plain: missing.v: No such file", needs="yosys"),
    Call("tools/plain plain.v", status=2, says="plain: too few words", needs="yosys"),
    Call("tools/formal c.m", status=2, says="formal: name three files or more, or none", needs="yosys"),
    Call("tools/formal no.v c.m s.mem", status=1, says="formal: yosys refuses it", needs="yosys"),
    Call("tools/formal --random x", status=2, says="formal: --random is a number", needs="yosys"),
    Call("tools/formal c.m --resets", status=2, says="formal: name three files or more, or none", needs="yosys"),
    Call("dev/manual", prints=".TH VIDLAKOST 1"),
    Call("dev/manual --completion", prints="complete -o filenames -F _vidlakost vidlakost"),
    Call("dev/manual x", status=2, says="manual: too many words"),
    Call("dev/guide x", status=2, says="guide: too many words"),
    Call("dev/gallery x", status=2, says="gallery: too many words"),
    Call("dev/interop x", status=2, says="interop: too many words"),
    Call("tools/release x", status=2, says="release: too many words"),
    Call("dev/trusted", prints="# The headline, and all that it stands on"),
    Call("dev/trusted --others", prints="# What the other clauses of the top call stand on"),
    Call("dev/trusted bist_app::run compilation", prints="crates/array_sim/specs/Detection.antt"),
    Call("dev/trusted bist_app::run compilation --dot", prints="digraph {"),
    Call("dev/trusted bist_app::walk", status=2, says="trusted: no public call bist_app::walk has clauses"),
    Call(
        "dev/trusted bist_app::run compiled",
        status=2,
        says="trusted: no public call bist_app::run has a clause compiled",
    ),
    Call("dev/trusted a b c", status=2, says="trusted: too many words"),
    Call("dev/unproved", status=2, prints="usage: dev/unproved"),
]
# calls whose reader closes the pipe
PIPED = [
    "tools/explain",
    "tools/replay a.report --run",
    "tools/trace a.report --steps",
    "tools/report a.report --json",
    "dev/manual",
    "dev/trusted bist_app::run",
    "./vidlakost --help",
]
