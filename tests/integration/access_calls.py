"""Calls of the tools that start a test from outside and tell what it found."""
from __future__ import annotations

from typing import List

from tests.integration.access import CAMERA, JOINS, PINS, PLACED, PLACES
from tests.integration.call import Call

READ_AT = "tools/locate c.m s.mem 6"
JOINED_PINS, PLACED_PINS = " ".join(PINS), " ".join(PLACED)
OF_PLACES = f"tools/locate {CAMERA} {PLACED_PINS} --in-place"
WHOLE = f"tools/locate {JOINS} {JOINED_PINS} --whole"
CALLS: List[Call] = [
    Call(f"{READ_AT} 0 1", prints="bits 0\n"),
    Call(f"{READ_AT} 0 0", status=2, says="locate: 0 is both expected and returned, so this read is not wrong"),
    Call(f"{READ_AT} 0 1 --mux 3", status=2, says="locate: --mux 3 does not divide the 4 words of s"),
    Call(
        "tools/locate c.m s.mem --line 'unknown cycle 5 port bogus'",
        status=2,
        says="locate: 'unknown cycle 5 port bogus'",
    ),
    Call(
        "tools/locate c.m s.mem --line 'differs cycle 5 port we'",
        status=2,
        says="locate: 'differs cycle 5 port we' is no",
    ),
    Call(
        "tools/locate c.m s.mem --line 'unknown cycle 5 port we more'",
        status=2,
        says="locate: 'unknown cycle 5 port we more'",
    ),
    Call(
        "tools/locate c.m s.mem --line 'differs cycle 5 port we expected 0 got no'",
        status=2,
        says="locate: 'differs cycle 5",
    ),
    Call(
        "tools/locate c.m s.mem --line 'differs cycle 5 port we expected 0 got 0'",
        status=2,
        says="locate: the line expects 0",
    ),
    Call("tools/locate c.m s.mem --line 'unknown cycle 5 port we'", prints="operation 0 r0"),
    Call("tools/locate pair.chip --chip --tdr 3", status=2, says="locate: the register has 13 hexadecimal digits"),
    Call(
        "tools/locate pair.chip --chip --tdr 00000000000003",
        status=2,
        says="locate: the register has 13 hexadecimal digits",
    ),
    Call("tools/bitmap made.log access.m late.mem", prints="cell: 1 cell in 1 read"),
    Call("tools/bitmap made.log access.m turned.mem", status=2, says="bitmap: in cycle 13 the expected word is 15"),
    Call("tools/bitmap old.log access.m late.mem", status=2, says="bitmap: old.log:1: an entry is 'cycle C expected X"),
    Call("tools/diagnosis made.log access.m late.mem", prints="CFds at index"),
    Call(
        "tools/diagnosis made.log access.m turned.mem", status=2, says="diagnosis: in cycle 13 the expected word is 15"
    ),
    Call("tools/diagnosis none.log access.m late.mem", status=2, says="diagnosis: none.log: no line has"),
    Call("tools/diagnosis made.log access.m late.mem --mux 3", status=2, says="diagnosis: --mux 3 does not divide"),
    Call("tools/diagnosis made.log pair.chip", status=2, says="diagnosis: give a log, a march and a memory"),
    Call("tools/access late.mem acc --apb --jtag --march access.m", prints="acc/late_tap.v"),
    Call("tools/access pair.chip acc2 --apb --log 4", prints="acc2/late_log.v"),
    Call(
        "tools/access odd.mem acc3 --jtag --march access.m",
        prints="acc3/odd$.svf",
        says="access: odd$ is no name in BSDL",
    ),
    Call("tools/access late.mem acc --jtag", status=2, says="access: for one memory --jtag needs --march MARCH"),
    Call("tools/access pair.chip acc2 --march access.m", status=2, says="access: --march is for one memory"),
    Call("tools/access cross.chip acc4", status=2, says="access: 'cross' is a reserved word of SystemVerilog"),
    Call(f"tools/access {JOINS} examples/joins/masked.pins acc5", status=2, says="access: no file lists the pins of"),
    Call(
        f"tools/access {JOINS} {JOINED_PINS} acc5",
        status=2,
        says="access: acc5 lacks joins_system.v or files.f: give the folder that",
    ),
    Call("tools/access examples/joins/many.list acc5", status=2, says="access: a list needs the files of pins"),
    Call(
        f"tools/top {CAMERA} {PLACED_PINS} placed1 --in-place",
        prints="placed1/camera_access.v",
        says="top: `? :` chooses the clock",
    ),
    Call(
        f"tools/top {CAMERA} {PLACED_PINS} placed1 --in-place --access",
        status=2,
        says="top: --access needs the module that joins",
    ),
    Call(f"tools/access {CAMERA} {PLACED_PINS} placed2 --in-place --apb", prints="placed2/camera_apb.v"),
    Call(
        f"tools/access {CAMERA} {PLACED_PINS} placed2 --in-place --each",
        status=2,
        says="access: --in-place keeps the first failure of",
    ),
    Call(f"tools/access {CAMERA} placed2 --in-place", status=2, says="access: a list needs the files of pins"),
    Call(
        f"tools/places {PLACES} {CAMERA} {PLACED_PINS} placed3",
        status=2,
        says="places: placed3 has no camera_access.v in its files.f",
    ),
    Call(
        f"tools/places access.m {CAMERA} {PLACED_PINS} placed3",
        status=2,
        says="places: access.m:1: this text begins with 'places 1'",
    ),
    Call(f"tools/places {PLACES} {CAMERA}", status=2, says="places: "),
    Call(
        f"tools/places placed.places {CAMERA} {PLACED_PINS} placed3",
        status=2,
        says="places: placed.places: place of camera has 5 bits, and it has to have 1",
    ),
    Call(
        "tools/sdc examples/joins/many.list acc5 --mhz 50", status=2, says="sdc: a list needs the files of pins"
    ),
    Call(f"tools/sdc {JOINS} {JOINED_PINS} acc5 --mhz 50 --jtag", prints="acc5/joins_test.sdc"),
    Call(f"tools/schedule {JOINS} {JOINED_PINS}", prints="cycles 430 to 492: the lanes of masked\n"),
    Call(f"tools/schedule examples/joins/many.list {JOINED_PINS}", prints=" by the second port\ndone "),
    Call(
        f"tools/schedule {JOINS} {JOINED_PINS} --svg x.svg",
        status=2,
        says="schedule: --svg draws a chip file without pins",
    ),
    Call(f"{WHOLE} 88 00100000 00 02", prints="memory high, cycle 7 of its test\n"),
    Call(f"{WHOLE} 434 00000001", prints="lanes of masked, command 2 of lane 0, address 0\n"),
    Call(f"{WHOLE} 964 00001000", prints="lanes of both by the second port, command 2 of lane 0, address 0\n"),
    Call(f"{WHOLE} 557 00000010 f 0", prints="memory left by the second port, cycle 26 of its test\n"),
    Call(
        f"{WHOLE} 434 00000010", status=2, says="locate: cycle 434 tries the lanes of another memory, not those of left"
    ),
    Call(
        f"{WHOLE} 1011 00000010",
        status=2,
        says="locate: cycle 1011 is in no step of the test, which has the cycles 1 to 1010",
    ),
    Call(
        f"{WHOLE} 88 00100001", status=2, says="locate: masked, high fail: which of them does the cycle belong to? Set"
    ),
    Call(
        f"{WHOLE} --tdr 00105020000000058f",
        prints="cycle 88 expected 00 returned 02\nmemory high, cycle 7 of its test\n",
    ),
    Call(f"{OF_PLACES} --tdr 7c0810000000000bf", prints="memory late_0, cycle 11 of its test\n"),
    Call(f"{OF_PLACES} --tdr 6e43800000000007f", prints="memory high, cycle 7 of its test\n"),
    Call(f"{OF_PLACES} --tdr 6e43800000000007f", prints="bits 4\ncolumns 4\n"),
    Call(f"{OF_PLACES} --tdr 5e8480000000008cf", prints="behind its march: a lane, or a read by the second port\n"),
    Call(f"{OF_PLACES} --tdr 00000000000000003", prints="no wrong read was seen\n"),
    Call(f"{OF_PLACES} --tdr 6e43ff000000007f", status=2, says="locate: the register has 17 hexadecimal digits"),
    Call(f"{OF_PLACES} --tdr 7c0810010000000bf", status=2, says="locate: the expected word is 01, but this march"),
    Call(f"{OF_PLACES} --tdr 7c0800000000000bf", status=2, says="locate: 00 and 00 are no two words of 5 bits"),
    Call(f"{OF_PLACES} --tdr 7c7f10000000000bf", status=2, says="locate: there is no unit 7: the units are 0 to 5"),
    Call(f"{OF_PLACES} --whole --tdr 7c0810000000000bf", status=2, says="locate: --in-place stands without --whole"),
    Call(f"{OF_PLACES} 10 000100", prints="memory left, cycle 10 of its test\nbackground 0 0\nelement 1 up(r0,w1)\n"),
    Call(f"{OF_PLACES} 10 000100 0 2", prints="index 0 row 0\naddress 0\nbits 1\n"),
    Call(f"{OF_PLACES} --at fail 11 000100 0 2", prints="index 0 row 0\naddress 0\nbits 1\n"),
    Call(f"{OF_PLACES} 10 000100 0 12", status=2, says="locate: RETURNED has to be hexadecimal, of at most 4 bits"),
    Call(f"{OF_PLACES} 10 110000", status=2, says="locate: masked, kept fail: which of them does the cycle belong"),
    Call(f"{OF_PLACES} 10 0100", status=2, says="locate: FAILBITS needs 6 digits"),
    Call(f"{OF_PLACES} 10", status=2, says="locate: --in-place takes a cycle, the bits of fail, and two words"),
    Call(f"{WHOLE} --tdr 0105020000000058f", status=2, says="locate: the register has 18 hexadecimal digits"),
    Call("tools/access late.mem acc --log 65", status=2, says="access: --log is 1 to 64, and not 65"),
    Call("tools/access late.mem acc --log 0", status=2, says="access: --log is a number of at least 1"),
    Call("tools/access late.mem acc --jtag --march access.m --mhz 0", status=2, says="access: --mhz is a clock"),
    Call("tools/access missing.mem acc", status=2, says="access: missing.mem: No such file"),
    Call("tools/sdc late.mem acc --mhz 100 --falling", prints="acc/late_normal.sdc"),
    Call("tools/sdc late.mem acc", status=2, says="sdc: give --mhz"),
    Call("tools/sdc late.mem acc --mhz 1e3", status=2, says="sdc: --mhz is a number above 0"),
    Call("tools/sdc late.mem acc --mhz 1 --share 1", status=2, says="sdc: --share is below 1"),
    Call("tools/locate pair.chip --chip 20 011 1 2", status=2, says="locate: FAILBITS needs 2 digits"),
    Call("tools/locate pair.chip --chip 20 00", status=2, says="locate: FAILBITS needs 2 digits"),
    Call(
        "tools/locate pair.chip --chip 9999 01",
        status=2,
        says="locate: no failing unit has an answer on rdata in cycle 9999",
    ),
    Call("tools/locate pair.chip --chip --tdr 0000000000003", prints="no wrong read was seen"),
    Call("tools/locate pair.chip --chip --tdr 0000000000001", prints="not done: the test still runs"),
    Call("tools/locate pair.chip --chip --tdr 0x0000000000002", status=2, says="locate: start is 0 in this scan"),
    Call("tools/locate pair.chip --chip --tdr 000000000000b", status=2, says="locate: the bits of the state disagree"),
    Call(
        "tools/locate access.m late.mem --tdr ffffffffffffffffffffffffffffff",
        status=2,
        says="locate: the register has to be hexadecimal",
    ),
    Call("tools/locate access.m late.mem --tdr zz", status=2, says="locate: the register has to be hexadecimal"),
    Call("tools/locate access.m late.mem 14 --at done", status=2, says="locate: --at takes only fail"),
    Call(
        "tools/bitmap wrong.log access.m late.mem",
        status=2,
        says="bitmap: wrong.log:1: an entry is 'cycle C expected X returned W'",
    ),
    Call("tools/bitmap none.log access.m late.mem", status=2, says="bitmap: none.log: no line has"),
    Call(
        "tools/bitmap right.log access.m late.mem",
        status=2,
        says="bitmap: in cycle 13 the expected word is 0a, but this march",
    ),
    Call(
        "tools/bitmap right.log access.m late.mem --mux 3", status=2, says="bitmap: --mux 3 does not divide the 8 words"
    ),
    Call("tools/bitmap right.log pair.chip --unit 2", status=2, says="bitmap: --unit is 0 to 1, and not 2"),
    Call(
        "tools/bitmap right.log access.m late.mem --csv late.mem", status=2, says="bitmap: 'late.mem' is what is read"
    ),
    Call("tools/bitmap right.log pair.chip --unit 0 --svg odd.mem", status=2, says="bitmap: 'odd.mem' is what is read"),
    Call("tools/bitmap right.log pair.chip --unit 0 --svg a --csv ./a", status=2, says="bitmap: './a' is the picture"),
    Call(
        "tools/collar eight.mem --macro ram.pins bus --through jtag", status=2, says="collar: ram.pins: s has latency 1"
    ),
    Call(
        "tools/collar latency.mem --macro ram.pins bus --through apb",
        prints="bus/s_collar.v",
        says="collar: not tested: ce: whether",
    ),
    Call("tools/collar latency.mem --macro ram.pins bus --through usb", status=2, says="collar: --through is one of"),
    Call("tools/access late_model.v .", status=2, says="access: 'late_model.v' is what is read"),
    Call("tools/vhdl a.vhd .", status=2, says="vhdl: 'a.vhd' is what is read"),
    Call("tools/share late.mem 3 acc", prints="acc/late_share.v"),
    Call("tools/share late.mem 17 acc", status=2, says="share: N is 2 to 16, and not 17"),
    Call("tools/vhdl two.log acc", status=14, says="vhdl: verilog L1 byte 31\ntwo.log:3:1: error: "),
    Call("tools/vhdl access.m acc", status=14, says="vhdl: verilog L1 byte 0\n"),
    Call("tools/vhdl wide.v acc", status=14, says="vhdl: verilog N3 2 3\n"),
    Call("tools/vhdl two.log acc access.m", status=2, says="vhdl: give both a march and a memory"),
    Call("tools/report --all sized.report --csv --memory s.mem", prints="s,4,1,1,"),
    Call(
        "tools/report --all again.report --csv --memory s.mem",
        status=2,
        says="report: again.report: s has another size or another test in its description",
    ),
    Call(
        "tools/report --all sized.report --csv --memory s.mem --memory slow.mem",
        status=2,
        says="report: slow.mem: the call has another description of s",
    ),
    Call(
        "tools/report --all sized.report s.pins --csv --memory s.mem --of equal.list",
        prints="memory,instances,words,bits,backgrounds,march,length,SF,total,commands,cycles,ms\ns,5,4,1,1,",
    ),
    Call("tools/report --all sized.report --csv --of two.chip", status=2, says="report: there is no report of t"),
    Call("tools/report --all sized.report s.pins --csv", status=2, says="report: s.pins: PINS need --of"),
    Call("tools/report --all judged.report --csv", status=2, says="report: judged.report: this is a report of `judge`"),
    Call("tools/report --all judged.report", status=2, says="report: --all needs --csv or --html FILE"),
    Call("tools/report --tester pair.chip --html pair.html"),
    Call("tools/report --tester pair.chip --html ./late.mem", status=2, says="report: './late.mem' is what is read"),
]
