"""What `python3 -m tests.integration` asks of the tools that start a test from outside and tell what it found."""
from __future__ import annotations

import pathlib
import re
import shutil
import socket
import subprocess

from tests.integration.bench import Bench
from tests.integration.explore import comes
from tests.integration.files import FILES

MARCH = "{any(w0);up(r0,w1);up(r1,w0);down(r0,w1);down(r1,w0);any(r0)}"
LATE = (
    "memory 2\nname late\nwords 8\nbits 5\nlatency 4\npolarity 15\npause 7\nscramble a0 = p0 ^ p1\nscramble a1 = p1\n"
    "scramble a2 = p2 ^ 1\nbackgrounds 0 0a\n"
)
SIZED = (
    "march {any(w0);up(r0)}\nmemory s words 4 bits 1 backgrounds 1 commands 8\ncovered <0/1/-> SF\nclass SF 1 covered"
    " 1\ntotal 1 covered 1 escapes 0\n"
)
FILES.update(
    {
        "access.m": MARCH + "\n",
        "late.mem": LATE,
        "odd.mem": "memory 1\nname odd$\nwords 4\nbits 1\n",
        "pair.chip": "chip 1\nname pair\nbudget 3\nunit 2 access.m late.mem\nunit 2 access.m odd.mem\n",
        "cross.chip": "chip 1\nname cross\nbudget 3\nunit 2 access.m late.mem\n",
        "late_model.v": LATE,
        "a.vhd": "module a(input clk, output b);\n  assign b = 1'h0;\nendmodule\n",
        "wrong.log": "cycle 20 expected 0 returned 0x1g\n",
        "none.log": "fail 1\n",
        "made.log": "cycle 13 expected 15 returned 14\n",
        "old.log": "cycle 13 returned 15\n",
        "turned.mem": LATE.replace("polarity 15", "polarity 0a"),
        "right.log": "cycle 13 expected 0a returned 15\n",
        "two.log": "module a(input clk);\nendmodule\nmodule b(input clk);\nendmodule\n",
        "sized.report": SIZED,
        "equal.list": "list 1\nname equal\nbudget 3\nunit 1 c.m s.mem instances 5 shared\n",
        "again.report": SIZED.replace("backgrounds 1 commands 8", "backgrounds 4 commands 32"),
        "slow.mem": "memory 2\nname s\nwords 4\nbits 1\nlatency 4\n",
        "placed.places": (
            "places 1\nchip camera\nsource examples/in_place/camera.v\naccess tap.tested\nclock place 7\n"
            "tap tck tms tdi trst_n tdo\nat late_0 a\nat late_1 b\nat left c\nat low d\nat masked e\nat kept f\n"
        ),
        "judged.report": (
            "march {any(w0);up(r0)}\ncovered <0/1/-> SF\nclass SF 1 covered 1\ntotal 1 covered 1 escapes 0\n"
        ),
    }
)
# the register of pair, whose state is the last digit
TDR = "0" * 12 + "{}"
JOINS = "examples/joins/joins.chip"
PINS = [f"examples/joins/{name}.pins" for name in ("masked", "left", "right", "both", "low", "kept", "late")]
CAMERA, PLACES = "examples/in_place/camera.list", "examples/in_place/camera.places"
PLACED = [f"examples/joins/{name}.pins" for name in ("late", "left", "low", "masked", "kept")]
# what is planted: an address of late, a bit, the value at which it is stuck, and the index of the address
PLANTED = [(3, 0, 1, 6), (4, 4, 0, 0), (1, 2, 1, 5)]


def stands(bench: Bench, folder: str, words: list[str]) -> None:
    """A folder with the self-test of late and a TAP before it."""
    (bench.folder / folder).mkdir(exist_ok=True)
    bench.run(["./vidlakost", "compile", "access.m", "late.mem", "empty.list", f"{folder}/late_bist.v", "late.report"])
    done = bench.run(["tools/access", "late.mem", folder, "--jtag", "--march", "access.m", *words])
    bench.is_so(not done.returncode, f"access {words}: {done.stderr}")


def compiled(bench: Bench, folder: str) -> None:
    """A folder with the self-test of late and all that stands round it."""
    stands(bench, folder, ["--apb", "--log", "3"])
    bench.run(["tools/share", "late.mem", "2", folder])


# the log of each planted fault by the comparator alone, or by the first bus that reads it
LOGS: dict[str, list[str]] = {}


def logged_alike(bench: Bench, kind: str, told: str) -> str:
    """The log in what a testbench printed, which is the same behind each bus; the first line of a bus has the first
    read alone."""
    lines = [line for line in told.splitlines() if line.startswith("cycle ") or line == "more"]
    last = LOGS.setdefault(lines[0] if lines else "", lines)
    bench.is_so(lines == last and len(lines) > 1, f"{kind}: the log is {lines}, and {last} by another bus")
    return "\n".join([*lines, ""])


def found(bench: Bench, folder: str, simulate: str) -> None:
    """Each testbench finds nothing in a sound memory, and of a planted fault the index and the bit."""
    for kind in ("access", "apb", "tap", "log"):
        more = {bus: f"late_{bus}.v late_cross.v late_access.v late_log.v" for bus in ("apb", "tap")}
        files = more.get(kind, f"late_{kind}.v")
        call = simulate.format(top=f"late_{kind}_tb", files=f"late_{kind}_tb.sv {files} late_model.v late_bist.v")
        done = bench.run(["bash", "-c", f"cd {folder} && {call}"])
        bench.is_so("fail 0\n" in done.stdout and not done.returncode, f"{kind}: {done.stdout}{done.stderr}")
        for address, bit, value, index in PLANTED:
            plus = f"+planted +address={address} +bit={bit} +value={value}"
            told = bench.run(["bash", "-c", f"cd {folder} && ./run {plus}"]).stdout
            if kind in ("log", "apb", "tap"):
                told = logged_alike(bench, kind, told)
                (bench.folder / "late.log").write_text(told)
                said = bench.run(["tools/bitmap", "late.log", "access.m", "late.mem"]).stdout
            if kind != "log":
                match = re.search(r"cycle \d+ expected \w+ returned \w+", told)
                said = bench.run(["tools/locate", "access.m", "late.mem", "--line", match[0] if match else ""]).stdout
            holds = f"index {index}" in said and re.search(rf"bits? {bit}\b", said) is not None
            bench.is_so(holds, f"{kind} {plus}: {told}{said}")


def in_icarus(bench: Bench) -> None:
    """The testbenches of `access`, `share` in Icarus, which has no warning."""
    if not shutil.which("iverilog"):
        print("iverilog is not installed, so what access writes is not run")
        return
    compiled(bench, "icarus")
    found(
        bench,
        "icarus",
        "iverilog -g2012 -Wall -o tb {files} && printf 'exec vvp -n tb \"$@\"' >run && chmod +x run && ./run",
    )
    files = "late_share_tb.sv late_share.v late_share_model.v late_bist.v"
    done = bench.run(
        ["bash", "-c", f"cd icarus && iverilog -g2012 -Wall -o tb {files} && vvp -n tb +planted +unit=1 +value=1"]
    )
    bench.is_so(
        done.stdout == "fail 10\nlate_share_tb: passed\n" and not done.stderr, f"share: {done.stdout}{done.stderr}"
    )


def in_ghdl(bench: Bench) -> None:
    """A module in VHDL is in each cycle as the commands say."""
    if not shutil.which("ghdl"):
        print("ghdl is not installed, so no module is run in VHDL")
        return
    compiled(bench, "vhdl")
    bench.run(["tools/vhdl", "vhdl/late_bist.v", "vhdl", "access.m", "late.mem"])
    call = "cd vhdl && ghdl -a late_bist.vhd late_bist_tb.vhd && ghdl -e late_bist_tb && ghdl -r late_bist_tb"
    for more, told in (("", "fail 0 done"), (" -gplant=13", "fail 1 done")):
        done = bench.run(["bash", "-c", call + more])
        bench.is_so(told in done.stdout and not done.returncode, f"vhdl: {done.stdout}{done.stderr}")
    for spoil in ("sed -i 20q", "truncate -s 0"):
        done = bench.run(["bash", "-c", f"{spoil} vhdl/late_bist_cycles.txt; {call}"])
        bench.is_so(
            "could not be read" in done.stdout + done.stderr and done.returncode != 0, f"vhdl, {spoil}: {done.stdout}"
        )


def free_port() -> int:
    """A port of this machine that nobody listens at."""
    with socket.socket() as listener:
        listener.bind(("127.0.0.1", 0))
        return int(listener.getsockname()[1])


def in_openocd(bench: Bench) -> None:
    """OpenOCD plays the SVF to a model of the TAP, sound and with a planted fault, whose place the register tells."""
    if not all(map(shutil.which, ("openocd", "verilator", "make"))):
        print("openocd or verilator is not installed, so no SVF is played")
        return
    compiled(bench, "board")
    files = "late_board.v late_tap.v late_cross.v late_access.v late_log.v late_model.v late_bist.v late_socket.cpp"
    build = f"verilator --cc --exe --build -Wall --prefix Vboard --top-module late_board --Mdir built {files}"
    done = bench.run(["bash", "-c", f"cd board && {build}"])
    bench.is_so(
        not done.returncode and "Warning" not in done.stdout + done.stderr, f"board: {done.stdout}{done.stderr}"
    )
    sound: list[str] = []
    stuck = ["0", "3", "0", "1"]
    for planted, wanted in ((sound, "0 errors"), (stuck, "READ = ")):
        said = played(bench, "svf late.svf", planted)
        bench.is_so(wanted in said, f"openocd: {said}")
        match = re.search("READ = (0x[0-9a-f]+)", said)
        if match:
            told = bench.run(["tools/locate", "access.m", "late.mem", "--tdr", match[1]]).stdout
            bench.is_so("index 6 " in told and "bits 0\n" in told, f"openocd: {told}")
    for planted, wanted in ((sound, "fail 0\n"), (stuck, "\nmore\n")):
        said = played(bench, "source late_log.tcl; run_and_read", planted)
        bench.is_so(wanted in said, f"openocd, the log: {said}")
    (bench.folder / "late.log").write_text(said)
    told = bench.run(["tools/bitmap", "late.log", "access.m", "late.mem"]).stdout
    bench.is_so("index 6 address 3 bit 0 wrong 3" in told, f"openocd, the log: {said}{told}")


def is_listened(port: int) -> bool:
    """Whether somebody listens at a port of this machine, which a connection would disturb."""
    rows = pathlib.Path("/proc/net/tcp").read_text().splitlines()
    return any(row.split()[1].endswith(f":{port:04X}") and row.split()[3] == "0A" for row in rows[1:])


def played(bench: Bench, command: str, planted: list[str], folder: str = "board") -> str:
    """What OpenOCD says of a command, before a model with a planted fault."""
    config, port = bench.folder / folder / "late.cfg", free_port()
    config.write_text(re.sub(r"port \d+\n", f"port {port}\n", config.read_text(), count=1))
    model = subprocess.Popen(["built/Vboard", str(port), *planted], cwd=bench.folder / folder)
    bench.is_so(comes(lambda: is_listened(port)), f"built/Vboard does not listen at port {port}")
    said = bench.run(
        ["bash", "-c", f"cd {folder} && timeout 300 openocd -f late.cfg -c '{command}' -c shutdown 2>&1"]
    ).stdout
    model.terminate()
    model.wait()
    return said


# a library of four cells, of which each takes a tenth of a nanosecond
TABLES = "".join(
    f' {name}(scalar) {{ values("0.1"); }}' for name in ("cell_rise", "cell_fall", "rise_transition", "fall_transition")
)
CHECKS = "".join(f' {name}(scalar) {{ values("0.1"); }}' for name in ("rise_constraint", "fall_constraint"))


def gate(name: str, pins: str, function: str) -> str:
    """A gate of the library."""
    made = "".join(f" pin({pin}) {{ direction : input; capacitance : 0.01; }}" for pin in pins)
    timing = "".join(f' timing() {{ related_pin : "{pin}"; timing_sense : non_unate;{TABLES} }}' for pin in pins)
    return f'cell({name}) {{ area : 1;{made} pin(Y) {{ direction : output; function : "{function}";{timing} }} }}'


def library() -> str:
    kinds = "".join(
        f' timing() {{ related_pin : "C"; timing_type : {kind}_rising;{CHECKS} }}' for kind in ("setup", "hold")
    )
    flop = (
        'cell(DFF) { area : 4; ff(IQ, IQN) { clocked_on : "C"; next_state : "D"; } pin(D) { direction : input;'
        f" capacitance : 0.01;{kinds} }} pin(C) {{ direction : input; clock : true; capacitance : 0.01; }} pin(Q) {{"
        ' direction : output; function : "IQ"; timing() { related_pin : "C"; timing_type : rising_edge; timing_sense'
        f" : non_unate;{TABLES} }} }} }}"
    )
    cells = [gate("INV", "A", "!A"), gate("NAND", "AB", "!(A&B)"), gate("BUF", "A", "A"), flop]
    units = (
        'delay_model : table_lookup; time_unit : "1ns"; voltage_unit : "1V"; current_unit : "1mA";'
        " capacitive_load_unit(1, pf);"
    )
    units += "".join(f" {side}_threshold_pct_{way} : 50;" for side in ("input", "output") for way in ("rise", "fall"))
    units += "".join(
        f" slew_{side}_threshold_pct_{way} : {at};"
        for side, at in (("lower", 20), ("upper", 80))
        for way in ("rise", "fall")
    )
    return "\n".join([f"library(few) {{ {units}", *cells, "}", ""])


CELLS = """module \\$_NOT_ (input A, output Y); INV _TECHMAP_REPLACE_(.A(A), .Y(Y)); endmodule
module \\$_NAND_ (input A, input B, output Y); NAND _TECHMAP_REPLACE_(.A(A), .B(B), .Y(Y)); endmodule
"""
STA = """read_liberty few.lib
read_verilog gates.v
link_design late_access
read_sdc late_test.sdc
check_setup -verbose
puts "the checks are done"
"""


def in_opensta(bench: Bench) -> None:
    """OpenSTA reads the constraints, and in the file for the test it finds nothing that is not constrained."""
    if not all(map(shutil.which, ("sta", "yosys"))):
        print("sta or yosys is not installed, so no constraints are read")
        return
    compiled(bench, "timing")
    bench.run(["tools/sdc", "late.mem", "timing", "--mhz", "50"])
    (bench.folder / "timing" / "few.lib").write_text(library())
    (bench.folder / "timing" / "read.tcl").write_text(STA)
    (bench.folder / "timing" / "cells.v").write_text(CELLS)
    script = (
        "read_verilog late_access.v late_bist.v; synth -flatten -top late_access; dfflibmap -liberty few.lib; abc -g"
        " NAND; techmap -map cells.v; iopadmap -bits -outpad BUF A:Y; splitnets; clean; write_verilog -noattr gates.v"
    )
    done = bench.run(
        ["bash", "-c", f"cd timing && yosys -q -p '{script}' >/dev/null && sta -no_splash -exit read.tcl 2>&1"]
    )
    bench.is_so(done.stdout == "the checks are done\n", f"sta: {done.stdout}{done.stderr}")
    call = "sed -i /set_output_delay/d late_test.sdc && sta -no_splash -exit read.tcl 2>&1"
    told = bench.run(["bash", "-c", f"cd timing && {call}"]).stdout
    bench.is_so("unconstrained endpoints" in told, f"sta without output delays: {told}")


def kept(bench: Bench) -> None:
    """What somebody changed of the files of a tool stays, and so does what a link leads to."""
    (bench.folder / "kept").mkdir()
    for words, name in (
        (["tools/access", "late.mem", "kept", "--jtag", "--march", "access.m"], "late.cfg"),
        (["tools/share", "late.mem", "2", "kept"], "late_share.v"),
        (["tools/sdc", "late.mem", "kept", "--mhz", "100"], "late_test.sdc"),
        (["tools/vhdl", "a.vhd", "kept"], "a.vhd"),
        (["tools/testbench", "access.m", "late.mem", "kept"], "late_commands.hex"),
    ):
        for _ in range(2):
            bench.look(words, 0, "kept/", "")
        path, mine = bench.folder / "kept" / name, bench.folder / "kept" / "mine"
        path.write_text(path.read_text() + "mine\n")
        changed = path.read_text()
        tool = words[0].partition("/")[2]
        bench.look(words, 2, "", f"{tool}: kept/{name} is there and was not written by vidlakost, or was changed since")
        bench.is_so(path.read_text() == changed, f"{tool} wrote over what somebody changed")
        path.replace(mine)
        path.symlink_to("mine")
        bench.look(words, 2, "", f"{tool}: kept/{name} is there")
        bench.is_so(mine.read_text() == changed, f"{tool} wrote through a link")
        path.unlink()
    bench.look(
        ["bash", "-c", "cp a.report kept/r && ln -s none kept/r.m && tools/replay kept/r"],
        2,
        "",
        "replay: kept/r.m: No such file",
    )
    bench.is_so(not (bench.folder / "kept" / "none").exists(), "replay wrote through a link")


# what each way to a whole chip says of a wrong bit, and of a module in which something is joined wrongly
REACHED = [
    ("", "fail 00000000\n"),
    ("+planted +unit=5 +bit=1", "fail 00100000 unit 5 cycle 88 expected 00 returned 02\n"),
    ("+planted +unit=7 +bit=4", "fail 10000000 unit 7 cycle 195 expected 00 returned 10\n"),
]
DAMAGED = [
    (".taken_5(rdata_5)", ".taken_5(rdata_4)", "+planted +unit=5 +bit=1"),
    (".given_7(wdata_7)", ".given_7()", "+planted +unit=7 +bit=4"),
    (".done(over)", ".done()", ""),
]


def wholes(bench: Bench) -> None:
    """A whole chip is started and read by a signal, by APB and by JTAG; one in which something is joined wrongly is
    told."""
    if not shutil.which("iverilog"):
        return
    for words in (
        ["tools/top", JOINS, *PINS, "whole_chip", "--access"],
        ["tools/access", JOINS, *PINS, "whole_chip", "--apb", "--jtag"],
    ):
        done = bench.run(words)
        bench.is_so(not done.returncode, f"{words[0]} of a whole chip: {done.stderr}")
    for kind in ("access", "apb", "tap"):
        build = f"cd whole_chip && iverilog -g2012 -Wall -Wno-timescale -o tb -c joins_{kind}.f && vvp -n tb"
        for more, told in REACHED:
            done = bench.run(["bash", "-c", f"{build} {more}"])
            bench.is_so(
                done.stdout.startswith(told) and f"joins_{kind}_tb: passed" in done.stdout,
                f"{kind} {more}: {done.stdout}{done.stderr}",
            )
    each_failure(bench)
    right = (bench.folder / "whole_chip" / "joins_access.v").read_text()
    for old, new, more in DAMAGED:
        bench.is_so(old in right, f"{old!r} does not stand in joins_access.v")
        (bench.folder / "whole_chip" / "joins_access.v").write_text(right.replace(old, new))
        done = bench.run(
            ["bash", "-c", f"cd whole_chip && iverilog -g2012 -o tb -c joins_access.f && vvp -n tb {more}"]
        )
        bench.is_so(done.returncode == 1 and "FATAL" in done.stdout, f"{new} is not told: {done.stdout}{done.stderr}")


def each_failure(bench: Bench) -> None:
    """With --each the first failure of each memory is read behind one run. By hand: masked has six words and a latency
    of two, so the first word that is read comes in cycle 6 + 1 + 2; left has eight words and a latency of one."""
    done = bench.run(["tools/top", JOINS, *PINS, "each", "--access"])
    done = bench.run(["tools/access", JOINS, *PINS, "each", "--apb", "--jtag", "--each"])
    bench.is_so(not done.returncode, f"access --each: {done.stderr}")
    for kind in ("access", "apb", "tap"):
        done = bench.run(["bash", "-c", f"cd each && iverilog -g2012 -o tb -c joins_{kind}.f && vvp -n tb +each"])
        told = [
            "fail 11011111 unit 0 cycle 9",
            "memory 1 cycle 10 expected 00 returned 01",
            "memory 0 cycle 9 expected 00 returned 01",
        ]
        is_right = not done.returncode and all(map(done.stdout.__contains__, told))
        bench.is_so(is_right, f"{kind} +each: {done.stdout}{done.stderr}")
    text = (bench.folder / "each" / "joins_access.v").read_text()
    for old, new in (
        ("3'd0 ? cycle_0", "3'd0 ? cycle_3"),
        ("kept & ~ignore", "kept"),
        ("if (rises[4])", "if (rises[6])"),
    ):
        bench.is_so(old in text, f"{old!r} does not stand in joins_access.v")
        (bench.folder / "each" / "joins_access.v").write_text(text.replace(old, new))
        done = bench.run(["bash", "-c", "cd each && iverilog -g2012 -o tb -c joins_access.f && vvp -n tb +each"])
        bench.is_so(done.returncode == 1, f"{new!r} is not told: {done.stdout}{done.stderr}")


PARTS = (kept, wholes, in_icarus, in_ghdl, in_openocd, in_opensta)
