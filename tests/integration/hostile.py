"""Inputs of somebody who means harm, and what the launcher and the tools have to do of each; `python3 -m
tests.integration` goes through them."""
from __future__ import annotations

import os
import shutil
import signal
import subprocess
import time
from typing import List

from tests.integration.bench import Bench
from tests.integration.files import FILES

SUB = "module sub(input i, output o); assign o = i; endmodule\n"
HELD = ("state[4:0] != 5'b00000", "state[4:0] != 5'b00000 && !hold")
TABLE = "reg t [0:1]; initial begin t[0] = 0; t[1] = 0; end wire hold = t[second];"
# what is declared in front of `hold`, or what holds it
OPEN = {
    "a register that nothing sets": "reg hold;",
    "a register that is only cleared": "reg hold; always @(posedge clk) if (state[1]) hold <= 0;",
    "an initial value alone": "reg hold = 0;",
    "an initial block": "reg hold; initial hold = 0;",
    "a mistyped name": "",
    "an open input": "wire hold; sub it(.o(hold));",
    "an x": "wire hold; assign hold = 1'bx;",
    "a bit that is not there": "reg [2:0] n; always @(posedge clk) n <= 0; wire hold = n[{1'b1, !second}];",
    "a bit that is far beyond": "reg [2:0] n; always @(posedge clk) n <= 0; wire hold = n[{!second, 2'b00}];",
    "a part below its word": (
        "reg [3:0] n; always @(posedge clk) n[second -: 2] <= second ? 2'b00 : 2'b10; wire hold = n[0];"
    ),
    "a word that is not there": TABLE.replace("[0:1]", "[0:2]").replace("[second]", "[{1'b1, !second}]"),
    "a table that is written": TABLE.replace(
        "end wire", "end always @(posedge clk) if (state[1] && second) t[0] <= 0; wire"
    ),
}
OPEN_CONTROLLERS = [
    (what, [HELD, ("reg failed;", f"reg failed; {more}"), ("module one_hot", SUB + "module one_hot")])
    for what, more in OPEN.items()
]
TWO_DRIVERS = [
    ("done = 1'b0", [("reg failed;", "reg failed; assign done = 1'b0;")]),
    ("a second register", [("reg failed;", "reg failed; always @(posedge clk) second <= 1'b0;")]),
    ("a second assign", [("reg failed;", "reg failed; assign en = reset;")]),
]
# what Yosys' model checker passes over, with the words that refuse it
GATED = "reg go; always @(posedge clk) go <= 1; wire gated = clk & go;"
UNSEEN = [
    ([("@(posedge clk)", "@(negedge clk)")], "it is clocked by the falling edge of clk"),
    ([("@(posedge clk)", "@(posedge reset)")], "the registers' clock is reset"),
    (
        [("reg failed;", f"reg failed; {GATED}"), ("  always @(posedge clk)", "  always @(posedge gated)")],
        "its clock is gated",
    ),
    (
        [("reg failed;", "reg failed; reg hold; always @* if (state[1]) hold = 0;"), HELD],
        "a latch is outside the subset",
    ),
    ([("output we,", "output [3:0] we,")], "a self-test of four has the ports output we of 1 bit"),
    (
        [("[1:0] addr", "[2:0] addr"), ("addr = word", "addr = {1'b1, word}")],
        "a self-test of four has the ports output addr of 2",
    ),
]
# what Yosys alone reads so, of a controller that is none to others: what holds `hold`, what stands in front of the
# module, and the words that refuse it
CELL = "module \\$and (A, B, Y); parameter {}; input A, B; output Y; assign Y = 0; endmodule\n".format(
    ", ".join(f"{pin}_{what} = 0" for pin in "ABY" for what in ("SIGNED", "WIDTH"))
)
SUB_OPEN = "module sub(input zero, output o); wire x; assign o = x | zero; endmodule\n"
OF_YOSYS = [
    (
        "struct packed { logic [1:0] b; logic [1:0] a; } n; always @(posedge clk) n <= 0; wire hold = n.a[2];",
        "",
        "another member's bit",
    ),
    ("wire hold = second && 0.4;", "", "is not 0, but Yosys rounds it to 0"),
    ("wire [31:0] \\$random = 0; wire hold = $random != 0;", "", "is, to Yosys alone, the same as the escaped name"),
    (
        "(* hierconn *) wire \\u.x ; assign \\u.x = 0; wire hold; sub u(.zero(1'b0), .o(hold));",
        SUB_OPEN,
        "means something to Yosys alone",
    ),
    (
        "wire zero = 0, x = 0; wire hold; (* wildcard_port_conns *) sub u(.o(hold));",
        SUB_OPEN,
        "means something to Yosys alone",
    ),
    ("wire hold = second & 1'b1;", CELL, "$"),
    (
        "wire [31:0] n = abs(0); wire hold = 0;",
        'import "DPI-C" function integer abs(integer a);\n',
        "Found DPI function",
    ),
]


def controller(bench: Bench, edits: list[tuple[str, str]]) -> None:
    """Writes the edited controller, its true module behind a comment that names another."""
    text = (bench.folder / "examples" / "foreign" / "one_hot.v").read_text()
    for old, new in edits:
        text = text.replace(old, new, 1)
    (bench.folder / "edited.v").write_text("// module elsewhere\n" + text)


def controllers(bench: Bench) -> None:
    """What nothing drives stays open in `tools/plain` and `tools/formal`, and two drivers are refused, as is in
    `tools/formal` what its judge would pass over."""
    if not shutil.which("yosys"):
        print("yosys is not installed, so no edited controller is judged")
        return
    judged = ["examples/mats_plus.m", "examples/foreign/four.mem"]
    controller(bench, [])
    alone = "--no-simulate"
    bench.look(["tools/formal", "edited.v", *judged, alone], 0, "formal: right as Yosys reads it, not simulated", "")
    for what, edits in OPEN_CONTROLLERS:
        controller(bench, edits)
        plain = bench.run(["tools/plain", "edited.plain.v", "edited.v", alone])
        said = bench.run(["./vidlakost", "check", "edited.plain.v", *judged]).stdout
        is_open = plain.returncode == 0 and said == "unknown cycle 1 port en\n"
        bench.is_so(is_open, f"{what}: check says {said!r} {plain.stderr!r}")
        done = bench.run(["tools/formal", "edited.v", *judged])
        differs = done.returncode == 1 and done.stdout == "formal: wrong: differs in cycle 1\n"
        bench.is_so(differs, f"{what}: tools/formal says {done.stdout!r}")
    for what, edits in TWO_DRIVERS:
        controller(bench, edits)
        for words in (["tools/plain", "edited.plain.v", "edited.v"], ["tools/formal", "edited.v", *judged]):
            done = bench.run(words)
            reasons = ("two drivers", "multiple conflicting drivers", "two blocks set it")
            refused = any(reason in done.stderr for reason in reasons)
            bench.is_so(done.returncode == 1 and refused, f"{what}: {words[0]} says {done.stdout!r} {done.stderr!r}")
        bench.look(["dev/foreign", "edited.v", *judged], 14, "", "foreign: verilog N")
    for edits, said in UNSEEN:
        controller(bench, edits)
        done = bench.run(["tools/formal", "edited.v", *judged])
        bench.is_so(
            done.returncode == 1 and said in done.stderr,
            f"tools/formal says {done.stdout!r} {done.stderr!r} of {said!r}",
        )
    for more, front, said in OF_YOSYS:
        controller(bench, [HELD, ("reg failed;", f"reg failed; {more}"), ("module one_hot", front + "module one_hot")])
        for words in (["tools/plain", "edited.plain.v", "edited.v"], ["tools/formal", "edited.v", *judged]):
            done = bench.run(words)
            refused = done.returncode in (1, 2) and said in done.stderr
            bench.is_so(refused, f"{words[0]} says {done.stdout!r} {done.stderr!r} of {front}{more}")


# ---- the launcher

# a stand-in for the program: it leaves a file beside its output, as one that is killed does, and waits
WAITING = """#!/usr/bin/env bash
touch ".vidlakost-$(date +%s%N)"
echo $$ >pid
sleep 60 &
wait
"""
SILENT = "#!/bin/sh\nexit 1\n"
# what calls of before may still be at work on, and what one that was killed left
OLDER, LEFT = f".vidlakost-{int(time.time()) - 600}000000000", ".vidlakost-1000000000000000000"


def program(bench: Bench, name: str, text: str) -> str:
    path = bench.folder / name
    path.write_text(text)
    path.chmod(0o755)
    return str(path)


def is_alive(pid: int) -> bool:
    try:
        os.kill(pid, 0)
    except OSError:
        return False
    return True


def killed_launcher(bench: Bench) -> None:
    """A signal to the launcher ends the program, and what that left beside its files is removed, but for what others
    left."""
    folder = bench.folder / "signals"
    folder.mkdir()
    for name in (OLDER, LEFT):
        (folder / name).write_text("")
    environment = {**bench.environment, "VIDLAKOST_PROGRAM": program(bench, "waiting", WAITING)}
    for number in (signal.SIGTERM, signal.SIGINT, signal.SIGHUP):
        (folder / "pid").unlink() if (folder / "pid").exists() else None
        started = subprocess.Popen(["../vidlakost", "judge", "m", "l", "r"], cwd=folder, env=environment)
        while not (folder / "pid").exists() or not (folder / "pid").read_text().strip():
            time.sleep(0.05)
        started.send_signal(number)
        status, pid = started.wait(20), int((folder / "pid").read_text())
        left = sorted(os.listdir(folder))
        bench.is_so(status == -number, f"the launcher ends with {status} by {number}")
        bench.is_so(not is_alive(pid), f"the program goes on after {number}")
        bench.is_so(left == [OLDER, "pid"], f"after {number} there are {left}")


def launcher(bench: Bench) -> None:
    """What the launcher does beside its calls: programs that are none, pipes, options, words that name one file."""
    silent = program(bench, "silent", SILENT)
    for explain in ("0", "1"):
        told = f"vidlakost: the program {silent} ended with status 1 and without an answer"
        bench.look(["./vidlakost", "sim", "c.m"], 125, "", told, VIDLAKOST_PROGRAM=silent, VIDLAKOST_EXPLAIN=explain)
    bench.look(
        ["./vidlakost", "sim"], 125, "", "vidlakost: VIDLAKOST_PROGRAM names", VIDLAKOST_PROGRAM=str(bench.folder)
    )
    slow = program(bench, "slow", "#!/bin/sh\nsleep 14\necho conforms 3\n")
    long = "vidlakost: still running: a test takes at most 2,000,000 cycles"
    bench.look(["./vidlakost", "check", "c.m", "c.m", "s.mem"], 0, "conforms 3", long, VIDLAKOST_PROGRAM=slow)
    for words in (["--stale", "--help"], ["--stale", "help"]):
        bench.look(["./vidlakost", *words], 0, "To begin with:", "")
    bench.look(["./vidlakost", "--stael", "judge"], 2, "", "vidlakost: there is no option '--stael'")
    broken = "set -o pipefail; ./vidlakost vectors examples/c.m examples/cache.mem /dev/stdout | head -n 1"
    bench.look(
        ["bash", "-c", broken], 8, "w 512 00000000", "vidlakost: error: the line of the answer could not be written"
    )
    (bench.folder / "numbers").mkdir()
    bench.look(["bash", "-c", "cd numbers && ../vidlakost make 1 ./1 b c d e"], 1, "made elements 6", "")
    # seconds of a processor, so that other work does not count
    within = ["bash", "-c", 'ulimit -t "$1" && shift && exec ./vidlakost "$@"', "bash"]
    bench.look([*within, "5", "judge", *map(str, range(3000))], 2, "usage", "vidlakost: error: judge takes 3 words")
    (bench.folder / "many.chip").write_text("unit 1 c.m s.mem\n" * 60000)
    bench.look([*within, "10", "chip", "many.chip", "many.v"], 15, "chip C1", "many.chip:1:1: error: the first line")
    for words in (["judge", "", "tf.list", "r"], ["judge", "c.m", "tf.list", ""], ["chip", "", "r"]):
        bench.look(["./vidlakost", *words], 2, "usage", "vidlakost: error: ")
    once = "came by a pipe or a device, so its place is not shown"
    for call in ("judge <(cat wrong.m) tf.list out", "bench c.m <(cat range.mem)", "check <(cat token.v) c.m s.mem"):
        done = bench.run(["timeout", "20", "bash", "-c", f"./vidlakost {call}"])
        bench.is_so(done.returncode in (3, 4, 14) and once in done.stderr, f"{call}: {done.returncode} {done.stderr!r}")
    (bench.folder / "c.link").symlink_to("c.m")
    for other in ("./c.m", "c.link"):
        bench.look(["./vidlakost", "chip", "two.chip", other], 2, "", f"vidlakost: 'c.m' and '{other}' are one file")
    for other in ("c.m", "c.link", "./s.mem"):
        bench.look(
            ["tools/schedule", "two.chip", "--svg", other], 2, "", f"schedule: '{other}' is a file of the chip file"
        )


def warnings(bench: Bench) -> None:
    """What other tools may read otherwise is told of a module and of a chip that are taken."""
    text = (bench.folder / "examples" / "foreign" / "one_hot.v").read_text()
    judged = ["examples/mats_plus.m", "examples/foreign/four.mem"]
    for comment, column, why in (
        ("// was \r wire", 8, "a carriage return without a line feed"),
        ("// was \f wire", 8, "a form feed"),
        ("// `ifdef", 4, "a back quote"),
        ("/* a \0 */", 6, "a control byte"),
        ("// a \\", 6, "a backslash that ends a line"),
        ("/* synopsys translate_off */", 4, "a comment that synthesis tools obey"),
        ("// full_case", 4, "a comment that synthesis tools obey"),
        ("// pragma", 4, "a comment that synthesis tools obey"),
    ):
        (bench.folder / "warned.v").write_bytes(f"{comment}\n{text}".encode())
        told = f"warned.v:1:{column}: warning: {why}"
        bench.look(["./vidlakost", "check", "warned.v", *judged], 0, "conforms 43", told)
        bench.look(["./vidlakost", "check", "warned.v", *judged], 0, "conforms 43", "", VIDLAKOST_EXPLAIN="0")
    for value, column, why in (
        ("(4'd1?reset:reset)", 21, "a `?` right after a decimal literal"),
        ("(reset << 32'hffffffff)", 23, "a shift whose amount can be 2147483648 or more"),
        ("(reset >> {rdata, 31'h0})", 23, "a shift whose amount can be 2147483648 or more"),
    ):
        (bench.folder / "warned.v").write_text(
            text.replace("endmodule", f"  wire odd;\n  assign odd = {value};\nendmodule")
        )
        told = f"warned.v:{text.count(chr(10)) + 1}:{column}: warning: {why}"
        bench.look(["./vidlakost", "check", "warned.v", *judged], 0, "conforms 43", told)
    near = "  // 4'd1? and 1 << 32'hffffffff\n  wire odd;\n  assign odd = (reset << {1'h0, 31'h7fffffff});\nendmodule"
    (bench.folder / "warned.v").write_text(text.replace("endmodule", near))
    bench.look(["./vidlakost", "check", "warned.v", *judged], 0, "conforms 43", "")
    (bench.folder / "warned.v").write_bytes(text.replace("\n", "\r\n").encode())
    bench.look(["./vidlakost", "check", "warned.v", *judged], 0, "conforms 43", "")
    for name, why in (("logic", "SystemVerilog reserves 'logic'"), ("wdata_1", "'wdata_1' is also a port")):
        (bench.folder / "named.chip").write_text(FILES["two.chip"].replace("name both", f"name {name}"))
        bench.look(["./vidlakost", "chip", "named.chip", "named.v"], 0, "chip units 2", f"named.chip:2: warning: {why}")
    (bench.folder / "runs_on.m").write_text("{up(w0);up(w1,w0);up(r0,w1);down(w0)}\n")
    (bench.folder / "runs_on.list").write_text("<0w1w0/1/->\n<0w0w0/1/->\n")
    for backgrounds, told in (("1 0", "runs_on.mem: warning: "), ("0 1", ""), ("00 1 0", "")):
        (bench.folder / "runs_on.mem").write_text(f"memory 1\nname two\nwords 2\nbits 1\nbackgrounds {backgrounds}\n")
        compiled = ["compile", "runs_on.m", "runs_on.mem", "runs_on.list", "runs_on.v", "runs_on.txt"]
        bench.look(["./vidlakost", *compiled], 1, "total 2 covered 1 escapes 1", told)


# ---- testbenches


def testbenches(bench: Bench) -> None:
    """A right controller with `always @*` passes in each version of the language, commands that can't be read end the
    run, and Verilator has nothing to say of the assertions and of a chip."""
    folder = bench.folder / "benches"
    folder.mkdir()
    text = (
        (bench.folder / "examples" / "foreign" / "one_hot.v")
        .read_text()
        .replace("module one_hot", "module four_bist", 1)
    )
    text = text.replace("output en,", "output reg en,", 1).replace("assign en =", "always @* en =", 1)
    (folder / "four_bist.v").write_text(text)
    options: List[List[str]] = [[], ["--sv"], ["--assert"]]
    for option in options:
        bench.look(
            ["tools/testbench", "examples/mats_plus.m", "examples/foreign/four.mem", "benches", *option],
            0,
            "benches/",
            "",
        )
    bench.look(["tools/testbench", "two.chip", "benches", "--chip"], 0, "benches/both_tb.v", "")
    bench.look(["./vidlakost", "chip", "two.chip", "benches/both.v"], 0, "chip units 2", "")
    if shutil.which("iverilog"):
        for version, file in (("2005", "four_tb.v"), ("2012", "four_tb.v"), ("2012", "four_tb.sv")):
            call = f"cd benches && iverilog -g{version} -o tb {file} four_bist.v && vvp -n tb"
            bench.look(["bash", "-c", call], 0, "fail 0 done 42\n", "")
            bench.is_so(
                "differs" not in bench.run(["bash", "-c", call]).stdout, f"a right controller alarms: {version} {file}"
            )
        bench.look(
            ["bash", "-c", "cd benches && iverilog -g2005 -o tb both_tb.v both.v && vvp -n tb"],
            0,
            "fail 00 done 123\n",
            "",
        )
        for spoil in ("rm four_commands.hex", "echo 0 >four_commands.hex"):
            call = f"cd benches && {spoil}; iverilog -g2005 -o tb four_tb.v four_bist.v && vvp -n tb"
            bench.look(["bash", "-c", call], 1, "the commands could not be read", "")
    if shutil.which("verilator"):
        linted = "cd benches && verilator --lint-only -Wall"
        bench.look(["bash", "-c", f"{linted} --assert --top-module four_bist four_rule.sv four_bist.v"], 0, "", "")
        bench.look(["bash", "-c", f"{linted} -Wno-DECLFILENAME both.v"], 0, "", "")
