"""What is handed in is neither written over nor run, and is read and told within bounds: the cases of `python3 -m
tests.integration` for it."""
from __future__ import annotations

import os
import shutil

from tests.integration.bench import Bench

# ---- files that sources name

KEPT = "1\n0\n1\n0\n"
ENTITY = (
    "library ieee;\nuse ieee.std_logic_1164.all;\nentity t is port (clk : in std_logic; q : out std_logic); end;\n"
    "architecture a of t is\n{}\nbegin\n  q <= clk;\nend;\n"
)
OPENED = 'file f : text open {}_mode is "kept.hex";'
IN_FUNCTION = "function f(x : integer) return integer is\n{}begin\n{}return x;\nend;\nconstant c : integer := f(3);"
# what a source in VHDL declares, the line on which it is refused, and the word
REACHING = [
    ("use std.textio.all;", 5, "textio"),
    ("use ieee.std_logic_textio.all;", 5, "std_logic_textio"),
    (OPENED.format("write"), 5, "file"),
    (OPENED.format("append"), 5, "file"),
    (OPENED.format("read"), 5, "file"),
    (f"-- the file\n{OPENED.format('write').upper()}", 6, "FILE"),
    (f"/* -- */ {OPENED.format('write')}", 5, "file"),
    (f"-- what only a line feed would end\r{OPENED.format('write')}", 6, "file"),
    (f"constant c : character := '\"'; -- \"\n{OPENED.format('write')} -- \"", 6, "file"),
    (f"constant c : character := '\"'; {OPENED.format('write')} -- \"", 5, "file"),
    (IN_FUNCTION.format(OPENED.format("write"), ""), 6, "file"),
    (IN_FUNCTION.format("", 'file_open(f, "kept.hex", write_mode);\n'), 7, "file_open"),
    ("type numbers is file of integer;", 5, "file"),
    ("attribute foreign : string;", 5, "foreign"),
]
# what only looks like it
LOOKS = (
    '-- this file, by textio\nconstant c : string := "file";\n/* file_open\nforeign */\nsignal \\file\\, profile :'
    " std_logic;"
)
READS = (
    "module t(input clk, input [1:0] a, output reg [1:0] q);\n  reg [1:0] m [0:3];\n{}  always @(posedge clk) q <="
    " m[a];\nendmodule\n"
)
# how a source names what its memory holds at first
CONTENTS = [
    '  initial $readmemh("kept.hex", m);\n',
    '  initial $readmemb("kept.hex", m);\n',
    '  parameter NAME = {"kept", ".hex"};\n  initial $readmemh(NAME, m);\n',
    "  localparam [63:0] NAME = 64'h6b6570742e686578;\n  initial $readmemh(NAME, m);\n",
]
# in a branch that isn't taken, where Yosys opens nothing
UNTOLD = '  parameter NAME = "kept";\n  generate if (0) begin initial $readmemh({NAME, ".hex"}, m); end endgenerate\n'
ALONE, TOLD = "--no-simulate", "plain: right as Yosys reads it, not simulated: made.v"
OUTPUTS = ("kept.hex", "./kept.hex", "kept.link", "kept.hard")


def is_kept(bench: Bench, what: str) -> None:
    bench.is_so((bench.folder / "kept.hex").read_text() == KEPT, f"{what}: the file that it names was lost")


def named_by_vhdl(bench: Bench) -> None:
    """A source in VHDL that opens files is refused with its place, and what it names stays."""
    for declared, line, word in REACHING:
        (bench.folder / "reaching.vhd").write_bytes(ENTITY.format(declared).encode())
        told = f"'reaching.vhd':{line}: '{word}': "
        for words in (["tools/plain", "made.v", "reaching.vhd"], ["tools/audit", "reaching.vhd", "c.m", "s.mem"]):
            done = bench.run(words)
            bench.is_so(done.returncode == 1 and told in done.stderr, f"{declared!r}: {words[0]} says {done.stderr!r}")
        is_kept(bench, declared)
    (bench.folder / "looks.vhd").write_text(ENTITY.format(LOOKS))
    bench.look(["tools/plain", "made.v", "looks.vhd", ALONE], 0, "", TOLD)


def named_by_verilog(bench: Bench) -> None:
    """An output that a source reads by a name of any kind is refused, and stays."""
    for content in CONTENTS:
        (bench.folder / "reads.v").write_text(READS.format(content))
        for out in OUTPUTS:
            bench.look(["tools/plain", out, "reads.v"], 2, "", f"plain: '{out}' is what is read")
            is_kept(bench, content)
        (bench.folder / "made.v").unlink(missing_ok=True)
        endless = content.replace("kept.hex", "/dev/zero") if '"kept.hex"' in content else '  `include "/dev/zero"\n'
        (bench.folder / "endless.v").write_text(READS.format(endless))
        bench.look(
            ["timeout", "60", "tools/plain", "made.v", "endless.v"], 1, "", "plain: 'endless.v': it names '/dev/zero'"
        )
        bench.look(["tools/plain", "made.v", "reads.v", ALONE], 0, "", TOLD)
        bench.look(
            ["tools/audit", "reads.v", "c.m", "s.mem", "--vcd", "kept.hex"], 2, "", "audit: 'kept.hex' is what is read"
        )
        is_kept(bench, content)


def untold_by_verilog(bench: Bench) -> None:
    """What a source may read by a name that nobody tells stays; a module that was written before gives way."""
    (bench.folder / "reads.v").write_text(READS.format(UNTOLD))
    told = "'reads.v':4: what it reads has no name in quotes, and may be 'kept.hex'"
    bench.look(["tools/plain", "kept.hex", "reads.v"], 2, "", f"plain: {told}")
    bench.look(["tools/audit", "reads.v", "c.m", "s.mem", "--vcd", "kept.hex"], 2, "", f"audit: {told}")
    is_kept(bench, UNTOLD)
    for _ in range(2):
        bench.look(["tools/plain", "made.v", "reads.v", ALONE], 0, "", TOLD)


def named_files(bench: Bench) -> None:
    if not shutil.which("yosys"):
        print("yosys is not installed, so no source names a file")
        return
    (bench.folder / "kept.hex").write_text(KEPT)
    (bench.folder / "kept.link").symlink_to("kept.hex")
    os.link(bench.folder / "kept.hex", bench.folder / "kept.hard")
    named_by_verilog(bench)
    untold_by_verilog(bench)
    if shutil.which("ghdl"):
        named_by_vhdl(bench)
    else:
        print("ghdl is not installed, so no source in VHDL names a file")


# ---- programs that are run, and those that are missing


def named_programs(bench: Bench) -> None:
    """A program that is named is a file, by the tools as by the launcher; any other is packed as unproved alone."""
    bench.look(
        ["./vidlakost", "bench"], 125, "", "vidlakost: VIDLAKOST_PROGRAM names ./printf", VIDLAKOST_PROGRAM="printf"
    )
    bench.look(["tools/summary", "c.m", "s.mem"], 125, "", "summary: the program ./printf can't", VIDLAKOST="printf")
    options: list[list[str]] = [[], ["--deb"], ["--prefix", "prefix"]]
    for option in options:
        told = "release: nothing says that '/bin/true' was proved of these sources"
        bench.look(["tools/release", *option], 125, "", told, VIDLAKOST_PROGRAM="/bin/true")
    bench.is_so(not (bench.folder / "prefix").exists(), "a program that is not proved was installed")


def missing_tools(bench: Bench) -> None:
    """Without a tool that is asked, or with one that says nothing, no answer is given; and without memory a line."""
    silent = bench.folder / "mute"
    silent.mkdir()
    for name in ("bash", "env", "python3", "sh"):
        (silent / name).symlink_to(shutil.which(name) or name)
    told = "interop: none of iverilog, verilator and yosys is on the PATH"
    bench.look(["dev/interop"], 2, "", told, PATH=str(silent))
    (silent / "yosys").write_text("#!/bin/sh\nexit $SILENT\n")
    (silent / "yosys").chmod(0o755)
    path = f"{silent}:{bench.environment['PATH']}"
    for status in ("0", "1"):
        call = ["tools/summary", "c.m", "s.mem", "--cells"]
        bench.look(call, 1, "", "summary: yosys fails: no reason is given", PATH=path, SILENT=status)
    for raised in ("MemoryError", "ImportError('select.so: failed to map segment from shared object')"):
        (silent / "hungry").write_text(f"#!{shutil.which('python3')}\nimport vidlakost_tools\nraise {raised}\n")
        (silent / "hungry").chmod(0o755)
        bench.look(["mute/hungry"], 9, "", "vidlakost: out of memory", PYTHONPATH=str(bench.folder / "tools"))


# ---- what is left


def left(bench: Bench) -> None:
    """Of two files none is written where one can't be; and what a kill left is swept by the next call, where it is old
    and ours."""
    call = ["tools/bitmap", "made.log", "access.m", "late.mem"]
    bench.look([*call, "--csv", "map.csv", "--svg", "nowhere/map.svg"], 2, "", "bitmap: nowhere/map.svg: No such file")
    bench.is_so(not (bench.folder / "map.csv").exists(), "a table was written though the picture can't be")
    swept = (f".vidlakost-staged-{'0a' * 8}", ".vidlakost-1000000000000000000")
    kept = (f".vidlakost-staged-{'0b' * 8}", ".vidlakost-settings", ".vidlakost-mine.txt")
    folder = bench.folder / "left"
    folder.mkdir()
    for name in (*swept, *kept):
        (folder / name).write_text("")
    for name in (*swept, *kept[1:]):
        os.utime(folder / name, (1, 1))
    (folder / ".vidlakost-linked_1").symlink_to(bench.folder / "c.m")
    bench.look([*call, "--csv", "left/map.csv"], 0, "cell: 1 cell", "")
    found = sorted(os.listdir(folder))
    bench.is_so(
        set(found) == {*kept, ".vidlakost-linked_1", "map.csv"}, f"beside a file that is written there are {found}"
    )


# ---- what is read, and what is said of it

# calls that read a device that never ends
ENDLESS = [
    "report {} --json",
    "trace {}",
    "bitmap {} access.m late.mem",
    "liberty {} X made",
    "collar latency.mem --macro {} made",
    "access {} made",
    "turn {}",
    "plain made.v {}",
    "audit free.v c.m s.mem --pins {}",
]
# calls in which a text of somebody's comes back in a message
ECHOES = [
    "judge told.txt tf.list made",
    "judge c.m told.txt made",
    "bench c.m told.txt",
    "chip told.txt made",
    "check told.txt c.m s.mem",
    "{}",
    "--{}",
    "help {}",
    "judge {} tf.list made",
    "judge c.m tf.list {}/x",
    "trace told.txt",
    "report --all told.txt --csv",
    "bitmap told.txt c.m s.mem",
    "liberty told.txt X made",
    "collar latency.mem --macro told.txt made",
    "top told.txt s.pins made",
    "locate c.m s.mem 6 {} 1",
    "locate c.m s.mem --line {}",
    "schedule {}",
    "explain march {}",
    "compare tf.list told.txt",
    "explore --port {}",
]


def bounds(bench: Bench) -> None:
    """Nothing is read without an end; a log of one long line is read at once; and what is said of hostile bytes has
    none of them, and is short."""
    for call in ENDLESS:
        tool, *words = call.format("/dev/zero").split()
        if tool not in ("plain", "audit") or shutil.which("yosys"):
            done = bench.run(["timeout", "60", f"tools/{tool}", *words])
            bench.is_so(
                done.returncode == 2 and "the most that is read" in done.stderr,
                f"{call}: {done.returncode} {done.stderr[-300:]}",
            )
    (bench.folder / "told.txt").write_text("cycle 1 " * 100000)
    bench.look(["timeout", "60", "tools/bitmap", "told.txt", "c.m", "s.mem"], 2, "", "bitmap: told.txt:1: an entry is")
    for harm in ("\x1b[2J\x9b", "x" * 100000):
        (bench.folder / "told.txt").write_text(harm)
        for call in ECHOES:
            done = bench.run(["./vidlakost", *call.format(harm).split()])
            said = (done.stdout + done.stderr).splitlines()
            is_plain = all(letter.isprintable() or letter == "\t" for line in said for letter in line)
            bench.is_so(done.returncode > 0 or "explain" in call, f"{call}: nothing is refused")
            bench.is_so(
                is_plain and max(map(len, said)) < 560,
                f"{call} echoes {max(map(len, said), default=0)}: {done.stderr[-300:]!r}",
            )


PARTS = (named_files, named_programs, missing_tools, left, bounds)
