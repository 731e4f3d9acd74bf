"""A whole chip that `top` joined, and what `access` puts round it for a tester: of each memory the first failure or a
log, behind segment insertion bits too. What is written is run in Icarus, and judged by the readers of ICL, PDL and
BSDL; what a log tells is judged by `bitmap` and `diagnosis`, which read marches and memories alone."""
from __future__ import annotations

import re
import shutil
from typing import List

from tests.integration.access import CAMERA, JOINS, PINS
from tests.integration.access_calls import JOINED_PINS, PLACED_PINS, WHOLE
from tests.integration.bench import Bench
from tests.integration.call import Call
from tests.integration.files import FILES
from tests.integration.tester import PINS_OF_TAP, PLAYER, in_icarus
from vidlakost_tools.tester_files import bsdl, icl, pdl
from vidlakost_tools.tester_files.cycles import Cycle
from vidlakost_tools.tester_files.retarget import Session
from vidlakost_tools.tool import ToolError

# a log by hand: left has eight words and a latency of one, so the first word that is read comes in cycle 8 + 1 + 1; its
# test runs once more from cycle 532 on. Low has four words and a latency of two, and both five and one; their tests
# begin in cycle 82
FILES[
    "joined.log"
] = """fail 00011110 unit 1 cycle 10 expected 0 returned 1
unit 1 cycle 10 expected 0 returned 1
unit 1 cycle 541 expected 0 returned 1
unit 1 cycle 543 expected 0 returned 2
unit 1 more
unit 2 cycle 500 expected 0 returned 1
unit 3 cycle 88 expected 00 returned 01
unit 3 more
unit 4 cycle 88 expected 0 returned 1
"""
IN_WHOLE = f"tools/bitmap joined.log {JOINS} {JOINED_PINS}"
TO_WHOLE = f"tools/access {JOINS} {JOINED_PINS} acc5"
AT_LINE = f"{WHOLE} --line"
CALLS: List[Call] = [
    Call(f"{TO_WHOLE} --log 4", status=2, says="access: a bus reads the log of a whole chip: write --apb or"),
    Call(f"{TO_WHOLE} --march access.m", status=2, says="access: --march is for one memory: here the chip file"),
    Call(
        f"tools/access {CAMERA} {PLACED_PINS} acc5 --in-place --apb --log 4",
        status=2,
        says="access: `vidlakost top --in-place --log N` says how many",
    ),
    Call(f"{IN_WHOLE} --unit 1", prints="cell: 1 cell in 1 read\n"),
    Call(f"{IN_WHOLE} --unit 1 --second", prints="pair: 2 cells in 2 reads, and more followed\n"),
    Call(IN_WHOLE.replace("bitmap", "diagnosis") + " --unit 1", prints="at index 0 bit 0"),
    Call(f"{IN_WHOLE} --unit 8", status=2, says="bitmap: --unit is 0 to 7, and not 8"),
    Call(f"{IN_WHOLE} --unit 0", status=2, says="bitmap: joined.log: no line has 'unit 0 cycle C"),
    Call(f"{IN_WHOLE} --unit 2", status=2, says="bitmap: joined.log: in cycle 500 the test of right does not run"),
    Call(f"{IN_WHOLE} --unit 3 --second", status=2, says="bitmap: joined.log: the log was full before the second run"),
    Call(f"{IN_WHOLE} --unit 4 --second", status=2, says="bitmap: joined.log: no read of the second run was wrong"),
    Call(IN_WHOLE, status=2, says="bitmap: give a log, a march and a memory"),
    Call(
        f"tools/bitmap joined.log {JOINS} --unit 0 --second",
        status=2,
        says="bitmap: --second and a list need a whole chip",
    ),
    Call(
        "tools/bitmap joined.log access.m late.mem --second",
        status=2,
        says="bitmap: give a log, a march and a memory",
    ),
    Call(f"{AT_LINE} 'unit 5 cycle 88 expected 00 returned 02'", prints="memory high, cycle 7 of its test\n"),
    Call(f"{AT_LINE} 'unit 8 cycle 88 expected 00 returned 02'", status=2, says="locate: the unit is 0 to 7"),
    Call(f"{AT_LINE} 'cycle 88 expected 00 returned 02'", status=2, says="locate: --line has 'unit U cycle C"),
    Call(
        f"{AT_LINE} 'unit 5 cycle 88 expected 00 returned 02' 88 00100000",
        status=2,
        says="locate: --line has 'unit U cycle C",
    ),
]
# the lowest bit of each macro is wrong where something is planted; the chip's pins are at rest
WHOLE_TAP = f"""joins_tap tap({PINS_OF_TAP},
    .planted(planted ? 21'o4444444 : 21'd0), .planted_bit(7'd0), .numbered(3'd0)AT_REST);"""
INPUT = re.compile(r"^  input (?!wire)(?:\[(\d+):0\] )?(\w+)", re.MULTILINE)
OF_TAP = {"clk", "tck", "tms", "tdi", "trst_n"}
# of some memories the first failure. By hand: masked has six words and a latency of two, so the first word that is read
# comes in cycle 6 + 1 + 2; left has eight words and a latency of one. High is the upper part of a word, and is right
FIRSTS = {0: (9, "0x01"), 1: (10, "0x1"), 4: (88, "0x1"), 6: (96, "0x1"), 7: (195, "0x01"), 5: None}


def written(bench: Bench, folder: str, words: list[str]) -> None:
    """A folder with the joined chip, and what stands round it."""
    for call in (["tools/top", JOINS, *PINS, folder, "--access"], ["tools/access", JOINS, *PINS, folder, *words]):
        done = bench.run(call)
        bench.is_so(not done.returncode, f"{' '.join(call)}: {done.stderr}")


def run(bench: Bench, folder: str, kind: str, more: str) -> str:
    """What a testbench prints, with its last line where it ended with a status."""
    build = f"cd {folder} && iverilog -g2012 -Wall -Wno-timescale -o tb_{kind} -c joins_{kind}.f"
    done = bench.run(["bash", "-c", f"{build} && vvp -n tb_{kind} {more}"])
    return done.stdout + done.stderr + (f"status {done.returncode}\n" if done.returncode else "")


def player(bench: Bench, folder: str) -> None:
    """Compiles what plays cycles to the TAP of the whole."""
    pins = INPUT.findall((bench.folder / folder / "joins_tap.v").read_text())
    at_rest = "".join(f", .{name}({int(high or 0) + 1}'d0)" for high, name in pins if name not in OF_TAP)
    whole = WHOLE_TAP.replace("AT_REST", at_rest)
    text = "`define VIDLAKOST_PLANTED\n" + PLAYER.replace("BOARD", whole)
    (bench.folder / folder / "player.v").write_text(text)
    files = "player.v $(grep -v '^//\\|_tb.sv' joins_tap.f)"
    done = bench.run(["bash", "-c", f"cd {folder} && iverilog -g2012 -Wno-timescale -o player.vvp {files}"])
    bench.is_so(not done.returncode, f"{folder}: {done.stderr}")


def reading(bench: Bench, folder: str) -> list[Cycle]:
    """The cycles of the written procedures, in which the first failure of each memory has to be what it is by hand."""
    here = bench.folder / folder
    session = Session(icl.read((here / "joins.icl").read_text()), bsdl.read((here / "joins.bsdl").read_text()))
    text = (here / "joins.pdl").read_text()
    cycles = [*session.begin()]
    started = pdl.read(re.sub(r"  iRead (fail|seen) 0b0;\n", "", text))
    cycles += session.run(started, "joins_register", "run_bist")
    for unit, first in FIRSTS.items():
        if first is None:
            wanted = {"seen": "0b0"}
        else:
            cycle, word = first
            wanted = {"seen": "0b1", "unit": str(unit), "cycle": str(cycle), "expected": "0x0", "returned": word}
        told = text
        for name, value in wanted.items():
            told = told.replace(f"  iRead {name};", f"  iRead {name} {value};")
        others = f"0x{255 - (1 << unit):x}"
        cycles += session.run(pdl.read(told), "joins_register", "read_first", others)
    cycles += session.run(pdl.read(text), "joins_register", "end_bist")
    return cycles


# how a file for a tester is spoilt, and how the TAP is: what is read differs, or the file is refused
SPOILT = [
    ("pdl", "iWrite ignore $others;\n  iApply;", "iWrite ignore $others;"),
    ("pdl", "iWrite ignore $others;", "iWrite ignore 0;"),
    ("pdl", "iWrite ignore $others;", "iWrite ignore $other;"),
    ("icl", "Alias ignore[7:0] = data[70:63];", "Alias ignore[7:0] = data[62:55];"),
    ("icl", "Alias unit[2:0] = data[54:52];", "Alias unit[2:0] = data[55:53];"),
    ("icl", "InputPort from_so = bist.so;", "InputPort from_so = from_so;"),
    ("v", "ignore <= data[70:63];", "ignore <= data[69:62];"),
    ("v", "unit : 3'd0", "3'd0 : unit"),
    ("v", "{ignore, has_failed", "{8'd0, has_failed"),
]


def each_behind_bits(bench: Bench) -> None:
    """With --each behind segment insertion bits the first failure of each memory is read behind one run: by the
    testbench, and by the procedures of PDL."""
    if not shutil.which("iverilog"):
        print("iverilog is not installed, so no joined chip is run")
        return
    written(bench, "bits", ["--jtag", "--each", "--sib"])
    for more, told in (("", "fail 00000000\n"), ("+each", "memory 6 cycle 96 expected 00 returned 01\n")):
        said = run(bench, "bits", "tap", more)
        bench.is_so(told in said and said.endswith("joins_tap_tb: passed\n"), f"bits {more}: {said}")
    player(bench, "bits")
    compared, wrong = in_icarus(bench, "bits", reading(bench, "bits"), "+planted")
    bench.is_so(compared > 200 and wrong == 0, f"bits: of {compared} bits {wrong} are wrong")
    compared, wrong = in_icarus(bench, "bits", reading(bench, "bits"))
    bench.is_so(wrong > 0, "bits: of sound memories the procedures read failures")
    for ending, old, new in SPOILT:
        path = bench.folder / "bits" / (f"joins.{ending}" if ending != "v" else "joins_tap.v")
        right = path.read_text()
        bench.is_so(old in right, f"{old!r} does not stand in {path.name}")
        path.write_text(right.replace(old, new, 1))
        if ending == "v":
            player(bench, "bits")
        try:
            wrong = in_icarus(bench, "bits", reading(bench, "bits"), "+planted")[1]
            bench.is_so(wrong > 0, f"{path.name} with {new!r} is taken")
        except ToolError:
            bench.count += 1
        path.write_text(right)


# what is planted, a memory and a bit, and what `bitmap` says of the log of each run: each word is wrong in each of its
# five reads. Left has a second port, whose words are right
PLANTED = [
    (5, 1, ["column: 4 cells in 20 reads\n", "column: 4 cells in 20 reads\n"]),
    (1, 2, ["column: 8 cells in 40 reads\n", "no read of the second run was wrong"]),
    (0, 7, ["column: 6 cells in 30 reads\n", "column: 6 cells in 30 reads\n"]),
]
# how what is written of the logs is spoilt; one of the runs tells it
WRONG = [
    ("joins_system.v", "assign asks[6] = n_kept_en & ~n_kept_we;", "assign asks[6] = n_kept_en;"),
    ("joins_system.v", "assign asks[1] = n_left_en", "assign asks[1] = n_right_en"),
    ("joins_access.v", ".asks(asks)", ".asks()"),
    ("joins_access.v", ".en(asks[5])", ".en(asks[4])"),
    ("joins_access.v", ".wdata(wdata_1)", ".wdata(wdata_2)"),
    ("joins_access.v", "masked_log log_0(.clk(clk), .test(test)", "masked_log log_0(.clk(clk), .test(1'b1)"),
    ("joins_access.v", ".pick(log_pick)", ".pick()"),
    ("joins_access.v", "log_unit == 3'd4 ? log_more_of_4", "log_unit == 3'd4 ? log_more_of_5"),
    ("joins_tap.v", ".log_returned(log_returned_now)", ".log_returned(log_expected_now)"),
    ("joins_tap.v", ".log_unit(log_unit)", ".log_unit(3'd0)"),
    ("joins_tap.v", "assign log_last = log_ends & log_unit == 3'd7;", "assign log_last = log_ends & log_unit == 3'd6;"),
]


def log_in(text: str) -> list[str]:
    """The lines of the logs."""
    return [line for line in text.splitlines() if line.startswith("unit ")]


def logs(bench: Bench) -> None:
    """The log of each memory is the same by APB, by the TAP and at the ports of NAME_access, and each read in it is one
    of its march; in a sound chip all are empty."""
    if not shutil.which("iverilog"):
        return
    written(bench, "logs", ["--apb", "--jtag", "--log", "64"])
    for unit, bit, wanted in PLANTED:
        found = []
        for kind in ("access", "apb", "tap"):
            said = run(bench, "logs", kind, f"+planted +unit={unit} +bit={bit}")
            bench.is_so(said.endswith(f"joins_{kind}_tb: passed\n"), f"logs, {kind}, {unit}: {said}")
            found.append(log_in(said))
        bench.is_so(found[0] == found[1] == found[2] != [], f"logs of {unit}: {found}")
        (bench.folder / "unit.log").write_text(said)
        for told, second in zip(wanted, ("", "--second")):
            call = ["tools/bitmap", "unit.log", JOINS, *PINS, "--unit", str(unit), *filter(None, [second])]
            done = bench.run(call)
            bench.is_so(told in done.stdout + done.stderr, f"logs of {unit}: {done.stdout}{done.stderr}")
        # as if the bit were stuck at 1
        stuck = [line for line in log_in(said) if not int(line.split()[5], 16) >> bit & 1]
        (bench.folder / "unit.log").write_text("\n".join([*stuck, ""]))
        done = bench.run(["tools/diagnosis", "unit.log", JOINS, *PINS, "--unit", str(unit)])
        bench.is_so(f"data bit {bit} stuck at 1" in done.stdout, f"logs of {unit}: {done.stdout}{done.stderr}")
    for kind in ("access", "apb", "tap"):
        said = run(bench, "logs", kind, "")
        bench.is_so(not log_in(said) and said.endswith(f"joins_{kind}_tb: passed\n"), f"logs, {kind}: {said}")


def logs_behind_bits(bench: Bench) -> None:
    """Short logs behind segment insertion bits, read by the testbench and by the procedures of PDL; what is spoilt is
    told."""
    if not shutil.which("iverilog"):
        return
    written(bench, "short", ["--jtag", "--sib", "--each", "--log", "3"])
    said = run(bench, "short", "tap", "+each")
    told = log_in(said)
    begins = [*(f"unit 0 cycle {cycle} expected 00 returned 01" for cycle in (9, 11, 13)), "unit 0 more"]
    holds = said.endswith("joins_tap_tb: passed\n") and told[:4] == begins and len(told) == 7 * 4
    bench.is_so(holds, f"short: {said}")
    player(bench, "short")
    compared, wrong = in_icarus(bench, "short", entries(bench, told), "+planted")
    bench.is_so(compared > 22 * 50 and wrong == 0, f"short: of {compared} bits {wrong} are wrong")
    for name, old, new in WRONG:
        path = bench.folder / "short" / name
        right = path.read_text()
        bench.is_so(old in right, f"{old!r} does not stand in {name}")
        path.write_text(right.replace(old, new, 1))
        runs = [run(bench, "short", "tap", more) for more in ("", "+each", "+planted +unit=1", "+planted +unit=5")]
        bench.is_so(not all(said.endswith("passed\n") for said in runs), f"{name} with {new!r} passes")
        path.write_text(right)


def entries(bench: Bench, told: list[str]) -> list[Cycle]:
    """The cycles of the written procedures, in which each entry has to be what the testbench printed, and the log of
    memory 5 is empty."""
    here = bench.folder / "short"
    session = Session(icl.read((here / "joins.icl").read_text()), bsdl.read((here / "joins.bsdl").read_text()))
    text = (here / "joins.pdl").read_text()
    cycles = [*session.begin()]
    cycles += session.run(pdl.read(re.sub(r"  iRead (fail|seen) 0b0;\n", "", text)), "joins_register", "run_bist")
    read = [line.split() for line in told if "cycle" in line]
    rows = [("1", words[1], words[3], f"0x{words[5]}", f"0x{words[7]}") for words in read]
    rows.insert(next(at for at, row in enumerate(rows) if row[1] == "6"), ("0", "5", "0", "0", "0"))
    for number, row in enumerate(rows, 1):
        wanted = dict(zip(("valid", "unit", "cycle", "expected", "returned"), row))
        wanted.update(last=str(int(number == len(rows))), more=row[0])
        asked = text
        for name, value in wanted.items():
            asked = re.sub(rf"(_log_register;.*?)  iRead {name};", rf"\1  iRead {name} {value};", asked, 1, re.DOTALL)
        cycles += session.run(pdl.read(asked), "joins_log_register", "read_entry")
    cycles += session.run(pdl.read(text), "joins_register", "end_bist")
    return cycles


PARTS = [each_behind_bits, logs, logs_behind_bits]
