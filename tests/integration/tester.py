"""The files for a tester of a TAP: readers of their standards take them, and what they ask for is played in Icarus,
to a sound memory and to one with a stuck bit. A file that is spoilt is refused, or its run differs."""
from __future__ import annotations

import pathlib
import shutil
from typing import Callable, List

from tests.integration.access import JOINS, PINS, played, stands
from tests.integration.bench import Bench
from tests.integration.call import Call
from vidlakost_tools.tester_files import bsdl, icl, pdl, stil, wgl
from vidlakost_tools.tester_files.cycles import Cycle, joined, listing
from vidlakost_tools.tester_files.retarget import Session
from vidlakost_tools.tool import ToolError

PLAYER = """`timescale 1ns / 1ps
module player;
  reg clk = 1'b0;
  initial forever #5 clk = ~clk;
  reg tck = 1'b0, tms = 1'b1, tdi = 1'b0, trst_n = 1'b1, planted;
  wire tdo, tdo_en, test;
  BOARD
  integer file, got, new_tms, new_tdi, new_trst_n, times, compared = 0, wrong = 0;
  reg [7:0] wanted;
  initial begin
    planted = $test$plusargs("planted");
    file = $fopen("cycles.txt", "r");
    got = $fscanf(file, "%d %d %d %c %d", new_tms, new_tdi, new_trst_n, wanted, times);
    while (got == 5) begin
      repeat (times) begin
        {tms, tdi, trst_n} = {new_tms[0], new_tdi[0], new_trst_n[0]};
        #45 if (wanted != "x") compared = compared + 1;
        if (wanted != "x" && (tdo !== (wanted == "1") || tdo_en !== 1'b1)) wrong = wrong + 1;
        #5 tck = 1'b1;
        #40 tck = 1'b0;
        #10;
      end
      got = $fscanf(file, "%d %d %d %c %d", new_tms, new_tdi, new_trst_n, wanted, times);
    end
    $display("compared %0d wrong %0d test %b", compared, wrong, test);
    $finish;
  end
endmodule
"""
PINS_OF_TAP = ".clk(clk), .tck(tck), .tms(tms), .tdi(tdi), .trst_n(trst_n), .tdo(tdo), .tdo_en(tdo_en), .test(test)"
LATE_BOARD = f"""late_board board({PINS_OF_TAP},
    .planted(planted), .at_unit(10'd0), .at_address(16'd3), .at_bit(6'd0), .at_value(1'b1));"""
WAYS: list[list[str]] = [[], ["--log", "3"], ["--sib"], ["--sib", "--log", "3", "--idcode", "2468ACE1"]]
CALLS: List[Call] = [
    Call("tools/access late.mem acc --sib", status=2, says="access: --sib needs --jtag"),
    *(
        Call(f"tools/access pair.chip acc6 --jtag --idcode {word}", status=2, says="access: --idcode has eight")
        for word in ("1", "12345678", "000000ff", "1234567g", "112345679")
    ),
    Call("tools/locate access.m late.mem 7 --sib", status=2, says="locate: --sib needs --tdr"),
    Call("tools/locate access.m late.mem --tdr 16a00000029f --sib", status=2, says="locate: bit 46 of"),
]
# how a file is spoilt; each is of a TAP with a network and a log
SPOILT = [
    ("bsdl", "BIST (1000)", "BIST (1001)"),
    ("bsdl", "BYPASS (1111)", "BYPASS (1110)"),
    ("bsdl", "BISTREG[2]", "BISTREG[46]"),
    ("bsdl", '"0001"', '"0010"'),
    ("bsdl", "tdo : out bit", "tdo : in bit"),
    ("bsdl", "TAP_SCAN_IN of tdi", "TAP_SCAN_IN of tms"),
    ("bsdl", "IDCODE (0010)", "IDCODE (0011)"),
    ("bsdl", '"00100100011010001010110011100001"', '"00100100011010001010110011100011"'),
    ("bsdl", "end late_tap;", "end late;"),
    ("icl", "Alias done = data[1];", "Alias done = data[2];"),
    ("icl", "Alias start = data[0];", "Alias start = data[1];"),
    ("icl", "data[45:0] {", "data[44:0] {"),
    ("icl", "1'b1 : from_so;", "1'b1 : bit;"),
    ("icl", "1'b0 : bit;", "1'b1 : bit;"),
    ("icl", "ScanOutPort to_si { Source bit; }", "ScanOutPort to_si { Source si; }"),
    ("icl", "InputPort si = log_sib.so;", "InputPort si = si;"),
    ("icl", "InputPort from_so = bist.so;", "InputPort from_so = log.so;"),
    ("icl", "InputPort sel = bist_sib.to_sel;", ""),
    ("icl", "Source bist_sib.so", "Source log_sib.so"),
    ("icl", "BSDLEntity late_tap;", "BSDLEntity late;"),
    ("icl", "network.client", "network.host"),
    ("icl", "CaptureSource bit;", "CaptureSource si, bit;"),
    ("pdl", "iWrite start 0b1;", "iWrite start 0b2;"),
    ("pdl", "iWrite start 0b1;", "iWrite start 0b0;"),
    ("pdl", "iWrite start 0b1;", "iWrite begin 0b1;"),
    ("pdl", "iRead done 0b1;", "iRead done 0b0;"),
    ("pdl", "iRead seen 0b0;\n  iApply;", "iRead seen 0b0;"),
    ("pdl", "iProcsForModule late_register;", "iProcsForModule late;"),
    ("pdl", "iRunLoop 181 -tck;", "iRunLoop 1 -tck;"),
    ("stil", "PatternBurst run {", "PatternBurst other {"),
    ("stil", "'45ns' L/H/X", "'95ns' L/H/X"),
    ("stil", "'50ns' U", "'40ns' U"),
    ("stil", "Loop 181 {", "Loop 1 {"),
    ("stil", "P011X; }", "P001X; }"),
    ("stil", "tms In; tdi In;", "tdi In; tms In;"),
    ("wgl", "45nS:Q", "95nS:Q"),
    ("wgl", "repeat 181 ", ""),
    ("wgl", "(tck, tms, tdi", "(tck, tdi, tms"),
    ("wgl", "[1 1 0 1 X]", "[1 1 0 1 Z]"),
    ("wgl", "tdo : output;", "tdo : input;"),
]


def asked(folder: pathlib.Path) -> list[Cycle]:
    """What the procedures of PDL ask for, by ICL and BSDL."""
    session = Session(icl.read((folder / "late.icl").read_text()), bsdl.read((folder / "late.bsdl").read_text()))
    told = pdl.read((folder / "late.pdl").read_text())
    calls = [("late_register", "run_bist"), *[("late_log_register", "read_entry")] * 2, ("late_register", "end_bist")]
    cycles = [*session.begin(), *session.identify()]
    for module, name in calls:
        if module in told or module == "late_register":
            cycles += session.run(told, module, name)
    return cycles


def run_of(ending: str) -> Callable[[pathlib.Path], list[Cycle]]:
    """The reader of a file of vectors, or of those that ask for a run together."""
    readers = {"stil": stil.read, "wgl": wgl.read}
    if ending not in readers:
        return asked
    return lambda folder: readers[ending]((folder / f"late.{ending}").read_text())


def in_icarus(bench: Bench, folder: str, cycles: list[Cycle], more: str = "") -> tuple[int, int]:
    """How many bits were compared on TDO, and how many are wrong; the self-test runs no more afterwards."""
    (bench.folder / folder / "cycles.txt").write_text(listing(joined(cycles)))
    said = bench.run(["bash", "-c", f"cd {folder} && vvp -n player.vvp {more}"]).stdout.split()
    bench.is_so(said[-2:] == ["test", "0"], f"{folder}: the player says {said}")
    return int(said[1]), int(said[3])


def compiled(bench: Bench, folder: str, words: list[str]) -> None:
    """A folder with a TAP, and the player compiled for it."""
    stands(bench, folder, words)
    (bench.folder / folder / "player.v").write_text(PLAYER.replace("BOARD", LATE_BOARD))
    files = [f"late_{part}.v" for part in ("board", "tap", "cross", "access", "model", "bist", "sib", "log")]
    here = " ".join(name for name in files if (bench.folder / folder / name).exists())
    done = bench.run(["bash", "-c", f"cd {folder} && iverilog -g2012 -o player.vvp player.v {here}"])
    bench.is_so(not done.returncode, f"{folder}: {done.stderr}")


def plays(bench: Bench) -> None:
    """STIL, WGL, and PDL by ICL and BSDL: each finds nothing in a sound memory, and the stuck bit in another."""
    if not shutil.which("iverilog"):
        print("iverilog is not installed, so no file for a tester is played")
        return
    for words in WAYS:
        folder = "tester" + "".join(words).replace("-", "_")
        compiled(bench, folder, words)
        for ending in ("stil", "wgl", "pdl"):
            cycles = run_of(ending)(bench.folder / folder)
            found = [in_icarus(bench, folder, cycles, more) for more in ("", "+planted")]
            holds = found[0][0] >= 35 and found[0][1] == 0 < found[1][1]
            bench.is_so(holds, f"{folder}: {ending} compares and finds wrong {found}")
    spoils(bench, folder)


def spoils(bench: Bench, folder: str) -> None:
    """A file that is spoilt is refused, or its run in a sound memory differs, or finds nothing in another."""
    for ending, old, new in SPOILT:
        path = bench.folder / folder / f"late.{ending}"
        right = path.read_text()
        bench.is_so(old in right, f"{old!r} does not stand in {path.name}")
        path.write_text(right.replace(old, new, 1))
        try:
            cycles = run_of(ending)(bench.folder / folder)
            told = [in_icarus(bench, folder, cycles, more)[1] for more in ("", "+planted")]
            is_told = told[0] > 0 or told[1] == 0
            bench.is_so(is_told, f"{path.name} with {new!r} is taken, and its runs find {told} wrong")
        except ToolError:
            bench.count += 1
        path.write_text(right)


# what a segment insertion bit may be in a wrong TAP
WRONG_BITS = [
    ("late_sib.v", "so = held ? from_so : shifted", "so = shifted"),
    ("late_sib.v", "held <= 1'b0", "held <= 1'b1"),
    ("late_sib.v", "held <= shifted", "held <= 1'b0"),
    ("late_sib.v", "to_si = shifted", "to_si = si"),
    ("late_sib.v", "to_sel = sel & held", "to_sel = sel"),
    ("late_tap.v", "if (log_sel) begin", "begin"),
    ("late_tap.v", ".si(log_so)", ".si(tdi)"),
]


def with_bits(bench: Bench) -> None:
    """The testbench behind segment insertion bits, of wrong ones too, the same by OpenOCD, and what `locate` says of
    the scan."""
    if not shutil.which("iverilog"):
        return
    stands(bench, "sib", ["--sib", "--log", "3"])
    files = "late_tap_tb.sv late_tap.v late_sib.v late_cross.v late_access.v late_log.v late_model.v late_bist.v"
    done = bench.run(["bash", "-c", f"cd sib && iverilog -g2012 -Wall -o tb {files} && vvp -n tb"])
    bench.is_so(done.stdout.endswith("late_tap_tb: passed\n") and not done.stderr, f"sib: {done.stdout}{done.stderr}")
    planted = "+planted +address=3 +value=1"
    done = bench.run(["bash", "-c", f"cd sib && vvp -n tb {planted}"])
    holds = "cycle 121 expected 00 returned 01\nmore\n" in done.stdout and not done.returncode
    bench.is_so(holds, f"sib: {done.stdout}")
    right_log = [line for line in done.stdout.splitlines() if line.startswith("cycle ")]
    for name, old, new in WRONG_BITS:
        path = bench.folder / "sib" / name
        right = path.read_text()
        bench.is_so(old in right, f"{old!r} does not stand in {name}")
        path.write_text(right.replace(old, new))
        runs = " && ".join(f"timeout 300 vvp -n wrong {more}" for more in ("", planted))
        call = f"cd sib && iverilog -g2012 -o wrong {files} && {runs}"
        done = bench.run(["bash", "-c", call])
        log = [line for line in done.stdout.splitlines() if line.startswith("cycle ")]
        bench.is_so(done.returncode != 0 or log != right_log, f"{name} with {new!r} passes: {done.stdout}")
        path.write_text(right)
    by_openocd(bench, "sib")


def passed(bench: Bench, folder: str, files: str, bench_name: str, more: str, told: str) -> str:
    """What a testbench prints that passes, and in which something is told."""
    call = f"cd {folder} && iverilog -g2012 -Wall -Wno-timescale -o tb {files} && vvp -n tb {more}"
    done = bench.run(["bash", "-c", call])
    holds = told in done.stdout and done.stdout.endswith(f"{bench_name}: passed\n") and not done.stderr
    bench.is_so(holds, f"{folder} {more}: {done.stdout}{done.stderr}")
    return "".join(line.split()[1] for line in done.stdout.splitlines() if line.startswith("tdr "))


def of_several(bench: Bench) -> None:
    """The same of a chip with the logs of its units, and of a whole chip in its folder."""
    if not shutil.which("iverilog"):
        return
    (bench.folder / "several").mkdir()
    (bench.folder / "taps.mem").write_text("memory 1\nname wide\nwords 4\nbits 7\n")
    units = "unit 2 access.m late.mem\nunit 2 access.m taps.mem\n"
    (bench.folder / "taps.chip").write_text(f"chip 1\nname two\nbudget 3\n{units}")
    bench.run(["./vidlakost", "chip", "taps.chip", "several/two.v"])
    done = bench.run(["tools/access", "taps.chip", "several", "--jtag", "--sib", "--log", "4"])
    bench.is_so(not done.returncode, f"several: {done.stderr}")
    files = "two_tap_tb.sv two_tap.v two_sib.v two_cross.v two_access.v late_log.v wide_log.v two_model.v two.v"
    passed(bench, "several", files, "two_tap_tb", "", "fail 00\n")
    read = passed(bench, "several", files, "two_tap_tb", "+planted +unit=1 +address=2 +bit=6 +value=1", "unit 1 cycle ")
    told = bench.run(["tools/locate", "taps.chip", "--chip", "--tdr", read]).stdout
    bench.is_so("fail 1 wide\n" in told and "address 2\nbits 6\n" in told, f"several: {told}")
    bench.run(["tools/top", JOINS, *PINS, "joined", "--access"])
    done = bench.run(["tools/access", JOINS, *PINS, "joined", "--jtag", "--sib"])
    bench.is_so(not done.returncode, f"joined: {done.stderr}")
    passed(bench, "joined", "-c joins_tap.f", "joins_tap_tb", "", "fail 00000000\n")
    told = "fail 00100000 unit 5 cycle 88"
    read = passed(bench, "joined", "-c joins_tap.f", "joins_tap_tb", "+planted +unit=5 +bit=1", told)
    told = bench.run(["tools/locate", JOINS, *PINS, "--whole", "--tdr", read]).stdout
    bench.is_so("cycle 88 expected 00 returned 02" in told, f"joined: {told}")


def by_openocd(bench: Bench, folder: str) -> None:
    """OpenOCD plays the SVF to a model with segment insertion bits, and reads the log through them."""
    if not all(map(shutil.which, ("openocd", "verilator", "make"))):
        print("openocd or verilator is not installed, so no SVF is played through segment insertion bits")
        return
    parts = ("board", "tap", "sib", "cross", "access", "log", "model", "bist")
    files = " ".join([*(f"late_{part}.v" for part in parts), "late_socket.cpp"])
    build = f"verilator --cc --exe --build -Wall --prefix Vboard --top-module late_board --Mdir built {files}"
    done = bench.run(["bash", "-c", f"cd {folder} && {build}"])
    said = done.stdout + done.stderr
    bench.is_so(not done.returncode and "Warning" not in said, f"{folder}: {said}")
    said = played(bench, "svf late.svf", [], folder)
    bench.is_so("0 errors" in said, f"openocd, segment insertion bits: {said}")
    said = played(bench, "svf late.svf", ["0", "3", "0", "1"], folder)
    read = said.partition("READ = ")[2].split()[:1]
    told = bench.run(["tools/locate", "access.m", "late.mem", "--tdr", *(read or ["0"]), "--sib"]).stdout
    bench.is_so("index 6 " in told and "bits 0\n" in told, f"openocd, segment insertion bits: {said}{told}")
    said = played(bench, "source late_log.tcl; run_and_read", ["0", "3", "0", "1"], folder)
    holds = "\nmore\n" in said and said.count("cycle ") == 3
    bench.is_so(holds, f"openocd, the log behind segment insertion bits: {said}")
    (bench.folder / "taps.log").write_text(said)
    told = bench.run(["tools/bitmap", "taps.log", "access.m", "late.mem"]).stdout
    bench.is_so("index 6 address 3 bit 0 wrong 3" in told, f"openocd, the log: {said}{told}")


PARTS = [plays, with_bits, of_several]
