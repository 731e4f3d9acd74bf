"""What a tester reads of a chip that fails: each file that is written for it is played to a sound chip and to one in
which one bit of one read is wrong, and what comes back is compared with where that was planted."""
from __future__ import annotations

import concurrent.futures
import os
import pathlib
import re
import shutil
from typing import Iterator

from tests.integration.access import CAMERA, PLACED
from tests.integration.bench import Bench
from tests.integration.failing_chip import (
    MACROS,
    MEMORIES,
    PLAYER,
    Fault,
    bits_of,
    commands,
    faults,
    round_memories,
    simulated,
    written,
)
from vidlakost_tools.tester_files import bsdl, icl, pdl, stil, svf, wgl
from vidlakost_tools.tester_files.cycles import Cycle, joined, listing
from vidlakost_tools.tester_files.retarget import Session

# the slowest clock of all, in megahertz, and how fast TCK is beside it: that of STIL and WGL, that which BSDL allows
SLOWEST, TCK = 4, {"svf": 33.0, "stil": 10.0, "wgl": 10.0, "pdl": 20.0}
BUS = """`timescale 1ns / 1ps
module player;
AROUND
  reg pclk = 1'b0, presetn = 1'b0, psel = 1'b0, penable = 1'b0, pwrite = 1'b0;
  reg [11:0] paddr = 12'd0;
  reg [31:0] pwdata = 32'd0, heard;
  wire [31:0] prdata;
  wire pready, pslverr;
  initial forever #PERIOD pclk = ~pclk;
  task transfer(input [11:0] where, input is_write, input [31:0] data);
    begin
      @(posedge pclk);
      #1 {psel, penable, pwrite} = {1'b1, 1'b0, is_write};
      {paddr, pwdata} = {where, data};
      @(posedge pclk);
      #1 penable = 1'b1;
      @(posedge pclk);
      heard = prdata;
      if (pready !== 1'b1 || pslverr !== 1'b0) $display("transfer to %h is not taken", where);
      #1 {psel, penable} = 2'b00;
    end
  endtask
  initial begin
    #2000 presetn = 1'b1;
    transfer(12'hCONTROL, 1'b1, 32'd1);
    heard = 32'd0;
    while (heard[1] !== 1'b1) transfer(12'hSTATUS, 1'b0, 32'd0);
READS
    $finish;
  end
endmodule
"""
# of a TAP the state behind each one, where tms is 0 and where it is 1
NEXT = {
    "reset": ("idle", "reset"), "idle": ("idle", "select"), "select": ("capture", "select_ir"),
    "capture": ("shift", "exit"), "shift": ("shift", "exit"), "exit": ("pause", "update"), "pause": ("pause", "exit_2"),
    "exit_2": ("shift", "update"), "update": ("idle", "select"), "select_ir": ("capture_ir", "reset"),
    "capture_ir": ("shift_ir", "exit_ir"), "shift_ir": ("shift_ir", "exit_ir"), "exit_ir": ("pause_ir", "update_ir"),
    "pause_ir": ("pause_ir", "exit_2_ir"), "exit_2_ir": ("shift_ir", "update_ir"), "update_ir": ("idle", "select"),
}


def scans(cycles: list[Cycle], heard: str) -> Iterator[tuple[str, str]]:
    """Of each scan of a data register what was to be compared and what came, the first bit last."""
    state, wanted, came, at = "reset", "", "", 0
    for one in cycles:
        for _ in range(one.times):
            if state == "shift":
                wanted, came = one.tdo + wanted, heard[at] + came
            state = NEXT[state][one.tms] if one.trst_n else "reset"
            at += 1
            if state == "update":
                yield wanted, came
                wanted = came = ""


def wrong(cycles: list[Cycle], heard: str) -> tuple[int, str]:
    """How many bits of a run are not as the file wants them, and the last scan in which bits are compared, in digits;
    the shorter ones are the identity and the bits of a network."""
    compared = [(wanted, came) for wanted, came in scans(cycles, heard) if set(wanted) != {"X"}]
    count = sum(one not in ("X", told) for wanted, came in compared for one, told in zip(wanted, came))
    last = [came for wanted, came in compared if len(wanted) > 32][-1]
    if "x" in last:
        return count, f"unknown: {last}"
    return count, f"{int(last, 2):0{-(-len(last) // 4)}x}"


def cycles_of(folder: pathlib.Path, ending: str) -> list[Cycle]:
    """What a file asks of a TAP."""
    text = (folder / f"chip.{ending}").read_text()
    if ending == "pdl":
        session = Session(icl.read((folder / "chip.icl").read_text()), bsdl.read((folder / "chip.bsdl").read_text()))
        return [*session.begin(), *session.identify(), *session.run(pdl.read(text), "chip_register", "run_bist")]
    if ending == "svf":
        return svf.read(text, TCK["svf"])
    return stil.read(text) if ending == "stil" else wgl.read(text)


class Chip:
    """One of the chips, in a folder of its own: joined or in place, with clocks faster or slower than TCK."""

    def __init__(self, bench: Bench, is_placed: bool, is_slow: bool, more: list[str], depth: int = 0):
        self.bench, self.is_placed, self.is_slow, self.has_sib = bench, is_placed, is_slow, "--sib" in more
        self.depth = depth
        kinds = ["logged"] * (depth > 0) + ["placed" if is_placed else "joined", "slow" if is_slow else "fast", *more]
        self.name = "_".join(kinds).replace("-", "")
        self.words = written(bench, self.name)
        self.folder = bench.folder / self.name
        self.faults = faults(bench, self.name)
        models = [word for macro in MACROS for word in ("--model", f"{self.name}/{macro}.v")]
        way = ["--in-place", *(["--log", str(depth)] if depth else [])] if is_placed else ["--access"]
        self.call("tools/top", *self.words, self.name, *way, *models)
        slow = ["--mhz", str(SLOWEST)] if is_slow else []
        way = ["--in-place"] if is_placed else []
        self.call("tools/access", *self.words, self.name, *way, "--apb", "--jtag", *slow, *more)

    def call(self, *words: str) -> str:
        done = self.bench.run(list(words))
        self.bench.is_so(not done.returncode, f"{words}: {done.stderr}")
        return done.stdout

    def compiled(self, kind: str, text: str) -> None:
        """A player of one bus, beside the chip."""
        around = round_memories(self.bench, self.name, kind, self.is_placed, self.is_slow)
        (self.folder / f"player_{kind}.sv").write_text(text.replace("AROUND", around))
        turn = {"jtag": "tap", "apb": "apb"}[kind]
        listed = (self.folder / f"chip_{turn}.f").read_text().splitlines()
        here = [name for name in listed if name and not name.startswith("//") and not name.endswith("_tb.sv")]
        if self.is_placed:
            own = (self.folder / "files.f").read_text().splitlines()
            here += [name for name in own if name and not name.startswith("//") and name not in here]
        call = f"cd {self.name} && iverilog -g2012 -o {kind}.vvp player_{kind}.sv {' '.join(dict.fromkeys(here))}"
        done = self.bench.run(["bash", "-c", call])
        self.bench.is_so(not done.returncode, f"{self.name}, {kind}: {done.stderr}")

    def located(self, digits: str) -> str:
        """What `locate` says of a register."""
        way = "--in-place" if self.is_placed else "--whole"
        more = ["--sib"] * self.has_sib + ["--log"] * (self.depth > 0)
        done = self.bench.run(["tools/locate", *self.words, way, "--tdr", digits, *more])
        return done.stdout + done.stderr

    def is_found(self, fault: Fault, said: str) -> bool:
        """Whether what is said names the memory, the cycle of its test, the address and the bit."""
        number = fault.placed if self.is_placed else fault.joined
        shown = MACROS[fault.macro][0][0] if self.is_placed else fault.memory
        wanted = ["done", f"fail {number} {shown}", f"memory {fault.memory}, cycle {fault.cycle} of its test"]
        words = [f"address {fault.address}", f"bits {fault.bit}"]
        return all(f"\n{line}\n" in f"\n{said}\n" for line in wanted) and all(
            re.search(rf"\b{word}\b", said) for word in words
        )

    def heard(self, ending: str, cycles: list[Cycle], more: list[str]) -> tuple[int, str]:
        """How much of a run is wrong, and the digits that come."""
        name = f"heard_{ending}_{'_'.join(more).strip('+')}.txt"
        period = 1000 / TCK[ending]
        words = " ".join([f"+period={period}", f"+heard={name}", *more])
        self.bench.run(["bash", "-c", f"cd {self.name} && vvp -n jtag.vvp {words}"])
        return wrong(cycles, (self.folder / name).read_text())

    def plays(self, ending: str) -> None:
        """A file finds nothing in a sound chip, and of each fault what it is."""
        cycles = cycles_of(self.folder, ending)
        (self.folder / "cycles.txt").write_text(listing(joined(cycles)))
        told = f"{self.name}, {ending}"
        count, digits = self.heard(ending, cycles, [])
        state = int(digits, 16) & 15 if digits[0] != "u" else digits
        self.bench.is_so(count == 0 and state == 3, f"{told}: {count} bits of a sound chip are wrong, {digits}")
        with concurrent.futures.ThreadPoolExecutor(os.cpu_count()) as workers:
            found = list(workers.map(lambda fault: self.heard(ending, cycles, fault.words), self.faults))
            said = list(workers.map(lambda one: self.located(one[1]), found))
        for fault, (count, digits), lines in zip(self.faults, found, said):
            self.bench.is_so(count > 0 and self.is_found(fault, lines), f"{told}: {fault}: {count}, {digits}, {lines}")

    def plays_files(self, endings: list[str]) -> None:
        """Plays some files; WGL asks for what STIL asks for."""
        self.compiled("jtag", PLAYER)
        vectors = [list(joined(cycles_of(self.folder, ending))) for ending in ("stil", "wgl")]
        self.bench.is_so(vectors[0] == vectors[1], f"{self.name}: WGL asks for other vectors than STIL")
        for ending in endings:
            self.plays(ending)

    def plays_log(self, macro: str, bit: int, begins: int) -> None:
        """The procedure of PDL reads each entry of a log: those of the first wrong reads, by the program's commands."""
        count, placed = len(MACROS), list(MACROS).index(macro)
        session = Session(icl.read(self.text("icl")), bsdl.read(self.text("bsdl")))
        told, others = pdl.read(self.text("pdl")), f"0b{(1 << count) - 1 - (1 << placed):0{count}b}"
        cycles = [*session.begin(), *session.identify(), *session.run(told, "chip_register", "run_bist")]
        for number in range(self.depth):
            cycles += session.run(told, "chip_register", "read_entry", others, f"0b{number:06b}")
        (self.folder / "cycles.txt").write_text(listing(joined(cycles)))
        words = f"+period=50 +heard=log.txt +from_{macro}={begins} +bit={bit}"
        self.bench.run(["bash", "-c", f"cd {self.name} && vvp -n jtag.vvp {words}"])
        heard = [came for _, came in scans(cycles, (self.folder / "log.txt").read_text()) if len(came) > 32]
        lines = [self.located(f"{int(came, 2):0{-(-len(came) // 4)}x}") for came in heard[-2 * self.depth:][1::2]]
        memory = MACROS[macro][0][0]
        found = commands(self.bench, self.name, memory)
        reads = [at for at, words in enumerate(found, 1) if words[0] == "r"][begins - 1:]
        more = ", and more came" if len(reads) > self.depth else ""
        log = []
        for said in lines[len(reads):]:
            refused = f"has kept {len(reads)} wrong reads"
            self.bench.is_so(refused in said, f"{self.name}, behind the last entry: {said}")
        for number, said in enumerate(lines[:len(reads)]):
            at, (_, address, word) = reads[number], found[reads[number] - 1]
            digits = -(-bits_of(macro) // 4)
            words = f"expected {int(word, 16):0{digits}x} returned {int(word, 16) ^ 1 << bit:0{digits}x}"
            cycle = f"cycle {at + MEMORIES[memory][2]} {words}"
            wanted = [f"wrong read {number} of {min(len(reads), self.depth)} that are kept{more}\n", f"{cycle}\n"]
            holds = all(line in said for line in [*wanted, f"address {address}\nbits {bit}\n"])
            self.bench.is_so(holds, f"{self.name}, entry {number}: {said} {wanted}")
            log.append(f"unit {placed} {cycle}\n")
        (self.folder / "whole.log").write_text("".join([*log, f"unit {placed} more\n" if more else ""]))

    def text(self, ending: str) -> str:
        return (self.folder / f"chip.{ending}").read_text()

    # ---- the bus

    def plays_bus(self) -> None:
        """What the registers say that the table of the bus tells of."""
        rows = re.findall(r"^\| 0x(\w+) \| (\w+) \|", (self.folder / "chip_apb.md").read_text(), re.MULTILINE)
        places = {name: at for at, name in rows if "WINDOW" not in name and not name.startswith("LOG")}
        reads = [
            f'    transfer(12\'h{at}, 1\'b0, 32\'d0);\n    $display("{name} %h", heard);' for name, at in places.items()
        ]
        text = BUS.replace("12'hCONTROL", f"12'h{places['CONTROL']}").replace("12'hSTATUS", f"12'h{places['STATUS']}")
        self.compiled("apb", text.replace("READS", "\n".join(reads)).replace("PERIOD", "16"))
        for fault in [None, *self.faults]:
            words = " ".join(fault.words) if fault else ""
            said = self.bench.run(["bash", "-c", f"cd {self.name} && vvp -n apb.vvp {words}"]).stdout
            self.bench.is_so(self.is_told(said, fault), f"{self.name}, apb, {fault}: {said}")

    def is_told(self, said: str, fault: Fault | None) -> bool:
        """Whether the registers of the bus say what was planted."""
        told = {name: int(value, 16) for name, value in re.findall(r"^(\w+) ([0-9a-f]{8})$", said, re.MULTILINE)}
        if fault is None:
            return told["STATUS"] == 3 and told["FAIL"] == 0
        number = fault.placed if self.is_placed else fault.joined
        expected, returned = (self.word_of(told, name) for name in ("EXPECTED", "RETURNED"))
        macro = MACROS[fault.macro][0]
        low = MEMORIES[macro[0]][1] if self.is_placed and fault.memory != macro[0] else 0
        bits = MEMORIES[fault.memory][1]
        is_so = told["STATUS"] == 15 and told["FAIL"] == 1 << number and told["UNIT"] == number
        is_so = is_so and expected >> low & (1 << bits) - 1 == fault.expected
        if self.is_placed:
            is_so = is_so and told["CYCLE"] == fault.cycle and not expected >> bits_of(fault.macro)
        return is_so and expected ^ returned == 1 << low + fault.bit

    @staticmethod
    def word_of(told: dict[str, int], name: str) -> int:
        """A word of one register or of several, the lower bits first."""
        parts = [value for of, value in told.items() if of == name or of.startswith(f"{name}_")]
        return sum(value << 32 * place for place, value in enumerate(parts))


def highest_bit(bench: Bench, chip: Chip) -> None:
    """The testbenches of a word of 70 bits plant in its bit 69 what they are asked to."""
    for kind in ("access", "apb", "tap"):
        call = f"cd {chip.name} && iverilog -g2012 -o {kind}_tb -c chip_{kind}.f"
        said = bench.run(["bash", "-c", f"{call} && vvp -n {kind}_tb +planted +unit=3 +bit=69"]).stdout
        wanted = f"fail 1000 unit 3 cycle 10 expected {0:018x} returned {1 << 69:018x}\n"
        bench.is_so(wanted in said and said.endswith("passed\n"), f"{chip.name}, {kind}, bit 69: {said}")


# what is wrong in the module of a memory in its place, whose file, a part of it and what stands there in its place
WRONG = [
    ("the first failure is told a cycle late", "w8_in_place.v", "cycle <= 32'd0", "cycle <= 32'd1"),
    ("the word is told that the next read expects", "w8_in_place.v", "{answer, want_2", "{answer, want_1"),
    ("the word is told that comes in the next cycle", "w8_in_place.v", "{answer, want_2", "{taken, want_2"),
    ("a failure is heard in the cycle behind it", "w8_in_place.v", "(fail && !failed)", "(failed && first == 48'd0)"),
]


def wrong_places(bench: Bench, chip: Chip) -> None:
    """The testbench of a memory in its place tells what is wrong with its first failure."""
    call = f"cd {chip.name} && iverilog -g2012 -o word_tb -c w8_in_place.f && vvp -n word_tb +planted"
    done = bench.run(["bash", "-c", call])
    bench.is_so(done.stdout.endswith("w8_in_place_tb: passed\n"), f"{chip.name}, w8: {done.stdout}{done.stderr}")
    for what, name, old, new in WRONG:
        path = chip.folder / name
        right = path.read_text()
        bench.is_so(old in right, f"{old!r} does not stand in {name}")
        path.write_text(right.replace(old, new))
        done = bench.run(["bash", "-c", call])
        bench.is_so("FATAL" in done.stdout and done.returncode != 0, f"{what} is not told: {done.stdout}{done.stderr}")
        path.write_text(right)


# what is wrong at the top of the camera, a part of it and what stands there in its place, and what has to be told
WRONG_TOPS = [
    ("", "", "camera_places_tb: passed"),
    (".tdo_en(tdo_en)", ".tdo_en()", "camera: tdo_en is not 1 in a scan"),
    (".clk(clk), .test", ".clk(dot_clk), .test", "camera: the clock of the sequencer is 1 while clk is 0"),
    ("tdo tdo_en", "tdo", "camera: tdo is driven outside scans: name the port of tdo_en"),
]


def wrong_tops(bench: Bench) -> None:
    """A chip in which the TAP drives TDO always, or the sequencer has another clock, is told by what it is about."""
    bench.run(["tools/top", CAMERA, *PLACED, "tops", "--in-place"])
    bench.run(["tools/access", CAMERA, *PLACED, "tops", "--in-place", "--jtag"])
    texts = {name: (bench.folder / f"examples/in_place/{name}").read_text() for name in ("camera.v", "camera.places")}
    for old, new, told in WRONG_TOPS:
        made = {name: text.replace(old, new) if old else text for name, text in texts.items()}
        (bench.folder / "top.v").write_text(made["camera.v"])
        places = re.sub("(?m)^before .*\n", "", made["camera.places"])
        (bench.folder / "top.places").write_text(places.replace("source examples/in_place/camera.v", "source top.v"))
        bench.run(["tools/places", "top.places", CAMERA, *PLACED, "tops"])
        done = bench.run(["bash", "-c", "cd tops && iverilog -g2012 -o tb -c camera_places.f && vvp -n tb"])
        is_so = told in done.stdout and bool(done.returncode) == bool(old)
        bench.is_so(is_so, f"{old!r} is {new!r}: {done.stdout}{done.stderr}")


def is_left_out() -> bool:
    if shutil.which("iverilog"):
        return False
    print("iverilog is not installed, so no file for a tester is played to a chip that fails")
    return True


def in_place(bench: Bench) -> None:
    """Memories in their places: each file with clocks faster than TCK and slower, the bus, and segment insertion
    bits."""
    if is_left_out():
        return
    for is_slow in (False, True):
        chip = Chip(bench, True, is_slow, [])
        chip.plays_files(["svf", "stil", "pdl"])
        chip.plays_bus()
    highest_bit(bench, chip)
    wrong_places(bench, chip)
    wrong_tops(bench)
    Chip(bench, True, False, ["--sib"]).plays_files(["svf", "pdl"])


def diagnosed(bench: Bench) -> None:
    """What gives a log in place: four words of `low` are written, and each is read, of latency 2, in front of a write.
    The log was full then, so later reads may have been wrong; without that word bit 0 is no longer stuck."""
    lines = [f"unit 3 cycle {cycle} expected 00 returned 01" for cycle in (7, 9, 11, 13)]
    call = ["tools/diagnosis", "placed.log", CAMERA, *PLACED, "--in-place", "--unit"]
    logs = {"\nunit 3 more\n": True, " more\n": True, "\n": False}
    for last, is_stuck in logs.items():
        (bench.folder / "placed.log").write_text("\n".join(lines) + last)
        told = bench.run([*call, "low"])
        is_told = "data bit: data bit 0 stuck at 1\n" in told.stdout
        is_so = told.returncode == int(not is_stuck) and is_told == is_stuck
        bench.is_so(is_so, f"diagnosis of {last!r}: {told.stdout}{told.stderr}")
    bench.look([*call, "high"], 2, "", "diagnosis: no wrong read is of the march of high")
    bench.look([*call, "3"], 2, "", "diagnosis: --unit 3 is two of low, high: give a name")
    bench.look([*call, "kept"], 2, "", "diagnosis: placed.log: no line has 'unit 5 cycle C expected X returned W'")


def logged(bench: Bench) -> None:
    """Memories in their places that keep several wrong reads: the files find the first one, the bus too, and the
    procedure reads each of them."""
    if is_left_out():
        return
    chip = Chip(bench, True, False, [], 4)
    simulated(bench, chip.name)
    chip.plays_files(["svf"])
    chip.plays_log("ram32", 5, 3)
    chip.plays_log("ram8", 0, 22)
    diagnosed(bench)
    chip.plays_bus()
    highest_bit(bench, chip)


def together(bench: Bench) -> None:
    """Memories that a module joins, in the same ways."""
    if is_left_out():
        return
    for is_slow in (False, True):
        chip = Chip(bench, False, is_slow, [])
        chip.plays_files(["svf", "stil", "pdl"])
        chip.plays_bus()
    Chip(bench, False, False, ["--sib"]).plays_files(["svf", "pdl"])


PARTS = [in_place, logged, together]
