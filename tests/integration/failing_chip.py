"""A chip with words of 8, 32, 64 and 70 bits, for a tester: its macros, in each of which a call makes one bit of one
read wrong, or of each read from one on; and what stands round it, joined and in place."""
from __future__ import annotations

import dataclasses
import pathlib
import re
import shutil

from tests.integration.bench import Bench

MARCH = "{any(w0);up(r0,w1);down(r1,w0);any(r0)}"
# of each memory its words, its bits and its latency
MEMORIES = {"w8": (8, 8, 1), "w32": (4, 32, 2), "w64": (6, 64, 1), "lo": (4, 64, 1), "hi": (4, 6, 1)}
# of each macro the memories of its word, and the period of its clock where that is faster than TCK, and where slower
MACROS = {
    "ram8": (["w8"], 9, 240),
    "ram32": (["w32"], 14, 210),
    "ram64": (["w64"], 11, 249),
    "ram70": (["lo", "hi"], 17, 233),
}
MACRO = """module NAME(input clk, input ce, input we, input [TOP:0] a, input [BITS:0] d, output reg [BITS:0] q);
  reg [BITS:0] words [0:LAST];
  integer reads = 0, wrong = 0, begins = 0, place = 0;
  reg is_wrong;
  initial begin
    if ($value$plusargs("bit=%d", place) == 0) place = 0;
    if ($value$plusargs("NAME=%d", wrong) == 0) wrong = 0;
    if ($value$plusargs("from_NAME=%d", begins) == 0) begins = 0;
  end
  always @(posedge clk)
    if (ce) begin
      if (we) words[a] <= d;
      else begin
        reads = reads + 1;
        is_wrong = reads == wrong || begins != 0 && reads >= begins;
        q <= words[a] ^ (is_wrong ? {{BITS{1'b0}}, 1'b1} << place : {BITS + 1{1'b0}});
      end
      AFTER
    end
endmodule
"""
# what clocks a TAP by the lines of a file, and writes what it hears
PLAYER = """`timescale 1ns / 1ps
module player;
AROUND
  reg tck = 1'b0, tms = 1'b1, tdi = 1'b0, trst_n = 1'b0;
  wire tdo, tdo_en;
  integer file, heard, got, new_tms, new_tdi, new_trst_n, times;
  string heard_name;
  real period;
  reg [7:0] wanted;
  initial begin
    if ($value$plusargs("period=%f", period) == 0 || $value$plusargs("heard=%s", heard_name) == 0) $fatal(1);
    #500 trst_n = 1'b1;
    file = $fopen("cycles.txt", "r");
    heard = $fopen(heard_name, "w");
    got = $fscanf(file, "%d %d %d %c %d", new_tms, new_tdi, new_trst_n, wanted, times);
    while (got == 5) begin
      repeat (times) begin
        {tms, tdi, trst_n} = {new_tms[0], new_tdi[0], new_trst_n[0]};
        #(0.45 * period) $fwrite(heard, "%b", tdo_en ? tdo : 1'bx);
        #(0.05 * period) tck = 1'b1;
        #(0.4 * period) tck = 1'b0;
        #(0.1 * period);
      end
      got = $fscanf(file, "%d %d %d %c %d", new_tms, new_tdi, new_trst_n, wanted, times);
    end
    $fclose(heard);
    $finish;
  end
endmodule
"""


@dataclasses.dataclass(frozen=True)
class Fault:
    """A wrong bit of one read of a memory: the macro, the number of its read, the bit of the macro; the memory, its
    number among those of the chip joined and in place, and what a tester has to be told: the cycle of its own test,
    its expected word and that which returns."""

    macro: str
    read: int
    macro_bit: int
    memory: str
    joined: int
    placed: int
    cycle: int
    address: int
    expected: int
    bit: int

    @property
    def words(self) -> list[str]:
        return [f"+{self.macro}={self.read}", f"+bit={self.macro_bit}"]


def bits_of(macro: str) -> int:
    return sum(MEMORIES[memory][1] for memory in MACROS[macro][0])


def macro_text(name: str) -> str:
    """A macro whose read of a number that a call names has a wrong bit; one of latency 2 has a register of its own."""
    words = MEMORIES[MACROS[name][0][0]][0]
    text = MACRO.replace("AFTER", "").replace("NAME", name)
    for word, value in (("BITS", bits_of(name) - 1), ("TOP", (words - 1).bit_length() - 1), ("LAST", words - 1)):
        text = text.replace(word, str(value))
    return text


def pins_text(name: str) -> str:
    memories = MACROS[name][0]
    after = MEMORIES[memories[0]][2] - 1
    parts = f"low {memories[0]}\nhigh {memories[1]}\n" if len(memories) > 1 else ""
    late = f"registers out {after}\n" if after else ""
    return f"macro {name}\nclk clk\nen ce\nwe we\naddr a\nwdata d\nrdata q\n{late}{parts}"


def written(bench: Bench, name: str) -> list[str]:
    """Writes the descriptions into a folder, and says what a call of `top` names besides."""
    folder = bench.folder / name
    folder.mkdir()
    (folder / "chip.m").write_text(f"{MARCH}\n")
    units = []
    for memory, (words, bits, latency) in MEMORIES.items():
        text = f"memory 2\nname {memory}\nwords {words}\nbits {bits}\nlatency {latency}\nbackgrounds 0\n"
        (folder / f"{memory}.mem").write_text(text)
        units.append(f"unit 2 {name}/chip.m {name}/{memory}.mem")
    (folder / "chip.list").write_text("\n".join(["list 1", "name chip", "budget 6", *units, ""]))
    for macro in MACROS:
        (folder / f"{macro}.v").write_text(macro_text(macro))
        (folder / f"{MACROS[macro][0][0]}.pins").write_text(pins_text(macro))
    return [f"{name}/chip.list", *(f"{name}/{memories[0]}.pins" for memories, _, _ in MACROS.values())]


def commands(bench: Bench, name: str, memory: str) -> list[list[str]]:
    """The commands of a memory's test, as the program has them."""
    out = bench.folder / name / f"{memory}.vectors"
    bench.run(["./vidlakost", "vectors", f"{name}/chip.m", f"{name}/{memory}.mem", str(out)])
    return [line.split() for line in out.read_text().splitlines()]


def faults(bench: Bench, name: str) -> list[Fault]:
    """Of each memory the first read of its test and the last one, with a bit that is wrong in it."""
    found, order = [], list(MEMORIES)
    for placed, (macro, (memories, _, _)) in enumerate(MACROS.items()):
        low = 0
        for memory in memories:
            told = commands(bench, name, memory)
            reads = [at for at, words in enumerate(told, 1) if words[0] == "r"]
            _, bits, latency = MEMORIES[memory]
            for number, bit in ((1, bits - 1), (len(reads), bits // 2)):
                at = reads[number - 1]
                _, address, word = told[at - 1]
                cycle, expected = at + latency, int(word, 16)
                places = (order.index(memory), placed, cycle, int(address), expected, bit)
                found.append(Fault(macro, number, low + bit, memory, *places))
            low += bits
    return found


def ports_of(path: pathlib.Path) -> list[tuple[str, int, str]]:
    """The ports of the first module of a file: direction, width, name."""
    head = path.read_text().partition("\nmodule ")[2].partition(");")[0]
    head = re.sub(r"`ifdef .*?`endif", "", head, flags=re.DOTALL)
    found = re.findall(r"(input|output) (?:reg |wire )*(?:\[(\d+):0\] )?(\w+)", head)
    return [(way, int(top or 0) + 1, port) for way, top, port in found]


# ---- the two ways in which its memories are tested


def round_memories(bench: Bench, name: str, kind: str, is_placed: bool, is_slow: bool) -> str:
    """The text of a testbench up to what plays: the clocks, the module of a bus, and the memories beside it."""
    turn = {"jtag": "tap", "apb": "apb"}[kind]
    lines = []
    for number, (macro, (_, fast, slow)) in enumerate(MACROS.items()):
        half = (slow if is_slow else fast) / 2
        lines.append(f"  reg clk_{number} = 1'b0;")
        lines.append(f"  initial #0.{number + 1} forever #{half} clk_{number} = ~clk_{number};")
    half = 245 / 2 if is_slow else 5
    lines += ["  reg clk = 1'b0;", f"  initial forever #{half} clk = ~clk;"]
    links = []
    for way, width, port in ports_of(bench.folder / name / f"chip_{turn}.v"):
        wide = f"[{width - 1}:0] " if width > 1 else ""
        own = port in ("clk", "tck", "tms", "tdi", "trst_n", "tdo", "tdo_en", "pclk", "presetn", "psel", "penable",
                       "pwrite", "paddr", "pwdata", "prdata", "pready", "pslverr")
        if not own:
            value = "" if way == "output" or port.startswith("of_") else f" = {width}'d0"
            lines.append(f"  wire {wide}{port}{value};")
        links.append(f".{port}({port})")
    lines.append(f"  chip_{turn} dut({', '.join(links)});")
    for number, (macro, (memories, _, _)) in enumerate(MACROS.items() if is_placed else []):
        words, bits = MEMORIES[memories[0]][0], bits_of(macro)
        word = "_".join(memories) if len(memories) > 1 else memories[0]
        name_of = next(path.name for path in (bench.folder / name).glob(f"{memories[0]}*_in_place.v"))[:-2]
        address = (words - 1).bit_length()
        pins = f".clk(clk_{number}), .ce(1'b0), .we(1'b0), .a({address}'d0), .d({bits}'d0), .q()"
        lines.append(f"  {name_of} {word}({pins}, .bist_in(to_{number}), .bist_out(of_{number}));")
    return "\n".join(lines)


def simulated(bench: Bench, chip: str) -> None:
    """The testbench of a memory that keeps several wrong reads passes in each simulator, with what it plants."""
    calls = {"iverilog": "iverilog -g2012 -o word_tb -c w8_in_place.f && vvp -n word_tb +planted"}
    if shutil.which("verilator") and shutil.which("make"):
        build = "verilator --binary -CFLAGS -O0 -Wno-fatal --top-module w8_in_place_tb --Mdir built -f w8_in_place.f"
        calls["verilator"] = f"{build} >built.log && built/Vw8_in_place_tb +planted"
    else:
        print("verilator is not installed, so the testbench of a log in place runs in Icarus alone")
    for name, call in calls.items():
        done = bench.run(["bash", "-c", f"cd {chip} && {call}"])
        is_so = not done.returncode and done.stdout.endswith("w8_in_place_tb: passed\n")
        bench.is_so(is_so, f"{chip}, w8 in {name}: {done.stdout}{done.stderr}")
