"""Self-test modules beside Icarus and Verilator: a cycle of a run beside a plain memory, and the closed loop as a
call."""
from __future__ import annotations

import pathlib
import re
import shutil
import sys

from measures.parts import PROGRAM, ROOT, C, Figure, Timed, asked, best, memory_text, timed, write
from vidlakost_tools.program import quick_program

SCRAMBLED = "".join(f"scramble a{bit} = p{bit} ^ p{bit + 1}\n" for bit in range(13)) + "scramble a13 = p13 ^ 1\n"
STORED = "latency 2\npolarity aaaaaaaaaaaaaaaa\npause 1000\n"
# name, march, memory, words, cycles to answer
MODULES = [
    ("march_c", C, memory_text("march_c", 24000, 64), 24000, 1),
    (
        "pausing",
        "{any(w0);del;up(r0,w1);del;up(r1,w0);down(r0,w1);down(r1,w0);any(r0)}",
        memory_text("pausing", 16384, 64, STORED + SCRAMBLED),
        16384,
        2,
    ),
]
TOLD = {"march_c": "March C-, 24,000×64", "pausing": "pauses and scrambling"}
ICARUS = """module bench;
  reg clk = 0, reset = 1;
  reg [63:0] memory [0:%(last)d];
  reg [63:0] answers [0:%(latency)d];
  wire en, we, done, fail;
  wire [63:0] wdata;
  wire [%(top)d:0] addr;
  reg failed = 0;
  integer cycle, place, first = -1;
  %(name)s_bist dut(.clk(clk), .reset(reset), .rdata(answers[0]), .en(en), .we(we), .addr(addr), .wdata(wdata),
    .done(done), .fail(fail));
  initial begin
    for (place = 0; place <= %(last)d; place = place + 1) memory[place] = 0;
    for (place = 0; place <= %(latency)d; place = place + 1) answers[place] = 0;
    for (cycle = 0; cycle < %(cycles)d; cycle = cycle + 1) begin
      #1 failed = failed | fail;
      if (done && first < 0) first = cycle;
      if (en & we) memory[addr] = wdata;
      answers[%(latency)d] = en & ~we ? memory[addr] : 64'd0;
      #1 clk = 1;
      #1 for (place = 0; place < %(latency)d; place = place + 1) answers[place] = answers[place + 1];
      reset = 0;
      clk = 0;
    end
    $display("fail %%0d done %%0d", failed, first);
  end
endmodule
"""
VERILATOR = """#include "V%(name)s_bist.h"
#include <cstdio>
#include <cstdlib>
#include <vector>
int main(int, char **words) {
  V%(name)s_bist dut;
  std::vector<uint64_t> memory(65536);
  uint64_t answers[%(latency)d + 1] = {0};
  bool failed = false;
  long cycles = atol(words[1]), first = -1;
  dut.clk = 0;
  dut.reset = 1;
  for (long cycle = 0; cycle < cycles; cycle++) {
    dut.rdata = answers[0];
    dut.eval();
    failed |= dut.fail;
    if (dut.done && first < 0) first = cycle;
    if (dut.en && dut.we) memory[dut.addr] = dut.wdata;
    answers[%(latency)d] = dut.en && !dut.we ? memory[dut.addr] : 0;
    dut.clk = 1;
    dut.eval();
    for (int place = 0; place < %(latency)d; place++) answers[place] = answers[place + 1];
    dut.reset = 0;
    dut.clk = 0;
  }
  dut.eval();
  printf("fail %%d done %%ld\\n", failed, first);
}
"""


def has_verilator() -> bool:
    """Whether a Verilator is here that makes a whole program of a testbench."""
    return shutil.which("verilator") is not None and bool(
        re.search(r"Verilator [5-9]", timed("verilator", "--version").said)
    )


def microseconds(none: Timed, whole: Timed, cycles: int) -> float:
    """The time of a cycle: a run of no cycles is taken off. One that does not end as a self-test has to is not
    measured."""
    if whole.said != f"fail 0 done {cycles - 1}":
        raise SystemExit(f"a module fails, or does not run: {whole.said}")
    return max(whole.seconds - none.seconds, 1e-9) / cycles * 1e6


def of_loop(call: Timed) -> float:
    """The time of a closed loop, which ends with `fail` at 0; one that does not, or does not run, is not measured."""
    if not re.search(r"^fail 0 done \d+$", call.said, re.MULTILINE):
        raise SystemExit(f"a closed loop fails, or does not run: {call.said}")
    return call.seconds


def ours(name: str, folder: pathlib.Path) -> tuple[float, int]:
    """The time of a cycle of `benchfile`, and the cycles of its run, which ends with the first `done`. Taken off is a
    call that reads the module and makes it run, and ends where the march is not there."""
    program, files = quick_program() or PROGRAM, [folder / "march", folder / "memory"]
    none = best(6, program, "benchfile", folder / f"{name}.v", folder / "absent", folder / "memory")
    if none.said != "absent 2":
        raise SystemExit(f"without a march `benchfile` says {none.said}")
    whole = best(6, program, "benchfile", folder / f"{name}.v", *files)
    cycles = int(whole.said.split()[-1]) + 1 if re.fullmatch(r"fail 0 done \d+", whole.said) else 0
    return microseconds(none, whole, cycles), cycles


def icarus(name: str, words: int, latency: int, cycles: int, folder: pathlib.Path) -> float:
    runs = []
    for count in (0, cycles):
        values = {
            "name": name,
            "last": words - 1,
            "latency": latency,
            "cycles": count,
            "top": (words - 1).bit_length() - 1,
        }
        (bench,) = write(folder, **{"bench.v": ICARUS % values})
        timed("iverilog", "-g2005", "-o", folder / "bench", bench, folder / f"{name}.v")
        runs.append(best(3, folder / "bench"))
    return microseconds(runs[0], runs[1], cycles)


def verilator(name: str, latency: int, cycles: int, folder: pathlib.Path) -> tuple[float, float]:
    """The time of a cycle, and of building."""
    (main,) = write(folder, **{f"{name}.cpp": VERILATOR % {"name": name, "latency": latency}})
    build = [
        "verilator",
        "--cc",
        "--exe",
        "--build",
        "-O3",
        "-CFLAGS",
        "-O3",
        "-Wno-fatal",
        "--top-module",
        f"{name}_bist",
    ]
    built = timed(*build, "--Mdir", folder / f"{name}_made", folder / f"{name}.v", main)
    runs = [best(6, folder / f"{name}_made" / f"V{name}_bist", count) for count in (0, cycles)]
    return microseconds(runs[0], runs[1], cycles), built.seconds


def clock(folder: pathlib.Path) -> list[Figure]:
    """A cycle of a self-test: `benchfile`, with its box and the expected words, and plain memories beside.

    The simulators run the same module for the same cycles, from reset to `done`, beside a memory that is an array. Ours
    has in it besides what `benchfile` does in each cycle: the box, which looks for an address's word and knows of
    faults and pauses, and the march, whose word each answer is compared with."""
    made = []
    for name, march, memory, words, latency in MODULES:
        files = write(folder, march=march, memory=memory, none="")
        asked("compile", *files, folder / f"{name}.v", folder / "report")
        each, cycles = ours(name, folder)
        made.append(Figure(f"a run of {TOLD[name]}", cycles, "cycles"))
        if shutil.which("iverilog"):
            beside = icarus(name, words, latency, cycles, folder)
            made.append(Figure(f"a cycle of {TOLD[name]}", each, "microseconds", "Icarus", beside))
        if shutil.which("verilator"):
            compiled, building = verilator(name, latency, cycles, folder)
            made.append(Figure(f"a cycle of {TOLD[name]}", each, "microseconds", "Verilator", compiled))
            made.append(Figure(f"Verilator compiles {TOLD[name]}", building, "s"))
    return made


def closed_loop(folder: pathlib.Path) -> list[Figure]:
    """`bench`, beside simulators that run the module and the memory of `vidlakost testbench`."""
    march, memory, none = write(folder, march=C, memory=memory_text("wide", 24000, 64), none="")
    loop = of_loop(best(6, PROGRAM, "bench", march, memory))
    asked("compile", march, memory, none, folder / "wide_bist.v", folder / "report")
    timed(sys.executable, ROOT / "tools" / "testbench", march, memory, folder)
    files = ["wide_tb.v", "wide_bist.v"]
    made = []
    if shutil.which("iverilog"):
        timed("iverilog", "-g2005", "-o", "tb", *files, folder=folder)
        run = of_loop(best(3, "vvp", "-n", "tb", folder=folder))
        made.append(Figure("`bench`, 1,680,000 commands", loop, "s", "Icarus", run))
    if has_verilator():
        build = [
            "verilator",
            "--binary",
            "-O3",
            "-Wno-fatal",
            "-Wno-lint",
            "--top-module",
            "wide_tb",
            "--Mdir",
            "built",
        ]
        built = timed(*build, *files, folder=folder).seconds
        run = of_loop(best(3, "./built/Vwide_tb", folder=folder))
        made.append(Figure("`bench`, 1,680,000 commands", loop, "s", "Verilator", run))
        made.append(Figure("Verilator compiles that testbench", built, "s"))
    return made or [Figure("`bench`, 1,680,000 commands", loop, "s")]
