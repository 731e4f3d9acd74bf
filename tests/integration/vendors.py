"""Models of macros over several files, with conditions: what `collar`, `top` and `flow` give to a simulator passes."""
from __future__ import annotations

import shutil

from tests.integration.bench import Bench
from tests.integration.files import FILES

# a macro whose ports hang on a define, one more macro, and the module that both use
SHELL = """`ifdef POWERED
module ram8x4(input CLK, CEN, WEN, input [2:0] A, input [3:0] D, output [3:0] Q, inout VDD);
`else
module ram8x4(input CLK, CEN, WEN, input [2:0] A, input [3:0] D, output [3:0] Q);
`endif
  ram_core #(3, 4) core(CLK, ~CEN, ~WEN, A, D, Q);
endmodule
"""
OTHER = """module ram4x3(input CLK, CEN, WEN, input [1:0] A, input [2:0] D, output [2:0] Q);
  ram_core #(2, 3) core(CLK, ~CEN, ~WEN, A, D, Q);
endmodule
"""
CORE = """module ram_core #(parameter W = 1, B = 1)(
  input clk, input cs, input we, input [W-1:0] a, input [B-1:0] d, output reg [B-1:0] q);
  reg [B-1:0] words [0:(1 << W) - 1];
  always @(posedge clk) if (cs && we) words[a] <= d;
  always @(posedge clk) if (cs && !we) q <= words[a];
endmodule
"""
PINS = "macro {}\nclk CLK\nen ~CEN\nwe ~WEN\naddr A\nwdata D\nrdata Q\n"
FILES.update(
    {
        "split/shell.v": SHELL,
        "split/core.v": CORE,
        "split/other.v": OTHER,
        "split/first.mem": "memory 1\nname first\nwords 8\nbits 4\nbackgrounds 0\n",
        "split/second.mem": "memory 1\nname second\nwords 4\nbits 3\nbackgrounds 0\n",
        "split/first.pins": PINS.format("ram8x4"),
        "split/second.pins": PINS.format("ram4x3"),
        "split.chip": "chip 1\nname split\nbudget 3\nunit 2 c.m split/first.mem\nunit 2 c.m split/second.mem\n",
    }
)
MODELS = [word for name in ("shell", "core", "other") for word in ("--model", f"split/{name}.v")]
WORDS = ["split.chip", "split/first.pins", "split/second.pins"]


def passes(bench: Bench, folder: str, files: str, name: str) -> None:
    """Runs a testbench, sound and with what it plants."""
    build = f"iverilog -g2012 -Wall -Wno-timescale -o tb_{name} -c {files}"
    done = bench.run(["bash", "-c", f"cd {folder} && {build} && vvp -n tb_{name} && vvp -n tb_{name} +planted"])
    holds = done.stdout.count(f"{name}_tb: passed\n") == 2 and not done.stderr
    bench.is_so(holds, f"{folder}/{files}: {done.stdout}{done.stderr}")


def collars(bench: Bench) -> None:
    """A collar, and memories in their places: of the other macro's files the testbench of each reads none."""
    if not shutil.which("iverilog"):
        return
    bench.run(["tools/collar", "split/first.mem", "--macro", "split/first.pins", "alone", *MODELS[:4]])
    module = "alone/first_bist.v"
    bench.run(["./vidlakost", "compile", "c.m", "split/first.mem", "empty.list", module, "report"])
    passes(bench, "alone", "files.f", "first_collar")
    bench.run(["tools/top", *WORDS, "placed", "--in-place", *MODELS])
    for name in ("first", "second"):
        passes(bench, "placed", f"{name}_in_place.f", f"{name}_in_place")
    listed = (bench.folder / "placed" / "first_in_place.f").read_text()
    bench.is_so("core.v" in listed and "other.v" not in listed, f"placed: {listed}")


def flows(bench: Bench) -> None:
    """Both makefiles."""
    if not all(map(shutil.which, ("make", "iverilog"))):
        return
    make = ["make", f"LAUNCHER={bench.folder}/vidlakost", "SIM=iverilog", "-C"]
    for folder, more in (("joined", MODELS), ("places", ["--in-place", *MODELS])):
        bench.run(["tools/flow", *WORDS, f"split/{folder}", *more])
        done = bench.run([*make, f"split/{folder}", "collars", "top", "gates"])
        holds = not done.returncode and done.stdout.count("a wrong bit is found") == 2
        bench.is_so(holds, f"split/{folder}: {done.stdout}{done.stderr}")


PARTS = (collars, flows)
