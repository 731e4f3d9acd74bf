"""Modules in VHDL beside what they are made of: with random words and resets, in each standard that GHDL knows."""
from __future__ import annotations

import pathlib
import shutil
import subprocess
from typing import Iterator

from tests.integration.bench import Bench
from vidlakost_tools.text import read_text
from vidlakost_tools.verilog.syntax import Declared, Module, Reader
from vidlakost_tools.verilog.vhdl_text import Names, all_names, port_lines

STANDARDS = ("87", "93", "93c", "02", "08")
CYCLES = 10_000
# a register that shifts so many places in a cycle has other digits in each; reset is 1 where all of its lowest are
STATE, TAP, STEPS, RARE = 89, 51, 67, 5
# each operator of the subset, and shifts by more places than a number of 32 bits counts
EVERY = """module every(
  input clk,
  input reset,
  input [7:0] a,
  input [39:0] b,
  output [7:0] left,
  output [7:0] right,
  output [3:0] flags,
  output [7:0] sums,
  output one);
  reg [7:0] kept;
  reg [39:0] wide;
  assign left = kept << wide;
  assign right = a >> {b[39:35], 32'h0, wide[2:0]};
  assign flags = {&kept, |kept, ^kept, kept[0] ? a < kept : a >= kept};
  assign sums = ((a + kept) - (a ^ wide[7:0])) & (~kept | a);
  assign one = !(wide != b) || (kept == a) && (a > kept) || (a <= kept) && ~(a ^ kept) != 8'h0;
  always @(posedge clk) begin
    if (reset) begin
      kept <= 8'h1;
      wide <= 40'h0;
    end else begin
      wide <= b[33] ? b & 40'h7 : {b[6:0], wide[39:7]} & {39'h400000000, b[1]};
      case (b[1:0])
        2'h0: kept <= a;
        2'h1, 2'h2: kept <= kept << b[2:0];
        default: kept <= kept + 8'h3;
      endcase
    end
  end
endmodule
"""
VERILOG_BENCH = """module beside;
  reg [{top}:0] state = 1;
  reg clk = 0;
{declared}  integer cycle, step;
  {name} dut({connected});
  initial begin
    for (cycle = 0; cycle < {cycles}; cycle = cycle + 1) begin
      for (step = 0; step < {steps}; step = step + 1) state = {{state[{below}:0], state[{top}] ^ state[{tap}]}};
{driven}      #4 $display("{form}", {outputs});
      #1 clk = 1;
      #5 clk = 0;
    end
    $finish;
  end
endmodule
"""
VHDL_BENCH = """library ieee;
use ieee.std_logic_1164.all;
use std.textio.all;

entity beside is
end beside;

architecture test of beside is
  component {name}
    port (
{ports}
    );
  end component;
  for dut : {name} use entity work.{name};
{declared}begin
  dut : {name} port map ({connected});
  process
    variable state : std_logic_vector({top} downto 0) := (0 => '1', others => '0');
    variable next_digit : std_logic;
    variable row : line;
    procedure put(value : std_logic) is
      variable digit : character := 'x';
    begin
      if value = '0' then digit := '0'; elsif value = '1' then digit := '1'; end if;
      write(row, digit);
    end put;
  begin
    for cycle in 1 to {cycles} loop
      for step in 1 to {steps} loop
        next_digit := state({top}) xor state({tap});
        state({top} downto 1) := state({below} downto 0);
        state(0) := next_digit;
      end loop;
{driven}      wait for 4 ns;
{outputs}      writeline(output, row);
      wait for 1 ns;
      clk <= '1';
      wait for 5 ns;
      clk <= '0';
    end loop;
    wait;
  end process;
end test;
"""


def driven(module: Module) -> Iterator[tuple[Declared, int]]:
    """The inputs beside clock and reset, each with the place of its lowest digit in the register."""
    at = RARE
    for port in module.ports:
        if port.kind == "input" and port.token.text not in ("clk", "reset"):
            yield port, at
            at += port.width


def verilog_bench(module: Module) -> str:
    outputs = [port.token.text for port in module.ports if port.kind == "output"]
    inputs = [f"      {port.token.text} = state[{at + port.width - 1}:{at}];\n" for port, at in driven(module)]
    declared = [
        f"  {'wire' if port.kind == 'output' else 'reg'} [{port.width - 1}:0] {port.token.text};\n"
        for port in module.ports
        if port.token.text != "clk"
    ]
    return VERILOG_BENCH.format(
        top=STATE - 1,
        below=STATE - 2,
        tap=TAP - 1,
        steps=STEPS,
        cycles=CYCLES,
        name=module.name,
        declared="".join(declared),
        connected=", ".join(f".{port.token.text}({port.token.text})" for port in module.ports),
        driven=f"      reset = &state[{RARE - 1}:0];\n" + "".join(inputs),
        form="%b" * len(outputs),
        outputs=", ".join(outputs),
    )


def vhdl_bench(module: Module) -> str:
    names = Names(all_names(module))
    declared = [
        f"  signal {names.of(port.token.text)} : "
        + (f"std_logic_vector({port.width - 1} downto 0);\n" if port.width > 1 else "std_logic := '0';\n")
        for port in module.ports
    ]
    inputs = []
    for port, at in driven(module):
        place = f"{at + port.width - 1} downto {at}" if port.width > 1 else str(at)
        inputs.append(f"      {names.of(port.token.text)} <= state({place});\n")
    lowest = " and ".join(f"state({place})" for place in range(RARE))
    shown = []
    for port in module.ports:
        name = names.of(port.token.text)
        if port.kind == "output" and port.width > 1:
            shown.append(f"      for i in {port.width - 1} downto 0 loop put({name}(i)); end loop;\n")
        elif port.kind == "output":
            shown.append(f"      put({name});\n")
    return VHDL_BENCH.format(
        top=STATE - 1,
        below=STATE - 2,
        tap=TAP - 1,
        steps=STEPS,
        cycles=CYCLES,
        name=Names([]).of(module.name),
        ports=port_lines(module, names, "      "),
        declared="".join(declared),
        connected=", ".join(f"{names.of(port.token.text)} => {names.of(port.token.text)}" for port in module.ports),
        driven=f"      reset <= {lowest};\n" + "".join(inputs),
        outputs="".join(shown),
    )


def said_by(folder: pathlib.Path, command: str) -> str:
    done = subprocess.run(
        ["sh", "-c", command],
        cwd=folder,
        text=True,
        stdin=subprocess.DEVNULL,
        stdout=subprocess.PIPE,
        stderr=subprocess.STDOUT,
        check=False,
    )
    return done.stdout


def by_icarus(folder: pathlib.Path, module: str) -> list[str]:
    """The outputs of a module cycle by cycle, as Icarus has them."""
    return said_by(folder, f"iverilog -g2005 -o beside beside.v {module}.v && vvp -n beside").splitlines()


def by_ghdl(folder: pathlib.Path, module: str, standard: str) -> list[str]:
    """The same of the module in VHDL, in a standard."""
    ghdl = f"ghdl {{}} --std={standard} --workdir=w{standard}"
    (folder / f"w{standard}").mkdir(exist_ok=True)
    made = f"{ghdl.format('-a')} {module}.vhd beside.vhd && {ghdl.format('-e')} beside"
    # a port may have the name of something in a function, of which GHDL warns
    return said_by(folder, f"if ({made}) >made 2>&1; then {ghdl.format('-r')} beside; else cat made; fi").splitlines()


def first_difference(one: list[str], other: list[str]) -> str:
    """Where two runs part."""
    rows = zip([*one, "nothing more"], [*other, "nothing more"])
    return next((f"line {count}: {a[:200]} and {b[:200]}" for count, (a, b) in enumerate(rows, 1) if a != b), "")


def beside(bench: Bench, folder: pathlib.Path, name: str) -> None:
    """A module of Verilog and its text in VHDL, which stand in a folder, cycle by cycle."""
    module = Reader(read_text(folder / f"{name}.v")).module()
    (folder / "beside.v").write_text(verilog_bench(module))
    (folder / "beside.vhd").write_text(vhdl_bench(module))
    wanted = by_icarus(folder, name)
    bench.is_so(len(wanted) == CYCLES, f"{name}.v runs {len(wanted)} cycles in Icarus: {wanted[-3:]}")
    # extended names came with the second standard
    standards = STANDARDS if "\\" not in read_text(folder / f"{name}.vhd") else STANDARDS[1:]
    for standard in standards:
        found = by_ghdl(folder, name, standard)
        bench.is_so(found == wanted, f"{name}.vhd differs in --std={standard}: {first_difference(wanted, found)}")


SHAPES = {
    "one": "memory 1\nname one\nwords 2\nbits 1\n",
    "late": "memory 2\nname late\nwords 10\nbits 6\nlatency 4\npolarity 15\nbackgrounds 0 2a 7\n",
    "wide": "memory 2\nname wide\nwords 64\nbits 64\npause 5\nscramble a0 = p0 ^ p1\nscramble a1 = p1 ^ 1\n"
    "scramble a2 = p2\nscramble a3 = p5\nscramble a4 = p4 ^ p3\nscramble a5 = p3\n",
    "Reg": "memory 1\nname Reg\nwords 5\nbits 3\n",
}
MARCH = "{any(w0);up(r0,w1);del;down(r1,w0,r0);any(r0)}\n"


def in_each_standard(bench: Bench) -> None:
    """Self-tests and a module of all operators, and a wrong twin."""
    if not shutil.which("ghdl") or not shutil.which("iverilog"):
        print("ghdl or iverilog is not installed, so no module in VHDL is run beside its Verilog")
        return
    folder = bench.folder / "standards"
    folder.mkdir()
    (folder / "every.v").write_text(EVERY)
    (folder / "m.m").write_text(MARCH)
    for name, text in SHAPES.items():
        (folder / f"{name}.mem").write_text(text)
        made = f"{folder.name}/{name}_bist.v"
        inputs = [f"{folder.name}/m.m", f"{folder.name}/{name}.mem", "tf.list"]
        words = ["compile", *inputs, made, f"{folder.name}/{name}.report"]
        bench.look(["./vidlakost", *words], 0, "total 2 covered 2 escapes 0", "")
    for name in ("every", *(f"{name}_bist" for name in SHAPES)):
        bench.look(["tools/vhdl", f"{folder.name}/{name}.v", folder.name], 0, "", "")
        beside(bench, folder, name)
    right = read_text(folder / "every.vhd")
    (folder / "every.vhd").write_text(right.replace("step := step + step", "step := step + 1"))
    wrong = by_ghdl(folder, "every", "93")
    bench.is_so(len(wrong) == CYCLES and wrong != by_icarus(folder, "every"), "a shift by too few places is not seen")


PARTS = [in_each_standard]
