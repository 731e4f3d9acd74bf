"""The netlists of the generated modules in Icarus, of cells that keep x: beside the modules they are made of."""
from __future__ import annotations

import os
import pathlib
import re

from measures import flow, gates
from measures.parts import Figure, Skipped, timed, want, write

CELLS = os.path.join(flow.TECHNOLOGY, "osu018_stdcells.v")
LIMIT = 100_000
# The memory answers x to whatever is not a read, and its words are x at first. The last one has a bit that is always 1,
# so that both fail where a run gets there.
BENCH = """`timescale 1ns/1ps
module bench;
  reg clk = 0, reset = 1;
  reg [%(bits)d:0] memory [0:%(last)d];
  reg [%(bits)d:0] pending [0:%(latency)d];
  reg [%(bits)d:0] rdata;
  wire en, we, done, fail, en_2, we_2, done_2, fail_2;
  wire [%(bits)d:0] wdata, wdata_2;
  wire [%(addr)d:0] addr, addr_2;
  integer cycle, age, ended, differ;
  buffer_bist module_itself(.clk(clk), .reset(reset), .rdata(rdata), .en(en), .we(we), .addr(addr), .wdata(wdata),
    .done(done), .fail(fail));
  netlist cells(.clk(clk), .reset(reset), .rdata(rdata), .en(en_2), .we(we_2), .addr(addr_2), .wdata(wdata_2),
    .done(done_2), .fail(fail_2));
  initial begin
    ended = 0;
    differ = 0;
    for (cycle = 0; cycle < %(limit)d && ended < 8; cycle = cycle + 1) begin
      rdata = pending[0];
      #4;
      if (cycle > 0) begin
        if ((^{en_2, we_2, addr_2, wdata_2, done_2, fail_2}) === 1'bx) differ = differ + 1;
        else if ({en_2, we_2, addr_2, wdata_2, done_2, fail_2} !== {en, we, addr, wdata, done, fail})
      differ = differ + 1;
        if (done === 1'b1) ended = ended + 1;
      end
      if (en & we) memory[addr] = wdata;
      pending[%(latency)d] = en === 1'b1 && !we ? memory[addr] | (addr == %(last)d) : {%(width)d{1'bx}};
      #1 clk = 1;
      #4 for (age = 0; age < %(latency)d; age = age + 1) pending[age] = pending[age + 1];
      reset = 0;
      #1 clk = 0;
    end
    $display("cycles %%0d differ %%0d failed %%b done %%b", cycle - 1, differ, fail, done);
  end
endmodule
"""


def compared(folder: pathlib.Path, module: pathlib.Path, bits: int, words: int, latency: int) -> tuple[int, int]:
    """The cycles that were compared, and those in which an output of the netlist has an x or differs from the
    module's."""
    netlist = pathlib.Path(flow.netlist_of(str(module), "buffer_bist", 0, str(folder / "flow")))
    cells = re.sub(r"^module buffer_bist\b", "module netlist", netlist.read_text(), flags=re.M)
    values = {
        "bits": bits - 1,
        "width": bits,
        "last": words - 1,
        "addr": max(words - 1, 1).bit_length() - 1,
        "latency": latency,
        "limit": LIMIT + 1,
    }
    files = write(folder, **{"netlist.v": cells, "bench.v": BENCH % values})
    built = timed("iverilog", "-g2005", "-s", "bench", "-o", folder / "run", *files, module, CELLS)
    said = timed(folder / "run").said if built.status == 0 else built.said
    found = re.search(r"cycles (\d+) differ (\d+)", said)
    if found is None:
        raise SystemExit(f"Icarus does not run {netlist}: {said[-400:]}")
    return int(found[1]), int(found[2])


def netlists(folder: pathlib.Path) -> list[Figure]:
    """Netlists beside their modules in Icarus, up to 100,000 cycles after the reset of each."""
    want("iverilog", "yosys")
    if flow.missing():
        raise Skipped(f"{', '.join(flow.missing())} is missing")
    made, differ = [], 0
    for (_, module, _), (_, _, words, bits, more) in zip(gates.rows(folder), gates.ROWS):
        latency = re.search(r"latency (\d)", more)
        cycles, wrong = compared(module.parent, module, bits, words, int(latency[1]) if latency else 1)
        made.append(cycles)
        differ += wrong
    what = f"{len(made)} netlists"
    return [Figure(what, sum(made), "cycles"), Figure(what, differ, "with an x or another output")]
