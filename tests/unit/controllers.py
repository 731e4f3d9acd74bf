"""A small controller, which is right, as tests change it; and the programs that some tests need."""
from __future__ import annotations

import pathlib
import shutil
import tempfile
import unittest
from typing import Any, Callable

from vidlakost_tools.audit.pins import Pins
from vidlakost_tools.texts.march import elements_of
from vidlakost_tools.texts.memory import parse_memory
from vidlakost_tools.verilog import front_end, open_run
from vidlakost_tools.verilog.front_end import Plain

MARCH = elements_of("{any(w0);up(r0)}")
MEMORY = parse_memory("memory 1\nname tiny\nwords 2\nbits 2\nbackgrounds 0\n")
# Cycle 0 is that of the reset. Two words are written in the cycles 1 and 2 and read in 3 and 4. Their answers come in 4
# and 5, and the last comparison shows in cycle 6.
DONE = 6
SMALL = """module walker(
  input clk, input reset, input [1:0] rdata,
  output en, output we, output addr, output [1:0] wdata, output done, output fail
);
  reg [2:0] step;
  reg bad;
  assign en = !reset && step >= 3'd1 && step <= 3'd4;
  assign we = step <= 3'd2;
  assign addr = !step[0];
  assign wdata = 2'd0;
  assign done = !reset && step == 3'd6;
  assign fail = !reset && bad;
  always @(posedge clk)
    if (reset) begin
      step <= 3'd1;
      bad <= 1'b0;
    end else begin
      step <= step == 3'd6 ? 3'd6 : step + 3'd1;
      if ((step == 3'd4 || step == 3'd5) && rdata != 2'd0) bad <= 1'b1;
    end
endmodule
"""


def changed(*pairs: tuple[str, str], text: str = SMALL) -> str:
    """The small controller with some lines changed, each of which has to be there once."""
    for old, new in pairs:
        assert text.count(old) == 1, old
        text = text.replace(old, new)
    return text


def plain_of(text: str, options: dict[str, Any] | None = None, pins: Pins | None = None, **more: str) -> Plain:
    """A source as a module of the subset; `more` are sources beside it, by the ending of their names."""
    with tempfile.TemporaryDirectory() as name:
        files: list[str] = []
        for ending, content in {"v": text, **more}.items():
            file = pathlib.Path(name) / f"{len(files)}.{ending}"
            file.write_text(content)
            files.append(str(file))
        return front_end.plain_of(files, options or {}, pins)


def checked(plain: Plain) -> str:
    """What the plain model of `check` says of a module for the march and the memory of the small controller."""
    with tempfile.TemporaryDirectory() as name:
        file = pathlib.Path(name) / "plain.v"
        file.write_text(plain.text())
        return open_run.line_of(open_run.read_module(file), MARCH, MEMORY)


def needs(*programs: str) -> Callable[[Any], Any]:
    """Leaves out a test where one of these programs is missing."""
    missing = [program for program in programs if shutil.which(program) is None]
    return unittest.skipIf(bool(missing), f"{' and '.join(missing)} is not on the PATH")
