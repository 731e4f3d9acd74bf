"""The cell that chooses between the chip's clock of a macro and that of the test, which the user names: its pins, its
instance and a model of it. A clock that `? :` chooses may come out with pulses that no clock has."""
from __future__ import annotations

import dataclasses

from vidlakost_tools.collar.pin_lines import is_name
from vidlakost_tools.verilog.reserved_words import RESERVED
from vidlakost_tools.collar.pins import Macro
from vidlakost_tools.text import shown
from vidlakost_tools.tool import ToolError

FORM = "CELL:SELECT:CHIP:TEST:OUT"
MODEL = """{mark} collar: a model of the cell {cell} that chooses a clock, for simulation alone.
`timescale 1ns / 1ps
module {cell}(input {select}, input {chip}, input {test}, output {out});
  assign {out} = {select} ? {test} : {chip};
endmodule
"""
BOX = """(* blackbox *)
module {cell}(input {select}, input {chip}, input {test}, output {out});
endmodule
"""


@dataclasses.dataclass(frozen=True)
class ClockMux:
    """A cell: its module, the pin that is 1 for the clock of the test, those of the two clocks, and its output."""

    cell: str
    select: str
    chip: str
    test: str
    out: str

    def instance(self, name: str, select: str, chip: str, out: str) -> str:
        """The cell between a clock of the chip's and that of the test."""
        links = ((self.select, select), (self.chip, chip), (self.test, "clk"), (self.out, out))
        return f"  {self.cell} {name}({', '.join(f'.{pin}({net})' for pin, net in links)});"

    def model(self, mark: str) -> str:
        return MODEL.format(mark=mark, **dataclasses.asdict(self))

    def box(self) -> str:
        return BOX.format(**dataclasses.asdict(self))


def clock_mux(text: str) -> ClockMux:
    """The cell that an option names."""
    names = text.split(":")
    is_plain = all(is_name(name) and name not in RESERVED for name in names)
    if len(names) != 5 or len(set(names)) != 5 or not is_plain:
        raise ToolError(f"--clock-mux is {FORM}, five names, not {shown(text)}")
    return ClockMux(*names)


def chosen_clocks(macro: Macro) -> list[str]:
    """The pins of a macro whose clock is another in test."""
    return [pin.name for pin in macro.pins if pin.kind == "clock2" or pin.kind == "clk" and pin.is_second]
