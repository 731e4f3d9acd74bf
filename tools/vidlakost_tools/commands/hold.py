"""Retention by hold: a self-test whose clock stops in the pauses of its march until it is resumed.

usage: vidlakost hold MARCH MEMORY FOLDER
       vidlakost hold --help

Use it for a retention test whose wait is longer than a pause can be, as 100 ms. With `pause 1` in MEMORY each pause is
one cycle. hold writes to FOLDER
    NAME_hold.v        the module NAME_hold round NAME_bist, which `compile` writes. It has the ports of NAME_bist, and
                       `resume`, `held` and `clk_test`, which is also the clock of the memory. That clock stops in the
                       last cycle of each pause until `resume` rises. Hold `reset` at 1 for three cycles of `clk`. The
                       clock gate is a module of its own: replace it by the one of your library
    NAME_hold.md       a table of the cycles in which it is held
    NAME_hold_tb.sv    a testbench. It checks that the clock stops; with +planted a cell loses its content in each hold
If a pause has more cycles than the latency, the words of the reads before it arrive before the clock stops.
    cd FOLDER && iverilog -g2012 -o tb NAME_hold_tb.sv NAME_hold.v NAME_bist.v && vvp -n tb && vvp -n tb +planted"""
from __future__ import annotations

import pathlib

from vidlakost_tools.collar import hold as hold_text
from vidlakost_tools.files import write_own
from vidlakost_tools.texts.march import march_of
from vidlakost_tools.texts.memory import read_memory
from vidlakost_tools.tool import ToolError, tell, words_of


def main(arguments: list[str]) -> int:
    (march, path, folder), _ = words_of(__doc__, arguments, {}, 3, 3)
    elements, memory = march_of(march)[1], read_memory(path)
    holds = hold_text.holds_of(elements, memory)
    if not holds:
        raise ToolError(f"{march}: the march has no pause, so nothing can be held")
    texts = {
        f"{memory.name}_hold.v": hold_text.text(elements, memory, holds),
        f"{memory.name}_hold.md": hold_text.table(elements, memory, holds),
        f"{memory.name}_hold_tb.sv": hold_text.bench(elements, memory, holds),
    }
    write_own(pathlib.Path(folder), texts, [march, path])
    if memory.pause <= memory.latency:
        tell(
            f"hold: a pause has {memory.pause} cycle{'s' if memory.pause > 1 else ''}, so the clock may stop before the"
            " words of earlier reads arrive"
        )
    if not hold_text.is_read_behind(elements):
        tell("hold: no read follows a pause, so +planted finds nothing")
    return 0
