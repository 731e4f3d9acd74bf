"""How a testbench begins a planted run and ends any: where a bit may be stuck, and the last line of a run that
passes."""
from __future__ import annotations

from typing import Sequence

from vidlakost_tools.text import template

OVER = """  // a run passes where its last line says so: a model, or anything else, may end it before
  reg is_over = 1'b0;
  final
    if (is_over === 1'b1) $display("{module}: passed");
    else $fatal(1, "{module}: not passed, since the run ended before its end");
"""
FINISH = "is_over = 1'b1;\n    $finish;"

PLANTED = template(__file__, "bench_end_planted.sv")


def progress(told: str, value: str = "") -> str:
    """What says how far a run is. A simulator would keep the line back where a file or a pipe takes it."""
    return f'$display("{told}"{value and ", "}{value}); $fflush;'


def over(module: str) -> str:
    """The lines at the head of a testbench that end its run; `FINISH` is what it ends with."""
    return OVER.format(module=module)


def planted(module: str, sizes: Sequence[tuple[int, int]]) -> str:
    """What a call of a testbench plants, in one of some memories of so many words and bits; what is none of them is
    refused."""
    inside = [
        f"(asked_unit == 64'd{number} && asked_address < 64'd{words} && asked_bit < 64'd{bits})"
        for number, (words, bits) in enumerate(sizes)
    ]
    return PLANTED.substitute(module=module, inside="\n      || ".join(inside))
