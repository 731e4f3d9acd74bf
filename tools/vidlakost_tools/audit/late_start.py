"""A controller that starts some cycles behind its reset, as one with an idle state: what it is so many cycles later
becomes what it is behind the reset, so that `check` tells whether it is right from there on."""
from __future__ import annotations

import dataclasses
import itertools
from typing import Any

from vidlakost_tools.program import with_text
from vidlakost_tools.verilog import open_run
from vidlakost_tools.verilog.front_end import Plain
from vidlakost_tools.verilog.named_bits import Drive

MOST = 8


@dataclasses.dataclass
class Late:
    """A start so many cycles late: the module from there on, and what is not 0 in the cycle of the reset."""

    cycles: int
    module: Plain
    in_reset: list[str]


def late(plain: Plain, first: int) -> Late | None:
    """The late start of a module, the first command of the march being due in a cycle; None where it has none."""
    run = with_text(plain.text(), open_run.read_module)
    cycles = list(itertools.islice(open_run.cycles_of(run), first + MOST + 2))
    begin = next((cycle for cycle, found in enumerate(cycles) if cycle >= first and found["en"] == 1), None)
    if begin is None or begin - first > MOST:
        return None
    delay = begin - first
    if any(cycles[cycle][port] != 0 for cycle in range(1, delay + 1) for port in ("en", "done")):
        return None
    in_reset = [port for port in ("en", "done", "fail") if cycles[0][port] != 0]
    return Late(delay, started(plain, cycles[delay + 1]), in_reset)


def started(plain: Plain, at: dict[str, Any]) -> Plain:
    """The module whose reset sets each register to what it holds in a cycle; what is open there stays as it is."""

    def reset(register: Drive) -> Drive:
        number = at[register.name]
        value = register.name if number is None else f"{register.width}'d{number}"
        return dataclasses.replace(register, value=f"(reset ? {value} : {register.value})")

    def quiet(output: Drive) -> Drive:
        if output.name not in ("en", "done", "fail"):
            return output
        return dataclasses.replace(output, value=f"({output.value} & (~reset))")

    return dataclasses.replace(
        plain,
        registers=[reset(register) for register in plain.registers],
        outputs=[quiet(output) for output in plain.outputs],
    )
