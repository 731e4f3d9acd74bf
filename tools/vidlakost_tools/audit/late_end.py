"""A controller that compares in a pipeline, so that `fail` and `done` come some cycles later than the rule of the ports
has them: by how many, and the module whose `done` comes when it is due, so that `check` tells whether its commands are
right."""
from __future__ import annotations

import dataclasses
import itertools

from vidlakost_tools.program import with_text
from vidlakost_tools.tool import progress
from vidlakost_tools.verilog import open_run
from vidlakost_tools.verilog.front_end import Plain
from vidlakost_tools.verilog.named_bits import Drive

MOST = 7
WIDTH = 22


def late(plain: Plain, end: int) -> int | None:
    """How many cycles behind the one in which it is due `done` comes, being 0 until then, and `en` too; None where it
    does not."""
    cycles = open_run.cycles_of(with_text(plain.text(), open_run.read_module))
    for _ in progress(range(end), f"the module is clocked to the end in cycle {end}"):
        next(cycles)
    for count, found in enumerate(itertools.islice(cycles, MOST + 1)):
        if found["done"] == 1 or found["done"] is None or found["en"] != 0:
            return count if count and found["done"] == 1 and found["en"] == 0 else None
    return None


def in_time(plain: Plain, end: int) -> Plain:
    """The module with a `done` that a counter makes, which comes when it is due."""
    used = {drive.name for drive in [*plain.wires, *plain.registers, *plain.outputs]} | set(plain.opens)
    used |= {port for _, port, _ in plain.ports}
    name = next(name for name in (f"cycle_{count}" for count in itertools.count()) if name not in used)
    last = f"{WIDTH}'d{end}"
    count = Drive(
        name, WIDTH, f"(reset ? {WIDTH}'d1 : (({name} == {last}) ? {last} : ({name} + {WIDTH}'d1)))", [["reset", name]]
    )
    done = Drive("done", 1, f"(({name} == {last}) & (~reset))", [[name, "reset"]])
    outputs = [done if output.name == "done" else output for output in plain.outputs]
    return dataclasses.replace(plain, registers=[*plain.registers, count], outputs=outputs)
