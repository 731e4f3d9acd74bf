"""The sources of a controller, clocked by Icarus beside a judge that knows the rule of the ports: from random
registers, with right and wrong answers. What it tells stands apart from Yosys but for the names of registers that are
set at first."""
from __future__ import annotations

import dataclasses
import os
import re
from typing import Iterable

from vidlakost_tools.audit.beside_icarus import Beside, call, compiled
from vidlakost_tools.temporary import folder_of_its_own
from vidlakost_tools.text import template
from vidlakost_tools.verilog import port_judge
from vidlakost_tools.verilog.port_judge import Cycle
from vidlakost_tools.verilog.source_texts import with_members
from vidlakost_tools.verilog.syntax import ranged

BENCH = template(__file__, "beside_rule_bench.sv")


# so many cycles more than the judge's list has, whose last one stays
BEHIND = 8


@dataclasses.dataclass
class Clocked:
    """What is clocked: the sources with the module that Yosys makes of them, the test, and how many histories from
    which seed."""

    beside: Beside
    cycles: list[Cycle]
    histories: int = 200
    seed: int = 1

    def bench(self, same: Iterable[str]) -> str:
        assert self.beside.memory is not None
        plain, bits = self.beside.plain, self.beside.memory.bits
        draws = [f"      n_{one.name} = {{$random(seed), $random(seed)}};" for one in plain.registers]
        return BENCH.substitute(
            word=ranged(bits),
            seed=self.seed,
            histories=self.histories,
            cycles=len(self.cycles) + BEHIND,
            declared="\n".join(f"  reg {ranged(one.width)}n_{one.name};" for one in plain.registers),
            registers="\n".join([*draws, *same]),
            bits=bits,
            top=bits - 1,
        )


def told(asked: Clocked) -> str:
    """What the run says: `right in ..` or `wrong in cycle ..`."""
    assert asked.beside.memory is not None
    with folder_of_its_own() as folder:
        judge = port_judge.checker(asked.beside.memory, asked.cycles, asked.beside.plain.top, False, asked.beside.pins)
        texts = {"judge.v": judge, "cells.v": asked.beside.known()}
        for part, text in texts.items():
            (folder / part).write_text(text, encoding="utf-8")
        copies, _ = with_members(asked.beside.files, folder)
        files = [str(folder / part) for part in ("bench.v", *texts)] + [os.path.abspath(file) for file in copies]
        words = ["iverilog", "-g2012", "-s", "clocked", "-o", str(folder / "run"), *files]
        compiled(words, folder, asked.bench, asked.beside.same("judge.dut.", "n_"))
        _, said = call(["vvp", "-n", str(folder / "run")], folder)
    found: list[str] = re.findall(r"^(?:right|wrong) in .*$", said, re.MULTILINE)
    return found[-1] if found else f"no end: {said[-200:]}"
