"""A module in the subset that `check` reads, which Yosys makes of any synthesizable Verilog or VHDL.

usage: vidlakost plain OUT.v IN.v .. [--top NAME] [--pins FILE] [--liberty LIB] [--cells FAMILY] [--no-simulate]
       vidlakost plain --help

Yosys reads parameters, functions, `always @*`, hierarchies, asynchronous resets and the like. A simulator of the
sources' language clocks the sources beside OUT.v, for 4,000 cycles from random registers and with random inputs. A port
that differs is refused, and OUT.v is not written. Where no simulator is installed, or it can't read the sources, plain
writes OUT.v, says that it is not simulated, and ends with 1. With --no-simulate it ends with 0 then.
Operators stay operators, and names of the sources stay. The ports keep their names and widths, or get those that --pins
lists (`vidlakost audit --help` describes its lines). --liberty reads the cells of a netlist, and may come several
times. --cells ice40 or ecp5 reads the cells of that family that are only logic or registers, from Yosys' share folder.
The clock is one input, of any name, and only its rising edge counts. A clock that a latch gates becomes an enable. An
asynchronous reset becomes one that acts in the cycle in which it comes.
plain leaves out initial values of registers, since a self-test begins with a reset. A memory that is only read keeps
its content. What nothing drives (a mistyped name, an open input, an `x`) becomes a register that nothing sets, which
is open in `check`. plain refuses a signal with two drivers, and hands on the warnings of Yosys."""
from __future__ import annotations

from typing import Any

from vidlakost_tools.audit import witness
from vidlakost_tools.audit.outcome import READ_ALONE
from vidlakost_tools.audit.pins import read_pins
from vidlakost_tools.audit.witness import SIMULATED
from vidlakost_tools.folder import write_whole
from vidlakost_tools.tool import refuse_inputs, tell, words_of
from vidlakost_tools.verilog import source_texts, yosys
from vidlakost_tools.verilog.front_end import plain_of


def main(arguments: list[str]) -> int:
    allowed: dict[str, Any] = {"--top": 1, "--pins": 1, "--liberty": [], "--cells": 1, **SIMULATED}
    (out, *files), options = words_of(__doc__, arguments, allowed, 2)
    yosys.want()
    read = [
        *source_texts.included(files),
        *options.get("--liberty", []),
        *([options["--pins"]] if "--pins" in options else []),
    ]
    refuse_inputs(out, [("what is read", file) for file in read])
    pins = read_pins(options["--pins"]) if "--pins" in options else None
    plain = plain_of(files, options, pins)
    refuse_inputs(out, [("what is read", file) for file in plain.opened])
    source_texts.refuse_untold(out, files, "module ")
    for warning in plain.warnings:
        tell(f"plain: {warning}")
    pins = pins.with_own(port for _, port, _ in plain.ports) if pins else None
    said = witness.heard(witness.Asked("plain", files, options, plain, pins))
    write_whole(out, plain.text())
    if said.seen is None:
        word = "unknown: " if said.is_asked else ""
        tell(f"plain: {word}{READ_ALONE}: {out} holds of the sources if Yosys is right")
        return 1 if said.is_asked else 0
    tell(f"plain: right: {out} is what the sources are, as Yosys reads them and {said.seen.simulator} clocks them")
    return 0
