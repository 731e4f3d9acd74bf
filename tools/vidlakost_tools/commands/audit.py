"""A verdict, with its reason, on somebody else's controller in any Verilog.

usage: vidlakost audit VERILOG .. MARCH MEMORY [--top NAME] [--pins FILE] [--liberty LIB] [--cells FAMILY] [--vcd FILE]
                       [--limit SECONDS] [--reset-open] [--no-simulate] [--json FILE] [--fail-late N] [--strict]
       vidlakost audit --random N [--seed S]      random modules with a damaged fail, compared with Yosys' model checker
       vidlakost audit --help

VERILOG is one file or several. If GHDL is installed, they may be VHDL. They may also be a netlist. Then --liberty
names the library of its cells; it may come several times. For a netlist of ice40 (SB_LUT4, SB_CARRY, SB_GB and the
flip-flops SB_DFF..) or ECP5 (LUT4, PFUMX, L6MUX21, CCU2C, TRELLIS_FF ..), --cells ice40 or --cells ecp5 reads the
models in Yosys' own share folder. Yosys' generic gates need no option.
A self-test has the ports clk, reset, rdata; en, we, addr, wdata, done, fail. If your pins have other names, --pins
names a file with a line for each pin (`#` begins a comment):
    clk bist_clk             the pin of a port; a port without a line has the pin of its own name
    reset ~rst_n             ~ marks a pin that is active low, or a clock whose falling edge counts
    tie start 1              a further input and its value
    open busy                a further output, which audit ignores
audit reports in this order:
    reading                  what Yosys warns of; audit refuses what is outside the subset, and names its signal, file
                             and line
    check                    what `check` says of the ports en, we, addr, wdata and done; if a port differs, what is due
                             there; if a port is unknown, why
    late start               if the first command comes up to 8 cycles late: whether all is right from there on
    late end                 if done alone comes up to 7 cycles late: whether the commands are right. After a comparison
                             in a pipeline fail may be late too, but not later than done. A late end is a finding,
                             unless --fail-late allows it
    after the end            whether done stays 1 and en stays 0
    fail                     whether `fail` is right in every history, from any registers: with each answer right, and
                             with each bit of each answer as the first wrong one.
                             Three values lose that two open values depend on each other. Then audit splits what fail
                             depends on into its numbers. If that is too much, it asks Yosys' model checker
    simulator                if all is right as Yosys reads the sources: a simulator of their language clocks the
                             sources themselves beside the module that Yosys makes of them. It clocks random cycles,
                             with random resets and registers, and the whole test from two seeds, with right and with
                             wrong answers; of a test of more than 300,000 cycles the beginning, the end, each border of
                             elements, and random stretches. audit refuses a port that differs. The cells of a
                             library are clocked as Yosys reads their functions
--vcd writes the run of `check` to FILE, beside the ports that are due. Every register is open at first, and so is
every word on rdata. A save file for GTKWave comes with it, at the cycle that was found, unless one of yours is there.
--limit is for the seconds from the start of audit to the end of its look at `fail` (600) and, where you give it, of
every program that it calls; a verdict without these is no yes. Each ten seconds a line says what audit is doing.
--no-simulate has no simulator clock the sources.
--json writes to FILE, for scripts: the verdict, each witness with its version and what it saw, the cycle and the port
with what is due there and what it is, and the SHA-256 of each input.
After the end audit looks at 64 cycles, or until nothing changes any more. If something still changes, the last line
says to which cycle all is right. --strict makes that a finding. With --no-simulate it also makes a finding of a warning
that a simulator may read the sources otherwise.

The last line begins with the verdict: `audit: right`, `audit: wrong`, `audit: unknown` or `audit: refused`; then comes
what was seen, as in `audit: right: conforms, fail is exact, simulated by Icarus`. The status is 0 for `right`, also if
it holds from some cycles later on, with en, done and fail at 0 until then. It is 1 for any other verdict, and 2 for
wrong words or files. Where no simulator is installed, or it can't read the sources, the line is no yes: `audit:
unknown: right as Yosys reads it, not simulated`. With --no-simulate it is your choice: `audit: right as Yosys reads it,
not simulated`, with the status 0. In the cycle of the reset en, done and fail have to be 0 too. They are
open there if they come from registers that the reset sets at the clock's edge; --reset-open allows that.

What each step rests on. The proved program gives the answer of `check`, for the module that it reads. Yosys (and GHDL,
and a library's functions) reads the sources, and plain Python writes its cells as operators; that the module does what
the sources do rests on both. A late start rests on plain Python up to the cycle that audit names, and on `check` from
there on. What audit says of `fail`, of the cycles after the end and of reasons rests on Yosys, which makes gates of
the module, and on plain Python. audit sees no pulse shorter than a cycle, and an asynchronous reset acts in the cycle
in which it comes."""
from __future__ import annotations

import pathlib
import random
from typing import Any

from vidlakost_tools import bounded
from vidlakost_tools.audit import random_comparison as audit_random, witness
from vidlakost_tools.audit.fail_lanes import Found
from vidlakost_tools.audit.findings import (
    Audit,
    Verdict,
    commands_found,
    end_found,
    fail_found,
    place_told,
    why_open,
)
from vidlakost_tools.audit.outcome import Outcome
from vidlakost_tools.audit.pins import read_pins
from vidlakost_tools.audit.rule_vectors import Rule
from vidlakost_tools.audit.stretches import of_test
from vidlakost_tools.audit.waveform import save_of, write_wave
from vidlakost_tools.text import shown
from vidlakost_tools.texts.march import march_of
from vidlakost_tools.texts.memory import read_memory
from vidlakost_tools.tool import Refused, ToolError, number_of, refuse_inputs, tell, usage_of, words_of
from vidlakost_tools.verilog import source_texts
from vidlakost_tools.verilog.front_end import Plain


def verdict_of(audit: Audit) -> Outcome:
    """What is found, step by step."""
    found = commands_found(audit)
    by_check = {"check": found.line}
    if not found.conforms:
        place_told(audit, found.line)
        why_open(audit, found)
        wave(audit, found, int(found.line.split()[2]) + found.delay)
        verdict = "unknown" if found.line.startswith("unknown ") else "wrong"
        told = found.told()[len("unknown ") :] if found.told().startswith("unknown ") else found.told()
        return Outcome("audit", verdict, told, witnesses=by_check).at(found.line)
    end, until = end_found(audit, found)
    if end or until >= 0:
        print(end or f"after the end done is 1 and en 0 to cycle {until}")
    told_of = fail_found(audit, found, number_of(audit.options.get("--limit", "600"), "--limit", 1))
    wave(audit, found, told_of.cycle if told_of.kind != "exact" else len(audit.commands()) - 1)
    limited = [f"done and en are right to cycle {until}"] if until >= 0 else []
    parts = [found.told(), *([end] if end else limited), told_of.short()]
    verdict = judged(audit, found, end, until, told_of)
    witnesses = {**by_check, "Yosys": told_of.line()}
    if verdict != "right":
        told = ", ".join([*found.more(), *parts[1:]])
        return Outcome("audit", verdict, told, witnesses=witnesses).at(told_of.line())
    return witnessed(audit, found, ", ".join(parts), witnesses)


def judged(audit: Audit, found: Verdict, end: str, until: int, told: Found) -> str:
    """The verdict as Yosys reads the sources, with what there is to say of it."""
    in_reset = [] if "--reset-open" in audit.options else found.in_reset
    if in_reset:
        ports = f"{' and '.join(in_reset)} {'has' if len(in_reset) == 1 else 'have'}"
        print(f"in the cycle of the reset {ports} to be 0; --reset-open allows anything there")
    is_late = found.end_late > number_of(audit.options.get("--fail-late", "0"), "--fail-late")
    if is_late and told.kind == "exact":
        print(f"the rule of the ports allows no late end; --fail-late {found.end_late} does")
    is_strict = "--strict" in audit.options
    is_bounded = is_strict and (until >= 0 or told.kind == "exact" and told.cycle >= 0)
    if is_bounded:
        print("something still changes in the last cycle that was looked at, so it may go wrong later")
    is_untried = is_strict and is_otherwise(audit, found.plain)
    if is_untried:
        print("a simulator may read the sources differently, as the warning says; without --no-simulate one is asked")
    if in_reset or is_late or told.kind == "differs" and told.got != "open" or end and " is open " not in end:
        return "wrong"
    return "right" if told.kind == "exact" and not (end or is_bounded or is_untried) else "unknown"


def witnessed(audit: Audit, found: Verdict, told: str, witnesses: dict[str, str]) -> Outcome:
    """The verdict where it is a yes as Yosys reads the sources: a simulator has to see the same."""
    is_open = "--reset-open" in audit.options or bool(found.in_reset)
    whole = of_test(audit.elements, audit.memory, found.delay + found.end_late, 0 if is_open else -1)
    pins = audit.full_pins(found.plain)
    rule = Rule(audit.elements, audit.memory, found.delay, found.end_late, is_open)
    asked = witness.Asked("audit", audit.files, audit.options, found.plain, pins, audit.memory, whole, rule)
    return witness.outcome(asked, told, "conforms, fail is exact", witnesses)


def is_otherwise(audit: Audit, plain: Plain) -> bool:
    """Whether Yosys warns that a simulator reads the sources otherwise, and the user wants none."""
    return "--no-simulate" in audit.options and any("; a simulator " in warning for warning in plain.warnings)


def wave(audit: Audit, found: Verdict, cycle: int) -> None:
    if "--vcd" in audit.options:
        commands = [*[None] * found.delay, *audit.commands()]
        file = audit.options["--vcd"]
        is_new = write_wave(file, found.plain, commands, audit.memory, cycle)
        save = (
            "a save file for GTKWave is beside it"
            if is_new
            else f"{save_of(file)} is not audit's, and stays as it is"
        )
        tell(f"audit: the run is in {file}, and {save}")


def main(arguments: list[str]) -> int:
    allowed: dict[str, Any] = {
        "--top": 1,
        "--pins": 1,
        "--liberty": [],
        "--cells": 1,
        "--vcd": 1,
        "--limit": 1,
        "--reset-open": 0,
        "--simulate": 0,
        "--no-simulate": 0,
        "--json": 1,
        "--fail-late": 1,
        "--strict": 0,
    }
    words, options = words_of(__doc__, arguments, {**allowed, "--random": 1, "--seed": 1})
    if "--random" in options and not words:
        seed = number_of(options.get("--seed", "1"), "--seed")
        return audit_random.compare(number_of(options["--random"], "--random", 1), random.Random(seed))
    if len(words) < 3 or set(options) - set(allowed):
        raise ToolError(f"too few words, or options that don't go together\n{usage_of(__doc__)}")
    *files, march, memory_file = words
    pins = read_pins(options["--pins"]) if "--pins" in options else None
    if {"--simulate", "--no-simulate"} <= set(options):
        raise ToolError("--simulate and --no-simulate don't go together")
    sources = source_texts.included(files) if {"--vcd", "--json"} & set(options) else files
    more = [*options.get("--liberty", []), *([pins.file] if pins else [])]
    named = [("a source", file) for file in files] + [("the march", march), ("the memory", memory_file)]
    named += [("what is read", file) for file in sources]
    named += [("what is read", file) for file in more]
    for target in ("--vcd", "--json"):
        refuse_inputs(options.get(target), named)
    if pathlib.Path(options.get("--vcd", "")).suffix == ".gtkw":
        raise ToolError(f"{shown(options['--vcd'])} is the name of the save file beside the waveform")
    elements, memory = march_of(march)[1], read_memory(memory_file)
    audit = Audit(files, options, pins, march, memory_file, elements, memory)
    if "--limit" in options:
        bounded.LIMITS.append(audit.begin + number_of(options["--limit"], "--limit", 1))
    try:
        outcome = verdict_of(audit)
    except ToolError as error:
        if isinstance(error, Refused) or error.status != 1:
            raise
        tell(f"audit: {error}")
        outcome = witness.refusal("audit", error)
    outcome.write(options.get("--json"), [*sources, march, memory_file, *more])
    print(outcome.line())
    return outcome.status
