"""What `audit` finds of a controller, step by step: its ports, its commands, a late start or end, what stands behind
the end, and `fail`."""
from __future__ import annotations

import dataclasses
import functools
import re
import shlex
import subprocess
import sys
import time
from typing import Any

from vidlakost_tools.audit import fail_lanes as lanes, fail_search, late_end, late_start, why_unknown
from vidlakost_tools.audit.gates import Machine, gates_of
from vidlakost_tools.audit.halves import Halves
from vidlakost_tools.audit.pins import Pins, ports_of, proposed, told_ports
from vidlakost_tools.program import ROOT, run
from vidlakost_tools.temporary import folder_of_its_own
from vidlakost_tools.text import INPUT_BYTES, visible
from vidlakost_tools.texts.march import Element
from vidlakost_tools.texts.memory import Memory
from vidlakost_tools.tool import Refused, ToolError, progress, refuse_inputs, tell, telling
from vidlakost_tools.verilog import open_run, source_texts
from vidlakost_tools.verilog.front_end import ALL_GATES, Plain, plain_of

FEWER_GATES = "a source that is not yet a netlist gives a far shorter one"


@dataclasses.dataclass
class Audit:
    """What is asked: the sources, the test, and the commands of each cycle from the reset to the one of `done`."""

    files: list[str]
    options: dict[str, Any]
    pins: Pins | None
    march: str
    memory_file: str
    elements: list[Element]
    memory: Memory
    # when the tool began
    begin: float = dataclasses.field(default_factory=time.monotonic)

    @functools.cached_property
    def all_commands(self) -> list[Any]:
        return [None, *open_run.commands_of(self.elements, self.memory), *[None] * (self.memory.latency + 1)]

    def commands(self) -> list[Any]:
        return self.all_commands

    def full_pins(self, plain: Plain) -> Pins | None:
        """The pins, with each port that has no line at the pin of its own name."""
        return None if self.pins is None else self.pins.with_own(port for _, port, _ in plain.ports)

    def module(self, tries: tuple[str, ...] | None = None) -> Plain:
        return plain_of(self.files, self.options, self.pins, *([tries] if tries else []))


@dataclasses.dataclass
class Verdict:
    """What was found of the commands: the line of `check`, the module it holds of, the delay of its start."""

    line: str
    plain: Plain
    delay: int = 0
    in_reset: list[str] = dataclasses.field(default_factory=list)
    # how many cycles later than it is due `done` comes
    end_late: int = 0

    @property
    def conforms(self) -> bool:
        return self.line.startswith("conforms ")

    def told(self) -> str:
        """The finding, as the last line begins."""
        late = f"{cycles(self.delay)} late" if self.delay else ""
        if not self.conforms:
            return f"starts {late}: {self.line}" if late else self.line
        return ", ".join([f"conforms {late}" if late else "conforms", *self.more()[1 if late else 0 :]])

    def more(self) -> list[str]:
        """What there is to say of right commands."""
        found = [f"starts {cycles(self.delay)} late"] if self.delay else []
        found += [f"done {cycles(self.end_late)} late"] if self.end_late else []
        return found + ([f"{' and '.join(self.in_reset)} not 0 in the reset"] if self.in_reset else [])


def cycles(count: int) -> str:
    return f"{count} cycle{'s' if count > 1 else ''}"


# ---- the ports


def refuse_ports(audit: Audit, plain: Plain) -> None:
    """Refuses a module whose ports are not those of the memory's self-test, with the lines of a file of pins for it."""
    memory = audit.memory
    wanted, there = ports_of(memory), set(plain.ports)
    if wanted == there:
        return
    missing = told_ports(wanted - there)
    said = f"a self-test of {memory.name} has the ports {missing}" if missing else "further ports are there"
    others = ", ".join(f"{way} {name} of {width}" for way, name, width in sorted(there - wanted))
    if audit.pins:
        raise ToolError(f"{audit.pins.file}: {said}" + (f"; the pins give {others}" if others else ""), 1)
    pins = {name: plain.clock or name if name == "clk" else name for _, name, _ in plain.ports}
    ports = {pins[name]: {"direction": way, "bits": [0] * width} for way, name, width in plain.ports}
    guess = "\n".join(f"    {line}" for line in proposed(ports, memory, plain.clock))
    raise ToolError(
        f"{said}; the module has {others or 'no others'}.\nA file for --pins may begin as this guess:\n{guess}", 1
    )


# ---- the commands


def checked(audit: Audit, plain: Plain) -> str:
    """The line of `check` for a module."""
    with folder_of_its_own() as folder:
        file = folder / "module.v"
        file.write_text(plain.text(), encoding="utf-8")
        words = ["check", str(file), audit.march, audit.memory_file]
        with telling("`check` clocks the module", lambda: f"a test of {len(audit.commands()):,} cycles"):
            status, said = run(*words)
        if status == 6:
            size = file.stat().st_size
            why = (
                f"the module that Yosys makes of the sources has {size:,} bytes, and `check` reads {INPUT_BYTES:,} at"
                " most"
            )
            raise ToolError(f"{why}; {FEWER_GATES}", 1)
        if said.startswith("verilog "):
            raise ToolError(f"`check` refuses the module that Yosys makes of the sources: {said}", 1)
        if status not in (0, 1):
            raise Refused(words, said, status)
        return said


def commands_found(audit: Audit) -> Verdict:
    """What `check` says, of words, of gates where it is unknown of words, or from a late start on."""
    plain = audit.module()
    refuse_inputs(audit.options.get("--vcd"), [("what is read", file) for file in plain.opened])
    source_texts.refuse_untold(audit.options.get("--vcd"), audit.files, "$")
    for warning in plain.warnings:
        tell(f"audit: {warning}")
    refuse_ports(audit, plain)
    found = Verdict(checked(audit, plain), plain)
    # whoever reads this by a pipe has it now: what follows may take minutes
    print(f"check: {found.line}", flush=True)
    if found.line.startswith("unknown "):
        gates = audit.module(ALL_GATES)
        line = checked(audit, gates)
        if line != found.line:
            print(f"check, bit by bit: {line}")
            found = Verdict(line, gates)
    if found.conforms:
        return found
    return late_found(audit, found) or late_end_found(audit, found) or found


def late_end_found(audit: Audit, found: Verdict) -> Verdict | None:
    """What is found where `done` alone is late, as it is behind a comparison in a pipeline."""
    end = len(audit.commands()) - 1
    if found.line != f"differs cycle {end} port done expected 1 got 0":
        return None
    late = late_end.late(found.plain, end)
    line = checked(audit, late_end.in_time(found.plain, end)) if late else ""
    if not late or not line.startswith("conforms "):
        return None
    print(f"late end: the commands are right, and done comes {cycles(late)} late")
    print("  so it does where the words are compared in a pipeline")
    return Verdict(line, found.plain, end_late=late)


def late_found(audit: Audit, found: Verdict) -> Verdict | None:
    """What is found from a late start on, where the first command may come late."""
    first = next((cycle for cycle, command in enumerate(audit.commands()) if command), None)
    if first is None or not re.match(
        rf"(unknown|differs) cycle 0 |(unknown|differs) cycle {first} port en", found.line
    ):
        return None
    late = late_start.late(found.plain, first)
    if late is None:
        print("no late start: in the first 8 cycles en doesn't rise, or done is 1 before it does")
        return None
    line = checked(audit, late.module)
    verdict = Verdict(line, found.plain, late.cycles, late.in_reset)
    if not late.cycles:
        print(f"after the reset: {line}")
        return verdict
    print(f"late start: the test begins {cycles(late.cycles)} late; counted from there: {line}")
    if verdict.conforms:
        print(f"  before it, en and done are 0{' after the reset' if late.in_reset else ''}")
        if late.in_reset:
            print(f"  in the reset, {' and '.join(late.in_reset)} {'is' if len(late.in_reset) == 1 else 'are'} not 0")
    return verdict


def place_told(audit: Audit, line: str) -> None:
    """What is due in the cycle of a line."""
    words = [sys.executable, str(ROOT / "tools" / "locate"), audit.march, audit.memory_file, "--line", line]
    done = subprocess.run(words, stdout=subprocess.PIPE, stderr=subprocess.DEVNULL, text=True, check=False)
    if done.returncode == 0 and done.stdout:
        print("due there: " + ", ".join(done.stdout.splitlines()))


def why_open(audit: Audit, found: Verdict) -> None:
    """Why a port is open."""
    match = re.match(r"unknown cycle (\d+) port (\w+)", found.line)
    if not match:
        return
    machine = Machine(gates_of(found.plain), (match[2],))
    cycle = int(match[1]) + found.delay
    values = why_unknown.values_of(machine, {}, cycle)
    tell_reasons(why_unknown.Search(machine, values, found.plain), machine, match[2], cycle)


def tell_reasons(search: why_unknown.Search, machine: Machine, port: str, cycle: int) -> None:
    reasons: list[str] = []
    for bit in machine.results:
        if search.is_open(bit, cycle) and len(reasons) < 4:
            reasons += search.reasons(port, bit, cycle)
    for reason in list(dict.fromkeys(reasons))[:4]:
        print(visible(f"  {port} {reason}"))


# ---- behind the end, and `fail`


def end_found(audit: Audit, found: Verdict) -> tuple[str, int]:
    """Where `done` doesn't stay 1 and `en` 0 behind the end, or nothing; and the last cycle that was looked at, or -1
    where nothing changes any more."""
    machine = Machine(gates_of(found.plain), ("done", "en"))
    halves = Halves(machine, is_open=True)
    end = len(audit.commands()) - 1 + found.delay + found.end_late
    state, words = halves.start(), [(0, 0)] * len(machine.words)
    for cycle in progress(range(end + lanes.BEHIND + 1), "looking at done and en behind the end"):
        before = state
        state, told = halves.step(state, words, cycle == 0)
        for port, (one, zero), wanted in zip(("done", "en"), told, ((-1, 0), (0, -1))):
            if cycle >= end and (one, zero) != wanted:
                got = "1" if one else "0" if zero else "open"
                return f"{port} is {got} in cycle {cycle}, after the end", cycle
        if cycle > end and state == before:
            return "", -1
    return "", end + lanes.BEHIND


def fail_found(audit: Audit, found: Verdict, limit: int) -> lanes.Found:
    """What is found of `fail`, in so many seconds from the start of the tool."""
    clock = lanes.Clock(limit, audit.begin)
    with telling("looking at fail", lambda: clock.at):
        return fail_told(audit, found, clock)


def fail_told(audit: Audit, found: Verdict, clock: lanes.Clock) -> lanes.Found:
    commands, memory = audit.commands(), audit.memory
    answers = {
        cycle + memory.latency + found.delay: command[2]
        for cycle, command in enumerate(commands)
        if command and not command[0]
    }
    is_open = "--reset-open" in audit.options or "fail" in found.in_reset
    machine = Machine(gates_of(found.plain), ("fail",))
    # where the end is late, fail may be so too, and not later than it
    for late in range(found.end_late + 1):
        plan = lanes.Plan(answers, len(commands) + found.delay + found.end_late, memory.bits, 1 if is_open else 0, late)
        told = fail_search.look_at(machine, plan, found.plain, clock)
        if told.found.kind == "exact":
            break
    if told.how:
        print(told.how)
    told_late = f", {cycles(late)} later than the rule of the ports" if late and told.found.kind == "exact" else ""
    print(told.found.line() + told_late)
    if told.history:
        print(visible(told.history))
    if told.found.got == "open":
        why_fail_open(audit, found, machine, told)
    if told.found.got == "open" and told.found.cycle == 0:
        reset_told(machine, told.plan, found.plain, clock)
    return told.found


def reset_told(machine: Machine, plan: lanes.Plan, plain: Plain, clock: lanes.Clock) -> None:
    """Says of a `fail` that is open in the cycle of the reset whether that is all there is to say of it."""
    later = fail_search.look_at(machine, dataclasses.replace(plan, first=1), plain, clock)
    if later.found.kind == "exact":
        print("in the cycle of the reset fail has to be 0; --reset-open allows anything there")


def why_fail_open(audit: Audit, found: Verdict, machine: Machine, told: fail_search.Told) -> None:
    """What `fail` hangs on where it is unknown, and who may know."""
    words = lanes.words_of(told.plan, told.found)
    values = why_unknown.values_of(machine, words, told.found.cycle)
    tell_reasons(why_unknown.Search(machine, values, found.plain), machine, "fail", told.found.cycle)
    if told.is_bounded and not found.delay and not found.end_late and "--liberty" not in audit.options:
        print(f"with more time and memory Yosys' model checker may know: {formal_call(audit)}")


def formal_call(audit: Audit) -> str:
    """The call that asks Yosys' model checker of the same module."""
    given = [
        word for name in ("--top", "--pins", "--cells") if name in audit.options for word in (name, audit.options[name])
    ]
    words = ["vidlakost", "formal", *audit.files, audit.march, audit.memory_file, *given]
    return " ".join(map(shlex.quote, words))
