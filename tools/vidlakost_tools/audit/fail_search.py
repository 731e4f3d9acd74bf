"""What is found of the port `fail` of a controller: by three values in lanes; where these lose that open values hang
together, by splitting what it hangs on; and where that is too much, by Yosys' model checker."""
from __future__ import annotations

import dataclasses

from vidlakost_tools.audit import fail_lanes as lanes, splits, why_unknown
from vidlakost_tools.audit.fail_lanes import Clock, Found, Plan
from vidlakost_tools.audit.gates import Machine
from vidlakost_tools.tool import tell
from vidlakost_tools.verilog import model_checker
from vidlakost_tools.verilog.front_end import Plain

# so many words of a history are told
WORDS = 24


@dataclasses.dataclass
class Told:
    """What was found, what there is to say of how, and of the history that it is found in."""

    found: Found
    plan: Plan
    how: str = ""
    history: str = ""
    # whether the model checker had too little time or memory
    is_bounded: bool = False


def look_at(machine: Machine, plan: Plan, plain: Plain, clock: Clock) -> Told:
    """What is found of `fail`, by the first that can tell."""
    found = lanes.look_at(machine, plan, clock)
    if found.got != "open":
        return Told(found, plan)
    lost = f"three values leave fail open in cycle {found.cycle}"
    split = splits.look_at(machine, plan, plain, clock)
    if split is not None:
        bits, states = counted(split.bits, "bit"), counted(split.states, "state")
        how = f"{lost}; splitting {bits} settles it, with {states} at once"
        return Told(split.found, plan, how, history_told(machine, plan, plain, split))
    if is_undriven(machine, plan, plain, found):
        return Told(found, plan)
    tell("audit: asking Yosys' model checker about fail")
    checked = model_checker.fail_of(plain, plan, len(machine.order) + len(machine.registers), clock.left())
    if checked is None:
        why = "splitting takes too much, and Yosys' model checker has too little time left"
        return Told(found, plan, f"{lost}; {why}", is_bounded=True)
    if not checked.is_replayed:
        why = "but the module, clocked by itself from there, does not show it, so it is no finding"
        return Told(found, plan, f"{lost}; Yosys' model checker says that {checked.found.line()}, {why}")
    words = [f"{word:0{plan.bits}b}" for word in checked.words]
    return Told(
        checked.found,
        plan,
        f"{lost}; Yosys' model checker settles it",
        told_words(plan, checked.found, words) if words else "",
    )


def is_undriven(machine: Machine, plan: Plan, plain: Plain, found: Found) -> bool:
    """Whether `fail` hangs on what nothing drives, so that a number of it is no finding."""
    values = why_unknown.values_of(machine, lanes.words_of(plan, found), found.cycle)
    ends = why_unknown.Search(machine, values, plain).ends(machine.results[0], found.cycle)
    return not ends <= {*machine.registers, *machine.words}


def counted(count: int, what: str) -> str:
    return f"{count} {what}{'' if count == 1 else 's'}"


def history_told(machine: Machine, plan: Plan, plain: Plain, split: splits.Split) -> str:
    """The history in which `fail` is wrong: the words on `rdata`, and which registers are 1 at the start."""
    if not split.way:
        return ""
    words = ["".join("1" if one else "0" for one, _ in reversed(step.words)) for step in split.way]
    names = machine.names()
    ones = [names[bit] for bit, (one, _) in zip(machine.registers, split.way[0].state) if one and bit in names]
    told = [plain.place(name).split(" (")[0] + (f"[{index}]" if width > 1 else "") for name, index, width in ones]
    return told_words(plan, split.found, words) + (f"; at the start 1 in {', '.join(told)}" if told else "")


def told_words(plan: Plan, found: Found, words: list[str]) -> str:
    """The words on `rdata` from the first wrong answer on, or all where none is wrong; those of cycles without an
    answer where they are not 0."""
    begin = found.answer or 0
    shown = [
        f"{word} in cycle {cycle}"
        for cycle, word in enumerate(words)
        if cycle >= begin and (cycle in plan.answers or "1" in word)
    ]
    more = ", .." if len(shown) > WORDS else ""
    return f"  so with rdata {', '.join(shown[:WORDS]) or '0'}{more}, and 0 where nothing was read"
