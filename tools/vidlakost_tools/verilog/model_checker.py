"""Yosys' bounded model checker: whether a module's port `ok` is 1 in each of so many cycles, whatever its registers
hold at first and whatever comes in; and a judge of the port `fail` of a module of the subset, for the histories that
three values lose."""
from __future__ import annotations

import dataclasses
import pathlib
import re
from typing import Sequence

from vidlakost_tools.audit.fail_lanes import Found, Plan
from vidlakost_tools.temporary import folder_of_its_own
from vidlakost_tools.text import template
from vidlakost_tools.verilog import replayed, yosys
from vidlakost_tools.verilog.front_end import Plain
from vidlakost_tools.verilog.replayed import Case
from vidlakost_tools.verilog.syntax import ranged

# cycles times gates, beyond which there may be no memory for the question
LARGEST = 1_500_000
BEHIND = 3
# a row of a case: its cycle from 1 on, the signal, its number twice, and its bits. The number is negative from 2 ** 31
# on, and none where there are more bits
ROW = re.compile(r"^\s*(\d+)\s+\\(\S+)\s+\S+\s+\S+\s+([01]+)\s*$", re.MULTILINE)


def differs_within(
    steps: int, begin: str, folder: pathlib.Path, seconds: float | None = None, more: Sequence[str] = ()
) -> Case | None:
    """A cycle among the first so many in which a module differs, with the numbers of some more signals of it, as far as
    it hangs on them; None where there is none. `begin` is the script that reads it. What the passes leave undriven, or
    make an `x` of, `sat` would take for 0, so it is opened before it."""
    said = yosys.run(
        (
            f"{begin}read_verilog -sv {yosys.quoted(folder / 'judge.v')}\nhierarchy -check -top"
            f" judge\nproc\nflatten\ncheck -assert\n{yosys.OPEN}memory_map\n{yosys.OPEN}async2sync\nsetattr -unset init"
            f" w:*\nopt -keepdc -fine\n{yosys.OPEN}sat -seq {steps} -set-at 1 step 0 -prove ok 1 -show"
            f" cycle,ok,rdata,again{' -show-public' if more else ''}\n"
        ),
        folder,
        "-Q",
        "-T",
        seconds=seconds,
    )
    text = "\n".join(said)
    if "SAT proof finished - no model found: SUCCESS!" in text:
        return None
    shown: dict[str, dict[int, int]] = {}
    for step, name, bits in ROW.findall(text):
        shown.setdefault(name, {})[int(step) - 1] = int(bits, 2)
    cycle = next((step for step, ok in sorted(shown.get("ok", {}).items()) if not ok), steps - 1)
    numbers = {name: [found.get(step, 0) for step in range(cycle + 1)] for name, found in shown.items()}
    resets = {step for step, again in enumerate(numbers.get("again", [])) if again} | {0}
    return Case(
        cycle,
        numbers.get("rdata", [0] * (cycle + 1)),
        resets,
        {name: numbers[name] for name in more if name in numbers},
    )


JUDGE = template(__file__, "model_checker_judge.sv")


def judge_of(module: str, plan: Plan) -> str:
    """A module beside another that says in each cycle whether `fail` is as it has to be: 1 from the cycle behind the
    first wrong answer on, or so many later."""
    answers = "\n".join(
        f"      {cycle}: answer = {{1'b1, {plan.bits}'h{word:x}}};" for cycle, word in plan.answers.items()
    )
    return JUDGE.substitute(
        word=ranged(plan.bits),
        late=plan.late,
        bits=plan.bits,
        top=plan.bits - 1,
        module=module,
        answers=answers,
        first=plan.first,
    )


@dataclasses.dataclass
class Checked:
    """What was found of `fail`, with the words of a history in which it is wrong; and whether it is so where the module
    is clocked by itself from there."""

    found: Found
    words: list[int] = dataclasses.field(default_factory=list)
    is_replayed: bool = True


def fail_of(plain: Plain, plan: Plan, gates: int, seconds: float) -> Checked | None:
    """What Yosys' model checker finds of `fail` to some cycles behind the end; None where that is too much for it."""
    steps = plan.cycles + BEHIND + plan.late
    if gates * steps > LARGEST or seconds < 1:
        return None
    with folder_of_its_own() as folder:
        module = dataclasses.replace(plain, name="vidlakost_plain")
        (folder / "plain.v").write_text(module.text(), encoding="utf-8")
        (folder / "judge.v").write_text(judge_of(module.name, plan), encoding="utf-8")
        begin = f"read_verilog {yosys.quoted(folder / 'plain.v')}\nproc -noopt -norom\n{yosys.OPEN}"
        try:
            found = differs_within(steps, begin, folder, seconds, replayed.signals_of(plain))
        except yosys.Slow:
            return None
    if found is None:
        return Checked(Found("exact", steps - 1, lanes=len(plan.answers) * plan.bits))
    told = wrong_at(plan, found)
    return Checked(told, found.words, replayed.ports_at(plain, found)["fail"] == int(told.got))


def wrong_at(plan: Plan, found: Case) -> Found:
    """The finding of a history by its words."""
    wrong = next(
        (cycle for cycle, word in plan.answers.items() if cycle < len(found.words) and found.words[cycle] != word), None
    )
    is_due = wrong is not None and found.cycle > wrong + plan.late
    told = Found("differs", found.cycle, int(is_due), str(int(not is_due)), wrong)
    if wrong is not None:
        differing = found.words[wrong] ^ plan.answers[wrong]
        told.bit = (differing & -differing).bit_length() - 1
    return told
