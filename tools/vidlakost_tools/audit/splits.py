"""The port `fail` where three values lose that open values hang together: the states that a controller may be in, as a
set.

A state has three values in each register, and is run with right answers, with each wrong bit of an answer as the lowest
that is wrong, and behind that with open words. What `fail` hangs on is split: where it is open, it is 1 in one case and
0 in the other. Cases that come to one state go on as one. Inputs and registers at the start may have any number, so
what is found of their cases is so. Where all that `rdata` does to `fail` goes through a few gates, these are split in
its stead: then each history is in one of the cases, and a case need not be a history, so that a `fail` that is wrong in
one is no finding."""
from __future__ import annotations

import dataclasses
import enum
import itertools
from typing import Any, Sequence, Tuple

from vidlakost_tools.audit.cuts import least_cut
from vidlakost_tools.audit.fail_lanes import BEHIND, Clock, Found, Plan
from vidlakost_tools.audit.gates import Machine
from vidlakost_tools.audit.why_unknown import Search, Values
from vidlakost_tools.verilog.front_end import Plain

# the states of a cycle, the cases that come of them, and the bits that are split, at most
MOST_STATES = 1 << 12
MOST_CASES = 1 << 14
MOST_SPLIT = 24
# the states of all cycles that are kept
MOST_KEPT = 1 << 20
# no answer was wrong yet
RIGHT = -1
Pair = Tuple[int, int]
ZERO_ONE = bytes(int(code == ord("1")) for code in range(256))


def text_of(lanes: int, count: int) -> str:
    """Lanes as digits, the last of them first."""
    return f"{lanes:0{count}b}"


@dataclasses.dataclass
class Cases:
    """Cases of a cycle side by side: of each how many cycles ago an answer was wrong, from which state it comes, and of
    each column the cases in which it is 1 and those in which it is 0."""

    ages: list[int]
    origins: list[int]
    columns: list[Pair]

    @property
    def count(self) -> int:
        return len(self.ages)

    def picked(self, mask: int) -> Cases:
        """The cases of a mask."""
        # digits have the last case first
        chosen = text_of(mask, self.count).encode().translate(ZERO_ONE)
        upward = chosen[::-1]
        columns = [(self.some(one, chosen), self.some(zero, chosen)) for one, zero in self.columns]
        return Cases(
            list(itertools.compress(self.ages, upward)), list(itertools.compress(self.origins, upward)), columns
        )

    def some(self, lanes: int, chosen: bytes) -> int:
        return int("".join(itertools.compress(text_of(lanes, self.count), chosen)) or "0", 2)

    def with_more(self, other: Cases) -> Cases:
        count = self.count
        columns = [(a | c << count, b | d << count) for (a, b), (c, d) in zip(self.columns, other.columns)]
        return Cases(self.ages + other.ages, self.origins + other.origins, columns)

    def keys(self) -> list[tuple[Any, ...]]:
        """What tells a case from another."""
        texts = [text_of(lanes, self.count)[::-1] for pair in self.columns for lanes in pair]
        return list(zip(self.ages, *texts))

    def distinct(self) -> Cases:
        """Each case once."""
        first: dict[tuple[Any, ...], int] = {}
        for place, key in enumerate(self.keys()):
            first.setdefault(key, place)
        return self.picked(sum(1 << place for place in first.values())) if len(first) < self.count else self


@dataclasses.dataclass
class Step:
    """A case on its way: what it is in a cycle of each register, each bit of `rdata`, and each bit that is split."""

    state: list[Pair]
    words: list[Pair]
    forces: list[Pair]
    age: int


class Outcome(enum.Enum):
    EXACT = "exact"
    WRONG = "wrong"
    OPEN = "open"
    MANY = "many"
    LIMIT = "limit"


@dataclasses.dataclass
class Run:
    """How a run ended, and in which cycle; the way to the case that ended it."""

    outcome: Outcome
    cycle: int = 0
    way: list[Step] = dataclasses.field(default_factory=list)
    most: int = 0


class Splitter:
    """A machine some of whose bits are split."""

    def __init__(self, machine: Machine, plan: Plan, split: list[Any]):
        self.machine, self.plan, self.split = machine, plan, split
        self.step = machine.compiled(machine.results, split or [machine.inputs[-1]])
        self.sizes = [len(machine.registers), plan.bits, len(split) or 1]
        self.fronts: list[Cases] = []
        registers = set(machine.registers)
        # a register is open from the start alone
        self.at_first = [bit in registers for bit in split]

    def parts(self, cases: Cases) -> tuple[list[Pair], list[Pair], list[Pair]]:
        registers, words, _ = self.sizes
        return (
            cases.columns[:registers],
            cases.columns[registers : registers + words],
            cases.columns[registers + words :],
        )

    def stepped(self, cases: Cases, cycle: int) -> Any:
        state, words, forces = self.parts(cases)
        full = (1 << cases.count) - 1
        return self.step(state, [*words, (full, 0) if cycle == 0 else (0, full)], full, forces)

    def given(self, cases: Cases, word: int | None, wrong: int | None = None) -> Cases:
        """The cases with an answer: a right one, one of which a bit is the lowest that is wrong, or an open word."""
        full = (1 << cases.count) - 1
        words = []
        for bit in range(self.plan.bits):
            is_open = word is None or wrong is not None and bit > wrong
            is_one = word is not None and bool(word >> bit & 1) ^ (bit == wrong)
            words.append((0, 0) if is_open else (full, 0) if is_one else (0, full))
        ages = cases.ages if wrong is None else [0] * cases.count
        return Cases(ages, cases.origins, [*cases.columns, *words, *[(0, 0)] * self.sizes[2]])

    def answered(self, front: Cases, cycle: int) -> Cases:
        """The cases of a cycle by what comes on `rdata`."""
        here = Cases(front.ages, list(range(front.count)), front.columns)
        word = self.plan.answers.get(cycle)
        if word is None:
            return self.given(here, None)
        right = sum(1 << place for place, age in enumerate(front.ages) if age == RIGHT)
        all_right = here.picked(right)
        found = self.given(here.picked((1 << here.count) - 1 & ~right), None)
        if all_right.count:
            found = found.with_more(self.given(all_right, word))
            for bit in range(self.plan.bits):
                found = found.with_more(self.given(all_right, word, bit))
        return found

    def cases_of(self, front: Cases, cycle: int) -> Cases | None:
        """The cases of a cycle, with each bit that is split where it is open; None where they are too many."""
        cases = self.answered(front, cycle)
        first = len(cases.columns) - self.sizes[2]
        for place in range(len(self.split)):
            if self.at_first[place] and cycle:
                continue
            mask = self.stepped(cases, cycle)[2][place]
            if mask:
                other = cases.picked(mask)
                other.columns[first + place] = ((1 << other.count) - 1, 0)
                cases.columns[first + place] = (0, mask)
                cases = cases.with_more(other)
            if cases.count > MOST_CASES:
                return None
        return cases

    def behind(self, cases: Cases, after: list[Pair]) -> Cases:
        """The states behind the edge."""
        ages = [age if age == RIGHT else min(age + 1, self.plan.late + 1) for age in cases.ages]
        return Cases(ages, list(range(cases.count)), after)

    def run(self, clock: Clock) -> Run:
        plan = self.plan
        front = Cases([RIGHT], [0], [(0, 0)] * len(self.machine.registers))
        cycle, quiet, most, kept, before = 0, 0, 1, 0, set(front.keys())
        while cycle < plan.cycles + BEHIND and quiet < 2:
            self.fronts.append(front)
            cases = self.cases_of(front, cycle)
            kept += front.count
            if cases is None or front.count > MOST_STATES or kept > MOST_KEPT:
                return Run(Outcome.MANY, cycle, most=most)
            after, (fail,), _ = self.stepped(cases, cycle)
            bad = self.wrong_in(cases, fail) if cycle >= plan.first else 0
            if bad:
                # a number that is wrong tells more than an open one
                known = bad & (fail[0] | fail[1])
                chosen = known or bad
                way = self.way_to(cycle, cases, (chosen & -chosen).bit_length() - 1)
                return Run(Outcome.WRONG if known else Outcome.OPEN, cycle, way, most)
            front = self.behind(cases, after).distinct()
            most = max(most, front.count)
            keys = set(front.keys())
            quiet = quiet + 1 if cycle >= plan.cycles and keys == before else 0
            before = keys
            cycle += 1
            if cycle % 8 == 0 and clock.is_over(cycle, plan.cycles):
                return Run(Outcome.LIMIT, cycle - 1, most=most)
        return Run(Outcome.EXACT, -1 if quiet else cycle - 1, most=most)

    def wrong_in(self, cases: Cases, fail: Pair) -> int:
        """The cases in which `fail` is not as it has to be."""
        full = (1 << cases.count) - 1
        want = sum(1 << place for place, age in enumerate(cases.ages) if age > self.plan.late)
        return full & ((fail[0] ^ want) | (fail[1] ^ full & ~want))

    def way_to(self, cycle: int, cases: Cases, place: int) -> list[Step]:
        """The way to a case from the start: of each cycle a case that comes to the state from which the next one
        comes."""
        way = []
        while True:
            way.append(self.step_of(cases, place))
            if cycle == 0:
                return way[::-1]
            wanted = self.fronts[cycle].keys()[cases.origins[place]]
            cycle -= 1
            found = self.cases_of(self.fronts[cycle], cycle)
            assert found is not None
            cases = found
            place = self.behind(cases, self.stepped(cases, cycle)[0]).keys().index(wanted)

    def step_of(self, cases: Cases, place: int) -> Step:
        parts = [[(one >> place & 1, zero >> place & 1) for one, zero in part] for part in self.parts(cases)]
        return Step(parts[0], parts[1], parts[2], cases.ages[place])


# ---- what is split


def hanging(splitter: Splitter, run: Run, plain: Plain) -> set[Any]:
    """The inputs, the registers at the start and what nothing drives, on which `fail` hangs at the end of a way."""
    machine = splitter.machine
    bits = [*machine.order, *machine.registers, *machine.inputs]
    split = splitter.split or [machine.inputs[-1]]
    step = machine.compiled(bits, split)
    values = {}
    for cycle, one in enumerate(run.way):
        _, told, _ = step(one.state, [*one.words, (1, 0) if cycle == 0 else (0, 1)], 1, one.forces)
        pairs = list(zip(bits, told))
        values[cycle] = Values({bit for bit, pair in pairs if pair == (0, 0)}, {bit for bit, (one, _) in pairs if one})
    return Search(machine, values, plain).ends(machine.results[0], run.cycle)


def more_split(machine: Machine, found: set[Any], split: Sequence[Any]) -> list[Any]:
    """What is split next of the bits on which `fail` hangs: registers first, then what comes in."""
    left = [bit for bit in found if bit not in split]
    registers = [bit for bit in machine.registers if bit in left]
    return registers or [bit for bit in machine.words if bit in left] or left


@dataclasses.dataclass
class Split:
    """What splitting found of `fail`; how many bits were split, and how many states there were at once at most; the way
    of a history in which it is wrong."""

    found: Found
    bits: int
    states: int
    way: list[Step] = dataclasses.field(default_factory=list)


def look_at(machine: Machine, plan: Plan, plain: Plain, clock: Clock) -> Split | None:
    """What is found of `fail` by splitting what it hangs on; None where that is too much, or settles nothing."""
    cut = least_cut(machine, machine.words, machine.results[0])
    for begin in [cut, []] if cut else [[]]:
        split = list(begin)
        while len(split) <= MOST_SPLIT:
            splitter = Splitter(machine, plan, split)
            run = splitter.run(clock)
            if run.outcome is Outcome.EXACT:
                return Split(Found("exact", run.cycle, lanes=len(plan.answers) * plan.bits), len(split), run.most)
            history = history_of(splitter, run) if run.outcome is Outcome.WRONG else None
            if history is not None:
                return Split(found_at(plan, run), len(split), run.most, history)
            more = more_split(machine, hanging(splitter, run, plain), split) if run.outcome is Outcome.OPEN else []
            if not more:
                break
            # what a gate does is asked behind what it hangs on
            split = [*more, *split]
    return None


def history_of(splitter: Splitter, run: Run) -> list[Step] | None:
    """A history that goes the way, whose words make the gates that are split what they are there; None where it is not
    found, or `fail` is not wrong at its end."""
    machine, plan = splitter.machine, splitter.plan
    inputs = {*machine.registers, *machine.words}
    free = [bit for bit in splitter.split if bit in inputs]
    gates = [bit for bit in splitter.split if bit in machine.order]
    step = machine.compiled([*machine.results, *gates], free or [machine.inputs[-1]])
    forced = dict(zip(splitter.split, run.way[0].forces))
    state = [pair if any(pair) else forced.get(bit, (0, 1)) for bit, pair in zip(machine.registers, run.way[0].state)]
    found: list[Step] = []
    fail: Pair = (0, 0)
    for cycle, here in enumerate(run.way):
        forces = dict(zip(splitter.split, here.forces))
        wanted = [forces[bit] for bit in gates]
        reset = (1, 0) if cycle == 0 else (0, 1)
        tried = []
        for fill in fills(plan, cycle):
            given = zip(machine.words, here.words, fill)
            words = [pair if any(pair) else forces.get(bit, other) for bit, pair, other in given]
            after, told, _ = step(state, [*words, reset], 1, [forces[bit] for bit in free] or [(0, 0)])
            tried.append((words, after, told[0]))
            if all(pair in (want, (0, 0)) or want == (0, 0) for pair, want in zip(told[1:], wanted)):
                break
        else:
            tried = tried[:1]
        found.append(dataclasses.replace(here, state=state, words=tried[-1][0]))
        state, fail = tried[-1][1], tried[-1][2]
    return found if fail == ((0, 1) if run.way[-1].age > plan.late else (1, 0)) else None


def fills(plan: Plan, cycle: int) -> list[list[Pair]]:
    """Words that take the place of open bits: 0, the right answer, and one that is wrong."""
    numbers = [0]
    if cycle in plan.answers:
        numbers += [plan.answers[cycle], plan.answers[cycle] ^ 1]
    return [[(number >> bit & 1, 1 - (number >> bit & 1)) for bit in range(plan.bits)] for number in numbers]


def found_at(plan: Plan, run: Run) -> Found:
    """The finding at the end of a way."""
    wrong = next((cycle for cycle, step in enumerate(run.way) if step.age == 0), None)
    wanted = int(run.way[-1].age > plan.late)
    found = Found("differs", run.cycle, wanted, str(1 - wanted), wrong)
    if wrong is not None:
        word = plan.answers[wrong]
        found.bit = next(
            bit for bit, (one, zero) in enumerate(run.way[wrong].words) if (zero if word >> bit & 1 else one)
        )
    return found
