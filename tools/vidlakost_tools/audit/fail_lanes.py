"""The port `fail` of a controller in all histories at once: its gates are run with three values (1, 0, open) in lanes,
a bit of a long number for each.

In lane 0 every answer is right. For each answer and each of its bits one lane has right answers before it, that bit of
it the lowest that is wrong, and everything later open. Each history is that of lane 0 or has a first answer that is
wrong, with a lowest wrong bit in it, so `fail` is as it has to be in every history where it is so in each lane; and so
it is where each lane has the highest wrong bit, which tells what a comparison of sizes answers. Every register is open
at first, and so is `rdata` in each cycle without an answer. A lane whose answer lies some answers back is laid together
with the earlier lanes of its bit: what is not the same in both becomes open."""
from __future__ import annotations

import dataclasses
import enum
import time
from typing import Any, Iterator

from vidlakost_tools.audit.gates import Machine
from vidlakost_tools.audit.halves import Halves

# so many answers have lanes of their own at a time
RECENT = 8
# so many cycles behind the end are looked at, unless nothing changes any more
BEHIND = 64
# the lanes of a slice, where each lane has to be run by itself
SLICE = 4096


class Side(enum.Enum):
    """Of which wrong bit of the first wrong answer a lane is: of the lowest, so that those below it are right, or of
    the highest."""

    LOWEST = "lowest"
    HIGHEST = "highest"

    def is_right(self, bit: int, wrong: int) -> bool:
        """Whether a bit is right in the lane of a wrong one."""
        return bit < wrong if self is Side.LOWEST else bit > wrong

    def lanes(self, bit: int, bits: int) -> int:
        """The lanes of an answer in which a bit of it is right, each lane being that of a wrong bit."""
        return sum(1 << wrong for wrong in range(bits) if self.is_right(bit, wrong))


@dataclasses.dataclass
class Plan:
    """The answers of a test, by their cycles; the cycles to the one that shows the last; the first cycle that is looked
    at; how many cycles later than the rule `fail` may tell a wrong answer, fewer than there are answers with lanes of
    their own."""

    answers: dict[int, int]
    cycles: int
    bits: int
    first: int = 0
    late: int = 0
    side: Side = Side.LOWEST


@dataclasses.dataclass
class Found:
    """What is found of `fail`: whether it is exact, and otherwise where it is not, and in which lane."""

    kind: str
    cycle: int = 0
    wanted: int = 0
    got: str = ""
    answer: int | None = None
    bit: int = 0
    lanes: int = 0

    def line(self) -> str:
        """The finding as a sentence."""
        if self.kind == "exact":
            until = "ever after" if self.cycle < 0 else f"to cycle {self.cycle}"
            histories = f"in every history with one of {self.lanes} first wrong bits, and in that with none"
            return f"fail is exact: {histories}, {until}"
        if self.kind == "limit":
            return f"fail is exact to cycle {self.cycle}, where the time ran out"
        if self.got == "open":
            return f"fail is unknown in cycle {self.cycle} where {self.case()}: it has to be {self.wanted}"
        return f"fail is {self.got} in cycle {self.cycle} though {self.case()}"

    def case(self) -> str:
        """The histories of its lane."""
        if self.answer is None:
            return "all answers are right"
        if self.wanted:
            return f"bit {self.bit} of the answer of cycle {self.answer} is wrong"
        return f"no answer before that of cycle {self.answer} is wrong"

    def short(self) -> str:
        """The finding, as the last line has it."""
        if self.kind == "exact":
            return "fail is exact" if self.cycle < 0 else f"fail is exact to cycle {self.cycle}"
        return f"fail is not known after cycle {self.cycle}" if self.kind == "limit" else self.line()


class Clock:
    """The time that is left, and the cycle that is looked at."""

    def __init__(self, limit: float, begin: float | None = None):
        self.end = (time.monotonic() if begin is None else begin) + limit
        self.at = ""

    def left(self) -> float:
        return self.end - time.monotonic()

    def is_over(self, cycle: int, cycles: int) -> bool:
        self.at = f"cycle {cycle:,} of {cycles:,}"
        return self.left() < 0


def compare(found: tuple[int, int], live: int, want: int) -> int:
    """The lanes, of those that are looked at, in which `fail` is not as it has to be."""
    one, zero = found
    return live & ((one ^ want) | (zero ^ ~want))


def run_joined(machine: Machine, plan: Plan, clock: Clock) -> Found | None:
    """Lane 0, a lane for each bit of the recent answers, and for each bit one lane in which the earlier ones lie
    together; None where that is not told by them."""
    bits = plan.bits
    word = (1 << bits) - 1
    halves = Halves(machine)
    state, words = halves.start(), Words(plan)
    want, live, joined, count, cycle = 0, 1, False, 0, 0
    slots: dict[int, int] = {}
    quiet, due = 0, [0] * plan.late
    while cycle < plan.cycles + BEHIND and quiet < 2:
        wrong, slot = 0, -1
        if cycle in plan.answers:
            slot = count % RECENT
            base = 1 + bits + slot * bits
            if slot in slots:
                state.own = [(lay(one, base, word, joined), lay(zero, base, word, joined)) for one, zero in state.own]
                joined, live, want = True, live | word << 1, want | word << 1
            state.own = [(spread(one, base, word), spread(zero, base, word)) for one, zero in state.own]
            slots[slot], count, wrong = cycle, count + 1, word << base
            live, want = live | wrong, want & ~wrong
        before = state
        name, rdata = words.at(cycle, slot)
        state, (fail,) = halves.step(state, rdata, cycle == 0, name)
        bad = compare(fail, live, want) if cycle >= plan.first else 0
        if bad:
            lane = (bad & -bad).bit_length() - 1
            if 1 <= lane <= bits:
                return None
            slot, bit = divmod(lane - 1 - bits, bits)
            return found_at(fail, cycle, want, lane, (slots[slot], bit) if lane else None)
        due.append(wrong)
        want |= due.pop(0)
        quiet = quiet + 1 if cycle >= plan.cycles and state == before else 0
        cycle += 1
        if cycle % 128 == 0 and clock.is_over(cycle, plan.cycles):
            return Found("limit", cycle - 1)
    return Found("exact", -1 if quiet else cycle - 1, lanes=count * bits)


class Words:
    """The words on `rdata` in all lanes: each has a name, by which what hangs on it is known."""

    def __init__(self, plan: Plan):
        self.plan = plan
        self.right = [plan.side.lanes(bit, plan.bits) for bit in range(plan.bits)]
        self.made: dict[Any, list[tuple[int, int]]] = {}

    def at(self, cycle: int, slot: int) -> tuple[tuple[int, int | None], list[tuple[int, int]]]:
        """The word of a cycle, whose answer has the lanes of this place; -1 where it has no answer."""
        name = (slot, self.plan.answers.get(cycle))
        if name not in self.made:
            self.made[name] = self.word(*name)
        return name, self.made[name]

    def word(self, slot: int, value: int | None) -> list[tuple[int, int]]:
        bits = self.plan.bits
        if value is None:
            return [(0, 0)] * bits
        base = 1 + bits + slot * bits
        return [given(value >> bit & 1, 1 | self.right[bit] << base, 1 << base + bit) for bit in range(bits)]


def given(bit: int, right: int, wrong: int) -> tuple[int, int]:
    """A bit of an answer: right in some lanes, wrong in others, open in the rest."""
    return (right, wrong) if bit else (wrong, right)


def spread(lanes: int, base: int, word: int) -> int:
    """The lanes of an answer begin where lane 0 is."""
    return lanes & ~(word << base) | (word << base if lanes & 1 else 0)


def lay(lanes: int, base: int, word: int, joined: bool) -> int:
    """The lanes of an answer are laid together with those of the earlier answers."""
    kept = lanes >> base & word
    return lanes & ~(word << 1) | (kept & lanes >> 1 if joined else kept) << 1


def found_at(fail: tuple[int, int], cycle: int, want: int, lane: int, wrong: tuple[int, int] | None) -> Found:
    """What `fail` is in a lane, whose first wrong answer and bit these are."""
    got = "1" if fail[0] >> lane & 1 else "0" if fail[1] >> lane & 1 else "open"
    found = Found("unknown" if got == "open" else "differs", cycle, want >> lane & 1, got)
    if wrong:
        found.answer, found.bit = wrong
    return found


def run_slice(machine: Machine, plan: Plan, answers: list[int], start: tuple[int, list[Any]], clock: Clock) -> Found:
    """A lane for each bit of each of some answers, and behind them one in which all are right, from the state of lane 0
    at the first of them."""
    bits = plan.bits
    place = {cycle: count * bits for count, cycle in enumerate(answers)}
    right = [plan.side.lanes(bit, bits) for bit in range(bits)]
    last = len(answers) * bits
    full = (2 << last) - 1
    cycle, single = start
    state = [(full if one & 1 else 0, full if zero & 1 else 0) for one, zero in single]
    want, word = 0, (1 << bits) - 1
    told, quiet, due = 0, 0, [0] * plan.late
    while cycle < plan.cycles + BEHIND and quiet < 2:
        before = state
        rdata = [(0, 0)] * bits
        wrong = 0
        if cycle in plan.answers:
            # lanes whose answer is still to come have this one right
            later = full & ~told
            if cycle in place:
                wrong = word << place[cycle]
                later &= ~wrong
            for bit in range(bits):
                own = (1 << bit, right[bit]) if wrong else (0, 0)
                base = place.get(cycle, 0)
                rdata[bit] = given(plan.answers[cycle] >> bit & 1, later | own[1] << base, own[0] << base)
        state, (fail,) = machine.step(state, [*rdata, (full, 0) if cycle == 0 else (0, full)], full)
        bad = compare(fail, full, want) if cycle >= plan.first else 0
        if bad:
            lane = (bad & -bad).bit_length() - 1
            slot, bit = divmod(lane, bits)
            return found_at(fail, cycle, want, lane, (answers[slot], bit) if lane < last else None)
        told |= wrong
        due.append(wrong)
        want |= due.pop(0)
        cycle += 1
        if cycle % 32 == 0 and clock.is_over(cycle, plan.cycles):
            return Found("limit", start[0])
        quiet = quiet + 1 if cycle > plan.cycles and state == before else 0
    return Found("exact", -1 if quiet else cycle - 1)


def states_at(machine: Machine, plan: Plan, cycles: list[int]) -> Iterator[tuple[int, list[Any]]]:
    """Of lane 0 the state at the begin of each of these cycles."""
    state, wanted = [(0, 0)] * len(machine.registers), set(cycles)
    for cycle in range(max(cycles) + 1):
        if cycle in wanted:
            yield cycle, state
        word = plan.answers.get(cycle)
        rdata = [(0, 0) if word is None else (word >> bit & 1, 1 - (word >> bit & 1)) for bit in range(plan.bits)]
        state, _ = machine.step(state, [*rdata, (1, 0) if cycle == 0 else (0, 1)], 1)


def run_apart(machine: Machine, plan: Plan, clock: Clock) -> Found:
    """Each lane by itself, in slices."""
    answers = sorted(plan.answers)
    size = max(1, SLICE // plan.bits)
    parts = [answers[first : first + size] for first in range(0, len(answers), size)]
    until = -1
    for part, start in zip(parts, states_at(machine, plan, [part[0] for part in parts])):
        found = run_slice(machine, plan, part, start, clock)
        if found.kind != "exact":
            return found
        until = max(until, found.cycle)
    return Found("exact", until, lanes=len(answers) * plan.bits)


def look_at(machine: Machine, plan: Plan, clock: Clock) -> Found:
    """What is found of `fail`; what is open on one side may be told on the other."""
    opens: list[Found] = []
    for side in Side:
        sided = dataclasses.replace(plan, side=side)
        found = run_joined(machine, sided, clock) or run_apart(machine, sided, clock)
        if found.got != "open":
            return found if found.kind != "limit" or not opens else opens[0]
        opens.append(found)
    return run_one(machine, plan, opens[0]) or opens[0]


def run_one(machine: Machine, plan: Plan, found: Found) -> Found | None:
    """The one history in which that bit alone is wrong, where `fail` has a wrong number in it."""
    state, want = [(0, 0)] * len(machine.registers), 0
    for cycle in range(plan.cycles + 3 + plan.late):
        rdata = [(0, 0)] * plan.bits
        if cycle in plan.answers:
            word = plan.answers[cycle] ^ (1 << found.bit if cycle == found.answer else 0)
            rdata = [(word >> bit & 1, 1 - (word >> bit & 1)) for bit in range(plan.bits)]
        state, (fail,) = machine.step(state, [*rdata, (1, 0) if cycle == 0 else (0, 1)], 1)
        if cycle >= plan.first and fail == ((0, 1) if want else (1, 0)):
            return Found("differs", cycle, int(want), str(fail[0]), found.answer, found.bit)
        want |= found.answer is not None and cycle == found.answer + plan.late
    return None


def words_of(plan: Plan, found: Found) -> dict[int, list[tuple[int, int]]]:
    """The answers of the lane that was found: right ones, then the one with a wrong bit, whose others are open."""
    words = {}
    for cycle, word in plan.answers.items():
        bits = [(word >> bit & 1, 1 - (word >> bit & 1)) for bit in range(plan.bits)]
        if found.answer is None or cycle < found.answer:
            words[cycle] = bits
        elif cycle == found.answer:
            one, zero = bits[found.bit]
            words[cycle] = [
                (zero, one) if bit == found.bit else pair if plan.side.is_right(bit, found.bit) else (0, 0)
                for bit, pair in enumerate(bits)
            ]
    return words
