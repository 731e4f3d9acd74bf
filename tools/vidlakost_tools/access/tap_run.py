"""The run that a tester gives a TAP: the identity, a start, the time of the test, what it found, a stop. SVF, STIL
and WGL have it in their forms."""
from __future__ import annotations

import dataclasses
import math
from typing import Iterator, Union

from vidlakost_tools.access import network
from vidlakost_tools.access.target import Target
from vidlakost_tools.access.tap import IR_BITS, length, parts

IDCODE, BIST = 2, 8
# how long a start or a stop takes to arrive
TURNS = 16
# how many megahertz TCK has in STIL and WGL
TCK = 10.0
COMPARED = ("start", "done", "fail", "seen", "failing")


@dataclasses.dataclass(frozen=True)
class Scan:
    """Shifts so many bits through the instruction register or that of the instruction, the lowest first; what comes out
    is compared where the mask has a 1."""

    count: int
    word: int
    wanted: int = 0
    mask: int = 0
    is_instruction: bool = False


@dataclasses.dataclass(frozen=True)
class Wait:
    """Cycles of TCK in Run-Test/Idle; in `is_test` the self-test comes to its end."""

    turns: int
    is_test: bool = False


Step = Union[Scan, Wait]


def instruct(code: int) -> Scan:
    return Scan(IR_BITS, code, is_instruction=True)


def microseconds(cycles: int, mhz: float) -> int:
    """How long so many cycles take, and a start: whole microseconds, since a player may count no others, and one
    more."""
    return math.ceil((cycles + TURNS) / mhz) + 1


def waiting(cycles: int, mhz: float | None, tck: float) -> int:
    """The cycles of TCK, of so many megahertz, in which so many cycles pass. Without `mhz` no clock is slower than
    TCK."""
    if mhz is None:
        return cycles + TURNS
    return math.ceil(microseconds(cycles, mhz) * tck) + TURNS


def time_told(target: Target, mhz: float | None) -> str:
    """What a file says of its wait."""
    slowest = "TCK" if mhz is None else f"{mhz:g} MHz"
    if target.turning:
        told = f"The test and the reading of a first failure take at most {target.length} cycles"
        return f"{told}; no clock is slower than {slowest}"
    return f"The test takes {target.length} cycles of clk, which is no slower than {slowest}"


def steps(target: Target, mhz: float | None = None) -> Iterator[Step]:
    """The run, from Run-Test/Idle after a reset."""
    size = length(target)
    count, bits = network.whole(target, size), len(network.segments(target))
    stop, start = (network.opened(target, size, word) for word in (0, 1))
    mask = sum((1 << part.width) - 1 << part.low for part in parts(target) if part.name in COMPARED)
    yield instruct(IDCODE)
    yield Scan(32, 0, target.identity, (1 << 32) - 1)
    yield instruct(BIST)
    if bits:
        yield Scan(bits, 1, 0, (1 << bits) - 1)
    yield Scan(count, stop)
    yield Wait(TURNS)
    yield Scan(count, start)
    yield Wait(waiting(target.length, mhz, TCK), is_test=True)
    yield Scan(count, start, network.opened(target, size, 3), mask | (1 << count) - (1 << size))
    yield Scan(count, stop)
    yield Wait(TURNS)


# ---- a cycle of TCK at a time


@dataclasses.dataclass(frozen=True)
class Vector:
    """A cycle of TCK, and how often it comes in a row. What comes on TDO is compared if `tdo` is L or H."""

    tms: int
    tdi: int
    trst_n: int = 1
    tdo: str = "X"
    times: int = 1


def of_scan(scan: Scan) -> Iterator[Vector]:
    """A scan from Run-Test/Idle and back to it."""
    yield from (Vector(int(tms), 0) for tms in ("1100" if scan.is_instruction else "100"))
    for bit in range(scan.count):
        tdo = "LH"[scan.wanted >> bit & 1] if scan.mask >> bit & 1 else "X"
        yield Vector(int(bit == scan.count - 1), scan.word >> bit & 1, 1, tdo)
    yield from (Vector(int(tms), 0) for tms in "10")


def vectors(target: Target, mhz: float | None = None) -> Iterator[Vector]:
    """The run after a reset."""
    yield from of_steps(steps(target, mhz))


def of_steps(given: Iterator[Step]) -> Iterator[Vector]:
    """Steps after a reset, a vector for each cycle of TCK."""
    yield Vector(1, 0, 0)
    yield Vector(1, 0, 1, "X", 5)
    yield Vector(0, 0)
    for step in given:
        if isinstance(step, Wait):
            yield Vector(0, 0, 1, "X", step.turns)
        else:
            yield from of_scan(step)
