"""What a tester gives a TAP in a cycle of TCK, and what it compares."""
from __future__ import annotations

import dataclasses
from typing import Iterable, Iterator


@dataclasses.dataclass(frozen=True)
class Cycle:
    """The pins of a cycle of TCK. `tdo` is 0 or 1 if it is compared before TCK rises, else X. The cycle comes `times`
    times."""

    tms: int
    tdi: int
    trst_n: int
    tdo: str
    times: int = 1


def joined(cycles: Iterable[Cycle]) -> Iterator[Cycle]:
    """The same cycles, with equal ones that follow each other as one."""
    last: Cycle | None = None
    for one in cycles:
        if last is not None and dataclasses.replace(one, times=last.times) == last:
            last = dataclasses.replace(last, times=last.times + one.times)
            continue
        if last is not None:
            yield last
        last = one
    if last is not None:
        yield last


def listing(cycles: Iterable[Cycle]) -> str:
    """A line for each cycle, with the pins and how often it comes, as the testbench that plays them reads it."""
    return "".join(f"{one.tms} {one.tdi} {one.trst_n} {one.tdo.lower()} {one.times}\n" for one in cycles)
