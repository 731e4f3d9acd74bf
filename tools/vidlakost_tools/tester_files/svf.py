"""SVF, as far as a run of one TAP needs it: scans, waits in cycles of TCK or in seconds, resets."""
from __future__ import annotations

import math
import re
from typing import Iterator, Tuple

from vidlakost_tools.tester_files.cycles import Cycle
from vidlakost_tools.tool import ToolError

SCAN = re.compile(r"S([ID])R (\d{1,9}) TDI \(([0-9A-F]+)\)(?: TDO \(([0-9A-F]+)\) MASK \(([0-9A-F]+)\))?")
WAIT = re.compile(r"RUNTEST IDLE (?:(\d{1,12}) TCK|(\d+(?:\.\d+)?(?:E[+-]?\d+)?) SEC)")
# what leaves the TAP as it is
STATES = {"TRST OFF", "ENDIR IDLE", "ENDDR IDLE"}


def statements(text: str) -> Iterator[str]:
    """The statements, without comments, with one blank between words."""
    plain = re.sub(r"(?:!|//)[^\n]*", " ", text)
    *found, rest = plain.split(";")
    if rest.strip():
        raise ToolError(f"SVF: {rest.strip()[:40]!r} does not end with a semicolon")
    for one in found:
        yield " ".join(one.split())


def word_of(digits: str, count: int) -> int:
    value = int(digits, 16)
    if value >> count:
        raise ToolError(f"SVF: {digits} has more than {count} bits")
    return value


def scan_of(found: Tuple[str, ...]) -> Iterator[Cycle]:
    """A scan from Run-Test/Idle and back to it."""
    kind, told, given, wanted, mask = found
    count = int(told)
    if not count:
        raise ToolError("SVF: a scan has no bit")
    word, value, looks = (word_of(digits or "0", count) for digits in (given, wanted, mask))
    yield Cycle(1, 0, 1, "X", 2 if kind == "I" else 1)
    yield Cycle(0, 0, 1, "X", 2)
    for bit in range(count):
        told = str(value >> bit & 1) if looks >> bit & 1 else "X"
        yield Cycle(int(bit == count - 1), word >> bit & 1, 1, told)
    yield from (Cycle(1, 0, 1, "X"), Cycle(0, 0, 1, "X"))


def read(text: str, megahertz: float) -> list[Cycle]:
    """The cycles of a run, by a TCK of so many megahertz."""
    cycles, is_idle = [Cycle(1, 0, 0, "X")], False
    for one in statements(text):
        scan, wait = SCAN.fullmatch(one), WAIT.fullmatch(one)
        if one == "STATE RESET":
            cycles.append(Cycle(1, 0, 1, "X", 5))
            is_idle = False
        elif one == "STATE IDLE":
            cycles += [] if is_idle else [Cycle(0, 0, 1, "X")]
            is_idle = True
        elif (scan or wait) and not is_idle:
            raise ToolError(f"SVF: {one[:40]!r} stands before STATE IDLE")
        elif scan:
            cycles += scan_of(scan.groups())
        elif wait:
            times = int(wait[1]) if wait[1] else math.ceil(float(wait[2]) * megahertz * 1e6)
            cycles += [Cycle(0, 0, 1, "X", times)] if times else []
        elif one not in STATES:
            raise ToolError(f"SVF: {one[:40]!r} is no statement of a run")
    return cycles
