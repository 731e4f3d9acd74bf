"""The comparisons with other judges, by their last line: how many were compared, and how many differ."""
from __future__ import annotations

import pathlib
import re
import sys

from measures.parts import ROOT, Figure, Skipped, python, timed


def counted(*words: str) -> list[Figure]:
    """Runs a comparison. Its last line tells numbers with what they count, and its status whether something differs."""
    path, *rest = words
    call = python(ROOT / path, *rest)
    lines = call.said.splitlines() or [""]
    if call.status == 125:
        raise Skipped(lines[-1])
    if call.status:
        raise SystemExit(f"{' '.join(words)} ends with {call.status}: {call.said[-2000:]}")
    found = re.findall(r"(\d[\d,]*) ([a-z][A-Za-z -]*)", lines[-1])
    title = f"`{'vidlakost ' + path[6:] if path.startswith('tools/') else path}{''.join(' ' + word for word in rest)}`"
    return [Figure(title, int(number.replace(",", "")), re.sub(" and$", "", unit.strip())) for number, unit in found]


def brute(folder: pathlib.Path) -> list[Figure]:
    """Verdicts beside a plain model of every small array."""
    return counted("bench/brute")


def inword(folder: pathlib.Path) -> list[Figure]:
    """Verdicts inside a word beside a plain model of whole words."""
    return counted("bench/inword")


def decoder(folder: pathlib.Path) -> list[Figure]:
    """Verdicts on the address decoder beside a plain model of arrays of two to four cells."""
    return counted("bench/decoder")


def linked(folder: pathlib.Path) -> list[Figure]:
    """Verdicts on linked faults beside a plain model of arrays of three and four cells."""
    return counted("bench/linked")


def diagnosis(folder: pathlib.Path) -> list[Figure]:
    """Faults that Icarus plants in scrambled memories, and the diagnosis of their logs."""
    return counted("bench/diagnosis")


def design(folder: pathlib.Path) -> list[Figure]:
    """Short marches searched anew."""
    return counted("bench/design")


def memories(folder: pathlib.Path) -> list[Figure]:
    """Refusals of random descriptions, and commands, beside a plain model."""
    return counted("bench/memories")


def modules(folder: pathlib.Path) -> list[Figure]:
    """Random modules in the cycle simulator beside Icarus, and in `check` beside its plain model."""
    return [*counted("bench/modules"), *counted("bench/modules", "--open", "1", "1000")]


def faults(folder: pathlib.Path) -> list[Figure]:
    """Calls that fail, kills and full disks, and what stands afterwards."""
    call = timed(sys.executable, ROOT / "bench" / "faults")
    print(call.said)
    if call.status:
        raise SystemExit(f"bench/faults ends with {call.status}")
    wrong = call.said.splitlines()[-1]
    found = re.search(r"(\d+)", wrong)
    return [Figure("`bench/faults`, files lost or answers that are wrong", int(found[1]) if found else 0, "")]


def interop(folder: pathlib.Path) -> list[Figure]:
    """Modules and chips in Icarus, Verilator and Yosys."""
    return counted("dev/interop")


def foreign(folder: pathlib.Path) -> list[Figure]:
    """`check` beside its plain model, on modules of random marches and memories, right and changed."""
    return counted("dev/foreign", "--random", "700")


def formal(folder: pathlib.Path) -> list[Figure]:
    """Right and wrong modules of small memories before Yosys' bounded model checker."""
    return [*counted("tools/formal", "--random", "300"), *counted("tools/formal", "--wrong")]


def audit(folder: pathlib.Path) -> list[Figure]:
    """`audit` beside Yosys' bounded model checker, on modules with a damaged `fail`."""
    return counted("tools/audit", "--random", "300")


def joins(folder: pathlib.Path) -> list[Figure]:
    """Wrong connections in a chip and in its collars, and what their testbenches tell."""
    return counted("bench/joins")


def sources(folder: pathlib.Path) -> list[Figure]:
    """What `plain` makes of random sources, right and changed, beside Icarus on the sources."""
    return [*counted("bench/sources"), *counted("bench/sources", "--damaged", "1", "300")]


def selftest(folder: pathlib.Path) -> list[Figure]:
    """Right, wrong and hostile input for the launcher and the tools."""
    return counted("python3", "-m", "tests.integration")
