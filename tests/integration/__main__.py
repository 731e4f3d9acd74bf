"""Gives the launcher and each tool right and wrong input, and looks at status and message, and that no traceback comes.

usage: python3 -m tests.integration [NAME..]     the parts of these names, or all; ends with 1 where something is wrong
       python3 -m tests.integration --list       the names
       python3 -m tests.integration --long       tries more collars and chips, which takes some minutes more
       python3 -m tests.integration --jobs N     N parts side by side; without it as many as processors, two at least

The program is the proved one, or the one that VIDLAKOST_PROGRAM or VIDLAKOST names. What needs Yosys or Icarus is left
out where they are not installed, with a line that says so."""
from __future__ import annotations

import concurrent.futures
import os
import re
import subprocess
import sys
from typing import List, Tuple

from tests.integration.parts import PARTS, tried
from vidlakost_tools.program import ROOT
from vidlakost_tools.tool import ToolError, number_of, start, words_of

TOLD = re.compile(r"(\d+) looks at the launcher and the tools, (\d+) differ\n\Z")


def one(name: str, is_long: bool) -> int:
    """Tries a part in this process, and says what came of it."""
    bench = tried(name, is_long)
    print(f"{bench.count} looks at the launcher and the tools, {bench.wrong} differ")
    return 1 if bench.wrong else 0


def told(name: str, more: List[str]) -> Tuple[str, int, int]:
    """What a part prints in a process of its own, how many looks it takes, and how many of them are wrong."""
    words = [sys.executable, "-m", "tests.integration", name, *more]
    done = subprocess.run(words, cwd=ROOT, stdout=subprocess.PIPE, stderr=subprocess.STDOUT, text=True, check=False)
    found = TOLD.search(done.stdout)
    if found is None:
        return f"{name} ends with {done.returncode}: {done.stdout}\n", 0, 1
    said = "".join(f"{name}: {line}\n" for line in done.stdout[: found.start()].splitlines())
    return said, int(found[1]), int(found[2])


def side_by_side(names: List[str], more: List[str], jobs: int) -> int:
    """Tries the parts, so many at once."""
    looks = wrong = 0
    with concurrent.futures.ThreadPoolExecutor(jobs) as workers:
        for said, count, differing in workers.map(lambda name: told(name, more), names):
            print(said, end="", flush=True)
            looks, wrong = looks + count, wrong + differing
    print(f"{looks} looks at the launcher and the tools, {wrong} differ")
    return 1 if wrong else 0


def main() -> int:
    names, options = words_of(__doc__, sys.argv[1:], {"--long": 0, "--list": 0, "--jobs": 1})
    if "--list" in options:
        print("\n".join(PARTS))
        return 0
    unknown = [name for name in names if name not in PARTS]
    if unknown:
        raise ToolError(f"there is no part {unknown[0]}: --list names them")
    if len(names) == 1:
        return one(names[0], "--long" in options)
    jobs = number_of(options["--jobs"], "--jobs", 1) if "--jobs" in options else max(2, os.cpu_count() or 2)
    return side_by_side(names or list(PARTS), ["--long"] if "--long" in options else [], jobs)


if __name__ == "__main__":
    start(main)
