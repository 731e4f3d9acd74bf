"""`audit` beside Yosys' model checker, on random modules of `compile` whose port `fail` is damaged in a random
place."""
from __future__ import annotations

import collections
import pathlib
import random
import re
import subprocess
import sys
from vidlakost_tools.program import ROOT, ask, run
from vidlakost_tools.temporary import folder_of_its_own
from vidlakost_tools.texts.random_cases import changed, random_case

# the lines of a module on which `fail` hangs alone
OF_FAIL = re.compile(r"\b(bad|want\w*|reads\w*|fail|value\w*|back\w*)\b")


def damaged(files: list[pathlib.Path], chance: random.Random) -> str:
    """A module with one place changed on which `fail` hangs, whose commands are still right; as it was, if none is
    found."""
    text = files[0].read_text()
    for _ in range(60):
        other = changed(text, chance)
        lines = [line for line, before in zip(other.splitlines(), text.splitlines()) if line != before]
        if not lines or not OF_FAIL.search(lines[0]):
            continue
        files[0].write_text(other)
        if run("check", *files)[1].startswith("conforms "):
            return other
    files[0].write_text(text)
    return text


def told(tool: str, files: list[pathlib.Path]) -> tuple[int, str]:
    """The status and the last line of a tool on a module."""
    words = [sys.executable, str(ROOT / "tools" / tool), *map(str, files), "--no-simulate"]
    done = subprocess.run(words, stdout=subprocess.PIPE, stderr=subprocess.STDOUT, text=True, check=False)
    return done.returncode, (done.stdout.strip().splitlines() or [""])[-1]


def agree(audited: tuple[int, str], judged: tuple[int, str]) -> bool:
    """Whether `audit` and `formal` both judged a module, and say the same of it where `audit` knows. Either may also
    have refused it, or have come to nothing, with the status of a module that is wrong."""
    (status, line), (other_status, other) = audited, judged
    is_told = line.startswith("audit: ") and not line.startswith("audit: refused")
    is_judged = other_status == 0 or other.startswith("formal: wrong: differs in cycle ")
    return is_told and is_judged and ((status == 0) == (other_status == 0) or line.startswith("audit: unknown"))


def compare(number: int, chance: random.Random) -> int:
    """Both say the same of each module that `audit` knows: that it is right, or that it is wrong."""
    wrong = 0
    said_of: collections.Counter[str] = collections.Counter()
    with folder_of_its_own() as folder:
        files = [folder / word for word in ("module.v", "march", "memory")]
        for _ in range(number):
            for path, text in zip(files[1:], random_case(chance)):
                path.write_text(text)
            (folder / "list").write_text("")
            ask("compile", *files[1:], folder / "list", files[0], folder / "report")
            text = damaged(files, chance) if chance.random() < 0.9 else files[0].read_text()
            audited, judged = told("audit", files), told("formal", files)
            (status, line), (other_status, other) = audited, judged
            kind = "right" if status == 0 else "unknown" if line.startswith("audit: unknown") else "wrong"
            said_of[kind] += 1
            # what is unknown may be right: then it is said, and counted
            said_of["unknown and right"] += kind == "unknown" and other_status == 0
            if not agree(audited, judged):
                wrong += 1
                print(
                    f"audit says '{line}', and formal '{other}'\n{files[1].read_text()}\n{files[2].read_text()}{text}"
                )
    print(
        f"{number} modules, {wrong} differences; "
        + ", ".join(f"{count} {kind}" for kind, count in sorted(said_of.items()))
    )
    return 1 if wrong else 0
