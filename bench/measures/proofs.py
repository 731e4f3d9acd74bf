"""What it costs to prove the crates, and how long a newcomer waits."""
from __future__ import annotations

import pathlib
import re
import subprocess

from measures.parts import ROOT, Figure, timed


def longest_chain(costs: dict[str, float]) -> tuple[list[str], float]:
    """Of the crates below the program, the dearest that stand on each other, lowest first; and what they cost."""
    rows = (line.partition(":") for line in (ROOT / "crates.txt").read_text().splitlines())
    below = {name: words.split() for name, _, words in rows}
    found: dict[str, tuple[list[str], float]] = {}

    def up_to(name: str) -> tuple[list[str], float]:
        if name not in found:
            chains = [up_to(one) for one in below[name] if one in below]
            names, cost = max(chains, key=lambda chain: chain[1], default=([], 0.0))
            found[name] = [*names, name], cost + costs.get(name, 0.0)
        return found[name]

    return up_to("bist_cli")


def gate(folder: pathlib.Path) -> list[Figure]:
    """The gate anew, in minutes of a processor; calm by the pace of a loop, quiet by that of two crates."""
    log = ROOT / "build" / "gate.log"
    log.parent.mkdir(exist_ok=True)
    # what it says can be read meanwhile
    call = timed("bash", "-c", f"set -o pipefail; '{ROOT}/bench/gate' --anew 2>&1 | tee '{log}'")
    rows = [line.split() for line in call.said.splitlines()]
    costs = {
        row[0]: [float(number) / 60 for number in row[1:]]
        for row in rows
        if re.fullmatch(r"[a-z_]+( +\d+){6}", " ".join(row))
    }
    if call.status or "whole" not in costs:
        raise SystemExit(f"bench/gate ends with {call.status}: {call.said[-2000:]}")
    whole, calm, quiet = costs.pop("whole"), costs.pop("calm"), costs.pop("quiet")
    kinds = ("of proofs", "of tests", "of wrong bodies")
    parts = [
        Figure(name, cost, unit)
        for name, row in (("the whole gate", whole), ("the whole gate, calm", calm), ("the whole gate, quiet", quiet))
        for cost, unit in zip((row[4], *row), ("minutes", *kinds))
    ]
    slow = whole[4] / quiet[4]
    # of a crate the calm part of its proof
    names, longest = longest_chain({name: row[0] * row[5] / row[4] for name, row in costs.items() if row[4]})
    parts.append(Figure("its longest chain of proofs, calm", longest, f"minutes, {len(names)} crates"))
    for word, cost in (
        ("calm", {name: row[5] for name, row in costs.items()}),
        ("quiet", {name: row[4] / slow for name, row in costs.items()}),
    ):
        dearest = sorted(cost, key=lambda name: -cost[name])[:3]
        parts.extend(Figure(f"its dearest crates, {word}", cost[name], f"`{name}`") for name in dearest)
    return parts


def first(folder: pathlib.Path) -> list[Figure]:
    """README's first command in a fresh clone, on two processors."""
    call = timed(ROOT / "bench" / "first", "--answer")
    found = re.search(r"^([\d.]+) seconds", call.said, re.MULTILINE)
    if call.status or found is None:
        raise SystemExit(f"bench/first ends with {call.status}: {call.said}")
    return [Figure("the first answer of a fresh clone", float(found[1]), "s")]


def prove(folder: pathlib.Path) -> list[Figure]:
    """`vidlakost --prove` in a fresh clone, with nothing of earlier proofs."""
    subprocess.run(["git", "clone", "-q", str(ROOT), str(folder / "clone")], check=True)
    call = timed(folder / "clone" / "vidlakost", "--prove", "--anew")
    if call.status:
        raise SystemExit(f"vidlakost --prove ends with {call.status}: {call.said[-2000:]}")
    return [Figure("the program is proved and built", call.seconds / 60, "minutes")]
