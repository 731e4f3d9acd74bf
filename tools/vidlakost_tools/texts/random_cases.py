"""Random marches, memories and modules, for comparisons with other judges."""
from __future__ import annotations

import random
import re


def random_case(chance: random.Random) -> tuple[str, str]:
    """A consistent march and a memory of a few words."""
    holds, elements = None, []
    words, bits = chance.randint(2, 5), chance.randint(1, 4)
    for count in range(chance.randint(1, 4)):
        if count and chance.random() < 0.2:
            elements.append("del")
        operations = []
        for _ in range(chance.randint(1, 4)):
            if holds is None or chance.random() < 0.5:
                holds = chance.randint(0, 1)
                operations.append(f"w{holds}")
            else:
                operations.append(f"r{holds}")
        elements.append(f"{chance.choice(['up', 'down', 'any'])}({','.join(operations)})")
    memory = [
        f"memory 2\nname m\nwords {words}\nbits {bits}\nlatency {chance.randint(1, 4)}\n"
        f"polarity {chance.randrange(1 << bits):x}\npause {chance.randint(1, 4)}"
    ]
    if words in (2, 4) and chance.random() < 0.7:
        rows = {2: [["p0", "p0 ^ 1"]], 4: [["p0", "p0 ^ p1", "p1", "p0 ^ 1"], ["p1", "p1 ^ 1"]]}[words]
        first = chance.choice(rows[0])
        rest = [f"scramble a1 = {'p0' if first == 'p1' else chance.choice(rows[1])}"] if words == 4 else []
        memory += [f"scramble a0 = {first}", *rest]
    others = [f"{chance.randrange(1 << bits):x}" for _ in range(chance.randint(0, 2))]
    memory.append(f"backgrounds {' '.join(['0', *others])}" if chance.random() < 0.6 else "backgrounds log")
    return "{" + ";".join(elements) + "}", "\n".join(memory) + "\n"


def changed(text: str, chance: random.Random) -> str:
    """A module with one name, width or literal changed."""
    names = re.findall(r"(?:reg|wire|input|output)(?: \[[0-9:]+\])? (\w+)", text) + ["ghost"]
    match = chance.choice(
        [match for match in re.finditer(r"\d+'h[0-9a-f]+|\b\w+\b", text) if match[0] in names or match[0][0].isdigit()]
    )
    other = chance.choice(names) if match[0] in names else "3'h2" if "'" in match[0] else str(chance.randint(0, 5))
    return f"{text[: match.start()]}{other}{text[match.end() :]}"
