"""What the pairs of a proof of places don't show: with what value a flip-flop begins, whether its set or its reset
wins, and of which kind a part is."""
from __future__ import annotations

import dataclasses
import json
import pathlib
import re
from typing import Any, Iterable, Mapping, Sequence

from vidlakost_tools.verilog.source_texts import blanked, with_included

ALWAYS = re.compile(r"\balways(?:_ff)?\b")
# what opens a statement of many, what ends one, and what goes on with it
PART = re.compile(r"\b(?:(?P<opens>begin|case[xz]?|fork)|(?P<ends>end|endcase|join))\b|;")
ELSE = re.compile(r"\s*else\b")
# of a net the value of each bit with which it begins, in the order of its bits
First = Sequence[str]


@dataclasses.dataclass
class Beginnings:
    """A side before its parts are taken out: how each net begins, and of each part its kind and its parameters."""

    nets: Mapping[str, First]
    parts: Mapping[str, tuple[str, Mapping[str, str]]]


def beginnings_of(path: pathlib.Path, top: str) -> Beginnings:
    told = json.loads(path.read_text(encoding="utf-8"))["modules"][top]
    nets = {name: net for name, net in told["netnames"].items() if not net["hide_name"]}
    values: dict[Any, str] = {}
    for net in told["netnames"].values():
        first = net["attributes"].get("init", "")
        values.update({bit: value for bit, value in zip(net["bits"], reversed(first)) if value in "01"})
    parts = {name: (cell["type"], cell["parameters"]) for name, cell in told["cells"].items() if is_part(cell["type"])}
    return Beginnings({name: [values.get(bit, "x") for bit in net["bits"]] for name, net in nets.items()}, parts)


def is_part(kind: str) -> bool:
    """Whether a cell is of a module that no source describes, and none that the proof itself put there."""
    return not kind.startswith("$") and kind != "places_off"


def other_beginnings(gold: Beginnings, gate: Beginnings, memories: Sequence[str]) -> list[str]:
    """What begins otherwise than before, and the parts that are of another kind; memories are compared elsewhere."""
    found = [
        f"{name} begins with {shown(gate.nets[name])}, and began with {shown(first)}"
        for name, first in gold.nets.items()
        if list(gate.nets.get(name, first)) != list(first)
    ]
    for name, part in gold.parts.items():
        if name in memories:
            continue
        if name not in gate.parts:
            found.append(f"{name} is not there any more")
        elif gate.parts[name] != part:
            found.append(f"{name} is of another module, or has other parameters, than before")
    return found


def shown(first: First) -> str:
    return f"{len(first)}'b{''.join(reversed(first))}"


def block_at(text: str, begin: int) -> str:
    """The `always` block that begins there."""
    depth = 0
    for match in PART.finditer(text, begin):
        depth += (match["opens"] is not None) - (match["ends"] is not None)
        if depth == 0 and not match["opens"] and not ELSE.match(text, match.end()):
            return text[begin : match.end()]
    return text[begin:]


def blocks_of(files: list[str], name: str) -> list[list[str]]:
    """The words of each block of the sources that sets a register of this name, in an order of their own."""
    texts = [blanked(source)[0] for _, source in with_included(files)]
    blocks = (block_at(text, match.start()) for text in texts for match in ALWAYS.finditer(text))
    return sorted(block.split() for block in blocks if re.search(rf"(?<![\w$.]){re.escape(name)}\b[^;]*<=", block))


def other_blocks(before: list[str], after: list[str], names: Iterable[str]) -> list[str]:
    """The flip-flops with a set and a reset whose blocks are not word by word what they were: Yosys lets the reset win,
    whatever its source says."""
    pairs = ((name, blocks_of(before, name), blocks_of(after, name)) for name in names)
    told = "has a set and a reset, and another text than before: which of both wins is not compared"
    return [f"{name} {told}" for name, gold, gate in pairs if not gold or gold != gate]
