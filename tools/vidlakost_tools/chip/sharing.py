"""Equal memories of a list that share a controller: one unit tests the first, and its commands go to all. Each other
memory has a comparator that checks what it answers."""
from __future__ import annotations

from typing import TYPE_CHECKING, Callable

from vidlakost_tools.tool import ToolError
from vidlakost_tools.verilog.syntax import ranged

if TYPE_CHECKING:
    from vidlakost_tools.chip.system import Part, System


def share(system: System) -> None:
    """Gives the memories of a line that share a controller the unit of the first of them, as many as the budget has
    room for; the unit then weighs what all of them do."""
    words = {placed.word.name: placed for placed in system.collars if any(part.is_shared for part in placed.parts)}
    for name, first in words.items():
        if not all(part.is_shared for part in first.parts):
            told = " and ".join(part.memory.name for part in first.parts)
            raise ToolError(f"{told} are parts of one word: either both lines say shared, or none")
        equal = [placed for placed in system.collars if placed.word.name == name]
        most = max(1, system.budget // sum(part.weight for part in first.parts))
        for at in range(0, len(equal), most):
            led = equal[at : at + most]
            for half, part in enumerate(led[0].parts):
                part.unit.weight *= len(led)
                for placed in led:
                    placed.parts[half].shares = len(led)
                for placed in led[1:]:
                    placed.parts[half].leader, placed.parts[half].unit = part, part.unit


def follow(system: System) -> None:
    """Memories that share a controller have the place of the first of them."""
    for part in system.parts:
        if part.leader is not None:
            part.chip, part.place = part.leader.chip, part.leader.place


def followers(system: System, part: Part) -> list[Part]:
    return [other for other in system.parts if other.leader is part]


def comparators(part: Part, others: list[Part], is_on: str, net: Callable[[str], str]) -> list[str]:
    """The comparators beside the controller of a memory, each with a bit that keeps what it found. In the cycle of a
    read the controller has on wdata the word that it expects. That word has to be on rdata one latency later."""
    name, word, last = part.name, ranged(part.memory.bits), part.memory.latency
    reads = [net(f"n_{name}_reads_{stage}") for stage in range(1, last + 1)]
    wants = [net(f"n_{name}_want_{stage}") for stage in range(1, last + 1)]
    bads = [net(f"n_{other.name}_bad") for other in others]
    lines = [f"  reg {one};" for one in (*reads, *bads)] + [f"  reg {word}{one};" for one in wants]
    lines += ["  always @(posedge clk) begin"]
    lines.append(f"    {reads[0]} <= {is_on} & {net(f'n_{name}_en')} & ~{net(f'n_{name}_we')};")
    lines.append(f"    {wants[0]} <= {net(f'n_{name}_given')};")
    lines += [f"    {later} <= {is_on} & {sooner};" for sooner, later in zip(reads, reads[1:])]
    lines += [f"    {later} <= {sooner};" for sooner, later in zip(wants, wants[1:])]
    for other, bad in zip(others, bads):
        differs = f"{reads[-1]} & ({net(f'n_{other.name}_taken')} != {wants[-1]})"
        lines.append(f"    {bad} <= {is_on} & ({bad} | {differs});")
    return [*lines, "  end"]
