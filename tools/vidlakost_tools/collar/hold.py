"""A self-test whose clock stands still in each pause of its march until it is resumed: the module, the table of the
cycles in which it is held, and a testbench."""
from __future__ import annotations

import dataclasses

from vidlakost_tools.collar.names import MARK
from vidlakost_tools.collar.text import FOOT, HEAD
from vidlakost_tools.text import template
from vidlakost_tools.texts.march import Element
from vidlakost_tools.texts.memory import Memory
from vidlakost_tools.verilog.bench_end import FINISH, over
from vidlakost_tools.verilog.rule_of_ports import arms
from vidlakost_tools.verilog.syntax import ranged


@dataclasses.dataclass
class Hold:
    """A pause: its background, its element, and its first and last cycle; in the last the clock is held."""

    background: int
    element: int
    first: int
    last: int


def holds_of(elements: list[Element], memory: Memory) -> list[Hold]:
    """The pauses of a test, in their order; the cycle of the reset is 0."""
    found, cycle = [], 1
    for background in range(len(memory.backgrounds)):
        for number, element in enumerate(elements):
            length = memory.cycles_of(element)
            if element.is_pause:
                found.append(Hold(background, number, cycle, cycle + length - 1))
            cycle += length
    return found


def table(elements: list[Element], memory: Memory, holds: list[Hold]) -> str:
    """The pauses as a table."""
    march = ";".join(element.text for element in elements)
    lines = [
        f"<!-- made by vidlakost hold -->\n# Where the test of {memory.name} is held\n",
        f"The march is `{{{march}}}`. Cycles are those of the clock that is gated, from the reset in cycle 0 on.\n",
        "| Hold | Background | Element | Pause | Held in cycle |\n|---|---|---|---|---|",
    ]
    for number, hold in enumerate(holds):
        word = memory.digits(memory.backgrounds[hold.background])
        lines.append(
            f"| {number} | {hold.background}, {word} | {hold.element} | {hold.first} to {hold.last} | {hold.last} |"
        )
    return "\n".join([*lines, ""])


TEXT = template(__file__, "hold_text.sv")


def text(elements: list[Element], memory: Memory, holds: list[Hold]) -> str:
    """The module NAME_hold."""
    width, count = memory.cycles(elements).bit_length(), max(1, len(holds).bit_length())
    return TEXT.substitute(
        mark=MARK,
        head=HEAD,
        foot=FOOT,
        over=over(f"{memory.name}_hold_tb"),
        name=memory.name,
        word=ranged(memory.bits),
        address=ranged(memory.width),
        cycles=ranged(width),
        width=width,
        numbers=ranged(count),
        count=count,
        arms=arms((f"{count}'d{number}", f"held_in = {width}'d{hold.last}") for number, hold in enumerate(holds)),
    )


BENCH = template(__file__, "hold_bench.sv")


def is_read_behind(elements: list[Element]) -> bool:
    """Whether some pause is followed by a read of what it found."""
    behind = [
        following for element, following in zip(elements, elements[1:]) if element.is_pause and not following.is_pause
    ]
    return any(element.operations[0][0] == "r" for element in behind)


def bench(elements: list[Element], memory: Memory, holds: list[Hold]) -> str:
    """The testbench of NAME_hold."""
    return BENCH.substitute(
        finish=FINISH,
        mark=MARK,
        head=HEAD,
        foot=FOOT,
        over=over(f"{memory.name}_hold_tb"),
        name=memory.name,
        word=ranged(memory.bits),
        address=ranged(memory.width),
        bits=memory.bits,
        last=(1 << memory.width) - 1,
        latency=memory.latency,
        most=memory.cycles(elements) + 100 * len(holds) + 100,
        holds=len(holds),
    )
