"""The first cycles of a test as a picture: the values on each port of the self-test."""
from __future__ import annotations

import itertools
from typing import List, Optional

from vidlakost_tools.pages.drawing import INK, SOFT, document, line, text
from vidlakost_tools.texts.march import Element, elements_of
from vidlakost_tools.texts.memory import Memory

COUNT, LEFT, TOP, HIGH, STEP = 12, 70, 40, 18, 34
GREEN = "#1b7f5c"
NUMBERS = {1: "one cycle", 2: "two cycles", 3: "three cycles", 4: "four cycles"}
# the parts of a line of `vectors`; None if there is no command
Command = Optional[List[str]]
# the least width of a cycle, and the width of a digit
LEAST, DIGIT = 62, 6.8


def wave(y: float, wide: float, bits: list[int]) -> str:
    """A signal of one bit, cycle by cycle."""
    points: list[tuple[float, float]] = []
    for cycle, bit in enumerate(bits):
        level = y + (0 if bit else HIGH)
        points += [(LEFT + cycle * wide, level), (LEFT + (cycle + 1) * wide, level)]
    return line(points)


def clock(y: float, wide: float) -> str:
    points: list[tuple[float, float]] = []
    for cycle in range(COUNT):
        x = LEFT + cycle * wide
        points += [(x, y + HIGH), (x, y), (x + wide / 2, y), (x + wide / 2, y + HIGH), (x + wide, y + HIGH)]
    return line(points)


def words(y: float, wide: float, values: list[str]) -> list[str]:
    """A signal of many bits: its value where one matters, and a hatched stretch where none does."""
    made = []
    for cycle, value in enumerate(values):
        x = LEFT + cycle * wide
        fill = "#ffffff" if value else "#eeeeee"
        right, middle, low = x + wide, y + HIGH / 2, y + HIGH
        path = f"M{x + 3} {y}H{right - 3}L{right} {middle:g}L{right - 3} {low}H{x + 3}L{x} {middle:g}z"
        made.append(f'<path d="{path}" fill="{fill}" stroke="{INK if value else "#bbbbbb"}"/>')
        if value:
            made.append(text(x + wide / 2, y + HIGH - 5, value, 11, "middle", more=' font-family="monospace"'))
    return made


def signals(given: list[Command], latency: int, done: int) -> list[tuple[str, list[int] | list[str] | None]]:
    """The ports, each with its value in each cycle, the test being done from one on; the clock has none."""
    answers = [given[cycle - latency] if cycle >= latency else None for cycle in range(COUNT)]
    return [
        ("clk", None),
        ("reset", [int(cycle == 0) for cycle in range(COUNT)]),
        ("en", [int(command is not None) for command in given]),
        ("we", [int(command is not None and command[0] == "w") for command in given]),
        ("addr", [command[1] if command else "" for command in given]),
        ("wdata", [command[2] if command and command[0] == "w" else "" for command in given]),
        ("rdata", [answer[2] if answer and answer[0] == "r" else "" for answer in answers]),
        ("done", [int(cycle >= done) for cycle in range(COUNT)]),
        ("fail", [0] * COUNT),
    ]


def first_read(given: list[Command], latency: int, wide: float) -> list[str]:
    """The way from the first read to its word, if both are in the picture."""
    reads = [cycle for cycle, command in enumerate(given) if command and command[0] == "r" and cycle + latency < COUNT]
    if not reads:
        return []
    begin, end = LEFT + reads[0] * wide + wide / 2, LEFT + (reads[0] + latency) * wide + wide / 2
    below = TOP + 6 * STEP - 8
    return [
        line(
            [(begin, TOP + 4 * STEP + HIGH + 6), (begin, below), (end, below), (end, below + 11)],
            GREEN,
            1.5,
            ' stroke-dasharray="3 2"',
        ),
        text(
            LEFT,
            TOP + 9 * STEP + 18,
            f"Dashed: the word of a read stands on rdata {NUMBERS[latency]} after its command.",
            11,
            fill=SOFT,
        ),
    ]


def first_cycles(elements: list[Element], memory: Memory, told: list[str]) -> list[Command]:
    """The command of each of the first cycles, from the first lines of `vectors`; None in the reset, in a pause, and
    after the end."""
    given: list[Command] = [None]
    commands = iter(told)
    for element in itertools.chain.from_iterable(itertools.repeat(elements, len(memory.backgrounds))):
        if element.is_pause:
            given += [None] * min(memory.pause, COUNT)
        else:
            given += [command.split() for command in itertools.islice(commands, memory.cycles_of(element))]
        if len(given) >= COUNT:
            break
    return [*given, *[None] * COUNT][:COUNT]


def picture(march: str, memory: Memory, told: list[str]) -> str:
    """The first cycles of a march, from its printed form and the first lines of `vectors`."""
    elements = elements_of(march)
    given = first_cycles(elements, memory, told)
    wide = max(
        LEAST,
        round(12 + DIGIT * max((len(word) for command in given if command for word in command), default=1)),
    )
    shown = march if len(march) <= 60 else march[:57] + "..."
    on = f"{memory.words} words of {memory.bits} bits, latency {memory.latency}"
    title = f"The first {COUNT} cycles of {shown} on {on}"
    rows = signals(given, memory.latency, memory.cycles(elements) - 1)
    made = [text(LEFT, 16, title, 12, more=' font-weight="bold"')]
    for cycle in range(COUNT + 1):
        x = LEFT + cycle * wide
        made.append(line([(x, TOP - 6), (x, TOP + len(rows) * STEP)], "#dddddd", 0.8))
        if cycle < COUNT:
            made.append(text(x + wide / 2, TOP - 8, str(cycle), 10, "middle", SOFT))
    for count, (name, values) in enumerate(rows):
        y = TOP + count * STEP + 4
        made.append(text(LEFT - 8, y + HIGH - 4, name, 11, "end", more=' font-family="monospace"'))
        if values is None:
            made.append(clock(y, wide))
        elif isinstance(values[0], int):
            made.append(wave(y, wide, [int(value) for value in values]))
        else:
            made += words(y, wide, [str(value) for value in values])
    made += first_read(given, memory.latency, wide)
    made.append(
        text(
            LEFT,
            TOP + len(rows) * STEP + 34,
            "Grey: nothing is asked of the port in this cycle. While en is 0, we may be 1.",
            11,
            fill=SOFT,
        )
    )
    return document(LEFT + COUNT * wide + 20, TOP + len(rows) * STEP + 48, made)
