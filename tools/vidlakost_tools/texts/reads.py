"""Which command a cycle of a test is, and which read a word belongs to: background, element, operation, index, and the
expected word. The cycle of the reset is 0, and the first command comes in cycle 1."""
from __future__ import annotations

import dataclasses
from typing import Iterator

from vidlakost_tools.texts.march import Element
from vidlakost_tools.texts.memory import Memory
from vidlakost_tools.tool import ToolError


@dataclasses.dataclass
class Span:
    """The cycles of an element in a background, from the first to the last."""

    background: int
    number: int
    element: Element
    first: int
    last: int


@dataclasses.dataclass
class Visit:
    """An operation on a word."""

    background: int
    element: int
    operation: int
    index: int


@dataclasses.dataclass
class Read(Visit):
    """A read of a test, with the expected word as the port has it."""

    expected: int


def spans(elements: list[Element], memory: Memory) -> Iterator[Span]:
    """The elements of a test in their order."""
    first = 1
    for background in range(len(memory.backgrounds)):
        for number, element in enumerate(elements):
            last = first + memory.cycles_of(element) - 1
            yield Span(background, number, element, first, last)
            first = last + 1


def last_command(elements: list[Element], memory: Memory) -> int:
    return memory.cycles(elements) - memory.latency - 2


def span_of(elements: list[Element], memory: Memory, cycle: int) -> Span:
    """The element of a cycle that has a command or a pause."""
    return next(span for span in spans(elements, memory) if cycle <= span.last)


def visit_of(span: Span, memory: Memory, cycle: int) -> Visit:
    """The visit of a cycle, in an element that is no pause."""
    visit, place = divmod(cycle - span.first, len(span.element.operations))
    index = memory.words - 1 - visit if span.element.order == "down" else visit
    return Visit(span.background, span.number, place, index)


def read_of(elements: list[Element], memory: Memory, answered: int) -> Read:
    """The read whose answer is on `rdata` in a cycle."""
    cycle, last = answered - memory.latency, last_command(elements, memory)
    if not 1 <= cycle <= last:
        first, end = 1 + memory.latency, last + memory.latency
        raise ToolError(f"this test has answers on rdata in the cycles {first} to {end}, but not in {answered}")
    span = span_of(elements, memory, cycle)
    earlier = f"{memory.latency} cycle{'s' if memory.latency > 1 else ''} earlier"
    before = f"no answer comes in cycle {answered}: {earlier} element {span.number}"
    if span.element.is_pause:
        raise ToolError(f"{before} is a pause")
    visit = visit_of(span, memory, cycle)
    operation = span.element.operations[visit.operation]
    if operation[0] == "w":
        raise ToolError(f"{before} does {operation}")
    # the background is what the cells hold; the port has the bits inverted that the memory stores inverted
    word = memory.backgrounds[visit.background] ^ memory.polarity
    if operation == "r1":
        word ^= (1 << memory.bits) - 1
    return Read(visit.background, visit.element, visit.operation, visit.index, word)


def first_read(elements: list[Element], memory: Memory) -> tuple[int, int] | None:
    """The cycle in which the first read of a test answers, and the word that it expects; nothing if it has no read."""
    for span in spans(elements, memory):
        ways = [operation[0] for operation in span.element.operations]
        if "r" in ways:
            answered = span.first + ways.index("r") + memory.latency
            return answered, read_of(elements, memory, answered).expected
    return None


def visit_lines(visit: Visit, element: Element, memory: Memory) -> list[str]:
    """A visit in words."""
    return [
        f"background {visit.background} {memory.digits(memory.backgrounds[visit.background])}",
        f"element {visit.element} {element.text}",
        f"operation {visit.operation} {element.operations[visit.operation]}",
        f"index {visit.index}",
        f"address {memory.address_of(visit.index)}",
    ]


def due_numbers(elements: list[Element], memory: Memory, cycle: int) -> dict[str, int]:
    """The numbers that are due in a cycle of the test, for each port that has one."""
    last = last_command(elements, memory)
    due = {"en": 0, "done": int(cycle == last + memory.latency + 1)}
    span = span_of(elements, memory, cycle) if 1 <= cycle <= last else None
    if span is None or span.element.is_pause:
        return due
    visit = visit_of(span, memory, cycle)
    operation = span.element.operations[visit.operation]
    due.update(en=1, we=int(operation[0] == "w"), addr=memory.address_of(visit.index))
    if operation[0] == "w":
        ones = (1 << memory.bits) - 1 if operation == "w1" else 0
        due["wdata"] = memory.backgrounds[visit.background] ^ memory.polarity ^ ones
    return due


def due_lines(elements: list[Element], memory: Memory, cycle: int) -> list[str]:
    """What is due at the ports in a cycle of the test, in words."""
    last = last_command(elements, memory)
    if cycle > last + memory.latency + 1:
        raise ToolError(f"this test has the cycles 0 to {last + memory.latency + 1}, but not {cycle}")
    if not 1 <= cycle <= last:
        return ["the reset" if cycle == 0 else "the last answer comes" if cycle <= last + memory.latency else "done"]
    span = span_of(elements, memory, cycle)
    if not span.element.is_pause:
        return visit_lines(visit_of(span, memory, cycle), span.element, memory)
    word = memory.digits(memory.backgrounds[span.background])
    return [f"background {span.background} {word}", f"element {span.number} {span.element.text}"]
