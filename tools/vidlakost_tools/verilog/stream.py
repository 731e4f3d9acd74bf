"""The commands of a march on a memory, as a testbench works them out one after another, so that no list of them is
needed."""
from __future__ import annotations

from vidlakost_tools.text import template
from vidlakost_tools.texts.march import Element
from vidlakost_tools.texts.memory import Memory
from vidlakost_tools.verilog.rule_of_ports import arms

STREAM = template(__file__, "stream_stream.sv")
LISTED = template(__file__, "stream_listed.sv")


def listed(memory: Memory) -> str:
    """The commands as a file lists them."""
    entry = memory.width + memory.bits
    return LISTED.substitute(entry=entry, mark=entry + 1, name=memory.name)


def number_of_commands(memory: Memory, elements: list[Element]) -> int:
    return len(memory.backgrounds) * memory.words * sum(len(element.operations) for element in elements)


def streamed(memory: Memory, elements: list[Element]) -> str:
    """The commands as the testbench works them out."""
    numbered = [(count, element) for count, element in enumerate(elements) if not element.is_pause]
    numbers = [count for count, _ in numbered]
    operations = [
        (count * 16 + place, f"does = 2'b{int(operation[0] == 'w')}{operation[1]}")
        for count, element in numbered
        for place, operation in enumerate(element.operations)
    ]
    rows = []
    for i in range(memory.width):
        bits, constant = memory.row(i)
        terms = [*(f"p[{bit}]" for bit in bits), *([f"1'b{constant}"] if constant or not bits else [])]
        rows.append(f"      address_of[{i}] = {' ^ '.join(terms)};")
    return STREAM.substitute(
        entry=memory.width + memory.bits,
        first=numbers[0],
        last_element=numbers[-1],
        top_index=memory.width - 1,
        top_bit=memory.bits - 1,
        width=memory.width,
        bits=memory.bits,
        words=memory.words,
        last=memory.words - 1,
        polarity=format(memory.polarity, "x"),
        behind=arms((one, f"element_behind = {other}") for one, other in zip(numbers, numbers[1:])),
        counts=arms((count, f"operations_of = {len(element.operations)}") for count, element in numbered),
        downs=arms((count, "goes_down = 1'b1") for count, element in numbered if element.order == "down"),
        operations=arms(operations),
        backgrounds=arms(
            (count, f"background_word = {memory.bits}'h{word:x}") for count, word in enumerate(memory.backgrounds)
        ),
        rows="\n".join(rows),
    )
