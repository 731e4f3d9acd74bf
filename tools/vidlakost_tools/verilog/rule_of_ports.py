"""The rule of the ports as assertions of SystemVerilog: a controller of a march and a memory, cycle by cycle, beside
which any other is compared. It is written from the description, as a designer would write one, with counters and
tables."""
from __future__ import annotations

from typing import Iterable

from vidlakost_tools.text import template
from vidlakost_tools.texts.march import Element
from vidlakost_tools.texts.memory import Memory
from vidlakost_tools.verilog.syntax import ranged

RULE = template(__file__, "rule_of_ports_rule.sv")


def arms(pairs: Iterable[tuple[object, str]]) -> str:
    return "".join(f"      {label}: {value};\n" for label, value in pairs)


def rule(elements: list[Element], memory: Memory) -> str:
    """The text of the assertions."""
    numbered = list(enumerate(elements))
    operations = [
        (f"{{6'd{count}, 4'd{place}}}", f"does = 2'b{int(operation[0] == 'w')}{operation[1]}")
        for count, element in numbered
        for place, operation in enumerate(element.operations)
    ]
    rows = []
    for i in range(memory.width):
        bits, constant = memory.row(i)
        terms = " ^ ".join([*(f"place[{bit}]" for bit in bits), f"1'b{constant}"])
        rows.append(f"  assign address{f'[{i}]' if memory.width > 1 else ''} = {terms};")
    return RULE.substitute(
        name=memory.name,
        march=";".join(element.text for element in elements),
        word=ranged(memory.bits),
        index=ranged(memory.width),
        latency=memory.latency,
        bits=memory.bits,
        polarity=format(memory.polarity, "x"),
        pauses=arms((f"6'd{count}", "is_pause = 1'b1") for count, element in numbered if element.is_pause),
        lasts=arms(
            (f"6'd{count}", f"last_operation = 4'd{len(element.operations) - 1}")
            for count, element in numbered
            if not element.is_pause
        ),
        downs=arms((f"6'd{count}", "goes_down = 1'b1") for count, element in numbered if element.order == "down"),
        operations=arms(operations),
        backgrounds=arms(
            (f"3'd{count}", f"background_word = {memory.bits}'h{word:x}")
            for count, word in enumerate(memory.backgrounds)
        ),
        last_rest=memory.pause - 1,
        last_word=memory.words - 1,
        width=memory.width,
        last_bit=memory.width - 1,
        last_element=len(elements) - 1,
        rows="\n".join(rows),
        last_background=len(memory.backgrounds) - 1,
    )
