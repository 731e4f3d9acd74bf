"""A judge of a whole self-test: a module beside it that says in each cycle whether its ports are as the list of its
commands wants them, and `fail` as the words on `rdata`."""
from __future__ import annotations

from typing import List, Optional

from vidlakost_tools.audit.pins import INPUTS, OUTPUTS, Pins, ports_of
from vidlakost_tools.program import vectors_of
from vidlakost_tools.text import Path, read_described, template
from vidlakost_tools.texts.march import march_of
from vidlakost_tools.texts.memory import Memory, parse_memory
from vidlakost_tools.verilog.replayed import Test
from vidlakost_tools.verilog.syntax import ranged

# so many cycles behind the end are looked at
BEHIND = 3
# the words of a cycle's command; None where there is none
Cycle = Optional[List[str]]


def cycles_of(march: Path, memory_file: Path) -> tuple[Memory, list[Cycle]]:
    """The memory, and of each cycle from the reset to three behind the end of the test its command, if it has one."""
    lines = iter(vectors_of(march, memory_file))
    memory, elements = parse_memory(read_described(memory_file)), march_of(march)[1]
    cycles: list[Cycle] = [None]
    for _ in memory.backgrounds:
        for element in elements:
            if element.is_pause:
                cycles += [None] * memory.pause
            else:
                cycles += [next(lines).split() for _ in range(len(element.operations) * memory.words)]
    assert next(lines, None) is None
    return memory, cycles + [None] * (memory.latency + 1 + BEHIND)


JUDGE = template(__file__, "port_judge_judge.sv")


def connected(pins: Pins | None, memory: Memory) -> tuple[str, str]:
    """The pins of the self-test at the ports of the rule, and the wires of those that go out and are active low. A
    clock of which the falling edge counts is settled before."""
    if pins is None:
        return ", ".join(f".{port}({port})" for port in (*INPUTS, *OUTPUTS)), ""
    widths = {port: width for _, port, width in ports_of(memory)}
    lows = [port for port, pin in pins.outputs() if pin.is_low]
    told = [f".\\{pin.name} ({'~' if pin.is_low and port != 'clk' else ''}{port})" for port, pin in pins.inputs()]
    told += [f".\\{pin.name} ({'low_' if pin.is_low else ''}{port})" for port, pin in pins.outputs()]
    told += [f".\\{name} ({value})" for name, value in pins.ties.items()]
    wires = "".join(f"  wire {ranged(widths[port])}low_{port};\n  assign {port} = ~low_{port};\n" for port in lows)
    return ", ".join(told), wires


def checker(memory: Memory, cycles: list[Cycle], module: str, resets: bool, given: Pins | None = None) -> str:
    """A module beside the self-test that says in each cycle whether its ports are as they have to be."""
    pins, lows = connected(given, memory)
    wide, bits = memory.width, memory.bits
    commands, answers = [], []
    for cycle, command in enumerate(cycles):
        if command:
            kind, address, word = command
            commands.append(
                f"      {cycle}: wanted = {{1'b1, 1'b{int(kind == 'w')}, {wide}'d{address}, {bits}'h{word}}};"
            )
            if kind == "r":
                answers.append(f"      {cycle + memory.latency}: answer = {{1'b1, {bits}'h{word}}};")
    return JUDGE.substitute(
        word=ranged(bits),
        index=ranged(wide),
        resets=" | again" if resets else "",
        module=module,
        pins=pins,
        lows=lows,
        top=wide + bits + 1,
        bits=bits,
        top_bit=bits - 1,
        commands="\n".join(commands),
        answers="\n".join(answers),
        last=len(cycles) - 1,
        done=len(cycles) - BEHIND - 1,
    )


def test_of(memory: Memory, cycles: list[Cycle]) -> Test:
    """The same test in numbers."""
    commands = [(command[0] == "w", int(command[1]), int(command[2], 16)) if command else None for command in cycles]
    return Test(memory, commands, len(cycles) - BEHIND - 1)
