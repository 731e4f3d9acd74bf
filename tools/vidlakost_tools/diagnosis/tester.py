"""What a tester brings back, as a read of a memory: a cycle and the bits of `fail`, or the register of the TAP."""
from __future__ import annotations

import dataclasses
import re
from typing import Iterator

from vidlakost_tools.access.target import Target
from vidlakost_tools.access.tap import length, parts
from vidlakost_tools.text import shown
from vidlakost_tools.texts.chip import Chip
from vidlakost_tools.texts.march import Element
from vidlakost_tools.texts.memory import Memory
from vidlakost_tools.texts.reads import Read, read_of, visit_lines
from vidlakost_tools.tool import ToolError


def word_of(text: str, bits: int, what: str) -> int:
    """A hexadecimal word."""
    if not re.fullmatch(r"(0[xX])?[0-9a-fA-F]{1,400}", text) or int(text, 16) >> bits:
        raise ToolError(f"{what} has to be hexadecimal, of at most {bits} bits, and not {shown(text)}")
    return int(text, 16)


def told(read: Read, elements: list[Element], memory: Memory, mux: int) -> list[str]:
    """A read in words, with the row of its word in the array."""
    check_mux(memory, mux)
    lines = visit_lines(read, elements[read.element], memory)
    return [f"{line} row {read.index // mux}" if line.startswith("index ") else line for line in lines]


def bits_told(read: Read, memory: Memory, returned: int, mux: int) -> Iterator[str]:
    """The bits of a word that differ from the expected ones, and their columns."""
    wrong = [bit for bit in range(memory.bits) if (read.expected ^ returned) >> bit & 1]
    if not wrong:
        word = memory.digits(returned)
        raise ToolError(f"{word} is the word that the march expects there: is it another march, memory or cycle?")
    yield f"bits {' '.join(map(str, wrong))}"
    yield f"columns {' '.join(str(bit * mux + read.index % mux) for bit in wrong)}"


def check_expected(read: Read, memory: Memory, expected: int, where: str = "") -> None:
    if expected != read.expected:
        raise ToolError(
            f"{where}the expected word is {memory.digits(expected)}, but this march expects"
            f" {memory.digits(read.expected)} there: is it another march, memory or cycle?"
        )


def check_mux(memory: Memory, mux: int) -> None:
    """Refuses a --mux by which the rows of the array would not be equally long."""
    if memory.words % mux:
        raise ToolError(f"--mux {mux} does not divide the {memory.words} words of {memory.name}")


def failing_units(bits: str, count: int) -> list[int]:
    """The units of the bits of `fail`, that of the first unit last."""
    if not re.fullmatch(f"[01]{{{count}}}", bits) or "1" not in bits:
        form = f"FAILBITS needs {count} digits 0 and 1, that of unit 0 last, with at least one 1"
        raise ToolError(f"{form}; it is {shown(bits)}")
    return [number for number in range(count) if bits[count - 1 - number] == "1"]


def at_cycle(chip: Chip, cycle: int, units: list[int]) -> list[tuple[int, Read]]:
    """The failing units that have an answer in this cycle of the chip, and the read."""
    found, why = [], ""
    for number in units:
        unit = chip.units[number]
        try:
            found.append((number, read_of(unit.elements, unit.memory, cycle - unit.start)))
        except ToolError:
            why += f"; unit {number} answers from cycle {unit.start + 1 + unit.memory.latency} to {unit.done - 1}"
    if not found:
        raise ToolError(f"no failing unit has an answer on rdata in cycle {cycle}{why}")
    return found


def in_chip(chip: Chip, cycle: int, units: list[int], words: list[str], mux: int) -> Iterator[str]:
    """The reads of the failing units in a cycle of the chip, in words."""
    found = at_cycle(chip, cycle, units)
    if words and len(found) > 1:
        names = ", ".join(str(number) for number, _ in found)
        raise ToolError(
            f"the units {names} fail and answer in cycle {cycle}: which unit gave the words? Set one bit alone"
        )
    for number, read in found:
        unit = chip.units[number]
        yield f"unit {number} {unit.memory.name}, cycle {cycle - unit.start} of its test"
        yield from of_read(read, unit.elements, unit.memory, words, mux)


def of_read(read: Read, elements: list[Element], memory: Memory, words: list[str], mux: int) -> list[str]:
    """A read in words, with the bits that differ if the call has the two words."""
    lines = told(read, elements, memory, mux)
    if words:
        check_expected(read, memory, word_of(words[0], memory.bits, "EXPECTED"))
        lines += bits_told(read, memory, word_of(words[1], memory.bits, "RETURNED"), mux)
    return lines


# ---- the register of the TAP


def register_of(target: Target, text: str) -> dict[str, int]:
    """The parts of the register. After a segment insertion bit, a scan has this bit above the register, and perhaps
    that of a log."""
    size = length(target)
    value = word_of(text, size + 2 if target.has_sib else size, "the register")
    sizes = (size + 1, size + 2) if target.has_sib else (size,)
    digits, wanted = len(re.sub("^0[xX]", "", text)), sorted({-(-bits // 4) for bits in sizes})
    if digits not in wanted:
        told = " or ".join(map(str, wanted))
        raise ToolError(f"the register has {told} hexadecimal digits, but {shown(text)} has {digits}: is it whole?")
    if target.has_sib and value >> size != 1:
        why = "and all bits above it 0, while the register is in the path: is it another scan?"
        raise ToolError(f"bit {size} of the scan has to be 1, {why}")
    return {part.name: value >> part.low & (1 << part.width) - 1 for part in parts(target)}


def state_lines(found: dict[str, int], target: Target) -> Iterator[str]:
    """The state of a test in words; a register that can't be one is refused."""
    if not found["start"]:
        why = "so no test runs, and the result is lost. Keep start at 1 in the scan that reads"
        raise ToolError(f"start is 0 in this scan, {why}")
    if found["seen"] and not found["fail"] or target.is_chip and bool(found["failing"]) != bool(found["fail"]):
        raise ToolError("the bits of the state disagree: is the register reversed, or shifted by a bit?")
    yield "done" if found["done"] else "not done: the test still runs, or its clock does not"
    if target.is_chip and found["failing"]:
        failing = [number for number in range(target.count) if found["failing"] >> number & 1]
        yield "fail " + ", ".join(f"{number} {target.units[number].memory.name}" for number in failing)
    if not found["seen"]:
        yield "fail, but its cycle was not kept" if found["fail"] else "no wrong read was seen"


def of_register(target: Target, marches: list[list[Element]], text: str, mux: int) -> list[str]:
    """What the register says."""
    found = register_of(target, text)
    lines = list(state_lines(found, target))
    if not found["seen"]:
        return lines
    number = found.get("unit", 0)
    if number >= target.count:
        raise ToolError(f"the unit is {number}, but there are {target.count} units")
    unit = target.units[number]
    read = read_of(marches[number], unit.memory, found["cycle"] - unit.start)
    for word in ("expected", "returned"):
        if found[word] >> unit.memory.bits:
            raise ToolError(f"the word {found[word]:x} has more than the {unit.memory.bits} bits of {unit.memory.name}")
    words = [f"{found['expected']:x}", f"{found['returned']:x}"]
    if target.is_chip:
        lines.append(f"unit {number} {unit.memory.name}, cycle {found['cycle'] - unit.start} of its test")
    told = [unit.memory.digits(found[word]) for word in ("expected", "returned")]
    lines.append(f"cycle {found['cycle']} expected {told[0]} returned {told[1]}")
    return [*lines, *of_read(read, marches[number], unit.memory, words, mux)]


def chip_register(chip: Chip, text: str, mux: int, has_sib: bool = False) -> list[str]:
    target = dataclasses.replace(Target.of_chip(chip), has_sib=has_sib)
    return of_register(target, [unit.elements for unit in chip.units], text, mux)


def memory_register(elements: list[Element], memory: Memory, text: str, mux: int, has_sib: bool = False) -> list[str]:
    target = dataclasses.replace(Target.of_memory(memory, None), has_sib=has_sib)
    return of_register(target, [elements], text, mux)
