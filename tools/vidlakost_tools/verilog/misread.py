"""Forms of the language that Yosys reads otherwise than it says, and of which no reading of ours is sure: they are
refused by their text, with the place and what says the same."""
from __future__ import annotations

import re
from typing import Iterable, Iterator

from vidlakost_tools.text import shown
from vidlakost_tools.tool import ToolError
from vidlakost_tools.verilog.simulation import Block, Reader

TASK = re.compile(r"\btask\b.*?\bendtask\b", re.DOTALL)
MODULE = re.compile(r"\bmodule\b.*?(?:\bendmodule\b|\Z)", re.DOTALL)
RANGE = r"\[[^\[\]]*\]"
RANGE_NESTED = r"\[(?:[^\[\]]|\[[^\[\]]*\])*\]"
KIND = r"(?:reg|logic|wire|bit|integer|int|byte|var)"
NAME = re.compile(r"[A-Za-z_]\w*")
ASSIGN = re.compile(r"\bassign\b\s*([^=;]*?)=([^;]*);")
WIRE = re.compile(r"\bwire\b([^=;()]*?)=([^;]*);")
FUNCTION = re.compile(r"\bfunction\b[^;(]*?(\w+)\s*[;(](.*?)\bendfunction\b", re.DOTALL)
# a declaration of names with two unpacked ranges at least
ARRAYS = re.compile(rf"\b{KIND}\b[^;()]*?;")
ARRAY = re.compile(rf"([A-Za-z_]\w*)\s*((?:{RANGE}\s*){{2,}})(?=[,;=])")
NUMBERS = re.compile(r"\[\s*(\d+)\s*:\s*(\d+)\s*\]|\[\s*(\d+)\s*\]")
WORD = re.compile(
    rf"\b(?:input|output|{KIND})\b(?:\s+(?:{KIND}|unsigned))*\s*\[\s*(\d+)\s*:\s*0\s*\]\s*([\w\s,]+)[;,)=]"
)
LOOP = re.compile(r"\bfor\s*\(\s*(?:int(?:eger)?\s+|genvar\s+)?(\w+)\s*=\s*(\d+)\s*;\s*(\w+)\s*(<=?)\s*(\d+)\s*;")
TASK_WHY = "Yosys copies no inout of a task back; an input and an output of their own say the same"
BOTH_WHY = "the block sets {} with = and with <=, of which to Yosys the last in the text wins; set it with one of both"
RACE_WHY = "the block sets {} with =, and another block reads it at the same edge, be it by a wire; set it with <="
INTERFACE_WHY = "Yosys follows no signal of an interface; a port for each signal of it, in both modules, says the same"
INTERFACE = re.compile(r"\binterface\b(?!\s+class\b)")
INNER_WHY = "to Yosys an index beyond this range of {} is a place of another row; one range, with an index such as "
INNER_WHY += "{{row, column}}, says the same"


def forms(text: str) -> Iterator[tuple[int, str]]:
    """The forms in a text without comments, each with its place and why it is refused."""
    for match in INTERFACE.finditer(text):
        yield match.start(), INTERFACE_WHY
    for task in TASK.finditer(text):
        inout = re.search(r"\binout\b", task[0])
        if inout:
            yield task.start() + inout.start(), TASK_WHY
    for module in MODULE.finditer(text):
        for block in Reader(module[0]).blocks():
            both = sorted(block.sets(True) & block.sets(False))
            if both:
                yield module.start() + block.at, BOTH_WHY.format(both[0])
        yield from races(module[0], module.start())
        yield from inner_indices(module[0], module.start())


def hanging(module: str, blocks: list[Block]) -> dict[str, set[str]]:
    """Of wires, functions and signals of blocks without an edge the names on which they hang."""
    found: dict[str, set[str]] = {}
    for match in [*ASSIGN.finditer(module), *WIRE.finditer(module)]:
        for name in NAME.findall(re.sub(RANGE, " ", match[1])):
            found.setdefault(name, set()).update(NAME.findall(match[2]))
    for match in FUNCTION.finditer(module):
        found.setdefault(match[1], set()).update(NAME.findall(match[2]))
    for block in blocks:
        if not block.is_clocked:
            read = {event.name for event in block.events if not event.is_set} | calls(module, block)
            for name in (event.name for event in block.events if event.is_set):
                found.setdefault(name, set()).update(read)
    return found


def calls(module: str, block: Block) -> set[str]:
    """The names of a block behind which a parenthesis begins, as of functions."""
    return set(re.findall(r"\b(\w+)\s*\(", module[block.at : block.end]))


def races(module: str, begin: int) -> Iterator[tuple[int, str]]:
    """The blocks that set something with = at an edge at which another block reads it, be it by way of wires or
    functions: the language has no order between both."""
    blocks = list(Reader(module).blocks())
    clocked = [block for block in blocks if block.is_clocked]
    if not any(block.sets(True) for block in clocked):
        return
    hangs = hanging(module, blocks)
    read = [set(block.first_read()) | calls(module, block) for block in clocked]
    for names in read:
        todo = list(names)
        while todo:
            more = hangs.get(todo.pop(), set()) - names
            names |= more
            todo += more
    for block in clocked:
        for other, names in zip(clocked, read):
            raced = sorted(block.sets(True) & names)
            is_one = block.edges & other.edges or not block.edges or not other.edges
            if other is not block and raced and is_one:
                yield begin + block.at, RACE_WHY.format(raced[0])
                break


def range_of(text: str) -> tuple[int, int] | None:
    """The least and the greatest index of a range of numbers; None where it is none."""
    found = NUMBERS.fullmatch(text.strip())
    if found is None:
        return None
    if found[3]:
        return 0, int(found[3]) - 1
    one, other = int(found[1]), int(found[2])
    return min(one, other), max(one, other)


def widths_of(module: str) -> dict[str, int]:
    """Of names that are declared with a range of numbers their width, the greatest where there are several."""
    found: dict[str, int] = {}
    for match in WORD.finditer(module):
        for name in re.findall(r"\w+", match[2]):
            found[name] = max(found.get(name, 0), int(match[1]) + 1)
    return found


def loops_of(module: str) -> dict[str, tuple[int, int]]:
    """Of the variables of loops over numbers the least and the greatest."""
    found: dict[str, tuple[int, int]] = {}
    for match in LOOP.finditer(module):
        if match[1] == match[3]:
            last = int(match[5]) - (match[4] == "<")
            low, high = found.get(match[1], (int(match[2]), last))
            found[match[1]] = min(low, int(match[2])), max(high, last)
    return found


def is_within(index: str, declared: str, widths: dict[str, int], loops: dict[str, tuple[int, int]]) -> bool:
    """Whether an index can't lie beyond a range, as far as its text tells."""
    ends, index = range_of(declared), index.strip()
    if ends is None:
        return False
    if re.fullmatch(r"\d+", index):
        return ends[0] <= int(index) <= ends[1]
    if index in loops:
        return ends[0] <= loops[index][0] and loops[index][1] <= ends[1]
    return index in widths and ends[0] == 0 and (1 << min(widths[index], 32)) - 1 <= ends[1]


def inner_indices(module: str, begin: int) -> Iterator[tuple[int, str]]:
    """The indices of an array of several ranges, but for the first, that may lie beyond their range."""
    widths, loops = widths_of(module), loops_of(module)
    for declaration in ARRAYS.finditer(module):
        for array in ARRAY.finditer(declaration[0]):
            ranges = re.findall(RANGE, array[2])
            use = re.compile(rf"(?<![\w$.\\]){re.escape(array[1])}\s*((?:{RANGE_NESTED}\s*)+)")
            for match in use.finditer(module):
                if declaration.start() <= match.start() < declaration.end():
                    continue
                given = indices(match[1])[1 : len(ranges)]
                if not all(is_within(one, kept, widths, loops) for one, kept in zip(given, ranges[1:])):
                    yield begin + match.start(), INNER_WHY.format(array[1])


def indices(text: str) -> list[str]:
    """What stands in brackets, one behind another."""
    return [found[1:-1] for found in re.findall(RANGE_NESTED, text)]


def refuse(sources: Iterable[tuple[str, str]]) -> None:
    """Refuses these forms in sources without comments."""
    for file, text in sources:
        for at, why in forms(text):
            raise ToolError(f"{shown(file)}:{text.count(chr(10), 0, at) + 1}: {why}", 1)
