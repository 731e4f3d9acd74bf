"""What is wrong with a chip file that the program refuses."""
from __future__ import annotations

import re
from typing import Mapping

from vidlakost_tools.refusals.finding import Finding, at_of, thousands
from vidlakost_tools.refusals.texts import Description, early, repeated, unexpected
from vidlakost_tools.text import read_described, statements
from vidlakost_tools.texts.chip import units_of
from vidlakost_tools.texts.memory import parse_memory

KEYWORDS = "chip name budget unit".split()
FIELDS = {
    "name": "the line 'name IDENT' is missing, which names the module of the chip",
    "budget": "the line 'budget N' is missing, the greatest weight of the memories that run at once",
    "unit": "there is no line 'unit N MARCHFILE MEMORYFILE', so there is nothing to test",
}
MOST, LONGEST_NAME, LONGEST_FILE = 1_000_000, 48, 255


def chip(name: str, text: bytes, code: str, values: Mapping[str, str]) -> Finding:
    """What is wrong with a chip file."""
    description = Description(name, text)
    if code == "C2":
        found = early("chip", name, text, "the last line")
        return (
            found
            if description.statements
            else Finding(name, text, None, "the chip file is empty, or has only comments")
        )
    if code == "C1":
        line = int(values["line"])
        if description.statements[0][0] == line and description.statement(line)[0] != "chip":
            return description.found(description.at(line), "the first line that says anything has to be 'chip 1'")
        return unexpected("chip", name, text, at_of(values, text) or 0, KEYWORDS)
    if code == "C3":
        return repeated(description, int(values["line"]))
    if code == "C4":
        return Finding(name, text, None, FIELDS[values["field"]])
    if code == "C7":
        line, _, rest = description.statements[0]
        return description.found(description.at(line, rest), f"there is no version {rest}: write 'chip 1'")
    if code == "C6":
        line = [number for number, word, _ in description.statements if word == "unit"][16]
        return description.found(description.at(line), "this is the 17th unit, but a chip has at most 16")
    if code == "C8":
        return same_name(description, int(values["unit"]))
    return (out_of_range if code == "C5" else too_heavy)(description, int(values["line"]))


def out_of_range(description: Description, line: int) -> Finding:
    word, rest = description.statement(line)
    first, *files = rest.split()
    if word == "name":
        long = len(rest) > LONGEST_NAME
        why = (
            f"it has {len(rest)} bytes, but a name has at most {LONGEST_NAME}"
            if long
            else "it is a reserved word of Verilog"
        )
        return description.found(description.at(line, rest), f"'{rest}' can't name a chip: {why}")
    long_file = next((file for file in files if len(file) > LONGEST_FILE), None)
    if 1 <= int(first) <= MOST and long_file is not None:
        at = description.at(line) + len(word) + 1
        return description.found(at, f"a file name has {len(long_file)} bytes, but may have at most {LONGEST_FILE}")
    what = "a weight" if word == "unit" else "a budget"
    return description.found(description.at(line, first), f"{what} is 1 to {thousands(MOST)}, and not {first}")


def too_heavy(description: Description, line: int) -> Finding:
    weight, budget = description.statement(line)[1].split()[0], description.said("budget")
    return description.found(
        description.at(line, weight),
        f"this unit weighs {weight}, but the budget in line {description.line_of('budget')} is {budget}",
        "so no group has room for it",
    )


def same_name(description: Description, number: int) -> Finding:
    """C8: the memory of a unit has the name of an earlier one, or its module has the name of the chip."""
    rows = units_of(description.statements)
    names = [parse_memory(read_described(memory)).name for *_, memory in rows[: number + 1]]
    line, _, _, memory = rows[number]
    if names[number] in names[:number]:
        why = f"its memory has the name of unit {names.index(names[number])}, '{names[number]}'"
    else:
        why = f"its module would be '{names[number]}_bist', which is the name of the chip"
    return description.found(description.at(line), f"unit {number} ({memory}) needs another name: {why}")


def unit_call(chip_file: str, said: str) -> tuple[list[str], str]:
    """For a refusal of one unit's march or memory: the words of a call with the same refusal, and its line there."""
    match = re.fullmatch(r"unit (\d+) (.*)", said)
    if match is None:
        raise ValueError(said)
    text = read_described(chip_file)
    _, _, march, memory = units_of(statements(text))[int(match[1])]
    return ["bench", march, memory], match[2]
