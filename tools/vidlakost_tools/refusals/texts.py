"""What is wrong with a march, a list of faults, a primitive or a memory description that the program refuses."""
from __future__ import annotations

import re
from typing import Mapping

from vidlakost_tools.refusals.finding import (
    CLASSES,
    GROUPS,
    Finding,
    at_of,
    character_start,
    close_to,
    could_stand,
    line_start,
    listed,
    place,
    thousands,
    word_at,
    word_start,
)
from vidlakost_tools.text import statements
from vidlakost_tools.texts import old_names
from vidlakost_tools.texts.faults import Primitive, read_primitive
from vidlakost_tools.texts.march import read_elements
from vidlakost_tools.texts.memory import Row, rows_of

# ---- marches

MARCH_WORDS = "up down any del w0 w1 r0 r1".split()


def march(name: str, text: bytes, code: str, values: Mapping[str, str]) -> Finding:
    """What is wrong with a march."""
    if code == "M1":
        return unexpected("march", name, text, int(values["byte"]), MARCH_WORDS)
    if code == "M2":
        return early("march", name, text, "the march")
    said = text.decode("utf-8")
    # the byte at which each element begins, and each of its operations
    elements = [
        (len(said[: it.at].encode()), [(len(said[:at].encode()), word) for at, word in zip(it.places, it.operations)])
        for it in read_elements(said)
    ]
    operations = [(number, at, word) for number, (_, inside) in enumerate(elements) for at, word in inside]
    if code == "M3":
        return Finding(
            name,
            text,
            None,
            "the march has only pauses, and visits no cell" if elements else "the march has no element",
        )
    if code == "M4":
        return Finding(
            name, text, elements[64][0], f"this is the 65th of {len(elements)} elements; a march has at most 64"
        )
    if code == "M6":
        return Finding(
            name,
            text,
            operations[256][1],
            f"this is the 257th of {len(operations)} operations; a march has at most 256",
        )
    number = int(values["element"])
    if code == "M5":
        inside = elements[number][1]
        return Finding(
            name,
            text,
            inside[16][0],
            f"this is the 17th of {len(inside)} operations of element {number}; an element has at most 16",
        )
    at, word = elements[number][1][int(values["operation"])]
    if code == "M7":
        return Finding(
            name,
            text,
            at,
            f"{word} reads a cell that nothing has written yet",
            ["a march begins with a write, as any(w0)"],
        )
    before = next(entry for entry in reversed(operations) if entry[1] < at and entry[2][0] == "w")
    row, column = place(text, before[1])
    return Finding(
        name,
        text,
        at,
        (
            f"{word} expects {word[1]}, but {before[2]} of element {before[0]} (line {row}, column {column}) wrote"
            f" {before[2][1]} last"
        ),
    )


# ---- where a text can't go on, or stops early


def unexpected(kind: str, name: str, text: bytes, at: int, names: list[str], is_word: bool = False) -> Finding:
    """A byte that can't follow: the word that has it, or the word before it if that is incomplete."""
    inside = is_word or kind == "list" and b"<" in text[text.rfind(b"\n", 0, at) + 1 : at]
    tokens, notes, whole = could_stand(kind, text, at, is_word)
    if at < len(text):
        # what is said is a whole character, also where its first bytes could stand
        at = character_start(text, at)
    start = at if inside or whole else word_start(text, at)
    end = at + 1
    while inside and end < len(text) and 0x80 <= text[end] < 0xC0:
        end += 1
    word = text[at:end].decode("utf-8", "replace").strip("\n") if inside else word_at(text, at, whole)
    meant = (
        close_to(word, [token for token in tokens or names if re.match(r"[A-Za-z]", token)])
        if word and not inside
        else None
    )
    if not word:
        message = "the primitive can't end here" if is_word else "the line can't end here"
    else:
        message = f"'{word}' is not allowed here" if word.strip() else "a blank is not allowed here"
    if meant and meant != word:
        message += f"; did you mean '{meant}'?"
    return Finding(name, text, start, message, notes)


def early(kind: str, name: str, text: bytes, what: str, is_word: bool = False) -> Finding:
    """A text that stops too early."""
    if not text.strip() and kind == "verilog":
        return Finding(name, text, None, "the file is empty")
    end = len(text.rstrip(b" \t\r\n")) if kind in ("march", "verilog") else len(text)
    return Finding(
        name, text, end, f"{what} ends here, but is not complete", could_stand(kind, text, len(text), is_word)[1]
    )


# ---- lists and primitives


def fault(name: str, text: bytes, code: str, values: Mapping[str, str], is_word: bool) -> Finding:
    """What is wrong with a list, or with a primitive among the words of a call."""
    line = int(values["line"])
    if code == "F1":
        return no_item(name, text, at_of(values, text) or 0, is_word)
    if code == "F2":
        return early("list", name, text, "the primitive" if is_word else "the last line", is_word)
    body = text.split(b"\n")[line - 1].split(b"#")[0].decode("utf-8", "replace")
    at = line_start(text, line) + len(body) - len(body.lstrip())
    if code == "F5":
        return Finding(name, text, at, "with this line the list has more than 1,024 primitives")
    primitive = read_primitive(body)
    if code == "F4":
        return Finding(name, text, at, too_many_operations(primitive, is_word))
    return Finding(name, text, at, f"this is no fault: {why_no_fault(primitive)}")


def no_item(name: str, text: bytes, at: int, is_word: bool) -> Finding:
    found = unexpected("list", name, text, at, [*CLASSES, *GROUPS], is_word)
    word = word_at(text, at)
    if is_word and re.fullmatch(rb"[A-Za-z]\w*", text):
        return Finding(name, text, 0, "a primitive is needed here, as <0w1/0/->, not a class")
    meaning, meant = old_names.meaning_of(word), old_names.class_of(word)
    if meaning is not None:
        return Finding(name, text, found.at, f"'{word}' is no name of a class here", [meaning])
    if meant is not None and meant.lower() != word.lower():
        return Finding(name, text, found.at, f"'{word}' is no name of a class here; '{meant}' is", found.notes)
    return found


def too_many_operations(primitive: Primitive, is_word: bool) -> str:
    count = len(primitive.operations)
    parted = (
        primitive.aggressor is not None and bool(primitive.aggressor.operations) and bool(primitive.victim.operations)
    )
    if count == 2 and parted:
        return "the primitive has an operation on each cell; it may have operations on one cell alone"
    if count == 2 and is_word:
        return "the primitive has two operations, but this command takes at most one; a list may have it"
    return f"the primitive has {count} operations; it may have one at most, or two in one part"


def why_no_fault(primitive: Primitive) -> str:
    """Why a primitive describes no fault."""
    left = 0
    for part in filter(None, (primitive.aggressor, primitive.victim)):
        left = part.state
        for operation in part.operations:
            if operation[0] == "r" and int(operation[1]) != left:
                return f"{operation} reads {operation[1]}, but the cell holds {left} before it"
            left = int(operation[1]) if operation != "t" else left
    operations = primitive.operations
    if "t" in operations and (primitive.aggressor or len(operations) > 1):
        return "a pause (t) comes alone, after the state of a single cell, without an aggressor"
    reads = primitive.victim.operations[-1:] != [] and primitive.victim.operations[-1][0] == "r"
    if reads and primitive.answer is None:
        return "S ends in a read of the victim, so R has to be the bit that it answers, not '-'"
    if not reads and primitive.answer is not None:
        return "S does not end in a read of the victim, so R has to be '-'"
    if primitive.after == left and primitive.answer in (None, left):
        answer = ", and the read answers it" if reads else ""
        return f"nothing goes wrong, since the victim ends with {left}{answer}, as it does without a fault"
    return "it belongs to no class"


# ---- memory descriptions

FIELDS = {
    "name": ("name IDENT", "the memory's name"),
    "words": ("words N", "the number of words"),
    "bits": ("bits N", "the bits of a word"),
}
KEYWORDS = "memory name words bits latency polarity pause scramble backgrounds".split()


class Description:
    """A refused memory description: its bytes, and what its lines say."""

    def __init__(self, name: str, text: bytes):
        self.name, self.text = name, text
        self.statements = statements(text.decode("utf-8", "replace"))

    def said(self, word: str) -> str | None:
        return next((rest for _, kind, rest in self.statements if kind == word), None)

    def number(self, word: str) -> int | None:
        said = self.said(word)
        return int(said) if said and re.fullmatch(r"\d+", said) else None

    def line_of(self, word: str) -> int:
        return next(line for line, kind, _ in self.statements if kind == word)

    def statement(self, line: int) -> tuple[str, str]:
        return next((kind, rest) for number, kind, rest in self.statements if number == line)

    def width(self) -> int:
        return max(1, ((self.number("words") or 2) - 1).bit_length())

    def at(self, line: int, part: str = "") -> int:
        """The byte of a part of a line, or of its first word."""
        start = line_start(self.text, line)
        body = self.text.split(b"\n")[line - 1]
        found = re.search(rb"(?<!\w)" + re.escape(part.encode()) + rb"(?!\w)", body) if part else None
        return start + (found.start() if found else len(body) - len(body.lstrip()))

    def found(self, at: int | None, message: str, *notes: str) -> Finding:
        return Finding(self.name, self.text, at, message, list(notes))

    def rows(self) -> dict[int, tuple[int, Row]]:
        return rows_of(self.statements)


def memory(name: str, text: bytes, code: str, values: Mapping[str, str]) -> Finding:
    """What is wrong with a memory description."""
    description = Description(name, text)
    if code == "D2":
        return (
            early("memory", name, text, "the last line")
            if description.statements
            else Finding(name, text, None, "the description is empty, or has only comments")
        )
    if code == "D1":
        return unexpected_statement(description, values)
    if code == "D4":
        return missing(description, values["field"])
    if code == "D6":
        return dependent(description, values["rows"].split())
    if code in ("D3", "D5"):
        return (repeated if code == "D3" else out_of_range)(description, int(values["line"]))
    return {"D7": no_power, "D8": no_solid, "D9": too_many, "D11": other_version}[code](description)


def unexpected_statement(description: Description, values: Mapping[str, str]) -> Finding:
    line, at = int(values["line"]), at_of(values, description.text) or 0
    word = description.statement(line)[0]
    if word in ("latency", "polarity", "pause") and description.number("memory") == 1:
        return description.found(
            description.at(line), f"'{word}' is a line of version 2", "write 'memory 2' in place of 'memory 1'"
        )
    if description.statements[0][0] == line and word != "memory":
        return description.found(
            description.at(line), "the first line that says anything has to be 'memory 1' or 'memory 2'"
        )
    return unexpected("memory", description.name, description.text, at, KEYWORDS)


def missing(description: Description, field: str) -> Finding:
    if field in FIELDS:
        return description.found(None, f"the line '{FIELDS[field][0]}' is missing, {FIELDS[field][1]}")
    rows, width = description.rows(), description.width()
    return description.found(
        description.at(rows[min(rows)][0]),
        f"row {field} is missing: a scrambling has a row for each address bit, a0 to a{width - 1}",
        f"the description has {listed([f'a{row}' for row in sorted(rows)], 'and')}",
    )


def repeated(description: Description, line: int) -> Finding:
    word, rest = description.statement(line)
    row = int(rest.split("=")[0].strip()[1:]) if word == "scramble" else None
    first = next(
        number
        for number, kind, said in description.statements
        if kind == word and (row is None or int(said.split("=")[0].strip()[1:]) == row)
    )
    what = f"row a{row}" if row is not None else f"'{word}'"
    return description.found(description.at(line), f"line {first} already has {what}")


RANGES = {
    "words": (2, 65536, "words"),
    "bits": (1, 64, "bits of a word"),
    "latency": (1, 4, "cycles"),
    "pause": (1, 65535, "cycles"),
}


def out_of_range(description: Description, line: int) -> Finding:
    word, rest = description.statement(line)
    if word in RANGES:
        least, most, unit = RANGES[word]
        return description.found(
            description.at(line, rest), f"'{word} {rest}' is outside its range, {least} to {thousands(most)} {unit}"
        )
    if word == "name":
        why = (
            f"it has {len(rest)} bytes, but a name has at most 48"
            if len(rest) > 48
            else "it is a reserved word of Verilog"
        )
        return description.found(description.at(line, rest), f"'{rest}' can't name a memory: {why}")
    if word == "scramble":
        return outside_row(description, line, rest)
    bits = description.number("bits") or 64
    wide = next((part for part in rest.split() if part != "log" and int(part, 16) >> bits), rest)
    what = "the polarity" if word == "polarity" else "the background"
    return description.found(
        description.at(line, wide),
        f"{what} {wide} needs {int(wide, 16).bit_length()} bits, but a word of this memory has {bits}",
    )


def outside_row(description: Description, line: int, rest: str) -> Finding:
    width, words = description.width(), description.number("words") or 0
    row, terms = rest.split("=")
    part, what = row.strip(), "address"
    if int(part[1:]) < width:
        part, what = (
            next(
                term.strip() for term in terms.split("^") if term.strip()[0] == "p" and int(term.strip()[1:]) >= width
            ),
            "index",
        )
    return description.found(
        description.at(line, part),
        (
            f"there is no {part}: an {what} of {thousands(words)} words has {width} bits, {part[0]}0 to"
            f" {part[0]}{width - 1}"
        ),
    )


def dependent(description: Description, names: list[str]) -> Finding:
    """D6: the last named row is the exclusive or of the others."""
    *others, last = names
    rows = description.rows()
    line, (_, constant) = rows[int(last[1:])]
    differs = (constant + sum(rows[int(name[1:])][1][1] for name in others)) % 2
    but = ", apart from the constant 1" if differs else ""
    if not others:
        why = f"row {last} has no index bit, so this bit of an address never changes"
    elif len(others) == 1:
        why = f"row {last} is the same as row {others[0]}{but}"
    else:
        why = f"row {last} is the exclusive or of {listed(others, 'and')}{but}"
    return description.found(description.at(line, last), why, "so two words would have one address")


def no_power(description: Description) -> Finding:
    words = description.number("words") or 0
    below = 1 << (words.bit_length() - 1)
    return description.found(
        description.at(description.line_of("words")),
        f"the memory has a scrambling, but words {words} is no power of two",
        f"a scrambling needs words {below} or {below * 2}; without scramble lines any number works",
    )


def no_solid(description: Description) -> Finding:
    line, rest = description.line_of("backgrounds"), description.said("backgrounds")
    return description.found(
        description.at(line), "the word 0 is not among the backgrounds", f"write 'backgrounds 0 {rest}'"
    )


def too_many(description: Description) -> Finding:
    line, words = description.line_of("backgrounds"), (description.said("backgrounds") or "").split()
    return description.found(description.at(line), f"there are {len(words)} backgrounds, but a memory has at most 8")


def other_version(description: Description) -> Finding:
    line, _, rest = description.statements[0]
    return description.found(description.at(line, rest), f"there is no version {rest}: write 'memory 1' or 'memory 2'")
