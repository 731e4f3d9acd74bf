"""A stand-in for the program: it takes right texts alone, and answers as FORMATS has it from the tools' own readers."""
from __future__ import annotations

import contextlib
import importlib
import io
import itertools
import pathlib
import re
import tempfile
import unittest
from typing import Any, Sequence
from unittest import mock

from vidlakost_tools import program
from vidlakost_tools.text import read_text, statements
from vidlakost_tools.texts.chip import units_of
from vidlakost_tools.texts.faults import Array, read_primitive
from vidlakost_tools.texts.march import Element, elements_of
from vidlakost_tools.texts.memory import Memory, parse_memory
from vidlakost_tools.verilog import open_run


def printed_march(file: str) -> str:
    elements = elements_of(read_text(file))
    texts = ["del" if it.is_pause else f"{it.order}({','.join(it.operations)})" for it in elements]
    return "{" + ";".join(texts) + "}"


def printed_memory(memory: Memory) -> str:
    """The printed form of a memory, of version 2 where version 1 has no line for what it says."""
    values = {"latency": memory.latency, "polarity": memory.digits(memory.polarity), "pause": memory.pause}
    is_plain = (memory.latency, memory.polarity, memory.pause) == (1, 0, 1)
    lines = [f"memory {1 if is_plain else 2}", f"name {memory.name}", f"words {memory.words}", f"bits {memory.bits}"]
    lines += [] if is_plain else [f"{word} {value}" for word, value in values.items()]
    for row, (bits, constant) in enumerate(memory.rows or []):
        terms = [*(f"p{bit}" for bit in bits), *(["1"] if constant or not bits else [])]
        lines.append(f"scramble a{row} = {' ^ '.join(terms)}")
    return "\n".join([*lines, f"backgrounds {' '.join(map(memory.digits, memory.backgrounds))}"])


def printed_chip(file: str) -> str:
    said = statements(read_text(file))
    values = {word: rest for _, word, rest in said}
    units = [f"unit {weight} {march} {memory}" for _, weight, march, memory in units_of(said)]
    return "\n".join(["chip 1", f"name {values['name']}", f"budget {values['budget']}", *units])


def vectors(march: str, memory_file: str, out: str) -> str:
    """Writes the commands of a test, a line each."""
    memory = parse_memory(read_text(memory_file))
    commands = [it for it in open_run.commands_of(elements_of(read_text(march)), memory) if it]
    lines = [f"{'w' if writes else 'r'} {address} {memory.digits(word)}" for writes, address, word in commands]
    pathlib.Path(out).write_text("\n".join([*lines, ""]))
    return f"commands {len(lines)}"


def primitives() -> dict[str, str]:
    """The static primitives of FORMATS, each with its class, in the order of the table."""
    rows = re.findall(r"^\| (\w+) \| (`<.*>`) \|$", read_text(program.FORMATS), re.MULTILINE)
    return {text: name for name, listed in rows for text in re.findall(r"`(<[^`]*>)`", listed)}


def escape_of(primitive: str, elements: list[Element]) -> str | None:
    """The least array of two cells in which a march passes; None where there is none."""
    read = read_primitive(primitive)
    alone, both = [(None, 0), (None, 1)], [(0, 1), (1, 0)]
    places: list[tuple[int | None, int]] = [*alone] if read.aggressor is None else [*both]
    ways = [{"up": "u", "down": "d", "del": "u"}.get(it.order, "ud") for it in elements]
    contents = ["".join(bits) for bits in itertools.product("01", repeat=2)]
    for (aggressor, victim), content, way in itertools.product(places, contents, itertools.product(*ways)):
        directions = "".join(way)
        if not any(step.differs for step in Array(read, aggressor, victim, content).march(elements, directions)):
            told = "none" if aggressor is None else aggressor
            return f"aggressor {told} victim {victim} content {content} directions {directions}"
    return None


def report_of(march: str, listed: str) -> list[str]:
    """The lines of a report of `judge`, of a list of classes, of `all` and of static primitives."""
    known, elements = primitives(), elements_of(read_text(march))
    groups = {"all": [text for text, name in known.items() if name != "DRF"]}
    for text, name in known.items():
        groups.setdefault(name, []).append(text)
    items = [text for line in read_text(listed).split() for text in groups.get(line, [line])]
    escapes = {text: escape_of(text, elements) for text in dict.fromkeys(items)}
    lines = [f"march {printed_march(march)}"]
    for text in items:
        lines.append(
            f"escape {text} {known[text]} {escapes[text]}" if escapes[text] else f"covered {text} {known[text]}"
        )
    for name in dict.fromkeys(known.values()):
        own = [text for text in items if known[text] == name]
        covered = sum(escapes[text] is None for text in own)
        lines += [f"class {name} {len(own)} covered {covered}"] if own else []
    covered = sum(escapes[text] is None for text in items)
    return [*lines, f"total {len(items)} covered {covered} escapes {len(items) - covered}"]


class Calls:
    """Stands for `bounded` where the program is called; the modules that it writes are told by a test."""

    def __init__(self) -> None:
        # of a memory the module of its self-test, and of all chips theirs
        self.modules: dict[str, str] = {}
        self.chip = ""

    def heard(self, words: Sequence[Any], *_: Any) -> tuple[int, bytes]:
        status, said = self.answer(*map(str, words[1:]))
        return status, f"{said}\n".encode()

    def answer(self, command: str, *words: str) -> tuple[int, str]:
        """The status and the line of a call."""
        if command == "show":
            kind, file = words
            shown = {"march": printed_march, "memory": lambda path: printed_memory(parse_memory(read_text(path)))}
            return 0, {**shown, "chip": printed_chip}[kind](file)
        if command == "vectors":
            return 0, vectors(*words)
        if command in ("check", "benchfile") and not pathlib.Path(words[1]).exists():
            # a module is read when the march behind it is missed
            return 10, "absent 2"
        if command == "benchfault":
            # where the fault is one, and its cells are there
            return 1, "fail 1"
        if command == "check":
            line = open_run.told(*words)
            return int(not line.startswith("conforms ")), line
        if command == "chip":
            pathlib.Path(words[1]).write_text(self.chip)
            return 0, "chip"
        if command == "judge":
            lines = report_of(*words[:2])
            pathlib.Path(words[2]).write_text("\n".join([*lines, ""]))
            return int(not lines[-1].endswith(" escapes 0")), lines[-1]
        if command == "compile":
            memory = parse_memory(read_text(words[1]))
            pathlib.Path(words[3]).write_text(self.modules[memory.name])
            return 0, "compile"
        raise AssertionError(f"the stand-in has no command {command}")


class Tools(unittest.TestCase):
    """Calls of tools beside the stand-in, in a folder of their own; `@` in a word is the folder's name."""

    def setUp(self) -> None:
        folder = tempfile.TemporaryDirectory()
        self.addCleanup(folder.cleanup)
        self.folder = pathlib.Path(folder.name)
        self.calls = Calls()
        patch = mock.patch.object(program, "bounded", self.calls)
        patch.start()
        self.addCleanup(patch.stop)

    def put(self, **texts: str) -> None:
        """Writes some texts; `_` in a name stands for a full stop."""
        for name, text in texts.items():
            (self.folder / name.replace("_", ".")).write_text(text)

    def tool(self, name: str, *words: str) -> tuple[int, list[str]]:
        """The status of a tool and its lines."""
        out = io.StringIO()
        main = importlib.import_module(f"vidlakost_tools.commands.{name}").main
        with contextlib.redirect_stdout(out), contextlib.redirect_stderr(io.StringIO()):
            status = main([word.replace("@", str(self.folder)) for word in words])
        return status or 0, out.getvalue().replace(str(self.folder), "@").splitlines()
