"""A run with open registers and words as a waveform, x being open, beside the ports that are due; and GTKWave's save
file."""
from __future__ import annotations

import pathlib
from typing import Any, Iterator

from vidlakost_tools.audit.gates import Machine, gates_of
from vidlakost_tools.files import is_own_in, summed
from vidlakost_tools.folder import Folder, staging, write_whole
from vidlakost_tools.texts.memory import Memory
from vidlakost_tools.tool import progress
from vidlakost_tools.verilog.front_end import Plain

PORTS = ("en", "we", "addr", "wdata", "done", "fail")
# so many cycles before the one that was found, and behind it
BEFORE, BEHIND = 2000, 16
# a cycle in the units of the file
CYCLE = 10


def code_of(number: int) -> str:
    """A name of printable letters, as these files use them."""
    letters = ""
    while True:
        letters += chr(33 + number % 94)
        number //= 94
        if not number:
            return letters


def shown(pairs: list[tuple[int, int]]) -> str:
    """A word, the highest bit first, of what is 1, 0 or open."""
    return "".join("1" if one else "0" if zero else "x" for one, zero in reversed(pairs))


def due_in(command: tuple[bool, int, int] | None, cycle: int, end: int, memory: Memory) -> dict[str, str]:
    """The ports that are due in a cycle; x where nothing is."""
    ports = {"en": str(int(command is not None)), "done": str(int(cycle >= end))}
    widths = {"we": 1, "addr": memory.width, "wdata": memory.bits}
    numbers: dict[str, int] = {}
    if command is not None:
        writes, address, word = command
        numbers = {"we": int(writes), "addr": address, **({"wdata": word} if writes else {})}
    for port, width in widths.items():
        ports[port] = f"{numbers[port]:0{width}b}" if port in numbers else "x" * width
    return ports


def runs_of(plain: Plain, commands: list[Any], memory: Memory, last: int) -> Iterator[tuple[int, dict[str, str]]]:
    """Of each cycle the words of all registers and ports, and of the ports that are due, by their names."""
    module = gates_of(plain)
    machine = Machine(module, PORTS)
    names: dict[str, list[tuple[int, Any]]] = {}
    for bit in machine.registers:
        name, index, _ = machine.names().get(bit, (None, 0, 0))
        if name:
            names.setdefault(name, []).append((index, bit))
    bits = [bit for found in names.values() for _, bit in sorted(found, key=lambda pair: pair[0])]
    step = machine.compiled([*machine.results, *bits])
    state, opens = [(0, 0)] * len(machine.registers), [(0, 0)] * len(machine.words)
    for cycle in progress(range(last + 1), "the waveform is written"):
        state, told = step(state, [*opens, (1, 0) if cycle == 0 else (0, 1)], 1)
        words, place = {}, 0
        sizes = [(f"ports.{port}", len(module["ports"][port]["bits"])) for port in PORTS]
        for name, width in sizes + [(f"registers.{name}", len(found)) for name, found in names.items()]:
            words[name], place = shown(told[place : place + width]), place + width
        command = commands[cycle] if cycle < len(commands) else None
        due = due_in(command, cycle, len(commands) - 1, memory)
        yield cycle, {
            "clk": "",
            "reset": str(int(cycle == 0)),
            **words,
            **{f"due.{port}": word for port, word in due.items()},
        }


def save_of(file: str) -> pathlib.Path:
    """The save file beside a waveform."""
    return pathlib.Path(file).with_suffix(".gtkw")


def write_save(path: pathlib.Path, text: str) -> bool:
    """Writes a save file, unless another stands there: GTKWave saves the signals that somebody chose under that
    name."""
    with Folder(path.parent) as folder:
        is_free = folder.found(path.name) is None or is_own_in(folder, path.name)
        if is_free:
            with staging([(folder, path.name, summed(text))]) as all_are_there:
                all_are_there()
    return is_free


def write_wave(file: str, plain: Plain, commands: list[Any], memory: Memory, cycle: int) -> bool:
    """Writes the cycles round the one that was found, and a save file at it; whether that is new."""
    lines: list[str] = []
    codes: dict[str, str] = {}
    last: dict[str, str] = {}
    for here, words in runs_of(plain, commands, memory, cycle + BEHIND):
        if here < cycle - BEFORE:
            continue
        if not codes:
            codes = {name: code_of(place) for place, name in enumerate(words)}
            lines += header(words, codes)
        lines.append(f"#{here * CYCLE}")
        for name, word in words.items():
            if name != "clk" and last.get(name) != word:
                lines.append(f"b{word} {codes[name]}" if len(word) > 1 else f"{word}{codes[name]}")
        lines += [f"1{codes['clk']}", f"#{here * CYCLE + CYCLE // 2}", f"0{codes['clk']}"]
        last = words
    write_whole(file, "\n".join(lines) + "\n")
    return write_save(save_of(file), save_file(file, codes, last, cycle))


def header(words: dict[str, str], codes: dict[str, str]) -> list[str]:
    lines, scope = ["$timescale 1 ns $end"], ""
    for name, word in words.items():
        here, _, short = name.rpartition(".")
        if here != scope:
            lines += (["$upscope $end"] if scope else []) + ([f"$scope module {here} $end"] if here else [])
            scope = here
        span = f" [{len(word) - 1}:0]" if len(word) > 1 else ""
        lines.append(f"$var wire {max(1, len(word))} {codes[name]} {short or name}{span} $end")
    return lines + (["$upscope $end"] if scope else []) + ["$enddefinitions $end"]


def save_file(file: str, codes: dict[str, str], words: dict[str, str], cycle: int) -> str:
    lines = [
        "[*] made by vidlakost audit",
        f'[dumpfile] "{pathlib.Path(file).resolve()}"',
        f"*4.0 {cycle * CYCLE}",
        "@28",
    ]
    pairs = [name for port in PORTS for name in (f"ports.{port}", f"due.{port}") if name in codes]
    for name in ["clk", "reset", *pairs, *(name for name in codes if name.startswith("registers."))]:
        width = len(words[name])
        lines.append(f"{name}[{width - 1}:0]" if width > 1 else name)
    return "\n".join(lines) + "\n"
