"""STIL (IEEE 1450.0): signals, one group of them, one timing, and the vectors of the pattern to run."""
from __future__ import annotations

import dataclasses
import re
from typing import List, Tuple, Union

from vidlakost_tools.tester_files.cycles import Cycle
from vidlakost_tools.tool import ToolError

LEXEME = re.compile(r"\s+|//[^\n]*|/\*.*?\*/|(?P<quoted>'[^']*')|(?P<word>[\w./+-]+)|(?P<mark>[{};=])", re.DOTALL)
PINS = ["tck", "tms", "tdi", "trst_n", "tdo"]
KINDS = {"In", "Out", "InOut", "Supply", "Pseudo"}
TDO = {"L": "0", "H": "1", "X": "X"}
# a statement: its words, and the block after them (None: it ends with a semicolon)
Block = List["Statement"]


@dataclasses.dataclass
class Statement:
    words: List[str]
    block: Union[Block, None]

    @property
    def inner(self) -> Block:
        return self.block or []


def tokens(text: str) -> list[str]:
    """The words and marks of a text."""
    found, at = [], 0
    while at < len(text):
        match = LEXEME.match(text, at)
        if match is None:
            raise ToolError(f"STIL: line {text.count(chr(10), 0, at) + 1}: {text[at]!r} begins no word")
        at = match.end()
        if match.lastgroup:
            found.append(match[0])
    return found


def statements(found: list[str], at: int = 0, depth: int = 0) -> Tuple[Block, int]:
    """The statements of a block, up to its end."""
    made: Block = []
    words: List[str] = []
    while at < len(found):
        token = found[at]
        at += 1
        if token == ";":
            made.append(Statement(words, None))
            words = []
        elif token == "{":
            inner, at = statements(found, at, depth + 1)
            made.append(Statement(words, inner))
            words = []
        elif token == "}":
            if words or not depth:
                raise ToolError("STIL: a block ends within a statement, or there is none")
            return made, at
        else:
            words.append(token)
    if words or depth:
        raise ToolError("STIL: the text ends within a statement or a block")
    return made, at


def block_of(block: Block, *words: str) -> Block:
    """The block of the one statement that begins with these words."""
    found = [one for one in block if one.words[: len(words)] == list(words) and one.block is not None]
    if len(found) != 1:
        raise ToolError(f"STIL: {' '.join(words)} is there {len(found)} times")
    return found[0].inner


def pairs(block: Block, what: str) -> dict[str, list[str]]:
    """Statements that begin with a name of their own."""
    found = {one.words[0]: one.words[1:] for one in block if one.words}
    if len(found) != len(block):
        raise ToolError(f"STIL: {what} has a name twice, or none")
    return found


def nanoseconds(text: str) -> float:
    match = re.fullmatch(r"'([0-9.]+)(ps|ns|us)'", text)
    if match is None:
        raise ToolError(f"STIL: {text} is no time")
    return float(match[1]) * {"ps": 1e-3, "ns": 1.0, "us": 1e3}[match[2]]


def waves_of(table: Block) -> dict[str, dict[str, list[tuple[float, str]]]]:
    """For each signal and each letter: the events of its waveform, at their times."""
    period, found = 0.0, {}
    for one in table:
        if one.words[:1] == ["Period"]:
            period = nanoseconds(one.words[1])
    for wave in block_of(table, "Waveforms"):
        shapes: dict[str, list[tuple[float, str]]] = {}
        for shape in wave.inner:
            events = [(nanoseconds(event.words[0]), event.words[1]) for event in shape.inner]
            times = [at for at, _ in events]
            if times != sorted(set(times)) or not times or times[0] or times[-1] >= period:
                raise ToolError(f"STIL: the events of {wave.words[0]} are not in their order within the period")
            for place, letter in enumerate(shape.words[0]):
                shapes[letter] = [(at, event.split("/")[place] if "/" in event else event) for at, event in events]
        found[wave.words[0]] = shapes
    return found


def check_waves(waves: dict[str, dict[str, list[tuple[float, str]]]]) -> None:
    """Checks that TCK rises after the edges of what it samples and after the comparison, and falls before the end."""
    clock = waves.get("tck", {}).get("P", [])
    if [event for _, event in clock] != ["D", "U", "D"]:
        raise ToolError("STIL: tck has no pulse P")
    rise = clock[1][0]
    for name in PINS[1:4]:
        wanted = {"0": [(0.0, "D")], "1": [(0.0, "U")]}
        if waves.get(name) != wanted:
            raise ToolError(f"STIL: {name} is not driven from the beginning of the period on")
    for letter, shape in waves.get("tdo", {}).items():
        if letter not in TDO or shape[0] != (0.0, "X") or shape[-1][1] != letter or not 0 < shape[-1][0] < rise:
            raise ToolError("STIL: tdo is not compared before tck rises")


def vector_of(one: Statement, group: str, waves: dict[str, dict[str, list[tuple[float, str]]]], times: int) -> Cycle:
    """A vector, which has a letter of its waveform for each pin."""
    inner = one.inner
    if one.words != ["V"] or len(inner) != 1 or inner[0].words[:2] != [group, "="] or len(inner[0].words) != 3:
        raise ToolError(f"STIL: {' '.join(one.words)} is no vector")
    values = inner[0].words[2]
    is_known = all(letter in waves[name] for letter, name in zip(values, PINS))
    if len(values) != len(PINS) or not is_known or values[0] != "P":
        raise ToolError(f"STIL: {values} is no value of the pins")
    return Cycle(int(values[1]), int(values[2]), int(values[3]), TDO[values[4]], times)


def read(text: str) -> list[Cycle]:
    """The cycles of the pattern that PatternExec runs."""
    whole, _ = statements(tokens(text))
    if not whole or whole[0].words != ["STIL", "1.0"]:
        raise ToolError("STIL: the text does not begin with STIL 1.0")
    signals = pairs(block_of(whole, "Signals"), "Signals")
    if list(signals) != PINS or [words[0] for words in signals.values()] != ["In"] * 4 + ["Out"]:
        raise ToolError(f"STIL: the signals are not {', '.join(PINS)}")
    groups = pairs(block_of(whole, "SignalGroups"), "SignalGroups")
    if list(groups.values()) != [["=", f"'{' + '.join(PINS)}'"]]:
        raise ToolError("STIL: the group is not all signals in their order")
    run = pairs(block_of(whole, "PatternExec"), "PatternExec")
    timing = block_of(whole, "Timing", *run.get("Timing", ["no timing"]))
    patterns = block_of(block_of(whole, "PatternBurst", *run.get("PatternBurst", ["no burst"])), "PatList")
    if len(patterns) != 1 or len(timing) != 1 or timing[0].words[:1] != ["WaveformTable"]:
        raise ToolError("STIL: the text needs one pattern and one table of waveforms")
    table = timing[0].words[1]
    waves = waves_of(timing[0].inner)
    check_waves(waves)
    found: list[Cycle] = []
    for place, one in enumerate(block_of(whole, "Pattern", patterns[0].words[0])):
        if (one.words == ["W", table]) != (place == 0):
            raise ToolError("STIL: the pattern does not begin with its table, or another one comes")
        if place and one.words[0] == "Loop":
            if len(one.words) != 2 or not re.fullmatch("[1-9][0-9]*", one.words[1]) or len(one.inner) != 1:
                raise ToolError(f"STIL: {' '.join(one.words)} is no loop of one vector")
            found.append(vector_of(one.inner[0], next(iter(groups)), waves, int(one.words[1])))
        elif place:
            found.append(vector_of(one, next(iter(groups)), waves, 1))
    return found
