"""WGL: signals, one timeplate, and one pattern of vectors."""
from __future__ import annotations

import re

from vidlakost_tools.tester_files.cycles import Cycle
from vidlakost_tools.tool import ToolError

LEXEME = re.compile(r"\s+|#[^\n]*|(?P<time>\d+(?:ps|ns|us|pS|nS|uS))|(?P<word>\w+)|(?P<mark>:=|[():;,\[\]])")
PINS = ["tck", "tms", "tdi", "trst_n", "tdo"]
SCALE = {"p": 1e-3, "n": 1.0, "u": 1e3}


class Reader:
    """The words of a text, one after another."""

    def __init__(self, text: str):
        self.found: list[str] = []
        at = 0
        while at < len(text):
            match = LEXEME.match(text, at)
            if match is None:
                raise ToolError(f"WGL: line {text.count(chr(10), 0, at) + 1}: {text[at]!r} begins no word")
            at = match.end()
            if match.lastgroup:
                self.found.append(match[0])
        self.at = 0

    @property
    def next(self) -> str:
        return self.found[self.at] if self.at < len(self.found) else "the end"

    def take(self, *wanted: str) -> None:
        for word in wanted:
            if self.next != word:
                raise ToolError(f"WGL: {word!r} is expected, but {self.next} comes")
            self.at += 1

    def word(self, form: str = r"[A-Za-z]\w*") -> str:
        if self.at >= len(self.found) or not re.fullmatch(form, self.next):
            raise ToolError(f"WGL: {self.next} is not allowed here")
        self.at += 1
        return self.found[self.at - 1]

    def time(self) -> float:
        text = self.word(r"\d+[pnu][sS]")
        return float(text[:-2]) * SCALE[text[-2]]


def signals(reader: Reader) -> dict[str, str]:
    """The signals with their directions."""
    found: dict[str, str] = {}
    reader.take("signal")
    while reader.next != "end":
        name = reader.word()
        reader.take(":")
        if name in found:
            raise ToolError(f"WGL: the signal {name} is there twice")
        found[name] = reader.word("input|output|bidir")
        reader.take(";")
    reader.take("end")
    return found


def events(reader: Reader, period: float) -> list[tuple[float, str]]:
    """The events of a signal in the timeplate, in their order within the period."""
    found = []
    reader.take("[")
    while True:
        at = reader.time()
        reader.take(":")
        found.append((at, reader.word("[A-Z]")))
        if reader.next == "]":
            break
        reader.take(",")
    reader.take("]", ";")
    times = [at for at, _ in found]
    if times != sorted(set(times)) or times[0] or times[-1] >= period:
        raise ToolError("WGL: the events of a signal are not in their order within the period")
    return found


def timeplate(reader: Reader, told: dict[str, str]) -> str:
    """The name of the timeplate, checked: TCK rises after all that it samples and after the comparison."""
    reader.take("timeplate")
    name = reader.word()
    reader.take("period")
    period, waves = reader.time(), {}
    while reader.next != "end":
        signal = reader.word()
        reader.take(":=")
        if reader.word("input|output") != told.get(signal) or signal in waves:
            raise ToolError(f"WGL: {signal} is no such signal, or is there twice")
        waves[signal] = events(reader, period)
    reader.take("end")
    clock = waves.get("tck", [])
    if [event for _, event in clock] != ["D", "S", "D"]:
        raise ToolError("WGL: tck is no pulse where its value is 1")
    if any(waves.get(pin) != [(0.0, "S")] for pin in PINS[1:4]):
        raise ToolError("WGL: an input is not driven from the beginning of the period on")
    compared = waves.get("tdo", [])
    strobes = [at for at, event in compared if event == "Q"]
    rise = clock[1][0]
    if compared[:1] != [(0.0, "X")] or len(strobes) != 1 or not 0 < strobes[0] < rise or compared[-1][0] > rise:
        raise ToolError("WGL: tdo is not compared before tck rises")
    return name


def vector(reader: Reader, plate: str) -> Cycle:
    """A vector with the values of the pins in their order."""
    times = 1
    if reader.next == "repeat":
        reader.take("repeat")
        times = int(reader.word("[1-9][0-9]*"))
    reader.take("vector", "(", plate, ")", ":=", "[", "1")
    tms, tdi, trst_n = (int(reader.word("[01]")) for _ in range(3))
    tdo = reader.word("[01X]")
    reader.take("]", ";")
    return Cycle(tms, tdi, trst_n, tdo, times)


def read(text: str) -> list[Cycle]:
    """The cycles of the pattern."""
    reader = Reader(text)
    reader.take("waveform")
    reader.word()
    told = signals(reader)
    if told != {**dict.fromkeys(PINS[:4], "input"), "tdo": "output"}:
        raise ToolError(f"WGL: the signals are not {', '.join(PINS)}")
    plate = timeplate(reader, told)
    reader.take("pattern")
    reader.word()
    reader.take("(")
    for place, name in enumerate(PINS):
        reader.take(*([","] if place else []), name)
    reader.take(")")
    found = []
    while reader.next != "end":
        found.append(vector(reader, plate))
    reader.take("end", "end")
    if reader.next != "the end":
        raise ToolError(f"WGL: {reader.next} comes after the waveform")
    return found
