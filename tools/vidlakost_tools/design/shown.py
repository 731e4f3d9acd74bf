"""What the user sees of a search: its progress and its answer."""
from __future__ import annotations

from typing import Iterator, Optional, TextIO

from vidlakost_tools.design.answers import Answers, Said
from vidlakost_tools.design.parts import Parts, elements_from, length, text_of
from vidlakost_tools.design.progress import Progress
from vidlakost_tools.design.wishes import Clock
from vidlakost_tools.texts.march import Element, length_of
from vidlakost_tools.tool import tell

CLEAR = "\r\033[K"


class Shown(Progress):
    """The best march so far, the lower bound and the time. On a terminal it is one line that is overwritten."""

    def __init__(self, out: Optional[TextIO], clock: Optional[Clock]):
        self.out, self.clock = out, clock
        self.best, self.least, self.doing = "", 0, ""
        self.last = 0.0
        self.is_terminal = out is not None and out.isatty()

    def better(self, parts: Parts) -> None:
        elements = elements_from(parts)
        self.best = length_of(elements) + (f", {time_of(elements, self.clock)}" if self.clock else "")
        self.clear()
        tell(f"design: {self.best} after {self.seconds():.1f} s: {text_of(parts)}")

    def bounded(self, operations: int) -> None:
        self.least = operations
        self.at(f"{operations}n")

    def at(self, text: str) -> None:
        self.doing = text
        if self.is_terminal and self.seconds() - self.last > 0.1:
            self.last = self.seconds()
            self.write(f"{CLEAR}design: best {self.best or 'none'}, at least {self.least}n, {self.last:.0f} s ({text})")

    def clear(self) -> None:
        if self.is_terminal:
            self.write(CLEAR)

    def end(self) -> None:
        self.clear()
        if self.least:
            tell(f"design: at least {self.least}n after {self.seconds():.1f} s")

    def write(self, text: str) -> None:
        if self.out is not None:
            self.out.write(text)
            self.out.flush()


def time_of(elements: list[Element], clock: Clock) -> str:
    return f"{clock.memory.cycles(elements) / clock.mhz / 1000:.3f} ms at {clock.mhz:g} MHz"


def length_told(answers: Answers) -> str:
    """The length, and how sure it is that there is no shorter march."""
    finder = answers.finder
    told = f"length {length_of(answers.elements)}"
    if finder.wish.behind:
        operations = sum(len(element.operations) for element in answers.elements)
        told += f", {operations - finder.given} more than {answers.words.behind}"
    if finder.best is None:
        return f"{told}: the search found no march that covers all of this"
    if finder.is_shortest:
        return f"{told}, shortest: a search of all shorter ones finds none"
    if answers.filed is not None and answers.filed.least > finder.least:
        least, by = answers.filed.least, f"as {answers.filed.shown_by} shows (examples/shortest)"
        if length(finder.best) == least:
            return f"{told}, shortest: none is shorter, {by}"
        return f"{told}, shortest found: at least {least}n are needed, {by}"
    # every march has an operation
    known = f": at least {finder.given + finder.least}n are needed" if finder.least > 1 else ""
    return f"{told}, shortest found{known}"


def why(answers: Answers, said: Said, name: str) -> str:
    """Why the march does not cover something."""
    if said.backgrounds:
        most = answers.words.backgrounds
        return f"no list of at most {most} background{'s' if most > 1 else ''} was found that covers it"
    if said.command == "inword":
        is_found = answers.finder.best is not None
        return (
            "March SS does not cover it inside such a word"
            if is_found
            else "the search found no march that covers it there too"
        )
    if name.split(" ")[0] in answers.beyond:
        most = answers.words.limits.operations
        return f"no march whose elements have at most {most} operation{'s' if most > 1 else ''} covers it"
    return "the search found no march that covers it too"


def told(answers: Answers) -> Iterator[str]:
    """The answer, line by line."""
    yield answers.march
    yield length_told(answers)
    for said in answers.said:
        yield f"{said.command} {said.line}"
    if answers.clock:
        cycles = answers.clock.memory.cycles(answers.elements)
        yield f"time {time_of(answers.elements, answers.clock)}, {cycles:,} cycles of {answers.clock.memory.name}"
    for said in answers.said:
        # if the call asks for other backgrounds, the escapes with the memory's own are only counted
        is_counted = said.command == "inword" and answers.words.backgrounds and not said.backgrounds
        for name in [] if is_counted else said.escapes:
            yield f"{'inside a word ' if said.command == 'inword' else ''}{name}: {why(answers, said, name)}"
