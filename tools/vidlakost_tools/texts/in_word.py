"""Reports of `inword`: their reader, and their escapes as two bits of one word, background by background."""
from __future__ import annotations

import dataclasses
import re
from typing import Dict, Iterator, NoReturn, Union

from vidlakost_tools.program import ask
from vidlakost_tools.temporary import folder_of_its_own
from vidlakost_tools.text import Path, lines_of, read_text
from vidlakost_tools.texts.faults import Primitive, Sense, read_primitive
from vidlakost_tools.texts.march import Element, elements_of, length_of
from vidlakost_tools.texts.memory import Memory
from vidlakost_tools.texts.report import COUNT, COVERED, ITEM, SHAPE, TOTAL, classes_of
from vidlakost_tools.tool import ToolError

ESCAPE = re.compile(
    rf"escape {ITEM} aggressor (?P<aggressor>[0-9]{{1,2}}) victim (?P<victim>[0-9]{{1,2}}) content"
    r" (?P<content>[01]{2}) reading (?P<reading>before|behind|both)"
)
APART = re.compile(f"apart (?P<apart>{COUNT})")
# the line of a memory with one bit a word
UNPAIRED = re.compile(f"no two bits (?P<unpaired>{COUNT})")
# what two bits can hold, the aggressor's digit first
CONTENTS = ("00", "01", "10", "11")
# where a write of the word finds the state of a bit beside the act: as it was before the write, or as it leaves it
READINGS = ("before", "behind")
BOTH = "both"


@dataclasses.dataclass
class WordVerdict:
    """A line on a coupling. For an escape it has the reading in which it escapes, or `both`. It also has the numbers of
    two bits, and what they hold, the aggressor's digit first. In the first of its readings it escapes there."""

    primitive: str
    kind: str
    aggressor: int = 0
    victim: int = 0
    content: str = ""
    reading: str = READINGS[0]

    @property
    def covered(self) -> bool:
        return not self.content

    @property
    def first(self) -> str:
        """The reading in which the two bits of an escape pass."""
        return READINGS[0] if self.reading == BOTH else self.reading

    def escapes_in(self, reading: str) -> bool:
        return not self.covered and self.reading in (reading, BOTH)

    def as_object(self) -> dict[str, object]:
        made: dict[str, object] = {"primitive": self.primitive, "class": self.kind, "covered": self.covered}
        if not self.covered:
            made["escape"] = {
                "aggressor": self.aggressor,
                "victim": self.victim,
                "content": self.content,
                "reading": self.reading,
            }
        return made


Shape = Dict[str, Union[str, int]]


@dataclasses.dataclass
class InWordReport:
    """A report of `inword`."""

    march: str
    elements: list[Element]
    memory: Shape
    verdicts: list[WordVerdict]
    apart: int
    # how many couplings no word has two bits for
    unpaired: int = 0

    @property
    def escapes(self) -> list[WordVerdict]:
        return [verdict for verdict in self.verdicts if not verdict.covered]

    @property
    def classes(self) -> dict[str, tuple[int, int]]:
        return classes_of(self.verdicts)

    @property
    def total(self) -> tuple[int, int, int]:
        """How many couplings there are, how many are covered and how many escape."""
        escapes = len(self.escapes)
        return len(self.verdicts), len(self.verdicts) - escapes, escapes

    @property
    def by_reading(self) -> list[int]:
        """How many couplings each reading alone would call covered."""
        return [sum(not verdict.escapes_in(reading) for verdict in self.verdicts) for reading in READINGS]

    def as_object(self) -> dict[str, object]:
        """The report in the schema of `vidlakost report --json`."""
        classes = {kind: {"primitives": count, "covered": covered} for kind, (count, covered) in self.classes.items()}
        return {
            "schema": "vidlakost-inword-1",
            "march": self.march,
            "length": length_of(self.elements),
            "memory": self.memory,
            "verdicts": [verdict.as_object() for verdict in self.verdicts],
            "classes": classes,
            "apart": self.apart,
            "no_two_bits": self.unpaired,
            "total": dict(zip(("primitives", "covered", "escapes"), self.total)),
            "readings": dict(zip(READINGS, self.by_reading)),
        }


def is_in_word(path: Path) -> bool:
    """Whether a file has the line of a report of `inword` that no other report has."""
    return any(APART.fullmatch(line) for line in lines_of(read_text(path))[-3:-1])


def verdict_of(line: str, bits: int) -> WordVerdict | None:
    """The verdict of a line, or None if it is not one on two bits of such a word."""
    match = COVERED.fullmatch(line)
    if match:
        return WordVerdict(match["primitive"], match["kind"])
    match = ESCAPE.fullmatch(line)
    if match is None or match["aggressor"] == match["victim"]:
        return None
    aggressor, victim = int(match["aggressor"]), int(match["victim"])
    within = max(aggressor, victim) < bits and read_primitive(match["primitive"]).aggressor is not None
    made = WordVerdict(match["primitive"], match["kind"], aggressor, victim, match["content"], match["reading"])
    return made if within else None


def read_in_word(path: Path) -> InWordReport:
    """The report of a file, line by line. Any other text is refused, with the first wrong line."""
    lines = lines_of(read_text(path))

    def refuse(count: int, why: object) -> NoReturn:
        raise ToolError(f"{path}:{count}: {why}; this is no report of `inword`")

    if len(lines) < 4 or not re.fullmatch(r"march [{}();,a-z0-9]+", lines[0]):
        refuse(1, "the first line is no march, or others are missing")
    shape, total = SHAPE.fullmatch(lines[1]), TOTAL.fullmatch(lines[-1])
    if shape is None:
        refuse(2, "the second line is not the line of a memory")
    unpaired = UNPAIRED.fullmatch(lines[-2]) if shape["bits"] == "1" else None
    last = -2 if unpaired is None else -3
    apart = APART.fullmatch(lines[last])
    if apart is None or total is None or (unpaired is None) == (shape["bits"] == "1"):
        refuse(len(lines), "the last lines are not `apart` and the total")
    memory: Shape = {key: value if key == "name" else int(value) for key, value in shape.groupdict().items()}
    verdicts = []
    for count, line in enumerate(lines[2:last], 3):
        verdict = verdict_of(line, int(shape["bits"]))
        if verdict is None:
            refuse(count, "a report has no such line")
        verdicts.append(verdict)
    try:
        elements = elements_of(lines[0][len("march ") :])
    except ToolError as error:
        refuse(1, error)
    left = int(unpaired["unpaired"]) if unpaired else 0
    report = InWordReport(lines[0][len("march ") :], elements, memory, verdicts, int(apart["apart"]), left)
    if report.total != (int(total["count"]), int(total["covered"]), int(total["escapes"])):
        refuse(len(lines), "the total does not fit the lines above")
    return report


def judged_in_word(march: Path, memory: Path, faults: Path) -> InWordReport:
    """The report of `inword` on a march, a memory and a list."""
    with folder_of_its_own() as folder:
        path = folder / "report"
        ask("inword", march, memory, faults, path)
        return read_in_word(path)


# ---- an escape, step by step


@dataclasses.dataclass
class WordStep:
    """What an operation on the word (or a pause, or the state before the test) did to the two bits. `due` is what they
    should hold after it, and `answer` what a read shows. Each pair has the aggressor's digit first."""

    background: int | None
    element: int | None
    operation: str
    held: str
    due: str
    answer: str | None
    acts: bool

    @property
    def differs(self) -> bool:
        return self.answer is not None and self.answer != self.due


class Couple:
    """Two bits of one word with an instance of a coupling, by the definition. An operation on the word is one on both
    bits. The word is written first, and then the victim goes wrong. In the reading `behind` a write finds the bit that
    the primitive's operation isn't on as it leaves it."""

    def __init__(self, primitive: Primitive, content: str, reading: str = READINGS[0]):
        if primitive.aggressor is None:
            raise ToolError("a primitive of one cell is no coupling")
        self.primitive, self.aggressor = primitive, primitive.aggressor
        self.a, self.v = int(content[0]), int(content[1])
        self.is_behind = reading == READINGS[1]

    def shown(self) -> str:
        return f"{self.a}{self.v}"

    def finds(self, word: str | None) -> tuple[int, int]:
        """The two bits in which a write of these digits (None: a read, or no operation) finds the states."""
        if word is None or not self.is_behind:
            return self.a, self.v
        return (int(word[0]), self.v) if self.primitive.victim.operations else (self.a, int(word[1]))

    def holds(self, word: str | None = None) -> bool:
        return self.finds(word) == (self.aggressor.state, self.primitive.victim.state)

    def go_wrong(self) -> None:
        self.v = self.primitive.after

    def close(self) -> bool:
        """Whether a primitive without operations changes the victim now."""
        acts = not self.primitive.operations and self.holds() and self.v != self.primitive.after
        if acts:
            self.go_wrong()
        return acts

    def is_own(self, word: str | None) -> bool:
        """Whether a write of these digits (None: a read) is the operation of the primitive, at either bit."""
        return any(
            sense.operations == [f"r{held}" if word is None else f"w{word[place]}"]
            for place, (sense, held) in enumerate(self.by_bit())
        )

    def by_bit(self) -> tuple[tuple[Sense, int], tuple[Sense, int]]:
        return (self.aggressor, self.a), (self.primitive.victim, self.v)

    def operate(self, word: str | None) -> tuple[str | None, bool]:
        """Writes these digits (None: reads). Returns what a read shows, and whether the primitive acted."""
        acts = self.is_own(word) and self.holds(word)
        answer = self.shown() if word is None else None
        if word is not None:
            self.a, self.v = int(word[0]), int(word[1])
        if acts:
            self.go_wrong()
            if answer is not None and self.primitive.answer is not None:
                answer = f"{answer[0]}{self.primitive.answer}"
        return answer, self.close() or acts


def digits(word: int, aggressor: int, victim: int) -> str:
    """The two bits of a word, the aggressor's first."""
    return f"{word >> aggressor & 1}{word >> victim & 1}"


def steps_of(verdict: WordVerdict, elements: list[Element], memory: Memory) -> Iterator[WordStep]:
    """The steps of the test at the two bits of an escape, up to the first read that shows another pair."""
    couple = Couple(read_primitive(verdict.primitive), verdict.content, verdict.first)
    due = verdict.content
    acts = couple.close()
    yield WordStep(None, None, "", couple.shown(), due, None, acts)
    ones = (1 << memory.bits) - 1
    for background, zero in enumerate(memory.backgrounds):
        for count, element in enumerate(elements):
            if element.is_pause:
                acts = couple.close()
                yield WordStep(background, count, "del", couple.shown(), due, None, acts)
                continue
            for operation in element.operations:
                word = digits(zero ^ ones if operation[1] == "1" else zero, verdict.aggressor, verdict.victim)
                due = word
                answer, acts = couple.operate(word if operation[0] == "w" else None)
                step = WordStep(background, count, operation, couple.shown(), due, answer, acts)
                yield step
                if step.differs:
                    return


def shown(step: WordStep, memory: Memory) -> str:
    """A line of the table of steps."""
    place = "start"
    if step.background is not None:
        place = f"background {memory.digits(memory.backgrounds[step.background])} element {step.element}"
    word = step.due if step.operation[:1] in ("r", "w") else ""
    answer = "" if step.answer is None else f"reads {step.answer}"
    width = len("background  element 00") + len(memory.digits(0))
    return f"  {place:{width}} {step.operation:4} {word:2}  {step.held} {'*' if step.acts else ' '} {answer}".rstrip()


# ---- why it escapes


def place(step: WordStep, memory: Memory) -> str:
    if step.background is None or step.element is None:
        return "before the test"
    return f"in background {memory.digits(memory.backgrounds[step.background])}, element {step.element}"


def meets_alone(couple: Couple, steps: list[WordStep]) -> bool:
    """Whether the operation of a primitive comes at its bit in its state, whatever the other bit holds."""
    at = 0 if couple.aggressor.operations else 1
    sense = couple.by_bit()[at][0]
    for before, step in zip(steps, steps[1:]):
        done = f"r{before.held[at]}" if step.operation[:1] == "r" else f"w{step.due[at]}"
        if step.operation[:1] in "rw" and int(before.held[at]) == sense.state and sense.operations == [done]:
            return True
    return False


def why_never(verdict: WordVerdict, steps: list[WordStep]) -> str:
    """What the test lacks if a primitive never acts."""
    couple = Couple(read_primitive(verdict.primitive), verdict.content)
    if not couple.primitive.operations:
        return "its states never hold together"
    operation = couple.primitive.operations[0]
    own, other = (couple.aggressor, couple.primitive.victim)
    names = ("the aggressor", "the victim")
    if not own.operations:
        own, other, names = other, own, ("the victim", "the aggressor")
    if not meets_alone(couple, steps):
        return f"no {operation} comes at {names[0]} while it holds {own.state}"
    if verdict.first == READINGS[1] and operation[0] == "w":
        return f"{operation} never comes at {names[0]} where {names[1]} is written {other.state}"
    return f"{operation} never comes at {names[0]} while {names[1]} holds {other.state}"


def hidden(steps: list[WordStep], memory: Memory) -> list[str]:
    """Why no read shows that the primitive acts: each reason, with the place of the first time."""
    found: dict[str, str] = {}
    for count, step in enumerate(steps):
        if not step.acts:
            continue
        after = next((later for later in steps[count + 1 :] if later.operation[:1] in ("r", "w")), None)
        if step.held == step.due:
            why = "the same operation leaves the victim as it has to be"
        elif after is None:
            why = "the word is not visited again"
        else:
            why = (
                f"{after.operation} writes over it before a read"
                if after.operation[0] == "w"
                else "the read expects that"
            )
        found.setdefault(why, place(step, memory))
    return [f"acts {first}, and {why}" for why, first in found.items()]


def reason(verdict: WordVerdict, elements: list[Element], memory: Memory) -> tuple[str, list[WordStep]]:
    """Why an escape escapes, and its steps."""
    steps = list(steps_of(verdict, elements, memory))
    if steps[-1].differs:
        return f"is caught {place(steps[-1], memory)}, so it is no escape", steps
    found = hidden(steps, memory)
    return "; ".join(found) if found else f"never acts: {why_never(verdict, steps)}", steps
