"""What the program says about the march that the search found."""
from __future__ import annotations

import dataclasses
from typing import List, Optional

from vidlakost_tools.design import backgrounds
from vidlakost_tools.design.finder import Finder
from vidlakost_tools.design.parts import Part, elements_from, text_of
from vidlakost_tools.design.table import Entry, bound_of
from vidlakost_tools.design.wishes import Clock, Words, names_of
from vidlakost_tools.program import with_text
from vidlakost_tools.text import read_described
from vidlakost_tools.texts.decoder import decoded
from vidlakost_tools.texts.in_word import judged_in_word
from vidlakost_tools.texts.linked import linked
from vidlakost_tools.texts.march import Element
from vidlakost_tools.texts.memory import read_memory, with_backgrounds
from vidlakost_tools.texts.report import judged
from vidlakost_tools.tool import telling


@dataclasses.dataclass
class Said:
    """What a command says about the march: its name, its counts, and what escapes."""

    command: str
    total: int
    escapes: List[str]
    # the backgrounds that the search found for the memory, if it does not use its own
    backgrounds: str = ""

    @property
    def line(self) -> str:
        """The line as the command says it."""
        told = f"total {self.total} covered {self.total - len(self.escapes)} escapes {len(self.escapes)}"
        return f"{told} with `backgrounds {self.backgrounds}`" if self.backgrounds else told


@dataclasses.dataclass
class Answers:
    """The march, the words of the call, and what the program says about the march."""

    march: str
    elements: List[Element]
    words: Words
    finder: Finder
    beyond: List[str]
    said: List[Said]
    # a line of the file with the shortest marches whose bound holds for this list
    filed: Optional[Entry] = None

    @property
    def clock(self) -> Optional[Clock]:
        return self.words.clock

    @property
    def is_whole(self) -> bool:
        """Whether the march covers everything that the call asks for. Inside a word the call asks only for what March
        SS covers."""
        inside = self.finder.best is not None
        return not any(it.escapes for it in self.said if it.command != "inword" or not inside)

    @classmethod
    def of(cls, words: Words, finder: Finder, beyond: List[str]) -> "Answers":
        parts = finder.best or finder.nearest or finder.wish.behind or [Part("any", ("w0",))]
        march = text_of(parts)
        said = [with_text(march, lambda path: said_of(command, path, words)) for command in commands(words)]
        elements = elements_from(parts)
        if words.backgrounds:
            said.append(with_text(march, lambda path: with_found(path, elements, words)))
        return cls(march, elements, words, finder, beyond, said, filed(words))


def filed(words: Words) -> Optional[Entry]:
    """The bound that another program showed for this list, or for a part of it. It is of whole marches."""
    if words.behind is not None:
        return None
    beside = {name for name, is_asked in (("decoder", words.decoder), ("linked", words.linked)) if is_asked}
    return bound_of(set(names_of(words.faults)), beside)


def commands(words: Words) -> List[str]:
    asked = {"judge": True, "decoder": words.decoder, "linked": words.linked, "inword": words.in_word is not None}
    return [command for command, is_asked in asked.items() if is_asked]


def said_of(command: str, march: object, words: Words) -> Said:
    """What a command says about the march in a file."""
    path = str(march)
    if command == "judge":
        verdicts = [(f"{it.primitive} {it.kind}", it.covered) for it in judged(path, words.faults).verdicts]
    elif command == "decoder":
        verdicts = [(f"{it.name} {it.kind}", it.covered) for it in decoded(path).verdicts]
    elif command == "linked":
        verdicts = [(it.primitive, it.covered) for it in linked(path).verdicts]
    else:
        return said_inside(path, str(words.in_word), words.faults)
    return Said(command, len(verdicts), [name for name, covered in verdicts if not covered])


def said_inside(march: str, memory: str, faults: str, backgrounds: str = "") -> Said:
    """What `inword` says about the march in a file."""
    verdicts = judged_in_word(march, memory, faults).verdicts
    return Said(
        "inword", len(verdicts), [f"{it.primitive} {it.kind}" for it in verdicts if not it.covered], backgrounds
    )


def with_found(march: object, elements: List[Element], words: Words) -> Said:
    """What `inword` says about the march with the backgrounds that the search finds for it."""
    path, memory = str(words.in_word), read_memory(str(words.in_word))
    names = list(dict.fromkeys(it.primitive for it in judged_in_word(str(march), path, words.faults).verdicts))
    with telling("looking for backgrounds"):
        listed = backgrounds.found(elements, names, memory, words.backgrounds)
    text = with_backgrounds(read_described(path), memory, listed)
    digits = " ".join(map(memory.digits, listed))
    return with_text(text, lambda other: said_inside(str(march), str(other), words.faults, digits))
