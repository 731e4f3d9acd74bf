"""PDL (IEEE 1687), level 0: procedures on the registers of a module."""
from __future__ import annotations

import dataclasses
import re
from typing import Dict, List, Sequence, Tuple

from vidlakost_tools.tool import ToolError

LEXEME = re.compile(r'[ \t]+|#[^\n]*|(?P<text>"[^"\n]*")|(?P<end>[;\n])|(?P<mark>[{}])|(?P<word>[^\s{};"]+)')
NUMBER = re.compile(r"0b([01_]+)|0x([0-9a-fA-F_]+)|([0-9]+)")
# a word that a call gives
ARGUMENT = r"\$[A-Za-z]\w*"
# for each command, the forms of its words
COMMANDS: Dict[str, List[str]] = {
    "iWrite": [r"[A-Za-z][\w.]*", f"0b[01_]+|0x[0-9a-fA-F_]+|[0-9]+|{ARGUMENT}"],
    "iRead": [r"[A-Za-z][\w.]*", f"({NUMBER.pattern}|{ARGUMENT})?"],
    "iApply": [],
    "iRunLoop": ["[1-9][0-9]*", "-tck"],
    "iNote": ["-(comment|status)", '".*"'],
}


@dataclasses.dataclass(frozen=True)
class Command:
    name: str
    words: Tuple[str, ...]

    @property
    def value(self) -> int | None:
        """The number of a write or a read, if it has one."""
        match = NUMBER.fullmatch(self.words[1]) if len(self.words) > 1 else None
        if match is None:
            return None
        digits = next(group for group in match.groups() if group is not None).replace("_", "")
        return int(digits, {"0b": 2, "0x": 16}.get(self.words[1][:2], 10))


@dataclasses.dataclass
class Procedure:
    """The names of the words that a call gives, and the commands."""

    arguments: List[str]
    commands: List[Command] = dataclasses.field(default_factory=list)

    def take(self, command: Command) -> None:
        """Takes a command, which may name only words that a call gives."""
        unknown = [word for word in command.words if re.fullmatch(ARGUMENT, word) and word[1:] not in self.arguments]
        if unknown:
            raise ToolError(f"PDL: {unknown[0]} is no argument of the procedure")
        self.commands.append(command)

    def given(self, words: Sequence[str]) -> List[Command]:
        """The commands of a call with these words, which have to be numbers."""
        if len(words) != len(self.arguments) or not all(map(NUMBER.fullmatch, words)):
            raise ToolError(f"PDL: a call gives numbers for {', '.join(self.arguments) or 'nothing'}, and not {words}")
        values = {f"${name}": word for name, word in zip(self.arguments, words)}
        return [Command(one.name, tuple(values.get(word, word) for word in one.words)) for one in self.commands]


# for each module, its procedures by name
Procedures = Dict[str, Dict[str, Procedure]]


def tokens(text: str) -> list[str]:
    found, at = [], 0
    while at < len(text):
        match = LEXEME.match(text, at)
        if match is None:
            raise ToolError(f"PDL: line {text.count(chr(10), 0, at) + 1}: {text[at]!r} begins no word")
        at = match.end()
        if match.lastgroup:
            found.append(";" if match.lastgroup == "end" else match[0])
    return found


def commands(text: str) -> list[list[str]]:
    """The words of each command; a brace is a word of its own."""
    found: list[list[str]] = []
    words: list[str] = []
    for token in tokens(text):
        if token == ";":
            found += [words] if words else []
            words = []
        else:
            words.append(token)
    if words:
        raise ToolError("PDL: the text ends within a command")
    return found


def command_of(words: list[str]) -> Command:
    """A command, checked by the forms of its words."""
    name, *rest = words
    forms = COMMANDS.get(name)
    if forms is None:
        raise ToolError(f"PDL: {name} is no command of level 0")
    padded = rest + [""] * (len(forms) - len(rest))
    if len(rest) > len(forms) or not all(re.fullmatch(form, word) for form, word in zip(forms, padded)):
        raise ToolError(f"PDL: {' '.join(words)} is not as {name} is written")
    return Command(name, tuple(rest))


def is_head(words: Sequence[str]) -> bool:
    """Whether these words stand between the name of a procedure and its commands: the names of its arguments in
    braces, no two alike."""
    if len(words) < 3 or (words[0], *words[-2:]) != ("{", "}", "{"):
        return False
    names = words[1:-2]
    return len(set(names)) == len(names) and all(re.fullmatch(r"[A-Za-z]\w*", name) for name in names)


def read(text: str) -> Procedures:
    """The procedures of a text."""
    found: Procedures = {}
    given = commands(text)
    if not given or given[0] != ["iPDLLevel", "0", "-version", "STD_1687_2014"]:
        raise ToolError("PDL: the text does not begin with iPDLLevel 0 -version STD_1687_2014")
    module, proc = "", None  # type: str, Procedure | None
    for words in given[1:]:
        if proc is not None:
            if words == ["}"]:
                proc = None
            else:
                proc.take(command_of(words))
        elif words[0] == "iProcsForModule" and len(words) == 2:
            module = words[1]
            if module in found:
                raise ToolError(f"PDL: the procedures of {module} are there twice")
            found[module] = {}
        elif words[0] == "iProc" and is_head(words[2:]) and module and words[1] not in found[module]:
            proc = found[module].setdefault(words[1], Procedure(words[3:-2]))
        else:
            raise ToolError(f"PDL: {' '.join(words)} is not allowed here")
    if proc is not None:
        raise ToolError("PDL: a procedure has no end")
    return found
