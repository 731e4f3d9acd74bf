"""The explanation of a refusal: a place in a text, shown as a compiler shows it, and what is expected there. To find
that, it asks the program about the text up to that place, followed by each word of the grammar."""
from __future__ import annotations

import dataclasses
import difflib
import pathlib
import re
import subprocess
from typing import Mapping

from vidlakost_tools.program import quick_program
from vidlakost_tools.temporary import folder_of_its_own


@dataclasses.dataclass
class Finding:
    """A refusal of one text: the name of the text, its bytes, the byte in question (None: the whole text), what is
    wrong there, and further lines."""

    name: str
    text: bytes
    at: int | None
    message: str
    notes: list[str] = dataclasses.field(default_factory=list)

    def lines(self) -> list[str]:
        if self.at is None:
            return [f"{self.name}: error: {self.message}", *(f"  {note}" for note in self.notes)]
        row, column = place(self.text, self.at)
        return [
            f"{self.name}:{row}:{column}: error: {self.message}",
            *caret(self.text, self.at),
            *(f"  {note}" for note in self.notes),
        ]


def place(text: bytes, at: int) -> tuple[int, int]:
    """The line and the column of a byte, both from 1; columns count characters."""
    before = text[:at]
    return before.count(b"\n") + 1, len(before[before.rfind(b"\n") + 1 :].decode("utf-8", "replace")) + 1


def caret(text: bytes, at: int) -> list[str]:
    """The line of a byte, and under it a caret."""
    begin = text.rfind(b"\n", 0, at) + 1
    end = text.find(b"\n", at)
    line = text[begin : end if end >= 0 else len(text)].decode("utf-8", "replace").replace("\t", " ").rstrip("\r")
    column = place(text, at)[1] - 1
    start = max(0, column - 60)
    shown = "".join(letter if letter.isprintable() else "?" for letter in line[start : start + 100])
    return [f"  {shown}", f"  {' ' * (column - start)}^"]


def line_start(text: bytes, line: int) -> int:
    """The byte at which a line begins; lines count from 1."""
    return sum(len(part) + 1 for part in text.split(b"\n")[: line - 1])


def at_of(values: Mapping[str, str], text: bytes) -> int | None:
    """The byte that the values of a refusal name."""
    if "line" in values:
        return line_start(text, int(values["line"])) + int(values.get("byte", 0))
    return int(values["byte"]) if "byte" in values else None


def thousands(number: int | str) -> str:
    return f"{int(number):,}"


def listed(words: list[str], last: str = "or") -> str:
    """Words as a list in a sentence."""
    return words[0] if len(words) == 1 else f"{', '.join(words[:-1])} {last} {words[-1]}"


def close_to(word: str, names: list[str]) -> str | None:
    """The name that was probably meant."""
    folded: dict[str, str] = {}
    for name in names:
        folded.setdefault(name.lower(), name)
    if word.lower() in folded:
        return folded[word.lower()]
    found = difflib.get_close_matches(word.lower(), list(folded), 1, 0.6)
    return folded[found[0]] if found else None


# ---- what is expected there

CLASSES = "SF TF WDF RDF DRDF IRF CFst CFds CFtr CFwd CFrd CFdr CFir DRF".split()
GROUPS = "one two all dyn1 dyn2".split()
TOKENS = {
    "march": "{ } ( ) , ; up down any del w0 w1 r0 r1".split(),
    "memory": [
        "memory 1",
        "name",
        "words",
        "bits",
        "latency",
        "polarity",
        "pause",
        "scramble",
        "backgrounds",
        "log",
        "a0",
        "p0",
        "x",
        "1",
        "^",
        "=",
        "\n",
    ],
    "list": [*CLASSES, *GROUPS, "<", "#", "\n"],
    "primitive": "0 1 w0 w1 r0 r1 t ; / - >".split(),
    "chip": ["chip 1", "name", "budget", "unit", "1", "x", "#", "\n"],
    "verilog": [
        "module",
        "input",
        "output",
        "wire",
        "reg",
        "assign",
        "always",
        "begin",
        "end",
        "if",
        "else",
        "case",
        "default",
        "endcase",
        "endmodule",
        "posedge",
        *"( ) { } [ ] , ; : ? = <= @ ~ ! & | ^ + - == != < > >= && || << >>".split(),
        "x",
        "1'h0",
        "0",
    ],
}
# how to show a token that stands for many
SHOWN = {
    "memory": {
        "\n": "the end of the line",
        "1": "a number",
        "a0": "a row as a0",
        "p0": "an index bit as p0",
        "x": "a name",
    },
    "chip": {"\n": "the end of the line", "#": "a comment (#)", "1": "a number", "x": "a name"},
    "list": {"\n": "the end of the line", "#": "a comment (#)", "<": "a primitive (<)"},
    "verilog": {"x": "a name", "1'h0": "a literal with its size as 1'h0", "0": "a number"},
}


# the longest text, in bytes, for which it says what is expected. This is no time limit, so the answer for a text is the
# same on every machine, however busy it is.
LONGEST = 65536


class Trier:
    """Asks a program about texts. Without a program that answers at once it finds nothing."""

    # the command that reads a module as the call does
    reader = "benchfile"

    def __init__(self, kind: str, is_word: bool = False):
        self.kind, self.is_word = kind, is_word
        self.program = quick_program()

    def refusal(self, folder: pathlib.Path, text: bytes) -> str:
        """The program's line for a text. For an accepted text it is the printed form, or `absent`, since the next file
        is missing."""
        file, march, missing = folder / "text", folder / "march", folder / "missing"
        file.write_bytes(text)
        march.write_text("any(w0)")
        if self.is_word:
            # in the file of a list the end of its line would follow the primitive
            words = ["sim", march, text.decode("utf-8", "replace"), "2", "00", "none", "0", "u"]
        else:
            words = [self.reader, file, missing, march] if self.kind == "verilog" else ["show", self.kind, file]
        done = subprocess.run(
            [str(self.program), *map(str, words)],
            stdin=subprocess.DEVNULL,
            stdout=subprocess.PIPE,
            env={"VIDLAKOST_EXPLAIN": "0", "PATH": "/usr/bin:/bin"},
            check=False,
        )
        return done.stdout.decode("utf-8", "replace").strip()

    def fits(self, folder: pathlib.Path, text: bytes) -> bool:
        """Whether the program reads a text up to its end, without a refusal before that."""
        if self.is_word and b"\0" in text:
            return False
        match = re.fullmatch(r"\w+ [MFDLC]1(?: line (?P<line>\d+))? byte (?P<byte>\d+)", self.refusal(folder, text))
        if match is None:
            return True
        at = at_of({key: value for key, value in match.groupdict().items() if value}, text)
        return at is None or at >= len(text)

    def whole_before(self, folder: pathlib.Path, text: bytes, at: int) -> bool:
        """Whether a word that ends at a byte is complete. Then what follows it is to blame, not the word."""
        ends = at > 0 and is_letter(text[at - 1 : at]) and not is_letter(text[at : at + 1])
        return ends and self.fits(folder, text[:at] + b" ")

    def fitting(self, text: bytes, at: int) -> tuple[list[str], bool]:
        """The tokens that can follow at a byte, or at the beginning of the word that has the byte; and whether the word
        before the byte is complete."""
        if self.program is None or len(text) > LONGEST:
            return [], False
        begin = max(text.rfind(b"\n", 0, at), text.rfind(b">", 0, at))
        in_primitive = self.is_word or self.kind == "list" and text.rfind(b"<", 0, at) > begin
        kind = "primitive" if in_primitive else self.kind
        with folder_of_its_own() as folder:
            whole = not in_primitive and self.whole_before(folder, text, at)
            if in_primitive:
                before = text[: at - 1 if text[at - 1 : at] in (b"w", b"r") else at]
            else:
                before = text[:at] + b" " if whole else text[: word_start(text, at)]
            # the grammar allows a second line of the version; the program refuses it later
            tokens = [token for token in TOKENS[kind] if token not in ("memory 1", "chip 1") or not before.strip()]
            found = [
                token
                for token in tokens
                if self.fits(folder, before + token.encode() + (b" " if is_letter(token[-1:].encode()) else b""))
            ]
        # a background is a word of hexadecimal digits, as a0 or 1
        if kind == "memory" and {"a0", "1"} <= set(found):
            found = [token for token in found if token not in ("a0", "1")] + ["a hexadecimal word"]
        # where any name may come, it does not list the words that could be one
        return ["x"] if kind == "memory" and "x" in found else found, whole


def is_letter(byte: bytes) -> bool:
    return re.fullmatch(rb"[\w$]", byte) is not None


def word_start(text: bytes, at: int) -> int:
    """The beginning of the word that has this byte, or that ends right before it."""
    while at and is_letter(text[at - 1 : at]):
        at -= 1
    return at


def character_start(text: bytes, at: int) -> int:
    """The beginning of the character of UTF-8 that has this byte; the byte itself where it is in none."""
    for start in range(at, max(at - 4, -1), -1):
        if not 0x80 <= text[start] < 0xC0:
            end = start + 1
            while end < len(text) and end < start + 4 and 0x80 <= text[end] < 0xC0:
                end += 1
            try:
                text[start:end].decode("utf-8")
            except UnicodeDecodeError:
                return at
            return start if at < end else at
    return at


def word_at(text: bytes, at: int, behind: bool = False) -> str:
    """The word or the mark at a byte. With `behind` it is what begins there, not the word that ends there."""
    start = at if behind else word_start(text, at)
    match = re.compile(rb"[\w$]+|[\xc0-\xff][\x80-\xbf]*|[^\n]").match(text, start)
    return match[0].decode("utf-8", "replace") if match else ""


def could_stand(kind: str, text: bytes, at: int, is_word: bool = False) -> tuple[list[str], list[str], bool]:
    """The tokens that can come at a byte, the note that lists them, and whether the word before it is complete."""
    found, whole = Trier(kind, is_word).fitting(text, at)
    shown = list(dict.fromkeys(SHOWN.get(kind, {}).get(token, token) for token in found))
    return found, [f"expected here: {listed(shown)}"] if shown else [], whole
