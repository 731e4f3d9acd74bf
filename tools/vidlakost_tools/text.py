"""Texts as the program reads them: bytes, lines that end with a line feed alone, and words before a comment."""
from __future__ import annotations

import errno
import os
import pathlib
import re
import string
from typing import Iterator, Union

# the name of a file
Path = Union[str, "os.PathLike[str]"]


# the most bytes that a tool reads: of an input, as the program does; of sources and models; and of a text that Yosys
# reads, that a tool reads line by line, or that tools wrote
INPUT_BYTES, SOURCE_BYTES, LARGE_BYTES = 1 << 20, 1 << 24, 1 << 26


def read_bytes(path: Path, most: int = INPUT_BYTES) -> bytes:
    """The bytes of a file. `start` reports one that is longer or never ends, a folder and a missing file."""
    with open(path, "rb") as file:
        content = file.read(most + 1)
    if len(content) > most:
        raise OSError(errno.EFBIG, f"it has more than {most:,} bytes, the most that is read", str(path))
    return content


def read_text(path: Path, most: int = INPUT_BYTES) -> str:
    """A file's text, byte for byte: a carriage return in it stays one. `start` reports bytes that are not UTF-8."""
    return read_bytes(path, most).decode("utf-8")


def read_described(path: Path, most: int = INPUT_BYTES) -> str:
    """The same for a text whose comments may hold any bytes, as those of memories and chips."""
    return read_bytes(path, most).decode("utf-8", "replace")


def stream(path: Path, most: int) -> Iterator[str]:
    """The lines of a long text one by one, with their line feeds. A line is at most as long as an input."""
    left = most
    with open(path, "rb") as file:
        while True:
            line = file.readline(INPUT_BYTES + 1)
            left -= len(line)
            if left < 0 or len(line) > INPUT_BYTES:
                told = f"{most:,} bytes, or a line of more than {INPUT_BYTES:,}"
                raise OSError(errno.EFBIG, f"it has more than {told}, the most that is read", str(path))
            if not line:
                return
            yield line.decode("utf-8")


def lines_of(text: str) -> list[str]:
    """The lines of a text, as the program counts them: a line feed ends one, and nothing else does."""
    lines = text.split("\n")
    return lines[:-1] if lines[-1] == "" else lines


# what separates words: a space, a tab or a carriage return
BLANKS = " \t\r"


def words_in(line: str) -> list[str]:
    """The words of a line before its comment."""
    return [word for word in re.split("[ \t\r]+", line.split("#")[0]) if word]


def statements(text: str) -> list[tuple[int, str, str]]:
    """For each line of a description that is not empty: its number, its first word and the rest."""
    found = []
    for count, line in enumerate(lines_of(text), 1):
        words = words_in(line)
        if words:
            found.append((count, words[0], " ".join(words[1:])))
    return found


# how much of a text a message quotes, and how long a line of a message is
QUOTED, LONGEST = 200, 500


def shown(text: str) -> str:
    """A text in quotes, shortened at its end if it is long. Characters that a terminal would obey become visible."""
    return "'" + visible(text[:QUOTED]) + ("'.." if len(text) > QUOTED else "'")


def visible(text: str) -> str:
    """A text in which each character that a terminal would obey is replaced by its number."""
    return "".join(letter if letter.isprintable() else f"\\x{ord(letter):02x}" for letter in text)


def cut(line: str) -> str:
    """A line of a message; a long one is shortened in its middle."""
    return line if len(line) <= LONGEST else f"{line[: LONGEST - 100]} .. {line[-90:]}"


def harmless(text: str) -> str:
    """The lines of an answer, with nothing that a terminal would obey. Bytes that are not UTF-8, as in the name of a
    folder, stay as they came."""
    if text.replace("\n", "").replace("\t", "").isprintable():
        return text
    return "".join(letter if letter in "\n\t" or "\udc80" <= letter <= "\udcff" else visible(letter) for letter in text)


class Template(string.Template):
    """A text with `@@{NAME}` for each part to fill in. A `$` or a brace belongs to the text."""

    delimiter = "@@"


def beside(module: str, name: str) -> str:
    """A text from the folder `templates` beside a module."""
    return (pathlib.Path(module).resolve().parent / "templates" / name).read_text(encoding="utf-8")


def template(module: str, name: str) -> Template:
    """The same, to be filled in."""
    return Template(beside(module, name))
