"""The page's questions: their texts as files for the program, and the refusals of these."""
from __future__ import annotations

import contextlib
import os
import pathlib
import re
from typing import Any, Callable, Dict

from vidlakost_tools.refusals import explained as diagnose
from vidlakost_tools.temporary import folder_of_its_own
from vidlakost_tools.tool import Refused


# an object of JSON
Object = Dict[str, Any]
LONGEST_LINE = 400


class Wrong(Exception):
    """A question that the page doesn't ask."""


def text_in(question: Object, name: str) -> str:
    """A text of a question."""
    text = question.get(name)
    if not isinstance(text, str):
        raise Wrong(f"{name} has to be a text")
    try:
        text.encode("utf-8")
    except UnicodeEncodeError as error:
        raise Wrong(f"{name} has to be a Unicode text") from error
    return text


def shortened(line: str) -> str:
    return line if len(line) <= LONGEST_LINE else f"{line[: LONGEST_LINE // 2]}...{line[-LONGEST_LINE // 2 :]}"


class Folder:
    """A folder for one question, in which each text is a file with the name of its kind."""

    def __init__(self) -> None:
        self.held = contextlib.ExitStack()
        self.path = self.held.enter_context(folder_of_its_own())

    def __enter__(self) -> Folder:
        return self

    def __exit__(self, *ended: object) -> None:
        self.held.close()

    def put(self, name: str, text: str) -> pathlib.Path:
        path = self.path / name
        path.write_bytes(text.encode("utf-8"))
        return path

    def refusal(self, error: Refused) -> Object:
        """A refusal at its place, as the launcher explains it."""
        told = diagnose.lines(error.words, error.said, error.status)
        # a word may be as long as the text
        lines = [shortened(line.replace(f"{self.path}{os.sep}", "")) for line in told]
        found = re.match(r"(\w+)(?::(\d+):(\d+))?: (?:error|warning): (.*)", lines[0]) if lines else None
        made: Object = {"said": error.said, "status": error.status}
        if found is None:
            return {**made, "what": error.said.split(" ")[0], "message": error.said, "notes": lines}
        made.update(what=found[1], message=found[4], notes=[line.strip() for line in lines[1:]])
        if found[2]:
            made.update(
                line=int(found[2]),
                column=int(found[3]),
                shown=lines[1:3],
                notes=[line.strip() for line in lines[3:]],
            )
        return made


def refusable(answer: Callable[[Folder, Object], Object]) -> Callable[[Object], Object]:
    """The answer to a question with texts that the program may refuse."""

    def asked(question: Object) -> Object:
        with Folder() as folder:
            try:
                return answer(folder, question)
            except Refused as error:
                return {"refused": folder.refusal(error)}

    return asked
