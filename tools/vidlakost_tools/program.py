"""Which program answers, its commands by tools/commands.txt and docs/FORMATS.md, and calls of it."""
from __future__ import annotations

import dataclasses
import os
import pathlib
import re
import subprocess
from typing import Callable, TypeVar

from vidlakost_tools import bounded
from vidlakost_tools.temporary import folder_of_its_own
from vidlakost_tools.text import LARGE_BYTES, Path, lines_of, read_described, read_text
from vidlakost_tools.tool import Refused, ToolError

ROOT = pathlib.Path(__file__).resolve().parent.parent.parent
# the line in RELEASE if the program of a release is not known to be proved
UNPROVED = "\nunproved"


def as_file(name: str) -> str:
    """The name of a program as a path, so that it is not looked for elsewhere."""
    return name if "/" in name else os.path.join(os.curdir, name)


PROGRAM = as_file(os.environ.get("VIDLAKOST") or str(ROOT / "vidlakost"))
FORMATS = ROOT / "docs" / "FORMATS.md"
COMMANDS = ROOT / "tools" / "commands.txt"
Answer = TypeVar("Answer")
# how long a call may take; None is without a bound
SECONDS: float | None = None


@dataclasses.dataclass
class Command:
    """A command of the program: its words, which of them name files and which of these it writes, and what it is for.

    The example and what it does come from FORMATS.
    """

    form: list[str]
    files: list[int]
    written: list[int]
    purpose: str
    example: str = ""
    does: str = ""

    @property
    def name(self) -> str:
        return self.form[0]


def command_of(line: str) -> Command:
    """The command of a line of the table: `NAME <READ >WRITTEN SAID | PURPOSE`."""
    words, purpose = line.split(" | ", 1)
    form = words.split()
    files = [place for place, word in enumerate(form) if word[0] in "<>"]
    written = [place for place in files if form[place][0] == ">"]
    return Command([word.lstrip("<>") for word in form], files, written, purpose)


def command_table() -> list[Command]:
    """The commands, in the order of the table."""
    return [command_of(line) for line in lines_of(read_text(COMMANDS)) if not line.startswith("#")]


def commands() -> list[Command]:
    """The commands, each with its example and its text in FORMATS."""
    sections = re.findall(
        r"^## The command `(\w+)`\n\n```\n[^\n]*\n([^\n]*)\n```\n\n(.*?)(?=^## )",
        read_text(FORMATS),
        re.MULTILINE | re.DOTALL,
    )
    told = {name: (example, does.strip()) for name, example, does in sections}
    known = command_table()
    for command in known:
        command.example, command.does = told.get(command.name, ("", ""))
    return known


def form_of(name: str) -> list[str]:
    """The words of a command; none where there is no such command."""
    return next((command.form for command in command_table() if command.name == name), [])


def written(name: str) -> list[int]:
    """The places of the words that a command writes."""
    return next((command.written for command in command_table() if command.name == name), [])


def version() -> tuple[str, str, str]:
    """The version, the date and the commit of this checkout, or of the release that this is."""
    release = ROOT / "RELEASE"
    if release.is_file():
        found = re.match(r"vidlakost (\S+)\ncommit (\S+), (\S+)\n", read_described(release))
        if found is None:
            raise ToolError(f"{release} is not as a release has it: its first lines say no version and no commit", 125)
        return found[1], found[3], found[2]
    said = of_git("log", "-1", "--format=%cs %h").split()
    date, commit = said if len(said) == 2 else ("0000-00-00", "none")
    plain = tagged(of_git("describe", "--tags", "--long", "--match", "v[0-9]*")) or f"{date.replace('-', '.')}-{commit}"
    return f"{plain}{'-changed' if of_git('status', '--porcelain') else ''}", date, commit


def of_git(*words: str) -> str:
    """What git says of this checkout; an empty text without one."""
    call = ["git", "-C", str(ROOT), *words]
    done = subprocess.run(call, stdout=subprocess.PIPE, stderr=subprocess.DEVNULL, text=True, check=False)
    return done.stdout.strip()


def tagged(described: str) -> str:
    """The version by the newest tag below, from `git describe --long`: v1.2 itself is 1.2, and 1.2+3.gabc0123 is three
    commits further."""
    found = re.fullmatch(r"v(.+)-(\d+)-(g[0-9a-f]+)", described)
    if not found:
        return ""
    return found[1] if found[2] == "0" else f"{found[1]}+{found[2]}.{found[3]}"


def quick_program() -> str | None:
    """A program that answers in milliseconds: the one that the environment names, or the proved one that the launcher
    takes."""
    named = as_file(os.environ.get("VIDLAKOST_PROGRAM") or os.environ.get("VIDLAKOST") or PROGRAM)
    launcher = ROOT / "vidlakost"
    if not (os.path.exists(named) and os.path.samefile(named, launcher)):
        return named
    done = subprocess.run(
        [launcher, "--program"], stdout=subprocess.PIPE, stderr=subprocess.DEVNULL, text=True, check=False
    )
    return done.stdout.strip() or None


def settle(seconds: float) -> str | None:
    """For a tool with many calls. It looks up once which program answers at once; without one (None) the launcher gives
    unproved answers. From then on calls go without the launcher, and each has a time limit."""
    global PROGRAM, SECONDS
    quick = quick_program()
    if quick:
        PROGRAM = os.environ["VIDLAKOST_PROGRAM"] = quick
        SECONDS = seconds
    return quick


def sum_of_sources() -> str:
    """The sum of the proved sources, as the launcher computes it."""
    done = subprocess.run(
        [ROOT / "vidlakost", "--sources"], stdout=subprocess.PIPE, stderr=subprocess.DEVNULL, text=True, check=False
    )
    return done.stdout.strip()


def proof_of(program: Path) -> str | None:
    """The line of the kit that proved a program from the present sources. The file `kit` beside the program has it,
    which its proof left. None if nothing says so."""
    import hashlib

    path = pathlib.Path(program)
    kept = path.with_name("kit")
    told = lines_of(read_described(kept)) if kept.is_file() and path.is_file() else []
    if (
        len(told) != 3
        or told[0] != hashlib.sha256(path.read_bytes()).hexdigest()
        or told[2] != f"sources {sum_of_sources()}"
    ):
        return None
    return told[1]


def is_proved(program: str | None, named: bool) -> bool:
    """Whether a program is known to be proved. The launcher takes no other by itself. A named program is proved if its
    proof left the file `kit` beside it, or if it belongs to a release."""
    release = ROOT / "RELEASE"
    own = ROOT / "libexec" / "vidlakost"
    if release.is_file() and (not named or program is not None and pathlib.Path(program).resolve() == own.resolve()):
        return program is not None and UNPROVED not in read_described(release)
    return program is not None if not named else proof_of(program or "") is not None


def run(*words: object) -> tuple[int, str]:
    """The program's status and its line for these words."""
    quiet = {**os.environ, "VIDLAKOST_EXPLAIN": "0"}
    # a tool says once that answers are unproved
    os.environ.setdefault("VIDLAKOST_UNPROVED", "told")
    try:
        status, content = bounded.heard([PROGRAM, *map(str, words)], quiet, SECONDS)
    except subprocess.TimeoutExpired as error:
        raise ToolError(f"the program took longer than {SECONDS:g} seconds, so it was ended", 124) from error
    except OSError as error:
        raise ToolError(f"the program {PROGRAM} can't be run: {error.strerror}", 125) from error
    said = content.decode("utf-8", "replace")
    return status, said[:-1] if said.endswith("\n") else said


def ask(*words: object) -> str:
    """The line of a finished call; a refusal becomes an exception."""
    status, said = run(*words)
    if status > 1 or status < 0:
        raise Refused([str(word) for word in words], said, status)
    return said


def with_text(text: str, use: Callable[[pathlib.Path], Answer]) -> Answer:
    """What `use` answers for a file that holds the text during the call."""
    with folder_of_its_own() as folder:
        path = folder / "text"
        path.write_text(text, encoding="utf-8")
        return use(path)


def take_module(path: Path, text: str) -> None:
    """Raises what the program refuses in the module of a file. If it accepts the module, with or without full
    parentheses, its next complaint is the missing march."""

    def ask_both(copy: pathlib.Path) -> None:
        missing = [copy.with_name(name) for name in ("march", "memory")]
        answers = [run(command, copy, *missing) for command in ("benchfile", "check")]
        if "absent 2" not in [said for _, said in answers]:
            status, said = answers[-1]
            raise Refused(["check", str(path), "MARCH", "MEMORY"], said, status)

    with_text(text, ask_both)


def vectors_of(march: Path, memory: Path) -> list[str]:
    """The lines of `vectors`; a refused march or memory becomes an exception."""
    with folder_of_its_own() as folder:
        path = folder / "vectors"
        ask("vectors", march, memory, path)
        return lines_of(read_text(path, LARGE_BYTES))
