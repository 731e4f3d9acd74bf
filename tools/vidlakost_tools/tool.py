"""How a tool starts and ends, its words, and the files that it writes.

`tools/NAME` calls `command` once, and a script of the repository's own `start(main)`. What goes wrong in it (a file
that is missing, words that are wrong, an input that the program refuses, a reader that closes the pipe) becomes a line
on standard error and a status there, and nowhere else."""
from __future__ import annotations

import argparse
import contextlib
import importlib
import io
import os
import pathlib
import re
import signal
import sys
import threading
from typing import Any, Callable, Iterable, Iterator, Mapping, NoReturn, Sequence, TextIO, cast

from vidlakost_tools.text import cut, harmless, shown, visible


class ToolError(Exception):
    """What a tool says about wrong words or files, and the status that it ends with."""

    def __init__(self, message: str, status: int = 2):
        super().__init__(message)
        self.status = status


class Refused(ToolError):
    """A refusal of the program, handed on with its status."""

    def __init__(self, words: list[str], said: str, status: int):
        super().__init__(said or f"the program ends with {status}", status)
        self.words, self.said = words, said


def usage_of(doc: str | None) -> str:
    """The lines of a tool's description that tell its words."""
    found = re.search(r"^usage:.*?(?=\n\n|\Z)", doc or "", re.MULTILINE | re.DOTALL)
    return found[0] if found else doc or ""


# the signals that end a process which doesn't hear them, but those of a fault and the one that no process hears; Python
# passes over PIPE and XFSZ
NAMES = ("TERM", "INT", "HUP", "QUIT", "USR1", "USR2", "ALRM", "VTALRM", "PROF", "XCPU", "POLL", "PWR", "STKFLT")
# an older Python does not know all of them
ENDS: list[int] = [getattr(signal, f"SIG{name}") for name in NAMES if hasattr(signal, f"SIG{name}")]
# a mark in front of each word with one dash, while argparse reads the words
PLAIN = "\0"


def plain(value: Any) -> Any:
    """A word or a list of words without that mark."""
    if isinstance(value, list):
        return [plain(one) for one in value]
    return value[len(PLAIN) :] if isinstance(value, str) and value.startswith(PLAIN) else value


class Words(argparse.ArgumentParser):
    """The words of a call and its options. Wrong ones become a `ToolError` that shows the usage."""

    def __init__(self, doc: str, allowed: Mapping[str, int | list[str]]):
        super().__init__(add_help=False, allow_abbrev=False, argument_default=argparse.SUPPRESS)
        self.doc = doc
        self.add_argument("words", nargs="*")
        for option, told in allowed.items():
            if told == 0:
                self.add_argument(option, dest=option, action="store_true")
            elif told == 1:
                self.add_argument(option, dest=option)
            elif isinstance(told, int):
                self.add_argument(option, dest=option, nargs=told)
            else:
                self.add_argument(option, dest=option, action="append")

    def error(self, message: str) -> NoReturn:
        found = re.match(r"argument (--[\w-]+): expected", message)
        raise ToolError(
            f"{found[1]} needs a word after it\n{usage_of(self.doc)}" if found else f"{message}\n{usage_of(self.doc)}"
        )


def words_of(
    doc: str | None,
    arguments: Sequence[str],
    allowed: Mapping[str, int | list[str]] | None = None,
    least: int = 0,
    most: int | None = None,
) -> tuple[list[str], dict[str, Any]]:
    """The words of a call and its options. `allowed` has for each option how many words it takes, or a list if it may
    come many times. `--help` prints the description."""
    doc = doc or ""
    if "--help" in arguments or [*arguments] == ["-h"]:
        print(doc.strip())
        raise SystemExit(0)
    # a word with one dash is a word, not an option
    kept = [f"{PLAIN}{word}" if word.startswith("-") and not word.startswith("--") else word for word in arguments]
    found, unknown = Words(doc, allowed or {}).parse_known_intermixed_args(kept)
    if unknown:
        raise ToolError(f"there is no option {unknown[0]}\n{usage_of(doc)}")
    options = {name: plain(value) for name, value in vars(found).items()}
    words = options.pop("words", [])
    if len(words) < least or most is not None and len(words) > most:
        raise ToolError(f"{'too few' if len(words) < least else 'too many'} words\n{usage_of(doc)}")
    return words, options


class Answers:
    """Standard output that prints nothing that a terminal would obey."""

    def __init__(self, inner: TextIO):
        self.inner = inner

    def write(self, text: str) -> int:
        return self.inner.write(harmless(text))

    def __getattr__(self, name: str) -> Any:
        return getattr(self.inner, name)


def command(name: str, *before: str) -> None:
    """Runs the tool of this name with the words `before` and those of the call."""

    def main() -> int | None:
        tool = importlib.import_module(f"vidlakost_tools.commands.{name}")
        with telling("at work") if name in JUDGES else contextlib.nullcontext():
            return cast("Callable[[list[str]], int | None]", tool.main)([*before, *sys.argv[1:]])

    start(main)


def start(main: Callable[[], int | None]) -> None:
    """Runs a tool and ends with its status; each failure is a line on standard error."""
    name = pathlib.Path(sys.argv[0]).name
    if sys.stdout is None:
        tell(f"{name}: standard output is closed")
        sys.exit(8)
    for number in ENDS:
        if signal.getsignal(number) == signal.SIG_DFL:
            signal.signal(number, stop)
    # bytes that are not UTF-8, as in the name of a folder, go out as they came
    if isinstance(sys.stdout, io.TextIOWrapper):
        sys.stdout.reconfigure(encoding="utf-8", errors="surrogateescape")
    sys.stdout = cast(TextIO, Answers(sys.stdout))
    try:
        status = main() or 0
        sys.stdout.flush()
        sys.exit(status)
    except Refused as error:
        tell(f"{name}: {error}")
        explain(error.words, error.said, error.status)
        sys.exit(error.status)
    except ToolError as error:
        tell(f"{name}: {error}")
        sys.exit(error.status)
    except BrokenPipeError:
        # nobody reads any more: that is no failure of the tool, and nothing more may be written at exit
        os.dup2(os.open(os.devnull, os.O_WRONLY), 1)
        os._exit(141)
    except UnicodeError as error:
        tell(f"{name}: {no_text(error)}")
        sys.exit(2)
    except OSError as error:
        tell(f"{name}: {error.filename or 'what was written'}: {error.strerror or error}")
        leave(2)
    except MemoryError:
        tell(f"{name}: out of memory")
        leave(9)
    except RecursionError:
        tell(f"{name}: an input is nested too deeply")
        sys.exit(2)
    except KeyboardInterrupt:
        sys.exit(130)


def no_text(error: UnicodeError) -> str:
    """The message about bytes that are not UTF-8: in a file that is read, or in a name that is to be written."""
    if isinstance(error, UnicodeDecodeError):
        return f"a file is not UTF-8: {error.reason} at byte {error.start}"
    return "a name that is not UTF-8 would be in what is written"


def stop(number: int, frame: object) -> None:
    """Ends a tool after a signal. Its own processes end too, and its temporary files are removed."""
    raise SystemExit(128 + number)


def leave(status: int) -> None:
    """Ends with this status, even if the rest of the output can't be written."""
    os.dup2(os.open(os.devnull, os.O_WRONLY), 1)
    os._exit(status)


# the tools that may look at something for minutes
JUDGES = ("audit", "formal", "places", "plain")
# what the tool is doing, one in another
DOING: list[threading.Event] = []


@contextlib.contextmanager
def telling(what: str, how_far: Callable[[], str] | None = None) -> Iterator[None]:
    """Says every ten seconds what the tool is doing, how far it is, and for how long it runs. Of what stands one in
    another the innermost is said."""
    is_over, name = threading.Event(), pathlib.Path(sys.argv[0]).name

    def tell_on() -> None:
        seconds = 10
        while not is_over.wait(10):
            far = how_far() if how_far else ""
            if DOING[-1:] == [is_over]:
                tell(f"{name}: {what}{f' ({far})' if far else ''}, {seconds} seconds so far")
            seconds += 10

    teller = threading.Thread(target=tell_on, daemon=True)
    DOING.append(is_over)
    # where the system gives no thread, the work goes on without a word
    with contextlib.suppress(RuntimeError):
        teller.start()
    try:
        yield
    finally:
        is_over.set()
        DOING.remove(is_over)
        if teller.ident is not None:
            teller.join()


def progress(cycles: Iterable[int], what: str) -> Iterator[int]:
    """The cycles, one after another. Every ten seconds it says which one it is at."""
    at = 0
    with telling(what, lambda: f"cycle {at}"):
        for at in cycles:
            yield at


def tell(line: str) -> None:
    """Prints a message on standard error. Characters that a terminal would obey become their numbers, and long lines
    are cut."""
    if sys.stderr is None:
        return
    try:
        print("\n".join(cut(visible(one)) for one in line.split("\n")), file=sys.stderr, flush=True)
    except (BrokenPipeError, OSError):
        pass


def explain(words: list[str], said: str, status: int) -> None:
    """The explanation of a refusal on standard error, unless VIDLAKOST_EXPLAIN=0 asks for silence."""
    if os.environ.get("VIDLAKOST_EXPLAIN") != "0":
        from vidlakost_tools.refusals import explained as diagnose

        for line in diagnose.lines(words, said, status):
            tell(line)


def number_of(text: str, what: str, least: int = 0) -> int:
    """A decimal number among the words of a call."""
    if not re.fullmatch("[0-9]{1,9}", text) or int(text) < least:
        raise ToolError(f"{what} is a number of at least {least}, and not {shown(text)}")
    return int(text)


def identifier(name: str, what: str = "the name") -> str:
    """A name for a part of a path or of a Verilog text; anything but a simple identifier is refused."""
    if not re.fullmatch("[A-Za-z_][A-Za-z0-9_$]{0,63}", name):
        raise ToolError(f"{what} is a simple identifier of Verilog of at most 64 bytes, and not {shown(name)}")
    return name


def refuse_inputs(target: str | None, inputs: list[tuple[str, str]]) -> None:
    """Refuses to write over a file that is read."""
    if target is None:
        return
    for what, name in inputs:
        one = os.path.exists(target) and os.path.exists(name) and os.path.samefile(target, name)
        if one or os.path.realpath(target) == os.path.realpath(name):
            raise ToolError(f"{shown(target)} is {what}")
