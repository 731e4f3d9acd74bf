"""The search for a march in a process of its own. The page's server starts it, and gets a line of JSON for each step.
It runs in a folder with the texts; its word is the wish, as an object of JSON. The process limits itself: it ends the
search after a time, as Ctrl-C does, and takes no more memory or processor time than it may. It ends when nobody listens
any more."""
from __future__ import annotations

import contextlib
import json
import os
import resource
import signal
import sys
from typing import Any, List

from vidlakost_tools.design.answers import Answers
from vidlakost_tools.design.finder import TRIED, Finder
from vidlakost_tools.design.parts import Parts, elements_from, text_of
from vidlakost_tools.design.progress import Progress
from vidlakost_tools.design.shown import told
from vidlakost_tools.design.wishes import Words, wish_of
from vidlakost_tools.program import settle
from vidlakost_tools.texts.march import length_of
from vidlakost_tools.tool import ToolError

# how long a search may take, and after it the program with its march
SECONDS, LAST_SECONDS = 60, 60
# how long the walks of a search may take; the searches of all shorter marches may go on behind them
WALK_SECONDS = 50
# how much memory it may take; this is no limit of the system's, since the program reserves more than it uses
MEMORY_KIB = 2 << 20
# the name of the list in the folder, as answers have it
LIST = "the list"
# how often it says what it is doing
TOLD_SECONDS = 0.2


def say(**told_now: Any) -> None:
    print(json.dumps(told_now), flush=True)


class Said(Progress):
    """Says each step of a search."""

    last = 0.0

    def better(self, parts: Parts) -> None:
        say(length=length_of(elements_from(parts)), march=text_of(parts))

    def bounded(self, operations: int) -> None:
        say(least=operations)

    def at(self, text: str) -> None:
        self.look()
        if self.seconds() - self.last > TOLD_SECONDS:
            self.last = self.seconds()
            say(doing=text)

    def look(self) -> None:
        if taken_kib() > MEMORY_KIB:
            raise MemoryError


def taken_kib() -> int:
    """The most memory that this process has taken."""
    taken = resource.getrusage(resource.RUSAGE_SELF).ru_maxrss
    return taken // 1024 if sys.platform == "darwin" else taken


def bounded() -> None:
    """Limits this process."""
    most = SECONDS + LAST_SECONDS
    with contextlib.suppress(OSError, ValueError):
        resource.setrlimit(resource.RLIMIT_CPU, (most, most))
    for number in (signal.SIGINT, signal.SIGALRM):
        signal.signal(number, signal.default_int_handler)
    signal.alarm(SECONDS)


def searched(finder: Finder) -> None:
    """Searches to the end, or until it is ended."""
    try:
        finder.run(TRIED, WALK_SECONDS, len(os.sched_getaffinity(0)))
    except KeyboardInterrupt:
        if finder.best is None:
            raise ToolError("the search was ended before it found a march") from None
    signal.signal(signal.SIGINT, signal.SIG_IGN)
    signal.signal(signal.SIGALRM, signal.SIG_DFL)
    signal.alarm(LAST_SECONDS)


def found(asked: Any) -> None:
    """Searches, and passes on what the program says about the march."""
    words = Words(LIST, asked["behind"], decoder=asked["decoder"], linked=asked["linked"])
    wish, beyond = wish_of(words)
    finder = Finder(wish, Said())
    searched(finder)
    answers = Answers.of(words, finder, beyond)
    _, length, *lines = told(answers)
    say(ended={"march": answers.march, "length": length, "lines": lines, "isWhole": answers.is_whole})


def main(arguments: List[str]) -> int:
    bounded()
    try:
        settle(LAST_SECONDS)
        found(json.loads(arguments[0]))
    except BrokenPipeError:
        # nobody listens any more, and nothing may be written at exit
        os.dup2(os.open(os.devnull, os.O_WRONLY), 1)
    except ToolError as error:
        say(broken=str(error))
    except MemoryError:
        say(broken="the search ran out of memory")
    except KeyboardInterrupt:
        say(broken="the search was ended before it found a march")
    return 0


if __name__ == "__main__":
    sys.exit(main(sys.argv[1:]))
