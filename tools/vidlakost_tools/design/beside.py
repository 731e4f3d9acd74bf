"""The searches of all shorter marches, in a process of their own beside the walks.

What they show reaches the walks at once: a bound that is as long as the best march ends the whole search. Where both
come to a march of that length, the first one counts, so two calls may tell two marches of one length then."""
from __future__ import annotations

import contextlib
import multiprocessing
import os
import signal
import threading
import time
from typing import Any, Callable

from vidlakost_tools.design.parts import Parts
from vidlakost_tools.design.progress import Progress
from vidlakost_tools.tool import ENDS, stop

# how often it says what it is doing, and how long a process that is told to end may take until it is killed
TOLD_SECONDS, LAST_SECONDS = 0.2, 2
# how often it looks whether the search is still there
LOOKS_SECONDS = 0.25


def answer_signals(parent: int) -> None:
    """What a process of the search does by a signal. Ctrl-C is the search's own matter, and it ends this process.
    Another signal ends it with the program that it asks. A search that was killed sends none, so a thread looks whether
    it is still there, whatever the process does meanwhile."""
    for number in ENDS:
        signal.signal(number, signal.SIG_IGN if number == signal.SIGINT else stop)
    threading.Thread(target=follow, args=(parent,), daemon=True).start()


def follow(parent: int) -> None:
    """Ends this process as a signal does when the search is gone."""
    while os.getppid() == parent:
        time.sleep(LOOKS_SECONDS)
    os.kill(os.getpid(), signal.SIGTERM)


def end(process: Any) -> None:
    """Ends a process of the search. It is told to first, since it may be asking the program."""
    process.terminate()
    process.join(LAST_SECONDS)
    process.kill()
    process.join()


class Telling(Progress):
    """Hands on what a search shows to the process that began it."""

    def __init__(self, connection: Any, outer: Progress):
        self.connection, self.outer = connection, outer
        self.last = 0.0

    def better(self, parts: Parts) -> None:
        self.connection.send(("better", parts))

    def bounded(self, operations: int) -> None:
        self.connection.send(("bounded", operations))

    def at(self, text: str) -> None:
        self.outer.look()
        if time.monotonic() - self.last > TOLD_SECONDS:
            self.last = time.monotonic()
            self.connection.send(("at", text))


def work(search: Callable[[Progress], None], connection: Any, parent: int, outer: Progress) -> None:
    """What the process does. If it needs too much memory, it shows no more."""
    answer_signals(parent)
    with contextlib.suppress(OSError, MemoryError):
        search(Telling(connection, outer))


class Beside:
    """The process, and what it says. `outer` hears it."""

    def __init__(self, search: Callable[[Progress], None], outer: Progress):
        context = multiprocessing.get_context("fork")
        self.outer = outer
        self.connection, other = context.Pipe(duplex=False)
        # the standard library's types differ between its versions here
        self.process: Any = context.Process(target=work, args=(search, other, os.getpid(), outer), daemon=True)
        self.process.start()
        other.close()
        self.is_over = False

    def __enter__(self) -> "Beside":
        return self

    def __exit__(self, *_: object) -> None:
        end(self.process)
        self.connection.close()

    def hear(self) -> None:
        """Hands on one thing that it says."""
        try:
            kind, value = self.connection.recv()
        except (EOFError, OSError):
            self.is_over = True
            return
        getattr(self.outer, kind)(value)
