"""A search for a shorter march by walks in processes of their own, one after the other on each processor.

What it finds does not depend on how many processors there are, or how fast. The walks for a shorter march than the
best one have numbers, and the one with the least number that comes to a march decides: those with greater numbers end
then, and those with smaller ones are waited for. Only how far the search comes depends on the time."""
from __future__ import annotations

import contextlib
import dataclasses
import multiprocessing
import multiprocessing.connection
import os
import time
from typing import Any, Callable, Dict, Iterator, List, Optional, Sequence, Tuple

from vidlakost_tools.design.beside import Beside, answer_signals, end
from vidlakost_tools.design.parts import Limits, Part, Parts, length
from vidlakost_tools.design.survivors import Survivors
from vidlakost_tools.design.walk import LOOKS, TURNS, March, Walk
from vidlakost_tools.tool import ToolError

# a number that is greater than that of each walk
NONE = 1 << 30
# how often the search tells how far it is
SECONDS = 0.5
# a walk: its number, and the best march so far
Task = Tuple[int, March]


@dataclasses.dataclass
class Walks:
    """What the walks look for, with how many processes, for how long, and the number that decides all their chances."""

    survivors: Survivors
    limits: Limits
    behind: Sequence[Part]
    workers: int
    seconds: float
    seed: int
    fits: Optional[Callable[[Parts], bool]] = None
    # a part of the walks for the next shorter march alone: the first number and the last one
    part: Optional[Tuple[int, int]] = None


class Worker:
    """A process, and the connection to it."""

    def __init__(self, walks: Walks, shared: Any):
        context = multiprocessing.get_context("fork")
        self.connection, other = context.Pipe()
        # the standard library's types differ between its versions here
        self.process: Any = context.Process(target=work, args=(walks, shared, other, os.getpid()), daemon=True)
        self.process.start()
        other.close()
        self.task: Optional[Task] = None

    def give(self, task: Task) -> None:
        self.task = task
        self.connection.send(task)

    def end(self) -> None:
        end(self.process)
        self.connection.close()


def work(walks: Walks, shared: Any, connection: Any, parent: int) -> None:
    """What a process does."""
    answer_signals(parent)
    walk = Walk(walks.survivors, walks.limits, walks.behind)
    with contextlib.suppress(EOFError, OSError):
        while True:
            number, best = connection.recv()
            connection.send((number, walked(walks, walk, shared, (number, best))))


def walked(walks: Walks, walk: Walk, shared: Any, task: Task) -> Optional[March]:
    """The result of one walk. It ends early if one with a smaller number has come to a march."""
    won, tried = shared
    number, best = task

    def is_over() -> bool:
        with tried.get_lock():
            tried.value += LOOKS
        return bool(won.value < number)

    found = walk.run(f"{walks.seed} {length(best)} {number}", TURNS[(number - 1) % len(TURNS)], best, is_over)
    if found is None or walks.fits is not None and not walks.fits([*walks.behind, *found]):
        return None
    with won.get_lock():
        won.value = min(won.value, number)
    return found


def result(worker: Worker) -> Tuple[int, Optional[March]]:
    """The number of a walk, and its march if it came to one."""
    try:
        number, march = worker.connection.recv()
    except (EOFError, OSError):
        raise ToolError("a process of the search ended early; it may have needed more memory", 9) from None
    return number, march


class Search:
    """The search. `told` learns each shorter march and says which is the best one then, `watch` learns how far the
    search is, `is_shown` says whether the best one is shown to be shortest. `beside` may show that meanwhile."""

    def __init__(
        self,
        walks: Walks,
        told: Callable[[Parts], Parts],
        watch: Callable[[str], None],
        is_shown: Callable[[], bool],
        beside: Optional[Beside] = None,
    ):
        self.walks, self.told, self.watch, self.is_shown, self.beside = walks, told, watch, is_shown, beside
        context = multiprocessing.get_context("fork")
        # the standard library's types differ between its versions here too
        self.won: Any = context.Value("l", NONE)
        self.tried: Any = context.Value("q", 0)
        self.workers: List[Worker] = []
        # of a part: the number of the walk that came to a march (0: none), and the last one of those that are over
        self.number, self.done = 0, 0

    def run(self, best: Parts) -> None:
        """Looks for shorter and shorter marches, until the time is over or no march is shorter."""
        until = time.monotonic() + self.walks.seconds
        try:
            # one after the other, so that those that have begun are known if a signal comes
            for _ in range(self.walks.workers):
                self.workers.append(Worker(self.walks, (self.won, self.tried)))
            march = self.free(best)
            while length(march) > 1:
                found = self.shorter(march, until)
                if found is None:
                    return
                before, march = march, self.free(self.told([*self.walks.behind, *found]))
                if length(march) >= length(before) or self.walks.part is not None:
                    return
        finally:
            for worker in self.workers:
                worker.end()

    def free(self, parts: Parts) -> March:
        """What comes behind the given march, with one order in place of any."""
        kept = parts[len(self.walks.behind) :]
        return tuple(part._replace(order="up") if part.order == "any" else part for part in kept)

    def shorter(self, best: March, until: float) -> Optional[March]:
        """A shorter march, or none in the time."""
        self.won.value = NONE
        first, last = self.walks.part or (1, NONE - 1)
        number, found = first - 1, {}  # type: int, Dict[int, March]
        for worker in self.workers[: last - number]:
            number += 1
            worker.give((number, best))
        while time.monotonic() < until and not self.is_shown():
            self.watch(f"walk {number}, {self.tried.value:,} changes")
            if all(worker.task is None for worker in self.workers):
                break
            for worker in self.ready(until):
                done, march = result(worker)
                worker.task = None
                if march is not None:
                    found[done] = march
                if not found and number < last:
                    number += 1
                    worker.give((number, best))
        self.number = min(found, default=0)
        # what is over is told only where each smaller number is over too
        self.done = min([worker.task[0] - 1 for worker in self.workers if worker.task], default=self.number or number)
        return found[self.number] if found else None

    def ready(self, until: float) -> Iterator[Worker]:
        """The processes whose walks are over. It also hears what is shown beside them."""
        waiting: Any = {worker.connection: worker for worker in self.workers if worker.task is not None}
        heard = [] if self.beside is None or self.beside.is_over else [self.beside.connection]
        wait = min(SECONDS, max(0.0, until - time.monotonic()))
        for connection in multiprocessing.connection.wait([*waiting, *heard], wait):
            if connection in waiting:
                yield waiting[connection]
            elif self.beside is not None:
                self.beside.hear()
