"""One call for every foreign program: bounded in time, memory and output, held to a folder where that is asked, and
ended with all that it began, whatever happens."""
from __future__ import annotations

import contextlib
import dataclasses
import os
import pathlib
import re
import shutil
import signal
import subprocess
import sys
import threading
import time
from typing import Any, Callable, Mapping, Sequence

from vidlakost_tools.temporary import folder_of_its_own
from vidlakost_tools.text import lines_of
from vidlakost_tools.tool import ENDS, ToolError, telling

CHILD = pathlib.Path(__file__).with_name("confined.py")
# the ways by which a program is held to a folder, of which the first that the system has is taken
WAYS = ("landlock", "mounts")
# so many bytes of what a program says are read
SAID = 64 << 20
# what programs say, or by which signals they end, where they get no more memory
NO_MEMORY = re.compile(r"bad_alloc|out of memory|cannot allocate memory|memory exhausted|virtual memory", re.IGNORECASE)


@dataclasses.dataclass(frozen=True)
class Bounds:
    """How long a program may take, how much memory each of its processes may have, and how large each file may be that
    it writes, in bytes."""

    seconds: float = 600.0
    memory: int = 4 << 30
    output: int = 1 << 30


# when all has to have ended, where the user has set a limit
LIMITS: list[float] = []


def is_limit_over() -> bool:
    return any(limit <= time.monotonic() for limit in LIMITS)


def within(bounds: Bounds) -> Bounds:
    """The bounds of a program that is called now."""
    left = [limit - time.monotonic() for limit in LIMITS]
    return dataclasses.replace(bounds, seconds=max(0.0, min([bounds.seconds, *left])))


class Stopped(ToolError):
    """A program was stopped at one of its bounds: `time`, `memory` or `output`."""

    def __init__(self, message: str, bound: str):
        super().__init__(message, 1)
        self.bound = bound


@dataclasses.dataclass
class Ended:
    """How a program ended: its status (a signal's number below 0), what it said, and what it said of errors where that
    is apart."""

    status: int
    said: str
    errors: str = ""

    def last(self, count: int = 4) -> list[str]:
        """The last lines that it said, those of errors where there are any."""
        lines = [line.rstrip() for line in lines_of(self.errors) or lines_of(self.said)]
        return [line for line in lines if line][-count:]


@dataclasses.dataclass
class Call:
    """What is called: its words; the name that messages have for it; its bounds; the folder that it stands in, and the
    one that alone it may change; its environment; whether errors are apart; and a file for what it says."""

    words: Sequence[str]
    name: str = ""
    bounds: Bounds = Bounds()
    folder: pathlib.Path | None = None
    only: pathlib.Path | None = None
    environment: Mapping[str, str] | None = None
    is_apart: bool = False
    out: pathlib.Path | None = None
    # what is said each ten seconds while it runs, with how far it is by what it said so far
    doing: str = ""
    how_far: Callable[[pathlib.Path], str] | None = None

    def title(self) -> str:
        return self.name or pathlib.Path(self.words[0]).name

    def child(self) -> list[str]:
        """The words of the process that becomes the program."""
        program = shutil.which(self.words[0])
        if program is None:
            raise ToolError(f"{self.words[0]} is not on the PATH")
        bounds = [str(self.bounds.memory), str(self.bounds.output), ",".join(WAYS), str(self.only or "")]
        return [sys.executable, "-I", "-S", str(CHILD), *bounds, os.path.abspath(program), *self.words[1:]]


def is_over(child: subprocess.Popen[bytes], seconds: float) -> bool:
    """Whether a process ends in time. Nobody takes its status yet, so that its number stays that of its group."""
    until, pause = time.monotonic() + seconds, 0.0005
    while os.waitid(os.P_PID, child.pid, os.WEXITED | os.WNOHANG | os.WNOWAIT) is None:
        left = until - time.monotonic()
        if left <= 0:
            return False
        time.sleep(min(pause, left))
        pause = min(2 * pause, 0.05)
    return True


def end(child: subprocess.Popen[bytes]) -> int:
    """Ends a process with all of its group, and says its status."""
    with contextlib.suppress(ProcessLookupError, PermissionError):
        os.killpg(child.pid, signal.SIGKILL)
    return child.wait()


def begun(words: Sequence[str], **how: Any) -> subprocess.Popen[bytes]:
    """A program in a group of its own. A signal that comes while it is begun is answered when it is known, and it is
    ended before that: else nobody would have its number."""
    came: list[int] = []
    before: dict[int, Any] = {}
    if threading.current_thread() is threading.main_thread():
        for number in ENDS:
            handler = signal.getsignal(number)
            if callable(handler):
                before[number] = handler
                signal.signal(number, lambda number, _: came.append(number))
    try:
        child: subprocess.Popen[bytes] = subprocess.Popen(
            words, stdin=subprocess.DEVNULL, start_new_session=True, **how
        )
    finally:
        for one, answer in before.items():
            signal.signal(one, answer)
    if came:
        end(child)
        if child.stdout is not None:
            child.stdout.close()
        before[came[0]](came[0], None)
    return child


def waited(call: Call, out: pathlib.Path, errors: pathlib.Path) -> int | None:
    """The status of a program whose words go to two files; None where it took too long."""
    child, is_in_time = None, False
    with open(out, "wb") as file, open(errors, "wb") as other:
        try:
            child = begun(
                call.child(),
                stdout=file,
                stderr=other if call.is_apart else subprocess.STDOUT,
                cwd=call.folder,
                env=None if call.environment is None else dict(call.environment),
            )
            is_in_time = is_over(child, call.bounds.seconds)
        finally:
            status = end(child) if child is not None else None
    return status if is_in_time else None


def heard(words: Sequence[str], environment: Mapping[str, str], seconds: float | None) -> tuple[int, bytes]:
    """The status and the output of our own program, which needs no bounds but one of time. It is called thousands of
    times, so no process of ours stands before it. A signal to the caller ends it with all that it began, as the
    launcher has begun the program."""
    child = begun(words, stdout=subprocess.PIPE, env=dict(environment))
    try:
        content, _ = child.communicate(timeout=seconds)
        return child.returncode, content
    except BaseException:
        if child.returncode is None:
            end(child)
        raise
    finally:
        if child.stdout is not None:
            child.stdout.close()


def read_end(path: pathlib.Path) -> str:
    """What a file holds, or its end where it is large."""
    with open(path, "rb") as file:
        file.seek(max(0, os.path.getsize(path) - SAID))
        return file.read(SAID).decode("utf-8", "replace")


def stopped(call: Call, ended: Ended | None, said: Ended) -> Stopped | None:
    """At which bound a program was stopped, if it was, with the last lines of its own."""
    bounds, tail = call.bounds, said.last(2)
    if ended is None and is_limit_over():
        return Stopped(f"the time of --limit was over before {call.title()} was ready", "limit")
    if ended is None:
        why, bound = f"took longer than {bounds.seconds:.4g} seconds", "time"
    elif ended.status == -signal.SIGXFSZ:
        why, bound = f"wrote more than {bounds.output >> 20:,} MB", "output"
    elif ended.status and any(map(NO_MEMORY.search, ended.last(9))):
        why, bound = f"took more than {bounds.memory / (1 << 30):g} GB of memory", "memory"
    else:
        return None
    return Stopped("\n".join([f"{call.title()} {why} and was stopped", *(f"  {line}" for line in tail)]), bound)


def run(call: Call) -> Ended:
    """How a program ended; `Stopped` is raised at one of its bounds. Nothing of it runs any more then."""
    call = dataclasses.replace(call, bounds=within(call.bounds))
    with folder_of_its_own() as own:
        out, errors = call.out or own / "out", own / "errors"
        if call.doing:
            with telling(call.doing, lambda: call.how_far(out) if call.how_far else ""):
                status = waited(call, out, errors)
        else:
            status = waited(call, out, errors)
        said = Ended(0 if status is None else status, "" if call.out else read_end(out), read_end(errors))
    told = stopped(call, None if status is None else said, said)
    if told is not None:
        raise told
    return said


def without(folder: pathlib.Path, text: str) -> str:
    """What a program said, without the names of a temporary folder, which say nothing to whoever reads it."""
    return re.sub(rf"(?:{re.escape(str(folder))}|{re.escape(str(folder.resolve()))})/(?:given\d+/)?", "", text)
