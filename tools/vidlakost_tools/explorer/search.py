"""The search for a march, from the page's side: it begins, reports, and ends. One runs at a time, in a process with its
own limits (`search_run.py`); a second one ends the first."""
from __future__ import annotations

import contextlib
import json
import os
import signal
import subprocess
import sys
import threading
import time
from typing import Any, Optional

from vidlakost_tools import program
from vidlakost_tools.explorer import search_run
from vidlakost_tools.explorer.questions import Folder, Object, Wrong, refusable, text_in
from vidlakost_tools.texts.march import march_of
from vidlakost_tools.texts.report import judged

LETTERS = "ABCD"
# how long a process may still run after its own time limit, and how much it may say
LATE_SECONDS, MOST_BYTES = 10, 1 << 20
BROKE_OFF = "the search ended early, without an answer of the program"


class Search:
    """A search that runs or has ended; the folder with its texts goes with it."""

    def __init__(self, number: int, folder: Folder, asked: Object):
        self.number, self.folder = number, folder
        self.told: Object = {"least": 0, "length": None, "march": None, "doing": "", "ended": None, "broken": None}
        self.begun = time.monotonic()
        asks = os.path.abspath(program.PROGRAM)
        self.process = subprocess.Popen(
            [sys.executable, "-m", search_run.__name__, json.dumps(asked)],
            cwd=folder.path,
            env={**os.environ, "PYTHONPATH": str(program.ROOT / "tools"), "VIDLAKOST": asks, "VIDLAKOST_PROGRAM": asks},
            stdin=subprocess.DEVNULL,
            stdout=subprocess.PIPE,
            stderr=subprocess.DEVNULL,
            start_new_session=True,
        )
        self.timer = threading.Timer(search_run.SECONDS + search_run.LAST_SECONDS + LATE_SECONDS, self.kill)
        self.timer.daemon = True
        self.timer.start()
        self.hearer = threading.Thread(target=self.hear, daemon=True)
        self.hearer.start()

    @property
    def is_over(self) -> bool:
        return self.told["ended"] is not None or self.told["broken"] is not None

    def hear(self) -> None:
        """Reads what the process says, to its end."""
        left = MOST_BYTES
        for line in self.process.stdout or []:
            left -= len(line)
            if left < 0:
                break
            with contextlib.suppress(ValueError):
                self.told.update(json.loads(line))
        self.kill()
        self.process.wait()
        if not self.is_over:
            self.told["broken"] = BROKE_OFF if self.told["march"] is None else f"{BROKE_OFF} on {self.told['march']}"
        self.timer.cancel()
        self.folder.__exit__()

    def stop(self) -> None:
        """Ends it with the best march so far."""
        with contextlib.suppress(ProcessLookupError):
            self.process.send_signal(signal.SIGINT)

    def kill(self) -> None:
        """Kills it, and the program that it asks."""
        if self.process.poll() is None:
            with contextlib.suppress(ProcessLookupError):
                os.killpg(self.process.pid, signal.SIGKILL)

    def answer(self) -> Object:
        return {**self.told, "search": self.number, "seconds": round(time.monotonic() - self.begun, 1)}


class Searches:
    """The one search of a server."""

    def __init__(self) -> None:
        self.lock = threading.Lock()
        self.last: Optional[Search] = None
        self.count = 0
        self.begin = refusable(self.begun)

    def begun(self, folder: Folder, question: Object) -> Object:
        """Begins a search, unless the program refuses a text of it."""
        faults, decoder, linked = text_in(question, "list"), flag_in(question, "decoder"), flag_in(question, "linked")
        behind = self.behind(folder, question)
        judged(folder.put("march", "any(w0)"), folder.put("list", faults))
        own = Folder()
        own.put(search_run.LIST, faults)
        if behind is not None:
            own.put(behind, text_in(question, "march"))
        with self.lock:
            if self.last is not None:
                self.last.kill()
            self.count += 1
            self.last = Search(self.count, own, {"behind": behind, "decoder": decoder, "linked": linked})
            return self.last.answer()

    def behind(self, folder: Folder, question: Object) -> Optional[str]:
        """The name of the march to extend, if there is one."""
        if "march" not in question:
            return None
        letter = text_in(question, "letter")
        if len(letter) != 1 or letter not in LETTERS:
            raise Wrong("letter has to name a march")
        march_of(folder.put("march", text_in(question, "march")))
        return f"march {letter}"

    def named(self, question: Object) -> Search:
        """The search that a question names, which has to be the last one."""
        if self.last is None or question.get("search") != self.last.number:
            raise Wrong("there is no such search, or another took its place")
        return self.last

    def heard(self, question: Object) -> Object:
        """How far a search is, and its answer if it is over."""
        return self.named(question).answer()

    def stop(self, question: Object) -> Object:
        """Ends a search with the best march so far."""
        search = self.named(question)
        search.stop()
        return search.answer()

    def close(self) -> None:
        """Ends the running search."""
        if self.last is not None:
            self.last.kill()
            self.last.hearer.join(timeout=5)


def flag_in(question: Object, name: str) -> bool:
    found: Any = question.get(name)
    if not isinstance(found, bool):
        raise Wrong(f"{name} has to be true or false")
    return found
