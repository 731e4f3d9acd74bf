"""The bench of `python3 -m tests.integration`: a folder with the files of its cases, and calls that are looked at
there."""
from __future__ import annotations

import os
import pathlib
import re
import subprocess

from tests.integration.call import Call
from tests.integration.files import FILES
from vidlakost_tools.program import ROOT

# what is said after ten seconds, which a machine under load may take for any run
SLOW = re.compile(
    r"^(?:vidlakost: still running: .*|\w+: .*, (?:\d+ seconds so far|after \d+ seconds))\n", re.MULTILINE
)


class Bench:
    """A folder with the files of the cases, and the count of what went wrong in it."""

    def __init__(self, folder: pathlib.Path, program: str, is_long: bool = False):
        self.folder, self.is_long, self.wrong, self.count = folder, is_long, 0, 0
        kept = {key: value for key, value in os.environ.items() if not key.startswith("VIDLAKOST")}
        self.environment = {**kept, "VIDLAKOST_PROGRAM": program}
        for name, text in FILES.items():
            (folder / name).parent.mkdir(exist_ok=True)
            (folder / name).write_bytes(text.encode("utf-8", "surrogateescape"))
        for name in ("dev", "examples", "tools"):
            (folder / name).symlink_to(ROOT / name)
        (folder / "vidlakost").symlink_to(ROOT / "vidlakost")

    def run(self, words: list[str], **changed: str) -> subprocess.CompletedProcess[str]:
        return subprocess.run(
            words,
            cwd=self.folder,
            env={**self.environment, **changed},
            text=True,
            errors="replace",
            stdin=subprocess.DEVNULL,
            stdout=subprocess.PIPE,
            stderr=subprocess.PIPE,
            check=False,
        )

    def tell(self, call: str, why: str, done: subprocess.CompletedProcess[str]) -> None:
        self.wrong += 1
        print(
            f"{call}: {why}\n  status {done.returncode}\n  output {done.stdout[-600:]!r}\n  error"
            f" {done.stderr[-600:]!r}"
        )

    def look(self, words: list[str], status: int, out: str, error: str, **changed: str) -> None:
        """Runs a call: its status, a part of its output, and the beginning of what it says on standard error (nothing
        where that is empty)."""
        self.count += 1
        done = self.run(words, **changed)
        call = " ".join(words)
        if "Traceback" in done.stderr + done.stdout:
            self.tell(call, "ends in a traceback", done)
        elif done.returncode != status:
            self.tell(call, f"status {status} is wanted", done)
        elif out not in done.stdout:
            self.tell(call, f"{out!r} is wanted on standard output", done)
        elif not any(
            said.startswith(error) and (error or not said) for said in (done.stderr, SLOW.sub("", done.stderr))
        ):
            self.tell(call, f"{error!r} is wanted on standard error", done)

    def look_at(self, call: Call) -> None:
        """Runs a call of a table."""
        self.look(call.words, call.status, call.prints, call.says)

    def is_so(self, holds: bool, what: str) -> None:
        self.count += 1
        if not holds:
            self.wrong += 1
            print(what)
