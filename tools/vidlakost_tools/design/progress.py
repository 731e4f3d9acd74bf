"""What a search says while it runs."""
from __future__ import annotations

import time

from vidlakost_tools.design.parts import Parts


class Progress:
    """Receives the progress of the search."""

    def begin(self) -> None:
        self.started = time.monotonic()

    def seconds(self) -> float:
        return time.monotonic() - self.started

    def better(self, parts: Parts) -> None:
        """The search found a march that is shorter than those before."""

    def bounded(self, operations: int) -> None:
        """No march has fewer operations."""

    def at(self, text: str) -> None:
        """What the search is doing."""

    def look(self) -> None:
        """Raises `MemoryError` where a process of the search takes too much."""
