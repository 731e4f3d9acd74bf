"""A call of the program or of a tool, and what it has to say."""
from __future__ import annotations

import dataclasses
import shlex
import shutil
from typing import List


@dataclasses.dataclass(frozen=True)
class Call:
    """The words as a shell takes them, the status, a part of what is printed, and the beginning of what is said on
    standard error, where nothing is to be said if that is empty. Without the programs that it `needs` it is left
    out."""

    line: str
    status: int = 0
    prints: str = ""
    says: str = ""
    needs: str = ""

    @property
    def words(self) -> List[str]:
        return shlex.split(self.line)

    def missing(self) -> List[str]:
        """The programs that it needs and this machine lacks."""
        return [need for need in self.needs.split() if not shutil.which(need)]
