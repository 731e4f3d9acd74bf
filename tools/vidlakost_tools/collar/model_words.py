"""How many words the model of a macro holds, where an array of its module tells it."""
from __future__ import annotations

from vidlakost_tools.collar.pins import Macro
from vidlakost_tools.collar.port_list import Ports
from vidlakost_tools.collar.vendor import given_numbers
from vidlakost_tools.text import SOURCE_BYTES, read_described
from vidlakost_tools.tool import ToolError


class Arrays(Ports):
    """Reads the arrays of a module, behind its head."""

    def depths(self, bits: int) -> list[int | None]:
        """Of each array whose words have so many bits how many words it has; None where no number tells it."""
        self.ports()
        found: list[int | None] = []
        while self.here < self.end:
            word = self.take()
            if word in ("parameter", "localparam"):
                self.parameter(";")
            elif word in ("reg", "logic", "bit"):
                width, _ = self.shape()
                self.take()
                found += [self.depth()] if self.peek() == "[" and width in (0, bits) else []
        return found

    def depth(self) -> int | None:
        """The number of words of an array, whose range begins here."""
        self.take()
        first = self.value(self.until(":", "]"))
        if self.take() == "]":
            return first
        last = self.value(self.until("]"))
        return None if first is None or last is None else abs(last - first) + 1


def model_words(macro: Macro, file: str, bits: int) -> int | None:
    """The words of the one array of a model that has words of so many bits; None where there is no such array, or the
    reader does not follow."""
    try:
        found = Arrays(file, read_described(file, SOURCE_BYTES), macro.name, given_numbers(macro)).depths(bits)
    except ToolError:
        return None
    return found[0] if len(found) == 1 else None
