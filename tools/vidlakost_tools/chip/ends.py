"""What a testbench needs to look at both ends of many connections at once: nets in one vector, and words on them."""
from __future__ import annotations

from typing import Iterator

from vidlakost_tools.access.target import Port


def width_of(ports: list[Port]) -> int:
    return sum(port.width for port in ports)


def in_vector(ports: list[Port]) -> Iterator[tuple[Port, int, int]]:
    """Each port with its highest and its lowest bit in one vector of all ports, the first port lowest."""
    low = 0
    for port in ports:
        yield port, low + port.width - 1, low
        low += port.width


def joined(names: list[str]) -> str:
    """Nets in one vector, the first one lowest."""
    return "{" + ", ".join(reversed(names)) + "}"


def words(bits: int) -> Iterator[int]:
    """Words of so many bits, in one of which every two bits differ: those whose number has a 1 in some place, and then
    the others."""
    for place in range(bits.bit_length()):
        word = sum((bit >> place & 1) << bit for bit in range(bits))
        yield word
        yield (1 << bits) - 1 - word


def forced(inside: str, outputs: list[Port]) -> list[str]:
    """Statements that force such words on the outputs of a module, and look at them."""
    lines = []
    for word in words(width_of(outputs)):
        for port, _, low in in_vector(outputs):
            lines.append(f"    force {inside}.{port.name} = {port.width}'h{word >> low & (1 << port.width) - 1:x};")
        lines.append("    #0 outputs_looked_at;")
    return lines
