"""The run of the TAP in STIL (IEEE 1450), a vector for each cycle of TCK."""
from __future__ import annotations

from vidlakost_tools.access.target import Target
from vidlakost_tools.access.tap_run import Vector, time_told, vectors
from vidlakost_tools.text import template

HEAD = template(__file__, "stil_head.stil")


def text_of(vector: Vector) -> str:
    one = f"V {{ pins = P{vector.tms}{vector.tdi}{vector.trst_n}{vector.tdo}; }}"
    return f"  {one}" if vector.times == 1 else f"  Loop {vector.times} {{ {one} }}"


def stil(target: Target, mhz: float | None = None) -> str:
    """The run as a text."""
    head = HEAD.substitute(name=target.name, time=time_told(target, mhz))
    return "\n".join([head.rstrip("\n"), *map(text_of, vectors(target, mhz)), "}", ""])
