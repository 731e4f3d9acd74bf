"""The run of the TAP in WGL, a vector for each cycle of TCK."""
from __future__ import annotations

from vidlakost_tools.access.target import Target
from vidlakost_tools.access.tap_run import Vector, time_told, vectors
from vidlakost_tools.text import template

HEAD = template(__file__, "wgl_head.sv")


def text_of(vector: Vector) -> str:
    tdo = {"L": "0", "H": "1", "X": "X"}[vector.tdo]
    one = f"vector(tap) := [1 {vector.tms} {vector.tdi} {vector.trst_n} {tdo}];"
    return f"    {one}" if vector.times == 1 else f"    repeat {vector.times} {one}"


def wgl(target: Target, mhz: float | None = None) -> str:
    """The run as a text."""
    head = HEAD.substitute(name=target.name, time=time_told(target, mhz))
    return "\n".join([head.rstrip("\n"), *map(text_of, vectors(target, mhz)), "  end", "end", ""])
