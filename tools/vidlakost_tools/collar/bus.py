"""A collar whose self-test is started by the port of `vidlakost access`, by APB3 or by JTAG, and not by `test`."""
from __future__ import annotations

from vidlakost_tools.access import apb, tap
from vidlakost_tools.access.target import Port, Target

KINDS = {"access": "access", "apb": "apb", "jtag": "tap"}


def bus_of(target: Target, kind: str) -> list[Port]:
    """The ports of the side from which the test is started."""
    if kind == "apb":
        return apb.bus()
    if kind == "tap":
        return tap.pins()
    state = [Port("output", "done"), Port("output", "fail", target.count), Port("output", "seen")]
    return [Port("input", "start"), *state, *target.result()]
