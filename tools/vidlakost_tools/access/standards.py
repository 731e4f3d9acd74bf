"""What describes the TAP to a tester, in the forms of the standards: a run in SVF, the TAP in BSDL."""
from __future__ import annotations

import re

from vidlakost_tools.access import log_window, network
from vidlakost_tools.access.target import Target
from vidlakost_tools.access.tap import length
from vidlakost_tools.access.tap_run import TURNS, Step, Wait, microseconds, steps, time_told
from vidlakost_tools.text import template

SVF = template(__file__, "standards_svf.svf")


def lines_of(step: Step, cycles: int, mhz: float | None) -> list[str]:
    """A step in SVF."""
    if isinstance(step, Wait):
        if mhz is None or not step.is_test:
            return [f"RUNTEST IDLE {step.turns} TCK;"]
        # then the state has to come over to TCK
        return [f"RUNTEST IDLE {microseconds(cycles, mhz) / 1e6:.9E} SEC;", f"RUNTEST IDLE {TURNS} TCK;"]
    digits = (step.count + 3) // 4
    compared = f" TDO ({step.wanted:0{digits}X}) MASK ({step.mask:0{digits}X})" if step.mask else ""
    return [f"S{'I' if step.is_instruction else 'D'}R {step.count} TDI ({step.word:0{digits}X}){compared};"]


def svf(target: Target, mhz: float | None) -> str:
    """A run that compares the state and the bits of `fail`."""
    sib = ", with --sib" if target.has_sib else ""
    made = SVF.substitute(name=target.name, sib=sib, time=time_told(target, mhz))
    return made + "".join(f"{line}\n" for step in steps(target) for line in lines_of(step, target.length, mhz))


BSDL = template(__file__, "standards_bsdl.bsd")


BSDL_NETWORK = """-- BIST selects a scan network of IEEE 1687: the length of BISTREG is that with all segment insertion
-- bits at 0.
"""


def bsdl(target: Target) -> str:
    log, register, note = "", "", ""
    if target.has_sib:
        # the length of a network is the one behind a reset
        length_told, note = len(network.segments(target)), BSDL_NETWORK
    else:
        length_told = length(target)
        if target.depth is not None:
            log, register = '    "LOG (1001), " &\n', f", LOGREG[{log_window.length(target)}] (LOG)"
    return BSDL.substitute(
        name=target.name,
        identity=format(target.identity, "032b"),
        length=length_told,
        log=log,
        register=register,
        note=note,
    )


def has_plain_name(target: Target) -> bool:
    """Whether the name is one in BSDL too, which has the identifiers of VHDL."""
    return re.fullmatch("[A-Za-z](_?[A-Za-z0-9])*", target.name) is not None
