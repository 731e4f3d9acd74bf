"""The registers behind a TAP in ICL (IEEE 1687), the segment insertion bits in front of them if there are some, and the
procedures on them in PDL."""
from __future__ import annotations

import dataclasses
from typing import Iterator, Sequence

from vidlakost_tools.access import log_window, network
from vidlakost_tools.access.tap_run import time_told, waiting
from vidlakost_tools.access.target import Target
from vidlakost_tools.access.tap import parts
from vidlakost_tools.text import beside, template

CLIENT = ("si", "so", "sel", "capture", "shift", "update", "reset_n", "tck")
# the parts that hold what was written, of which nothing else is captured
HELD = ("ignore", "entry")
# how many megahertz TCK has at most, as BSDL tells
MOST_TCK = 20.0
IGNORED = "a bit for each memory whose failures are not kept; it stays as it is while start is 1"
IGNORED_OF_EACH = "a bit for each memory of whose first failure nothing is told; behind done it may change"
PORTS = beside(__file__, "ijtag_ports.sv")
SIB = beside(__file__, "ijtag_sib.sv")


@dataclasses.dataclass(frozen=True)
class Field:
    """A part of a register, from its lowest bit on. If it is written it holds what it was given; what is captured comes
    from outside, except in a part that only holds. What ICL can't say of it goes into a comment."""

    name: str
    low: int
    width: int
    is_written: bool = False
    is_captured: bool = True
    about: str = ""

    @property
    def bits(self) -> str:
        return f"[{self.low + self.width - 1}:{self.low}]" if self.width > 1 else f"[{self.low}]"

    @property
    def span(self) -> str:
        return f"[{self.width - 1}:0]" if self.width > 1 else ""


def of_test(target: Target) -> list[Field]:
    """The register of the self-test; of `start` it is captured whether it has arrived."""
    about = {"ignore": IGNORED_OF_EACH if target.shows_each else IGNORED}
    return [
        Field(one.name, one.low, one.width, one.writable, one.name not in HELD, about.get(one.name, ""))
        for one in parts(target)
    ]


def of_log(target: Target) -> list[Field]:
    """The register of the log."""
    found, low = [], 0
    for name, width, _ in log_window.fields(target):
        found.append(Field(name, low, width))
        low += width
    return found


def ports(source: str) -> str:
    """The ports of a part of the path, whose scan output has this source."""
    client = " ".join(f"Port {name};" for name in CLIENT)
    return PORTS.replace("SOURCE", source).replace("CLIENT", client)


def register(name: str, fields: Sequence[Field]) -> Iterator[str]:
    """A module with a register of these parts."""
    last = fields[-1].low + fields[-1].width - 1
    captured = ", ".join(f"{one.name}_now" if one.is_captured else f"data{one.bits}" for one in reversed(fields))
    yield f"Module {name} {{"
    yield ports("data[0]")
    yield from (f"  DataInPort {one.name}_now{one.span};" for one in fields if one.is_captured)
    held = [one for one in fields if one.is_written]
    yield from (f"  DataOutPort {one.name}_held{one.span} {{ Source data{one.bits}; }}" for one in held)
    yield f"  ScanRegister data[{last}:0] {{"
    yield "    ScanInSource si;"
    yield f"    CaptureSource {captured};"
    if held:
        yield f"    ResetValue {last + 1}'b0;"
    yield "  }"
    for one in fields:
        yield from [f"  // {one.name}: {one.about}"] if one.about else []
        yield f"  Alias {one.name}{one.span} = data{one.bits};"
    yield "}"


def inside(target: Target) -> Iterator[str]:
    """The network: from its input to its output each segment insertion bit, with its register behind it."""
    controls = ("capture", "shift", "update", "reset_n", "tck")
    kinds = {"bist": "register", "log": "log_register"}
    yield f"Module {target.name}_network {{"
    yield ports("bist_sib.so")
    before = "si"
    for of in network.segments(target):
        yield f"  Instance {of}_sib Of {target.name}_sib {{"
        yield f"    InputPort si = {before}; InputPort sel = sel; InputPort from_so = {of}.so;"
        yield "    " + " ".join(f"InputPort {name} = {name};" for name in controls)
        yield "  }"
        yield f"  Instance {of} Of {target.name}_{kinds[of]} {{"
        yield f"    InputPort si = {of}_sib.to_si; InputPort sel = {of}_sib.to_sel;"
        yield "    " + " ".join(f"InputPort {name} = {of}_sib.to_{name};" for name in controls)
        yield "  }"
        before = f"{of}_sib.so"
    yield "}"


def tap(target: Target) -> Iterator[str]:
    """The TAP, and which instruction reaches what."""
    has_log = target.depth is not None and not target.has_sib
    yield f"Module {target.name}_tap {{"
    yield "  TCKPort tck;\n  TMSPort tms;\n  TRSTPort trst_n;\n  ScanInPort tdi;"
    if target.has_sib:
        yield "  ScanOutPort tdo { Source network.so; }"
        yield f"  Instance network Of {target.name}_network;"
    else:
        yield "  ScanOutPort tdo { Source bist.so; }"
        yield f"  Instance bist Of {target.name}_register;"
        if has_log:
            yield f"  Instance log Of {target.name}_log_register;"
    yield "  ScanInterface tap { Port tdi; Port tdo; Port tms; Port tck; Port trst_n; }"
    yield "  AccessLink access Of STD_1149_1_2001 {"
    yield f"    BSDLEntity {target.name}_tap;"
    yield f"    BIST {{ ScanInterface {{ {'network' if target.has_sib else 'bist'}.client; }} }}"
    if has_log:
        yield "    LOG { ScanInterface { log.client; } }"
    yield "  }\n}"


def icl(target: Target) -> str:
    """The registers, and the TAP that reaches them by its instructions."""
    lines = list(register(f"{target.name}_register", of_test(target)))
    if target.depth is not None:
        lines += register(f"{target.name}_log_register", of_log(target))
    if target.has_sib:
        lines += [SIB.replace("PORTS", ports("way")).replace("NAME", target.name), *inside(target)]
    return "\n".join([*lines, *tap(target), ""])


PDL = template(__file__, "ijtag_pdl.pdl")
PDL_EACH = template(__file__, "ijtag_pdl_each.pdl")
PDL_ENTRY = template(__file__, "ijtag_pdl_entry.pdl")
PDL_LOG = template(__file__, "ijtag_pdl_log.sv")


def pdl(target: Target, mhz: float | None = None) -> str:
    """The procedures of both registers."""
    unit = "  iRead unit;\n" if target.is_chip else ""
    log = PDL_LOG.substitute(name=target.name, unit=unit) if target.depth is not None else ""
    turns = waiting(target.turning, mhz, MOST_TCK) if target.turning else 0
    wait = f"  iRunLoop {turns} -tck;\n" if turns else ""
    each = PDL_EACH.substitute(wait=wait) if target.shows_each else ""
    each += PDL_ENTRY.substitute(wait=wait) if target.has_entries else ""
    turns, time = waiting(target.length, mhz, MOST_TCK), time_told(target, mhz)
    return PDL.substitute(name=target.name, time=time, turns=turns) + each + log
