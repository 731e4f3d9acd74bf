"""Timing constraints of memories that stay where they are: for each module in its place, for the sequencer, and for the
chip that contains them, with what goes from the clock of one to that of another."""
from __future__ import annotations

import re

from vidlakost_tools.access.constraints import (
    BUSES,
    NORMAL,
    Timing,
    access_lines,
    bracketed,
    bus_lines,
    port_list,
)
from vidlakost_tools.chip.system import Placed
from vidlakost_tools.collar.liberty import Found
from vidlakost_tools.collar.pins import Macro, literal
from vidlakost_tools.files import refuse_twins
from vidlakost_tools.in_place.files import words_in
from vidlakost_tools.in_place.place_list import TAP_PINS, Places
from vidlakost_tools.in_place.sequencer import PlaceTarget
from vidlakost_tools.in_place.text import BUNDLE, InPlace
from vidlakost_tools.text import template

HEAD = template(__file__, "constraints_head.sdc")
COMES = "# what comes of another clock goes through two registers: no hold to keep, and at most a period to go"
CHIP = template(__file__, "constraints_chip.sdc")
CROSSING = [
    "# no clock is in step with another: what goes from one to another has no hold to keep, and at most a period of",
    "# the clock that takes it, so that the bits of a bundle that are read together are of one step",
]
# two files of each
CASES = (("test", True), ("normal", False))


def when(in_test: bool, mhz: float | None = None) -> str:
    told = "under test" if in_test else "in normal use, where no memory is tested"
    return told if mhz is None else f"{told}, at {mhz:g} MHz"


def comes(names: list[str], clock: str) -> list[str]:
    """Ports whose signals come of any clock."""
    ports = port_list(names)
    return [COMES, f"set_input_delay 0 -clock {clock} {ports}", f"set_false_path -hold -from {ports}"]


# ---- a memory in its place


def pins_by_clock(macro: Macro) -> dict[str, tuple[list[str], list[str]]]:
    """Each clock of a macro, the one of the test first, with its inputs and its outputs."""
    found: dict[str, tuple[list[str], list[str]]] = {macro.clk: ([], [])}
    second = next((pin.name for pin in macro.of("clk", second=True)), macro.clk)
    if macro.bypass:
        found[macro.clk][0].append("scan_mode")
    for way, pin in macro.chip_pins():
        if pin.kind in ("clk", "clock2"):
            found.setdefault(pin.name, ([], []))
        elif way != "inout":
            clock = second if pin.is_second else macro.clk
            names = pin.bits or [bracketed(pin.name, pin.width)]
            found.setdefault(clock, ([], []))[way == "output"].extend(names)
    return found


def memory(placed: Placed, timing: Timing, mhz: float, in_test: bool) -> str:
    """The constraints of the module WORD_in_place."""
    made, clocks = InPlace(placed.macro, placed.word), pins_by_clock(placed.macro)
    made.text()
    period, clk = 1000 / mhz, placed.macro.clk
    delay = format(period * timing.share, "g")
    lines = [f"create_clock -name {clock} -period {period:g} {port_list([clock])}" for clock in clocks]
    if len(clocks) > 1:
        groups = " ".join(f"-group {clock}" for clock in clocks)
        lines += ["# none of the clocks is in step with another", f"set_clock_groups -asynchronous {groups}"]
    for clock, sides in clocks.items():
        for way, names in zip(("input", "output"), sides):
            lines += [f"set_{way}_delay {delay} -clock {clock} {port_list(names)}"] if names else []
    bundle = {port.direction: bracketed(port.name, port.width) for port in BUNDLE}
    lines += comes([bundle["input"]], clk)
    lines.append(f"set_output_delay {delay} -clock {clk} {port_list([bundle['output']])}")
    lines += [] if in_test else [resting("${at}" + made.names.of("test"))]
    head = HEAD.substitute(name=f"{placed.word.name}_in_place", when=when(in_test, mhz))
    return head + "\n".join([*lines, ""])


def resting(net: str) -> str:
    return f"set_case_analysis 0 [get_pins -of_objects [get_nets {net}]]"


# ---- the sequencer


def sequencer(target: PlaceTarget, kind: str, timing: Timing, in_test: bool) -> str:
    """The constraints of the module NAME_access, or of that of a bus."""
    mhz = timing.test if in_test else timing.normal
    period = 1000 / mhz
    lines = [f"create_clock -name clk -period {period:g} [get_ports clk]"]
    lines += bus_lines(kind, timing) if kind in BUSES else access_lines(target, period, timing.share)
    ways = {way: [port for port in target.ports() if port.direction == way] for way in ("input", "output")}
    names = {way: [bracketed(port.name, port.width) for port in ports] for way, ports in ways.items()}
    lines += comes(names["input"], "clk")
    outward = port_list([*names["output"], "test"])
    lines += [f"set_output_delay {period * timing.share:g} -clock clk {outward}"]
    lines += [] if in_test else ["# the sequencer goes on; outside it test is 0", *NORMAL]
    return HEAD.substitute(name=f"{target.name}_{kind}", when=when(in_test, mhz)) + "\n".join([*lines, ""])


# ---- a chip in which they stand


def instance(path: str) -> str:
    """The instance at a path; the name of a block that is generated is a part of the name of what is in it."""
    return re.sub(r"(?<!\])\.", "/", path)


def crossing(clocks: dict[str, float]) -> list[str]:
    """What goes from one clock to another."""
    lines = list(CROSSING) if len(clocks) > 1 else []
    for clock, period in clocks.items():
        others = " ".join(name for name in clocks if name != clock)
        if others:
            ends = f"-from [get_clocks {{{others}}}] -to [get_clocks {clock}]"
            lines += [f"set_max_delay {period:g} {ends}", f"set_false_path -hold {ends}"]
    return lines


def named_bits(port: Found, value: str) -> list[str]:
    """Each bit of a port that keeps a value."""
    width, number = literal(value, port.width) or (port.width, 0)
    names = [port.name] if width == 1 else [f"{port.name}[{bit}]" for bit in range(width)]
    return [f"set_case_analysis {number >> bit & 1} {port_list([name])}" for bit, name in enumerate(names)]


def tap_lines(places: Places, timing: Timing) -> list[str]:
    """The clock of a TAP and its ports; what goes to the chip's clocks or comes from them goes through two registers,
    or is stable."""
    tck, tms, tdi, trst_n, tdo = (places.start[name] for name in TAP_PINS)
    switch = [places.start["tdo_en"]] if "tdo_en" in places.start else []
    delay = f"{1000 / timing.bus * timing.share:g} -clock {tck}"
    return [
        f"create_clock -name {tck} -period {1000 / timing.bus:g} {port_list([tck])}",
        f"set_clock_groups -asynchronous -group {tck} -group {{{' '.join(places.clocks)}}}",
        f"set_input_delay {delay} {port_list([tms, tdi])}",
        f"set_output_delay {delay} -clock_fall {port_list([tdo, *switch])}",
        f"# a reset that begins at any time; its end is to be of {tck}",
        f"set_input_delay {delay} {port_list([trst_n])}",
    ]


def port_lines(places: Places, timing: Timing, clocks: dict[str, float]) -> list[str]:
    """The chip's other ports, each of each clock; what starts a test without a TAP goes through two registers."""
    ends = list(places.start.values())
    start = [] if places.has_tap else [places.start["start"]]
    inward, outward = (
        [bracketed(port.name, port.width) for port in places.ports if port.way == way and port.name not in left_out]
        for way, left_out in (("input", [*places.clocks, *ends]), ("output", ends if places.has_tap else []))
    )
    lines = []
    for clock in places.clocks:
        delay = f"-clock {clock} -add_delay"
        lines += [f"set_input_delay {clocks[clock] * timing.share:g} {delay} {port_list(inward)}"] if inward else []
        lines += [f"set_input_delay 0 {delay} {port_list(start)}"] if start else []
    for clock, period in clocks.items():
        delay = f"{period * timing.share:g} -clock {clock} -add_delay"
        lines += [f"set_output_delay {delay} {port_list(outward)}"] if outward else []
    return [*lines, *([f"set_false_path -hold -from {port_list(start)}"] if start else [])]


def chip(target: PlaceTarget, places: Places, timing: Timing, in_test: bool) -> str:
    """The constraints of the chip that a text of places describes, with the periods of that text."""
    clocks = {name: float(period) for name, period in places.clocks.items()}
    lines = [f"create_clock -name {name} -period {period:g} {port_list([name])}" for name, period in clocks.items()]
    lines += crossing(clocks)
    if places.has_tap:
        lines += tap_lines(places, timing)
        clocks[places.start["tck"]] = 1000 / timing.bus
    lines += port_lines(places, timing, clocks)
    ports = {port.name: port for port in places.ports}
    lines += [line for name, value in places.values.items() for line in named_bits(ports[name], value)]
    for placed in target.system.collars if not in_test else []:
        made = InPlace(placed.macro, placed.word)
        made.text()
        lines.append(resting(f"{{{instance(places.places[placed.name].path)}/{made.names.of('test')}}}"))
    return CHIP.substitute(chip=places.chip, name=target.name, when=when(in_test)) + "\n".join([*lines, ""])


# ---- all of them


def texts(
    target: PlaceTarget, places: Places | None, kind: str, timing: Timing, clocks: dict[str, float]
) -> dict[str, str]:
    """The files by their names; `clocks` are those of memories that have another one than the sequencer, in MHz."""
    made: list[tuple[str, str]] = []
    for case, in_test in CASES:
        made.append((f"{target.name}_{case}.sdc", sequencer(target, kind, timing, in_test)))
        for placed in words_in(target.system):
            mhz = clocks.get(placed.word.name, timing.test if in_test else timing.normal)
            made.append((f"{placed.word.name}_in_place_{case}.sdc", memory(placed, timing, mhz, in_test)))
        if places is not None:
            made.append((f"{target.name}_chip_{case}.sdc", chip(target, places, timing, in_test)))
    refuse_twins([name for name, _ in made])
    return dict(made)
