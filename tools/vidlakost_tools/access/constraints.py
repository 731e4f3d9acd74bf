"""Timing constraints of what `vidlakost access` writes: one file for the test, one for normal use."""
from __future__ import annotations

import dataclasses

from vidlakost_tools.access.target import Target
from vidlakost_tools.chip.access import SystemTarget
from vidlakost_tools.text import template

HEAD = template(__file__, "constraints_head.sdc")
IN_TEST = [
    "# test is no case here: the end of the self-test's reset is a path of one cycle. Of what switches the",
    "# memory outside it is one: set_case_analysis 1 on the select of that multiplexer",
]
IN_TEST_WHOLE = ["# test is no case here: the end of the self-tests' reset is a path of one cycle"]
NORMAL = ["set_case_analysis 0 [get_pins -of_objects [get_nets ${at}test]]"]
# what of each bus is in and out
BUSES = {
    "apb": ("pclk", ["psel", "penable", "pwrite", "paddr*", "pwdata*"], ["prdata*", "pready", "pslverr"], ["presetn"]),
    "tap": ("tck", ["tms", "tdi"], ["tdo", "tdo_en"], ["trst_n"]),
    "register": ("tck", ["select", "capture", "shift", "update", "tdi"], ["tdo"], ["reset_n"]),
}


@dataclasses.dataclass
class Timing:
    """The clocks in MHz, the share of a period that the other side of a port takes, and whether the memories answer at
    the falling edge."""

    test: float
    normal: float
    bus: float
    share: float
    is_falling: bool


def port_list(names: list[str]) -> str:
    return f"[get_ports {{{' '.join(names)}}}]"


def bracketed(name: str, width: int) -> str:
    return f"{name}[*]" if width > 1 else name


def bus_lines(kind: str, timing: Timing) -> list[str]:
    """The clock of a bus and its ports. What goes from one clock to the other goes through two registers, or is
    stable."""
    clock, inward, outward, resets = BUSES[kind]
    inward, outward = ([name.replace("*", "[*]") for name in names] for names in (inward, outward))
    # the TAP answers at the falling edge of its clock, and one of the chip's own takes what leaves the register there
    fall = " -clock_fall" if kind in ("tap", "register") else ""
    return [
        f"create_clock -name {clock} -period {1000 / timing.bus:g} [get_ports {clock}]",
        f"set_clock_groups -asynchronous -group clk -group {clock}",
        f"set_input_delay {1000 / timing.bus * timing.share:g} -clock {clock} {port_list(inward)}",
        f"set_output_delay {1000 / timing.bus * timing.share:g} -clock {clock}{fall} {port_list(outward)}",
        f"# a reset that begins at any time; its end is to be of {clock}",
        f"set_input_delay {1000 / timing.bus * timing.share:g} -clock {clock} {port_list(resets)}",
    ]


def access_lines(target: Target, period: float, share: float) -> list[str]:
    """The ports of NAME_access towards the tester: `start` goes through two registers; what was found is stable when it
    is read."""
    state = ["done", "seen", *(bracketed(port.name, port.width) for port in target.result())]
    state.append(bracketed("fail", target.count))
    loose = ["start", *(bracketed(port.name, port.width) for port in target.choice())]
    lines = [
        "# start is of any clock and goes through two registers; it has no hold to keep, and less than a period to go",
        f"set_input_delay 0 -clock clk {port_list(loose)}",
        f"set_false_path -hold -from {port_list(loose)}",
    ]
    return [
        *lines,
        "# what was found stands when it is read",
        f"set_output_delay {period * share:g} -clock clk {port_list(state)}",
    ]


def memory_lines(target: Target, period: float, timing: Timing) -> list[str]:
    """The ports towards the memories."""
    outs = [port for port in target.ports() if port.direction == "output"]
    words = [port for port in target.ports() if port.direction == "input"]
    outward, inward = (port_list([bracketed(port.name, port.width) for port in ports]) for ports in (outs, words))
    lines = [f"set_output_delay {period * timing.share:g} -clock clk {outward}"]
    fall = ""
    if timing.is_falling:
        lines.append("# the memory answers at the falling edge, so half a period is left for its word")
        fall = " -clock_fall"
    delay = period * timing.share / (2 if timing.is_falling else 1)
    lines.append(f"set_input_delay {delay:g} -clock clk{fall} {inward}")
    return lines


def further_clocks(target: SystemTarget, period: float) -> list[str]:
    """The further clocks of the chip; no two of them are in step."""
    clocks = [clock for clock, _, _ in target.pins_by_clock() if clock != "clk"]
    lines = [f"create_clock -name {clock} -period {period:g} {port_list([clock])}" for clock in clocks]
    groups = " ".join(f"-group {clock}" for clock in clocks)
    return [*lines, f"set_clock_groups -asynchronous -group clk {groups}"] if clocks else []


def chip_lines(target: SystemTarget, period: float, timing: Timing) -> list[str]:
    """The chip's pins of all collars, each of the clock of its port."""
    lines = further_clocks(target, period)
    for clock, inward, outward in target.pins_by_clock():
        for way, ports in (("input", inward), ("output", outward)):
            names = port_list([bracketed(port.name, port.width) for port in ports])
            lines += [f"set_{way}_delay {period * timing.share:g} -clock {clock} {names}"] if ports else []
    return lines


def constraints(target: Target, kind: str, timing: Timing, in_test: bool) -> str:
    """One file."""
    mhz = timing.test if in_test else timing.normal
    period = 1000 / mhz
    when = f"{'under test' if in_test else 'in normal use, where test is 0'}, at {mhz:g} MHz"
    lines = bus_lines(kind, timing) if kind in BUSES else access_lines(target, period, timing.share)
    is_whole = isinstance(target, SystemTarget)
    lines += (
        chip_lines(target, period, timing) if isinstance(target, SystemTarget) else memory_lines(target, period, timing)
    )
    lines.append(f"set_output_delay {period * timing.share:g} -clock clk [get_ports test]")
    lines += (IN_TEST_WHOLE if is_whole else IN_TEST) if in_test else NORMAL
    head = HEAD.substitute(name=target.name, kind=kind, when=when, at="", period=format(period, "g"))
    return head + "\n".join(lines) + "\n"
