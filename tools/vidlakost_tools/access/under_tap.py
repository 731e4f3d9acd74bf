"""The register of a self-test under the TAP that a chip has already: the host interface of IEEE 1687, by which that TAP
selects, captures, shifts and updates it; and its testbench, with a TAP as somebody else would write one."""
from __future__ import annotations

import re

from vidlakost_tools.access import network
from vidlakost_tools.access.bench import most, testbench
from vidlakost_tools.access.block import inside
from vidlakost_tools.access.ijtag import of_test, pdl, register as register_of_icl
from vidlakost_tools.access.tap import AGAIN, length, parts, read_of
from vidlakost_tools.access.target import Port, Target, header, links, zero
from vidlakost_tools.text import template
from vidlakost_tools.verilog.bench_end import FINISH

INPUTS = ("tck", "reset_n", "select", "capture", "shift", "update", "tdi")
ABOUT = """// The register of the self-test of {name}, for a TAP that is there already: the host interface of IEEE 1687.
//   select     the instruction of the register is in force
//   capture, shift, update   the TAP is in Capture-DR, Shift-DR, Update-DR; capture and shift act with the rising edge
//              of tck, update with the falling one
//   reset_n    0 in Test-Logic-Reset and at power-up, which ends a test
//   tdo        the bit that leaves next; the TAP drives it with the falling edge of tck
// It has {length} bits, the lowest first:
{table}
// A test runs while `start` is 1."""
BODY = template(__file__, "under_tap_body.sv")
BENCH = template(__file__, "under_tap_bench.sv")
# how ICL calls these ports elsewhere
NAMES = {"si": "tdi", "so": "tdo", "sel": "select"}


def pins() -> list[Port]:
    return [*(Port("input", name) for name in INPUTS), Port("output", "tdo")]


def block(target: Target) -> str:
    """The module NAME_register."""
    ways = {True: ", written", False: ""}
    table = "\n".join(f"//   {part.bits:12} {part.name}{ways[part.writable]}" for part in parts(target))
    about = ABOUT.format(name=target.name, length=length(target), table=table)
    choice, at = target.choice(), {part.name: part.bits for part in parts(target)}
    ports = [*pins(), Port("input", "clk"), *target.ports(), Port("output", "test")]
    body = BODY.substitute(
        last=length(target) - 1,
        held="".join(f"  reg {Port('', port.name, port.width).declared().strip()};\n" for port in choice),
        inside=inside(target, "tck", "reset_n"),
        captured=", ".join(part.source for part in reversed(parts(target))),
        reset="".join(f"      {port.name} <= {zero(port.width)};\n" for port in choice),
        update="".join(f"      {port.name} <= data{at[port.name]};\n" for port in choice),
    )
    return header(about, f"{target.name}_register", ports, before=target.conditional()) + body


def icl(target: Target) -> str:
    """The register in ICL, with the names of its ports."""
    text = "\n".join([*register_of_icl(f"{target.name}_register", of_test(target)), ""])
    for name, own in NAMES.items():
        text = re.sub(rf"\b{name}\b", own, text)
    return text


def bench(target: Target) -> str:
    """The testbench of NAME_register."""
    size = length(target)
    at = {part.name: part.bits for part in parts(target)}
    declared = "".join(f"  reg {name} = 1'b0;\n" for name in ("tck", "tms", "tdi"))
    declared += "  reg trst_n = 1'b1;\n  wire tdo;\n  wire reset_n, select, capture, shifts, update, from_register;\n"
    own = ", ".join(
        f".{name}({net})"
        for name, net in zip(
            (*INPUTS, "tdo"), ("tck", "reset_n", "select", "capture", "shifts", "update", "tdi", "from_register")
        )
    )
    link = f"  {target.name}_register dut({own},\n    .clk(clk), {links(target.ports())}, .test(test));\n"
    read = read_of(target)
    again = AGAIN.format(name=target.name, scan=size, word=network.choosing(target, size), ignore=at["ignore"])
    body = BENCH.substitute(
        finish=FINISH,
        name=target.name,
        top=size - 1,
        width=size,
        most=most(target),
        failing=at["failing"],
        ignore=at["ignore"],
        all=f"{{{target.count}{{1'b1}}}}",
        ignoring=f"{{{target.count}{{1'b1}}}}, {size - target.count}'d1",
        read=read,
        each=target.read_each("tap", read).replace("        shift_ignored;\n", again),
    )
    return testbench(target, "register", "by a TAP of somebody else's", 5, declared, link, body)


def texts(target: Target, mhz: float | None) -> dict[str, str]:
    """The files by their names."""
    name = target.name
    return {
        f"{name}_register.v": block(target),
        f"{name}_register_tb.sv": bench(target),
        f"{name}_register.icl": icl(target),
        f"{name}_register.pdl": pdl(target, mhz),
    }
