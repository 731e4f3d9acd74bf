"""The self-test behind a TAP of IEEE 1149.1: the block and its testbench, and a model that OpenOCD plays to."""
from __future__ import annotations

import dataclasses

from vidlakost_tools.access import log_window, logs, network
from vidlakost_tools.access.bench import most, testbench
from vidlakost_tools.access.block import inside
from vidlakost_tools.access.target import model_links
from vidlakost_tools.access.target import Port, Target, extended, header, links, zero
from vidlakost_tools.text import beside, template
from vidlakost_tools.verilog.bench_end import FINISH

IR_BITS = 4
OPCODES = (
    ("0000", "EXTEST", "a boundary register of one internal cell"),
    ("0001", "SAMPLE, PRELOAD", "the same"),
    ("0010", "IDCODE", "32 bits"),
    ("1000", "BIST", "the register below; with --sib behind its segment insertion bit"),
    ("1001", "LOG", "with --log and without --sib: an entry of the log in each scan"),
    ("1111", "BYPASS", "one bit, as all others"),
)


@dataclasses.dataclass
class Part:
    """A part of the register of the instruction BIST, from its lowest bit on: what is captured, and whether an update
    writes it."""

    name: str
    low: int
    width: int
    source: str
    writable: bool = False

    @property
    def bits(self) -> str:
        return f"[{self.low + self.width - 1}:{self.low}]" if self.width > 1 else f"[{self.low}]"


def parts(target: Target) -> list[Part]:
    """The register: a digit of state, the cycle, the two words; of a chip the unit, its fails, and which are not
    kept."""
    fail = f"(has_failed != {zero(target.count)})"
    given = [("start", 1, "has_test", True), ("done", 1, "is_done", False)]
    given += [("fail", 1, fail, False), ("seen", 1, "is_seen", False)]
    given += [(name, width, f"(is_seen ? {name} : {zero(width)})", False) for name, width in kept(target)]
    if target.is_chip:
        given.append(("failing", target.count, "has_failed", False))
    given += [(port.name, port.width, port.name, True) for port in target.choice()]
    made, low = [], 0
    for name, width, source, writable in given:
        made.append(Part(name, low, width, source, writable))
        low += width
    return made


def kept(target: Target) -> list[tuple[str, int]]:
    return [(port.name, port.width) for port in target.result()]


def length(target: Target) -> int:
    last = parts(target)[-1]
    return last.low + last.width


TAP = """// A TAP of IEEE 1149.1 for the self-test of {name}. The instruction register has 4 bits:
//   0000 EXTEST, 0001 SAMPLE and PRELOAD, of a boundary register of one internal cell, since there are no pads here
//   0010 IDCODE, 1000 BIST, {more}all others BYPASS
// The register of {whose} has {length} bits, the lowest first:
{table}
{log}// A test runs while `start` is 1. trst_n is 0 at power-up; Test-Logic-Reset ends a test."""
BODY = template(__file__, "tap_body.sv")


def pins() -> list[Port]:
    inward = [Port("input", name) for name in ("tck", "tms", "tdi", "trst_n")]
    return [*inward, Port("output", "tdo"), Port("output", "tdo_en")]


def block(target: Target) -> str:
    """The module NAME_tap."""
    ways = {True: ", written", False: ""}
    table = "\n".join(f"//   {part.bits:12} {part.name}{ways[part.writable]}" for part in parts(target))
    has_log = target.depth is not None and not target.has_sib
    log_size = log_window.length(target) if target.depth is not None else 0
    about = TAP.format(
        name=target.name, length=length(target), table=table, log=network.about(target, log_size),
        more="1001 LOG, " if has_log else "",
        whose="the self-test" if target.has_sib else "BIST",
    )
    ports = [*pins(), Port("input", "clk"), *target.ports(), Port("output", "test")]
    log = {"log_wires": "", **log_window.tap_parts(target)}
    choice, at = target.choice(), {part.name: part.bits for part in parts(target)}
    update = "".join(f"      {port.name} <= data{at[port.name]};\n" for port in choice)
    body = BODY.substitute(
        last=length(target) - 1,
        held="".join(f"  reg {Port('', port.name, port.width).declared().strip()};\n" for port in choice),
        inside=inside(target, "tck", "trst_n") + logs.inside(target),
        **log,
        **network.tap_parts(target, length(target) - 1, log, log_size - 1, update),
        identity=format(target.identity, "08x"),
        captured=", ".join(part.source for part in reversed(parts(target))),
        reset="".join(f"      {port.name} <= {zero(port.width)};\n" for port in choice),
    )
    return header(about, f"{target.name}_tap", ports, before=target.conditional()) + body


# ---- the testbench

READ = """      when_read = heard[35:4];
      wanted = heard{wanted};
      got = heard{got};
      whose = {whose};"""
# the second scan has what the first one chose
AGAIN = """            shift({scan}, {word});
            shift({scan}, {word});
            if (heard{ignore} !== ignored)
              $fatal(1, "{name}: ignore is read as %b, and %b was written", heard{ignore}, ignored);
"""
BENCH = template(__file__, "tap_bench.sv")


def read_of(target: Target) -> str:
    """What a testbench takes from a scan of the register."""
    at = {part.name: part.bits for part in parts(target)}
    whose = extended(f"heard{at['unit']}", target.unit_bits, 10) if target.is_chip else "10'd0"
    return READ.format(wanted=at["expected"], got=at["returned"], whose=whose)


def bench(target: Target) -> str:
    """The testbench of NAME_tap."""
    at = {part.name: part.bits for part in parts(target)}
    declared = "".join(f"  reg {name} = 1'b0;\n" for name in ("tck", "tms", "tdi"))
    declared += "  reg trst_n = 1'b1;\n  wire tdo;\n  wire tdo_en;\n"
    declared += log_window.tap_declared(target)
    size = length(target)
    scan = network.whole(target, size)
    width = max(scan, log_window.scan_length(target) if target.depth else 0)
    link = (
        f"  {target.name}_tap dut({target.bench_links()}{links(pins())},\n    .clk(clk), {links(target.ports())},"
        " .test(test));\n"
    )
    read = read_of(target)
    word = network.choosing(target, size)
    again = AGAIN.format(name=target.name, scan=scan, word=word, ignore=parts(target)[-1].bits)
    body = BENCH.substitute(
        finish=FINISH,
        read=read,
        each=target.read_each("tap", read).replace("        shift_ignored;\n", again),
        name=target.name,
        top=width - 1,
        width=width,
        scan=scan,
        started=network.constant(width, network.opened(target, size, 1)),
        stopped=network.constant(width, network.opened(target, size, 0)),
        open=network.bench_open(target, width),
        closed=network.bench_closed(target, size, width),
        whole=f"[{size - 1}:0]" if width > size else "",
        log=log_window.tap_reads(target, size, width),
        identity=f"{target.identity:08x}",
        most=most(target),
        failing=at["failing" if target.is_chip else "fail"],
        digits="%h",
    )
    return testbench(target, "tap", "by JTAG", 5, declared, link, body)


# ---- a model that OpenOCD plays to

BOARD = template(__file__, "tap_board.sv")


def board(target: Target) -> str:
    wires = "".join(f"  wire {Port('', port.name, port.width).declared().strip()};\n" for port in target.ports())
    return BOARD.substitute(
        name=target.name, wires=wires, pins=links(pins()), ports=links(target.ports()), model=model_links(target)
    )


SOCKET = beside(__file__, "tap_socket.cpp")
CONFIG = template(__file__, "tap_config.cfg")


def socket(target: Target) -> str:
    return SOCKET.replace("NAME", target.name)


def config(target: Target) -> str:
    return CONFIG.substitute(name=target.name, identity=format(target.identity, "08x"))
