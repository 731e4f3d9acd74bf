"""The logs of all memories, and the choice of the entry that a tester reads. They are beside the self-test: in the
module of a bus if that has the ports of the memories, and in NAME_access if the memories are inside it."""
from __future__ import annotations

from typing import Any

from vidlakost_tools.access.target import Port, Target, extended, zero
from vidlakost_tools.text import template
from vidlakost_tools.tool import ToolError, number_of
from vidlakost_tools.verilog.syntax import ranged

# the bits of the number of an entry in a bus
PICK_BITS = 6
PICK = f"  wire [{PICK_BITS - 1}:0] log_pick;"


def log_depth(options: dict[str, Any]) -> int | None:
    """How many wrong reads a call has a log keep, if there is one."""
    if "--log" not in options:
        return None
    depth = number_of(options["--log"], "--log", 1)
    if depth > 64:
        raise ToolError(f"--log is 1 to 64, and not {depth}")
    return depth


def depth_of(target: Target) -> int:
    """How many entries a log has."""
    assert target.depth is not None
    return target.depth


def pick_bits(target: Target) -> int:
    """The bits of the number of an entry that a log has."""
    return max(1, (depth_of(target) - 1).bit_length())


def result(target: Target) -> list[Port]:
    """What of an entry a tester reads."""
    words = [Port("output", name, target.word) for name in ("log_expected", "log_returned")]
    return [Port("output", "log_count", 7), Port("output", "log_more"), Port("output", "log_cycle", 32), *words]


def picked(target: Target) -> str:
    """The part of the number of an entry in a bus that a log takes."""
    size = pick_bits(target)
    return f"log_pick[{size - 1}:0]" if size > 1 else "log_pick[0]"


def kept(target: Target, pick: str) -> list[str]:
    """A log beside the self-test of each memory, and its wires."""
    lines, counts = [], depth_of(target).bit_length()
    for number, unit in enumerate(target.units):
        it, s = unit.memory, unit.suffix
        wires = [Port("", "count", counts), Port("", "more"), Port("", "cycle", 32)]
        wires += [Port("", "expected", it.bits), Port("", "word", it.bits)]
        lines += [f"  wire {ranged(port.width)}log_{port.name}_of{s};" for port in wires]
        own = "".join(f" .{name}({net})," for name, net in target.log_links(number).items())
        told = ", ".join(f".{port.name}(log_{port.name}_of{s})" for port in wires)
        lines.append(f"  {target.log_name(number)}_log log{s}(.clk(clk), .test(test),{own}")
        lines.append(f"    .pick({pick}), {told});")
    return lines


def choices(target: Target) -> dict[str, str]:
    """Of each part of what is read that of the memory that is chosen."""
    counts = depth_of(target).bit_length()
    sources = {"log_count": ("count", counts), "log_more": ("more", 1), "log_cycle": ("cycle", 32)}
    found = {}
    for port in result(target):
        name, width = sources.get(port.name, ("expected" if port.name == "log_expected" else "word", 0))
        of = [extended(f"log_{name}_of{unit.suffix}", width or unit.memory.bits, port.width) for unit in target.units]
        choice = "".join(f"log_unit == {target.unit_bits}'d{number} ? {one} : " for number, one in enumerate(of[:-1]))
        found[port.name] = f"{choice}{of[-1]}"
    return found


# ---- inside the module of a bus


def inside(target: Target) -> str:
    """What the module of a bus has of the logs, if there are some. It reads nothing before the test is done; after that
    the logs change no more."""
    if target.depth is None:
        return ""
    lines = ["  wire log_here;", *(f"  wire {ranged(port.width)}{port.name};" for port in result(target))]
    chosen = choices(target)
    if target.has_inner_log:
        chosen = {name: f"{name}_now" for name in chosen}
    else:
        lines = [PICK, *lines, *kept(target, picked(target))]
    lines += [
        f"  assign {port.name} = is_done ? ({chosen[port.name]}) : {zero(port.width)};" for port in result(target)
    ]
    return "\n".join([*lines, "  assign log_here = {1'b0, log_pick} < log_count;", ""])


# ---- inside NAME_access


def ports(target: Target) -> list[Port]:
    """The ports by which NAME_access shows its logs: which entry of which memory, and what that has."""
    if not target.has_inner_log:
        return []
    return [Port("input", "log_pick", pick_bits(target)), Port("input", "log_unit", target.unit_bits), *result(target)]


def beside(target: Target) -> list[str]:
    """The logs beside the self-test in NAME_access, if they are there."""
    if not target.has_inner_log:
        return []
    return [*kept(target, "log_pick"), *(f"  assign {name} = {value};" for name, value in choices(target).items())]


def behind(target: Target) -> list[str]:
    """In the module of a bus the wires of what NAME_access shows, which are declared before it."""
    if not target.has_inner_log:
        return []
    return [PICK, *(f"  wire {ranged(port.width)}{port.name}_now;" for port in result(target))]


def told(target: Target) -> list[str]:
    """In the module of a bus the links to NAME_access."""
    if not target.has_inner_log:
        return []
    return [
        f".log_pick({picked(target)})",
        ".log_unit(log_unit)",
        *(f".{port.name}({port.name}_now)" for port in result(target)),
    ]


ABOUT = """
//   log_pick   which entry of a log is told, the first one is 0; log_unit  of which memory; both of any clock
//   log_count  how many entries that log has; log_more  wrong reads came when it was full
//   log_cycle, log_expected, log_returned   the entry; all of them stand when the test is done"""


def about(target: Target) -> str:
    """What the head of NAME_access says of the logs."""
    return ABOUT if target.has_inner_log else ""


# ---- in the testbench of NAME_access


READS = template(__file__, "log_inner_reads.sv")


def bench_declared(target: Target) -> str:
    """The nets of the ports of the logs."""
    kinds = {"input": "reg", "output": "wire"}
    lines = [f"  {kinds[port.direction]} {ranged(port.width)}{port.name};" for port in ports(target)]
    return "\n".join([*lines, "  integer entry;", "  integer of_unit;", ""]) if lines else ""


def bench_reads(target: Target) -> str:
    """What it reads of each log."""
    if not target.has_inner_log:
        return ""
    size = pick_bits(target)
    return READS.substitute(count=target.count, unit_top=target.unit_bits - 1, pick_bits=size, pick_top=size - 1)
