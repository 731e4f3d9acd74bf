"""The module round a self-test, by which a tester starts it and reads what it found: a start that is synchronised, the
state, and the cycle and the words of the first failure."""
from __future__ import annotations

from typing import Callable

from vidlakost_tools.access import logs
from vidlakost_tools.access.target import Port, Target, Unit, extended, header, links, zero
from vidlakost_tools.text import template
from vidlakost_tools.verilog.syntax import ranged


def pipeline(unit: Unit) -> tuple[list[str], list[str]]:
    """The declarations and the assignments of the words of a unit: what returned in the cycle before, and what the
    write data were when the read of that answer was commanded."""
    word, suffix = ranged(unit.memory.bits), unit.suffix
    names = [f"want{suffix}_{count}" for count in range(1, unit.memory.latency + 2)]
    declared = [f"  reg {word}{name};" for name in (f"answer{suffix}", *names)]
    sources = [f"wdata{suffix}", *names[:-1]]
    moved = [f"    {name} <= {source};" for name, source in zip(names, sources)]
    return declared, [f"    answer{suffix} <= rdata{suffix};", *moved]


def chosen(target: Target, value: Callable[[int], str]) -> str:
    """What `value` answers of the first unit whose bit of `rises` is 1."""
    if not target.is_chip:
        return value(0)
    parts = [f"rises[{number}] ? {value(number)} : " for number in range(target.count - 1)] if target.count > 1 else []
    return "".join(parts) + value(target.count - 1)


def expected_of(target: Target, number: int) -> str:
    unit = target.units[number]
    return extended(f"want{unit.suffix}_{unit.memory.latency + 1}", unit.memory.bits, target.word)


def returned_of(target: Target, number: int) -> str:
    unit = target.units[number]
    return extended(f"answer{unit.suffix}", unit.memory.bits, target.word)


def of_each(target: Target) -> list[str]:
    """The registers of the first failure of each memory, and the choice of the one that is shown: the first one by its
    number that failed and is not to be ignored. What is chosen is stable, so ignore may come from any clock and change
    after done."""
    words = [(f"cycle_{at}", 32, "count") for at in range(target.count)]
    for at, unit in enumerate(target.units):
        bits, suffix = unit.memory.bits, unit.suffix
        words += [
            (f"expected_{at}", bits, f"want{suffix}_{unit.memory.latency + 1}"),
            (f"returned_{at}", bits, f"answer{suffix}"),
        ]
    lines = [f"  reg {ranged(width)}{name};" for name, width, _ in words]
    lines += [
        f"  reg {ranged(target.count)}kept;",
        "  always @(posedge clk)",
        "    if (!test) begin",
        "      count <= 32'd0;",
        "      done <= 1'b0;",
        f"      failed <= {zero(target.count)};",
        f"      kept <= {zero(target.count)};",
        *(f"      {name} <= {zero(width)};" for name, width, _ in words),
        "    end else begin",
        "      count <= over ? count : count + 32'd1;",
        "      done <= over;",
        "      failed <= fail;",
        "      kept <= kept | rises;",
    ]
    for at in range(target.count):
        bit = f"rises[{at}]" if target.count > 1 else "rises"
        lines.append(f"      if ({bit}) begin")
        lines += [f"        {name} <= {value};" for name, _, value in words if name.rsplit("_", 1)[1] == str(at)]
        lines.append("      end")
    return [*lines, "    end", *told_of_each(target)]


def told_of_each(target: Target) -> list[str]:
    """Which of them is shown."""
    count, bits, last = target.count, target.unit_bits, target.count - 1
    chosen_unit = "".join(f"open[{at}] ? {bits}'d{at} : " for at in range(last)) if count > 1 else ""
    found = [
        f"  wire {ranged(count)}open = kept & ~ignore;",
        f"  assign seen = open != {zero(count)};",
        f"  assign unit = {chosen_unit}{bits}'d{last};",
    ]
    for name, width in (("cycle", 32), ("expected", target.word), ("returned", target.word)):
        of = [
            extended(f"{name}_{at}", width if name == "cycle" else unit.memory.bits, width)
            for at, unit in enumerate(target.units)
        ]
        choice = "".join(f"unit == {bits}'d{at} ? {one} : " for at, one in enumerate(of[:-1]))
        found.append(f"  assign {name} = {choice}{of[-1]};")
    return found


def capture(target: Target) -> list[str]:
    """The registers of the first failure: they are written once, and hold until `test` falls."""
    if target.each:
        return of_each(target)
    values = [
        ("seen", 1, "1'b1"),
        ("cycle", 32, "count"),
        ("expected", target.word, chosen(target, lambda number: expected_of(target, number))),
        ("returned", target.word, chosen(target, lambda number: returned_of(target, number))),
    ]
    if target.is_chip:
        bits = target.unit_bits
        values.append(("unit", bits, chosen(target, lambda number: f"{bits}'d{number}")))
        clear, hit = [f"      failed <= {zero(target.count)};"], f"rises != {zero(target.count)}"
        move = ["      failed <= fail;"]
    else:
        clear, hit, move = [], "fail", []
    return [
        "  always @(posedge clk)",
        "    if (!test) begin",
        "      count <= 32'd0;",
        "      done <= 1'b0;",
        *clear,
        *(f"      {name} <= {zero(width)};" for name, width, _ in values),
        "    end else begin",
        "      count <= over ? count : count + 32'd1;",
        "      done <= over;",
        *move,
        f"      if ({hit} && !seen) begin",
        *(f"        {name} <= {value};" for name, _, value in values),
        "      end",
        "    end",
    ]


ACCESS = """// The self-test of {name}, its start and its state, and of the first failure the cycle and the words.
//   start      of any clock: the test runs while it is 1, and what was found is kept until it falls
//   test       1 while the self-test has the {what}; 0 in normal use
//   done       the test is over; seen, fail and the words stand by then
//   fail       {fail}
//   cycle      in which the wrong word stood on rdata; the last cycle of the reset is 0"""


def access(target: Target) -> str:
    """The module NAME_access."""
    fail = "a bit for each unit, the first one's lowest" if target.is_chip else "a read was wrong"
    about = ACCESS.format(name=target.name, what="memories" if target.is_chip else "memory", fail=fail)
    if target.is_chip:
        about += (
            "\n//   unit       whose failure it is"
            "\n//   ignore     a bit for each unit whose failures are not kept; it stays as it is while start is 1"
        )
        if target.each:
            about = about.replace(
                "whose failures are not kept; it stays as it is while start is 1", "of whose failure nothing is told"
            )
            about = about.replace(
                "whose failure it is", "whose failure it is: the first one, by its number, that failed"
            )
    about += logs.about(target)
    state = [Port("output", name) for name in ("test", "done", "fail", "seen")]
    state[2].width = target.count
    ports = [Port("input", "clk"), Port("input", "start"), *target.choice(), *target.ports(), *state, *target.result()]
    ports += logs.ports(target)
    kept = ("done",) if target.each else ("done", "seen", *(port.name for port in target.result()))
    declared, moved = [], []
    for unit in target.units:
        more = pipeline(unit)
        declared += more[0]
        moved += more[1]
    lines = [
        "  // start comes of another clock",
        "  reg start_1;",
        "  reg start_2;",
        "  reg [31:0] count;",
        "  wire over;",
        *target.nets(),
        *declared,
        *([f"  reg {ranged(target.count)}failed;", f"  wire {ranged(target.count)}rises;"] if target.is_chip else []),
        "  assign test = start_2;",
        *([f"  assign rises = fail & ~failed{'' if target.each else ' & ~ignore'};"] if target.is_chip else []),
        *target.self_test(),
        "  always @(posedge clk) begin",
        "    start_1 <= start;",
        "    start_2 <= start_1;",
        *moved,
        "  end",
        *capture(target),
        *logs.beside(target),
        "endmodule",
    ]
    return header(about, f"{target.name}_access", ports, kept, target.conditional()) + "\n".join(lines) + "\n"


# ---- from one clock to the other

CROSS = template(__file__, "block_cross.sv")


def cross(target: Target) -> str:
    """The module NAME_cross."""
    return CROSS.substitute(name=target.name, fails=ranged(target.count), zero=zero(target.count))


def inside(target: Target, clock: str, reset_n: str) -> str:
    """The declarations and the two modules that each bus contains."""
    wires = [
        ("done", 1),
        ("fail", target.count),
        ("seen", 1),
        ("start", 1),
        ("has_test", 1),
        ("is_done", 1),
        ("has_failed", target.count),
        ("is_seen", 1),
        *((port.name, port.width) for port in target.result()),
    ]
    found = ["test", "done", "fail", "seen"]
    names = [Port("", name) for name in (*found, "start", "has_test", "is_done", "has_failed", "is_seen")]
    lines = [f"  wire {ranged(width)}{name};" for name, width in wires] + logs.behind(target)
    behind = [*target.choice(), *target.ports(), *(Port("", name) for name in found), *target.result()]
    told = "".join(f",\n    {link}" for link in logs.told(target))
    lines += [
        f"  {target.name}_cross crossing(.clock({clock}), .reset_n({reset_n}), .want(want),",
        f"    {links(names)});",
        "\n".join([f"  {target.name}_access tested(", *target.handed_on(), "    "]).replace("(\n    ", "(")
        + f".clk(clk), .start(start), {links(behind)}{told});",
    ]
    return "\n".join(lines) + "\n"


# ---- memories for the testbenches

MODEL = template(__file__, "block_model.sv")
PART = template(__file__, "block_part.sv")


def model(target: Target) -> str:
    """The module NAME_model: memories as wide and as late as those of the target."""
    parts = []
    for number, unit in enumerate(target.units):
        it = unit.memory
        parts.append(
            PART.substitute(
                s=unit.suffix,
                number=number,
                word=ranged(it.bits),
                last=(1 << it.width) - 1,
                latency=it.latency,
                address=extended(f"addr{unit.suffix}", it.width, 16),
                one=f"{it.bits}'d1",
                zero=zero(it.bits),
                bits=it.bits,
            )
        )
    ways = {"input": "output", "output": "input"}
    turned = [Port(ways[port.direction], port.name, port.width) for port in target.ports()]
    ports = ",\n  ".join(port.declared() for port in turned)
    which = " of one unit" if target.is_chip else ""
    return MODEL.substitute(name=target.name, ports=ports, parts="".join(parts), unit=which)
