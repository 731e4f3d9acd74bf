"""The testbenches of what `vidlakost access` writes: a sound memory, or one with a bit that is stuck, started and
read."""
from __future__ import annotations

from vidlakost_tools.access import logs
from vidlakost_tools.access.target import Port, Target, extended, links, zero
from vidlakost_tools.text import beside, template
from vidlakost_tools.verilog.bench_end import FINISH, over, planted
from vidlakost_tools.verilog.syntax import ranged

TOP = template(__file__, "bench_top.sv")
AGES = template(__file__, "bench_ages.sv")
BEGINS = beside(__file__, "bench_begins.sv")
# the cycle that is told is counted beside the module, too
AT_AGE = """      if (planted && when_read !== failed_at[at_unit])
        $fatal(1, "{name}: cycle %0d is told, and fail rose in cycle %0d", when_read, failed_at[at_unit]);
      if (planted && number < 2 && {{when_read, wanted, got}} !==
          {{read_at[at_unit], read_wanted[at_unit], read_got[at_unit]}})
        $fatal(1, "{name}: cycle %0d, %h and %h are told, and the first wrong read was in cycle %0d, %h and %h",
          when_read, wanted, got, read_at[at_unit], read_wanted[at_unit], read_got[at_unit]);
{due}"""
# a bit that is wrong in each word is found in the first read of the march
DUE = """      if (planted && number < 2 && at_unit == 10'd{number}
          && (when_read !== 32'd{cycle} || wanted !== {expected}))
        $fatal(1, "{name}: memory {number} failed first in cycle %0d, where %h was expected; its march reads %h in %0d",
          when_read, wanted, {expected}, 32'd{cycle});
"""


def testbench(target: Target, kind: str, how: str, half: int, declared: str, link: str, body: str) -> str:
    """A testbench; `body` has the task and the block that start the test and read what it found."""
    return TOP.substitute(
        name=target.name,
        kind=kind,
        how=how,
        half=half,
        declared=declared + target.bench_nets(),
        head=target.bench_head(),
        beside_nets=target.beside_nets(),
        how_planted=target.how_planted(),
        fails=ranged(target.count),
        word=ranged(target.word),
        top=41 + 2 * target.word,
        over=over(f"{target.name}_{kind}_tb"),
        planted=planted(f"{target.name}_{kind}_tb", sizes(target)),
        wanted_fails=target.wanted_fails(),
        word_one=f"{target.word}'d1",
        links=link + target.beside() + ages(target, kind) + target.ends(kind),
        at_age=AT_AGE.format(name=target.name, due=due(target)) if target.counts_cycles else "",
        body=body,
        unit_form=" unit %0d" if target.is_chip else "",
        unit_value=", whose" if target.is_chip else "",
    )


def due(target: Target) -> str:
    """What the first failure of each memory has to be, where that is known."""
    lines = []
    for number, (cycle, expected) in target.first_reads().items():
        word = f"{target.word}'h{expected:x}"
        lines.append(DUE.format(name=target.name, number=number, cycle=cycle, expected=word))
    return "".join(lines)


def ages(target: Target, kind: str) -> str:
    """In which cycle each bit of fail rose."""
    inside = "dut" if kind == "access" else "dut.tested"
    begins = BEGINS if kind == "access" else ""
    if not target.counts_cycles:
        return ""
    looks = "\n".join(line for number in range(target.count) for line in wrong_read(target, number, inside))
    return AGES.substitute(count=target.count, inside=inside, word=ranged(target.word), looks=looks) + begins


def wrong_read(target: Target, number: int, inside: str) -> list[str]:
    """The first wrong read of a memory, as the ports of its test have it: what its log would have first."""
    memory, at = target.units[number].memory, f"read_{number}"
    head = f"{inside}." if target.is_inside else ""
    en, we, given, taken = (
        name if "'" in name else f"{head}{name}"
        for name in (target.log_links(number)[port] for port in ("en", "we", "wdata", "rdata"))
    )
    wants, asks = [f"{at}_want_{age}" for age in range(1, memory.latency + 1)], f"{en} & ~{we}"
    older = f"{{{at}_due[{memory.latency - 1}:1], {asks}}}" if memory.latency > 1 else asks
    return [
        f"  reg [{memory.latency}:1] {at}_due;",
        f"  reg [{memory.bits - 1}:0] {', '.join(wants)};",
        "  always @(posedge clk) begin",
        f"    {at}_due <= test === 1'b1 ? {older} : {memory.latency}'d0;",
        *(f"    {later} <= {earlier};" for later, earlier in zip(wants, [given, *wants])),
        f"    if (test !== 1'b1) has_read_wrong[{number}] <= 1'b0;",
        f"    else if ({at}_due[{memory.latency}] === 1'b1 && {taken} !== {wants[-1]}",
        f"        && !has_read_wrong[{number}]) begin",
        f"      has_read_wrong[{number}] <= 1'b1;",
        f"      read_at[{number}] <= age + 1;",
        f"      read_wanted[{number}] <= {wants[-1]};",
        f"      read_got[{number}] <= {taken};",
        "    end",
        "  end",
    ]


def sizes(target: Target) -> list[tuple[int, int]]:
    """The words and the bits of each memory."""
    return [(unit.memory.words, unit.memory.bits) for unit in target.units]


def most(target: Target) -> int:
    """How many cycles a test may take: no march has more than 256 operations and 64 pauses."""
    if target.done is not None:
        return target.done + 100
    it = target.units[0].memory
    return len(it.backgrounds) * (256 * it.words + 64 * it.pause) + 100


READ = """      when_read = cycle;
      wanted = expected;
      got = returned;
      whose = {whose};"""
ACCESS_BODY = template(__file__, "bench_access.sv")


def access_bench(target: Target) -> str:
    """The testbench of NAME_access."""
    state = [Port("", "done"), Port("", "fail", target.count), Port("", "seen"), *target.result()]
    declared = "  reg start = 1'b0;\n" + "".join(f"  wire {ranged(port.width)}{port.name};\n" for port in state)
    choice = "".join(f", .{port.name}({zero(port.width)})" for port in target.choice())
    if target.each:
        choice = ", .ignore(ignored)"
    declared += logs.bench_declared(target)
    read = READ.format(whose=extended("unit", target.unit_bits, 10) if target.is_chip else "10'd0")
    link = (
        f"  {target.name}_access dut({target.bench_links()}.clk(clk), .start(start){choice}, {links(target.ports())},\n"
    )
    link += f"    .test(test), {links([*state, *logs.ports(target)])});\n"
    body = ACCESS_BODY.substitute(
        finish=FINISH,
        name=target.name,
        most=most(target) + 100,
        rounds="(planted ? 12 : 2)" if target.counts_cycles else "2",
        any=f"fail != {zero(target.count)}",
        read=read,
        each=target.read_each("access", f"        #1;\n{read}\n"),
        log=logs.bench_reads(target),
        none=zero(target.count),
    )
    return testbench(target, "access", "by a signal of another clock", 5, declared, link, body)
