"""One controller for several equal memories: each has a comparator and a bit of `fail` of its own."""
from __future__ import annotations

from vidlakost_tools.access.bench import most
from vidlakost_tools.access.block import model
from vidlakost_tools.access.target import model_links
from vidlakost_tools.access.target import Port, Target, Unit, header
from vidlakost_tools.texts.memory import Memory
from vidlakost_tools.text import template
from vidlakost_tools.verilog.bench_end import FINISH, over, planted
from vidlakost_tools.verilog.syntax import ranged

SHARE = """// One self-test of {name} for {count} equal memories, which do the same in step. Memory 0 is compared by the
// controller itself, each other by a comparator beside it: in the cycle of a read wdata has the word that it expects,
// which has to stand on its rdata {latency} cycles later. The bit of memory 0 is the lowest of fail."""


def target_of(memory: Memory, count: int) -> Target:
    """The memories of a testbench."""
    units = [Unit(memory, f"_{number}") for number in range(count)]
    return Target(f"{memory.name}_share", f"{memory.name}_bist", units, True)


def block(memory: Memory, count: int) -> str:
    """The module NAME_share."""
    word = ranged(memory.bits)
    ports = [
        Port("input", "clk"),
        Port("input", "reset"),
        *(Port("input", f"rdata_{number}", memory.bits) for number in range(count)),
        Port("output", "en"),
        Port("output", "we"),
        Port("output", "addr", memory.width),
        Port("output", "wdata", memory.bits),
        Port("output", "done"),
        Port("output", "fail", count),
    ]
    stages, last = range(1, memory.latency + 1), memory.latency
    moved, found = [], []
    for stage in stages:
        before = ("en & ~we", "wdata") if stage == 1 else (f"reads_{stage - 1}", f"want_{stage - 1}")
        moved += [f"    reads_{stage} <= {before[0]} & ~reset;", f"    want_{stage} <= {before[1]};"]
    for number in range(1, count):
        found.append(f"    bad_{number} <= ~reset & (bad_{number} | (reads_{last} & (rdata_{number} != want_{last})));")
    gated = ", ".join(f"bad_{number} & ~reset" for number in range(count - 1, 0, -1))
    lines = [
        *(f"  reg reads_{stage};\n  reg {word}want_{stage};" for stage in stages),
        "  wire bad_0;",
        *(f"  reg bad_{number};" for number in range(1, count)),
        f"  {memory.name}_bist self_test(.clk(clk), .reset(reset), .rdata(rdata_0), .en(en), .we(we), .addr(addr),",
        "    .wdata(wdata), .done(done), .fail(bad_0));",
        f"  assign fail = {{{gated}, bad_0}};",
        "  always @(posedge clk) begin",
        *moved,
        *found,
        "  end",
        "endmodule",
    ]
    about = SHARE.format(name=memory.name, count=count, latency=memory.latency)
    return header(about, f"{memory.name}_share", ports) + "\n".join(lines) + "\n"


BENCH = template(__file__, "one_controller_bench.sv")


def bench(memory: Memory, count: int) -> str:
    """The testbench of NAME_share."""
    target = target_of(memory, count)
    text = model_links(target)
    for number in range(count):
        for name in ("en", "we", "addr", "wdata"):
            text = text.replace(f".{name}_{number}({name}_{number})", f".{name}_{number}({name})")
    return BENCH.substitute(
        finish=FINISH,
        name=memory.name,
        over=over(f"{memory.name}_share_tb"),
        planted=planted(f"{memory.name}_share_tb", [(memory.words, memory.bits)] * count),
        count=count,
        fails=ranged(count),
        address=ranged(memory.width),
        word=ranged(memory.bits),
        wires="".join(f"  wire {ranged(memory.bits)}rdata_{number};\n" for number in range(count)),
        answers=", ".join(f".rdata_{number}(rdata_{number})" for number in range(count)),
        model=text,
        most=most(target),
        one=f"{count}'d1",
        zero=f"{count}'d0",
    )


def texts(memory: Memory, count: int) -> dict[str, str]:
    """The files by their names."""
    return {
        f"{memory.name}_share.v": block(memory, count),
        f"{memory.name}_share_model.v": model(target_of(memory, count)),
        f"{memory.name}_share_tb.sv": bench(memory, count),
    }
