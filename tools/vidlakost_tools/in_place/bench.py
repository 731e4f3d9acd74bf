"""The testbench of a memory in its place: that of a collar, by the bundle; and of each bit that is planted the first
failure, which is read bit by bit and has to be what stood at the collar."""
from __future__ import annotations

from vidlakost_tools.collar.bench import Bench, indented
from vidlakost_tools.collar.planted import INPUTS, some_of
from vidlakost_tools.collar.pins import Macro, Word
from vidlakost_tools.collar.watch import GATES
from vidlakost_tools.in_place.due import Due
from vidlakost_tools.in_place.text import CYCLE, HEAD_BITS, InPlace, length_of, ring_of
from vidlakost_tools.text import template
from vidlakost_tools.verilog.bench_end import progress
from vidlakost_tools.verilog.syntax import ranged

DUT = template(__file__, "bench_dut.sv")
FIRST = template(__file__, "bench_first.sv")
LOG = template(__file__, "bench_log.sv")
LOG_WRONG = template(__file__, "bench_log_wrong.sv")


class PlaceBench(Bench):
    """The parts of that testbench."""

    tool = "top"

    def __init__(self, macro: Macro, word: Word, due: Due):
        super().__init__(macro, word)
        self.due = due

    @property
    def module(self) -> str:
        return f"{self.word.name}_in_place"

    def dut(self) -> str:
        names = [name for name, _ in INPUTS]
        return DUT.substitute(
            module=self.module,
            clk=self.macro.clk,
            power=self.power(),
            links=self.links(),
            gates=GATES,
            wakes=" or ".join(names),
            planted="\n".join(f"    dut.{name} = {name};" for name in names),
        )

    def tasks(self) -> str:
        low = CYCLE
        return super().tasks() + FIRST.substitute(
            name=self.word.name,
            gates=GATES,
            cycle=CYCLE - 1,
            count=self.counter(),
            word=ranged(self.bits),
            bits=self.bits,
            latency=self.word.first.latency,
            top=length_of(self.word) - 1,
            length=ring_of(self.word),
            ring=ring_of(self.word) - 1,
            **self.logged(),
            due=self.due.function(),
            given=self.inside_name("given"),
            taken=self.inside_name("taken"),
            random="{" + ", ".join(["$random"] * -(-self.bits // 32)) + "}",
            low=low,
            middle=low + self.bits,
            most=self.most(),
            disturbed=self.disturbed("~"),
            settled=self.disturbed(""),
        )

    def logged(self) -> dict[str, str]:
        """What looks at each wrong read where several are kept; the first one stands behind their number."""
        depth, total = self.word.depth, length_of(self.word)
        first = f"all[{HEAD_BITS + total - 1}:{HEAD_BITS}]"
        if not depth:
            blank = dict.fromkeys(("log", "log_wrong", "log_begins", "unasked", "asked"), "")
            return {**blank, "first": "all"}
        values = {
            "name": self.word.name, "latency": self.word.first.latency, "depth": depth, "top": total - 1,
            "total": total, "low": HEAD_BITS, "taken": self.inside_name("taken"),
        }
        return {
            "first": first,
            "log": LOG.substitute(**values),
            # a failure that is of no read, as one of the lanes
            "unasked": f"      if (is_unasked) force dut.{self.inside_name('asks')} = 1'b0;\n",
            "asked": f"        release dut.{self.inside_name('asks')};\n        is_unasked = 1'b0;\n",
            "log_begins": "      reads <= 0;\n      wrong_reads <= 0;\n",
            "log_wrong": LOG_WRONG.substitute(**values),
        }

    def counter(self) -> str:
        """The name that the number of the cycle has in the module."""
        return self.inside_name("cycle")

    def inside_name(self, name: str) -> str:
        """The name that a net has in the module."""
        made = InPlace(self.macro, self.word)
        made.text()
        return made.names.of(name)

    def faults(self) -> str:
        places = some_of(self.word.name, self.bits)
        lines = [f"  first_failure(7'd{one.low}, 32'h0, -1);" for one in self.due.firsts]
        for count in range(5):
            # each two bits differ in one of these words, and in its inverse, which comes a cycle later
            word = sum((bit >> count & 1) << bit for bit in range(CYCLE))
            for begin, later in ((word, 0), ((1 << CYCLE) - 1 - word, 1)):
                lines.append(f"  first_failure(7'd{places[count % len(places)]}, 32'h{begin:x}, {later});")
        # the words of a march with few backgrounds have bits that are always alike
        lines.append("`ifndef VERILATOR")
        lines += ["  is_scrambled = 1'b1;", f"  first_failure(7'd{places[0]}, 32'h0, 0);"] * 4
        if self.word.depth:
            for began in (0x55555555, 0x33333333, 0x0F0F0F0F, 0x00FF00FF, 0x0000FFFF):
                lines += ["  is_scrambled = 1'b1;", "  is_unasked = 1'b1;"]
                lines.append(f"  first_failure(7'd{places[0]}, 32'h{began:x}, 0);")
        lines += ["`endif", "  " + progress(f"{self.word.name}: the first failure is read")]
        return "\n".join([super().faults(), f"`ifndef {GATES}", *map(indented, map(indented, lines)), "`endif"])
