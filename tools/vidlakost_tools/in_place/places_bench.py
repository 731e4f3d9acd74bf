"""The testbench of a chip whose memories stay where they are: both ends of each bundle, bit by bit; then the test by
the chip's own ports, sound and with a wrong bit at each memory, compared with what the sequencer has to do."""
from __future__ import annotations

from typing import Any, Callable

from vidlakost_tools.access import tap
from vidlakost_tools.access.target import extended, zero
from vidlakost_tools.collar.liberty import Found
from vidlakost_tools.collar.names import MARK
from vidlakost_tools.collar.text import PLANTED
from vidlakost_tools.in_place.due import Due
from vidlakost_tools.in_place.place_list import Places
from vidlakost_tools.in_place.places_text import BENCH, EACH, FIRST, LOG, SIGNALS, TAP, WATCHED
from vidlakost_tools.in_place.sequencer import PlaceTarget, length
from vidlakost_tools.in_place.text import CYCLE, InPlace, length_of, ring_of
from vidlakost_tools.verilog.bench_end import FINISH, over, progress
from vidlakost_tools.verilog.syntax import ranged


IDENTIFIED = """      heard = {length}'d0;
      shift(32, {length}'d0);
      if (heard[31:0] !== 32'h{identity:08x}) $fatal(1, "{name}: the identity is %h", heard[31:0]);
"""
OWN_CLOCK = """  // the sequencer has the clock of the chip's that is named
  always @(c_{clock} or dut.{access}.clk) begin
    #0.01;
    if (!is_probed && in_test === 1'b1 && dut.{access}.clk !== c_{clock})
      $fatal(1, "{name}: the clock of the sequencer is %b while {clock} is %b", dut.{access}.clk, c_{clock});
  end
"""


class ChipBench:
    """The testbench that is being written."""

    def __init__(self, target: PlaceTarget, places: Places):
        self.target, self.places, self.count = target, places, target.count
        self.system = target.system
        self.paths = [places.places[placed.name].path for placed in self.system.collars]
        self.inner = [InPlace(placed.macro, placed.word) for placed in self.system.collars]
        for one in self.inner:
            one.text()
        self.slow = max(places.clocks.values())

    def net(self, number: int, name: str) -> str:
        """A net inside the module of a memory, by the name that it has there."""
        return f"dut.{self.paths[number]}.{self.inner[number].names.of(name)}"

    def joined(self, one: Callable[[int], str]) -> str:
        """What there is of each memory, that of memory 0 lowest."""
        return "{" + ", ".join(one(number) for number in reversed(range(self.count))) + "}"

    def clock(self, number: int) -> str:
        """The clock of a memory, as it comes to its module."""
        return f"dut.{self.paths[number]}.{self.system.collars[number].macro.clk}"

    # ---- the chip

    def declared(self, port: Found) -> str:
        name, wide, places = f"c_{port.name}", ranged(port.width), self.places
        if port.way == "output":
            return f"  wire {wide}{name};"
        if port.name in places.clocks:
            # no two clocks ever change in one moment, so that it is known which was first
            late = f"{0.11 + 0.03 * list(places.clocks).index(port.name):.2f}"
            half = f"#({places.clocks[port.name]} / 2.0)"
            return f"  reg {name} = 1'b0;\n  initial #{late} forever {half} {name} = ~{name};"
        if port.name in places.start.values():
            return f"  reg {name} = 1'b{int(places.start.get('trst_n') == port.name)};"
        if port.name in places.values:
            return f"  wire {wide}{name} = {places.values[port.name]};"
        # what is at a port of the chip is nothing to the test
        return f"  wire {wide}{name} = in_test ? {{{port.width}{{1'bx}}}} : {{{port.width}{{1'b0}}}};"

    def links(self) -> str:
        return ",\n    ".join(f".{port.name}(c_{port.name})" for port in self.places.ports)

    def probes(self) -> str:
        lines = []
        for number, path in enumerate(self.paths):
            low = 3 * number
            lines += [f"    dut.{path}.probed = is_probed;", f"    dut.{path}.probe = of_probe[{low + 2}:{low}];"]
            lines.append(f"    dut.{path}.planted = planted[{number}] ? 3'd4 : 3'd0;")
            lines.append(f"    dut.{path}.planted_bit = planted_bit;")
        return "\n".join(lines)

    # ---- the sequencer

    def watched(self) -> str:
        access, groups = self.places.access, self.target.groups
        loads, order = [], []
        for number, placed in enumerate(self.system.collars):
            weight = sum(part.unit.weight for part in placed.parts)
            loads.append(f"      if (is_on[{number}] !== 1'b0) load = load + {weight};")
        for at, group in enumerate(groups[1:], 1):
            before = sum(1 << number for one in groups[:at] for number in one)
            mask = f"{self.count}'h{before:x}"
            for number in group:
                told = f"{self.system.name}: {self.target.units[number].memory.name} begins, and over are %b"
                order.append(f"      if (has_begun[{number}] !== 1'b0 && (are_over & {mask}) !== {mask})")
                order.append(f'        $fatal(1, "{told}", are_over);')
        on = self.joined(lambda number: f"{self.net(number, 'test')} & ~{self.net(number, 'end_2')}")
        return WATCHED.format(
            name=self.system.name,
            count=self.count,
            zero=zero(self.count),
            access=access,
            clock=f"dut.{access}.clk",
            begun=self.joined(lambda number: f"dut.{self.paths[number]}.bist_in[0]"),
            overs=self.joined(lambda number: f"dut.{self.paths[number]}.bist_out[0]"),
            on=on,
            loads="\n".join(loads),
            budget=self.system.budget,
            order="\n".join(order),
            own_clock=self.own_clock(),
            clocks=f"{{dut.{access}.clk, {self.joined(self.clock)}}}",
        )

    def own_clock(self) -> str:
        """Whether the clock of the sequencer is that of the chip's which is named."""
        name = self.places.access_clock
        if not name:
            return ""
        return OWN_CLOCK.format(name=self.system.name, clock=name, access=self.places.access)

    def instruction(self) -> dict[str, Any]:
        """By which instruction the register is reached, and what is looked at before: our own TAP has an identity."""
        bits, code = self.places.under
        if bits:
            return {"ir_top": bits - 1, "instruction": f"{bits}'h{code:x}", "identified": ""}
        told = IDENTIFIED.format(name=self.system.name, length=tap.length(self.target), identity=self.target.identity)
        return {"ir_top": tap.IR_BITS - 1, "instruction": "4'h8", "identified": told}

    def driven(self) -> tuple[str, str]:
        """In a scan TDO is driven, and outside it is off, or the chip tells so by a port."""
        name, start = self.system.name, self.places.start
        port = start.get("tdo_en")
        if port is None:
            told = f"{start.get('tdo')} is driven outside scans: name the port of tdo_en behind it in the line tap"
            return "", f'      if (c_{start.get("tdo")} !== 1\'bz) $fatal(1, "{name}: {told}");\n'
        scan, rest = (f"{port} is not {bit} {where} a scan" for bit, where in ((1, "in"), (0, "outside")))
        inside = f'        if (c_{port} !== 1\'b1) $fatal(1, "{name}: {scan}");\n'
        return inside, f'      if (c_{port} !== 1\'b0) $fatal(1, "{name}: {rest}");\n'

    # ---- the ways to start

    def limit(self) -> int:
        """Within how many nanoseconds a test is over and read, by whichever clock."""
        bits = max(ring_of(placed.word) for placed in self.system.collars)
        cycles = sum(max(length(self.system.collars[number]) for number in group) + 40 for group in self.target.groups)
        scan = 20 * (tap.length(self.target) + 8) if self.places.has_tap else 0
        return self.slow * (2 * cycles + 40 * bits) + 4 * scan + 1000

    def tasks(self) -> str:
        target, places = self.target, self.places
        values: dict[str, Any] = {
            "name": target.name,
            "count": self.count,
            "zero": zero(self.count),
            "access": places.access,
            "limit": self.limit(),
            "period": self.slow,
            "settle": 40 * self.slow,
            "word": target.word,
            **places.start,
        }
        cases = []
        for number, placed in enumerate(self.system.collars):
            kept, bits = self.net(number, "first"), placed.word.bits
            places_of = (f"{CYCLE + bits - 1}:{CYCLE}", f"{CYCLE + 2 * bits - 1}:{CYCLE + bits}")
            words = [extended(f"{kept}[{place}]", bits, target.word) for place in places_of]
            asked = f"when_read !== {kept}[{CYCLE - 1}:0] || wanted !== {words[0]} || got !== {words[1]}"
            told = f'"{target.name}: memory {number} has kept %h", {kept}'
            due = Due(placed)
            wrong = f"when_read !== ({due.cycle('which')})"
            wrong += f" || ((wanted ^ ({due.expected('which')})) & ({due.mask('which')})) !== 0"
            read = f'"{target.name}: memory {number} failed first in cycle %0d, where %h was expected; its march reads'
            read += f" %h in %0d\", when_read, wanted, {due.expected('which')}, {due.cycle('which')}"
            cases += [
                f"        {number}: begin",
                f"          if ({asked})",
                f"            $fatal(1, {told});",
                f"          if ({wrong})",
                f"            $fatal(1, {read});",
                "        end",
            ]
        values["in_scan"], values["at_rest"] = self.driven()
        way = TAP if places.has_tap else SIGNALS
        values["whose"] = extended(f"dut.{places.access}.unit", target.unit_bits, 32)
        if places.has_tap:
            at = {part.name: part.bits for part in tap.parts(target)}
            size = tap.length(target)
            values.update(last=size - 1, length=size, rest=size - self.count, **self.instruction())
            values.update({name: at[name] for name in ("failing", "cycle")})
            values.update(wanted=at["expected"], got=at["returned"])
            values["whose"] = extended(f"heard{at['unit']}", target.unit_bits, 32)
        told = FIRST.format(cases="\n".join(cases), **values) + way.format(**values)
        return told + self.whole_log(values) if self.has_log else told

    @property
    def has_log(self) -> bool:
        """Whether a TAP reads each wrong read that a memory keeps."""
        return self.target.has_entries and self.places.has_tap

    def whole_log(self, values: dict[str, Any]) -> str:
        """What reads all of them."""
        at, word = {part.name: part for part in tap.parts(self.target)}, self.target.word
        heads: list[str] = []
        entries: list[str] = []
        declared = ""
        for number, placed in enumerate(self.system.collars):
            bits, total = placed.word.bits, length_of(placed.word)
            kept = [self.net(number, name) for name in self.inner[number].entries()]
            count = Due(placed).reads("which")
            heads += [f"        {number}: begin", f"          head = {self.net(number, 'head')};"]
            heads += [f"          wrong_reads = {count};", "        end"]
            entries.append(f"          {number}: kept_entry = {self.entry(f'all_{number}', bits, total, word)};")
            declared += f"  wire [{len(kept) * total - 1}:0] all_{number} = {{{', '.join(reversed(kept))}}};\n"
        names = {"told_count": "count", "told_more": "more", "shown": "shown"}
        values.update({name: at[part].bits for name, part in names.items()})
        values.update(depth=self.target.entries, kept_top=CYCLE + 2 * word - 1, below=at["entry"].low)
        return declared + LOG.format(heads="\n".join(heads), entries="\n".join(entries), **values)

    @staticmethod
    def entry(kept: str, bits: int, total: int, word: int) -> str:
        """A wrong read of all that are kept, with its words as long as those of the chip."""
        cycle = f"{kept}[asked_entry * {total} +: {CYCLE}]"
        words = [
            extended(f"{kept}[asked_entry * {total} + {low} +: {bits}]", bits, word) for low in (CYCLE + bits, CYCLE)
        ]
        return f"{{{', '.join(words)}, {cycle}}}"

    def faults(self) -> str:
        """The first, the middle and the last bit of each memory."""
        lines = []
        for number, placed in enumerate(self.system.collars):
            bits = placed.word.bits
            lines.append(f'      if (asked == "" || asked == "{placed.name}") begin')
            some = sorted({0, bits // 2, bits - 1})
            lines += [f"        run({self.count}'d1 << {number}, 7'd{bit});" for bit in some]
            told = f"{self.system.name}: a wrong bit at {placed.name} is found, first in cycle %0d"
            lines += ["        " + progress(told, "first_at"), "      end"]
        return "\n".join(lines)

    def begins(self) -> str:
        """What brings the chip to rest."""
        trst = self.places.start.get("trst_n")
        lines = [f"    c_{trst} = 1'b0;", f"    #20 c_{trst} = 1'b1;"] if trst else []
        return "\n".join([*lines, f"    #{40 * self.slow};"])

    def text(self) -> str:
        places, count = self.places, self.count
        return BENCH.substitute(
            finish=FINISH,
            mark=MARK,
            chip=places.chip,
            name=self.system.name,
            planted=PLANTED,
            over=over(f"{self.system.name}_places_tb"),
            declared="\n".join(self.declared(port) for port in places.ports),
            links=self.links(),
            access=places.access,
            count=count,
            zero=zero(count),
            to_width=2 * count,
            to_top=2 * count - 1,
            of_width=3 * count,
            of_top=3 * count - 1,
            to_begins=self.joined(lambda number: f"dut.{places.access}.to_{number}"),
            to_ends=self.joined(lambda number: f"dut.{self.paths[number]}.bist_in"),
            of_begins=self.joined(lambda number: f"dut.{self.paths[number]}.bist_out"),
            of_ends=self.joined(lambda number: f"dut.{places.access}.of_{number}"),
            probes=self.probes(),
            watched=self.watched(),
            tasks=self.tasks(),
            named="".join(f' && asked != "{placed.name}"' for placed in self.system.collars),
            begins=self.begins(),
            # without a TAP nothing tells which memories are to be ignored, so of the first one is told
            told_of="" if places.has_tap else f" && (where & (({count}'d1 << number) - {count}'d1)) == {zero(count)}",
            told_at_end=EACH if places.has_tap else "wrong bits at all memories are found",
            # of one bit of each memory, since that takes long
            log="          if (which == 0 && (where & where - 1) == 0) whole_log(number, which);\n" * self.has_log,
            settle=40 * self.slow,
            faults=self.faults(),
        )
