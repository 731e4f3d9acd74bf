"""A memory that stays where it is in the hierarchy of a chip: a module with the ports of its macro, and one small
bundle that starts its test and reads it. Inside are its collar, its controller and the first failure."""
from __future__ import annotations

import dataclasses

from vidlakost_tools.access.target import Port
from vidlakost_tools.collar import planted as collar_planted
from vidlakost_tools.collar.names import MARK, Names, planted_names
from vidlakost_tools.collar.pins import Macro, Word
from vidlakost_tools.collar.text import FOOT, HEAD, PLANTED
from vidlakost_tools.collar.watch import POWER
from vidlakost_tools.verilog.syntax import ranged

# the bundle: to the memory, whether it is tested and a step of what is read; from it, the lowest bit first
BUNDLE = [Port("input", "bist_in", 2), Port("output", "bist_out", 3)]
# the bits of the number of a cycle; those that say how many wrong reads are kept, and whether more came
CYCLE, HEAD_BITS = 32, 8
ABOUT = f"""{MARK} top: the memory {{name}} in the place of its macro {{macro}}, with the ports of that and a bundle.
//   bist_in[0]    the memory is tested while this is 1; it may come of any clock
//   bist_in[1]    each rise brings the next bit of the first failure to bist_out[2]
//   bist_out[0]   the test is over
//   bist_out[1]   a read was wrong; 0 also while bist_in[1] is 1
//   bist_out[2]   the test has the memory, until it is over; then a bit of the first failure, the lowest first:
//                 {CYCLE} bits of the cycle, {{bits}} of the word that was expected, {{bits}} of the one that came
"""
# said in the head of a module that keeps more than the first wrong read
KEEPS = "// It keeps {depth} wrong reads: the bits begin with their count, in 7 bits, and whether more came."


def length_of(word: Word) -> int:
    """How many bits a first failure takes."""
    return CYCLE + 2 * word.bits


def ring_of(word: Word) -> int:
    """How many bits are read until the first one comes again."""
    return HEAD_BITS + word.depth * length_of(word) if word.depth else length_of(word)


def kind_of(word: Word) -> str:
    """The kind of the collar of a memory in its place."""
    return "logged" if word.depth else "told"


@dataclasses.dataclass
class InPlace:
    """The module NAME_in_place that is being written."""

    macro: Macro
    word: Word

    def __post_init__(self) -> None:
        self.scan = [Port("input", "scan_mode")] if self.macro.bypass else []
        own = {port.name for port in [*BUNDLE, *self.scan]}
        pins = {name for pin in self.macro.pins for name in pin.names()}
        for pin in self.macro.pins:
            if own & set(pin.names()):
                told = f"the module {self.word.name}_in_place has a port '{pin.name}', so no pin can have that name"
                raise self.macro.refuse(pin.line, told)
        self.names = Names(own | pins | planted_names() | {"probed", "probe"})
        self.names.of("test")
        self.lines: list[str] = []

    def ports(self) -> list[tuple[str, int, str]]:
        """The ports except supplies: direction, width, name."""
        found = [("input", 1, self.macro.clk)]
        for way, pin in self.macro.chip_pins():
            if way != "inout":
                found += [(way, 1, name) for name in pin.bits] or [(way, pin.width, pin.name)]
        return [*found, *((port.direction, port.width, port.name) for port in [*self.scan, *BUNDLE])]

    def reg(self, name: str, width: int = 1) -> str:
        made = self.names.of(name)
        self.lines.append(f"  reg {ranged(width)}{made};")
        return made

    # ---- what is inside

    def collar(self) -> list[str]:
        """The collar, whose pins are those of the module."""
        names, power = self.names, [f"    .{pin.name}({pin.name})," for pin in self.macro.of("power")]
        links = [f".clk({self.macro.clk})", f".test({names.of('test')})"]
        links += [f".{port.name}({port.name})" for port in self.scan]
        told = ["done", "fail", "given", "taken", *(["asks"] if self.word.depth else [])]
        links += [f".{port}({names.of(port)})" for port in told]
        links += [f".{name}({name})" for way, pin in self.macro.chip_pins() if way != "inout" for name in pin.names()]
        planted = ", ".join(f".{name}({name})" for name, _ in collar_planted.INPUTS)
        return [
            f"  {self.word.name}_collar {names.of('collar')}(",
            *([f"`ifdef {POWER}", *power, "`endif"] if power else []),
            *[f"`ifdef {PLANTED}", f"    {planted},", "`endif"],
            "    " + ",\n    ".join(links),
            "  );",
        ]

    def recorder(self) -> list[str]:
        """What is kept of wrong reads, and how it goes out."""
        names, bits = self.names, self.word.bits
        given, taken, latency = names.of("given"), names.of("taken"), self.word.first.latency
        # what was given when the read of an answer was commanded that is known to be wrong
        want = [self.reg(f"want_{number}", bits) for number in range(1, latency + 2)]
        answer = self.reg("answer", bits)
        due = [self.reg(f"due_{number}") for number in range(1, latency + 1)] if self.word.depth else []
        kept = self.kept_registers()
        cycle, failed = self.reg("cycle", CYCLE), self.reg("failed")
        begin, test = self.reg("begun"), self.reg("test")
        steps = [self.reg(f"step_{number}") for number in (1, 2, 3)]
        ends = [self.reg(f"end_{number}") for number in (1, 2, 3)]
        over, bad = names.of("done"), names.of("fail")
        asked = [f"{test} & {names.of('asks')}", *due] if due else []
        return [
            f"  always @(posedge {self.macro.clk}) begin",
            f"    {begin} <= bist_in[0];",
            f"    {test} <= {begin};",
            f"    {steps[0]} <= bist_in[1];",
            *(f"    {later} <= {earlier};" for earlier, later in zip(steps, steps[1:])),
            f"    {answer} <= {taken};",
            *(f"    {later} <= {earlier};" for earlier, later in zip([given, *want], want)),
            *(f"    {later} <= {earlier};" for earlier, later in zip(asked, due)),
            f"    if (!{test}) begin",
            f"      {cycle} <= {CYCLE}'d0;",
            f"      {failed} <= 1'b0;",
            *(f"      {end} <= 1'b0;" for end in ends),
            *(f"      {name} <= {width}'d0;" for name, width in kept),
            "    end else begin",
            f"      if (!{over}) {cycle} <= {cycle} + {CYCLE}'d1;",
            f"      {failed} <= {failed} | {bad};",
            f"      {ends[0]} <= {over};",
            *(f"      {later} <= {earlier};" for earlier, later in zip(ends, ends[1:])),
            *(self.logs(kept, due[-1], want) if due else []),
            *self.keeps(kept, f"{{{answer}, {want[-1]}, {cycle}}}"),
            "    end",
            "  end",
        ]

    def kept_registers(self) -> list[tuple[str, int]]:
        """The registers whose bits go round, the lowest first, with their widths."""
        total, depth = length_of(self.word), self.word.depth
        head = [(self.reg("head", HEAD_BITS), HEAD_BITS)] if depth else []
        return [*head, *((self.reg(name, total), total) for name in self.entries())]

    def entries(self) -> list[str]:
        """The registers of the wrong reads that are kept."""
        return ["first", *(f"entry_{number}" for number in range(1, self.word.depth or 1))]

    def logs(self, kept: list[tuple[str, int]], due: str, want: list[str]) -> list[str]:
        """Each wrong read is kept while there is a place for it: in its cycle, which is the one behind that of the
        number."""
        head, taken, cycle = kept[0][0], self.names.of("taken"), self.names.of("cycle")
        entry = f"{{{taken}, {want[self.word.first.latency - 1]}, {cycle} + {CYCLE}'d1}}"
        places = [
            f"        if ({head}[6:0] == 7'd{number}) {name} <= {entry};" for number, (name, _) in enumerate(kept[1:])
        ]
        return [
            f"      if ({due} && {taken} != {want[self.word.first.latency - 1]}) begin",
            f"        if ({head}[6:0] == 7'd{self.word.depth}) {head}[7] <= 1'b1;",
            f"        else {head}[6:0] <= {head}[6:0] + 7'd1;",
            *places,
            "      end else",
        ]

    def keeps(self, kept: list[tuple[str, int]], first: str) -> list[str]:
        """The first failure is kept, whatever it is of, and a step brings each bit to the place of the next one."""
        names = self.names
        first_one = kept[1 if self.word.depth else 0][0]
        none = f" && {kept[0][0]}[6:0] == 7'd0" if self.word.depth else ""
        begins = f"      if ({names.of('fail')} && !{names.of('failed')}{none}) {first_one} <= {first};"
        is_step = f"{names.of('step_2')} && !{names.of('step_3')}"
        moved = [
            f"{name} <= {{{kept[(number + 1) % len(kept)][0]}[0], {name}[{width - 1}:1]}};"
            for number, (name, width) in enumerate(kept)
        ]
        if len(moved) == 1:
            return [begins, f"      else if ({is_step}) {moved[0]}"]
        return [begins, f"      else if ({is_step}) begin", *(f"        {line}" for line in moved), "      end"]

    def told(self) -> list[str]:
        """What the bundle drives; a testbench can drive other values instead, to see where they arrive."""
        names, last = self.names, length_of(self.word) - 1
        top = f"entry_{self.word.depth - 1}" if self.word.depth and self.word.depth > 1 else "first"
        told = f"{names.of('end_3')} ? {names.of(top)}[{last}] : {names.of('test')}"
        value = f"{{{told}, {names.of('failed')} & ~{names.of('step_3')}, {names.of('end_2')}}}"
        return collar_planted.also(f"  assign bist_out = {value}", "& {3{~probed}} | {3{probed}} & probe")

    def planted(self) -> list[str]:
        """What a testbench sets inside."""
        regs = [*collar_planted.INPUTS, ("probed", 1), ("probe", 3)]
        return [f"`ifdef {PLANTED}", *(f"  reg {ranged(width)}{name} = {width}'d0;" for name, width in regs), "`endif"]

    def watched(self) -> list[str]:
        """In a testbench, whether each pin of the collar has what the module has."""
        names, collar = self.names, self.names.of("collar")
        pins = [name for way, pin in self.macro.chip_pins() if way != "inout" for name in pin.names()]
        pins += [port.name for port in self.scan]
        power = [pin.name for pin in self.macro.of("power")]
        looks = {**{name: name for name in pins}, "test": names.of("test")}
        found = [line for there, here in looks.items() for line in self.look(f"{collar}.{there}", here)]
        under = [line for name in power for line in self.look(f"{collar}.{name}", name)]
        clock = self.look(f"{collar}.clk", self.macro.clk)
        return [
            f"`ifdef {PLANTED}",
            f"  always @(posedge {self.macro.clk}) begin",
            *found,
            *([f"`ifdef {POWER}", *under, "`endif"] if under else []),
            "  end",
            f"  always @({' or '.join([self.macro.clk, *self.clocks()])}) begin",
            "    #1;",
            *clock,
            *(line for name in self.clocks() for line in self.look(f"{collar}.{name}", name)),
            "  end",
            "`endif",
        ]

    def clocks(self) -> list[str]:
        """The further clocks of the chip's."""
        return [pin.name for way, pin in self.macro.chip_pins() if way == "input" and pin.kind in ("clk", "clock2")]

    def look(self, there: str, here: str) -> list[str]:
        told = f"{self.word.name}: %b stands at {there.split('.')[-1]} of the collar, and it has to be %b"
        return [f"    if ({there} !== {here})", f'      $fatal(1, "{told}", {there}, {here});']

    # ---- the whole

    def text(self) -> str:
        names = self.names
        power = [f"  inout wire {pin.name}," for pin in self.macro.of("power")]
        told = [f"  {way} wire {ranged(width)}{name}" for way, width, name in self.ports()]
        wires = [("done", 1), ("fail", 1), ("given", self.word.bits), ("taken", self.word.bits)]
        wires += [("asks", 1)] if self.word.depth else []
        head = [f"module {self.word.name}_in_place("]
        head += [f"`ifdef {POWER}", *power, "`endif"] if power else []
        declared = [f"  wire {ranged(width)}{names.of(name)};" for name, width in wires]
        recorded = self.recorder()
        lines = [*head, ",\n".join(told), ");", *self.planted(), *declared, *self.lines, *self.collar(), *recorded]
        lines += [*self.told(), *self.watched(), "endmodule"]
        about = ABOUT.format(name=self.word.name, macro=self.macro.name, bits=self.word.bits)
        about += KEEPS.format(depth=self.word.depth) + "\n" if self.word.depth else ""
        return "\n".join([about + HEAD + "\n".join(lines), FOOT])


def box(macro: Macro, word: Word) -> str:
    """The ports of the same module alone."""
    told = [f"  {way} wire {ranged(width)}{name}" for way, width, name in InPlace(macro, word).ports()]
    return "\n".join(["(* blackbox *)", f"module {word.name}_in_place(", ",\n".join(told), ");", "endmodule", ""])
