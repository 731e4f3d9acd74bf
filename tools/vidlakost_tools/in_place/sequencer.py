"""The sequencer of memories that stay where they are: it starts their tests, group after group within a budget, and
reads from each what it has kept of its first failure. It is the module NAME_access; APB and JTAG wrap it like that of
any chip."""
from __future__ import annotations

import dataclasses

from vidlakost_tools.access.target import Port, Target, Unit, header, zero
from vidlakost_tools.chip.steps import lanes_length
from vidlakost_tools.chip.system import Placed, System, groups_of
from vidlakost_tools.collar.names import last_phase
from vidlakost_tools.collar.planted import also
from vidlakost_tools.collar.text import PLANTED
from vidlakost_tools.in_place.text import CYCLE, HEAD_BITS
from vidlakost_tools.text import template
from vidlakost_tools.tool import ToolError
from vidlakost_tools.verilog.syntax import ranged

ABOUT = template(__file__, "sequencer_about.sv")
# the bits of the number of a wrong read that is told
ENTRY_BITS = 6


@dataclasses.dataclass
class PlaceTarget(Target):
    """The memories of a chip that stay in their places, each with a bundle."""

    system: System = dataclasses.field(default_factory=lambda: System("", 1, []))
    groups: list[list[int]] = dataclasses.field(default_factory=list)
    # how many wrong reads each memory keeps, if that is more than its first failure
    entries: int | None = None

    @property
    def has_entries(self) -> bool:
        return self.entries is not None

    def choice(self) -> list[Port]:
        """The memories of which nothing is told, and which wrong read of the others is told."""
        entry = [Port("input", "entry", ENTRY_BITS)] if self.has_entries else []
        return [*entry, *super().choice()]

    def result(self) -> list[Port]:
        found = super().result()
        if self.has_entries:
            found += [Port("output", "count", 7), Port("output", "more"), Port("output", "shown", ENTRY_BITS)]
        return found

    def ring(self, bits: int) -> int:
        """How many bits a memory gives whose words have so many bits."""
        return HEAD_BITS + self.entries * (CYCLE + 2 * bits) if self.entries else CYCLE + 2 * bits

    def ports(self) -> list[Port]:
        """The bundles."""
        found = []
        for number in range(self.count):
            found += [Port("output", f"to_{number}", 2), Port("input", f"of_{number}", 3)]
        return found

    def group_of(self, number: int) -> int:
        return next(at for at, group in enumerate(self.groups) if number in group)

    def module(self) -> str:
        """The module NAME_access."""
        return Sequencer(self).text()

    @property
    def counts_cycles(self) -> bool:
        return False

    @property
    def shows_each(self) -> bool:
        return True

    @property
    def turning(self) -> int:
        return reading(self.ring(self.word)) + 2 * STEP

    def how_planted(self) -> str:
        return "//   +planted +unit=U +bit=B   each word that memory U answers has bit B wrong"

    def beside_nets(self) -> str:
        """Memories in their places, as far as their bundles show them, each with a clock of its own."""
        return "".join(f"  reg clock_{number} = 1'b0;\n" for number in range(self.count))

    def beside(self) -> str:
        return "".join(self.stand_in(number) for number in range(self.count))

    def stand_in(self, number: int) -> str:
        """A memory whose test is over after some cycles, and which has failed if a fault is planted in it."""
        bits = self.units[number].memory.bits
        total = self.ring(bits)
        ones = f"{{{bits}'d1 << at_bit, {bits}'d0, 32'd{number + 7}}}"
        if self.entries:
            rest = (self.entries - 1) * (CYCLE + 2 * bits)
            ones = f"{{{f'{rest}{chr(39)}d0, ' if rest else ''}{ones[1:-1]}, 8'd1}}"
        return STAND_IN.substitute(i=number, half=3 + number % 5, over=20 + number, last=total - 1, kept=ones)


STAND_IN = template(__file__, "sequencer_stand_in.sv")


def length(placed: Placed) -> int:
    """How many cycles the test of a memory in its place takes, by its own clock; a few more for what starts and ends
    it."""
    macro, found = placed.macro, 0
    for phase in range(last_phase(macro)):
        second = phase >= 2
        march = max(part.unit.length for part in placed.parts)
        found += (lanes_length(placed, second) if macro.masks else 1) + 2 if phase % 2 else march + 2
    return found + 20


# of a bit of a first failure the most cycles: twice three of the memory until a step is heard, twice three of the
# sequencer until that is told, two to begin and to take it, and one more for either clock
STEP = 2 * 3 + 2 * 3 + 2 + 2


def reading(bits: int) -> int:
    """How many cycles it takes at most until so many bits are read, by the slowest clock."""
    return STEP * bits + STEP


def of_places(system: System) -> PlaceTarget:
    """The target of memories in their places."""
    shared = next((part.memory.name for part in system.parts if part.is_shared), None)
    if shared:
        told = f"{shared} is shared, but a memory in its place has a controller of its own"
        raise ToolError(f"{told}: leave out the word shared")
    numbers = {id(placed): number for number, placed in enumerate(system.collars)}
    found = groups_of(system, system.collars, len(system.parts))
    groups = [sorted(numbers[id(placed)] for placed in group) for group in found]
    units = []
    for number, placed in enumerate(system.collars):
        # what a word of two descriptions has is more than a description may say, so only what is asked here is told
        memory = dataclasses.replace(placed.word.first, name=placed.name, polarity=0, backgrounds=[0])
        memory.bits = placed.word.bits
        units.append(Unit(memory, f"_{number}"))
    done = sum(max(length(system.collars[number]) for number in group) + 20 for group in groups) + 20
    target = PlaceTarget(system.name, "", units, True, done, system=system, groups=groups, entries=system.depth)
    return dataclasses.replace(target, done=done + reading(target.ring(target.word)))


BODY = template(__file__, "sequencer_body.sv")
ENTRIES = """
//   entry      of any clock: which wrong read of that memory is told, the first is 0; shown is the one that is told
//   count      how many of its wrong reads the memory keeps; more   it had more of them"""


class Sequencer:
    """The module that is being written."""

    def __init__(self, target: PlaceTarget):
        self.target, self.count = target, target.count
        # behind the groups are a turn in which the last bits of fail come in, and the end
        self.end = len(target.groups) + 1
        self.turn_bits = self.end.bit_length()
        self.word_bits = (target.word - 1).bit_length()
        self.at_bits = max(5, self.word_bits)

    def turn(self, number: int) -> str:
        return f"{self.turn_bits}'d{number}"

    def vector(self, bits: list[str]) -> str:
        return bits[0] if len(bits) == 1 else "{" + ", ".join(reversed(bits)) + "}"

    def bit(self, net: str, number: int) -> str:
        return net if self.count == 1 else f"{net}[{number}]"

    def declared(self) -> list[str]:
        wide = ranged(self.count)
        vectors = ["begun", "steps", "found"]
        vectors += [f"{name}_{number}" for name in ("over", "bad", "told", "ignore") for number in (1, 2)]
        entries = ["entry_1", "entry_2", "slot", "picked"] if self.target.has_entries else []
        ones = ("start_1", "start_2", "run", "was_quiet", "reading", "is_read", "turn_over")
        return [
            *(f"  reg {wide}{name};" for name in vectors),
            *(f"  reg {name};" for name in ones),
            *(f"  reg {ranged(ENTRY_BITS)}{name};" for name in entries),
            *(["  reg [7:0] head;", "  assign count = head[6:0];", "  assign more = head[7];"] if entries else []),
            f"  reg {ranged(self.turn_bits)}turn;",
            f"  reg {ranged(self.target.unit_bits)}whose;",
            *(f"  reg [1:0] {name};" for name in ("stage", "part")),
            f"  reg {ranged(self.at_bits)}at;",
            f"  reg {ranged(self.at_bits)}last;",
        ]

    def bundles(self) -> list[str]:
        """The bundles; a testbench can drive other values to the memories, to see where they arrive."""
        wide = 2 * self.count
        lines = [f"`ifdef {PLANTED}", "  reg probed = 1'b0;", f"  reg [{wide - 1}:0] probe = {wide}'d0;", "`endif"]
        for number in range(self.count):
            value = f"{{{self.bit('steps', number)}, {self.bit('begun', number)}}}"
            probe = f"probe[{2 * number + 1}:{2 * number}]"
            lines += also(f"  assign to_{number} = {value}", f"& {{2{{~probed}}}} | {{2{{probed}}}} & {probe}")
        return lines

    def synchronised(self) -> list[str]:
        parts = {"over": 0, "bad": 1, "told": 2}
        values = {}
        for name, bit in parts.items():
            values[name] = self.vector([f"of_{number}[{bit}]" for number in range(self.count)])
        return [
            "    start_1 <= start;",
            "    start_2 <= start_1;",
            "    ignore_1 <= ignore;",
            "    ignore_2 <= ignore_1;",
            *(["    entry_1 <= entry;", "    entry_2 <= entry_1;"] if self.target.has_entries else []),
            *(f"    {name}_1 <= {value};" for name, value in values.items()),
            *(f"    {name}_2 <= {name}_1;" for name in parts),
        ]

    def turns(self) -> list[str]:
        """Which memories are tested in a turn, and whether all of these are over."""
        groups, begins = self.target.groups, []
        for number in range(self.count):
            turn = self.target.group_of(number)
            begins.append(f"start_2 & turn >= {self.turn(turn)}" if turn else "start_2")
        lines = ["  always @*", "    case (turn)"]
        for at, group in enumerate(groups):
            overs = " & ".join(self.bit("over_2", number) for number in group)
            lines.append(f"      {self.turn(at)}: turn_over = {overs};")
        lines.append(f"      {self.turn(len(groups))}: turn_over = 1'b1;")
        lines += ["      default: turn_over = 1'b0;", "    endcase"]
        return [*lines, f"  wire {ranged(self.count)}begins = {self.vector(begins)};"]

    def choice(self) -> list[str]:
        """The memory that is shown, and how many bits its words have."""
        bits, count = self.target.unit_bits, self.count
        chosen = "".join(f"{self.bit('open', number)} ? {bits}'d{number} : " for number in range(count - 1))
        lasts = [unit.memory.bits - 1 for unit in self.target.units]
        head = f"part == 2'd3 ? {self.at_bits}'d7 : " if self.target.has_entries else ""
        return [
            f"  wire {ranged(count)}open = found & ~ignore_2;",
            f"  wire is_open = open != {zero(count)};",
            f"  wire {ranged(bits)}chosen = {chosen}{bits}'d{count - 1};",
            "  always @*",
            "    case (whose)",
            *(f"      {bits}'d{number}: last = {self.at_bits}'d{last};" for number, last in enumerate(lasts[:-1])),
            f"      default: last = {self.at_bits}'d{lasts[-1]};",
            "    endcase",
            f"  wire is_last = at == ({head}part == 2'd0 ? {self.at_bits}'d31 : last);",
        ]

    def part_of(self, width: int) -> str:
        """So many bits of the number of a bit."""
        return "at" if width == self.at_bits else f"at[{width - 1}:0]" if width > 1 else "at[0]"

    def entries(self) -> dict[str, str]:
        """What is there where each memory keeps several wrong reads: its head comes first, and of the entries the one
        is taken that was picked."""
        most = self.target.entries
        if most is None:
            blank = dict.fromkeys(("is_shown", "is_picked", "cleared", "begun", "head", "turned", "shown"), "")
            return {**blank, "first_part": "2'd0", "ends": "part == 2'd2"}
        at, told = self.part_of(3), "told_2" if self.count == 1 else "told_2[whose]"
        return {
            "is_shown": " & shown == entry_2",
            "is_picked": " && slot == picked",
            "cleared": "          head <= 8'd0;\n",
            "begun": f"          picked <= entry_2;\n          slot <= {ENTRY_BITS}'d0;\n",
            "head": f"            if (part == 2'd3) head[{at}] <= {told};\n",
            "turned": (
                "              if (is_last && part == 2'd2) begin\n"
                "                part <= 2'd0;\n"
                f"                slot <= slot + {ENTRY_BITS}'d1;\n"
                "              end\n"
            ),
            "shown": "                shown <= picked;\n",
            "first_part": "2'd3",
            "ends": f"part == 2'd2 && slot == {ENTRY_BITS}'d{most - 1}",
        }

    def body(self) -> str:
        one = self.count == 1
        return BODY.substitute(
            synchronised="\n".join(self.synchronised()),
            turns="\n".join(self.turns()),
            choice="\n".join(self.choice()),
            none=zero(self.count),
            first=self.turn(0),
            one=self.turn(1),
            end=self.turn(self.end),
            at_bits=self.at_bits,
            word=self.target.word,
            step="steps" if one else "steps[whose]",
            bad="bad_2" if one else "bad_2[whose]",
            told="told_2" if one else "told_2[whose]",
            at_cycle=self.part_of(5),
            at_word=f"[{self.part_of(self.word_bits)}]" if self.word_bits else "",
            **self.entries(),
        )

    def text(self) -> str:
        target, system = self.target, self.target.system
        names = [unit.memory.name for unit in target.units]
        members = [", ".join(names[one] for one in group) for group in target.groups]
        groups = [f"//   group {at}: {told}" for at, told in enumerate(members)]
        memories = [f"//              {number} {name}" for number, name in enumerate(names)]
        about = ABOUT.substitute(
            name=system.name,
            count=self.count,
            groups=len(groups),
            groups_told="\n".join(groups),
            memories="\n".join(memories),
            entries=ENTRIES if self.target.has_entries else "",
        )
        state = [Port("output", name) for name in ("test", "done", "fail", "seen")]
        state[2].width = self.count
        ports = [Port("input", "clk"), Port("input", "start"), *target.choice(), *target.ports()]
        ports += [*state, *target.result()]
        kept = ("test", "done", "seen", *(port.name for port in target.result() if port.name not in ("count", "more")))
        lines = [*self.declared(), *self.bundles(), self.body()]
        return header(about, f"{target.name}_access", ports, kept) + "\n".join(lines)
