"""The testbench of a collar: it uses the chip's port, lane by lane, runs the self-test, and plants what it has to
find."""
from __future__ import annotations

from vidlakost_tools.collar.lane_machine import spread
from vidlakost_tools.collar.names import MARK, last_phase
from vidlakost_tools.collar.pins import Macro, Pin, Word, bit_of
from vidlakost_tools.collar.planted import count, inputs, some_of
from vidlakost_tools.collar.text import FOOT, HEAD, PLANTED, has_other_lanes
from vidlakost_tools.collar.watch import GATES, POWER
from vidlakost_tools.text import template
from vidlakost_tools.verilog.bench_end import FINISH, over, progress
from vidlakost_tools.verilog.syntax import ranged

BENCH = template(__file__, "bench_whole.sv")
DUT = template(__file__, "bench_dut.sv")
TASKS = template(__file__, "bench_tasks.sv")
READS = template(__file__, "bench_reads.sv")
# in which order two words are read one behind another: no shift of it is the same
ORDER = "0010011010111100"
# the most cycles that an answer is waited for there
LONGEST = 7
FOLLOWS = template(__file__, "bench_follows.sv")
PLACES = template(__file__, "bench_places.sv")
# each bit of a pin of the chip's alone has another value for a cycle, so that what hangs on it is told from all else
MOVES = """    for (spot = 0; spot < {width}; spot = spot + 1) begin
      {net} = {net} ^ ({width}'d1 << spot);
      @(negedge clk);
      {net} = {net} ^ ({width}'d1 << spot);
    end"""
WALKS = """    for (spot = 0; spot < {bits}; spot = spot + 1) begin
      put{w}(0, {bits}'d1 << spot);
      put{w}({last}, ~({bits}'d1 << spot));
{sees}
    end"""
LANES = template(__file__, "bench_lanes.sv")


def under_power(lines: list[str]) -> str:
    """Lines that are there where the macro has its supplies as pins."""
    return "\n".join([f"`ifdef {POWER}", *lines, "`endif", ""]) if lines else ""


def in_test(pin: Pin, net: str, width: int, test: str) -> str:
    """What the chip has at an input: in test it is unknown, but for clocks, which stand still, and what is never
    another."""
    is_steady = pin.kind in ("clk", "clock2") or pin.kind == "pass" and not pin.value
    return net if is_steady else f"{test} ? {{{width}{{1'bx}}}} : {net}"


def shared(macros: list[Macro]) -> list[str]:
    """What the uses of the ports of these macros share."""
    scans = ["  reg scan_mode = 1'b0;"] if any(macro.bypass for macro in macros) else []
    lanes = any(pin.has_lanes for macro in macros for pin in macro.driven())
    return [*scans, "  integer spot;", "  integer turn;", *(["  integer lane;"] if lanes else [])]


def never_read(macro: Macro, second: bool) -> str:
    """What may be wrong with the pins where no read of a port brings its word."""
    ways = macro.of("en", "we", "read", "write", "mask", second=second)
    steady = [pin for pin in macro.of("tie", "pass") if pin.value]
    supplies = macro.of("power")
    told = [("the polarity of", ways), ("what stands at", steady), (f"the supplies, there with {POWER}:", supplies)]
    found = [f"{what} {', '.join(pin.name for pin in pins)}" for what, pins in told if pins]
    return "; ".join([*found, "inputs and supplies of the model that no line of the pins names"])


def planted_inputs(collars: int = 1) -> list[str]:
    return [f"  reg [{width - 1}:0] {name} = {width}'d0;" for name, width in inputs(collars)]


def indented(lines: str) -> str:
    return "\n".join(f"  {line}" for line in lines.split("\n"))


class Bench:
    """The parts of a testbench of one collar; where it stands beside others in a testbench, `of` tells its names from
    theirs."""

    tool = "collar"

    def __init__(self, macro: Macro, word: Word, of: str = ""):
        self.macro, self.word, self.name = macro, word, of or word.name
        self.front, self.back = (f"{of}_", f"_{of}") if of else ("", "")
        self.bits, self.width = word.bits, word.first.width

    def inside(self, pin: Pin) -> str:
        """The testbench's name of a pin, which is none of its own."""
        return f"c_{self.front}{pin.name}"

    def runs(self, pin: Pin) -> str:
        """Whether a further clock of the chip's runs."""
        return f"runs_{self.inside(pin)}"

    def clocks(self, run: int) -> list[str]:
        """Starts or stops the further clocks."""
        pins = [pin for way, pin in self.macro.chip_pins() if way == "input" and pin.kind in ("clock2", "clk")]
        return [f"    {self.runs(pin)} = 1'b{run};" for pin in pins]

    def moves(self) -> list[str]:
        """Moves each pin of the chip's by itself, where nothing is used yet."""
        lines = []
        for pin in [pin for way, pin in self.macro.chip_pins() if way == "input"]:
            if pin.kind in ("clock2", "clk"):
                lines += [
                    f"    {self.runs(pin)} = 1'b1;",
                    "    repeat (2) @(negedge clk);",
                    f"    {self.runs(pin)} = 1'b0;",
                ]
            else:
                lines.append(MOVES.format(net=self.inside(pin), width=pin.width))
        return lines

    def lanes_name(self, pin: Pin) -> str:
        return f"lanes_of_{self.front}{pin.name}"

    def port(self, second: bool) -> str:
        """What stands behind `put` and `see` of a port."""
        return ("_2" if second else "") + self.back

    def declared(self) -> list[str]:
        """The chip's side of the pins; each has what it is where the memory is not used."""
        lines = [f"  reg {ranged(self.bits)}passed{self.back};"] if self.macro.bypass else []
        for way, pin in self.macro.chip_pins():
            head = f"{ranged(pin.width)}{self.inside(pin)}"
            if way == "output":
                lines.append(f"  wire {head};")
            elif pin.kind in ("clock2", "clk"):
                # the chip's own clock stands still in test, and where its memory is not used
                lines += [f"  reg {self.runs(pin)} = 1'b0;", f"  wire {head} = clk & ~test & {self.runs(pin)};"]
            elif pin.kind == "pass":
                zero = f"{pin.width}'h0"
                lines.append(f"  reg {head} = {pin.value or zero};")
            elif way == "input":
                lines.append(f"  reg {head} = {pin.idle()};")
        supplies = [f"  wire {self.inside(pin)} = 1'b{pin.value};" for pin in self.macro.of("power") if pin.value]
        lines += under_power(supplies).split("\n")[:-1]
        for pin in self.macro.driven():
            if pin.has_lanes:
                lines.append(f"  reg {ranged(pin.width)}{self.lanes_name(pin)} = {{{pin.width}{{1'b1}}}};")
        if any(pin.has_lanes for pin in self.macro.driven()):
            lines.append(f"  reg {ranged(self.bits)}expected{self.back};")
        return lines

    def links(self) -> str:
        found = [".scan_mode(scan_mode)"] if self.macro.bypass else []
        for way, pin in self.macro.chip_pins():
            for at, name in enumerate(pin.names() if way != "inout" else []):
                width, net = 1 if pin.bits else pin.width, self.inside(pin)
                net = bit_of(net, pin.width, at) if pin.bits else net
                found.append(f".{name}({in_test(pin, net, width, 'unknown') if way == 'input' else net})")
        return ",\n    ".join(found)

    def power(self) -> str:
        pins = self.macro.of("power")
        return under_power([f"    .{self.front}{pin.name}({self.inside(pin) if pin.value else ''})," for pin in pins])

    def set_pins(self, second: bool, write: bool | None, enabled: bool = True) -> str:
        """The pins of a port for a write of `word` to `place`, for a read of it, which has another word at the pins, or
        for neither; for a write that is not enabled."""
        made = []
        for pin in self.macro.driven():
            if pin.is_second != second:
                continue
            if write is None or pin.kind == "en" and not enabled:
                made.append(f"      {self.inside(pin)} = {pin.idle()};")
                continue
            value = {
                "en": "1'b1",
                "we": f"1'b{int(write)}",
                "write": f"1'b{int(write)}",
                "read": f"1'b{int(not write)}",
                "wdata": "word" if write else "(~word)",
                "mask": "1'b1",
            }.get(pin.kind) or self.address(pin)
            if pin.has_lanes:
                value = self.lanes_name(pin) if write or pin.kind != "we" else f"{pin.width}'d0"
            made.append(f"      {self.inside(pin)} = {pin.driven(value)};")
        return "\n".join(made)

    def address(self, pin: Pin) -> str:
        bits = [f"place[{pin.at.index(bit)}]" if bit in pin.at else "1'b0" for bit in reversed(range(pin.width))]
        return "{" + ", ".join(bits) + "}"

    def disturbed(self, inverted: str) -> str:
        """In test the chip has another value at a pin than the one that the pin has to have."""
        pins = [pin for pin in self.macro.of("pass") if pin.value]
        # all of them at once, so that their number moves nothing onto an edge of the clock
        moved = "".join(f"      {self.inside(pin)} = {inverted}{pin.value};\n" for pin in pins)
        return f"      #1;\n{moved}" if pins else ""

    def tasks(self) -> str:
        """A write and a read through each port that has them."""
        made = ""
        for second in (False, True) if self.macro.has_second else (False,):
            told = {"n": self.port(second), "top": self.width - 1, "high": self.bits - 1, "name": self.name}
            idle = self.set_pins(second, None)
            if not second or self.macro.second_writes:
                made += TASKS.substitute(**told, what="put", write=self.set_pins(second, True), idle=idle)
                if self.macro.of("en", second=second):
                    made += TASKS.substitute(
                        **told, what="skip", write=self.set_pins(second, True, enabled=False), idle=idle
                    )
            answers, latency = self.macro.answers(second), self.macro.latency(self.word)
            wait = f"repeat ({latency - 1}) @(negedge clk);\n      #4;" if latency > 1 else "#4;"
            read = self.set_pins(second, False)
            made += READS.substitute(
                **told, read=read, idle=idle, wait=wait, rdata=self.inside(answers), rdata_name=answers.name
            )
            made += self.follows(second)
        return made

    def follows(self, second: bool) -> str:
        """Reads of two words whose bits all differ, one behind another: where they come earlier or later than the
        description says, or are overwritten, that is told, with the latency that fits."""
        answers, macro = self.macro.answers(second), self.macro
        latency, registers = macro.latency(self.word), macro.before + macro.after
        rdata, looks = self.inside(answers), []
        told = f"{self.name}: reads that follow one another bring their words to {answers.name}"
        never = f"{told} in no cycle from 1 to {LONGEST} behind them: look at {never_read(macro, second)}"
        fatal = [f"      if (fits[{latency}] !== 1'b1) $fatal(1, \"{never}\");"]
        for late in range(1, LONGEST + 1):
            inside = f"turn >= {late} && turn < {late + 16}"
            looks.append(f"        if ({inside} && {rdata} !== (behind[{late}] ? ~word : word)) fits[{late}] = 1'b0;")
            if late != latency:
                said = f"{told} behind {late} cycle{'s' * (late > 1)}: latency {late + registers} fits"
                said += f", and the description says {latency + registers}"
                fatal.insert(-1, f"      if (fits[{late}] === 1'b1) $fatal(1, \"{said}\");")
        return FOLLOWS.substitute(
            n=self.port(second),
            w=self.port(second and macro.second_writes),
            high=self.bits - 1,
            top=self.width - 1,
            width=self.width,
            last=self.word.first.words - 1,
            longest=LONGEST,
            order=ORDER,
            read=indented(self.set_pins(second, False)),
            idle=indented(self.set_pins(second, None)),
            looks="\n".join(looks),
            told="\n".join(fatal),
        )

    def uses(self) -> str:
        """Uses of the chip's port: two words, a write that is not enabled, each bit of the address, and each lane
        alone. What is read once more shows that neither a read nor a rest wrote anything."""
        ones, one, zeros = f"{{{self.bits}{{1'b1}}}}", f"{self.bits}'h1", f"{self.bits}'h0"
        last, macro = self.word.first.words - 1, self.macro
        turned = f"{self.bits}'h{int('01' * self.bits, 2) & (1 << self.bits) - 1:x}"
        lines = (
            self.moves()
            + self.clocks(1)
            + [f"    follow{self.port(second)}({turned});" for second in (False, True)[: 1 + macro.has_second]]
        )
        for writes in (False, True) if macro.second_writes else (False,):
            put = self.port(writes)
            lines += [f"    put{put}(0, {one});", f"    put{put}({last}, {ones});"]
            lines += [f"    skip{put}(0, {ones});"] if macro.of("en", second=writes) else []
            for reads in (False, True) if macro.has_second else (False,):
                see = self.port(reads)
                lines += [f"    see{see}(0, {one});", f"    see{see}({last}, {ones});", f"    see{see}(0, {one});"]
            lines += [self.places(put, zeros, ones), self.walks(put)]
            for pin in macro.lane_pins(writes):
                name = self.lanes_name(pin)
                lines.append(
                    LANES.substitute(
                        width=pin.width,
                        last=last,
                        n=put,
                        zeros=zeros,
                        ones=ones,
                        lanes=name,
                        expected=f"expected{self.back}",
                        spread=spread(name, pin, self.bits),
                        all=f"{{{pin.width}{{1'b1}}}}",
                    )
                )
        return "\n".join([*lines, *self.bypass(), *self.clocks(0)])

    def again(self) -> str:
        """A use of the chip's port behind the test."""
        port, ones = self.port(False), f"{{{self.bits}{{1'b1}}}}"
        use = [f"    put{port}(0, {ones});", f"    see{port}(0, {ones});"]
        return "\n".join(f"  {line}" for line in [*self.clocks(1), *use, *self.clocks(0)])

    def places(self, put: str, zeros: str, ones: str) -> str:
        """A word of ones at each address with one bit, while all others of these and address 0 hold zeros: a bit that
        is open, or stands elsewhere at the port that reads, is seen."""
        sees = []
        for reads in (False, True)[: 1 + self.macro.has_second]:
            see = self.port(reads)
            sees += [f"      see{see}(1 << spot, {ones});", f"      see{see}(0, {zeros});"]
        return PLACES.substitute(w=put, width=self.width, zeros=zeros, ones=ones, sees="\n".join(sees))

    def walks(self, put: str) -> str:
        """Words with one bit at 1, and beside them those with one at 0: every two bits differ in some, both ways."""
        sees, last = [], self.word.first.words - 1
        for reads in (False, True)[: 1 + self.macro.has_second]:
            see = self.port(reads)
            sees.append(f"      see{see}(0, {self.bits}'d1 << spot);")
            sees.append(f"      see{see}({last}, ~({self.bits}'d1 << spot));")
        return WALKS.format(w=put, bits=self.bits, last=last, sees="\n".join(sees))

    def bypass(self) -> list[str]:
        """In scan mode what stands at the pins comes back behind an edge, and the memory keeps what it holds."""
        if not self.macro.bypass:
            return []
        ones, zeros = f"{{{self.bits}{{1'b1}}}}", f"{self.bits}'h0"
        checks = [check for pin in self.macro.driven() for check in self.scans(pin)]
        put, see = f"put{self.port(False)}", f"see{self.port(False)}"
        kept = [f"    {put}(0, {zeros});", "    scan_mode = 1'b0;", f"    {see}(0, {ones});"]
        return [f"    {put}(0, {ones});", "    scan_mode = 1'b1;", "    @(negedge clk);", *checks, *kept]

    def scans(self, pin: Pin) -> list[str]:
        """In scan mode each bit of a pin of a port changes one bit of what that port answers."""
        answers, passed = self.inside(self.macro.answers(pin.is_second)), f"passed{self.back}"
        moved = f"{self.inside(pin)} = {self.inside(pin)} ^ ({pin.width}'d1 << spot);"
        return [
            f"    for (spot = 0; spot < {pin.width}; spot = spot + 1) begin",
            f"      {passed} = {answers};",
            f"      {moved}",
            "      @(negedge clk);",
            f"      if (({passed} ^ {answers}) !== {self.bits}'d1 << (spot % {self.bits}))",
            (
                f'        $fatal(1, "{self.name}: scan_mode gives %h and %h, where {pin.name}[%0d] moves", {passed},'
                f' {answers}, spot);'
            ),
            f"      {moved}",
            "      @(negedge clk);",
            "    end",
        ]

    def kinds(self) -> list[tuple[int, list[int], str]]:
        """What is planted, each in some bits or lanes."""
        macro, kinds = self.macro, [(1, [0], "a tied address")]
        for kind, second in ((2, False), (7, True)):
            if macro.masks and (not second or has_other_lanes(macro)):
                width = macro.lane_pins(second)[0].width
                places = [place for place in some_of(self.name, width) if place < width - 1] + [max(0, width - 2)]
                kinds.append((kind, sorted(set(places)), "a shorted lane" + " of the other port" * second))
        kinds += [(3, [0], "a dead port")] * macro.has_second
        first, has_parts = 0, len(self.word.memories) > 1
        for memory in self.word.memories:
            told = f"a wrong bit of {memory.name}" if has_parts else "a wrong bit"
            kinds.append((4, list(range(first, first + memory.bits)), told))
            first += memory.bits
        return kinds + [(6, [0], "a part out of step")] * has_parts

    def faults(self) -> str:
        """The runs with what is planted, and those with words in which every two bits differ."""
        lines = []
        for kind, places, what in self.kinds():
            lines += [f"      run(3'd{kind}, 7'd{place}, 3'd0, 1'b1);" for place in places]
            lines.append("      " + progress(f"{self.word.name}: {what} is found"))
        numbers = count(self.bits)
        if numbers:
            lines += [f"      run(3'd0, 7'd0, 3'd{number}, 1'b0);" for number in range(1, numbers + 1)]
            lines.append("      " + progress(f"{self.word.name}: words in which every two bits differ pass"))
        return "\n".join(lines)

    @property
    def module(self) -> str:
        """The module under test."""
        return f"{self.word.name}_collar"

    def dut(self) -> str:
        """Its instance."""
        return DUT.substitute(module=self.module, gates=GATES, power=self.power(), links=self.links())

    def most(self) -> int:
        """The most cycles of a test: no march has more than 256 operations and 64 pauses."""
        memory = self.word.first
        longest = len(memory.backgrounds) * (256 * memory.words + 64 * memory.pause) + 100
        lanes = sum(pin.width + 1 for pin in self.macro.driven() if pin.has_lanes)
        return longest * ((last_phase(self.macro) + 1) // 2) + 24 * lanes

    def text(self) -> str:
        name = self.word.name
        return BENCH.substitute(
            finish=FINISH,
            gates=GATES,
            mark=MARK,
            head=HEAD,
            foot=FOOT,
            planted=PLANTED,
            tool=self.tool,
            module=self.module,
            dut=self.dut(),
            over=over(f"{self.module}_tb"),
            name=name,
            inputs="\n".join(planted_inputs()),
            declared="\n".join([*shared([self.macro]), *self.declared()]),
            disturbed=self.disturbed("~"),
            settled=self.disturbed(""),
            tasks=self.tasks(),
            most=self.most(),
            uses=self.uses(),
            faults=self.faults(),
            again=self.again(),
        )
