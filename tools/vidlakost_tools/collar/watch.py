"""What a testbench watches inside a collar: each pin of the macro, which has to have what the self-test commands, in
test, or what the chip has, in use. An enable that is always on writes and reads rightly, and costs power all the same;
an address of the lanes that stands still finds nothing. What is commanded is read at the self-test's own ports, and is
worked out once more from there. All of it stands under a define."""
from __future__ import annotations

from typing import TYPE_CHECKING

from vidlakost_tools.collar import lane_machine as collar_lanes, planted as collar_planted
from vidlakost_tools.collar.names import TOLD
from vidlakost_tools.collar.pins import ADDRESSES, Pin, literal

if TYPE_CHECKING:
    from vidlakost_tools.collar.text import Collar

CONTROLS = ("en", "we", "read", "write")
POWER = "USE_POWER_PINS"
# under this define of a testbench the module under test is a netlist
GATES = "VIDLAKOST_GATES"


class Watch:
    """What is watched in a collar that is being written."""

    def __init__(self, collar: Collar):
        self.collar, self.macro, self.word = collar, collar.macro, collar.word
        self.memory, self.test = collar.names.of("memory"), collar.net("test")
        self.told = f'"{self.word.name}: %b stands at {{}}, and it has to be %b; test is %b"'

    def text(self) -> list[str]:
        """The lines, under the define."""
        before, self.collar.lines = self.collar.lines, []
        nets = self.commanded()
        looks = self.driven(nets) + self.further() + self.answers()
        machine = self.machine() if self.macro.masks else []
        head = ["  always @(posedge clk)", "    if (planted == 3'd0 && numbered == 3'd0) begin"]
        supplies = [look for pin in self.macro.of("power") for look in self.look(pin, pin.name)]
        power = [f"`ifdef {POWER}", *supplies, "`endif"] if supplies else []
        found = [*self.collar.lines, *head, *looks, *power, "    end", *machine, *self.clocks()]
        self.collar.lines = before
        found += self.failure() if self.collar.has_controllers else []
        return [f"`ifdef {collar_planted.DEFINE}", *found, "`endif"]

    def failure(self) -> list[str]:
        """In test fail is 1 from that cycle on in which a self-test says so, the lanes, or two parts out of step: each
        self-test says so in the cycle behind its first wrong word."""
        names, name, test = self.collar.names, self.word.name, self.test
        kept, bad = names.of("w_kept"), names.of("w_bad")
        sources = [f"{names.of(f'{half}_test')}.fail" for half in self.halves()]
        sources += [f"{names.of('lanes')}.fail"] if self.macro.masks else []
        sources += [names.of("apart_kept")] if len(self.halves()) > 1 else []
        told = f'"{name}: fail is %b, and by what is inside it has to be %b; test is %b"'
        return [
            f"  reg {kept};",
            f"  wire {bad} = {' | '.join(sources)};",
            "  always @(posedge clk)",
            f"    if ({test} !== 1'b1) {kept} <= 1'b0;",
            "    else begin",
            f"      {kept} <= {kept} | {bad};",
            f"      if (fail !== ({kept} | {bad})) $fatal(1, {told}, fail, {kept} | {bad}, {test});",
            "    end",
        ]

    # ---- what stands at a pin

    def there(self, pin: Pin) -> str:
        """What stands at a pin of the macro."""
        names = ", ".join(f"{self.memory}.{name}" for name in reversed(pin.names()))
        return f"{{{names}}}" if pin.bits else names

    def look(self, pin: Pin, value: str) -> list[str]:
        """Whether a pin has a value."""
        return self.compared(f"{pin.name} of the macro", self.there(pin), value)

    def compared(self, what: str, there: str, value: str) -> list[str]:
        said = f"{self.told.format(what)}, {there}, {value}, {self.test}"
        return [f"      if ({there} !== {value})", f"        $fatal(1, {said});"]

    def driven(self, nets: dict[str, str]) -> list[str]:
        """The pins of the ports; in scan mode nothing is enabled."""
        looks = []
        for pin in self.macro.driven():
            value = f"({self.test} ? {pin.driven(self.commands_at(pin, nets))} : {pin.joined()})"
            if self.macro.bypass and pin.kind in CONTROLS:
                value = f"(scan_mode ? {pin.idle()} : {value})"
            looks += self.look(pin, value)
        return looks

    def further(self) -> list[str]:
        """The pins that no port has."""
        looks = []
        for pin in self.macro.of("tie", "pass", "out"):
            value = pin.joined()
            if pin.kind == "tie":
                value = pin.value
            elif pin.value:
                value = f"({self.test} ? {pin.value} : {value})"
            # of a bus that is tied to a shorter input, as of one that is unknown, only the tool that
            # elaborates it knows the width
            if pin.kind != "tie" or literal(pin.value):
                looks += self.look(pin, value)
        return looks

    def answers(self) -> list[str]:
        """What the chip gets is what the macro answers, but in scan mode."""
        looks = []
        for second in (False, True)[: 1 + self.macro.has_second]:
            pin = self.macro.answers(second)
            lines = [*self.turned_off(pin), *self.compared(f"{pin.name} of the chip", pin.joined(), self.there(pin))]
            looks += ["      if (!scan_mode) begin", *lines, "      end"] if self.macro.bypass else lines
        return looks + (self.handed_out() if self.collar.kind in TOLD else [])

    def turned_off(self, answer: Pin) -> list[str]:
        """An answer that the macro leaves undriven no collar hands on: what is told is the pin that turns it off, one
        that has another value than in test, or none in test, before all others. A simulator without z can't tell."""
        there, pins, lines = self.there(answer), self.macro.of("pass"), []
        for pin in sorted(pins, key=lambda pin: not pin.value):
            moved = f" && {pin.joined()} !== {pin.value}" if pin.value else ""
            lines += self.off(f"$countbits({there}, 1'bz) != 0{moved}", pin.name, answer)
        names = " or ".join(pin.name for pin in pins)
        lines += self.off(f"$countbits({there}, 1'bz) != 0", names, answer) if pins else []
        return ["`ifdef VERILATOR", "`else", *lines, "`endif"] if pins else []

    def off(self, when: str, names: str, answer: Pin) -> list[str]:
        told = f"{self.word.name}: {answer.name} of the macro is %b, since {names} turns it off"
        told += f": a collar drives it always, so tie {names}"
        return [f"      if ({when})", f'        $fatal(1, "{told}", {self.there(answer)});']

    def handed_out(self) -> list[str]:
        """What is handed out of the words of the test is what stands at its own ports."""
        looks = []
        for name, port in (("given", "wdata"), ("taken", "rdata")):
            words = [self.source(half, port) for half in reversed(self.halves())]
            looks += self.compared(
                f"{name} of the collar", name, words[0] if len(words) == 1 else "{" + ", ".join(words) + "}"
            )
        if self.collar.kind == "logged":
            en, we = (self.source(self.halves()[0], port) for port in ("en", "we"))
            looks += self.compared("asks of the collar", "asks", f"({en} & ~{we})")
        return looks

    def clocks(self) -> list[str]:
        """Each clock is the one that it has to be."""
        looks = self.compared(f"{self.macro.clk} of the macro", f"{self.memory}.{self.macro.clk}", "clk")
        wakes = ["clk"]
        for pin in self.macro.pins:
            if pin.kind == "clock2" or pin.kind == "clk" and pin.is_second:
                looks += self.look(pin, f"({self.test} ? clk : {pin.name})")
                wakes.append(pin.name)
        # before its first edges a collar that is started from another clock knows no test
        known = [f"    if ({self.test} !== 1'bx) begin", *looks, "    end"]
        return [f"  always @({' or '.join(wakes)}) begin", "    #1;", *known, "  end"]

    # ---- what is commanded

    def source(self, half: str, name: str) -> str:
        """What a self-test commands: at its own port, or at the collar's where it stands elsewhere."""
        if self.collar.kind == "open":
            return self.collar.net(f"{half}_{name}")
        instance = f"{half}_test" if self.collar.has_controllers else "bist"
        return f"{self.collar.names.of(instance)}.{name}"

    def commanded(self) -> dict[str, str]:
        """Nets with what the self-test commands at the macro, and the lanes of pins."""
        macro, halves = self.macro, self.halves()
        go = self.collar.net("lanes_go") if macro.masks else ""
        lanes = self.collar.names.of("lanes") if go else ""
        nets = {}
        for name, width in (("en", 1), ("we", 1), ("addr", self.word.first.width), ("wdata", self.word.bits)):
            source = self.source(halves[0], name)
            if name == "wdata" and len(halves) > 1:
                source = "{" + ", ".join(self.source(half, name) for half in reversed(halves)) + "}"
            source = f"({go} ? {lanes}.{name} : {source})" if go else source
            nets[name] = self.collar.delayed(f"w_{name}", source, width, macro.before, name == "en")
        for number, pin in enumerate(collar_lanes.lane_pins(macro) if go else []):
            source = f"({go} ? {lanes}.lanes_{number} : {{{pin.width}{{1'b1}}}})"
            net = self.collar.delayed(f"w_lanes_{number}", source, pin.width, macro.before, False)
            nets[f"lanes of {pin.name}"] = net
        return nets

    def halves(self) -> list[str]:
        return ["bist"] if len(self.word.memories) == 1 else ["low", "high"]

    def commands_at(self, pin: Pin, nets: dict[str, str]) -> str:
        """What those nets command at a pin, before it is inverted."""
        if pin.kind == "wdata":
            return nets["wdata"]
        if pin.kind in ADDRESSES:
            return self.place(pin, nets["addr"])
        macro, en, we = self.macro, nets["en"], nets["we"]
        on = en
        if macro.has_second:
            second, both = self.collar.second(), macro.second_writes
            on = f"({en} & {second}{'' if both else f' & ~{we}'})"
            if not pin.is_second:
                on = f"({en} & (~{second}{'' if both else f' | {we}'}))"
        is_plain = macro.has("en", second=pin.is_second)
        writes = f"({on} & {we})"
        value = {"en": on, "we": we if is_plain else writes, "read": f"({on} & ~{we})", "write": writes}
        lanes = nets.get(f"lanes of {pin.name}", f"{{{pin.width}{{1'b1}}}}")
        return lanes if pin.kind == "mask" else f"({{{pin.width}{{{value[pin.kind]}}}}} & {lanes})"

    def place(self, pin: Pin, net: str) -> str:
        """The address in its bits of a pin; the others are 0."""
        width = self.word.first.width
        shifted = [f"({{{pin.width - 1}'d0, {net}[{at}]}} << {bit})" for at, bit in enumerate(pin.at)]
        if width == 1:
            shifted = [f"({{{pin.width - 1}'d0, {net}}} << {pin.at[0]})"]
        if pin.width == 1:
            return net
        return f"({' | '.join(shifted)})"

    # ---- the machine of the lanes

    def machine(self) -> list[str]:
        """The commands of the machine that tries the lanes, which this counts by itself: six of each lane at the first
        address,
        and six at the last one."""
        macro, names = self.macro, self.collar.names
        go, lanes, turn = self.collar.net("lanes_go"), names.of("lanes"), names.of("w_turn")
        firsts, last = collar_lanes.counted(macro)
        counts = {second: number + 1 for second, number in last.items()}
        count = f"{counts[False]}"
        if True in counts:
            count = f"({self.collar.second()} ? {counts[True]} : {counts[False]})"
        bits, step = self.word.bits, f"({turn} % 6)"
        expected = [("en", "1'b1"), ("we", f"({step} != 2 && {step} != 5)")]
        width, last_word = self.word.first.width, self.word.first.words - 1
        expected.append(("addr", f"({turn} < 6 * {count} ? {width}'d0 : {width}'d{last_word})"))
        expected.append(("wdata", f"{{{bits}{{{step} == 1 || {step} == 3}}}}"))
        for number, (pin, first) in enumerate(zip(collar_lanes.lane_pins(macro), firsts)):
            lane = f"({turn} / 6 % {count} - {first})"
            mine = f"{lane} >= 0 && {lane} <= {pin.width}"
            if True in counts:
                mine += f" && {'' if pin.is_second else '!'}{self.collar.second()}"
            ones = f"{{{pin.width}{{1'b1}}}}"
            hot = f"({step} != 1 && {step} != 4 || !({mine}) ? {ones} : {pin.width}'d1 << {lane})"
            expected.append((f"lanes_{number}", hot))
        looks = []
        for name, value in expected:
            looks += self.compared(f"{name} of the lanes", f"{lanes}.{name}", value)
        return [
            f"  integer {turn};",
            "  always @(posedge clk)",
            f"    if ({go} !== 1'b1) {turn} <= 0;",
            f"    else if ({turn} < 12 * {count}) begin",
            f"      {turn} <= {turn} + 1;",
            *looks,
            "    end",
            f"    else if ({lanes}.en !== 1'b0)",
            f'      $fatal(1, "{self.word.name}: the lanes are tried once more than they have to be");',
        ]
