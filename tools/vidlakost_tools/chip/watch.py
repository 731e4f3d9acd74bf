"""What the testbench of a chip watches between its collars, its tests and its pins: both ends of each connection have
the same, a collar's clocks are its own, and the memories that are on never weigh more than the budget. If the chip is a
netlist, which has no such places inside, nothing is watched."""
from __future__ import annotations

from typing import TYPE_CHECKING, List

from vidlakost_tools.chip.system import Part, Placed, System
from vidlakost_tools.collar.bench import Bench
from vidlakost_tools.collar.names import halves
from vidlakost_tools.collar.pins import Pin
from vidlakost_tools.collar.watch import GATES

if TYPE_CHECKING:
    from vidlakost_tools.chip.text import Text


class Watch:
    """What is watched; `text` is the module that was written, which has the names of its instances."""

    def __init__(self, system: System, text: Text):
        self.system, self.text = system, text
        self.looks: List[str] = []

    def lines(self) -> str:
        """The blocks of the testbench."""
        in_use = [line for number, placed in enumerate(self.system.collars) for line in self.use(number, placed)]
        in_test = [line for placed in self.system.collars for line in self.commands(placed)]
        block = [
            f"`ifndef {GATES}",
            "  always @(posedge clk)",
            "    if (planted == 0 && numbered == 0) begin",
            "      if (!test) begin",
            *in_use,
            "      end else begin",
            *in_test,
            "      end",
            "    end",
            *self.clocks(),
            *self.budget(),
            *self.failures(),
            "`endif",
        ]
        return "\n".join(block) + "\n"

    def compared(self, what: str, there: str, value: str) -> List[str]:
        told = f'"{self.system.name}: %b stands at {what}, and it has to be %b; test is %b", {there}, {value}, test'
        return [f"        if ({there} !== {value})", f"          $fatal(1, {told});"]

    def collar(self, number: int) -> str:
        return f"dut.{self.text.collar_names[number]}"

    def use(self, number: int, placed: Placed) -> List[str]:
        """In use each pin of a collar has what the chip has there."""
        one, found = Bench(placed.macro, placed.word, placed.name), []
        for way, pin in placed.macro.chip_pins():
            if way == "inout" or is_clock(pin):
                continue
            port = f"{self.collar(number)}.{{}}"
            ports = ", ".join(port.format(name) for name in reversed(pin.names()))
            there = f"{{{ports}}}" if pin.bits else ports
            found += self.compared(f"{pin.name} of the collar of {placed.name}", there, one.inside(pin))
        return found

    def commands(self, placed: Placed) -> List[str]:
        """In test a collar has what its chip's test commands, and the test what the memory answers."""
        found, number = [], self.system.collars.index(placed)
        for (half, _), part in zip(halves(placed.word), placed.parts):
            for name in ("en", "we", "addr", "wdata", "rdata"):
                ours = f"{self.collar(number)}.{half}_{name}"
                found += self.compared(f"{half}_{name} of the collar of {placed.name}", ours, self.at_test(part, name))
            found += self.told(part) if self.system.has_access else []
        return found

    def told(self, part: Part) -> List[str]:
        """The outputs for a tester have what the test of a memory commands, writes and reads."""
        number = self.system.parts.index(part)
        asks = f"dut.asks[{number}]" if len(self.system.parts) > 1 else "dut.asks"
        command = f"({self.at_test(part, 'en')} & ~{self.at_test(part, 'we')})"
        found = self.compared(f"asks of {part.name}", asks, command)
        for name, theirs in (("given", "wdata"), ("taken", "rdata")):
            found += self.compared(f"{name} of {part.name}", f"dut.{name}_{number}", self.at_test(part, theirs))
        return found

    def at_test(self, part: Part, name: str) -> str:
        """What the test of a memory commands or takes; a comparator takes what one answers that shares a controller."""
        if part.leader is not None and name == "rdata":
            return f"dut.{self.text.names.of(f'n_{part.name}_taken')}"
        return f"dut.{self.text.names.of(f'chip_{part.chip}')}.{name}_{part.place}"

    def clocks(self) -> List[str]:
        """The clocks of the collars and of the chips, and whether they are in test."""
        looks, wakes = [], ["clk", "test"]
        for number, placed in enumerate(self.system.collars):
            one, there = Bench(placed.macro, placed.word, placed.name), self.collar(number)
            for name in ("clk", "test", *(["scan_mode"] if placed.macro.bypass else [])):
                looks += self.compared(f"{name} of the collar of {placed.name}", f"{there}.{name}", name)
            for pin in [pin for _, pin in placed.macro.chip_pins() if is_clock(pin)]:
                what = f"{pin.name} of the collar of {placed.name}"
                looks += self.compared(what, f"{there}.{pin.name}", one.inside(pin))
                wakes.append(one.inside(pin))
        for chip in range(len(self.system.chips)):
            there = f"dut.{self.text.names.of(f'chip_{chip}')}"
            looks += self.compared(f"clk of {self.system.name_of(chip)}", f"{there}.clk", "clk")
        head = [f"  always @({' or '.join(wakes)}) begin", "    #1;", "    if (planted == 0) begin"]
        return [*head, *looks, "    end", "  end"]

    def failures(self) -> List[str]:
        """In test each bit of fail is 1 from the cycle on that is behind the first wrong word of its memory, which is
        worked out once more from the ports of its test, or where the lanes say so or two parts are out of step."""
        found: List[str] = []
        for number, part in enumerate(self.system.parts):
            at, latency = f"due_{number}", part.memory.latency
            wants = [f"{at}_want_{age}" for age in range(1, latency + 1)]
            source = {name: self.at_test(part, name) for name in ("en", "we", "wdata", "rdata")}
            collar = next(count for count, one in enumerate(self.system.collars) if part in one.parts)
            placed, there = self.system.collars[collar], self.collar(collar)
            bad = [f"{at}_bad", *([f"{there}.lanes_fail"] if placed.macro.masks else [])]
            bad += [f"{there}.apart"] if len(placed.parts) > 1 else []
            fail = f"fail[{number}]" if len(self.system.parts) > 1 else "fail"
            asks = f"{source['en']} & ~{source['we']}"
            asks = f"{{{at}_due[{latency - 1}:1], {asks}}}" if latency > 1 else asks
            told = f'"{self.system.name}: fail of {part.name} is %b, and by its reads it has to be %b"'
            found += [
                f"  reg [{latency}:1] {at}_due;",
                f"  reg [{part.memory.bits - 1}:0] {', '.join(wants)};",
                f"  reg {at}_bad, {at}_kept;",
                f"  wire {at}_now = {' | '.join([f'{at}_kept', *bad])};",
                "  always @(posedge clk) begin",
                f"    {at}_due <= {asks};",
                *(f"    {later} <= {earlier};" for later, earlier in zip(wants, [source["wdata"], *wants])),
                f"    if (dut.{self.text.names.of(f'chip_{part.chip}')}.reset !== 1'b0) begin",
                f"      {at}_due <= {latency}'d0;",
                f"      {at}_bad <= 1'b0;",
                f"    end else if ({at}_due[{latency}] && {source['rdata']} !== {wants[-1]}) {at}_bad <= 1'b1;",
                f"    {at}_kept <= test === 1'b1 & {at}_now;",
                f"    if (test === 1'b1 && {fail} !== {at}_now) $fatal(1, {told}, {fail}, {at}_now);",
                "  end",
            ]
        return found

    def budget(self) -> List[str]:
        """What the memories that are on weigh."""
        parts = []
        for number, placed in enumerate(self.system.collars):
            weight = sum(part.weight for part in placed.parts)
            parts.append(f"      if (({self.is_on(number, placed)}) !== 1'b0) load = load + {weight};")
        name, budget = self.system.name, self.system.budget
        return [
            "  integer load;",
            "  always @(posedge clk)",
            "    if (test === 1'b1 && planted == 0) begin",
            "      load = 0;",
            *parts,
            f"      if (load > {budget})",
            f"        $fatal(1, \"{name}: what is on weighs %0d, and the budget is {budget}\", load);",
            "    end",
        ]

    def is_on(self, number: int, placed: Placed) -> str:
        """Whether a memory is on: its enables, or if it has none the command of its test."""
        there, found = self.collar(number), []
        memory = f"{there}.{self.text.memory_names[number]}"
        for second in (False, True):
            pins = placed.macro.of("en", second=second) or placed.macro.of("read", "write", second=second)
            for pin in pins:
                names = ", ".join(f"{memory}.{name}" for name in pin.names())
                found.append(f"(|{'(~' if pin.is_low else '('}{{{names}}}))")
        lanes = [f"{there}.lanes_go"] if placed.macro.masks else []
        return " | ".join(found or [f"{there}.{halves(placed.word)[0][0]}_en", *lanes])


def is_clock(pin: Pin) -> bool:
    return pin.kind in ("clk", "clock2")
