"""The testbench of the module that joins the chips with the collars of their memories: it uses each memory by the
chip's pins, runs the test of sound memories, and plants one fault after another."""
from __future__ import annotations

import dataclasses

from vidlakost_tools.chip.steps import begin_of, cycles
from vidlakost_tools.chip.system import Part, Placed, System
from vidlakost_tools.chip.text import Text, port_name, seen_by_tester
from vidlakost_tools.chip.watch import Watch
from vidlakost_tools.collar import planted as collar_planted
from vidlakost_tools.collar.bench import Bench, in_test, planted_inputs, shared
from vidlakost_tools.collar.names import MARK
from vidlakost_tools.collar.pins import bit_of
from vidlakost_tools.collar.text import FOOT, HEAD, PLANTED
from vidlakost_tools.collar.watch import GATES
from vidlakost_tools.text import template
from vidlakost_tools.texts.reads import first_read
from vidlakost_tools.verilog.bench_end import FINISH, over, progress
from vidlakost_tools.verilog.syntax import ranged

BENCH = template(__file__, "bench_whole.sv")
USE = template(__file__, "bench_use.sv")


def chip_side(placed: Placed, one: Bench) -> list[str]:
    """The chip's pins of a collar, and what they hang on."""
    found = []
    for way, pin in placed.macro.chip_pins():
        for at, name in enumerate(pin.names() if way != "inout" else []):
            width = 1 if pin.bits else pin.width
            net = bit_of(one.inside(pin), pin.width, at) if pin.bits else one.inside(pin)
            found.append(f".{port_name(placed, name)}({in_test(pin, net, width, 'test') if way == 'input' else net})")
    return found


@dataclasses.dataclass
class Fault:
    """A planted fault: its number, the collar, the bits or lanes, its name, and the memories that must each report
    it."""

    kind: int
    collar: int
    places: list[int]
    what: str
    parts: list[Part]

    def due(self, system: System) -> int:
        """How many cycles behind its start a run has found a wrong bit; 0 where that is no matter of the first read."""
        if self.kind != 4:
            return 0
        part = self.parts[0]
        first = first_read(part.unit.elements, part.memory)
        unit = system.chips[part.chip].units[part.place]
        return begin_of(system, part.chip) + unit.start + first[0] if first else 0


def faults(system: System) -> list[Fault]:
    """What is planted; a tied address is a matter of the march, and of the collar's own testbench."""
    found = []
    for number, placed in enumerate(system.collars):
        first = 0
        for kind, places, what in Bench(placed.macro, placed.word, placed.name).kinds():
            if kind == 4:
                part = placed.parts[0 if places[0] == 0 else 1]
                places = [first + place for place in collar_planted.some_of(part.name, part.memory.bits)]
                first += part.memory.bits
                found.append(Fault(kind, number, places, "a wrong bit", [part]))
            elif kind != 1:
                found.append(Fault(kind, number, places, what, placed.parts))
    return found


def runs(system: System) -> list[str]:
    """The runs with what is planted, and those with words in which every two bits differ; each can be left out."""
    width, count, found = 3 * len(system.collars), len(system.parts), []
    for number, fault in enumerate(faults(system)):
        due = fault.due(system)
        where = sum(1 << system.parts.index(part) for part in fault.parts)
        what = f"1'b{int(fault.kind == 4)}, {width}'d{fault.kind} << {3 * fault.collar}"
        there = " || ".join(f'asked == "{name}"' for name in ["", *(part.name for part in fault.parts)])
        lines = [f"      take({number}, {there}, turn_taken);", "      if (turn_taken) begin"]
        lines += [f"        run({what}, 7'd{place}, 3'd0, {count}'h{where:x}, {due});" for place in fault.places]
        lines += ["        " + progress(f"{system.name}: {fault.what} at {fault.parts[0].name} is found"), "      end"]
        found.append("\n".join(lines))
    numbers = max(collar_planted.count(placed.word.bits) for placed in system.collars)
    for number in range(1, numbers + 1):
        lines = [f'      take({len(found)}, asked == "", turn_taken);', "      if (turn_taken) begin"]
        lines.append(f"        run(1'b0, {width}'d0, 7'd0, 3'd{number}, {count}'d0, 0);")
        told = f"of the words in which every two bits differ number {number} passes"
        found.append("\n".join([*lines, "        " + progress(f"{system.name}: {told}"), "      end"]))
    return found


def bench(system: System) -> str:
    """The testbench of the system."""
    count, width = len(system.parts), 3 * len(system.collars)
    links = [".scan_mode(scan_mode)"] if any(placed.macro.bypass for placed in system.collars) else []
    declared, power, tasks, again = shared([placed.macro for placed in system.collars]), "", "", []
    for placed in system.collars:
        one = Bench(placed.macro, placed.word, placed.name)
        declared += one.declared()
        power += one.power()
        tasks += one.tasks() + USE.substitute(name=placed.name, uses=one.uses())
        links += chip_side(placed, one)
        again.append(one.again())
    links += [".asks()"] if system.has_access else []
    links += [f".{name}()" for name, _ in seen_by_tester(system)]
    turns, text = runs(system), Text(system)
    text.text()
    return BENCH.substitute(
        mark=MARK,
        name=system.name,
        over=over(f"{system.name}_system_tb"),
        planted=PLANTED,
        head=HEAD,
        foot=FOOT,
        planted_top=width - 1,
        planted_width=width,
        fails=ranged(count),
        inputs="\n".join(planted_inputs(len(system.collars))),
        declared="\n".join(declared),
        power=power,
        links=",\n    ".join(links),
        tasks=tasks,
        watched=Watch(system, text).lines(),
        gates=GATES,
        finish=FINISH,
        uses="\n".join(f"      use_{placed.name};" for placed in system.collars),
        again="\n".join(again),
        most=cycles(system) + 20,
        zero=f"{count}'d0",
        turns=len(turns),
        named="".join(f' && asked != "{part.name}"' for part in system.parts),
        faults="\n".join(turns),
    )
