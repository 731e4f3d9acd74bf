"""Whether a chip whose memories got a test in their places does in use what it did before: Yosys takes the memories
out of both, and proves that each pin of each of them, each flip-flop and each output of the chip has what it had."""
from __future__ import annotations

import contextlib
import dataclasses
import json
import pathlib
import re
from typing import Any, Mapping

from vidlakost_tools.access import under_tap
from vidlakost_tools.access.target import Port
from vidlakost_tools.chip.system import Placed
from vidlakost_tools.collar.model import boxes
from vidlakost_tools.collar.pins import Pin, literal
from vidlakost_tools.in_place.place_list import Places
from vidlakost_tools.in_place.places_first import beginnings_of, other_beginnings, other_blocks
from vidlakost_tools.in_place.sequencer import PlaceTarget
from vidlakost_tools.in_place.text import box
from vidlakost_tools.temporary import folder_of_its_own
from vidlakost_tools.text import beside, shown, template
from vidlakost_tools.tool import ToolError
from vidlakost_tools.verilog import misread, yosys
from vidlakost_tools.verilog.source_texts import blanked, with_included

# of one side: its boxes, its sources, its top, what its memories are called, and the name that the module gets
SIDE = template(__file__, "places_proof_side.sv")
PROOF = beside(__file__, "places_proof_proof.sv")
# what a driver that can be off becomes: an instance of this box for each bit, whose pins are compared as a memory's are
OFF = beside(__file__, "places_proof_off.v")
OFF_BOX = "module places_off(input value, input on, output net); endmodule\n"
OFF_PIN = re.compile(r"(.*)\$tribuf\.bits\[(\d+)\]\.off\.(value|on|net)")
TWO_DRIVERS = re.compile(r"Warning: multiple conflicting drivers for \S+?\.\\?(\S+)(?: \[(\d+)\])?:")
# Yosys takes an asynchronous reset beside a set for the stronger one, whichever the source names first
BOTH = re.compile(r"Warning: Complex async reset for dff `\\?(\S+)'\.")
UNPROVED = re.compile(r"Unproven \$equiv .*?: \\?(\S+)_gold(?: \[(\d+)\])?")


@dataclasses.dataclass
class Side:
    """A side of the proof, as Yosys reports it: of each port its direction and its bits, whether it has a state, and
    whether a value is off that no driver of a net of its own has."""

    ports: Mapping[str, tuple[str, list[Any]]]
    has_inner_state: bool
    is_off_inside: bool


def side_of(path: pathlib.Path, name: str) -> Side:
    told = json.loads(path.read_text(encoding="utf-8"))["modules"][name]
    ports = {port: (one["direction"], one["bits"]) for port, one in told["ports"].items()}
    cells = told["cells"].values()
    # a driver whose net has no name stays inside, where Yosys takes any value for it
    is_off = any(cell["type"] == "places_off" or "z" in sum(cell["connections"].values(), []) for cell in cells)
    return Side(ports, any(cell["type"] == "$ff" for cell in cells), is_off)


class Proof:
    """What is asked of Yosys, in a folder of its own."""

    def __init__(self, target: PlaceTarget, places: Places, folder: pathlib.Path):
        self.target, self.places, self.folder = target, places, folder
        self.both: dict[str, None] = {}
        self.collars = {placed.name: placed for placed in target.system.collars}
        words = {placed.word.name: placed for placed in target.system.collars}
        macros = boxes([placed.macro for placed in target.system.collars])
        reached: dict[str, list[str]] = {"access": ["start"], "tap": ["tck", "tms", "tdi", "trst_n"], "apb": []}
        reached["register"] = list(under_tap.INPUTS)
        starts = "".join(self.reach(kind, inputs) for kind, inputs in reached.items())
        unknown = "".join(self.unknown(kind) for kind in reached)
        places_of = "".join(box(placed.macro, placed.word) for placed in words.values())
        # the chip as it was has macros alone, and nothing that starts a test
        for side, outside, inside in (("gold", macros, ""), ("gate", macros + places_of + unknown, starts)):
            (folder / f"{side}_boxes.v").write_text(outside + OFF_BOX, encoding="utf-8")
            (folder / f"{side}_starts.v").write_text(inside, encoding="utf-8")
        (folder / "off.v").write_text(OFF, encoding="utf-8")

    def others(self, kind: str) -> list[Port]:
        """The ports of what starts the test, beside its clock, `test` and the bundles."""
        if kind == "tap":
            return [Port("output", "tdo"), Port("output", "tdo_en")]
        if kind == "register":
            return [Port("output", "tdo")]
        if kind == "access":
            state = [Port("output", "done"), Port("output", "fail", self.target.count), Port("output", "seen")]
            return [*self.target.choice(), *state, *self.target.result()]
        return [Port("output", "prdata", 32), Port("output", "pready"), Port("output", "pslverr")]

    def outputs(self, kind: str) -> list[Port]:
        return [port for port in (*self.target.ports(), *self.others(kind)) if port.direction == "output"]

    def unknown(self, kind: str) -> str:
        """A box of the outputs of which nothing is known in use: each is a driver."""
        told = ", ".join(port.declared() for port in self.outputs(kind))
        return f"module {self.target.name}_{kind}_unknown({told}); endmodule\n"

    def reach(self, kind: str, inputs: list[str]) -> str:
        """What starts the test, in use: its test is 0 there, and nothing is known of its other outputs."""
        ports = [Port("input", "clk"), *(Port("input", name) for name in inputs), *self.target.ports()]
        ports += [Port("output", "test"), *self.others(kind)]
        if kind == "apb":
            inward = {"pclk": 1, "presetn": 1, "psel": 1, "penable": 1, "pwrite": 1, "paddr": 12, "pwdata": 32}
            ports += [Port("input", name, width) for name, width in inward.items()]
        told = ",\n  ".join(port.declared() for port in ports)
        name = f"{self.target.name}_{kind}"
        joined = ", ".join(f".{port.name}({port.name})" for port in self.outputs(kind))
        return (
            f"module {name}(\n  {told}\n);\n  assign test = 1'b0;\n  {name}_unknown unknown({joined});\nendmodule\n"
        )

    def script(self, side: str, left_out: list[str]) -> str:
        places = self.places
        sources = places.before if side == "gold" else places.sources
        paths = {name: place.was if side == "gold" else place.path for name, place in places.places.items()}
        numbers = {name: number for number, name in enumerate(self.collars)}
        return SIDE.substitute(
            boxes=yosys.quoted(self.folder / f"{side}_boxes.v"),
            starts=yosys.quoted(self.folder / f"{side}_starts.v"),
            sources=yosys.sources_of(sources),
            top=places.chip,
            off=yosys.quoted(self.folder / "off.v"),
            renamed="\n".join(f"rename {path} place_{numbers[name]}" for name, path in paths.items()),
            side=side,
            first=yosys.quoted(self.folder / f"{side}_first.json"),
            json=yosys.quoted(self.folder / f"{side}.json"),
            left_out="".join(f"delete -port {side}/w:{name}\n" for name in left_out),
        )

    def named(self, port: str, bit: str | None = None) -> str:
        """A port of a side, as somebody who reads the sources calls it."""
        off = OFF_PIN.fullmatch(port)
        if off:
            return f"{'when it is driven' if off[3] == 'on' else 'the driver'} of {off[1]}[{off[2]}]"
        found, of = re.fullmatch(r"place_(\d+)\.(.*)", port), f"[{bit}]" if bit else ""
        return f"{found[2]}{of} of {list(self.collars)[int(found[1])]}" if found else f"{port}{of}"

    def driven_twice(self, side: str, when: str) -> list[str]:
        """The bits of a side that have more than one driver: no value of theirs could be compared."""
        lines = yosys.run(self.script(side, []), self.folder)
        self.both.update((found[1], None) for found in map(BOTH.search, lines) if found)
        pairs = [TWO_DRIVERS.search(line) for line in lines]
        return [f"{self.named(found[1], found[2])} {when} more than one driver" for found in pairs if found]

    def tied(self, gold: Side) -> list[str]:
        """The inputs of macros that were tied to something else than the collar ties them to."""
        found = []
        for number, placed in enumerate(self.collars.values()):
            for pin in placed.macro.of("tie"):
                port = f"place_{number}.{pin.name}"
                if port in gold.ports and not is_tied(gold, pin, placed, number):
                    tied = f"{pin.name} of {placed.name} is tied to {pin.value} by the file of pins"
                    found.append(f"{tied}, and was not before")
        return found

    def not_compared(self) -> set[str]:
        """The pins of the macros that only these have, since the collar ties them or leaves them open."""
        return {
            f"place_{number}.{pin.name}"
            for number, placed in enumerate(self.collars.values())
            for pin in placed.macro.of("tie", "open", "power")
        }

    def behind_tdo(self) -> set[str]:
        """The flip-flops of a TAP that the chip had before whose output is TDO: by its instruction the bits of the
        register leave there, so these are not what they were."""
        if not self.places.under[0]:
            return set()
        told = json.loads((self.folder / "gate_first.json").read_text(encoding="utf-8"))
        nets = told["modules"][self.places.chip]["netnames"]
        bits = nets[self.places.start["tdo"]]["bits"]
        return {f"{name}.d is not what it was" for name, net in nets.items() if net["bits"] == bits}

    def differences(self) -> list[str]:
        """What differs in use from what it was; nothing if all is proved."""
        found = self.all_differences()
        beside = self.behind_tdo() if found else set()
        return [line for line in found if line not in beside]

    def all_differences(self) -> list[str]:
        """The same, with TDO."""
        twice = [*self.driven_twice("gold", "had"), *self.driven_twice("gate", "has")]
        if twice:
            return twice
        gold, gate = self.sides()
        if gold.is_off_inside or gate.is_off_inside:
            chip = self.places.chip
            why = "that no net of its own has from `ENABLE ? VALUE : 'bz`, and isn't compared"
            raise ToolError(f"{chip} has a `z` {why}", 1)
        beside = self.not_compared()
        found = self.tied(gold)
        for port, (way, bits) in gold.ports.items():
            if port in beside:
                continue
            if port not in gate.ports:
                found.append(f"{self.named(port)} is not there any more")
            elif (gate.ports[port][0], len(gate.ports[port][1])) != (way, len(bits)):
                found.append(f"{self.named(port)} has another direction or width than before")
            elif [bit == "z" for bit in gate.ports[port][1]] != [bit == "z" for bit in bits]:
                found.append(f"{self.named(port)} is not what it was")
        found += [*self.other_beginnings(), *other_blocks(self.places.before, self.places.sources, self.both)]
        if found:
            return found
        sides = self.script("gold", [port for port in gold.ports if port in beside])
        sides += self.script("gate", [port for port in gate.ports if port not in gold.ports or port in beside])
        left = self.unproved(sides + PROOF)
        if left and gold.has_inner_state:
            # what stays inside is compared over several cycles, which takes long where something is another
            with contextlib.suppress(yosys.Slow):
                return self.unproved(sides + PROOF.replace("equiv_status", "equiv_induct -undef\nequiv_status"))
        return left

    def sides(self) -> tuple[Side, Side]:
        """Both chips, as Yosys reads them."""
        return side_of(self.folder / "gold.json", "gold"), side_of(self.folder / "gate.json", "gate")

    def other_beginnings(self) -> list[str]:
        gold, gate = (beginnings_of(self.folder / f"{side}_first.json", self.places.chip) for side in ("gold", "gate"))
        return other_beginnings(gold, gate, [place.was for place in self.places.places.values()])

    def unproved(self, script: str) -> list[str]:
        """What Yosys did not prove to be the same on both sides."""
        lines = yosys.run(script, self.folder)
        pairs = [UNPROVED.search(line) for line in lines]
        left = [f"{self.named(found[1], found[2])} is not what it was" for found in pairs if found]
        if not left and not any("Equivalence successfully proven!" in line for line in lines):
            raise ToolError("Yosys reports no result of the proof", 1)
        return list(dict.fromkeys(left))


def refuse_misread(files: list[str]) -> None:
    """Refuses what Yosys reads otherwise than a simulator, so that two chips could seem to be equal."""
    for file, source in with_included(files):
        found = re.search(r"\bnotif0\b", blanked(source)[0])
        if found:
            line = blanked(source)[0].count("\n", 0, found.start()) + 1
            why = "Yosys takes notif0 for notif1; `assign` with `? :` says what is meant"
            raise ToolError(f"{shown(file)}:{line}: {why}")
    misread.refuse((file, blanked(source)[0]) for file, source in with_included(files))


def is_tied(gold: Side, pin: Pin, placed: Placed, number: int) -> bool:
    """Whether an input had what the file of pins says."""
    bits = gold.ports[f"place_{number}.{pin.name}"][1]
    known = literal(pin.value)
    if known:
        return bits == [str(known[1] >> bit & 1) for bit in range(known[0])]
    name = placed.macro.clk if pin.value == "clk" else pin.value
    there = gold.ports.get(f"place_{number}.{name}")
    return there is not None and bits == there[1]


def differences(target: PlaceTarget, places: Places) -> list[str]:
    """What is another in use than it was."""
    refuse_misread([*places.before, *places.sources])
    with folder_of_its_own() as folder:
        return Proof(target, places, folder).differences()
