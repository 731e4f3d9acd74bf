"""Any synthesizable Verilog (or VHDL, through GHDL) as a module of the subset: Yosys' words become operators of the
subset with their widths, and the names of the sources stay. What nothing drives, what nothing sets and each `x` is
open: a register that nothing sets."""
from __future__ import annotations

import dataclasses
import pathlib
import re
from typing import Any

from vidlakost_tools.audit.pins import Pins
from vidlakost_tools.temporary import folder_of_its_own
from vidlakost_tools.text import shown
from vidlakost_tools.tool import ToolError
from vidlakost_tools.verilog import clock_tree, known_cells, source_texts, yosys
from vidlakost_tools.verilog.syntax import ranged
from vidlakost_tools.verilog.vhdl import verilog_of
from vidlakost_tools.verilog.yosys_operators import Writer
from vidlakost_tools.verilog.named_bits import Drive, NotWords

# Two flip-flops with the same input are not one: before the first edge they may differ. So flip-flops are neither
# merged nor made simpler, and an `x` is a number of its own wherever it stands.
SIMPLER = (
    "opt_expr -keepdc\nopt_merge t:$*dff* t:$*DFF* t:$__* %u %u %n\nopt_muxtree\nopt_reduce\nopt_expr"
    " -keepdc\nopt_clean\n"
)
OPEN_X = "setundef -anyseq\n"
HARD = (
    "t:$shiftx t:$shift t:$mul t:$div t:$mod t:$divfloor t:$modfloor t:$pow t:$alu t:$lcu t:$macc t:$fa t:$sshl t:$sshr"
)
HARD += " t:$demux t:$bmux t:$lut t:$sop"
# a pass over what is too wide or too rare for an operator, which may leave such cells once more
RARE = f"techmap {HARD}\n" * 3
WORDS = f"{OPEN_X}{SIMPLER}memory_map\n{OPEN_X}{SIMPLER}async2sync\npmuxtree\ndffunmap\n{SIMPLER}"
ALL_GATES = (f"{WORDS}techmap\n{SIMPLER}dffunmap\n{OPEN_X}{SIMPLER}",)
# as words; with rare cells and wide ones as gates; all as gates
TRIES = (WORDS, f"{WORDS}{RARE}{OPEN_X}{SIMPLER}", *ALL_GATES)


@dataclasses.dataclass
class Plain:
    """A module of the subset: its ports, and what drives each name; of a name the signal of the sources with its place;
    the pin that is its clock; the files that were opened to read it."""

    name: str
    ports: list[tuple[str, str, int]]
    wires: list[Drive]
    outputs: list[Drive]
    registers: list[Drive]
    opens: list[str]
    places: dict[str, str]
    clock: str | None
    warnings: list[str] = dataclasses.field(default_factory=list)
    opened: list[str] = dataclasses.field(default_factory=list)
    top: str = ""
    # of each register the signals of the sources that each of its bits is, with its place in them
    origins: dict[str, list[list[tuple[str, int]]]] = dataclasses.field(default_factory=dict)
    # the widths of these signals
    widths: dict[str, int] = dataclasses.field(default_factory=dict)

    def text(self) -> str:
        """The module, in the subset that `check` and `benchfile` read."""
        ports = [f"  {way} {ranged(width)}{name}" for way, name, width in self.ports]
        lines = [f"  reg {ranged(register.width)}{register.name};" for register in self.registers]
        lines += [f"  reg {name};" for name in self.opens]
        lines += [f"  wire {ranged(wire.width)}{wire.name};" for wire in self.wires]
        lines += [f"  assign {wire.name} = {wire.value};" for wire in [*self.wires, *self.outputs]]
        lines += [f"  always @(posedge clk) {register.name} <= {register.value};" for register in self.registers]
        return "\n".join([f"module {self.name}(", ",\n".join(ports), ");", *lines, "endmodule", ""])

    def place(self, name: str) -> str:
        return self.places.get(name, name)


# ---- the module


def plain_of(
    files: list[str], options: dict[str, Any], pins: Pins | None = None, tries: tuple[str, ...] = TRIES
) -> Plain:
    """The module of the sources, with the ports of the pins where these are told; the first of the tries that gives
    one."""
    yosys.want()
    with folder_of_its_own() as folder:
        named, chosen = verilog_of(files, options, folder)
        sources = sources_of(named, chosen, folder)
        refuse_calls(sources.warnings)
        pins = pins.complete(sources.module["ports"]) if pins else None
        if pins is None:
            refuse_names(sources.module["ports"])
        begin, clock = clock_tree.settled(sources, pins, folder)
        for passes in tries:
            script = f"{begin}chformal -remove\n{passes}write_json {yosys.quoted(folder / 'words.json')}\n"
            yosys.run(script, folder, "-q")
            try:
                plain = written(*yosys.top_module(folder / "words.json"), pins, clock)
                break
            except NotWords as error:
                told = str(error)
        else:
            raise ToolError(told, 1)
        plain.warnings = [*sources.warnings, *clock.warnings]
        plain.opened = sources.opened
        return plain


def sources_of(files: list[str], options: dict[str, Any], folder: pathlib.Path) -> source_texts.Sources:
    """The sources as Yosys reads them; a module or a cell that is missing, or stands twice, is told by its name."""
    try:
        return yosys.read(files, options, folder)
    except ToolError as error:
        missing = re.search(r"Module `\\(\S+)' referenced in module `\\(\S+)'", str(error))
        twice = re.search(r"Re-definition of (?:cell/)?module [`]?\\?([^'!]+)", str(error))
        if missing:
            cells = ", and no cell with a function for each output in the libraries" if "--liberty" in options else ""
            if "--cells" in options:
                cells += f", and none of the cells that are known: {known_cells.told(options)}"
            where = f"the files{cells}"
            raise ToolError(f"{missing[2]} has a part {missing[1]}, which is not a module of {where}", 1) from error
        if twice:
            raise ToolError(f"{twice[1]} is defined twice, in the files or in the libraries", 1) from error
        raise


def refuse_calls(warnings: list[str]) -> None:
    """Refuses a call of the system, as $time, of which Yosys makes a wire that nothing drives."""
    for warning in warnings:
        found = re.match(r"(.*?):? ?Warning: Identifier `\\?(\$\w+)' is implicitly declared", warning)
        if found:
            raise ToolError(f"{found[1]}: {found[2]} is a call for simulations, not logic", 1)


def refuse_names(ports: dict[str, Any]) -> None:
    for port in ports:
        if not re.fullmatch(r"[A-Za-z_][\w$]{0,63}", port, re.ASCII):
            raise ToolError(f"the port {shown(port)} is not a simple identifier", 1)


def written(name: str, module: dict[str, Any], pins: Pins | None, clock: clock_tree.Clock) -> Plain:
    writer = Writer(module, pins, clock.port)
    wires, registers = writer.cells()
    outputs = writer.outputs()
    return Plain(
        re.sub(r"\W", "_", name)[:60] or "top",
        writer.ports,
        [*wires, *writer.helpers],
        outputs,
        registers,
        writer.opens,
        writer.places,
        clock.port,
        top=name,
        origins=writer.origins(),
        widths={name: len(net["bits"]) for name, net in writer.nets()},
    )
