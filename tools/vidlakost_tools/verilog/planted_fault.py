"""A fault that a testbench plants in its memory, as statements."""
from __future__ import annotations

from typing import Any, Mapping

from vidlakost_tools.program import run
from vidlakost_tools.texts.faults import Primitive, Sense, place_of, read_primitive
from vidlakost_tools.texts.memory import Memory
from vidlakost_tools.tool import Refused, ToolError


def act_condition(memory: Memory, sense: Sense, where: tuple[int, int]) -> str:
    """Whether the command is the operation of this sense on its bit."""
    word, bit = where
    operation = sense.operations[0]
    here = f"index == {memory.width}'d{word}"
    if operation[0] == "r":
        return f"{here} && !we"
    return f"{here} && we && stored[{bit}] == 1'b{operation[1]}"


class Fault:
    """The planted fault as statements of the testbench."""

    def __init__(
        self, memory: Memory, primitive: Primitive, victim: tuple[int, int], aggressor: tuple[int, int] | None
    ):
        self.memory, self.primitive, self.victim, self.aggressor = memory, primitive, victim, aggressor

    def set_victim(self) -> str:
        return f"words[{self.victim[0]}][{self.victim[1]}] = 1'b{self.primitive.after};"

    def acts(self) -> tuple[str, Sense, tuple[int, int]] | None:
        for sense, where in ((self.primitive.victim, self.victim), (self.primitive.aggressor, self.aggressor)):
            if sense and where and sense.operations:
                return sense.operations[0], sense, where
        return None

    def declarations(self) -> str:
        holds = [f"words[{self.victim[0]}][{self.victim[1]}] == 1'b{self.primitive.victim.state}"]
        if self.primitive.aggressor and self.aggressor:
            holds.append(f"words[{self.aggressor[0]}][{self.aggressor[1]}] == 1'b{self.primitive.aggressor.state}")
        text = f"""
  // the planted fault: whether its states hold, and whether the command is its operation
  reg acts;
  reg {self.memory_range()}stored;
  function holds(input unused);
    holds = {' && '.join(holds)};
  endfunction
"""
        return text

    def memory_range(self) -> str:
        return f"[{self.memory.bits - 1}:0] "

    def access(self) -> str:
        acts = self.acts()
        lines = [f"          stored = wdata ^ {self.memory.bits}'h{self.memory.polarity:x};"]
        by_command = acts is not None and acts[0] != "t"
        when = f"holds(1'b0) && {act_condition(self.memory, acts[1], acts[2])}" if acts and by_command else "1'b0"
        lines.append(f"          acts = {when};")
        lines.append("          if (we) words[index] = stored;")
        lines.append(f"          else own = words[index] ^ {self.memory.bits}'h{self.memory.polarity:x};")
        if by_command:
            lines.append("          if (acts) begin")
            lines.append(f"            {self.set_victim()}")
            if self.primitive.answer is not None:
                shown = self.primitive.answer ^ (self.memory.polarity >> self.victim[1] & 1)
                lines.append(f"            own[{self.victim[1]}] = 1'b{shown};")
            lines.append("          end")
        return "\n".join(lines + self.closing("          "))

    def closing(self, margin: str) -> list[str]:
        return [] if self.acts() else [f"{margin}if (holds(1'b0)) {self.set_victim()}"]

    def rest(self) -> str:
        acts = self.acts()
        if not acts or acts[0] != "t":
            return ""
        return f"\n        if (idle == 32'd{self.memory.pause} && holds(1'b0)) {self.set_victim()}"

    def closed(self) -> str:
        lines = self.closing("    ")
        return "\n" + lines[0] if lines else ""


def fault_of(options: Mapping[str, Any], march: str, memory_file: str, memory: Memory) -> Fault | None:
    """The fault to plant. `benchfault` is asked for it first, so that what is no fault, or lies outside the memory, is
    refused here as it is there."""
    if "--fault" not in options:
        if "--victim" in options or "--aggressor" in options:
            raise ToolError("--victim and --aggressor need a --fault")
        return None
    if "--victim" not in options:
        raise ToolError("--fault needs the cell of its victim: --victim W.B")
    aggressor = options.get("--aggressor", "none")
    words = ["benchfault", march, memory_file, options["--fault"], aggressor, options["--victim"]]
    status, said = run(*words)
    # a test may be too long to be run by the program; the cells are then looked at here
    if status > 1 and not (status == 12 and "--stream" in options):
        raise Refused(words, said, status)
    primitive = read_primitive(options["--fault"])
    cells = [place_of(text) for text in (options["--victim"], aggressor) if text != "none"]
    is_within = all(word < memory.words and bit < memory.bits for word, bit in cells)
    if not is_within or len({word for word, _ in cells}) < len(cells):
        raise ToolError("a cell of the fault is outside the memory, or both are in one word", 11)
    return Fault(memory, primitive, cells[0], cells[1] if cells[1:] else None)
