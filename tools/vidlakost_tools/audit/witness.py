"""The second witness of a yes: a simulator of the sources' own language, which clocks the sources themselves beside the
module that Yosys makes of them."""
from __future__ import annotations

import dataclasses
import secrets
import shutil
from typing import Any

from vidlakost_tools.audit import beside_ghdl, beside_icarus
from vidlakost_tools.audit.beside_ghdl import BesideVhdl
from vidlakost_tools.audit.beside_icarus import Beside, Differs, Seen, Unclocked
from vidlakost_tools.audit.outcome import READ_ALONE, Outcome
from vidlakost_tools.audit.pins import Pins
from vidlakost_tools.audit.rule_vectors import Rule
from vidlakost_tools.audit.stretches import Whole
from vidlakost_tools.texts.memory import Memory
from vidlakost_tools.tool import ToolError, tell
from vidlakost_tools.verilog import known_cells, source_texts, yosys
from vidlakost_tools.verilog.front_end import Plain
from vidlakost_tools.verilog.vhdl import is_vhdl

# the words of a call about it
SIMULATED = {"--simulate": 0, "--no-simulate": 0}


@dataclasses.dataclass
class Asked:
    """What is to be clocked: the tool that asks, the sources with the words of the call, the module made of them, its
    pins, and the memory and the test where these are known."""

    tool: str
    files: list[str]
    options: dict[str, Any]
    plain: Plain
    pins: Pins | None = None
    memory: Memory | None = None
    test: Whole | None = None
    rule: Rule | None = None


@dataclasses.dataclass
class Heard:
    """What a witness says: what it saw, or why there is none; whether the user asked for none."""

    seen: Seen | None = None
    why: str = ""
    is_asked: bool = True

    def doubt(self) -> str:
        """What the witness leaves open."""
        if self.seen is None or self.seen.doubt is None:
            return ""
        port, cycle = self.seen.doubt
        return f"{port} is unknown to {self.seen.simulator} in cycle {cycle}, where Yosys has a number"

    def by(self) -> str:
        """By whom the sources were clocked, as the last line has it."""
        assert self.seen is not None
        if self.seen.simulator == "GHDL":
            return "one front end (GHDL), simulated"
        return f"simulated by {self.seen.simulator}"


def heard(asked: Asked) -> Heard:
    """What a simulator sees; a port that differs is refused."""
    if "--no-simulate" in asked.options:
        return Heard(is_asked=False)
    try:
        seen = clocked(asked)
    except Unclocked as error:
        tell(f"{asked.tool}: no simulator has seen the sources: {error}")
        return Heard(why=str(error))
    print(seen.line())
    return Heard(seen)


def clocked(asked: Asked) -> Seen:
    vhdl = list(filter(is_vhdl, asked.files))
    if vhdl and len(vhdl) < len(asked.files):
        raise Unclocked("no simulator clocks Verilog and VHDL together", 1)
    if vhdl:
        nonce = f"s{secrets.token_hex(8)}"
        return beside_ghdl.beside(BesideVhdl(asked.files, asked.plain, asked.pins, asked.rule), nonce)
    if shutil.which("iverilog") is None:
        raise Unclocked("Icarus (iverilog and vvp) is not on the PATH", 1)
    texts = [source for _, source in source_texts.with_included(asked.files)]
    generic = known_cells.generic(texts)
    cells = known_cells.cells_of(asked.options, texts) + generic + yosys.library_models(asked.options, texts)
    beside = Beside(asked.files, asked.plain, asked.pins, asked.memory, cells, test=asked.test)
    return beside_icarus.beside(dataclasses.replace(beside, is_set="\\$_" not in generic or "reg" not in generic))


def outcome(asked: Asked, told: str, usual: str, witnesses: dict[str, str]) -> Outcome:
    """The verdict of a module that is right as Yosys reads the sources; what is usual isn't told of one that no
    simulator saw."""
    said = heard(asked)
    more = "" if told == usual else told
    if said.seen is None:
        if said.is_asked:
            line = f"{READ_ALONE}{f': {more}' if more else ''}"
            return Outcome(asked.tool, "unknown", line, witnesses=witnesses)
        return Outcome(asked.tool, "right", more, is_alone=True, witnesses=witnesses)
    witnesses = {**witnesses, said.seen.simulator: said.seen.line()}
    doubt = said.doubt()
    if doubt:
        port, cycle = said.seen.doubt or ("", 0)
        return Outcome(asked.tool, "unknown", doubt, cycle=cycle, port=port, got="unknown", witnesses=witnesses)
    return Outcome(asked.tool, "right", f"{told}, {said.by()}", witnesses=witnesses)


def refusal(tool: str, error: ToolError) -> Outcome:
    """The verdict of what is refused; of sources that mean two things, the port in which they do."""
    if isinstance(error, yosys.Slow):
        return Outcome(tool, "unknown", str(error).split(" (")[0])
    if not isinstance(error, Differs):
        return Outcome(tool, "refused")
    saw = {error.simulator: str(error).splitlines()[0]}
    return Outcome(tool, "refused", error.told, False, error.cycle, error.port, error.due, error.got, saw)
