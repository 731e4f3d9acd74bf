"""A verdict of a judge: its word, then what was seen, as its last line has it and as JSON for scripts."""
from __future__ import annotations

import dataclasses
import hashlib
import json
import pathlib
import re
from typing import Any, Iterable

from vidlakost_tools import bounded
from vidlakost_tools.folder import write_whole
from vidlakost_tools.program import version
from vidlakost_tools.text import visible
from vidlakost_tools.tool import ToolError

# what is said of a yes on one tool's reading
READ_ALONE = "right as Yosys reads it, not simulated"
# how each witness says its version
VERSIONS = {
    "Yosys": (["yosys", "-V"], r"Yosys (\S+)"),
    "Icarus": (["iverilog", "-V"], r"Icarus Verilog version (\S+)"),
    "Verilator": (["verilator", "--version"], r"Verilator (\S+)"),
    "GHDL": (["ghdl", "--version"], r"GHDL (\S+)"),
}


@dataclasses.dataclass
class Outcome:
    """A verdict: `right`, `wrong`, `unknown` or `refused`, what was seen, and for a yes that no simulator saw, that it
    is the user's choice. What is wrong has a port with its cycle, what is due and what it is, as far as it is known.
    The witnesses have what each saw."""

    tool: str
    verdict: str
    told: str = ""
    is_alone: bool = False
    cycle: int | None = None
    port: str | None = None
    due: str | None = None
    got: str | None = None
    witnesses: dict[str, str] = dataclasses.field(default_factory=dict)
    # the status of the program, which has one for each kind of refusal
    ended: int | None = None

    @property
    def status(self) -> int:
        return self.ended if self.ended is not None else 0 if self.verdict == "right" else 1

    def line(self) -> str:
        """The last line, which begins with the verdict."""
        word = READ_ALONE if self.is_alone else self.verdict
        return visible(f"{self.tool}: {word}{f': {self.told}' if self.told else ''}")

    def at(self, line: str) -> Outcome:
        """With the port and the cycle that a line of `check`, or of a simulator, names."""
        found = re.search(r"(?:differs|unknown) cycle (\d+) port (\w+)(?: expected (\w+) got (\w+))?", line)
        fail = re.search(r"\bfail is (\w+) in cycle (\d+) ", line)
        if found:
            got = found[4] if found[3] else "unknown"
            return dataclasses.replace(self, cycle=int(found[1]), port=found[2], due=found[3], got=got)
        if fail:
            due = {"0": "1", "1": "0"}.get(fail[1])
            return dataclasses.replace(self, cycle=int(fail[2]), port="fail", due=due, got=fail[1])
        return self

    def json(self, inputs: Iterable[str]) -> str:
        """The verdict for scripts."""
        said: dict[str, Any] = {"tool": self.tool, "verdict": self.verdict, "status": self.status, "told": self.told}
        said["simulated"] = bool({"Icarus", "Verilator", "GHDL"} & set(self.witnesses))
        said.update({"cycle": self.cycle, "port": self.port, "due": self.due, "got": self.got})
        said["witnesses"] = [
            {"name": name, "version": version_of(name), "saw": saw} for name, saw in self.witnesses.items()
        ]
        said["inputs"] = [{"file": file, "sha256": sum_of(file)} for file in dict.fromkeys(inputs)]
        return json.dumps(said, indent=2, ensure_ascii=True) + "\n"

    def write(self, file: str | None, inputs: Iterable[str]) -> None:
        if file is not None:
            write_whole(file, self.json(inputs))


def of_check(status: int, line: str) -> Outcome:
    """The verdict of `check`, from its status and its line."""
    words = {"conforms": "right", "differs": "wrong", "unknown": "unknown"}
    verdict = words.get(line.split(" ")[0], "refused") if status <= 1 else "refused"
    return Outcome("check", verdict, line, witnesses={"check": line}, ended=status).at(line)


def version_of(name: str) -> str | None:
    """The version of a witness, as it says it; None where it says none."""
    if name not in VERSIONS:
        return version()[0]
    words, pattern = VERSIONS[name]
    try:
        found = re.search(pattern, bounded.run(bounded.Call(words, bounds=bounded.Bounds(20))).said)
    except ToolError:
        return None
    return found[1] if found else None


def sum_of(file: str) -> str | None:
    """The SHA-256 of a file; None where it is none any more."""
    path = pathlib.Path(file)
    return hashlib.sha256(path.read_bytes()).hexdigest() if path.is_file() else None
