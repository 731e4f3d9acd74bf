"""What is tested: a memory or the memories of a chip, as modules of Verilog with their ports."""
from __future__ import annotations

import dataclasses
from typing import Sequence

from vidlakost_tools.verilog.reserved_words import BUILT_IN, OF_SYSTEM_VERILOG
from vidlakost_tools.text import read_described, statements
from vidlakost_tools.texts.chip import Chip
from vidlakost_tools.texts.memory import Memory
from vidlakost_tools.tool import ToolError
from vidlakost_tools.verilog.syntax import ranged

# the identity of a TAP for which nobody names another
IDENTITY = 0x10000A01
SIGNALS = ("rdata", "en", "we", "addr", "wdata")


@dataclasses.dataclass
class Port:
    """A port of a module of Verilog."""

    direction: str
    name: str
    width: int = 1

    def declared(self) -> str:
        return f"{self.direction} {ranged(self.width)}{self.name}"


@dataclasses.dataclass
class Unit:
    """A memory, and the suffix of the names of its ports."""

    memory: Memory
    suffix: str
    start: int = 0

    def ports(self) -> list[Port]:
        """The ports of the self-test towards the memory."""
        it, word = self.memory, self.memory.bits
        widths = {"rdata": word, "en": 1, "we": 1, "addr": it.width, "wdata": word}
        return [Port("input" if name == "rdata" else "output", name + self.suffix, widths[name]) for name in SIGNALS]


@dataclasses.dataclass
class Target:
    """What is tested: one memory, or the memories of a chip; the module of the self-test; the cycle of `done` if the
    march is known; and how many wrong reads a log keeps, if a bus reads it. For a TAP the identity, and whether its
    registers are behind segment insertion bits."""

    name: str
    top: str
    units: list[Unit]
    is_chip: bool
    done: int | None = None
    depth: int | None = None
    identity: int = IDENTITY
    has_sib: bool = False

    @staticmethod
    def of_memory(memory: Memory, done: int | None) -> Target:
        return Target(memory.name, f"{memory.name}_bist", [Unit(memory, "")], False, done)

    @staticmethod
    def of_chip(chip: Chip) -> Target:
        if chip.name in OF_SYSTEM_VERILOG | BUILT_IN:
            why = "is a reserved word of SystemVerilog, so most simulators refuse the chip's module: rename it"
            raise ToolError(f"'{chip.name}' {why}")
        units = [Unit(unit.memory, f"_{number}", unit.start) for number, unit in enumerate(chip.units)]
        return Target(chip.name, chip.name, units, True, chip.done)
    # whether the first failure of each memory is kept, and not that of all alone
    each: bool = False

    @property
    def shows_each(self) -> bool:
        """Whether each change of ignore behind done shows the first failure of another memory."""
        return self.each

    @property
    def turning(self) -> int:
        """How many cycles it takes at most from such a change until that failure is shown."""
        return 0

    @property
    def word(self) -> int:
        """The bits of the widest word."""
        return max(unit.memory.bits for unit in self.units)

    @property
    def count(self) -> int:
        return len(self.units)

    @property
    def length(self) -> int:
        """The cycle of `done`, if the march is known."""
        if self.done is None:
            raise ToolError(f"without its march the length of the test of {self.name} is not known")
        return self.done

    @property
    def unit_bits(self) -> int:
        """The bits of the number of a unit."""
        return max(1, (self.count - 1).bit_length())

    def ports(self) -> list[Port]:
        return [port for unit in self.units for port in unit.ports()]

    def result(self) -> list[Port]:
        """What is kept of the first failure."""
        words = [Port("output", name, self.word) for name in ("expected", "returned")]
        unit = [Port("output", "unit", self.unit_bits)] if self.is_chip else []
        return [Port("output", "cycle", 32), *words, *unit]

    # ---- its logs

    def first_reads(self) -> dict[int, tuple[int, int]]:
        """The cycle and the expected word of the first read of each memory, where a testbench makes a bit wrong in each
        word that it answers."""
        return {}

    @property
    def is_inside(self) -> bool:
        """Whether the memories are inside NAME_access."""
        return False

    @property
    def has_inner_log(self) -> bool:
        """Whether the logs are in NAME_access, because the memories are inside it."""
        return False

    def log_name(self, number: int) -> str:
        """Of a unit the memory whose name that of the log's module has."""
        return self.units[number].memory.name

    def log_links(self, number: int) -> dict[str, str]:
        """What the ports of a unit's log hang on."""
        return {name: name + self.units[number].suffix for name in ("en", "we", "wdata", "rdata")}

    # ---- what a whole chip has in another way

    def conditional(self) -> list[str]:
        """The lines of ports under a define."""
        return []

    def handed_on(self) -> list[str]:
        """The lines of their links, from a module to the one inside."""
        return []

    def nets(self) -> list[str]:
        """What is declared besides the ports, for what the self-test writes and reads."""
        return []

    def self_test(self) -> list[str]:
        """The instance of the self-test."""
        return [
            f"  {self.top} self_test(.clk(clk), .reset(!test), {links(self.ports())},",
            "    .done(over), .fail(fail));",
        ]

    def bench_head(self) -> str:
        """The lines before the module of a testbench."""
        return ""

    def bench_nets(self) -> str:
        """The nets of a testbench for the ports."""
        return "\n".join(f"  wire {ranged(port.width)}{port.name};" for port in self.ports())

    def bench_links(self) -> str:
        """Further links of the module under test."""
        return ""

    def beside_nets(self) -> str:
        """What is declared for what is beside the module under test."""
        return ""

    def beside(self) -> str:
        """What is beside the module under test, with faults planted in it."""
        return model_links(self)

    @property
    def counts_cycles(self) -> bool:
        """Whether the cycle of the first failure is counted in the module itself."""
        return True

    def ends(self, kind: str) -> str:
        """What looks at both ends of the pins that go through the module under test, which is of this kind."""
        return ""

    def wanted_fails(self) -> str:
        """The bits of fail that a testbench has to see."""
        return f"planted ? {self.count}'d1 << at_unit : {zero(self.count)}"

    def read_each(self, kind: str, read: str) -> str:
        """What a testbench does to read the first failure of each memory; `read` are the statements that read what is
        shown."""
        return ""

    def how_planted(self) -> str:
        """The words of a call that plants a fault."""
        which = " +unit=U" if self.is_chip else ""
        return (
            f"//   +planted +address=A +bit=B +value=V{which}   a bit of a word is stuck at V (0 where nothing is said"
            " of a number)"
        )

    @property
    def has_entries(self) -> bool:
        """Whether behind done any wrong read of a memory is shown that it has kept."""
        return False

    def choice(self) -> list[Port]:
        """Of a chip the units whose failures are not kept."""
        return [Port("input", "ignore", self.count)] if self.is_chip else []


def is_chip_file(path: str) -> bool:
    """Whether a file begins as a chip file does."""
    said = statements(read_described(path))
    return bool(said) and said[0][1] == "chip"


def is_list(path: str) -> bool:
    """Whether a file begins as a list of memories above chip files does."""
    said = statements(read_described(path))
    return bool(said) and said[0][1] == "list"


def header(
    about: str, name: str, ports: list[Port], registers: tuple[str, ...] = (), before: Sequence[str] = ()
) -> str:
    """The comment, the name and the ports of a module; `before` are lines of ports under a define."""
    lines = []
    for port in ports:
        kept = port.name in registers
        lines.append(port.declared().replace("output ", "output reg ", 1) if kept else port.declared())
    first = "".join(f"{line}\n" for line in before)
    return f"{about}\nmodule {name}(\n{first}  " + ",\n  ".join(lines) + "\n);\n"


def links(ports: list[Port]) -> str:
    """The same names on both sides of an instance."""
    return ", ".join(f".{port.name}({port.name})" for port in ports)


def zero(width: int) -> str:
    return f"{width}'d0"


def extended(name: str, width: int, to: int) -> str:
    """A word with zeros in front."""
    return f"{{{to - width}'d0, {name}}}" if to > width else name


def model_links(target: Target) -> str:
    """An instance of the model."""
    names = [Port("", name) for name in ("planted", "at_unit", "at_address", "at_bit", "at_value")]
    return f"  {target.name}_model memories(.clk(clk), {links(target.ports())},\n    {links(names)});\n"
