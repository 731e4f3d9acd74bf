"""The nets of a collar that is being written: their names, the lines that declare them, and registers behind them."""
from __future__ import annotations

import dataclasses

from vidlakost_tools.collar.names import INSIDE, Names, own_ports, planted_names, refuse_names
from vidlakost_tools.collar.pins import Macro, Word
from vidlakost_tools.collar.planted import also, key as key_of
from vidlakost_tools.verilog.syntax import ranged


@dataclasses.dataclass
class Nets:
    """The names and lines of a collar."""

    macro: Macro
    word: Word
    kind: str

    def __post_init__(self) -> None:
        self.own = own_ports(self.macro, self.word, self.kind)
        refuse_names(self.macro, self.word, self.own)
        pins = {name for pin in self.macro.pins for name in pin.names()}
        self.names = Names(pins | {port.name for port in self.own} | planted_names())
        self.lines: list[str] = []
        # of each driven pin what comes from the multiplexer, and what is at the macro
        self.chosen: dict[int, str] = {}
        self.at: dict[int, str] = {}

    @property
    def has_controllers(self) -> bool:
        return self.kind in INSIDE

    def net(self, name: str) -> str:
        """A net inside, or the port of that name."""
        return name if name in {port.name for port in self.own} else self.names.of(name)

    def wire(self, name: str, width: int, value: str) -> str:
        made = self.names.of(name)
        self.lines.append(f"  wire {ranged(width)}{made} = {value};")
        return made

    def declared(self, name: str, width: int) -> str:
        made = self.names.of(name)
        self.lines.append(f"  wire {ranged(width)}{made};")
        return made

    def delayed(self, name: str, source: str, width: int, count: int, reset: bool) -> str:
        """Registers behind a net, and the net behind them."""
        for number in range(count):
            register = self.names.of(f"{name}_{number + 1}")
            value = f"{self.net('test')} ? {source} : {width}'h0" if reset else source
            self.lines += [f"  reg {ranged(width)}{register};", f"  always @(posedge clk) {register} <= {value};"]
            source = register
        return self.wire(name, width, source)

    def planted(self, name: str, width: int, sound: str, more: str) -> str:
        """A net behind another one, with what is planted between them."""
        made = self.names.of(name)
        self.lines += also(f"  wire {ranged(width)}{made} = {sound}", more)
        return made

    def second(self) -> str:
        """Whether the session is that of the other port."""
        if self.has_controllers and "second" not in self.names.given:
            self.declared("second", 1)
        return self.net("second")

    def turned(self, half: str, bits: int, first: int) -> tuple[str, str]:
        """The words that a self-test gives and takes, which a testbench can turn; `first` is the number of its lowest
        bit."""
        key, given, wdata = (
            self.names.of(f"{half}_key"),
            self.declared(f"{half}_given", bits),
            self.net(f"{half}_wdata"),
        )
        self.lines += key_of(key, bits, first)
        self.lines += also(f"  assign {wdata} = {given}", f"^ {key}")
        rdata = self.net(f"{half}_rdata")
        return given, self.planted(f"{half}_taken", bits, rdata, f"^ {key}")
