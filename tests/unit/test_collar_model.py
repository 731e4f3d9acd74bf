"""Models of macros of all kinds of enables, in Icarus, beside what their lines of pins mean."""
from __future__ import annotations

import itertools
import pathlib
import random
import shutil
import subprocess
import tempfile
import unittest
from typing import Iterator

from vidlakost_tools.collar.model import model
from vidlakost_tools.collar.pin_lines import read_macro
from vidlakost_tools.collar.pins import Macro, Pin, Word
from vidlakost_tools.texts.memory import Memory

WORDS, BITS, CYCLES = 4, 4, 60
ENABLES: tuple[list[str], ...] = ([], ["en ce"], ["en ~ce"], ["en ce 2"], ["en ~ce 2"])
WRITES = (["we w"], ["we ~w"], ["we w 2"], ["we ~w 4"], ["write w"], ["write ~w"])
READS: tuple[list[str], ...] = ([], ["read r"], ["read ~r"])
MASKS: tuple[list[str], ...] = ([], ["mask m 2"], ["mask ~m 4"])
BENCH = """module tb{number};
  reg ck = 1'b0;
{regs}
  wire [3:0] q;
  ram{number} dut(.ck(ck), .q(q), {links});
  initial begin
{cycles}
  end
endmodule
"""


def lists() -> Iterator[list[str]]:
    """The lines of the pins of each macro, but for its name."""
    for parts in itertools.product(ENABLES, WRITES, READS, MASKS):
        yield ["clk ck", "addr a", "wdata d", "rdata q", *itertools.chain(*parts)]


class Meaning:
    """What the lines of the pins mean: the words, and what a cycle with some values at the pins answers."""

    def __init__(self, macro: Macro):
        self.macro, self.words = macro, ["x" * BITS] * WORDS

    def is_on(self, kind: str, values: dict[str, int], bit: int) -> bool:
        """Whether each pin of a kind is active for a bit of the word; one that is not there is."""
        pins = self.macro.of(kind)
        return all((values[pin.name] >> bit * pin.width // BITS & 1) != pin.is_low for pin in pins)

    def writes(self, values: dict[str, int], bit: int) -> bool:
        return all(self.is_on(kind, values, bit) for kind in ("en", "we", "write", "mask"))

    def is_read(self, values: dict[str, int]) -> bool:
        """A read wants all enables, and where no pin commands it, no pin that commands a write."""
        if not all(self.is_on("en", values, bit) for bit in range(BITS)):
            return False
        if self.macro.has("read"):
            return self.is_on("read", values, 0)
        pins = self.macro.of("we", "write")
        return all(values[pin.name] == (1 << pin.width) - 1 if pin.is_low else not values[pin.name] for pin in pins)

    def cycle(self, values: dict[str, int]) -> str:
        word = self.words[values["a"]]
        if self.is_read(values):
            return word
        bits = [
            f"{values['d'] >> bit & 1}" if self.writes(values, bit) else word[BITS - 1 - bit] for bit in range(BITS)
        ]
        self.words[values["a"]] = "".join(reversed(bits))
        return "x" * BITS


def chosen(chance: random.Random, pins: list[Pin], meaning: Meaning) -> dict[str, int]:
    """Values at the pins, which do not command a read and a write at once; enables are active more often than not."""
    while True:
        values = {}
        for pin in pins:
            active = 0 if pin.is_low else (1 << pin.width) - 1
            plain = pin.kind in ("addr", "wdata") or chance.random() < 0.4
            values[pin.name] = chance.randrange(1 << pin.width) if plain else active
        if not (meaning.is_read(values) and any(meaning.writes(values, bit) for bit in range(BITS))):
            return values


def bench(number: int, macro: Macro, told: list[str]) -> str:
    """A testbench that prints what the macro answers; what it has to be goes to `told`."""
    pins, meaning, chance, lines = macro.driven(), Meaning(macro), random.Random(number), []
    for cycle in range(CYCLES):
        values = chosen(chance, pins, meaning)
        drive = " ".join(f"{name} = {value};" for name, value in values.items())
        lines.append(f'    {drive} #1 ck = 1; #1 ck = 0; $display("{number} {cycle} %b", q);')
        told.append(f"{number} {cycle} {meaning.cycle(values)}")
    links = ", ".join(f".{pin.name}({pin.name})" for pin in pins)
    regs = "\n".join(f"  reg [{pin.width - 1}:0] {pin.name};" for pin in pins)
    return BENCH.format(number=number, regs=regs, links=links, cycles="\n".join(lines))


@unittest.skipUnless(shutil.which("iverilog"), "Icarus is not installed")
class Models(unittest.TestCase):
    def test_they_do_what_their_pins_mean(self) -> None:
        word = Word([Memory("m", words=WORDS, bits=BITS, latency=1, polarity=0, pause=1, rows=None, backgrounds=[0])])
        texts: list[str] = []
        told: list[str] = []
        with tempfile.TemporaryDirectory() as folder:
            here = pathlib.Path(folder)
            for number, lines in enumerate(lists()):
                (here / "m.pins").write_text("\n".join([f"macro ram{number}", *lines]))
                macro = read_macro(str(here / "m.pins"), word)
                texts += [model(macro, word), bench(number, macro, told)]
            (here / "all.v").write_text("".join(texts))
            made = subprocess.run(["iverilog", "-g2012", "-o", here / "all", here / "all.v"], check=False)
            self.assertEqual(made.returncode, 0)
            said = subprocess.run(["vvp", "-n", here / "all"], stdout=subprocess.PIPE, text=True, check=True).stdout
        self.assertGreater(sum("x" not in line for line in told), 1000)
        self.assertEqual(sorted(told), sorted(said.splitlines()))


if __name__ == "__main__":
    unittest.main()
