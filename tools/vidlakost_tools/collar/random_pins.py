"""Lists of pins for a collar as a generator of macros could make them, right ones of all kinds of lines, and wrong ones
with the line that has to be refused."""
from __future__ import annotations

import dataclasses
import random


# what an input is tied to, and what a parameter is
VALUES = ("4'ha", "clk", "test", "1'b0")
NUMBERS = ("12", '"SDP"', "3'b101")


@dataclasses.dataclass
class Case:
    """Descriptions of memories by their names, and the lines of the pins."""

    memories: dict[str, str]
    lines: list[str]

    def pins(self) -> str:
        return "\n".join([*self.lines, ""])


class Maker:
    """Makes a right list; `chance` decides."""

    def __init__(self, chance: random.Random):
        self.chance = chance
        self.width = chance.randint(1, 5)
        self.words = chance.randint(max(2, (1 << self.width - 1) + 1), 1 << self.width)
        self.lanes = chance.choice((1, 2, 3, 4))
        self.bits = self.lanes * chance.randint(1, 6)
        self.is_wide = self.bits > 1 and chance.random() < 0.3
        self.before, self.after = chance.choice(((0, 0), (1, 0), (0, 1), (1, 1)))
        self.latency = self.before + self.after + chance.randint(1, 2)
        self.lines: list[str] = []
        self.used: set[str] = set()

    def maybe(self, share: float = 0.5) -> bool:
        return self.chance.random() < share

    def name(self) -> str:
        """A name such as data sheets have, also one that a collar could use inside."""
        inner = "en we w_en s_en t_addr m_a bist_en phase memory lanes word i place lane answer first_word".split()
        while True:
            plain = f"{self.chance.choice('ABCDQaz_')}{self.chance.randrange(99)}x"
            found = self.chance.choice(inner) if self.maybe(0.3) else plain
            if found not in self.used:
                self.used.add(found)
                return found

    def low(self) -> str:
        return "~" if self.maybe(0.4) else ""

    def memories(self) -> dict[str, str]:
        """One description, or those of two parts."""
        lower = self.chance.randint(1, self.bits - 1) if self.is_wide else self.bits
        parts = {"ram": lower, "rom": self.bits - lower}
        texts = {}
        for name, bits in parts.items():
            if bits:
                head = f"memory 2\nname {name}\nwords {self.words}\nbits {bits}\nlatency {self.latency}\n"
                texts[name] = head + f"backgrounds 0 {(1 << bits) // 3:x}\n"
        return texts

    def bus(self, name: str, width: int) -> None:
        """Perhaps gives a bus bit by bit."""
        if self.maybe(0.2):
            self.lines.append(f"pins {name} {self.chance.choice((0, 1))} {{}}")
            low = int(self.lines[-1].split()[2])
            self.lines[-1] = f"pins {name} {low} {low + width - 1}"

    def address(self, kind: str) -> None:
        name, wide = self.name(), self.width + self.chance.choice((0, 0, 2))
        at = sorted(self.chance.sample(range(wide), self.width), reverse=True)
        more = f" at {','.join(map(str, at))}" if self.maybe(0.3) else ""
        self.lines.append(f"{kind} {self.low()}{name}" + (f" {wide}{more}" if more or wide != self.width else ""))
        self.bus(name, wide)

    def data(self, kind: str) -> None:
        name = self.name()
        self.lines.append(
            f"{kind} {self.low() if 'wdata' in kind else ''}{name}" + (f" {self.bits}" if self.maybe() else "")
        )
        self.bus(name, self.bits)

    def enables(self, before: str) -> None:
        """What enables the writes and the reads of a port."""
        if self.maybe(0.3):
            self.lines += [f"{before}write {self.low()}{self.name()}", f"{before}read {self.low()}{self.name()}"]
            self.lines += [f"{before}en {self.low()}{self.name()}"] if self.maybe() else []
        else:
            lanes = f" {self.lanes}" if self.lanes > 1 and self.maybe(0.4) else ""
            self.lines.append(f"{before}we {self.low()}{self.name()}{lanes}")
            if self.maybe(0.8):
                self.lines.append(
                    f"{before}en {self.low()}{self.name()}" + (f" {self.lanes}" if self.maybe(0.15) else "")
                )
        if self.maybe():
            self.lines.append(f"{before}mask {self.low()}{self.name()} {self.lanes}")

    def second(self) -> None:
        """The other port."""
        if self.maybe():
            self.lines.append(f"port clk {self.name()}")
        self.address("port addr")
        self.data("port rdata")
        if self.maybe():
            self.data("port wdata")
            self.enables("port ")
        elif self.maybe():
            self.lines.append(f"port en {self.low()}{self.name()}")

    def further(self) -> None:
        """Pins that no port has."""
        name = self.name()
        choices = [
            f"tie {name} {self.chance.choice(VALUES)}",
            f"open {name}",
            f"out {name} 3",
            f"pass {name} 2 2'b01",
            f"pass {name} 1 1",
            f"pass {name} 7",
            f"clock2 {name}",
            f"power {name}",
            f"power {name} 1",
            f"parameter {name.upper()} {self.chance.choice(NUMBERS)}",
        ]
        self.lines += [line for line in self.chance.sample(choices, self.chance.randint(0, 1))]

    def case(self) -> Case:
        self.lines = ["macro sram", f"clk {self.name()}"]
        memories = self.memories()
        for kind in ("addr",) if self.maybe(0.8) else ("raddr", "waddr"):
            self.address(kind)
        self.data("wdata")
        self.data("rdata")
        self.enables("")
        if self.maybe(0.4):
            self.second()
        for _ in range(5):
            self.further()
        lanes = any(line.startswith("mask") for line in self.lines) or any(
            line.startswith(("we ", "en ")) and len(line.split()) == 3 and not line.endswith(" 1")
            for line in self.lines
        )
        self.lines += ["masks"] if lanes and self.maybe(0.7) else []
        self.lines += ["bypass"] if self.maybe(0.3) else []
        self.lines += [f"registers in {self.before}"] if self.before else []
        self.lines += [f"registers out {self.after}"] if self.after else []
        self.lines += ["low ram", "high rom"] if self.is_wide else []
        self.chance.shuffle(self.lines)
        return Case(memories, self.lines)


def right(seed: int) -> Case:
    return Maker(random.Random(seed)).case()


# what is done to a right list: a line that is added, and what the refusal of that very line says
ADDED = [
    ("foo x", "there is no line 'foo'"),
    ("macro other", "'macro' may stand in one line only"),
    ("open wire", "'wire' is a reserved word"),
    ("open logic", "'logic' is a reserved word"),
    ("out done 1", "'done' is a port of the collar itself"),
    ("pass planted 1", "'planted' is a port of the collar itself"),
    ("pass clk 1 0", "'clk' is a port of the collar itself"),
    ("open fresh 3", "a line is open PIN"),
    ("clock2 fresh 2", "a line is clock2 PIN"),
    ("read fresh 2", "a line is read PIN"),
    ("power fresh 2", "a line is power PIN"),
    ("mask fresh", "a line is mask PIN WIDTH"),
    ("mask fresh 97", "a mask does not divide the word"),
    ("mask fresh 99999", "a line is mask PIN WIDTH"),
    ("pass fresh 0", "a line is pass PIN WIDTH"),
    ("pass fresh 2 4", "a line is pass PIN WIDTH"),
    ("pass fresh 2 3'b001", "a line is pass PIN WIDTH"),
    ("tie fresh 1", "an input is tied to a literal with its size"),
    ("tie fresh nowhere", "an input is tied to a literal with its size"),
    ("tie fresh 1'b2", "an input is tied to a literal with its size"),
    ("tie fresh {2{1'b0}}", "an input is tied to a literal with its size"),
    ("tie fresh 1'b0 1'b1", "a line is tie PIN VALUE"),
    ("tie ~fresh 1'b0", "the name of a pin is missing or wrong"),
    ("open ../fresh", "the name of a pin is missing or wrong"),
    ("open \\fresh", "the name of a pin is missing or wrong"),
    ("open fr\u00e9sh", "the name of a pin is missing or wrong"),
    ("open " + "f" * 65, "the name of a pin is missing or wrong"),
    ("parameter fresh $finish", "a line is parameter NAME VALUE"),
    ('parameter fresh "a"b"', "a line is parameter NAME VALUE"),
    ("pins fresh 0 3", "no line says what the bus fresh is"),
    ("pins fresh 3 0", "a bus has one line"),
    ("registers in 4", "a line is registers in N"),
    ("registers up 1", "a line is registers in N"),
    ("port pass fresh 1", "a line of the other port begins with one of"),
    ("port", "there is no line 'port'"),
    ("bypass now", "a line is bypass"),
    ("masks all", "a line is masks"),
]


def wrong(seed: int) -> tuple[Case, int, str]:
    """A list with a line that has to be refused, that line, and how the refusal begins."""
    chance = random.Random(seed)
    case = right(seed)
    line, why = chance.choice(ADDED) if seed >= len(ADDED) else ADDED[seed]
    once = line.split()[0] in ("masks", "bypass", "registers")
    kept = [text for text in case.lines if not (once and text.split()[0] == line.split()[0])]
    # where a line may stand once, the later one is refused
    place = len(kept) if line.startswith("macro") else chance.randint(0, len(kept))
    return Case(case.memories, [*kept[:place], line, *kept[place:]]), place + 1, why
