"""The lines of a file of pins, and whether what they say together is a macro."""
from __future__ import annotations

import re

from vidlakost_tools.collar.pins import ADDRESSES, DRIVEN, WIDEST, Macro, Pin, Word, literal
from vidlakost_tools.text import BLANKS, lines_of, read_described, shown, words_in
from vidlakost_tools.verilog.reserved_words import RESERVED


MOST = 1024
FORMS = {
    **DRIVEN,
    "macro": "macro NAME",
    "parameter": "parameter NAME VALUE",
    "clk": "clk PIN",
    "clock2": "clock2 PIN",
    "rdata": "rdata PIN [WIDTH]",
    "tie": "tie PIN VALUE",
    "open": "open PIN",
    "out": "out PIN WIDTH",
    "pass": "pass PIN WIDTH [TEST_VALUE]",
    "power": "power PIN [0|1]",
    "pins": "pins PREFIX LOW HIGH",
    "registers": "registers in N, or registers out N, with N of 0 to 3",
    "masks": "masks",
    "bypass": "bypass",
    "low": "low MEMORY",
    "high": "high MEMORY",
}
# of the other port of a macro
OF_PORT = ("clk", "en", "we", "read", "write", "addr", "wdata", "rdata", "mask")
TWO_ADDRESSES = (
    "; a macro with an address for reads and one for writes has raddr and waddr, and one with an address in two pins, "
    "as a bank and a word, needs a module round it that joins them"
)
ONCE = ("macro", "clk", "rdata", "wdata", *ADDRESSES, "masks", "bypass", "low", "high")


def is_name(text: str) -> bool:
    return re.fullmatch("[A-Za-z_][A-Za-z0-9_]{0,63}", text) is not None


def width_in(text: str) -> int | None:
    """A width; None where it is none."""
    return int(text) if re.fullmatch("[1-9][0-9]{0,3}", text) and int(text) <= WIDEST else None


def bits_in(text: str) -> list[int]:
    """The bits of a list such as 15:7,5, the lowest first; empty where it is none."""
    found: list[int] = []
    for part in text.split(","):
        match = re.fullmatch(r"([0-9]{1,4})(?::([0-9]{1,4}))?", part)
        high = int(match[1]) if match else -1
        low = int(match[2]) if match and match[2] else high
        if not match or low > high or high >= WIDEST or found and high >= found[-1]:
            return []
        found += range(high, low - 1, -1)
    return found[::-1]


class Lines:
    """Takes the lines of a file into a macro."""

    def __init__(self, path: str):
        self.macro = Macro(path)
        self.buses: dict[str, tuple[int, list[str]]] = {}
        self.seen: dict[str, int] = {}

    def read(self) -> Macro:
        for line, text in enumerate(lines_of(read_described(self.macro.path)), 1):
            words = words_in(text)
            if text.lstrip(BLANKS).startswith("#?"):
                why = (
                    "this stands on the name of a pin alone: take the mark #? away where it is right, or write the"
                    " right line"
                )
                raise self.macro.refuse(line, why)
            if words:
                self.take(line, words)
            if max(len(self.macro.pins), len(self.buses), len(self.macro.parameters)) > MOST:
                raise self.macro.refuse(line, f"there are at most {MOST} pins, buses and parameters")
        self.give_bits()
        return self.macro

    def take(self, line: int, words: list[str]) -> None:
        second = words[0] == "port"
        kind, *rest = words[1:] if second and len(words) > 1 else words
        if kind not in FORMS:
            raise self.macro.refuse(line, f"there is no line {shown(kind)} here")
        if second and kind not in OF_PORT:
            raise self.macro.refuse(line, f"a line of the other port begins with one of {', '.join(OF_PORT)}")
        told = f"{'port ' if second else ''}{kind}"
        if (kind in ONCE or kind == "registers") and self.once(told, rest) in self.seen:
            more = TWO_ADDRESSES if kind == "addr" else ""
            raise self.macro.refuse(
                line, f"'{told}' may stand in one line only, and line {self.seen[self.once(told, rest)]} has it{more}"
            )
        self.seen[self.once(told, rest)] = line
        if not self.taken(line, kind, rest, second):
            raise self.macro.refuse(line, f"a line is {'port ' if second else ''}{FORMS[kind]}")

    @staticmethod
    def once(told: str, rest: list[str]) -> str:
        return f"{told} {rest[0]}" if told == "registers" and rest else told

    def taken(self, line: int, kind: str, rest: list[str], second: bool) -> bool:
        """Whether the line has the form of its kind."""
        macro = self.macro
        if kind in ("masks", "bypass"):
            setattr(macro, kind, line)
            return not rest
        if kind == "registers":
            is_form = len(rest) == 2 and rest[0] in ("in", "out") and re.fullmatch("[0-3]", rest[1]) is not None
            if is_form:
                setattr(macro, "before" if rest[0] == "in" else "after", int(rest[1]))
            return is_form
        if not rest:
            return False
        low = rest[0].startswith("~")
        name = rest[0][1:] if low and kind in DRIVEN else rest[0]
        self.refuse_name(line, name)
        if kind in ("macro", "low", "high"):
            return self.named(line, kind, name, rest)
        if kind == "parameter":
            macro.parameters.append((name, rest[1] if rest[1:] else ""))
            return len(rest) == 2 and is_value(rest[1])
        if kind == "pins":
            return self.bus(line, name, rest[1:])
        pin = Pin(kind, name, line, low, is_second=second)
        macro.pins.append(pin)
        return self.driven(pin, rest[1:]) if kind in (*DRIVEN, "rdata") else self.further(pin, rest[1:])

    def refuse_name(self, line: int, name: str) -> None:
        if not is_name(name):
            why = "has letters, digits and _ alone, no digit first, and at most 64 of them"
            raise self.macro.refuse(
                line, f"the name of a pin is missing or wrong: a name {why}, and this is {shown(name)}"
            )
        if name in RESERVED:
            raise self.macro.refuse(line, f"'{name}' is a reserved word of Verilog or SystemVerilog")

    def named(self, line: int, kind: str, name: str, rest: list[str]) -> bool:
        if kind == "macro":
            self.macro.name, self.macro.name_line = name, line
        else:
            self.macro.halves[kind] = (name, line)
        return len(rest) == 1

    def bus(self, line: int, name: str, rest: list[str]) -> bool:
        """A bus that is given bit by bit."""
        if len(rest) != 2 or not all(re.fullmatch("[0-9]{1,4}", word) for word in rest):
            return False
        low, high = map(int, rest)
        if name in self.buses or low > high or high - low >= WIDEST:
            raise self.macro.refuse(line, "a bus has one line, from its lowest bit to its highest")
        self.buses[name] = line, [f"{name}{bit}" for bit in range(low, high + 1)]
        return True

    def driven(self, pin: Pin, rest: list[str]) -> bool:
        """A pin of a port; an address can stand in some bits of it."""
        has_width = "WIDTH" in FORMS[pin.kind]
        if rest and has_width:
            pin.width = width_in(rest[0]) or 0
        if rest and (not has_width or not pin.width) or pin.kind == "mask" and not rest:
            return False
        if len(rest) == 3 and rest[1] == "at" and pin.kind in ADDRESSES:
            pin.at = bits_in(rest[2])
            return bool(pin.at) and pin.at[-1] < pin.width
        return len(rest) <= 1

    def further(self, pin: Pin, rest: list[str]) -> bool:
        """A pin that no port has."""
        if pin.kind == "clk":
            pin.width = 1
            if not pin.is_second:
                self.macro.clk = pin.name
            return not rest
        if pin.kind in ("clock2", "power"):
            pin.width, pin.value = 1, rest[0] if rest else ""
            return not rest or pin.kind == "power" and rest in (["0"], ["1"])
        if pin.kind == "tie":
            pin.value = rest[0] if len(rest) == 1 else ""
            return bool(pin.value)
        if pin.kind == "open":
            return not rest
        pin.width = width_in(rest[0]) or 0 if rest else 0
        if pin.kind == "pass" and len(rest) == 2:
            fixed = literal(rest[1], pin.width) if pin.width else None
            pin.value = f"{pin.width}'h{fixed[1]:x}" if fixed else ""
            return bool(pin.value)
        return len(rest) == 1 and pin.width > 0

    def give_bits(self) -> None:
        """Gives the pins that are buses bit by bit the names of their bits."""
        for pin in self.macro.pins:
            if pin.name in self.buses:
                line, pin.bits = self.buses.pop(pin.name)
                if pin.kind in ("tie", "open", "clock2", "power", "clk", "read", "write"):
                    raise self.macro.refuse(
                        pin.line, f"{pin.name} is a bus by line {line}: give each of its pins a line"
                    )
        for name, (line, _) in self.buses.items():
            raise self.macro.refuse(line, f"no line says what the bus {name} is")


def is_value(text: str) -> bool:
    """Whether a parameter can have this value: a number, a literal with its size, or a plain text in quotes."""
    plain = r"-?[0-9]{1,9}(\.[0-9]{1,9})?|\"[A-Za-z0-9_.+/-]{0,200}\""
    return re.fullmatch(plain, text) is not None or literal(text) is not None


def read_macro(path: str, word: Word) -> Macro:
    """The macro of a file, which holds the word."""
    macro = Lines(path).read()
    odd = next((memory.name for memory in word.memories if "$" in memory.name), None)
    if odd:
        raise macro.refuse(
            0, f"the memory {odd} has a $ in its name, which means something else in lists of files and makefiles"
        )
    refuse_missing(macro)
    refuse_halves(macro, word)
    give_widths(macro, word)
    refuse_shapes(macro, word)
    names = [(name, pin) for pin in macro.pins for name in pin.names()]
    first: dict[str, int] = {}
    for name, pin in names:
        if name in first:
            raise macro.refuse(pin.line, f"two lines name the pin '{name}': line {first[name]} has it")
        first[name] = pin.line
    refuse_parameters(macro, first)
    return macro


def refuse_parameters(macro: Macro, pins: dict[str, int]) -> None:
    """A module has no two parameters of one name, and none with the name of a port; `pins` has the lines of those."""
    told: set[str] = set()
    for name, _ in macro.parameters:
        if name in told:
            raise macro.refuse(0, f"two lines name the parameter '{name}'")
        if name in pins:
            raise macro.refuse(pins[name], f"'{name}' is also a parameter, so no port can have that name")
        told.add(name)


def refuse_missing(macro: Macro) -> None:
    """Every part of a port has a line."""
    split = macro.has("raddr", "waddr")
    wanted = [
        ("macro", bool(macro.name)),
        ("clk", bool(macro.clk)),
        ("rdata", macro.has("rdata")),
        ("raddr" if split else "addr", macro.has("raddr" if split else "addr")),
        ("waddr", not split or macro.has("waddr")),
        ("wdata", macro.has("wdata")),
        ("we or write", macro.has("we", "write")),
    ]
    if macro.has_second:
        writes = macro.has("wdata", "we", "write", "mask", second=True)
        wanted += [(f"port {kind}", macro.has(kind, second=True)) for kind in ("rdata", "addr")]
        wanted += [("port wdata", not writes or macro.second_writes)]
        wanted += [("port we or port write", not writes or macro.has("we", "write", second=True))]
    missing = [name for name, there in wanted if not there]
    if missing:
        raise macro.refuse(0, f"no line for {', '.join(missing)}")
    for second in (False, True):
        for one, other in (("we", "write"), ("addr", "raddr"), ("addr", "waddr")):
            if macro.has(one, second=second) and macro.has(other, second=second):
                line = macro.of(other, second=second)[0].line
                raise macro.refuse(line, f"'{other}' replaces '{one}', so only one of them may be there")


def refuse_halves(macro: Macro, word: Word) -> None:
    """The low and the high part are the two memories, and do the same in each cycle."""
    if not macro.halves:
        if len(word.memories) > 1:
            raise macro.refuse(0, "two memories make one word: the lines low and high have to say which part each is")
        return
    if set(macro.halves) != {"low", "high"}:
        raise macro.refuse(0, f"no line for {'high' if 'low' in macro.halves else 'low'}")
    names = sorted(memory.name for memory in word.memories)
    wanted = [macro.halves[half][0] for half in ("low", "high")]
    if names != sorted(wanted) or len(set(wanted)) < 2:
        told = f"low and high are {' and '.join(wanted)}, and the memories are {', '.join(names)}"
        raise macro.refuse(macro.halves["low"][1], told)
    word.memories.sort(key=lambda memory: wanted.index(memory.name))
    low, high = word.memories
    for what in ("words", "latency", "pause", "rows"):
        if getattr(low, what) != getattr(high, what):
            raise macro.refuse(
                macro.halves["high"][1], f"{high.name} has other {what} than {low.name}, but the two run in step"
            )
    if len(low.backgrounds) != len(high.backgrounds):
        raise macro.refuse(macro.halves["high"][1], f"{high.name} does not have as many backgrounds as {low.name}")


def give_widths(macro: Macro, word: Word) -> None:
    """Gives each pin whose line says no width the usual one."""
    usual = {**{kind: word.first.width for kind in ADDRESSES}, "wdata": word.bits, "rdata": word.bits}
    for pin in macro.pins:
        pin.width = pin.width or usual.get(pin.kind, len(pin.bits) or 1)
        if pin.bits and len(pin.bits) != pin.width:
            raise macro.refuse(pin.line, f"{pin.name} has {pin.width} bits, and its bus {len(pin.bits)}")
        if pin.kind in ADDRESSES and not pin.at:
            pin.at = list(range(min(pin.width, word.first.width)))


def refuse_shapes(macro: Macro, word: Word) -> None:
    """The latency has room for the registers, and the widths fit."""
    memory, registers = word.first, macro.before + macro.after
    if macro.latency(word) < 1:
        told = (
            f"{memory.name} has latency {memory.latency}, and the macro and {registers} registers take"
            f" {registers + 1} at least"
        )
        raise macro.refuse(0, told)
    for pin in macro.pins:
        if pin.kind in ADDRESSES and len(pin.at) != memory.width:
            few = "narrow" if len(pin.at) < memory.width else "wide"
            told = f"it has {len(pin.at)} bits, and that of {memory.name} {memory.width}"
            raise macro.refuse(pin.line, f"the address is too {few}: {told}")
        if pin.kind in ("wdata", "rdata") and pin.width != word.bits:
            raise macro.refuse(pin.line, f"{pin.name} has {pin.width} bits, and a word {word.bits}")
        if pin.has_lanes and word.bits % pin.width:
            what = "a mask" if pin.kind == "mask" else f"the lanes of {pin.name}"
            raise macro.refuse(pin.line, f"{what} does not divide the word: {pin.width} parts of {word.bits} bits")
    if macro.masks and not macro.lane_pins():
        raise macro.refuse(macro.masks, "'masks' needs a pin with lanes")
