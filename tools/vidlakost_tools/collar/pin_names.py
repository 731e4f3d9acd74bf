"""Pins of a macro from what a library or a port list tells of them, and from their usual names; what is not recognised
stands in a comment, and each line that stands on a name alone waits behind a mark until somebody confirms it."""
from __future__ import annotations

import dataclasses
import re
from typing import Collection, Mapping

from vidlakost_tools.collar.liberty import Found
from vidlakost_tools.collar.pin_lines import is_name
from vidlakost_tools.collar.pins import WIDEST
from vidlakost_tools.text import visible
from vidlakost_tools.tool import ToolError
from vidlakost_tools.verilog.reserved_words import RESERVED

# what a pin is by its name in lower case, without the name or the number of its port; ~ where it is active low
USUAL = {
    "clk": "clk clock ck clkin",
    "~en": "csb ceb csn cs_n ce_n cs_b ce_b en_n",
    "en": "cs ce en chipselect chip_select enable mem_en",
    "~we": "web we_n we_b wenb wr_n wrb",
    "we": "we wren wr_en write_enable wr write",
    "read": "re rd_en ren read read_enable rden",
    "~mask": "bweb bwenb wmaskb wmask_n bwe_n ben_n",
    "mask": "wmask bwe wem bm mask maskwren be byte_en byteen wstrb wben",
    "addr": "addr a ad adr address",
    "wdata": "d di din data_in datain wdata wd data",
    "rdata": "q do dout data_out dataout rdata rd qout",
}
# what a line begins with that stands on a name alone
UNSURE = "#? "
# names that some use for active high and some for active low, or for an enable and for a margin
EITHER = {"cen": "en", "me": "en", "meb": "en", "men": "en", "wen": "we", "gwen": "we", "ben": "mask", "bwen": "mask"}
KNOWN = {name: kind for kind, names in USUAL.items() for name in names.split()}
# what a supply is by its name in lower case: the number that it has
SUPPLY = re.compile(r"[ad]?(?:(?P<high>vdd|vcc|vpwr|vpb)|vss|gnd|vgnd|vnb)(?:[acdempi]|pe|ce|io|core)?[0-9]?")
# the pins of a bus that comes bit by bit
NUMBERED = re.compile("(.*[^0-9])(0|[1-9][0-9]{0,3})")
# kinds of pins that come bit by bit
BUSES = ("addr", "wdata", "rdata", "mask", "we", "en")
# what the call says of a pin of the second port begins with this; and kinds that name the way of their port
PORT = "port "
WAYS = {"raddr": "r", "waddr": "w"}


@dataclasses.dataclass
class Guess:
    """A pin with what it seems to be, the name of its port, and whether its name alone says so; the usual name in its
    own and what stands there for its port; whether a B there may also mean active low; whether the call says what the
    pin is, and that it is of the second port."""

    pin: Found
    kind: str
    port: str = ""
    by_name: bool = False
    stem: str = ""
    letter: str = ""
    has_two_meanings: bool = False
    is_told: bool = False
    is_second: bool = False


def plain_name(pin: Found) -> str:
    return pin.name.lower().rstrip("_")


def is_usual(stem: str) -> bool:
    return stem in KNOWN or stem in EITHER


def without_letter(name: str) -> str:
    return name[:-1].rstrip("_")


def lettered(found: list[Found]) -> set[str]:
    """The names that end with the letter of their port: each xxxA beside an xxxB."""
    names, other = {plain_name(pin) for pin in found}, {"a": "b", "b": "a"}
    ends = [name for name in names if name[-1:] in other and is_usual(without_letter(name))]
    return {name for name in ends if name[:-1] + other[name[-1]] in names}


def parts_of(plain: str, letters: Collection[str] = ()) -> tuple[str, str]:
    """The usual name in a pin's name, and what stands for its port; empty where there is none."""
    if plain in letters:
        return without_letter(plain), plain[-1]
    tried = [(plain, "")]
    tried += [(match[2], match[1]) for match in [re.fullmatch("([ab])_(.+)", plain)] if match]
    tried += [(match[1], match[2]) for match in [re.fullmatch("(.+?)_?([0-9ab])", plain)] if match]
    # a port that is named for its way, as RADDR and WCLK
    tried += [(match[2], match[1]) for match in [re.fullmatch("([rw])_?(addr|address|clk|clock)", plain)] if match]
    return next(((stem, port) for stem, port in tried if is_usual(stem)), ("", ""))


def has_two_meanings(plain: str, letters: Collection[str]) -> bool:
    """Whether the B of a name is that of active low, or the letter of a port as of other pins of the macro."""
    is_low = KNOWN.get(plain, "").startswith("~") or plain in EITHER
    return bool(letters) and plain not in letters and plain[-1:] == "b" and is_low and is_usual(without_letter(plain))


# ---- buses bit by bit


def kind_of_bus(front: str, bits: Mapping[int, Found]) -> str:
    """What pins with numbers behind a common name are by that name; an empty text where it says nothing of a bus."""
    stem = parts_of(front.lower().rstrip("_"))[0]
    kind = KNOWN.get(stem, EITHER.get(stem, "")).lstrip("~")
    is_output = any(pin.way == "output" for pin in bits.values())
    return kind if kind in BUSES and (kind == "rdata") == is_output else ""


def numbered(found: list[Found], told: Collection[str]) -> dict[str, dict[int, Found]]:
    """The pins that have a front of their names in common, with all numbers from one to another behind it."""
    names = {pin.name for pin in found}
    fronts: dict[str, dict[int, Found]] = {}
    for pin in found:
        match = NUMBERED.fullmatch(pin.name)
        is_bit = pin.width == 1 and not (pin.is_clock or pin.power or pin.writes_at or pin.reads_at)
        if match and is_bit and match[1] not in names and pin.name not in told:
            fronts.setdefault(match[1], {})[int(match[2])] = pin
    return {
        front: bits
        for front, bits in fronts.items()
        if max(bits) - min(bits) == len(bits) - 1 > 0 and len({pin.way for pin in bits.values()}) == 1
    }


def joined(found: list[Found], told: Collection[str]) -> list[Found]:
    """The pins, with those of each bus that comes bit by bit as one. `told` are the names that the call speaks of."""
    groups = numbered(found, told)
    kinds = {front: kind_of_bus(front, bits) for front, bits in groups.items()}
    # two numbers may be two ports, unless they are those of addresses, or others are more
    has_bits = any(kind == "addr" or kind and len(groups[front]) > 2 for front, kind in kinds.items())
    buses = {}
    for front, bits in groups.items():
        if front in told or has_bits and kinds[front]:
            bus = Found(front, next(iter(bits.values())).way, len(bits), ends=(min(bits), max(bits)))
            buses.update({pin.name: bus for pin in bits.values()})
    return list({id(pin): pin for pin in (buses.get(pin.name, pin) for pin in found)}.values())


# ---- what each pin is


def of_supply(pin: Found) -> Guess | None:
    """What a supply is, and what may be one; nothing of any other pin."""
    by_name = SUPPLY.fullmatch(pin.name.lower()) if pin.width == 1 and pin.way != "output" else None
    if pin.power:
        return Guess(pin, "power")
    if by_name:
        return Guess(dataclasses.replace(pin, power="1" if by_name["high"] else "0"), "power", by_name=True)
    return Guess(pin, "") if pin.is_supply or pin.way == "inout" else None


def guess(pin: Found, confirmed: Mapping[str, str], letters: Collection[str]) -> Guess:
    """What a pin seems to be: what somebody confirms, and what the library tells of it, go before its name."""
    plain = plain_name(pin)
    stem, port = parts_of(plain, letters)
    one = Guess(pin, "", port, stem=stem, letter=port)
    kind = KNOWN.get(stem, "")
    if pin.name in confirmed:
        told = confirmed[pin.name]
        one.is_told, one.is_second, one.kind = True, told.startswith(PORT), plain_kind(told)
        one.port = one.letter = WAYS.get(told, port)
        return one
    supply = of_supply(pin)
    if supply:
        return supply
    if pin.is_clock:
        one.kind = "clk"
    elif pin.writes_at or pin.reads_at:
        one.kind = "wdata" if pin.way == "input" else "rdata"
    elif has_two_meanings(plain, letters):
        one.has_two_meanings, one.stem, one.port = True, without_letter(plain), "b"
    elif kind and (kind == "rdata") == (pin.way == "output") and not (kind in ("clk", "read") and pin.width > 1):
        one.kind, one.by_name = kind, True
    return one


def plain_kind(kind: str) -> str:
    """A kind as the call says it, without the port or the way."""
    kind = kind[len(PORT) :] if kind.startswith(PORT) else kind
    return "addr" if kind in WAYS else kind


def guesses(found: list[Found], confirmed: Mapping[str, str] | None = None) -> list[Guess]:
    """What the pins seem to be, each with its port. What somebody confirms is a kind for a pin."""
    letters = lettered(found)
    made = [guess(pin, confirmed or {}, letters) for pin in found]
    named_by_addresses(made)
    named_by_ways(made)
    return made


# ---- lines


def line_of(one: Guess, second: bool) -> str:
    """The line of a pin that is recognised."""
    low, kind = ("~", one.kind[1:]) if one.kind.startswith("~") else ("", one.kind)
    width = f" {one.pin.width}" if one.pin.width > 1 or kind == "mask" else ""
    if kind == "power":
        width = f" {one.pin.power}"
    line = f"{PORT if second else ''}{kind} {low}{one.pin.name}{width}"
    told = ["by its name" + (", active low" if low else "")] if one.by_name else []
    told += (
        [f"changes at the falling edge of {visible(one.pin.clock)}"] if one.pin.is_falling and kind == "rdata" else []
    )
    return (UNSURE if one.by_name else "") + line + (f"  # {'; '.join(told)}" if told else "")


def seeming(one: Guess, name: str) -> str:
    """The lines that could have a pin whose kind is known, but not which of several such pins it is."""
    kind, low = one.kind.lstrip("~"), "~" if one.kind.startswith("~") else ""
    told = f"{low}{name}{f' {one.pin.width}' if one.pin.width > 1 or kind == 'mask' else ''}"
    others = {"addr": tuple(WAYS), "clk": ("clock2",)}.get(kind, ())
    return ", or ".join(f"{which} {told}" for which in (kind, f"{PORT}{kind}", *others))


def open_line(one: Guess, second: bool) -> str:
    """A commented line of a pin that is not recognised, with what could stand there."""
    pin, name = one.pin, visible(one.pin.name)
    width, port = str(pin.width or "WIDTH"), PORT if second else ""
    head = f"# {name}, an {pin.way if pin.way in ('output', 'inout') else 'input'} of {pin.width or '?'} bits: "
    if pin.ends:
        head = f"# {name}{pin.ends[0]} to {name}{pin.ends[1]}: pins {name} {pin.ends[0]} {pin.ends[1]}, and "
    if one.kind and pin.width:
        return head + seeming(one, name)
    if pin.way == "output":
        return f"{head}open {name}, or out {name} {width}"
    if pin.is_supply or pin.way == "inout":
        return f"{head}power {name} 1, or power {name} 0" if pin.width == 1 else f"{head}no line has such a pin"
    kind = EITHER.get(one.stem) or KNOWN.get(one.stem, "")
    if one.has_two_meanings:
        as_port = f"{port}{kind} ~{name}, or {port}{kind} {name} if B is a port"
        return f"{head}{kind} ~{name} if B means active low; {as_port}"
    if one.stem in EITHER:
        more = f" {width}" if pin.width > 1 or kind == "mask" else ""
        return f"{head}{port}{kind} ~{name}{more} where it is active low, or {port}{kind} {name}{more}"
    return f"{head}tie {name} {width}'h0, or pass {name} {width}"


def ports_of(guesses: list[Guess]) -> list[str]:
    """The names of the ports, the one that writes first."""
    words = [one for one in guesses if one.kind in ("addr", "wdata", "rdata") and not one.is_second]
    names = list(dict.fromkeys(one.port for one in words))
    return sorted(names, key=lambda name: not any(one.port == name and one.kind == "wdata" for one in guesses))


def named_by_ways(guesses: list[Guess]) -> None:
    """Where one address is for reads and one for writes by their names, each pin belongs to one of them."""
    if {one.port for one in guesses if one.kind == "addr"} != {"r", "w"}:
        return
    for one in guesses:
        if one.kind in ("rdata", "read"):
            one.port = "r"
        elif one.kind.lstrip("~") in ("wdata", "we", "mask"):
            one.port = "w"


def named_by_addresses(guesses: list[Guess]) -> None:
    """Gives pins the port of their address, where a library tells which that is; and marks the addresses."""
    addresses = {one.pin.writes_at or one.pin.reads_at for one in guesses} - {""}
    clocks: dict[str, str] = {}
    for one in guesses:
        at = one.pin.writes_at or one.pin.reads_at
        if one.pin.name in addresses:
            one.kind, one.by_name, at = "addr", False, one.pin.name
        if at:
            one.port = at
            clocks.setdefault(one.pin.clock, at)
    if not addresses:
        return
    shared = len(set(clocks.values())) < len(addresses)
    for one in guesses:
        if one.pin.name in clocks:
            one.port = clocks[one.pin.name]
        elif one.pin.name not in addresses and not (one.pin.writes_at or one.pin.reads_at):
            mine = next((other.port for other in guesses if other.kind == "addr" and other.letter == one.port), "")
            one.port = mine if shared else clocks.get(one.pin.clock, mine)


def is_odd(one: Guess) -> bool:
    """Whether no line can have a pin. Where the call says what it is, the description may give its width."""
    is_described = one.is_told and not one.pin.width and one.kind in ("addr", "wdata", "rdata")
    has_width = 0 < one.pin.width <= WIDEST or is_described
    return not is_name(one.pin.name) or one.pin.name in RESERVED or not has_width


def refuse_second(one: Guess, guesses: list[Guess]) -> None:
    """Refuses what the call says of a pin that has no line left."""
    other = next((other.pin.name for other in guesses if other.is_told and other.kind == one.kind), one.pin.name)
    ways = ", or raddr and waddr where each way has its own" if one.kind == "addr" else ""
    told = f"that of the second port is '{PORT}{one.kind}'{ways}"
    raise ToolError(f"--pin {one.pin.name}={one.kind}: {other} is {one.kind}, too; {told}")


def pins(macro: str, found: list[Found], confirmed: Mapping[str, str] | None = None) -> tuple[list[str], int]:
    """The lines of a file of pins, and how many pins are not recognised. What somebody confirms is a kind for a pin."""
    made = guesses(found, confirmed)
    ports = ports_of(made)
    split = splits(made, ports)
    lines, left = [f"macro {macro}"], []
    seen: set[tuple[str, bool]] = set()
    told = {(one.kind, is_second(one, ports, split)) for one in made if one.is_told}
    for one in made:
        second = is_second(one, ports, split)
        key = (one.kind, second)
        once = one.kind in ("clk", "wdata", "rdata") or one.kind == "addr" and not split
        common = split and one.kind == "clk" and (key in seen or one.port == ports[1])
        is_left = once and not common and key in (seen if one.is_told else seen | told)
        is_left = is_left or one.port in unsettled(ports) and not one.is_second and one.kind != "power"
        if one.is_told and is_left:
            refuse_second(one, made)
        if is_left or not one.kind or is_odd(one):
            left.append(open_line(one, second))
            continue
        if not common:
            seen.add(key)
        lines += [f"pins {one.pin.name} {one.pin.ends[0]} {one.pin.ends[1]}"] if one.pin.ends else []
        lines.append(line_of(of_split(one, ports, common) if split else one, second))
    return [*lines, *left], len(left)


def unsettled(ports: list[str]) -> list[str]:
    """The ports that have no place: a third one, and all with a name where the words have none."""
    return ports[1 if ports[:1] == [""] and len(ports) > 2 else 2 :]


def is_second(one: Guess, ports: list[str], split: bool) -> bool:
    """Whether a pin is of the other port."""
    return one.is_second or one.port in ports[1:2] and not split and one.kind != "power"


def of_split(one: Guess, ports: list[str], common: bool) -> Guess:
    """A pin of a macro with one address for each way."""
    kind = one.kind
    if common:
        kind = "clock2"
    elif kind == "addr":
        kind = "waddr" if one.port == ports[0] else "raddr"
    elif kind.lstrip("~") == "we" and one.pin.width == 1:
        kind = kind.replace("we", "write")
    return dataclasses.replace(one, kind=kind)


def splits(guesses: list[Guess], ports: list[str]) -> bool:
    """Whether one port writes alone and the other reads alone: one address for each way."""
    kinds = {port: {one.kind for one in guesses if one.port == port} for port in ports}
    return len(ports) == 2 and "rdata" not in kinds[ports[0]] and "wdata" not in kinds[ports[1]]
