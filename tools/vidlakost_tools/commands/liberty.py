"""A description and the pins of a memory cell, from a library or from a port list.

usage: vidlakost liberty LIB CELL FOLDER [--name NAME] [--pin PIN=KIND]..
       vidlakost liberty --verilog FILE MODULE FOLDER [--name NAME] [--pin PIN=KIND].. [--define NAME]..
       vidlakost liberty --help

LIB is a library in Liberty form, and CELL a cell of it that has a group memory(). FILE is a Verilog text with the port
list of MODULE. Where `ifdef chooses, liberty reads what a simulator does with the names of --define; a port that is
there only with USE_POWER_PINS is a supply. liberty writes to FOLDER; NAME is the name of the memory (by default that of
the cell, in small letters)
    NAME.mem     the description, for the program
    NAME.pins    the pins, for `vidlakost collar` and `vidlakost top`
A library says which pins are the clocks, the addresses and the words, and at which edge the words change. It does not
say which pins are enables and masks, and a port list does not say what any pin is for. There liberty guesses by the
pin's name. A guessed line begins with #?, and `collar` refuses it until you remove that mark. Or say in the call what
the pin is: --pin CSB=~en, with KIND one of clk, en, we, read, write, mask, addr, raddr, waddr, wdata and rdata, and ~
if the pin is active low; 'port KIND' is of the second port. liberty writes a pin that it does not recognise as a
comment, with what it could be, and counts such pins. Pins A0, A1 and so on are the bus A, and --pin A=addr says so.
What a library says of its memory and what it says of the buses have to agree, and the memory has to be a ram. liberty
takes 2 to the width of the address as the number of words, and 1 as the latency. The data sheet may say fewer words or
a longer latency."""
from __future__ import annotations

import dataclasses
import pathlib

from vidlakost_tools.collar import pin_names
from vidlakost_tools.collar.liberty import Found, memory_cell
from vidlakost_tools.collar.pin_lines import is_name
from vidlakost_tools.collar.port_list import Ports
from vidlakost_tools.collar.vendor import modules_in
from vidlakost_tools.collar.watch import POWER
from vidlakost_tools.files import write_own
from vidlakost_tools.text import SOURCE_BYTES, read_described, shown
from vidlakost_tools.tool import ToolError, tell, usage_of, words_of
from vidlakost_tools.verilog.conditions import taken
from vidlakost_tools.verilog.reserved_words import RESERVED

WIDEST_WORD = 64


def widths(found: list[Found], confirmed: dict[str, str]) -> tuple[int, int]:
    """The widths of the address and of a word of a port list, 0 where no port shows them."""
    guesses = pin_names.guesses(found, confirmed)
    address = next((one.pin.width for one in guesses if one.kind == "addr"), 0)
    return address, next((one.pin.width for one in guesses if one.kind == "rdata"), 0)


def description(name: str, address: int, bits: int, source: str) -> str:
    """The description, as far as it is known."""
    lines = [f"# made by vidlakost liberty from {source}", "memory 2", f"name {name}"]
    if 1 <= address <= 16:
        lines.append(f"words {1 << address}      # 2 to the {address} bits of the address; look at the data sheet")
    else:
        lines.append("# words N       no address of 1 to 16 bits is recognised")
    if 1 <= bits <= WIDEST_WORD:
        lines.append(f"bits {bits}")
    elif bits > WIDEST_WORD:
        lines.append(
            f"# bits N       a word of {bits} bits is two descriptions; the lines low and high of the pins name them"
        )
    else:
        lines.append("# bits N        no word is recognised")
    return "\n".join([*lines, "latency 1       # look at the data sheet", "backgrounds log", ""])


def name_of(given: str | None, cell: str) -> str:
    name = given if given is not None else cell.lower()
    if not is_name(name) or name in RESERVED or len(name) > 48:
        raise ToolError(f"{shown(name)} is no name for a memory: give one with --name")
    return name


KINDS = (
    "clk",
    "addr",
    *pin_names.WAYS,
    "wdata",
    "rdata",
    *("~" * low + kind for kind in ("en", "we", "read", "write", "mask") for low in (0, 1)),
)


def is_kind(text: str) -> bool:
    """Whether a pin can be told to be this."""
    kind = text[len(pin_names.PORT) :]
    return text in KINDS or text.startswith(pin_names.PORT) and kind in KINDS and kind not in pin_names.WAYS


def told_of(pin: Found, found: list[Found]) -> str:
    """What a pin is by the library; an empty text if only its name says what it may be."""
    if pin.name in [one.writes_at or one.reads_at for one in found]:
        return "addr"
    if pin.is_clock:
        return "clk"
    return ("wdata" if pin.way == "input" else "rdata") if pin.writes_at or pin.reads_at else ""


def confirmed_in(given: list[str], found: list[Found]) -> dict[str, str]:
    """What the call says of pins."""
    confirmed: dict[str, str] = {}
    for text in given:
        name, _, kind = text.partition("=")
        if not is_kind(kind):
            told = f"one of {', '.join(KINDS)}, or 'port KIND' for the second port"
            raise ToolError(f"--pin is PIN=KIND, with KIND {told}, and not {shown(text)}")
        if name not in [pin.name for pin in found] or name in confirmed:
            raise ToolError(
                f"--pin {shown(text)}: {'the pin is named twice' if name in confirmed else 'there is no such pin'}"
            )
        pin = next(pin for pin in found if pin.name == name)
        if (pin.way == "output") != (pin_names.plain_kind(kind) == "rdata"):
            raise ToolError(f"--pin {shown(text)}: {name} is an {pin.way}")
        if told_of(pin, found) not in ("", pin_names.plain_kind(kind)):
            raise ToolError(f"--pin {shown(text)}: the library says that {name} is {told_of(pin, found)}")
        confirmed[name] = kind
    return confirmed


def tell_left(found: list[Found], lines: list[str], left: int) -> None:
    """Lists what the user has to look at."""
    for pin in found:
        if pin.is_falling and is_name(pin.name):
            told = "changes at the falling edge of its clock: `vidlakost sdc --falling` leaves it half a period"
            tell(f"liberty: {pin.name} {told}")
    taken = [pin.name for pin in found if pin.is_taken_falling and is_name(pin.name)]
    if taken:
        told = "are sampled at the falling edge of the clock, but a collar drives pins for the rising one"
        tell(f"liberty: {', '.join(taken)} {told}")
    unsure = sum(line.startswith(pin_names.UNSURE) for line in lines)
    if unsure:
        tell(
            f"liberty: {unsure} of {len(found)} pins are guessed by their names: confirm each line that begins with #?"
        )
    if left:
        tell(f"liberty: {left} of {len(found)} pins are not recognised: their lines are comments")


def ports_in(path: str, text: str, module: str, defined: list[str]) -> list[Found]:
    """The ports of a model; what is there only with its supplies is one of these."""
    if module in modules_in(text) and module not in modules_in(taken(path, text, defined)):
        raise ToolError(f"{path}: a define brings the module {module}: name it with --define")
    found = Ports(path, text, module, None, defined).ports()
    names = {pin.name for pin in found}
    more = Ports(path, text, module, None, [*defined, POWER]).ports()
    return [*found, *(dataclasses.replace(pin, is_supply=True) for pin in more if pin.name not in names)]


def main(arguments: list[str]) -> int:
    allowed: dict[str, int | list[str]] = {"--verilog": 0, "--name": 1, "--pin": [], "--define": []}
    (path, cell, folder), options = words_of(__doc__, arguments, allowed, 3, 3)
    name = name_of(options.get("--name"), cell)
    if not is_name(cell) or cell in RESERVED:
        raise ToolError(f"{shown(cell)} is no name of a macro")
    text, defined = read_described(path, SOURCE_BYTES), options.get("--define", [])
    if "--verilog" not in options and defined:
        raise ToolError(f"--define needs --verilog\n{usage_of(__doc__)}")
    address, bits, found = (
        (0, 0, ports_in(path, text, cell, defined)) if "--verilog" in options else memory_cell(path, text, cell)
    )
    given = options.get("--pin", [])
    found = pin_names.joined(found, [told.partition("=")[0] for told in given])
    confirmed = confirmed_in(given, found)
    if "--verilog" in options:
        address, bits = widths(found, confirmed)
    lines, left = pin_names.pins(cell, found, confirmed)
    source = pathlib.Path(path).name if pathlib.Path(path).name.isprintable() else "a file"
    pins = [f"# made by vidlakost liberty from {source}: confirm each line that begins with #?", *lines, ""]
    texts = {f"{name}.mem": description(name, address, bits, source), f"{name}.pins": "\n".join(pins)}
    write_own(pathlib.Path(folder), texts, [path])
    tell_left(found, lines, left)
    return 0
