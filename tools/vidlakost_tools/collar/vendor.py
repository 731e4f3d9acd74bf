"""Models of macros that somebody else wrote: their files, which modules are in them, and whether their ports have the
widths of the pins."""
from __future__ import annotations

import functools
import pathlib
import re
from typing import Collection, Mapping

from vidlakost_tools.collar.liberty import Found
from vidlakost_tools.collar.pins import Macro, literal, widths_of
from vidlakost_tools.collar.port_list import Ports
from vidlakost_tools.text import SOURCE_BYTES, read_described, shown
from vidlakost_tools.tool import ToolError
from vidlakost_tools.verilog.conditions import asked_in, taken
from vidlakost_tools.verilog.syntax import COMMENT

# what may stand between the words of a text; a name with a backslash ends at a blank
SKIPPED = rf'{COMMENT}|/\*.*|"(?:\\.|[^"\\\n])*"|`define(?:[^\n\\]|\\.)*|`\w+'
TOKEN = re.compile(rf"(?P<skip>{SKIPPED})|(?P<name>\\\S+|[A-Za-z_][\w$]*)", re.DOTALL | re.ASCII)


def named(path: str) -> str:
    """A file of the vendor's as a list of files can have it: a whole path, without what a list would read otherwise."""
    if not pathlib.Path(path).is_file():
        raise ToolError(f"--model: {shown(path)} is not a file")
    whole = str(pathlib.Path(path).resolve())
    if not re.fullmatch(r"/[A-Za-z0-9_./+@-]+", whole):
        raise ToolError(
            f"--model: a name in a list of files has letters, digits and ./_+@- alone, and not {shown(whole)}"
        )
    return whole


def modules_in(text: str) -> list[str]:
    """The names of the modules of a text, those in comments and in texts in quotes left out."""
    found, before = [], ""
    for name in (match["name"] for match in TOKEN.finditer(text) if match["name"]):
        # module automatic name
        if before in ("module", "macromodule") and name not in ("automatic", "static"):
            found.append(name)
        before = name
    return found


def modules_of(path: str) -> list[str]:
    return modules_in(read_described(path, SOURCE_BYTES))


def files_of(paths: list[str]) -> dict[str, list[str]]:
    """The files of --model in their order, each with its modules."""
    return {file: modules_of(file) for file in map(named, paths)}


def files_by_module(vendors: Mapping[str, list[str]]) -> dict[str, str]:
    """The file of each module."""
    return {module: file for file, modules in reversed(vendors.items()) for module in modules}


def file_with(module: str, vendors: Mapping[str, list[str]]) -> str | None:
    """The first of these files that has a module."""
    return files_by_module(vendors).get(module)


@functools.lru_cache(maxsize=None)
def names_in(path: str) -> frozenset[str]:
    """All names in a file, those of the modules that it uses among them."""
    return frozenset(re.findall(r"[A-Za-z_][\w$]*", read_described(path, SOURCE_BYTES), re.ASCII))


def files_beside(macro: str, vendors: Mapping[str, list[str]], macros: Collection[str]) -> list[str]:
    """What a simulator reads of these files beside a macro: all that have it or none of the macros, and of the others
    those with a module that one of these names. Without a model of the macro that is nothing."""
    if file_with(macro, vendors) is None:
        return []
    left = {file for file, modules in vendors.items() if macro not in modules and not set(macros).isdisjoint(modules)}
    more = left
    while more:
        names = {name for file in vendors if file not in left for name in names_in(file)}
        more = {file for file in left if not names.isdisjoint(vendors[file])}
        left = left - more
    return [file for file in vendors if file not in left]


# ---- the ports of a model

# how many of the names that a model asks for are tried
MOST_NAMES = 32
WAYS = {"rdata": "output", "out": "output", "open": "output", "power": "inout"}


def number_of(value: str) -> int | None:
    """The number of a parameter; None of a text and of any other."""
    found = literal(value)
    return found[1] if found else int(value) if re.fullmatch("[0-9]{1,9}", value) else None


def given_numbers(macro: Macro) -> dict[str, int]:
    """The parameters of a macro that the pins give a number."""
    return {name: number for name, value in macro.parameters for number in [number_of(value)] if number is not None}


def ports_of(macro: Macro, file: str, defined: Collection[str]) -> list[Found] | None:
    """The ports of a model where these names are defined, with the parameters that the pins give it; None if the module
    is not there."""
    text = read_described(file, SOURCE_BYTES)
    is_there = macro.name in modules_in(taken(file, text, defined))
    return Ports(file, text, macro.name, given_numbers(macro), defined).ports() if is_there else None


def unlike(macro: Macro, file: str, found: list[Found]) -> ToolError | None:
    """What there is to refuse where a pin is a port of another width or another direction. A width that no number tells
    is looked at by the collar itself, in its testbench."""
    ports = {port.name: port for port in found}
    for pin, name, width in ((pin, *named) for pin in macro.pins for named in widths_of(pin)):
        port, way = ports.get(name), WAYS.get(pin.kind, "input")
        if port and width and port.width and port.width != width:
            told = f"{name} has {port.width} bits in {file}, and {width} by the pins and the description"
            return macro.refuse(pin.line, told)
        if port and port.way != way and "inout" not in (port.way, way):
            return macro.refuse(pin.line, f"{name} is an {port.way} in {file}, and an {way} by this line")
    return None


def fitting(macro: Macro, file: str) -> tuple[str, list[Found] | None]:
    """The ports of a model that the pins fit, and the name that has to be defined for it, if one has; no ports if the
    module needs several names. Refuses a model whose ports no name makes those of the pins."""
    refused: ToolError | None = None
    for name in ("", *asked_in(read_described(file, SOURCE_BYTES))[:MOST_NAMES]):
        found = ports_of(macro, file, [name])
        wrong = unlike(macro, file, found) if found is not None else None
        if found is not None and wrong is None:
            return name, found
        refused = refused or wrong
    if refused:
        raise refused
    return "", None


def refuse_other_ports(macro: Macro, file: str) -> None:
    """Refuses a model in which a pin is a port of another width or another direction."""
    fitting(macro, file)


def undriven(macro: Macro, file: str) -> list[str]:
    """What there is to say of a model: the name to define, and inputs that no line of the pins names, as the enable
    that somebody forgot."""
    define, ports = fitting(macro, file)
    if ports is None:
        return [f"the ports of {macro.name} are not compared with {macro.path}: several defines bring them into {file}"]
    told = [f"{file} has the ports of {macro.path} where {define} is defined: tell the simulator"] if define else []
    named_pins = {name for pin in macro.pins for name, _ in widths_of(pin)}
    names = [port.name for port in ports if port.way == "input" and port.name not in named_pins]
    more = f"nothing drives {', '.join(names)} of {macro.name}, which no line of {macro.path} names"
    return [*told, *([more] if names else [])]
