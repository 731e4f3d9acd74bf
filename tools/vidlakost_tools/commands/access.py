"""What a tester needs round a self-test: a start, the state, and of the first failure the cycle and the words.

usage: vidlakost access MEMORY|CHIPFILE FOLDER [--apb] [--jtag [--sib] [--idcode HEX]] [--log N] [--march MARCH]
                        [--mhz F]
       vidlakost access LIST|CHIPFILE PINS.. FOLDER [--in-place [--under-tap] | [--each] [--log N]] [--apb]
                        [--jtag [--sib] [--idcode HEX]] [--mhz F]
       vidlakost access --help

NAME is the name of the memory or of the chip. access writes to FOLDER
    NAME_access.v            the module NAME_access round the self-test NAME_bist that `compile` writes, or round the
                             chip NAME that `chip` writes; its start may come from any clock
    NAME_access_tb.sv        a testbench: two runs. With +planted a bit of a word is stuck, and the test has to find it.
                             A run that passes ends with the line `NAME_access_tb: passed`
    NAME_model.v             memories for the testbenches
With --apb, a block of registers on an APB3 bus:
    NAME_apb.v, NAME_cross.v, NAME_apb_tb.sv, NAME_apb.md (the registers as a table) and NAME_apb.rdl (in SystemRDL)
With --jtag, a TAP of IEEE 1149.1 with the instruction BIST:
    NAME_tap.v, NAME_cross.v, NAME_tap_tb.sv, NAME.svf (a run that has to find nothing), NAME.stil and NAME.wgl (the
    same, a vector for each cycle of TCK), NAME.bsdl (without pads), NAME.icl and NAME.pdl (IEEE 1687), and for a trial
    with OpenOCD NAME_board.v, NAME_socket.cpp and NAME.cfg. --idcode sets its identity. With --sib segment insertion
    bits of IEEE 1687, in NAME_sib.v, give access to the register of the self-test and to that of the log; BIST selects
    them
With --log, for each memory a comparator beside its self-test, which keeps the first N wrong reads, 1 to 64:
    MEMORY_log.v, and for one memory NAME_log_tb.sv, which prints the log for `vidlakost bitmap`. With --apb or --jtag
    the buses read the log, too: APB from 0x800 on, JTAG by the instruction LOG, an entry in each scan. NAME_log.tcl
    has OpenOCD read it
For one memory --march says how long the test takes; the files for a tester have to wait so long. --mhz is the clock of
the test, and with --in-place the slowest one of all. With it an SVF waits in seconds, and the others as many cycles of
TCK as it takes, so TCK may be faster than that clock. Put the module of the self-test in FOLDER:
    cd FOLDER && iverilog -g2012 -o tb NAME_access_tb.sv NAME_access.v NAME_model.v NAME_bist.v && vvp -n tb
    vvp -n tb +planted +address=3 +bit=1 +value=1
With PINS the files are for the whole chip that `vidlakost top --access` wrote to FOLDER with the same words. There is a
bit of fail for each memory, and of the first failure the cycle, the words and the memory. There is no model and no
trial with OpenOCD then. NAME_access.f, NAME_apb.f and NAME_tap.f list the files of each testbench. A planted bit is
wrong in each word that memory U answers:
    cd FOLDER && iverilog -g2012 -o tb -c NAME_tap.f && vvp -n tb && vvp -n tb +planted +unit=3 +bit=1
Here --log needs --apb or --jtag, because a bus reads the logs, which are in NAME_access. Equal memories share one
MEMORY_log.v. A log keeps wrong reads of the march, and none of the lanes. The testbenches check each log, and print it
with `unit U` in each line for `vidlakost bitmap` and `vidlakost diagnosis`. With +each in place of +planted the lowest
bit of each macro is wrong.
--each keeps the first failure of each memory. After done, each change of ignore shows the first failure of another
memory, without a new run; the procedure read_first of NAME.pdl does so, and +each tries it. This costs a second
register for each word of each memory.
With --in-place the files are for the memories that `vidlakost top --in-place` left in their places. NAME_access is
there, and the modules of the bus and of the TAP have its ports to_I and of_I, too. After done, each change of ignore
shows the first failure of another memory, without a new run. These testbenches have no memories at the bundles; the
testbench of `vidlakost places` has them. With --under-tap NAME_register.v is for a chip that has a TAP already: the
register with select, capture, shift, update, tck, tdi and tdo (the host interface of IEEE 1687), with NAME_register.icl
and NAME_register.pdl. NAME_register_tb.sv tries it with a TAP of its own."""
from __future__ import annotations

import dataclasses
import pathlib
import re
from typing import Any

from vidlakost_tools.access import (
    apb,
    bench as access_bench,
    block as access_block,
    ijtag,
    log as fail_log,
    log_window,
    network,
    standards,
    stil,
    tap,
    under_tap,
    wgl,
)
from vidlakost_tools.access.logs import log_depth
from vidlakost_tools.access.target import IDENTITY, Target, is_chip_file, is_list
from vidlakost_tools.chip import access as system_access, system as soc
from vidlakost_tools.files import marked, write_own
from vidlakost_tools.in_place.files import depth_in
from vidlakost_tools.in_place.sequencer import PlaceTarget, of_places
from vidlakost_tools.text import shown
from vidlakost_tools.texts.chip import read_chip
from vidlakost_tools.texts.march import march_of
from vidlakost_tools.texts.memory import read_memory
from vidlakost_tools.tool import ToolError, tell, usage_of, words_of


def target_of(path: str, march: str | None) -> Target:
    if is_chip_file(path):
        if march:
            raise ToolError("--march is for one memory: a chip file names its marches")
        return Target.of_chip(read_chip(path))
    memory = read_memory(path)
    return Target.of_memory(memory, memory.cycles(march_of(march)[1]) - 1 if march else None)


def megahertz(text: str) -> float:
    """A clock in megahertz."""
    if not re.fullmatch(r"[0-9]{1,6}(\.[0-9]{1,6})?", text) or not float(text):
        raise ToolError(f"--mhz is a clock in megahertz, and not {shown(text)}")
    return float(text)


def identity_of(options: dict[str, Any]) -> int:
    """The identity of the TAP: its lowest bit is 1, and no manufacturer has the number 127 of the first bank."""
    text = options.get("--idcode", f"{IDENTITY:08x}")
    identity = int(text, 16) if re.fullmatch("(0[xX])?[0-9a-fA-F]{8}", text) else 0
    if not identity & 1 or identity >> 1 & 0x7FF == 0x7F:
        why = "with 1 in the lowest bit, and not 0x7f in bits 11 to 1"
        raise ToolError(f"--idcode has eight hexadecimal digits, {why}; it is {shown(text)}")
    return identity


def inputs_of(path: str, options: dict[str, Any]) -> list[str]:
    """The files that are read."""
    given = [path, *([options["--march"]] if "--march" in options else [])]
    if is_chip_file(path):
        given += [name for unit in read_chip(path).units for name in (unit.march, unit.memory_file)]
    return given


def texts(target: Target, options: dict[str, Any]) -> dict[str, str]:
    """The files by their names."""
    name = target.name
    depth = log_depth(options)
    if depth is not None and ("--apb" in options or "--jtag" in options):
        target = dataclasses.replace(target, depth=depth)
    target = dataclasses.replace(target, identity=identity_of(options), has_sib="--sib" in options)
    made = {
        f"{name}_access.v": target.module() if isinstance(target, PlaceTarget) else access_block.access(target),
        f"{name}_access_tb.sv": access_bench.access_bench(target),
        f"{name}_model.v": access_block.model(target),
    }
    if depth is not None:
        made.update(fail_log.blocks(target, depth))
        if not target.is_chip:
            made[f"{name}_log_tb.sv"] = fail_log.bench(target, depth)
    if {"--apb", "--jtag", "--under-tap"} & set(options):
        made[f"{name}_cross.v"] = access_block.cross(target)
    if "--apb" in options:
        made[f"{name}_apb.v"] = apb.block(target)
        made[f"{name}_apb_tb.sv"] = apb.bench(target)
        made[f"{name}_apb.md"] = apb.table(target)
        if "$" in name:
            tell(f"access: {name} is no name in SystemRDL, so {name}_apb.rdl is left out")
        else:
            made[f"{name}_apb.rdl"] = apb.system_rdl(target)
    if "--under-tap" in options:
        made.update(under_tap.texts(target, megahertz(options["--mhz"]) if "--mhz" in options else None))
    return {**made, **of_tap(target, options)} if "--jtag" in options else made


def of_tap(target: Target, options: dict[str, Any]) -> dict[str, str]:
    """The files of the TAP."""
    name = target.name
    if target.done is None:
        raise ToolError("for one memory --jtag needs --march MARCH, which says how long to wait for the test")
    mhz = megahertz(options["--mhz"]) if "--mhz" in options else None
    made = {
        f"{name}_tap.v": tap.block(target),
        f"{name}_tap_tb.sv": tap.bench(target),
        f"{name}_board.v": tap.board(target),
        f"{name}_socket.cpp": tap.socket(target),
        f"{name}.cfg": tap.config(target),
        f"{name}.svf": standards.svf(target, mhz),
        f"{name}.stil": stil.stil(target, mhz),
        f"{name}.wgl": wgl.wgl(target, mhz),
    }
    if target.has_sib:
        made[f"{name}_sib.v"] = network.block(target)
    if target.depth is not None:
        made[f"{name}_log.tcl"] = log_window.tcl(target, [part.width for part in tap.parts(target)])
    if not standards.has_plain_name(target):
        tell(f"access: {name} is no name in BSDL, ICL and PDL, so these files are left out")
        return made
    described = {"bsdl": standards.bsdl(target), "icl": ijtag.icl(target), "pdl": ijtag.pdl(target, mhz)}
    return {**made, **{f"{name}.{ending}": text for ending, text in described.items()}}


def planned(system: soc.System, path: str, options: dict[str, Any]) -> system_access.SystemTarget:
    """The target of a whole whose memories are joined by a module."""
    soc.planned(system, path)
    target = system_access.of_system(system)
    return dataclasses.replace(target, each="--each" in options, depth=log_depth(options))


def refuse_of_whole(pins: list[str], options: dict[str, Any]) -> None:
    """Refuses words that don't go together for a whole chip."""
    why = ""
    if not pins:
        why = "a list needs the files of pins, as for `vidlakost top`"
    elif "--march" in options:
        why = "--march is for one memory: here the chip file or the list names the marches, so leave it out"
    elif {"--in-place", "--each"} <= set(options):
        why = "--in-place keeps the first failure of each memory without --each"
    elif {"--in-place", "--log"} <= set(options):
        why = "`vidlakost top --in-place --log N` says how many wrong reads a memory keeps: leave out --log"
    elif "--log" in options and not {"--apb", "--jtag"} & set(options):
        why = "a bus reads the log of a whole chip: write --apb or --jtag, too"
    if why:
        raise ToolError(f"{why}\n{usage_of(__doc__)}")


def of_whole(path: str, pins: list[str], out: pathlib.Path, options: dict[str, Any]) -> None:
    """Writes the modules round the whole chip of a folder."""
    refuse_of_whole(pins, options)
    system = soc.read_system(path)
    soc.give_collars(system, pins)
    system.keep(depth_in(out, system) if "--in-place" in options else None)
    target: Target = of_places(system) if "--in-place" in options else planned(system, path, options)
    made = {name: text for name, text in texts(target, options).items() if name not in system_access.left_out(target)}
    beside = []
    if isinstance(target, system_access.SystemTarget):
        beside = system_access.files_of(out, target)
        system_access.refuse_inner_names(target, made)
        system_access.refuse_log_names(target)
    for kind in [kind for kind in ("access", "apb", "tap", "register") if f"{target.name}_{kind}.v" in made]:
        between = [f"{target.name}_cross.v"] if kind != "access" else []
        between += [f"{target.name}_sib.v"] if kind == "tap" and "--sib" in options else []
        own = [
            f"{target.name}_{kind}_tb.sv",
            f"{target.name}_{kind}.v",
            *between,
            *([f"{target.name}_access.v"] if between else []),
            *(name for name in made if name.endswith("_log.v")),
        ]
        made[f"{target.name}_{kind}.f"] = "\n".join([*own, *beside, ""])
    inputs = [path, *pins, *(name for part in system.parts for name in (part.unit.march, part.unit.memory_file))]
    write_own(out, marked("access", made), inputs)


def main(arguments: list[str]) -> int:
    allowed = {
        "--apb": 0,
        "--jtag": 0,
        "--log": 1,
        "--march": 1,
        "--mhz": 1,
        "--sib": 0,
        "--idcode": 1,
        "--in-place": 0,
        "--under-tap": 0,
        "--each": 0,
    }
    (path, *pins, folder), options = words_of(__doc__, arguments, allowed, 2, None)
    if "--under-tap" in options and "--in-place" not in options:
        raise ToolError(f"--under-tap needs --in-place\n{usage_of(__doc__)}")
    alone = [name for name in ("--sib", "--idcode") if name in options and "--jtag" not in options]
    if alone:
        raise ToolError(f"{alone[0]} needs --jtag\n{usage_of(__doc__)}")
    if pins or is_list(path) or {"--in-place", "--each"} & set(options):
        of_whole(path, pins, pathlib.Path(folder), options)
        return 0
    target = target_of(path, options.get("--march"))
    out = pathlib.Path(folder)
    write_own(out, marked("access", texts(target, options)), inputs_of(path, options))
    return 0
