"""A collar: a memory macro with its self-test, and a multiplexer between that and the functional port.

usage: vidlakost collar MEMORY [MEMORY] --macro PINS FOLDER [--model FILE].. [--clock-mux CELL:SELECT:CHIP:TEST:OUT]
                        [--open | --through access|apb|jtag]
       vidlakost collar --help

MEMORY is the description of the memory. PINS lists the pins of the macro, one a line, in any order (`#` begins a
comment):
    macro NAME               the macro's module
    parameter NAME VALUE     a parameter of it: a number, a literal with its size, or "text"
    clk PIN                  the clock
    clock2 PIN               a further clock: the chip's in use, the test's in test
    en PIN [WIDTH]           1 for a command; leave it out if the macro has no enable
    we PIN [WIDTH]           1 for a write; without `en`, 1 for a command that writes
    read PIN, write PIN      1 for a command that reads, or writes (of a macro with an enable for each way)
    addr PIN [WIDTH [at BITS]]   the address, in some bits of the pin, as `at 15:7,5`; a macro with an address for each
                             way has raddr and waddr
    wdata PIN [WIDTH]        the word to write
    rdata PIN [WIDTH]        the word that was read
    mask PIN WIDTH           which parts of a word are written; a `we` or `en` of several bits also has a bit for each
                             part
    pass PIN WIDTH [VALUE]   a further input, as that of a power switch: the chip drives it, and in test it is VALUE
    out PIN WIDTH            a further output, for the chip
    tie PIN VALUE            a further input that is tied, to a literal with its size or to an input of the collar
    open PIN                 a further output that is left open
    power PIN [0|1]          a supply, under `ifdef USE_POWER_PINS; a testbench drives it with this number
    pins PREFIX LOW HIGH     the bus PREFIX of another line has a pin for each bit: PREFIX0, PREFIX1 and so on
    registers in N           N registers between the self-test and the macro, in test alone
    registers out N          N registers between the macro and the self-test, in test alone
    masks                    after the march, try each lane of mask, we and en alone, at the first and the last address
    port KIND PIN [WIDTH]    of a second port: clk, en, we, read, write, addr, wdata, rdata, mask. The march runs once
                             more, and reads through it; if it has wdata, the march writes through it too
    bypass                   a port scan_mode: while it is 1, registers answer the chip in place of the macro, and
                             sample the macro's inputs
    low MEMORY, high MEMORY  a word of two descriptions: the names of its parts, whose self-tests go in step
A pin that is active low has ~ in front. The latency of MEMORY is the macro's own plus all the registers.

collar writes these files to FOLDER; NAME is the memory's name, or that of the low part:
    NAME_collar.v            the module NAME_collar. It has the functional pins of the macro, and clk, test, done and
                             fail. The test begins when `test` rises, after 0 for a few cycles, and runs once while
                             `test` is 1
    NAME_collar_tb.sv        a testbench. It uses the functional port, runs the test, and says which latency fits. An X
                             on `fail` is a failure. With +planted it plants one fault after another, and each has to be
                             found; then it runs the test with words in which every two bits differ. A run that passes
                             ends with the line `NAME_collar_tb: passed`; a run that a model ends early has no such line
    files.f                  what a simulator has to read, in this order
    MACRO.v                  a model of the macro by these pins, unless you have one. Put the vendor's model in its
                             place, where collar leaves it, or name its files by --model. Its ports need the widths of
                             the pins
--clock-mux names the cell that chooses each further clock: its module and its pins. SELECT is 1 in test. collar writes
CELL.v, a model of the cell, unless one is there. Without --clock-mux a `? :` chooses the clock, and collar says so. At
its end collar says what of the macro it doesn't test, and which bits of a word hold the same in every background. With
--open the self-test is elsewhere, and the collar has its ports: bist_en, bist_we and so on. A second port and masks
need `second` and `lanes_go`, `lanes_over`, `lanes_fail`.
--through starts the test like the module NAME_access, NAME_apb or NAME_tap of `vidlakost access`. The collar contains
this module, so put its file in the folder too. Its ports replace test, done and fail. The testbench of `access` is for
that module alone.
--open and --through write no testbench.
Put the module NAME_bist, which `compile` writes, in the folder:
    cd FOLDER && iverilog -g2012 -o tb -c files.f && vvp -n tb && vvp -n tb +planted"""
from __future__ import annotations

import pathlib

from vidlakost_tools.collar.bench import Bench
from vidlakost_tools.collar.bus import KINDS
from vidlakost_tools.collar.clock_mux import chosen_clocks, clock_mux
from vidlakost_tools.collar.model import model
from vidlakost_tools.collar.names import MARK
from vidlakost_tools.collar.pin_lines import read_macro
from vidlakost_tools.collar.pins import Macro, Word, alike
from vidlakost_tools.collar.text import collar
from vidlakost_tools.collar.untested import beyond, told_pins, untested
from vidlakost_tools.collar.vendor import file_with, files_of, refuse_other_ports, undriven
from vidlakost_tools.files import is_own, refuse_twins, write_own
from vidlakost_tools.text import shown
from vidlakost_tools.texts.memory import read_memory
from vidlakost_tools.tool import ToolError, tell, usage_of, words_of


def kind_of(options: dict[str, str]) -> str:
    """Where the self-test is: in the collar, outside of it, or behind a port of `vidlakost access`."""
    if "--through" not in options:
        return "open" if "--open" in options else "bist"
    if "--open" in options:
        raise ToolError("use --open or --through, not both")
    if options["--through"] not in KINDS:
        raise ToolError(f"--through is one of {', '.join(KINDS)}, and not {shown(options['--through'])}")
    return KINDS[options["--through"]]


def texts_of(macro: Macro, word: Word, kind: str, vendors: dict[str, list[str]]) -> dict[str, str]:
    """The files by name. They include the models of the macro and of its cell of clocks, unless one of the vendor's
    files has them."""
    name, cell = word.name, macro.clock_cell
    own = [f"{cell.cell}.v"] if cell and file_with(cell.cell, vendors) is None else []
    made = {f"{name}_collar.v": collar(macro, word, kind)}
    if kind == "bist":
        made[f"{name}_collar_tb.sv"] = Bench(macro, word).text()
        modules = [f"{memory.name}_bist.v" for memory in word.memories]
        files = [f"{name}_collar_tb.sv", f"{name}_collar.v", *modules, *(vendors or [f"{macro.name}.v"]), *own]
        made["files.f"] = "\n".join([f"{MARK} collar", *files, ""])
    if cell:
        made.update({file: cell.model(MARK) for file in own})
    if not vendors:
        made[f"{macro.name}.v"] = model(macro, word)
    return made


def looked_at(macro: Macro, vendors: dict[str, list[str]]) -> str | None:
    """The file of the vendor's that has the macro, if the call names some. Its ports fit the pins."""
    theirs = file_with(macro.name, vendors)
    if vendors and theirs is None:
        raise macro.refuse(macro.name_line, f"there is no module {macro.name} in {', '.join(vendors)}")
    if theirs:
        refuse_other_ports(macro, theirs)
    return theirs


def left_there(macro: Macro, texts: dict[str, str], out: pathlib.Path) -> str | None:
    """Takes out of the texts the models of somebody else's that are in the folder, and answers that of the macro."""
    cell = f"{macro.clock_cell.cell}.v" if macro.clock_cell else ""
    if cell in texts and (out / cell).exists() and not is_own(out / cell):
        del texts[cell]
    refuse_twins(texts)
    path = out / f"{macro.name}.v"
    if path.name not in texts or not path.exists() or is_own(path):
        return None
    refuse_other_ports(macro, str(path))
    tell(f"collar: {path} exists and this tool did not write it, so it stays")
    del texts[path.name]
    return str(path)


def tell_left(macro: Macro, word: Word, theirs: str | None) -> None:
    """Says what of the macro is not driven or not tested."""
    for told in undriven(macro, theirs) if theirs else []:
        tell(f"collar: {told}")
    if chosen_clocks(macro) and macro.clock_cell is None:
        tell(f"collar: `? :` chooses the clock of {', '.join(chosen_clocks(macro))}: name a cell by --clock-mux")
    left = told_pins([*untested(macro, word, theirs is not None), *beyond(macro, word, theirs)])
    if left:
        tell(f"collar: not tested: {left}")
    if alike(word):
        tell(f"collar: {alike(word)}: the test does not see if one depends on the other")


def main(arguments: list[str]) -> int:
    words, options = words_of(
        __doc__, arguments, {"--macro": 1, "--through": 1, "--model": [], "--clock-mux": 1, "--open": 0}, 2, 3
    )
    *memory_files, folder = words
    if "--macro" not in options:
        raise ToolError(f"name the file of the pins with --macro\n{usage_of(__doc__)}")
    kind, word = kind_of(options), Word([read_memory(path) for path in memory_files])
    macro = read_macro(options["--macro"], word)
    if "--clock-mux" in options and chosen_clocks(macro):
        macro.clock_cell = clock_mux(options["--clock-mux"])
    vendors = files_of(options.get("--model", []))
    theirs = looked_at(macro, vendors)
    texts, out = texts_of(macro, word, kind, vendors), pathlib.Path(folder)
    left = left_there(macro, texts, out)
    write_own(out, texts, [*memory_files, options["--macro"], *vendors])
    tell_left(macro, word, theirs or left)
    return 0
