"""A chip whose memories stay where they are: a testbench of their bundles, and a proof that its use is what it was.

usage: vidlakost places PLACES LIST|CHIPFILE PINS.. FOLDER [--no-simulate] [--json FILE]
       vidlakost places --help

FOLDER is that of `vidlakost top --in-place`; LIST, CHIPFILE and PINS are the words of that call. PLACES has a line for
each of these (`#` begins a comment):
    places 1                       the version
    chip MODULE                    the top of the chip
    source FILE                    a source of the chip, in which the modules WORD_in_place replace the macros
    before FILE                    a source of the chip as it was, with its macros
    at MEMORY PATH [was PATH]      the instance of a memory, from the top on, as core.bank.words; was, if the instance
                                   of its macro had another name
    access PATH [CLOCK]            the instance of NAME_access; in NAME_tap or NAME_apb its name is tested. CLOCK is the
                                   port whose clock it has, which is compared if it is named
    clock PORT NANOSECONDS         a clock of the chip, with its period
    set PORT VALUE                 an input that keeps a value; all others are 0 in use, and unknown in test
    start PORT, done PORT, fail PORT           the ports that start the test and show its state, a line for each; or
    tap TCK TMS TDI TRST_N TDO [TDO_EN]
                                   those of the TAP that `vidlakost access --in-place --jtag` writes. Without TDO_EN TDO
                                   has to be off outside scans
    under BITS CODE                the TAP is the chip's own: so many bits has its instruction, and CODE, in hexadecimal
                                   digits, that by which it selects NAME_register of `access --in-place --under-tap`
The lines source, before, at, clock and set may come many times. places writes to FOLDER
    NAME_places_tb.sv   a testbench of the chip. First it compares both ends of each bit of each bundle, one bit at a
                        time. Then it runs the test by the ports of the chip, and compares it with what the sequencer
                        has to do. With +planted it makes the first, the middle and the last bit of each memory wrong in
                        turn, and then a bit of all at once. The test has to find each there and nowhere else, with its
                        first failure. +planted=MEMORY plants at that memory alone
    NAME_places.f       what a simulator has to read
If PLACES has lines `before`, Yosys proves that in use each pin of each memory, each flip-flop and each output of the
chip has what it had before. places prints each one that differs; the status is then 1. Where all is proved Icarus
clocks both chips, for 20,000 random cycles of use, with memories that answer random words; places refuses a pin of a
memory or an output that differs, since the sources then mean two things. The last line is `places: right`, `wrong`,
`unknown` or `refused`, and what was seen. Without Icarus it is `places: unknown: right as Yosys reads it, not
simulated`, with the status 1; with --no-simulate it is `places: right as Yosys reads it, not simulated`, with the
status 0. --json writes the verdict to FILE, for scripts. Without Yosys places says that nothing was proved.
    cd FOLDER && iverilog -g2012 -o tb -c NAME_places.f && vvp -n tb && vvp -n tb +planted"""
from __future__ import annotations

import os
import pathlib
import shutil

from vidlakost_tools.audit.beside_icarus import Differs, Unclocked
from vidlakost_tools.audit.outcome import READ_ALONE, Outcome
from vidlakost_tools.audit.witness import refusal
from vidlakost_tools.chip import system as soc
from vidlakost_tools.collar.names import MARK
from vidlakost_tools.files import write_own
from vidlakost_tools.in_place import places_beside, places_proof
from vidlakost_tools.in_place.files import depth_in
from vidlakost_tools.in_place.place_list import Places, inputs_of, read_places
from vidlakost_tools.in_place.places_bench import ChipBench
from vidlakost_tools.in_place.sequencer import PlaceTarget, of_places
from vidlakost_tools.temporary import folder_of_its_own
from vidlakost_tools.text import lines_of, read_described, shown
from vidlakost_tools.tool import ToolError, refuse_inputs, tell, words_of


USUAL = "each memory, each flip-flop and each output has what it had"


def listed(folder: pathlib.Path, target: PlaceTarget, places: Places) -> list[str]:
    """What a simulator has to read, from the folder on."""
    files = folder / "files.f"
    if not files.is_file() or f"{target.name}_access.v" not in lines_of(read_described(files)):
        told = f"{folder} has no {target.name}_access.v in its files.f"
        raise ToolError(f"{told}: give the folder that `vidlakost top --in-place` wrote")
    own = [line for line in lines_of(read_described(files)) if line and not line.startswith("//")]
    own_tap, *others = (f"{target.name}_{what}.v" for what in ("tap", "register", "apb", "cross"))
    reach, needed = [own_tap, *others], others[0] if places.under[0] else own_tap
    if places.has_tap and not (folder / needed).is_file():
        way = "--under-tap" if places.under[0] else "--jtag"
        raise ToolError(f"{folder} has no {needed}: `vidlakost access --in-place {way}` writes it")
    found = [name for name in reach if (folder / name).is_file()]
    sources = [os.path.relpath(os.path.realpath(file), os.path.realpath(folder)) for file in places.sources]
    odd = next((name for name in sources if any(letter in name for letter in " \t\"#")), None)
    if odd:
        raise ToolError(f"a list of files can't have the name {shown(odd)}")
    return [f"{target.name}_places_tb.sv", *sources, *found, *own]


def main(arguments: list[str]) -> int:
    allowed = {"--no-simulate": 0, "--json": 1}
    (path, system_file, *pins, name), options = words_of(__doc__, arguments, allowed, 4)
    folder, system = pathlib.Path(name), soc.read_system(system_file)
    soc.give_collars(system, pins)
    system.keep(depth_in(folder, system))
    target, places = of_places(system), read_places(path, system)
    read = [path, system_file, *pins, *inputs_of(places)]
    refuse_inputs(options.get("--json"), [("what is read", file) for file in read])
    texts = {f"{target.name}_places_tb.sv": ChipBench(target, places).text()}
    texts[f"{target.name}_places.f"] = "\n".join([f"{MARK} places", *listed(folder, target, places), ""])
    write_own(folder, texts, read)
    if not places.before:
        tell("places: there is no line 'before', so nothing is proved about the use of the chip")
        return 0
    if shutil.which("yosys") is None:
        tell("places: yosys is not on the PATH, so nothing is proved about the use of the chip")
        return 0
    try:
        outcome = judged(target, places, "--no-simulate" in options)
    except Differs as error:
        tell(f"places: {error}")
        outcome = refusal("places", error)
    outcome.write(options.get("--json"), read)
    print(outcome.line())
    return outcome.status


def judged(target: PlaceTarget, places: Places, is_alone: bool) -> Outcome:
    """The verdict on the use of the chip."""
    places_proof.refuse_misread([*places.before, *places.sources])
    with folder_of_its_own() as folder:
        proof = places_proof.Proof(target, places, folder)
        found = proof.differences()
        if places.under[0]:
            tell(f"places: what stands before {places.start['tdo']} is not compared, since the register leaves by it")
        print("\n".join([f"{target.name}: in use {line}" for line in found or [USUAL]]))
        by_yosys = {"Yosys": found[0] if found else USUAL}
        if found:
            more = f", and {len(found) - 1} more" if len(found) > 1 else ""
            return Outcome("places", "wrong", f"in use {found[0]}{more}", witnesses=by_yosys)
        if is_alone:
            return Outcome("places", "right", is_alone=True, witnesses=by_yosys)
        try:
            cycles, doubt = places_beside.compared(proof, *proof.sides())
        except Unclocked as error:
            tell(f"places: no simulator has seen the sources: {error}")
            return Outcome("places", "unknown", READ_ALONE, witnesses=by_yosys)
    saw = {**by_yosys, "Icarus": doubt or f"equal in {cycles:,} cycles of use"}
    if doubt:
        return Outcome("places", "unknown", f"by Icarus {doubt}", witnesses=saw)
    print(f"beside Icarus: equal in {cycles:,} cycles of use")
    return Outcome("places", "right", f"in use {USUAL}, simulated by Icarus", witnesses=saw)
