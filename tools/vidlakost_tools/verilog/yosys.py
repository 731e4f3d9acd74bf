"""What the tools that ask Yosys share: names that its scripts can carry, and what it says."""
from __future__ import annotations

import dataclasses
import json
import os
import pathlib
import re
import shutil
from typing import Any, Mapping

from vidlakost_tools import bounded
from vidlakost_tools.temporary import folder_of_its_own
from vidlakost_tools.text import LARGE_BYTES, Path, beside, lines_of, read_bytes, shown, template
from vidlakost_tools.tool import ToolError, identifier
from vidlakost_tools.verilog import known_cells, misread, simulation, two_meanings, unread
from vidlakost_tools.verilog.rtlil import driven_constant, driven_twice, without_initial, written_contents
from vidlakost_tools.verilog.source_texts import OPENED, Sources, asked, blanked, opened, with_included, with_members


def want() -> None:
    if shutil.which("yosys") is None:
        raise ToolError("yosys is not on the PATH")


def quoted(path: Path) -> str:
    """A file's name as a script carries it. What a script would read as more than a name is refused."""
    name = str(path)
    if not re.fullmatch(r"[\w./ +=,@%:-]+", name) or not name.isprintable():
        raise ToolError(f"{shown(name)}: a name for Yosys may have letters, digits, blanks and ./_+=,@%:- only")
    return f'"./{name}"' if name[0] in "-+" else f'"{name}"'


def top_of(options: Mapping[str, Any]) -> str:
    """What `hierarchy` is told of the top."""
    if "--top" not in options:
        return "-auto-top"
    return f"-top {identifier(options['--top'], 'what --top names')}"


def sources_of(files: list[str]) -> str:
    """The sources as a script carries them; each has to be a file that is there, and may be a text of any bytes."""
    for file in files:
        read_bytes(file, LARGE_BYTES)
    return " ".join(map(quoted, files))


def libraries_of(options: Mapping[str, Any]) -> str:
    """The script that reads the libraries of cells that `--liberty` names."""
    return "".join(f"read_liberty -ignore_miss_func {sources_of([file])}\n" for file in options.get("--liberty", []))


MODEL = re.compile(r"^module (\w+)\(.*?^endmodule$", re.MULTILINE | re.DOTALL)


def library_models(options: Mapping[str, Any], texts: list[str]) -> str:
    """The cells of the libraries that texts name, in Verilog, as Yosys reads their functions."""
    if not options.get("--liberty"):
        return ""
    with folder_of_its_own() as folder:
        run(f"{libraries_of(options)}write_verilog -noattr {quoted(folder / 'cells.v')}\n", folder, "-q")
        written = (folder / "cells.v").read_text(encoding="utf-8", errors="replace")
    named = set(re.findall(r"\w+", " ".join(texts)))
    return "\n\n".join(match[0] for match in MODEL.finditer(written) if match[1] in named) + "\n"


class Slow(ToolError):
    """Yosys took longer than it may."""


# how long a script may take, and how many bytes of memory
SECONDS = 300.0
MEMORY = 4 << 30
# what a log says of the step at which it is
AT = re.compile(
    r"(Executing|Generating|Importing|Setting up|Solving|Parsing|Optimizing|Running|Finding|Mapping) [^\n]*"
)


def how_far(log: pathlib.Path) -> str:
    """The step at which a log is."""
    try:
        with open(log, "rb") as file:
            file.seek(max(0, os.path.getsize(log) - 65536))
            text = file.read().decode("utf-8", "replace")
    except OSError:
        return ""
    last = [match[0] for match in AT.finditer(text)][-1:]
    return last[0].rstrip(".:").replace(f"{log.parent}/", "")[:120] if last else ""


def run(script: str, folder: pathlib.Path, *flags: str, seconds: float | None = None) -> list[str]:
    """The lines that Yosys says of a script; where it fails its error is told, with the warnings before it. It is ended
    when it takes too long."""
    file, log = folder / "script.ys", folder / "log"
    file.write_text(script)
    bounds = bounded.Bounds(seconds or SECONDS, MEMORY)
    words = ["yosys", *flags, "-L", str(log), "-s", str(file)]
    try:
        done = bounded.run(
            bounded.Call(words, "Yosys", bounds, doing="Yosys is at work", how_far=lambda _: how_far(log))
        )
    except bounded.Stopped as error:
        if error.bound == "limit":
            raise Slow(str(error), 1) from error
        why = "an endless loop in the sources looks like this"
        told = str(error).split("\n", maxsplit=1)[0].replace(" and was stopped", "")
        raise Slow(f"{told} ({how_far(log)}), and was stopped; {why}", 1) from error
    # what a reader can't find says nothing to him
    lines = lines_of(bounded.without(folder, done.said))
    if done.status:
        errors = [line for line in lines if "ERROR" in line] or lines[-1:] or ["no reason is given"]
        raise ToolError("\n".join([f"yosys refuses it: {errors[0]}", *warnings_in(lines)]), 1)
    return lines


@dataclasses.dataclass
class Gates:
    """What a module becomes: cells, flip-flops among them, and the depth of its longest path."""

    cells: int
    flip_flops: int
    depth: int


def gates_of(module: pathlib.Path, library: str) -> Gates:
    """The gates of the module of a file, of a library of `abc -g`."""
    script = f"read_verilog {quoted(module)}; synth -flatten; abc -g {library}; opt_clean; stat; ltp -noff"
    done = bounded.run(bounded.Call(["yosys", "-p", script], "Yosys", bounded.Bounds(SECONDS, MEMORY)))
    counted = re.search(r".*Number of cells:\s+(\d+)(.*)", done.said, re.DOTALL)
    depth = re.search(r"length=(\d+)", done.said)
    if done.status or counted is None or depth is None:
        last = lines_of(done.said.strip())[-1:] or ["no reason is given"]
        raise ToolError(f"yosys fails: {last[0]}", 1)
    flops = sum(int(count) for count in re.findall(r"\$_S?DFF\S*\s+(\d+)", counted[2]))
    return Gates(int(counted[1]), flops, int(depth[1]))


def warnings_in(lines: list[str]) -> list[str]:
    """The warnings among the lines, each with the indented lines behind it."""
    found: list[str] = []
    inside = False
    for line in lines:
        # Yosys' own names, of what it makes of a memory, say nothing to whoever wrote the sources
        inside = "Warning: " in line and not re.search(r"Wire [^ ]+\.\$", line) or inside and line.startswith("    ")
        if inside and line not in found:
            found.append(line)
    return found


# what nothing drives is open: it may have any number in any cycle
OPEN = "setundef -undriven -anyseq\n"
# So is a bit beyond the word of which a part is selected: Yosys' own passes take any other bit for it. A part that is
# always within its word stays as it is. And so is what is written to a part that begins below its word, which Yosys
# drops whole.
BEYOND = beside(__file__, "yosys_beyond.v")
# A shift by 2 ** 31 or more leaves nothing, or the sign. Yosys' own passes take such a constant for a negative number,
# also where it becomes one late, so the amount's bits from 31 on are looked at beside the shift, unless they are 0
# already.
FAR = beside(__file__, "yosys_far.v")
# What is divided by 0 is open. The cell itself stays, so that the pass goes over each once.
BY_ZERO = template(__file__, "yosys_by_zero.v")
DIVIDED = """    if (_TECHMAP_CELLTYPE_ == "{kind}")
      \\{kind} #(.A_SIGNED(A_SIGNED), .B_SIGNED(B_SIGNED), .A_WIDTH(A_WIDTH), .B_WIDTH(B_WIDTH), .Y_WIDTH(Y_WIDTH))
        words(.A(A), .B(one), .Y(word));"""
DIVISIONS = ("$div", "$mod", "$divfloor", "$modfloor")


def read(files: list[str], options: Mapping[str, Any], folder: pathlib.Path) -> Sources:
    """The sources; a signal with two drivers is refused."""
    asks = asked(files)
    misread.refuse((file, blanked(source)[0]) for file, source in with_included(files) if not is_in(folder, file))
    given, raw, plain, first, parts = (
        folder / name for name in ("given.il", "raw.il", "plain.il", "first.il", "first.json")
    )
    cells = known_cells.cells_of(options, [blanked(source)[0] for _, source in with_included(files)])
    (folder / "cells.v").write_text(cells)
    # without -nodpi Yosys would run a function of C that a source names, in its own process; and a module with the name
    # of one of its cells would take the place of each such cell
    copies, rewritten = with_members(files, folder)
    more = [str(folder / "cells.v")] if cells else []
    folders = " ".join(
        f"-I{quoted(place)}" for place in dict.fromkeys(os.path.dirname(file) or "." for file in files) if rewritten
    )
    reading = (
        f"read_verilog -sv -icells -nodpi {folders} {sources_of([*copies, *more])}\nwrite_rtlil"
        f" {quoted(given)}\n{libraries_of(options)}"
    )
    reading += f"select -assert-none $*\nhierarchy -check {top_of(options)}\n"
    try:
        said = run(f"{reading}write_rtlil {quoted(raw)}\n", folder, "-q", "-E", str(folder / OPENED))
    except ToolError as error:
        if "not empty: $*" in str(error):
            raise ToolError(taken_name(files), 1) from error
        why = unread.reason([(file, blanked(source)[0]) for file, source in with_included(files)], str(error))
        if why is None:
            raise
        raise ToolError(f"{why}\n{error}", error.status) from error
    refuse_rounded(said)
    whole = raw.read_bytes().decode("utf-8", "surrogateescape")
    two_meanings.refuse_off(options.get("--liberty", []), whole)
    for file, source in with_included(files):
        for text in blanked(source):
            two_meanings.refuse_off_gates(file, text, whole)
    text, had = without_initial(whole)
    plain.write_bytes(two_meanings.open_rows(text).encode("utf-8", "surrogateescape"))
    begin = f"read_rtlil {quoted(plain)}\nsetattr -mod -unset keep_hierarchy\nproc -noopt -norom\nflatten\n"
    try:
        said += run(f"{begin}write_rtlil {quoted(first)}\nwrite_json {quoted(parts)}\ncheck\n", folder, "-q")
    except ToolError as error:
        raise ToolError(unread.latch(str(error)) or str(error), error.status) from error
    name, module = top_module(parts)
    try:
        two_meanings.refuse_two_blocks(module)
    except ToolError as error:
        # a driver without a line is one that Yosys made of a form that it reads otherwise
        texts = [(file, blanked(source)[0]) for file, source in with_included(files)]
        why = unread.without_line(texts, str(error)) if re.search(r":0\b", str(error)) else None
        raise ToolError(f"{why}\n{error}" if why else str(error), error.status) from error
    if "--top" not in options:
        refuse_other_top(given.read_bytes().decode("utf-8", "replace"), name)
    twice = driven_twice(first.read_bytes().decode("utf-8", "replace")) or driven_constant(module)
    if twice:
        raise ToolError(twice, 1)
    # what is made of VHDL is no source of anybody's
    own = [(file, source) for file, source in with_included(files) if not is_in(folder, file)]
    warnings = [*asks, *rewritten, *warnings_in(said), *unread.within_parts(said)]
    warnings += [one for file, source in own for one in simulation.warnings_of(file, source, blanked(source)[0])]
    warnings += dict.fromkeys(two_meanings.beyond_words(module))
    dropped = written_contents(module)
    if had or dropped:
        places = [place for file, source in own for place in simulation.initial_places(file, blanked(source)[0])]
        warnings.append("initial values are ignored" + (f" ({', '.join(places[:4])})" if places else ""))
    beyond, far, zero = folder / "beyond.v", folder / "far.v", folder / "zero.v"
    beyond.write_text(BEYOND)
    far.write_text(FAR)
    zero.write_text(BY_ZERO.substitute(cells="\n".join(DIVIDED.format(kind=kind) for kind in DIVISIONS)))
    script = f"{begin}{dropped}setattr -unset init w:*\n{OPEN}techmap -map {quoted(beyond)} t:$shiftx t:$shift\n"
    script += f"techmap -map {quoted(far)} t:$shl t:$shr t:$sshl t:$sshr\n"
    script += f"techmap -max_iter 1 -map {quoted(zero)} {' '.join(f't:{kind}' for kind in DIVISIONS)}\ncheck -assert\n"
    return Sources(script, name, module, warnings, opened(folder))


def taken_name(files: list[str]) -> str:
    """What there is to say of a module that would take the place of one of Yosys' own cells or modules, or of no module
    at all, of which Yosys says the same."""
    if not any(re.search(r"\bmodule\b", blanked(source)[0]) for _, source in with_included(files)):
        return "the sources have no module"
    found = [
        (file, source, match)
        for file, source in with_included(files)
        for match in re.finditer(r"\bmodule\s+\\(\$\S+)", source)
    ]
    places = [
        f"{shown(file)}:{source.count(chr(10), 0, match.start()) + 1}: {shown(match[1])}: "
        for file, source, match in found
    ]
    why = "a module has a name that begins with $, as Yosys' own cells have, and would take their place"
    return f"{places[0] if places else ''}{why}; a netlist that is flattened has none, or another name says the same"


def is_in(folder: pathlib.Path, file: str) -> bool:
    return folder.resolve() in pathlib.Path(file).resolve().parents


def refuse_rounded(said: list[str]) -> None:
    """Refuses a number with a fraction of which Yosys makes 0: as a condition it is true to any other tool."""
    for line in said:
        found = re.match(r"(.*?):? ?Warning: converting real value (\S+) to binary 0+\.", line)
        if found and float(found[2]):
            raise ToolError(f"{found[1]}: the number {found[2]} is not 0, but Yosys rounds it to 0", 1)


def refuse_other_top(rtlil: str, top: str) -> None:
    """Refuses a top that Yosys chose where it is a part of another module, or another top has its ports too."""
    ports: dict[str, set[str]] = {}
    parts: set[str] = set()
    for text in re.split(r"^module ", rtlil, flags=re.MULTILINE)[1:]:
        name = text.split("\n", 1)[0]
        ports[name] = set(re.findall(r"^  wire (?:.* )?(?:input|output|inout) [0-9]+ (\S+)$", text, re.MULTILINE))
        parts |= set(re.findall(r"^  cell (?:\$array:[0-9:]+)?(\S+) ", text, re.MULTILINE))
    chosen = f"\\{top}"
    same = [name for name in ports if name not in parts | {chosen} and ports[name] >= ports.get(chosen, set())]
    if chosen in parts or same:
        other = f"{shown(same[0][1:])} has its ports too" if same else "it is a part of another module"
        raise ToolError(f"{shown(top)} may not be the top that you mean, since {other}: name it with --top")


def top_module(path: pathlib.Path) -> tuple[str, dict[str, Any]]:
    """The name of the top and what it is made of, without the cells in which newer versions note where a part began."""
    modules = json.loads(path.read_bytes().decode("utf-8", "replace"))["modules"]
    name = next((name for name, module in modules.items() if "top" in module["attributes"]), None)
    if name is None:
        raise ToolError("all modules of the sources are empty, so none is the top; name one with --top", 1)
    module = modules[name]
    cells = {label: cell for label, cell in module["cells"].items() if cell["type"] != "$scopeinfo"}
    return name, {**module, "cells": cells}
