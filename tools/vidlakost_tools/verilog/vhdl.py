"""VHDL as Verilog, made by GHDL."""
from __future__ import annotations

import pathlib
import re
import shutil
import string
from typing import Any

from vidlakost_tools import bounded
from vidlakost_tools.temporary import folder_of_its_own
from vidlakost_tools.text import SOURCE_BYTES, lines_of, read_described
from vidlakost_tools.tool import ToolError, identifier
from vidlakost_tools.verilog.vhdl_source import refuse_reaching

# what names and the commas between them are of
IN_NAMES = string.ascii_letters + string.digits + "_ ,"
# what GHDL makes of an assertion, which is for simulations
ASSERTED = re.compile(r'^ *always @\*\n *if \([^\n]*\)\n *\$(?:fatal|error|warning)\([^\n]*\);\n', re.MULTILINE)
# how long GHDL may take
SECONDS = 600


def is_vhdl(file: str) -> bool:
    return pathlib.Path(file).suffix.lower() in (".vhd", ".vhdl")


def verilog_of(files: list[str], options: dict[str, Any], folder: pathlib.Path) -> tuple[list[str], dict[str, Any]]:
    """The files with GHDL's Verilog in place of those in VHDL; the top is then its last entity, or the one that is
    named."""
    vhdl = [file for file in files if is_vhdl(file)]
    if not vhdl:
        return files, options
    if shutil.which("ghdl") is None:
        raise ToolError(f"{vhdl[0]} is VHDL, and ghdl, which turns it into Verilog, is not on the PATH")
    texts = [read_described(file, SOURCE_BYTES) for file in vhdl]
    for file, text in zip(vhdl, texts):
        refuse_reaching(file, text)
    entities = [
        name for text in texts for name in re.findall(r"^[ \t]*entity\s+(\w+)\s+is", text, re.MULTILINE | re.IGNORECASE)
    ]
    if not entities:
        raise ToolError(f"{vhdl[-1]} has no entity")
    is_mixed = len(vhdl) < len(files)
    if is_mixed and "--top" not in options:
        raise ToolError("some sources are Verilog and some VHDL, so name the top with --top")
    top = identifier(options.get("--top", entities[-1]), "the top")
    # a top in Verilog has the last entity as a part
    entity = entities[-1] if is_mixed and top.lower() not in map(str.lower, entities) else top
    names = [str(pathlib.Path(file).resolve()) for file in vhdl]
    text = with_defaults(synthesized("verilog", names, entity, folder), synthesized("vhdl", names, entity, folder))
    text = placed(ASSERTED.sub("", text), dict(zip(vhdl, texts)))
    modules = [name for name in re.findall(r"^module (\w+)", text, re.MULTILINE) if name.lower() == top.lower()]
    made = folder / "vhdl.v"
    made.write_text(text, encoding="utf-8")
    return [*(file for file in files if file not in vhdl), str(made)], {**options, "--top": (modules or [top])[-1]}


def synthesized(form: str, names: list[str], top: str, folder: pathlib.Path) -> str:
    """What GHDL makes of an entity, as a text of one of its forms. It may change nothing but what it leaves in a folder
    of its own, since it opens the files that sources name."""
    with folder_of_its_own(folder) as own:
        out = own / "out"
        out.touch()
        words = ["ghdl", "--synth", "--std=08", f"--workdir={own}", f"--out={form}", *names, "-e", top]
        doing, bounds = f"GHDL makes {form} of {top}", bounded.Bounds(SECONDS)
        done = bounded.run(
            bounded.Call(words, "ghdl", bounds, own, own, is_apart=True, out=out, doing=doing, how_far=written)
        )
        text = out.read_bytes().decode("utf-8", "replace")
    if done.status:
        said = lines_of(done.errors)
        raise ToolError("\n".join([f"ghdl refuses it: {said[0] if said else 'no reason is given'}", *said[1:8]]), 1)
    return text


def written(out: pathlib.Path) -> str:
    return f"{out.stat().st_size:,} bytes by now"


def declared_at(texts: dict[str, str]) -> dict[str, tuple[str, int]]:
    """Where VHDL declares each name first, as a signal, a variable or a port: its file and its line."""
    found: dict[str, tuple[str, int]] = {}
    for file, text in texts.items():
        for number, line in enumerate(lines_of(re.sub(r"--[^\n]*", "", text)), 1):
            for before in re.split(":(?!=)", line)[:-1]:
                names = before.rstrip()
                for name in re.findall(r"\w+", names[len(names.rstrip(IN_NAMES)) :]):
                    found.setdefault(name.lower(), (file, number))
    return found


def placed(verilog: str, texts: dict[str, str]) -> str:
    """GHDL's Verilog whose declarations have the places of the sources, where a name of the sources has stayed, or is
    that of the register behind it; a file whose name `line` can't carry has none."""
    places = declared_at({file: text for file, text in texts.items() if re.fullmatch(r'[^\s"\\]+', file)})
    for name, register in re.findall(r"^\s*assign (\w+) = (n\d+_q);", verilog, re.MULTILINE):
        if name.lower() in places:
            places.setdefault(register, places[name.lower()])
    lines: list[str] = []
    for number, line in enumerate(lines_of(verilog), 1):
        declares = re.fullmatch(r"\s*(?:wire|reg) (?:\[\d+:\d+\] )?(\w+)(?: = .*)?;", line)
        place = places.get(declares[1].lower()) if declares else None
        lines += [f'`line {place[1]} "{place[0]}" 0', line, f'`line {number + 1} "vhdl.v" 0'] if place else [line]
    return "\n".join([*lines, ""])


def literal_of(value: str) -> str | None:
    """A value of GHDL's VHDL in its Verilog; None of one that is more than a constant or a name."""
    if re.fullmatch(r"\"[01X]+\"|'[01X]'", value):
        return f"{len(value) - 2}'b{value[1:-1].lower()}"
    return value[len("wrap_") :] if re.fullmatch(r"wrap_\w+", value) else value if re.fullmatch(r"\w+", value) else None


def with_defaults(verilog: str, vhdl: str) -> str:
    """GHDL's Verilog, in whose `case` some versions leave out what stands behind `when others`, with it. Where it can't
    be read, the signal is a latch, which is refused."""
    others = {}
    for name, body in re.findall(r"^\s*with \w+ select (\w+) <=(.*?);", vhdl, re.MULTILINE | re.DOTALL):
        last = re.search(r"(\S+) when others\s*$", body)
        value = literal_of(last[1]) if last else None
        if value is not None:
            others[name] = value

    def whole(match: re.Match[str]) -> str:
        target = re.search(r": (\w+) <=", match[0])
        if "default:" in match[0] or target is None or target[1] not in others:
            return match[0]
        return match[0][: -len("endcase")] + f"  default: {target[1]} <= {others[target[1]]};\n    endcase"

    return re.sub(r"\bcase \(.*?\bendcase", whole, verilog, flags=re.DOTALL)
