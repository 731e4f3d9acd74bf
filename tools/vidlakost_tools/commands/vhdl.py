"""A module of the subset as VHDL-93.

usage: vidlakost vhdl MODULE.v FOLDER                    NAME.vhd, an entity with the module's ports
       vidlakost vhdl MODULE.v FOLDER MARCH MEMORY       also NAME_tb.vhd, which compares it with the march's commands
       vidlakost vhdl --help

A port of one bit is std_logic, and any other is std_logic_vector. A name is in backslashes if VHDL doesn't allow it,
or if it differs from another only in case. Unknown values stay unknown, as in Verilog. vhdl reads no file of a chip,
since that has several modules.
    cd FOLDER && ghdl -a NAME.vhd NAME_tb.vhd && ghdl -e NAME_tb && ghdl -r NAME_tb"""
from __future__ import annotations

import pathlib

from vidlakost_tools.files import marked, write_own
from vidlakost_tools.program import take_module, vectors_of
from vidlakost_tools.text import lines_of, read_text
from vidlakost_tools.texts.march import march_of
from vidlakost_tools.texts.memory import read_memory
from vidlakost_tools.tool import ToolError, identifier, usage_of, words_of
from vidlakost_tools.verilog import vhdl_text
from vidlakost_tools.verilog.syntax import Module, Reader, Unread


def read_module(path: str) -> Module:
    """The module of a file; the program has to accept it."""
    text = read_text(path)
    take_module(path, text)
    try:
        module = Reader(text).module()
    except Unread as error:
        line = len(lines_of(text[: error.at] + "."))
        raise ToolError(f"{path}:{line}: this is not a module of the subset: {error}") from error
    identifier(module.name, "the name of the module")
    return module


def main(arguments: list[str]) -> int:
    words, _ = words_of(__doc__, arguments, {}, 2, 4)
    if len(words) == 3:
        raise ToolError(f"give both a march and a memory\n{usage_of(__doc__)}")
    module, out = read_module(words[0]), pathlib.Path(words[1])
    made = {f"{module.name}.vhd": vhdl_text.vhdl(module)}
    if len(words) == 4:
        elements, memory = march_of(words[2])[1], read_memory(words[3])
        made[f"{module.name}_tb.vhd"] = vhdl_text.bench(module, elements, memory)
        lines = vhdl_text.rows(elements, memory, vectors_of(words[2], words[3]))
        made[f"{module.name}_cycles.txt"] = "".join(f"{line}\n" for line in lines)
    write_own(out, marked("vhdl", made), words[:1] + words[2:])
    return 0
