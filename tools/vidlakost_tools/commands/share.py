"""One controller for several equal memories.

usage: vidlakost share MEMORY N FOLDER
       vidlakost share --help

share writes to FOLDER
    NAME_share.v          the module NAME_share with the ports of a self-test; instead of rdata and fail it has rdata_0
                          to rdata_N-1, and N bits of `fail`
    NAME_share_tb.sv      a testbench
    NAME_share_model.v    memories for that testbench
N is 2 to 16. All N memories get the same en, we, addr and wdata, so they draw their power at once. Each has a
comparator and a bit of `fail` of its own. Put the module NAME_bist, which `compile` writes, in the folder:
    cd FOLDER && iverilog -g2012 -o tb NAME_share_tb.sv NAME_share.v NAME_share_model.v NAME_bist.v && vvp -n tb
    vvp -n tb +planted +unit=1 +address=3 +bit=0 +value=1"""
from __future__ import annotations

import pathlib

from vidlakost_tools.chip import one_controller as shared
from vidlakost_tools.files import marked, write_own
from vidlakost_tools.texts.memory import read_memory
from vidlakost_tools.tool import ToolError, number_of, words_of


def main(arguments: list[str]) -> int:
    (path, number, folder), _ = words_of(__doc__, arguments, {}, 3, 3)
    count = number_of(number, "N", 2)
    if count > 16:
        raise ToolError(f"N is 2 to 16, and not {count}")
    memory, out = read_memory(path), pathlib.Path(folder)
    write_own(out, marked("share", shared.texts(memory, count)), [path])
    return 0
