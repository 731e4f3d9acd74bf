"""Where the wrong reads of a log are in the array, and what may have caused them.

usage: vidlakost bitmap LOG MARCH MEMORY [--mux M] [--svg PICTURE] [--csv TABLE] [--list FAULTS]
       vidlakost bitmap LOG CHIPFILE --unit U [--mux M] [--svg PICTURE] [--csv TABLE] [--list FAULTS]
       vidlakost bitmap LOG LIST|CHIPFILE PINS.. --unit U [--second | --in-place] [--mux M] [--svg PICTURE]
                        [--csv TABLE] [--list FAULTS]
       vidlakost bitmap --help

LOG has a line `cycle C expected X returned W` for each wrong read. The testbench NAME_log_tb.sv of `vidlakost access
--log` prints such lines, and a line `more` if there was no room for further reads. In the log of a chip both kinds of
lines begin with `unit U`. bitmap skips other lines. A log has at most 64 MiB. If a line expects another word than this
march expects of this memory, the log belongs to others, and bitmap refuses it. The cycles count as for `vidlakost
locate`; for a chip they are the chip's.
With PINS the log is of the whole chip that `vidlakost top` joined, and the cycles are those of the whole. If the chip
has second ports, the test of a memory may run twice there. Then bitmap reads the log as that of the first run, and with
--second as that of the second run. With --in-place the log is of memories in their places, and each begins with a cycle
of its own; U may be a memory's name, and has to be where a macro has the words of two.
--mux M says that a row of the array has M words (1 by default). A word is in the row of its physical index divided by
M. Its bit B is in column B * M + index modulo M.
bitmap prints the shape (cell, pair, row, column, other). Then it prints each wrong cell, with row, column, index,
address and bit, and how often it was wrong. With a list it also prints what gives exactly this log: primitives of the
list, and defects of lines, bits and addresses, as `vidlakost diagnosis` does."""
from __future__ import annotations

import pathlib
from collections import Counter
from typing import Iterator

from vidlakost_tools.diagnosis.answer import answer_of
from vidlakost_tools.diagnosis.asked import asked_of, faults_of, logged
from vidlakost_tools.diagnosis.tester import check_mux
from vidlakost_tools.folder import write_all
from vidlakost_tools.pages.drawing import INK, SOFT, document, text
from vidlakost_tools.texts.memory import Memory
from vidlakost_tools.texts.reads import Read
from vidlakost_tools.tool import number_of, refuse_inputs, telling, words_of


def cells_of(reads: list[tuple[Read, int]], memory: Memory) -> Counter[tuple[int, int]]:
    """The wrong cells, as index and bit, and how often each was wrong."""
    found: Counter[tuple[int, int]] = Counter()
    for read, word in reads:
        found.update((read.index, bit) for bit in range(memory.bits) if (read.expected ^ word) >> bit & 1)
    return found


def place_of(index: int, bit: int, mux: int) -> tuple[int, int]:
    """The row and the column of a cell."""
    return index // mux, bit * mux + index % mux


def counted(count: int, what: str) -> str:
    return f"{count} {what}{'' if count == 1 else 's'}"


def shape_of(places: set[tuple[int, int]]) -> str:
    """What the wrong cells look like."""
    rows, columns = {row for row, _ in places}, {column for _, column in places}
    if len(places) == 1:
        return "cell"
    if len(places) == 2:
        return "pair"
    if len(rows) == 1:
        return "row"
    return "column" if len(columns) == 1 else "other"


def picture(cells: Counter[tuple[int, int]], memory: Memory, mux: int, shape: str) -> str:
    """The array with its wrong cells; a cell is drawn at least two units wide."""
    rows, columns = -(-memory.words // mux), memory.bits * mux
    wide, high = min(720, columns * 16), min(480, rows * 16)
    left, top = 60, 44
    made = [
        text(left, 20, f"{memory.name}: {shape}, {len(cells)} of {memory.words * memory.bits:,} cells", 12),
        f'<rect x="{left}" y="{top}" width="{wide}" height="{high}" fill="none" stroke="{INK}"/>',
        text(left - 6, top + 10, "row 0", 10, "end", SOFT),
        text(left - 6, top + high, str(rows - 1), 10, "end", SOFT),
        text(left, top - 6, "column 0", 10, "start", SOFT),
        text(left + wide, top - 6, str(columns - 1), 10, "end", SOFT),
    ]
    for index, bit in sorted(cells):
        row, column = place_of(index, bit, mux)
        x, y = left + column * wide / columns, top + row * high / rows
        size = max(2, wide / columns), max(2, high / rows)
        made.append(f'<rect x="{x:g}" y="{y:g}" width="{size[0]:g}" height="{size[1]:g}" fill="#b3261e"/>')
    return document(left + wide + 20, top + high + 20, made)


def lines_of_cells(cells: Counter[tuple[int, int]], memory: Memory, mux: int) -> Iterator[tuple[int, ...]]:
    """For each cell: row, column, index, address, bit and count."""
    for (index, bit), count in sorted(cells.items(), key=lambda item: (place_of(item[0][0], item[0][1], mux), item[0])):
        row, column = place_of(index, bit, mux)
        yield row, column, index, memory.address_of(index), bit, count


def main(arguments: list[str]) -> int:
    allowed = {"--mux": 1, "--svg": 1, "--csv": 1, "--list": 1, "--unit": 1, "--second": 0, "--in-place": 0}
    words, options = words_of(__doc__, arguments, allowed, 2)
    asked = asked_of(words, options, __doc__)
    memory = asked.memory
    mux = number_of(options.get("--mux", "1"), "--mux", 1)
    check_mux(memory, mux)
    inputs = [("what is read", name) for name in (*asked.files, *filter(None, [options.get("--list")]))]
    refuse_inputs(options.get("--svg"), inputs)
    refuse_inputs(options.get("--csv"), [*inputs, *(("the picture", name) for name in [options.get("--svg")] if name)])
    log = logged(words[0], asked)
    cells = cells_of(log.reads, memory)
    shape = shape_of({place_of(index, bit, mux) for index, bit in cells})
    further = ", and more followed" if log.more else ""
    print(f"{shape}: {counted(len(cells), 'cell')} in {counted(len(log.reads), 'read')}{further}")
    table = list(lines_of_cells(cells, memory, mux))
    for row, column, index, address, bit, count in table:
        print(f"row {row} column {column} index {index} address {address} bit {bit} wrong {count}")
    if "--list" in options:
        with telling("comparing the log with each defect"):
            answer = answer_of(log.evidence, faults_of(asked.march, options["--list"]), mux)
        lines = [f"may be {one.what}" for one in answer.candidates]
        print("\n".join(lines or ["no single defect that this tool knows gives this log"]))
    made = {}
    if "--csv" in options:
        rows = ["row,column,index,address,bit,wrong", *(",".join(map(str, line)) for line in table)]
        made[pathlib.Path(options["--csv"])] = "".join(f"{row}\n" for row in rows)
    if "--svg" in options:
        made[pathlib.Path(options["--svg"])] = picture(cells, memory, mux, shape)
    write_all(made)
    return 0
