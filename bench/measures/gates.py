"""The generated modules beside a controller written by hand (`bench/peer`), as Yosys makes gates of both."""
from __future__ import annotations

import pathlib
import sys

from measures import flow
from measures.parts import MATS, ROOT, SS, C, Figure, Skipped, asked, memory_text, timed, want, write
from vidlakost_tools.verilog.yosys import gates_of

PAUSED = "{any(w0);del;any(r0,w1);del;any(r1)}"
GRAY = "".join(f"scramble a{i} = p{i} ^ p{i + 1}\n" for i in range(9)) + "scramble a9 = p9 ^ 1\n"


def varied() -> str:
    """March SS and 58 further elements, of orders and data that a generator of numbers chooses: 254 operations."""
    elements, x, held = [SS.strip("{}")], 1000, 0
    for _ in range(58):
        x = (25173 * x + 13849) % 65536
        first, second = x // 256 % 2, x // 512 % 2
        elements.append(f"{['up', 'down', 'any'][x % 3]}(r{held},w{first},r{first},w{second})")
        held = second
    return "{" + ";".join(elements) + "}"


# what a row is called, its march, words and bits, and what more the description says
ROWS = [
    ("March C-", C, 16, 1, ""),
    ("March C-", C, 24000, 64, ""),
    ("March SS", SS, 1024, 32, ""),
    ("March SS, Gray addresses", SS, 1024, 32, GRAY),
    ("MATS+", MATS, 65536, 1, ""),
    ("64 elements, 254 operations", varied(), 1002, 64, ""),
    ("March C-, latency 2", C, 24000, 64, "latency 2\n"),
    ("March C-, latency 4", C, 24000, 64, "latency 4\n"),
    ("two pauses of 1,000 cycles", PAUSED, 1024, 8, "pause 1000\n"),
    ("two pauses of 60,000 cycles", PAUSED, 1024, 8, "pause 60000\n"),
    ("two pauses of 20,000 cycles", PAUSED, 24000, 8, "pause 20000\n"),
]


def generated(folder: pathlib.Path, march: str, words: int, bits: int, more: str) -> pathlib.Path:
    files = write(folder, march=march, memory=memory_text("buffer", words, bits, more), none="")
    asked("compile", *files, folder / "buffer_bist.v", folder / "report")
    return folder / "buffer_bist.v"


def by_hand(folder: pathlib.Path, march: str, words: int, bits: int) -> pathlib.Path:
    peer = timed(sys.executable, ROOT / "bench" / "peer", march, words, bits).said
    return write(folder, **{"peer.v": peer + "\n"})[0]


def rows(folder: pathlib.Path) -> list[tuple[str, pathlib.Path, pathlib.Path | None]]:
    """Of each row its name, our module, and that of the peer, which knows no scrambling, no pause and no latency."""
    made = []
    for number, (name, march, words, bits, more) in enumerate(ROWS):
        place = folder / str(number)
        place.mkdir()
        peer = None if more else by_hand(place, march, words, bits)
        made.append((f"{name}, {words:,}×{bits}", generated(place, march, words, bits, more), peer))
    return made


def area(folder: pathlib.Path) -> list[Figure]:
    """Cells, flip-flops among them, and the longest path, by Yosys' `synth` and `abc -g cmos2`."""
    want("yosys")
    made = []
    for name, ours, peer in rows(folder):
        counts = [gates_of(ours, "cmos2"), gates_of(peer, "cmos2") if peer else None]
        for unit in ("cells", "flip-flops", "depth"):
            numbers = [getattr(count, unit.replace("-", "_")) if count else 0 for count in counts]
            made.append(Figure(name, numbers[0], unit, "by hand" if peer else "", numbers[1]))
    return made


def cells(folder: pathlib.Path) -> list[Figure]:
    """Area, megahertz by vesta and OpenSTA, behind buffers: the middle of seven orders of lines (scatter: a fifth).

    A row takes a minute and more."""
    if flow.missing():
        raise Skipped(f"{', '.join(flow.missing())} is missing")
    made = []
    for name, ours, peer in rows(folder):
        figures = [flow.mapped(str(ours), "buffer_bist", str(folder))]
        figures += [flow.mapped(str(peer), "peer", str(folder))] if peer else []
        for place, unit in enumerate(("µm²", "MHz", "MHz")):
            beside = figures[1][place] if peer else 0
            made.append(Figure(name, figures[0][place], unit, "by hand" if peer else "", beside))
    return made


def lint(folder: pathlib.Path) -> list[Figure]:
    """Linters on the generated modules."""
    want("iverilog", "verilator", "yosys")
    said = []
    for name, ours, _ in rows(folder):
        calls = [
            timed("iverilog", "-Wall", "-t", "null", ours),
            timed("verilator", "--lint-only", "-Wall", ours),
            timed("yosys", "-q", "-p", f"read_verilog {ours}; proc; check -assert"),
        ]
        said += [f"{name}: {call.said}" for call in calls if call.said or call.status]
    print("\n".join(said), end="\n" if said else "")
    return [Figure("warnings of Icarus, Verilator and Yosys", len(said), f"of {len(ROWS)} modules")]
