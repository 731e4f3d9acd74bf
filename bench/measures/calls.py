"""How long calls of the program take, and how much memory they hold."""
from __future__ import annotations

import pathlib
import sys

from measures.parts import (
    EIGHT,
    LAUNCHER,
    PROGRAM,
    ROOT,
    SS,
    C,
    Figure,
    Timed,
    asked,
    best,
    long_march,
    memory_text,
    of_call,
    timed,
    write,
)
from vidlakost_tools.program import quick_program

# 1,024 primitives, static and dynamic ones
LARGE = "all\n" * 21 + "one\nCFst\n"
DYNAMIC = "dyn2\n" * 10 + "dyn1\n" * 2 + "<0w1r1/0/0>\n" * 4
# words and bits of the memories of the controllers written by hand, taken in turn
SIZES = [(16, 1), (37, 5), (64, 8), (2, 3), (1000, 32), (300, 64), (4096, 2)]


def launcher(folder: pathlib.Path) -> list[Figure]:
    """A call of `bench`, by the launcher and by the program alone."""
    march, memory = write(folder, march=C, memory=memory_text("small", 16, 1))
    program = timed(LAUNCHER, "--program").said or PROGRAM
    ours, alone = (best(30, which, "bench", march, memory) for which in (LAUNCHER, program))
    return [Figure("by the launcher", ours.seconds * 1e3, "ms", "the program alone", alone.seconds * 1e3)]


def compile_large(folder: pathlib.Path) -> list[Figure]:
    """65,536 words of 64 bits with eight backgrounds, by March SS and by the longest code."""
    files = write(
        folder, ss=SS, long=long_march(64), memory=memory_text("large_one", 65536, 64, EIGHT), many=LARGE, none=""
    )
    ss, longest, memory, many, none = files
    out = folder / "v", folder / "r"
    made = of_call("March SS, 1,024 primitives", best(5, PROGRAM, "compile", ss, memory, many, *out))
    made += of_call(
        "256 operations in 64 elements, no primitives", best(5, PROGRAM, "compile", longest, memory, none, *out)
    )
    return [*made, Figure("the module", out[0].stat().st_size, "bytes")]


def chip(folder: pathlib.Path) -> list[Figure]:
    """16 memories of 65,536 words of 64 bits with eight backgrounds, by March SS, two at a time."""
    lines = ["chip 1", "name soc", "budget 5"]
    write(folder, **{"ss.m": SS})
    for unit in range(16):
        write(folder, **{f"ram_{unit}.mem": memory_text(f"ram_{unit}", 65536, 64, EIGHT)})
        lines.append(f"unit 2 {folder}/ss.m {folder}/ram_{unit}.mem")
    (chip_file,) = write(folder, chip="\n".join(lines) + "\n")
    made = of_call("16 memories", best(5, PROGRAM, "chip", chip_file, folder / "soc.v"))
    return [*made, Figure("the module", (folder / "soc.v").stat().st_size, "bytes")]


def judge(folder: pathlib.Path) -> list[Figure]:
    """By a march of 256 operations in 64 elements, all but the last of order any."""
    march, many, dynamic, none = write(folder, march=long_march(64), large=LARGE, dynamic=DYNAMIC, none="")
    report = folder / "report"
    made = of_call("1,024 static primitives", best(5, PROGRAM, "judge", march, many, report))
    made += of_call("1,024 dynamic primitives", best(5, PROGRAM, "judge", march, dynamic, report))
    # a primitive that a list repeats is judged once, so one is measured on lists of different ones
    empty = best(15, PROGRAM, "judge", march, none, report).seconds
    for kind, count, text in (("static", 48, "all\n"), ("dynamic", 126, "dyn1\ndyn2\n")):
        (faults,) = write(folder, faults=text)
        each = (best(15, PROGRAM, "judge", march, faults, report).seconds - empty) / count * 1e6
        made.append(Figure(f"a {kind} primitive", each, "microseconds"))
    return made


def vectors(folder: pathlib.Path) -> list[Figure]:
    """About the largest file: March SS on 12,986 words of 64 bits."""
    march, memory = write(folder, march=SS, memory=memory_text("big", 12986, 64))
    made = of_call("1,999,844 lines", best(3, PROGRAM, "vectors", march, memory, folder / "out"))
    return [*made, Figure("the file", (folder / "out").stat().st_size, "bytes")]


def check(folder: pathlib.Path) -> list[Figure]:
    """`check` beside `bench` on one module, and controllers as one would write them by hand."""
    march, memory, none = write(folder, march=C, memory=memory_text("wide", 24000, 64), none="")
    asked("compile", march, memory, none, folder / "wide_bist.v", folder / "report")
    bench = best(3, PROGRAM, "bench", march, memory)
    ours = best(3, PROGRAM, "check", folder / "wide_bist.v", march, memory)
    if ours.said != "conforms 1680003":
        raise SystemExit(f"check says {ours.said}")
    made = of_call("1,680,003 cycles", ours)
    made[0].peer, made[0].beside = "`bench`", bench.seconds
    paths = [path for path in sorted((ROOT / "examples" / "marches").glob("*.m")) if "del" not in path.read_text()]
    wrong = [path.name for count, path in enumerate(paths) if not conforms(path, *SIZES[count % len(SIZES)], folder)]
    if wrong:
        raise SystemExit(f"by hand, and do not conform: {', '.join(wrong)}")
    return [*made, Figure("controllers of `bench/peer` that conform", len(paths), f"of {len(paths)}")]


def conforms(march: pathlib.Path, words: int, bits: int, folder: pathlib.Path) -> bool:
    peer = timed(sys.executable, ROOT / "bench" / "peer", march.read_text(), words, bits, "--subset").said
    module, memory = write(folder, **{"peer.v": peer, "peer.mem": memory_text("peer", words, bits)})
    return timed(PROGRAM, "check", module, march, memory).said.startswith("conforms ")


# ---- how long the text of a module takes to be read

HEAD = "module bench(\n  input clk,\n  input [31:0] given,\n  output reg [31:0] shown\n);\n"
PART = """  // part {0}
  wire [31:0] sum_{0};
  reg [7:0] count_{0};
  assign sum_{0} = ((given + {{count_{0}, 24'h0f00ff}})
    ^ ((count_{0}[3:0] == 4'd9) ? {{shown[15:0], given[31:16]}} : (~shown)));
  always @(posedge clk) begin
    if ((count_{0} < 8'hc8)) begin
      count_{0} <= (count_{0} + 8'd1);
    end else if ((|given[7:0]))
      case (count_{0}[1:0])
        2'd0, 2'd1: count_{0} <= 8'd0;
        2'd2: begin
          count_{0} <= ((&given) ? 8'd3 : 8'd4);
        end
        default: count_{0} <= count_{0};
      endcase
  end
"""


def text_of(size: int) -> str:
    """As many parts as the size has room for; the last word, `endmodule`, is missing, so that nothing is done with
    it."""
    parts, length = [HEAD], len(HEAD)
    while True:
        part = PART.format(len(parts))
        if length + len(part) > size:
            return "".join(parts)
        parts.append(part)
        length += len(part)


def read(text: pathlib.Path, command: str) -> Timed:
    """A call that ends where the text does: the module is the first file that is read, and the others are not there."""
    call = best(5, quick_program() or PROGRAM, command, text, text.with_name("no_march"), text.with_name("no_memory"))
    if call.said != "verilog L2":
        raise SystemExit(f"{command} says {call.said} of a text without its end")
    return call


def verilog(folder: pathlib.Path) -> list[Figure]:
    """How long texts of modules take to be read, by both readers."""
    made = []
    (word,) = write(folder, word="module")
    start = read(word, "benchfile").seconds
    for size in (1 << k for k in range(14, 21, 3)):
        (text,) = write(folder, text=text_of(size))
        calls = [read(text, command) for command in ("benchfile", "check")]
        plain, free = (max(call.seconds - start, 1e-9) * 1e3 for call in calls)
        made.append(Figure(f"{size >> 10} KiB", plain, "ms", "by precedence", free))
        made.append(Figure(f"{size >> 10} KiB", calls[0].held, "MiB"))
    return made
