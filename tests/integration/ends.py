"""What `python3 -m tests.integration` does with runs that end early, that plant nothing, or whose files are others by
now: none of them passes."""
from __future__ import annotations

import os
import pathlib
import re
import shutil
import subprocess

from tests.integration.access import compiled
from tests.integration.bench import Bench

ICARUS = "cd {folder} && iverilog -g2012 -o tb {files} && vvp -n tb"
AROUND = "late_model.v late_bist.v"
# of a testbench of `access` or `share` its files, and what stands behind a call that plants a bit outside of each
# memory
AROUND_LATE = {
    "access": f"late_access.v {AROUND}",
    "apb": f"late_apb.v late_log.v late_cross.v late_access.v {AROUND}",
    "tap": f"late_tap.v late_log.v late_cross.v late_access.v {AROUND}",
    "log": f"late_log.v {AROUND}",
    "share": "late_share.v late_share_model.v late_bist.v",
}
OUTSIDE = (
    "+address=8",
    "+bit=5",
    "+unit=2",
    "+value=2",
    "+address=-1",
    "+address=65536",
    "+bit=64",
    "+unit=16",
    "+address=x",
)
# a controller that does nothing, whose `done` never comes, comes at once, or is unknown
IDLE = """module late_bist(input clk, input reset, input [4:0] rdata,
  output en, output we, output [2:0] addr, output [4:0] wdata,
  output done, output fail);
  assign {{en, we, addr, wdata, done, fail}} = {{10'd0, {}, 1'b0}};
endmodule
"""


def ended(text: str) -> str:
    """A module that ends the run, as the model of a vendor may."""
    return re.sub(r"^endmodule", "  initial #400 $finish;\nendmodule", text, count=1, flags=re.MULTILINE)


def passes(done: subprocess.CompletedProcess[str]) -> bool:
    """Whether a run ends with 0 and says in its last line that it passed."""
    return done.returncode == 0 and re.fullmatch(r"\w+_tb: passed", (done.stdout.splitlines() or [""])[-1]) is not None


def is_ended(bench: Bench, folder: str, files: str, model: str) -> None:
    """A run passes, and doesn't where this model ends it early."""
    call = ["bash", "-c", ICARUS.format(folder=folder, files=files)]
    done = bench.run(call)
    bench.is_so(passes(done), f"{folder}: {done.stdout}{done.stderr}")
    path = bench.folder / folder / model
    before = path.read_text()
    path.write_text(ended(before))
    for more in ("", " +planted"):
        done = bench.run([*call[:2], call[2] + more])
        told = "not passed, since the run ended before its end" in done.stdout
        bench.is_so(
            done.returncode == 1 and told and not passes(done), f"{model} ends {folder}: {done.stdout}{done.stderr}"
        )
    path.write_text(before)


def early_ends(bench: Bench) -> None:
    """No testbench passes where something else ends its run."""
    compiled(bench, "ends")
    for kind, files in AROUND_LATE.items():
        is_ended(bench, "ends", f"late_{kind}_tb.sv {files}", "late_bist.v")
    for words, folder, files, model in (
        (["testbench", "access.m", "late.mem", "ends", "--sv"], "ends", "late_tb.sv late_bist.v", "late_bist.v"),
        (["testbench", "two.chip", "ends", "--chip", "--sv"], "ends", "both_tb.sv both.v", "both.v"),
        (["collar", "latency.mem", "--macro", "ram.pins", "ends/collar"], "ends/collar", "-c files.f", "ram.v"),
        (["hold", "hold.m", "pause.mem", "ends"], "ends", "p_hold_tb.sv p_hold.v p_bist.v", "p_bist.v"),
        (["top", "two.chip", "s.pins", "t.pins", "ends/top"], "ends/top", "-c files.f", "ram4x1.v"),
    ):
        bench.run([f"tools/{words[0]}", *words[1:]])
        bench.run(["./vidlakost", "chip", "two.chip", "ends/both.v"])
        bench.run(["./vidlakost", "compile", "c.m", "latency.mem", "empty.list", "ends/collar/s_bist.v", "report"])
        bench.run(["./vidlakost", "compile", "hold.m", "pause.mem", "empty.list", "ends/p_bist.v", "report"])
        is_ended(bench, folder, files, model)


def plants(bench: Bench) -> None:
    """What is planted outside of each memory is told, and so is a controller that does nothing."""
    compiled(bench, "plants")
    for kind, files in AROUND_LATE.items():
        call = ICARUS.format(folder="plants", files=f"late_{kind}_tb.sv {files}")
        done = bench.run(["bash", "-c", f"{call} +planted +address=7 +bit=4 +value=1"])
        bench.is_so(passes(done), f"{kind}: {done.stdout}{done.stderr}")
        for outside in OUTSIDE:
            done = bench.run(["bash", "-c", f"cd plants && vvp -n tb +planted {outside}"])
            told = "FATAL" in done.stdout and "memory" in done.stdout
            bench.is_so(done.returncode == 1 and told, f"{kind} {outside}: {done.stdout}{done.stderr}")
    for ready in ("1'b0", "1'b1", "1'bx"):
        (bench.folder / "plants" / "late_bist.v").write_text(IDLE.format(ready))
        for kind, files in AROUND_LATE.items():
            call = ICARUS.format(folder="plants", files=f"late_{kind}_tb.sv {files}")
            done = bench.run(["bash", "-c", f"{call} +planted +value=1"])
            bench.is_so(
                done.returncode == 1 and "FATAL" in done.stdout, f"{kind}, done {ready}: {done.stdout}{done.stderr}"
            )


# ---- makefiles


def made(bench: Bench) -> subprocess.CompletedProcess[str]:
    more = [f"LAUNCHER={bench.folder}/vidlakost", "SIM=iverilog", f"MORE=-I{bench.folder}/steps/vendor"]
    return bench.run(["make", "-j4", *more, "-C", "steps/made"])


def is_done(bench: Bench, what: str) -> None:
    done = made(bench)
    bench.is_so(not done.returncode and "two: every step is done" in done.stdout, f"{what}: {done.stdout}{done.stderr}")


def written(path: pathlib.Path, text: str) -> None:
    """Writes a file that is older than all others."""
    path.write_text(text)
    os.utime(path, (1, 1))


def is_seen(bench: Bench, path: pathlib.Path, text: str) -> None:
    """A file that is another by now, of an older date, is seen, and the steps fail; with what it was they are done."""
    before = path.read_text()
    written(path, text)
    done = made(bench)
    bench.is_so(done.returncode == 2 and "every step" not in done.stdout, f"{path}: {done.stdout}{done.stderr}")
    written(path, before)
    is_done(bench, f"{path}, and back")


def of_two(bench: Bench) -> pathlib.Path:
    """The makefile of two memories, of which one has a model that is given and includes a file."""
    folder = bench.folder / "steps"
    folder.mkdir()
    for name in ("late", "rest"):
        for end in ("mem", "pins"):
            shutil.copy(bench.folder / "examples" / "six" / f"{name}.{end}", folder)
    (folder / "two.chip").write_text(
        "chip 1\nname two\nbudget 3\nunit 2 c.m steps/late.mem\nunit 2 c.m steps/rest.mem\n"
    )
    bench.run(["tools/collar", "steps/late.mem", "--macro", "steps/late.pins", "steps/given"])
    macro = (folder / "late.pins").read_text().split("macro ")[1].split()[0]
    model = folder / "vendor" / f"{macro}.v"
    model.parent.mkdir()
    written(model.with_name("inner.vh"), "")
    written(model, '`include "inner.vh"\n' + (folder / "given" / f"{macro}.v").read_text())
    bench.run(
        ["tools/flow", "steps/two.chip", "steps/late.pins", "steps/rest.pins", "steps/made", "--model", str(model)]
    )
    return model


def steps(bench: Bench) -> None:
    """Each step of a makefile stands on each file that it reads: a controller, a model in place of ours, one of
    --model, and what that includes, whatever their dates."""
    if not all(map(shutil.which, ("make", "iverilog"))):
        print("make or iverilog is not installed, so no makefile is run")
        return
    model = of_two(bench)
    is_done(bench, "flow")
    folder = bench.folder / "steps" / "made"
    controller = folder / "late" / "late_bist.v"
    right = controller.read_text()
    for other in ("", ended(right)):
        controller.unlink()
        if other:
            written(controller, other)
        is_done(bench, "a controller that is another")
        bench.is_so(controller.read_text() == right, "a controller that is another stays")
    ours = next(
        line for line in (folder / "rest" / "files.f").read_text().splitlines() if not line.startswith(("//", "rest_"))
    )
    is_seen(bench, model, ended(model.read_text()))
    is_seen(bench, model.with_name("inner.vh"), "module other; initial #400 $finish; endmodule\n")
    for part in ("rest", "chip"):
        is_seen(bench, folder / part / ours, ended((folder / part / ours).read_text()))
    chip = folder.parent / "two.chip"
    is_seen(bench, chip, chip.read_text().replace("c.m", "access.m", 1))
    bench.look(
        [
            "make",
            "-C",
            "steps/made",
            f"LAUNCHER={bench.folder}/none",
            "SIM=iverilog",
            f"MORE=-I{bench.folder}/steps/vendor",
        ],
        0,
        "",
        "",
    )


def opened(bench: Bench) -> None:
    """A model that reads a file while it runs is simulated each time, since no compiler tells that file."""
    if not all(map(shutil.which, ("make", "iverilog"))) or not (bench.folder / "steps" / "made").exists():
        return
    model = next((bench.folder / "steps" / "vendor").glob("*.v"))
    before = model.read_text()
    reads = '  reg [0:0] flipped [0:0];\n  initial $readmemb("flipped.bin", flipped);\n'
    written(model, re.sub(r"^( *assign q = .*);", rf"{reads}\1 ^ flipped[0];", before, count=1, flags=re.MULTILINE))
    folders = [bench.folder / "steps" / "made" / name for name in ("late", "chip")]
    for folder in folders:
        written(folder / "flipped.bin", "0\n")
    is_done(bench, "a model that reads a file")
    is_seen(bench, folders[0] / "flipped.bin", "1\n")
    written(model, before)


# ports whose widths no number tells, in a model of the macro of ram.pins
MODEL = (
    "`define WIDE {}\nmodule ram(input ck, input ce, input wen, input [`WIDE-1:0] a, input [7:0] d, output [7:0]"
    " q);\nendmodule\n"
)


def other_sizes(bench: Bench) -> None:
    """A model of another size is refused before anything is written, and where its widths can't be read by the run
    itself."""
    words = ["tools/collar", "latency.mem", "--macro", "ram.pins", "sizes", "--model", "sized.v"]
    (bench.folder / "sized.v").write_text(MODEL.format(4).replace("`WIDE", "4"))
    bench.look(words, 2, "", "collar: ram.pins:5: a has 4 bits in ")
    bench.is_so(not (bench.folder / "sizes").exists(), "a collar for a model of another size was written")
    (bench.folder / "sized.v").write_text(MODEL.format(4))
    bench.look(words, 0, "sizes/s_collar.v", "collar: not tested: ce: whether it is ever off\n")
    (bench.folder / "sized.v").write_text(MODEL.format(4).replace("input wen", "input wen, input cen"))
    bench.look(words, 0, "sizes/s_collar.v", "collar: nothing drives cen of ram, which no line of ram.pins names")
    (bench.folder / "sized.v").write_text(MODEL.format(4))
    bench.run(["./vidlakost", "compile", "c.m", "latency.mem", "empty.list", "sizes/s_bist.v", "report"])
    done = bench.run(["bash", "-c", ICARUS.format(folder="sizes", files="-c files.f")])
    told = "a of the model has 4 bits, and 2 by the pins and the description" in done.stdout
    bench.is_so(done.returncode == 1 and told, f"a model of another size: {done.stdout}{done.stderr}")


def ends(bench: Bench) -> None:
    if not shutil.which("iverilog"):
        print("iverilog is not installed, so no run ends early")
        return
    early_ends(bench)
    plants(bench)
    other_sizes(bench)


PARTS = (ends, steps, opened)
