"""What `python3 -m tests.integration` does with collars: random lists of pins, wrong ones among them, and models that
come with Yosys."""
from __future__ import annotations

import concurrent.futures
import os
import pathlib
import shutil

from tests.integration.bench import Bench
from tests.integration.collar_calls import HALF, PLAIN, TOP
from vidlakost_tools.collar import random_pins

MARCH = "{any(w0);up(r0,w1);up(r1,w0);down(r0,w1);down(r1,w0);any(r0)}\n"
# how many lists are tried, and every how many in Verilator: in short, and with --long
COUNTS = {False: (10, 10), True: (40, 1)}
YOSYS = pathlib.Path("/usr/share/yosys")
# models that come with Yosys, the file of each, and whether it is tried in the short form too
MODELS = [
    ("sb_ram40_4k", "ice40/cells_sim.v", True),
    ("sb_spram256ka", "ice40/cells_sim.v", False),
    ("cc_bram_20k", "gatemate/cells_sim.v", False),
    ("cc_bram_40k", "gatemate/cells_sim.v", False),
]


def written(bench: Bench, folder: str, case: random_pins.Case) -> list[str]:
    """Writes the files of a case to a folder; the words of the call that makes its collar."""
    place = bench.folder / folder
    place.mkdir(parents=True, exist_ok=True)
    (place / "c.m").write_text(MARCH)
    (place / "none.list").write_text("# nothing\n")
    (place / "ram.pins").write_text(case.pins(), encoding="utf-8")
    for name, text in case.memories.items():
        (place / f"{name}.mem").write_text(text)
    memories = [f"{folder}/{name}.mem" for name in case.memories]
    return ["tools/collar", *memories, "--macro", f"{folder}/ram.pins", f"{folder}/made"]


def is_right(bench: Bench, seed: int, with_verilator: bool) -> None:
    """A right list passes without a warning, and what is planted is found."""
    folder, case = f"collars/right{seed}", random_pins.right(seed)
    done = bench.run(written(bench, folder, case))
    bench.is_so(done.returncode == 0, f"the pins {seed} are refused: {done.stderr}\n{case.pins()}")
    for name in case.memories:
        words = ["c.m", f"{name}.mem", "none.list", f"made/{name}_bist.v", "report"]
        bench.run(["./vidlakost", "compile", *(f"{folder}/{word}" for word in words)])
    made = f"cd {folder}/made && "
    if shutil.which("iverilog"):
        for more in ("", "-DUSE_POWER_PINS "):
            runs(bench, f"{made}iverilog -g2012 -Wall -Wno-timescale {more}-o tb -c files.f", f"{made}vvp -n tb", seed)
    if with_verilator:
        build = (
            "verilator --binary -CFLAGS -O0 --top-module ram_collar_tb --Mdir built -f files.f >log; grep '^%' log;"
            " true"
        )
        runs(bench, made + build, f"{made}built/Vram_collar_tb", seed)
        modules = " ".join(f"{name}_bist.v" for name in case.memories)
        lint = f"verilator --lint-only -Wall -Wno-DECLFILENAME --top-module ram_collar ram_collar.v {modules} sram.v"
        done = bench.run(["bash", "-c", made + lint])
        bench.is_so(not done.returncode, f"the collar of the pins {seed} in Verilator: {done.stderr}")


def runs(bench: Bench, build: str, call: str, seed: int) -> None:
    done = bench.run(["bash", "-c", build])
    bench.is_so(
        not done.returncode and not done.stdout + done.stderr, f"the pins {seed}: {build}: {done.stdout}{done.stderr}"
    )
    for more, told in (("", "ram: passes"), (" +planted", "ram: a tied address is found")):
        done = bench.run(["bash", "-c", call + more])
        bench.is_so(
            not done.returncode and told in done.stdout, f"the pins {seed}: {call}{more}: {done.stdout}{done.stderr}"
        )


def is_wrong(bench: Bench, seed: int) -> None:
    """A wrong list is refused at the line that is wrong, and nothing is written."""
    case, line, why = random_pins.wrong(seed)
    folder = f"collars/wrong{seed}"
    done = bench.run(written(bench, folder, case))
    told = done.stderr.startswith(f"collar: {folder}/ram.pins:{line}: {why}") and done.returncode == 2
    bench.is_so(told and not (bench.folder / folder / "made").exists(), f"{why}: {done.stderr}\n{case.pins()}")


def lists(bench: Bench) -> None:
    """Random lists of pins, side by side."""
    count, each = COUNTS[bench.is_long]
    simulates = shutil.which("verilator") is not None and shutil.which("make") is not None
    if not shutil.which("iverilog"):
        print("iverilog is not installed, so no collar is run in it")
    with concurrent.futures.ThreadPoolExecutor(os.cpu_count()) as workers:
        list(workers.map(lambda seed: is_right(bench, seed, simulates and seed % each == 0), range(count)))
        list(workers.map(lambda seed: is_wrong(bench, seed), range(len(random_pins.ADDED) + count)))


def models(bench: Bench) -> None:
    """The collars of models that come with Yosys, in Icarus."""
    if not shutil.which("iverilog") or not YOSYS.is_dir():
        print("iverilog or the models of Yosys are not installed, so no collar has a real macro")
        return
    (bench.folder / "short.m").write_text("{any(w0);up(r0,w1);down(r1)}\n")
    for name, file, is_short in MODELS:
        if not is_short and not bench.is_long or not (YOSYS / file).is_file():
            continue
        there = f"examples/macros/{name}"
        words = [
            "tools/collar",
            f"{there}.mem",
            "--macro",
            f"{there}.pins",
            f"macros/{name}",
            "--model",
            str(YOSYS / file),
        ]
        done = bench.run(words)
        bench.is_so(not done.returncode, f"{name}: {done.stderr}")
        bench.run(
            [
                "./vidlakost",
                "compile",
                "short.m",
                f"{there}.mem",
                "empty.list",
                f"macros/{name}/{name}_bist.v",
                "report",
            ]
        )
        build = (
            f"cd macros/{name} && iverilog -g2012 -DNO_ICE40_DEFAULT_ASSIGNMENTS -o tb -c files.f && vvp -n tb && vvp"
            " -n tb +planted"
        )
        done = bench.run(["bash", "-c", build])
        bench.is_so(
            not done.returncode and "a shorted lane is found" in done.stdout, f"{name}: {done.stdout}{done.stderr}"
        )


SIX = [f"examples/six/{name}.pins" for name in ("bytes", "dual", "late", "wide", "rest", "gray")]
PLANTED = [
    "a wrong bit at wide_low is found",
    "a wrong bit at wide_high is found",
    "a part out of step at wide_low is found",
]
PLANTED += ["a shorted lane at bytes is found", "a dead port at dual is found"]


def systems(bench: Bench) -> None:
    """A chip of six memories and a list of forty, sound and with a fault at each."""
    calls = [("six", ["examples/six/six.chip", *SIX], PLANTED)] if bench.is_long else []
    calls += [("soc", ["examples/six/soc.list", *SIX[3::2]], ["a wrong bit at gray_39 is found"])]
    simulators = {"iverilog": "iverilog -g2012 -Wall -Wno-timescale -o tb -c files.f && vvp -n tb"}
    if bench.is_long:
        build = (
            "verilator --binary -CFLAGS -O0 --top-module {name}_system_tb --Mdir built -f files.f >log && ! grep"
            " '^%' log"
        )
        simulators["verilator"] = build + " && built/V{name}_system_tb"
    for name, words, told in calls:
        done = bench.run(["tools/top", *words, name])
        bench.is_so(not done.returncode, f"top: {done.stderr}")
        for simulator, call in simulators.items():
            if not shutil.which(simulator):
                continue
            done = bench.run(["bash", "-c", f"cd {name} && " + call.format(name=name)])
            bench.is_so(f"{name}: passes" in done.stdout and not done.stderr, f"{name}: {done.stdout}{done.stderr}")
            if name == "six" or bench.is_long:
                shares(bench, f"cd {name} && " + call.format(name=name), name)
                done = bench.run(["bash", "-c", f"cd {name} && " + call.format(name=name) + " +planted"])
                bench.is_so(
                    not done.returncode and all(map(done.stdout.__contains__, told)),
                    f"{name}: {done.stdout}{done.stderr}",
                )


def shares(bench: Bench, call: str, name: str) -> None:
    """The faults of one memory alone, those of one part in three, and what is neither."""
    for more, is_passed, told in (
        ("+planted=gray_39" if name == "soc" else "+planted=gray", True, "a wrong bit at gray"),
        ("+planted +parts=3 +part=1", True, "is found"),
        ("+planted +parts=3 +part=1 +seed=5", True, " faults by the seed 5\n"),
        ("+planted=other", False, "no memory is named other"),
        ("+planted +parts=3 +part=3", False, "+part below it"),
    ):
        done = bench.run(["bash", "-c", f"{call} {more}"])
        bench.is_so(
            (done.returncode == 0) == is_passed and told in done.stdout, f"{name} {more}: {done.stdout}{done.stderr}"
        )


# memories whose names a chip's module could use inside
INNER = ("step", "kept", "now", "second", "chip_0", "lanes", "planted", "test", "clk", "fail", "done")


def odd_names(bench: Bench) -> None:
    """Memories of names that the module of a chip uses itself stand in it all the same."""
    units = "".join(f"unit 1 weak.m {name}.mem\n" for name in INNER)
    (bench.folder / "inner.chip").write_text(f"chip 1\nname inner\nbudget 3\n{units}")
    for name in INNER:
        (bench.folder / f"{name}.mem").write_text(HALF.format(name))
        (bench.folder / f"{name}.pins").write_text(PLAIN.format(f"ram_{name}"))
    done = bench.run(["tools/top", "inner.chip", *(f"{name}.pins" for name in INNER), "inner"])
    bench.is_so(not done.returncode, f"top: {done.stderr}")
    if shutil.which("iverilog"):
        call = (
            "cd inner && iverilog -g2012 -Wall -Wno-timescale -o tb -c files.f && vvp -n tb && vvp -n tb +planted |"
            " tail -n 2"
        )
        done = bench.run(["bash", "-c", call])
        told = "inner: passes\n{0}inner: of the words in which every two bits differ number 2 passes\n{0}".format(
            "inner_system_tb: passed\n"
        )
        bench.is_so(done.stdout == told and not done.stderr, f"top: {done.stdout}{done.stderr}")


def model_of_later(bench: Bench) -> None:
    """A macro whose model is named when one was written already stands in the list once."""
    for line in (f"{TOP} later", f"{TOP} later --model shown.v"):
        bench.run(line.split())
    listed = (bench.folder / "later" / "files.f").read_text().splitlines()
    bench.is_so(
        listed[-2:] == ["ram4x2.v", str((bench.folder / "shown.v").resolve())] and "ram4x1.v" not in listed,
        f"top: {listed}",
    )


def flows(bench: Bench) -> None:
    """The makefile of the six memories ends well, and one whose march finds no tied address doesn't."""
    if not all(map(shutil.which, ("make", "iverilog"))):
        print("make or iverilog is not installed, so no makefile is run")
        return
    make = ["make", "-j4", f"LAUNCHER={bench.folder}/vidlakost", "-C"]
    bench.run(["tools/flow", "examples/six/six.chip", "all"])
    for more in (["SIM=iverilog"], ["SIM=verilator", "-B"])[: 1 + bench.is_long]:
        done = bench.run([*make, "all", *more])
        told = [f"six: {what}" for what in (*PLANTED, "passes", "every step is done")]
        is_right = not done.returncode and all(
            map(done.stdout.__contains__, [*told, "wide_low: a tied address is found"])
        )
        bench.is_so(is_right, f"flow: {done.stdout}{done.stderr}")
    if bench.is_long and YOSYS.is_dir():
        of_yosys(bench, make)
    for parts, status in ((3, 0), (99, 2)):
        (bench.folder / "all" / "chip" / "passed.sums").unlink()
        done = bench.run([*make, "all", "chip/passed", "SIM=iverilog", f"PARTS={parts}"])
        bench.is_so(done.returncode == status, f"flow in {parts} parts: {done.stdout}{done.stderr}")
    bench.run(["tools/flow", "weak.chip", "s.pins", "weak"])
    done = bench.run([*make, "weak"])
    bench.is_so(done.returncode == 2 and "every step" not in done.stdout, f"flow: {done.stdout}{done.stderr}")


def of_yosys(bench: Bench, make: list[str]) -> None:
    """A chip of two models that come with Yosys goes through the makefile."""
    there, short = "examples/macros", "{any(w0);up(r0,w1);any(r1)}\n"
    units = "".join(f"unit 2 short.m {there}/{name}.mem\n" for name in ("sb_ram40_4k", "cc_bram_20k"))
    (bench.folder / "fpga.chip").write_text(f"chip 1\nname fpga\nbudget 3\n{units}")
    (bench.folder / "short.m").write_text(short)
    models = [word for file in ("ice40", "gatemate") for word in ("--model", str(YOSYS / file / "cells_sim.v"))]
    bench.run(["tools/flow", "fpga.chip", "fpga", *models])
    done = bench.run([*make, "fpga", "MORE=-DNO_ICE40_DEFAULT_ASSIGNMENTS", "SIM=iverilog"])
    is_right = not done.returncode and "fpga: a dead port at cc_bram_20k is found" in done.stdout
    bench.is_so(is_right, f"flow: {done.stdout}{done.stderr}")


def holds(bench: Bench) -> None:
    """The clock stands in each pause, and what is lost meanwhile is found."""
    if not shutil.which("iverilog"):
        return
    build = (
        "cd held && iverilog -g2012 -Wall -Wno-timescale -o tb p_hold_tb.sv p_hold.v p_bist.v && vvp -n tb && vvp -n tb"
        " +planted"
    )
    for march, count in (("hold.m", 9), ("paired.m", 6)):
        bench.run(["tools/hold", march, "pause.mem", "held"])
        bench.run(["./vidlakost", "compile", march, "pause.mem", "empty.list", "held/p_bist.v", "report"])
        done = bench.run(["bash", "-c", build])
        over = "p_hold_tb: passed\n"
        told = f"p: passes, and was held {count} times\n{over}p: what is lost in a hold is found\n{over}"
        bench.is_so(done.stdout == told and not done.stderr, f"hold of {march}: {done.stdout}{done.stderr}")


PARTS = (lists, models, systems, odd_names, model_of_later, flows, holds)
