"""What `python3 -m tests.integration` does with equal memories that share a controller: the whole passes and finds what
is planted at each, and a module in which something of theirs is joined wrongly is told."""
from __future__ import annotations

import shutil

from tests.integration.bench import Bench

SHARED = """list 1
name shared
budget 60
unit 10 examples/six/march.m examples/six/gray.mem instances 3 shared
unit 10 examples/six/march.m examples/six/wide_low.mem instances 2 shared
unit 10 examples/six/march.m examples/six/wide_high.mem instances 2 shared
unit 15 examples/joins/march.m examples/joins/both.mem instances 2 shared
unit 25 examples/six/march.m examples/six/late.mem instances 2 shared
"""
PINS = [f"examples/{place}.pins" for place in ("six/gray", "six/wide", "joins/both", "six/late")]
UNITS = ["unit 30 examples/six/march.m shared/gray_0.mem", "unit 20 examples/six/march.m shared/wide_low_0.mem"]
UNITS += ["unit 20 examples/six/march.m shared/wide_high_0.mem", "unit 50 examples/six/march.m shared/late_0.mem"]
UNITS += ["unit 30 examples/joins/march.m shared/both_0.mem"]
PLANTED = [f"a wrong bit at {name}_1 is found" for name in ("gray", "wide_low", "wide_high", "both", "late")]
PLANTED += ["a part out of step at wide_low_1 is found", "a dead port at both_1 is found"]
# what is joined wrongly in the module that joins all
DAMAGED = [
    ("n_gray_1_taken != n_gray_0_want_1", "n_gray_2_taken != n_gray_0_want_1"),
    ("n_gray_1_taken != n_gray_0_want_1", "n_gray_1_taken[2:0] != n_gray_0_want_1[2:0]"),
    ("(n_gray_2_taken != n_gray_0_want_1)", "1'b0"),
    ("n_late_0_reads_3 & (", "n_late_0_reads_2 & ("),
    ("n_late_0_want_3 <= n_late_0_want_2", "n_late_0_want_3 <= n_late_0_want_1"),
    ("chip_0_on & n_gray_0_en & ~n_gray_0_we", "chip_0_on & n_gray_0_en"),
    ("assign n_gray_1_en = n_gray_0_en", "assign n_gray_1_en = 1'b0"),
    ("assign n_gray_2_addr = n_gray_0_addr", "assign n_gray_2_addr = n_late_0_addr"),
    ("assign n_wide_low_1_given = n_wide_low_0_given", "assign n_wide_low_1_given = n_wide_low_0_given & ~64'd8"),
    ("chip_0_on & n_gray_1_bad", "chip_0_on & n_gray_2_bad"),
    ("chip_0_on & n_late_1_bad", "chip_0_fail[3]"),
]


def shared(bench: Bench) -> None:
    """Memories that share controllers, in the testbench of the whole and by the TAP."""
    (bench.folder / "shared.list").write_text(SHARED)
    done = bench.run(["tools/top", "shared.list", *PINS, "shared", "--access"])
    units = "".join(path.read_text() for path in sorted((bench.folder / "shared").glob("*.chip")))
    bench.is_so(not done.returncode and all(unit in units for unit in UNITS), f"top: {done.stderr}{units}")
    if not shutil.which("iverilog"):
        return
    call = "cd shared && iverilog -g2012 -Wall -Wno-timescale -o tb -c files.f && vvp -n tb"
    done = bench.run(["bash", "-c", f"{call} && vvp -n tb +planted"])
    is_right = not done.returncode and not done.stderr and all(map(done.stdout.__contains__, PLANTED))
    bench.is_so(is_right, f"memories that share a controller: {done.stdout}{done.stderr}")
    module = bench.folder / "shared" / "shared_system.v"
    right = module.read_text()
    for old, new in DAMAGED:
        bench.is_so(old in right, f"{old!r} does not stand in shared_system.v")
        module.write_text(right.replace(old, new))
        done = bench.run(["bash", "-c", f"{call} && vvp -n tb +planted"])
        bench.is_so(done.returncode == 1 and "FATAL" in done.stdout, f"{new!r} is not told: {done.stdout[-300:]}")
    module.write_text(right)
    by_tap(bench)


def by_tap(bench: Bench) -> None:
    """The first failure of a memory that follows the controller of another is read, and located as its own."""
    done = bench.run(["tools/access", "shared.list", *PINS, "shared", "--jtag"])
    bench.is_so(not done.returncode, f"access: {done.stderr}")
    call = "cd shared && iverilog -g2012 -o tap -c shared_tap.f && vvp -n tap +planted +unit=1 +bit=2"
    told = bench.run(["bash", "-c", call]).stdout
    bench.is_so("unit 1 " in told and " expected " in told and "shared_tap_tb: passed" in told, f"the TAP: {told}")
    register = next((line.split()[1] for line in told.splitlines() if line.startswith("tdr ")), "")
    done = bench.run(["tools/locate", "shared.list", *PINS, "--whole", "--tdr", register])
    is_right = "memory gray_1, cycle " in done.stdout and "bits 2" in done.stdout
    bench.is_so(is_right, f"locate: {done.stdout}{done.stderr}")


PARTS = (shared,)
