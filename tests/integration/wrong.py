"""What `python3 -m tests.integration` does with wrong collars, and a wrong module that joins them: a line of a right
one is changed, and its testbench has to tell."""
from __future__ import annotations

import concurrent.futures
import os
import pathlib
import shutil

from tests.integration.bench import Bench
from tests.integration.collar import MARCH
from vidlakost_tools.program import ROOT

HEAD = "memory 2\nname {}\nwords 8\nbits {}\nlatency {}\nbackgrounds 0\n"
OTHER = "port we v 2\nport addr b\nport wdata e\nport rdata p\n"
SHAPES = {"both": (4, 2), "two": (8, 2), "lower": (3, 2), "upper": (5, 2), "slow": (4, 4)}
MEMORIES = {name: HEAD.format(name, *shape) for name, shape in SHAPES.items()}
PORTS = "clk ck\nen ~ce\nwe ~we\nmask wm 4\naddr a\nwdata d\nrdata q\nmasks\nregisters out 1\n"
PINS = {
    "both": f"macro dual\n{PORTS}{OTHER}",
    "two": f"macro twice\n{PORTS}port clk ck2\nport en ~ce2\nport addr a2\nport rdata q2\npass sleep 1 0\nbypass\n",
    "slow": "macro held\nclk ck\nen ~ce\nwe ~we\naddr a\nwdata d\nrdata q\nregisters in 1\nregisters out 1\n",
    "lower": f"macro broad\n{PORTS}low lower\nhigh upper\n".replace("mask wm 4\n", "mask wm 2\n"),
}
OF = {"both": ["both"], "two": ["two"], "slow": ["slow"], "lower": ["lower", "upper"]}
# the macro whose model holds a word until the next read, as those of most vendors do
HELD = "slow"
# the examples whose whole is joined wrongly
SYSTEMS = ("six", "joins")


def hung(net: str) -> str:
    """Four bits of a net, one of which hangs on another."""
    return f"{{{net}[3], {{2{{{net}[1]}}}}, {net}[0]}}"


def crossed(net: str) -> str:
    return f"{{{net}[3], {net}[1], {net}[2], {net}[0]}}"


# what is wrong, in the collar of which memory, a part of it and what stands there in place of it, and whether planting
# tells
WRONG = [
    ("the chip's address is swapped at one port", "two", "t_addr : a2", "t_addr : {a2[2], a2[0], a2[1]}", False),
    ("a bit of the chip's address is open", "two", "t_addr : a;", "t_addr : {a[2], 1'b0, a[0]};", False),
    ("scan_mode leaves the enables", "two", "scan_mode ? {1{1'b1}} : ", "", False),
    ("scan_mode leaves the other port", "two", "q2 = scan_mode ? second_bypass : ", "q2 = ", False),
    ("the supply is not fixed in test", "two", "test ? 1'h0 : sleep", "sleep", False),
    ("the other clock stands in test", "two", "test ? clk : ck2", "ck2", False),
    ("both ports are on in a write", "two", "second_on = t_en & second & ~t_we", "second_on = t_en & second", False),
    ("an enable is always on in test", "two", "m_ce = test ? ~first_on", "m_ce = test ? 1'b0", False),
    ("the other port is always on in test", "two", "m_ce2 = test ? ~second_on", "m_ce2 = test ? 1'b0", False),
    ("the other port is always on in use", "two", "~second_on : ce2", "~second_on : 1'b0", False),
    ("scan_mode leaves the write enable", "two", "g_we = scan_mode ? {1{1'b1}} : m_we", "g_we = m_we", False),
    ("the other clock is the test's in use", "two", ".ck2(test ? clk : ck2)", ".ck2(clk)", False),
    ("a command is never idle", "slow", "t_en = t_en_1", "t_en = 1'b1", False),
    ("the second session reads the first port", "two", "second ? second_answer : ", "", False),
    ("the lanes do not count", "two", "run_fail | lanes_fail", "run_fail", True),
    ("the second session is left out", "two", "phase == 3'd3", "phase == 3'd2", True),
    ("what was found is not kept", "two", "kept <= kept | ", "kept <= ", True),
    ("the lanes of the other port are left out", "both", "phase >= 3'd2", "phase >= 3'd2 & ~phase[0]", True),
    (
        "the macro answers a cycle earlier than the description says",
        "slow",
        "q = answers_1[2]",
        "q = answers_1[1]",
        False,
    ),
    ("a register of the answers is left out", "slow", "returned = returned_1", "returned = judged", False),
    ("a bit of the chip's answer hangs on another", "both", "q = first_answer", f"q = {hung('first_answer')}", False),
    ("a bit of what the chip writes hangs on another", "both", "t_wdata : d", f"t_wdata : {hung('d')}", False),
    (
        "two bits of the chip's other answer are crossed",
        "both",
        "p = second_answer",
        f"p = {crossed('second_answer')}",
        False,
    ),
    ("a bit of the test's answer hangs on another", "both", "rdata = returned", f"rdata = {hung('returned')}", True),
    (
        "a bit that the controller takes hangs on another",
        "both",
        ".rdata(bist_taken)",
        f".rdata({hung('bist_taken')})",
        True,
    ),
    (
        "two bits of what the test writes are crossed",
        "both",
        "t_wdata = s_wdata",
        f"t_wdata = {crossed('s_wdata')}",
        True,
    ),
    (
        "a bit of what the other port writes hangs on another",
        "both",
        "m_e = test ? t_wdata",
        "m_e = test ? {t_wdata[3:1], t_wdata[1]}",
        True,
    ),
    ("the lanes are compared in the low half alone", "both", "(rdata != want_2)", "(rdata[1:0] != want_2[1:0])", True),
    (
        "a lane of the other port stands open in writes of zeros",
        "both",
        "t_lanes_1)",
        "(t_lanes_1 | {{~t_wdata[0], 1'b0}}))",
        True,
    ),
    (
        "the lanes are tried at the first address alone",
        "both",
        "s_addr = lanes_go ? l_addr",
        "s_addr = lanes_go ? 3'd0",
        False,
    ),
    (
        "the machine of the lanes stays at the first address",
        "both",
        "if (is_last) place <= 1'b1",
        "place <= 1'b0",
        False,
    ),
    ("the supply is another in test", "two", "test ? 1'h0 : sleep", "test ? 1'h1 : sleep", False),
    ("the high part's address is open", "lower", ".addr(high_addr)", ".addr()", False),
    (
        "the high part reads the low one",
        "lower",
        "high_rdata = returned[7:3]",
        "high_rdata = {2'd0, returned[2:0]}",
        False,
    ),
    ("the high part does not count", "lower", "low_fail | high_fail", "low_fail", True),
    ("parts out of step do not count", "lower", " | apart_kept", "", True),
    ("an enable hangs on the chip's pin of another memory", "six", ".cea(dual_cea)", ".cea(bytes_cen)", False),
    ("the other clocks of two memories are swapped", "joins", ".clkb(left_clkb)", ".clkb(right_clkb)", False),
    ("a further clock hangs on that of another memory", "joins", ".clkc(right_clkc)", ".clkc(left_clkc)", False),
    ("a memory is enabled always in test", "joins", ".bist_en(n_left_en)", ".bist_en(1'b1)", False),
    ("two chips' tests run at once", "joins", "reset(~chip_0_on)", "reset(~test)", True),
    ("a pin of the chip hangs on that of another memory", "joins", ".sleep(left_sleep)", ".sleep(right_sleep)", False),
    ("the chip's write is never idle", "six", ".w(late_w)", ".w(1'b1)", False),
    ("an address hangs on the chip's pin of the other port", "six", ".ab(dual_ab)", ".ab(dual_aa)", False),
    (
        "a bit that a chip takes hangs on another",
        "six",
        "_taken = n_late_rdata",
        "_taken = n_late_rdata & ~12'h8 | {8'd0, n_late_rdata[2], 3'd0}",
        True,
    ),
    ("a failure is told a cycle late", "two", "fail = test & (kept | run_fail", "fail = test & (kept & run_fail", True),
    ("a failure is told with the next one alone", "both", "kept <= kept | run_fail", "kept <= kept & run_fail", True),
    ("a failure of the whole is told a cycle late", "joins", "fail = test ? kept_ | now", "fail = test ? kept_", True),
    ("a failure of the whole is not kept", "joins", "kept_ <= kept_ | now", "kept_ <= now", True),
    ("an answer doesn't reach the chip", "six", ".q(rest_q)", ".q()", False),
]
# what is said of some of them
SAID = {
    "the macro answers a cycle earlier than the description says": (
        "behind 1 cycle: latency 3 fits, and the description says 4"
    )
}


def made_system(bench: Bench, name: str) -> pathlib.Path:
    """The folder of a right module that joins the collars of an example."""
    pins = sorted(str(path.relative_to(ROOT)) for path in (ROOT / "examples" / name).glob("*.pins"))
    bench.run(["tools/top", f"examples/{name}/{name}.chip", *pins, f"wrong/{name}/made"])
    return bench.folder / "wrong" / name / "made"


def made(bench: Bench, name: str) -> pathlib.Path:
    """The folder of a right collar with its controllers."""
    folder = bench.folder / "wrong" / name
    folder.mkdir(parents=True)
    (folder / "c.m").write_text(MARCH)
    (folder / "ram.pins").write_text(PINS[name])
    for memory in OF[name]:
        (folder / f"{memory}.mem").write_text(MEMORIES[memory])
    words = [f"wrong/{name}/{memory}.mem" for memory in OF[name]]
    bench.run(["tools/collar", *words, "--macro", f"wrong/{name}/ram.pins", f"wrong/{name}/made"])
    if name == HELD:
        model = folder / "made" / "held.v"
        model.write_text(model.read_text(encoding="utf-8").replace("{4{1'bx}}", "answers_1[1]"), encoding="utf-8")
    for memory, word in zip(OF[name], words):
        bench.run(
            [
                "./vidlakost",
                "compile",
                f"wrong/{name}/c.m",
                word,
                "empty.list",
                f"wrong/{name}/made/{memory}_bist.v",
                "report",
            ]
        )
    return folder / "made"


def call(name: str, is_planted: bool) -> list[str]:
    build = f"cd wrong/{name} && iverilog -g2012 -o tb -c files.f && vvp -n tb"
    return ["bash", "-c", build + (" +planted" if is_planted else "")]


def is_told(bench: Bench, right: pathlib.Path, number: int) -> None:
    """What is wrong does not pass."""
    what, name, old, new, is_planted = WRONG[number]
    folder = right.parent.parent / str(number)
    shutil.copytree(right, folder)
    module = folder / (f"{name}_system.v" if name in SYSTEMS else f"{name}_collar.v")
    if name == HELD and old not in module.read_text(encoding="utf-8"):
        module = folder / "held.v"
    text = module.read_text(encoding="utf-8")
    bench.is_so(old in text, f"{what}: {old!r} does not stand in the module")
    module.write_text(text.replace(old, new), encoding="utf-8")
    done = bench.run(call(str(number), is_planted))
    is_told = done.returncode == 1 and "FATAL" in done.stdout and SAID.get(what, "") in done.stdout
    bench.is_so(is_told, f"{what} is not told: {done.stdout}{done.stderr}")


def modules(bench: Bench) -> None:
    """Right collars and what joins them pass, and wrong ones do not."""
    if not shutil.which("iverilog"):
        print("iverilog is not installed, so no wrong collar is run")
        return
    right = {**{name: made(bench, name) for name in PINS}, **{name: made_system(bench, name) for name in SYSTEMS}}
    for name in right:
        for is_planted in (False, True):
            done = bench.run(call(f"{name}/made", is_planted))
            bench.is_so(not done.returncode, f"{name}: {done.stdout}{done.stderr}")
    with concurrent.futures.ThreadPoolExecutor(os.cpu_count()) as workers:
        list(workers.map(lambda number: is_told(bench, right[WRONG[number][1]], number), range(len(WRONG))))


PARTS = (modules,)
