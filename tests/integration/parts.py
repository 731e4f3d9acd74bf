"""The parts of the test of the launcher and the tools, by their names."""
from __future__ import annotations

import concurrent.futures
import os
import pathlib
import random
import re
import shutil
import signal
import tempfile
from typing import Callable

from tests.integration import (
    access,
    access_calls,
    audit,
    check_calls,
    collar as collars,
    collar_calls,
    design as designs,
    ends,
    explore,
    failing,
    files,
    harm,
    hostile,
    hostile_calls,
    joined,
    judges_calls,
    own_tap,
    refusal_calls,
    report_calls,
    search as searches,
    sharing,
    tester,
    timing,
    tool_calls,
    twins,
    untested as left_out,
    vendors,
    vhdl as standards,
    wrong,
)
from tests.integration.bench import Bench
from tests.integration.call import Call
from tests.integration.primitives import PRIMITIVES
from vidlakost_tools import tasks
from vidlakost_tools.program import ROOT, command_table, quick_program
from vidlakost_tools.refusals import explained as diagnose
from vidlakost_tools.texts.march import Element, elements_of
from vidlakost_tools.texts.memory import parse_memory
from vidlakost_tools.texts.random_cases import changed
from vidlakost_tools.texts.report import Verdict, read_report
from vidlakost_tools.tool import ToolError

TOOLS = ROOT / "tools"
# the calls of tools, by what they try
TABLES = (
    report_calls,
    tool_calls,
    access_calls,
    audit,
    judges_calls,
    hostile_calls,
    tester,
    joined,
    collar_calls,
)


def side_by_side(bench: Bench, calls: list[Call]) -> None:
    """Looks at calls that don't disturb one another, as many at once as there are processors."""
    with concurrent.futures.ThreadPoolExecutor(os.cpu_count()) as workers:
        list(workers.map(bench.look_at, calls))


def refusals(bench: Bench) -> None:
    """Each refusal of the program, explained by the launcher."""
    side_by_side(bench, [*refusal_calls.REFUSALS, *check_calls.CHECKS])
    first = refusal_calls.REFUSALS[0]
    bench.look(first.words, first.status, first.prints, "", VIDLAKOST_EXPLAIN="0")
    done = bench.run(first.words)
    bench.is_so(done.stderr == refusal_calls.WHOLE, f"{first.line} says {done.stderr!r} on standard error")


def data_loss(bench: Bench) -> None:
    """A word that is written and is one file with another is refused, and the file stays."""
    before = (bench.folder / "c.m").read_bytes()
    (bench.folder / "link.m").symlink_to("c.m")
    os.link(bench.folder / "c.m", bench.folder / "hard.m")
    for other in ("./c.m", "link.m", "hard.m", str(bench.folder / "c.m"), "./../" + bench.folder.name + "/c.m"):
        bench.look(
            ["./vidlakost", "judge", "c.m", "tf.list", other], 2, "", f"vidlakost: 'c.m' and '{other}' are one file"
        )
    bench.look(
        ["./vidlakost", "compile", "c.m", "s.mem", "tf.list", "made.v", "./made.v"],
        2,
        "",
        "vidlakost: './made.v' and 'made.v' are one file",
    )
    bench.is_so((bench.folder / "c.m").read_bytes() == before, "a march was overwritten")
    bench.look(["./vidlakost", "judge", "c.m", "tf.list", "/dev/stdout"], 0, "total 2 covered 2 escapes 0", "")
    unsaid = "vidlakost: error: the line of the answer could not be written"
    for call in (
        "./vidlakost bench c.m s.mem >/dev/full",
        "./vidlakost bench c.m s.mem >&-",
        "./vidlakost vectors c.m s.mem /dev/stdout >/dev/full",
    ):
        bench.look(["bash", "-c", call], 8, "", unsaid)
    bench.look(["bash", "-c", "./vidlakost judge wrong.m tf.list out >/dev/full"], 3, "", "wrong.m:2:5: error:")
    bench.look(["bash", "-c", "./vidlakost vectors c.m s.mem /dev/stdout 2>/dev/null | head -n 1"], 0, "w 0 0", "")


def written_words(bench: Bench) -> None:
    """Of each command the launcher refuses a word that is written and is one file with another."""
    for command in command_table():
        for place in command.written:
            words = [command.name, *(f"word{count}" for count in range(1, len(command.form)))]
            first = command.files[0]
            other = first if place != first else first + 1
            words[other], words[place] = "one.file", "./one.file"
            # the first of two words that are written is named last
            swapped = other < place and other in command.written
            pair = "'./one.file' and 'one.file'" if swapped else "'one.file' and './one.file'"
            bench.look(["./vidlakost", *words], 2, "", f"vidlakost: {pair} are one file")


def tools(bench: Bench) -> None:
    """Each tool: its help, wrong words, and the table of calls."""
    shared = {command.name for command in command_table()} & set(tasks.tools())
    bench.is_so(not shared, f"a tool and a command have one name: {shared}")
    names = sorted(
        path.name
        for path in TOOLS.iterdir()
        if path.is_file() and os.access(path, os.X_OK) and path.name not in tasks.OLD
    )
    calls = [Call(f"tools/{name} --help", prints=f"usage: vidlakost {name}") for name in names]
    calls += [Call(f"./vidlakost help {name}", prints=f"usage: vidlakost {name}") for name in names]
    calls += [Call(f"tools/{name} --nothing", status=2, says=f"{name}: there is no option --nothing") for name in names]
    for table in TABLES:
        calls += table.CALLS
    for need in sorted({need for call in calls for need in call.missing()}):
        print(f"{need} is not installed, so the calls that need it are left out")
    side_by_side(bench, [call for call in calls if not call.missing()])


def closed_pipes(bench: Bench) -> None:
    """A reader that closes the pipe ends a tool without a word."""
    for call in tool_calls.PIPED:
        bench.count += 1
        done = bench.run(["bash", "-c", f"set -o pipefail; {call} | head -n 1"])
        if done.stderr or not done.stdout:
            bench.tell(call, "a closed pipe is told", done)


def random_directions(chance: random.Random, elements: list[Element]) -> str:
    return "".join(
        {"up": "u", "down": "d", "del": "u"}.get(element.order) or chance.choice("ud") for element in elements
    )


def random_instance(chance: random.Random, primitive: str, kind: str, elements: list[Element]) -> Verdict:
    """A primitive at random cells of an array of two to six, with a random content and random directions."""
    size = chance.randint(2, 6)
    victim, other = chance.sample(range(size), 2)
    content = "".join(chance.choice("01") for _ in range(size))
    return Verdict(
        primitive, kind, other if ";" in primitive else None, victim, content, random_directions(chance, elements)
    )


def model_and_sim(bench: Bench) -> None:
    """The plain model answers as `sim` does, on random calls."""
    chance = random.Random(4)
    for _ in range(150):
        march, primitive = chance.choice(files.MARCHES), chance.choice(PRIMITIVES)
        elements = elements_of(march)
        verdict = random_instance(chance, primitive, "", elements)
        (bench.folder / "random.m").write_text(march)
        steps = list(verdict.array().march(elements, verdict.directions))
        last = steps[-1]
        visit = [step.operation for step in steps if (step.element, step.cell) == (last.element, last.cell)]
        wanted = (
            f"caught element {last.element} address {last.cell} operation {len(visit) - 1}"
            if last.differs
            else "passes"
        )
        said = bench.run([bench.environment["VIDLAKOST_PROGRAM"], *verdict.words("random.m")]).stdout.strip()
        bench.is_so(said == wanted, f"{verdict.words(march)}: sim says {said}, and the model {wanted}")


def model_and_verdicts(bench: Bench) -> None:
    """In the array of each escape, static or dynamic, the plain model passes; of what is covered it catches instances
    at random cells."""
    chance = random.Random(6)
    (bench.folder / "every.list").write_text("all\nDRF\ndyn1\ndyn2\n")
    for name in ("march_c_minus.m", "march_raw.m", "march_g.m"):
        bench.run(["./vidlakost", "judge", f"examples/marches/{name}", "every.list", "every.report"])
        report = read_report(bench.folder / "every.report")
        for verdict in report.verdicts:
            tried = (
                [random_instance(chance, verdict.primitive, verdict.kind, report.elements) for _ in range(4)]
                if verdict.covered
                else [verdict]
            )
            for instance in tried:
                last = list(instance.array().march(report.elements, instance.directions))[-1]
                bench.is_so(
                    last.differs == verdict.covered,
                    f"{name}: the report says {verdict}, and the model is otherwise at {instance}",
                )


def told_by_icarus(bench: Bench, words: list[str]) -> str:
    """What the testbench with a planted fault prints, as `benchfault` says it."""
    bench.run(["tools/testbench", *words])
    done = bench.run(["bash", "-c", "cd planted && iverilog -g2005 -o tb s_tb.v s_bist.v && vvp -n tb"])
    lines = [line for line in done.stdout.splitlines() if re.match("differs|read|fail", line)]
    reads = [line[len("read ") :] for line in lines if line.startswith("read")]
    return " ".join([line for line in lines if not line.startswith("read")] + reads)


def testbench_and_benchfault(bench: Bench) -> None:
    """Beside the memory of the testbench, in Icarus, a planted fault is seen in the very cycle and by the very words
    that `benchfault` says."""
    if not shutil.which("iverilog"):
        print("iverilog is not installed, so the testbench is not compared with benchfault")
        return
    chance, memory = random.Random(8), parse_memory(files.FILES["scrambled.mem"])
    for number in range(10):
        (bench.folder / "planted.m").write_text(chance.choice(files.MARCHES))
        primitive, cells = chance.choice(PRIMITIVES), [
            f"{word}.{chance.randrange(memory.bits)}" for word in chance.sample(range(memory.words), 2)
        ]
        aggressor = cells[1] if ";" in primitive else "none"
        said = bench.run(
            ["./vidlakost", "benchfault", "planted.m", "scrambled.mem", primitive, aggressor, cells[0]]
        ).stdout.strip()
        words = ["planted.m", "scrambled.mem", "planted", "--fault", primitive, "--victim", cells[0]]
        words += ["--stream"] if number % 2 else []
        (bench.folder / "planted").mkdir(exist_ok=True)
        bench.run(
            ["./vidlakost", "compile", "planted.m", "scrambled.mem", "tf.list", "planted/s_bist.v", "planted.report"]
        )
        told = told_by_icarus(bench, words + (["--aggressor", aggressor] if aggressor != "none" else []))
        bench.is_so(told == said, f"{' '.join(words)}: benchfault says {said}, and the testbench {told}")


def refusal_of(bench: Bench, lines: list[str]) -> str:
    """What the program says of a module."""
    (bench.folder / "rule.v").write_text("\n".join(lines))
    return bench.run([bench.environment["VIDLAKOST_PROGRAM"], "benchfile", "rule.v", "c.m", "huge.mem"]).stdout.strip()


def places_of_rules(bench: Bench) -> None:
    """The place that is told of a broken rule is in the first item that breaks it: the module cut behind that item is
    refused in the same way, and the one cut before it is not."""
    chance, looked = random.Random(9), 0
    bench.run(["./vidlakost", "compile", "c.m", "scrambled.mem", "tf.list", "rules.v", "rules.report"])
    text = (bench.folder / "rules.v").read_text()
    while looked < 40:
        lines = changed(text, chance).split("\n")
        said = refusal_of(bench, lines)
        if not re.match(r"verilog N(?!7|9)", said):
            continue
        looked += 1
        told = diagnose.lines(["benchfile", str(bench.folder / "rule.v"), "c.m", "huge.mem"], said, 14)
        match = re.match(r".*rule\.v:(\d+):\d+: error: ", told[0])
        if not match or int(match[1]) <= lines.index(");"):
            bench.is_so(match is not None, f"{said}: {told[0]} names no place")
            continue
        begin = end = int(match[1]) - 1
        while not re.match("  (wire|reg|assign|always)", lines[begin]):
            begin -= 1
        while not re.match(r"  \S.*;$|  end$", lines[end]):
            end += 1
        cut = [refusal_of(bench, [*lines[:kept], "endmodule", ""]) for kept in (end + 1, begin)]
        bench.is_so(cut[0] == said != cut[1], f"{said}, {told[0]}: cut behind the item {cut[0]}, before it {cut[1]}")


def rows_and_reads(bench: Bench) -> None:
    """A read is located where `vectors` has it, and a summary's cycles are those of `bench`."""
    os.environ.update(VIDLAKOST_PROGRAM=bench.environment["VIDLAKOST_PROGRAM"])
    memory = parse_memory(files.FILES["scrambled.mem"])
    elements = elements_of(files.FILES["c.m"])
    bench.run(["./vidlakost", "vectors", "c.m", "scrambled.mem", "scrambled.vectors"])
    rows = (bench.folder / "scrambled.vectors").read_text().splitlines()
    for cycle in (5, 17, 30, 41, len(rows)):
        kind, address, _ = rows[cycle - 1].split()
        done = bench.run(["tools/locate", "c.m", "scrambled.mem", str(cycle + memory.latency)])
        told = f"address {address}\n" in done.stdout if kind == "r" else done.returncode == 2
        bench.is_so(
            told, f"the command of cycle {cycle} is {rows[cycle - 1]}, and tools/locate says {done.stdout}{done.stderr}"
        )
    said = bench.run(["./vidlakost", "bench", "c.m", "scrambled.mem"]).stdout.split()
    bench.is_so(
        said[:3] == ["fail", "0", "done"] and int(said[3]) + 1 == memory.cycles(elements),
        f"bench says {said}, and tools/summary {memory.cycles(elements)}",
    )
    turned = memory.way_back()
    for index in range(memory.words):
        place = memory.address_of(index)
        back = sum(
            (sum(place >> bit & 1 for bit in bits) + constant) % 2 << i for i, (bits, constant) in enumerate(turned)
        )
        bench.is_so(back == index, f"index {index} has address {place}, and the way back leads to {back}")


def hear_signals() -> None:
    """Where a shell or `nohup` had a signal ignored, what is begun here hears it all the same."""
    for number in (signal.SIGINT, signal.SIGHUP):
        if signal.getsignal(number) == signal.SIG_IGN:
            signal.signal(number, lambda *_: None)


ALL: tuple[Callable[[Bench], None], ...] = (
    refusals,
    data_loss,
    written_words,
    tools,
    closed_pipes,
    model_and_sim,
    model_and_verdicts,
    testbench_and_benchfault,
    places_of_rules,
    rows_and_reads,
    hostile.controllers,
    hostile.launcher,
    hostile.killed_launcher,
    hostile.warnings,
    hostile.testbenches,
    *harm.PARTS,
    *explore.PARTS,
    *searches.PARTS,
    *designs.PARTS,
    *access.PARTS,
    *tester.PARTS,
    *failing.PARTS,
    *own_tap.PARTS,
    *joined.PARTS,
    *standards.PARTS,
    *collars.PARTS,
    *vendors.PARTS,
    *sharing.PARTS,
    *timing.PARTS,
    *wrong.PARTS,
    *twins.PARTS,
    *left_out.PARTS,
    *ends.PARTS,
)


def name_of(part: Callable[[Bench], None]) -> str:
    """The module and the name of a part, or its name alone where it is of this module."""
    module = part.__module__.rsplit(".", 1)[-1]
    return part.__name__ if module == "parts" else f"{module}_{part.__name__}"


PARTS = {name_of(part): part for part in ALL}


def tried(name: str, is_long: bool = False) -> Bench:
    """The bench of a part behind its looks, in a folder of its own that is gone by then."""
    hear_signals()
    program = quick_program()
    if program is None:
        raise ToolError("no proved program is here; ./vidlakost --prove makes one", 125)
    with tempfile.TemporaryDirectory() as folder:
        bench = Bench(pathlib.Path(folder), str(pathlib.Path(program).resolve()), is_long)
        PARTS[name](bench)
        return bench
