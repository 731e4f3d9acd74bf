"""What `python3 -m tests.integration` does with the list of pins that a self-test does not see: each bit of each pin of
a macro stands still in test, at 0 and at 1. The test of each pin that is not told has to fail, and that of a pin that
is told has to pass for some bit."""
from __future__ import annotations

import concurrent.futures
import os
import pathlib
import re
import shutil

from tests.integration.bench import Bench
from vidlakost_tools.collar.pin_lines import read_macro
from vidlakost_tools.collar.pins import Macro, Pin, Word, pin_width
from vidlakost_tools.collar.planted import some_of
from vidlakost_tools.collar.untested import untested
from vidlakost_tools.program import ROOT
from vidlakost_tools.texts.memory import read_memory

CASE = "examples/joins"
# the memories of each collar, and its march
COLLARS = {name: [name] for name in ("masked", "left", "both", "kept", "late")}
COLLARS["low"] = ["low", "high"]
MARCHES = {"kept": "hold.m"}


def stuck(text: str, macro: Macro, word: Word, name: str, bit: int, value: int) -> str:
    """The model of a macro with a bit of a pin that stands still in test, by a module round it."""
    head = text[text.index(f"module {macro.name}") : text.index(");") + 2]
    inner = text.replace(f"module {macro.name}", f"module {macro.name}_inner", 1)
    found = re.search(rf"^  (input|output) (?:\[(\d+):0\] )?{name}\b", head, re.MULTILINE)
    if found is None:
        return ""
    # supplies stand under a define, which is not set
    ports = re.findall(r"^  (?:input|output) (?:\[\d+:0\] )?(\w+)", head, re.MULTILINE)
    width, is_input = int(found[2] or 0) + 1, found[1] == "input"
    test = f"{word.name}_collar_tb.test"
    still = f"({'{source}'} & ~({width}'d1 << {bit})) | ({width}'d{value} << {bit})"
    lines = [head, f"  wire {f'[{width - 1}:0] ' if width > 1 else ''}still_net;"]
    source = name if is_input else "still_net"
    chosen = f"{test} === 1'b1 ? {still.format(source=source)} : {source}"
    lines.append(f"  assign {'still_net' if is_input else name} = {chosen};")
    links = ", ".join(f".{port}({'still_net' if port == name else port})" for port in ports)
    return "\n".join([inner, *lines, f"  {macro.name}_inner inner({links});", "endmodule", ""])


def bits_of(pin: Pin) -> list[tuple[str, int]]:
    """Each bit of a pin as the model's port and the bit of it."""
    if pin.bits:
        return [(name, 0) for name in pin.bits]
    width = pin_width(pin) or 1
    return [(pin.name, bit) for bit in (some_of(pin.name, width) if width > 8 else range(width))]


def made(bench: Bench, name: str) -> tuple[pathlib.Path, Macro, Word]:
    """The folder of a collar with its controllers."""
    memories = [f"{CASE}/{one}.mem" for one in COLLARS[name]]
    folder, pins = bench.folder / "untested" / name, f"{CASE}/{name}.pins"
    done = bench.run(["tools/collar", *memories, "--macro", pins, str(folder)])
    bench.is_so(not done.returncode, f"{name}: {done.stderr}")
    for one, memory in zip(COLLARS[name], memories):
        march = f"{CASE}/{MARCHES.get(name, 'march.m')}"
        bench.run(["./vidlakost", "compile", march, memory, "empty.list", str(folder / f"{one}_bist.v"), "report"])
    word = Word([read_memory(str(ROOT / memory)) for memory in memories])
    return folder, read_macro(str(ROOT / pins), word), word


def passes(bench: Bench, right: pathlib.Path, macro: Macro, word: Word, place: tuple[str, int, int]) -> bool:
    """Whether the test passes while a bit of a pin stands still."""
    folder = right.parent / ("_".join(map(str, (word.name, *place))))
    shutil.copytree(right, folder)
    model = folder / f"{macro.name}.v"
    text = model.read_text(encoding="utf-8")
    model.write_text(stuck(text, macro, word, *place) or text, encoding="utf-8")
    done = bench.run(["bash", "-c", f"cd {folder} && iverilog -g2012 -o tb -c files.f && vvp -n tb"])
    is_found = f"{word.name}: fail is 1" in done.stdout or f"{word.name}: fail is x" in done.stdout
    is_passed = not done.returncode and f"{word.name}: passes" in done.stdout
    bench.is_so(is_passed or is_found, f"{word.name} with {place}: {done.stdout}{done.stderr}")
    shutil.rmtree(folder)
    return is_passed


def lists(bench: Bench) -> None:
    """The pins that are told are those that the test does not see."""
    if not shutil.which("iverilog"):
        print("iverilog is not installed, so no pin is held")
        return
    for name in COLLARS:
        right, macro, word = made(bench, name)
        left = {one.pin for one in untested(macro, word)}
        for pin in [pin for pin in macro.pins if pin.name != macro.clk]:
            places = [(port, bit, value) for port, bit in bits_of(pin) for value in (0, 1)]
            with concurrent.futures.ThreadPoolExecutor(os.cpu_count()) as workers:
                found = list(workers.map(lambda place: passes(bench, right, macro, word, place), places))
            told = [f"{port}[{bit}] at {value}" for (port, bit, value), is_passed in zip(places, found) if is_passed]
            listed = "" if pin.name in left else "not "
            bench.is_so(bool(told) == (pin.name in left), f"{name}: {pin.name} is {listed}told, and passes: {told}")


PARTS = (lists,)
