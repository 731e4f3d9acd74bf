"""Why the escapes of a report escape: a plain model replays each of them, also those of dynamic primitives.

usage: vidlakost trace REPORT                    a line for each escape: the reason
       vidlakost trace REPORT --memory MEMORY    the same for a report of `inword`; MEMORY has its backgrounds
       vidlakost trace REPORT --steps            also each operation, with the cells after it
       vidlakost trace REPORT PRIM ..            the escapes of these primitives alone
       vidlakost trace REPORT --calls|--run      a call of `sim` for each escape, which replays it; --run also runs it
       vidlakost trace --help

An escape has one of these reasons. It never acts. Or it acts, and a write hides it before a read of the victim. Or it
acts, and nothing reads the victim again. Or, inside a word, the write in which it acts sets the victim as the fault
does. In a table of steps `*` marks where it acts, and after the cells comes what a read answers. In a report of
`decoder` a PRIM is the name of a fault, as 'both and', and the steps say which of its two addresses is visited. In a
report of `linked` it is a link, as 'LF1 <0w1/0/-> <0w0/1/->', and the number of the primitive that acts replaces the
`*`. Inside a word the cells are two bits, the aggressor's first. An operation is the march's; the two digits after it
are what it writes or expects in the background. Of an escape in both readings the steps show the reading `before`.
The calls name a file with the march, REPORT.m, which trace writes beside the report. A dynamic escape has no call, and
--run replays it in a plain model of the definition. trace ends with 1 if a read differs at an escape, which happens in
no report of the program. `vidlakost replay REPORT` is --calls."""
from __future__ import annotations

import os
import pathlib
import shlex
from typing import Iterator, List, Tuple, Union

from vidlakost_tools.folder import write_whole
from vidlakost_tools.program import ask
from vidlakost_tools.text import Path
from vidlakost_tools.texts import decoder, in_word, linked, reasons
from vidlakost_tools.texts.decoder import DecoderReport, DecoderVerdict
from vidlakost_tools.texts.faults import Step
from vidlakost_tools.texts.in_word import InWordReport
from vidlakost_tools.texts.linked import LinkVerdict, LinkedReport, LinkedStep
from vidlakost_tools.texts.memory import Memory, read_memory
from vidlakost_tools.texts.report import Report, Verdict, read_report
from vidlakost_tools.tool import ToolError, usage_of, words_of

AnyReport = Union[Report, DecoderReport, LinkedReport, InWordReport]


def read_any(path: Path) -> AnyReport:
    """A report of any kind."""
    if decoder.is_report(path):
        return decoder.read_report(path)
    if linked.is_report(path):
        return linked.read_report(path)
    return in_word.read_in_word(path) if in_word.is_in_word(path) else read_report(path)


def shown(verdict: Verdict | DecoderVerdict | LinkVerdict, step: Step) -> str:
    """A line of the table."""
    place = "start" if step.element is None else f"element {step.element}"
    cell = ""
    if step.cell is not None:
        cell = verdict.place(step.cell) if isinstance(verdict, DecoderVerdict) else f"cell {step.cell}"
    answer = "" if step.answer is None else f"reads {step.answer}"
    mark = str(step.acting) if isinstance(step, LinkedStep) and step.acts else "*" if step.acts else " "
    return f"  {place:11} {step.operation:4} {cell:7} {step.cells} {mark} {answer}".rstrip()


def memory_of(report: InWordReport, name: str | None) -> Memory:
    """The memory of a report of `inword`; it has to be the one that the report names."""
    if name is None:
        raise ToolError("this is a report of `inword`: give its memory by --memory MEMORY")
    memory = read_memory(name)
    told = {"name": memory.name, "words": memory.words, "bits": memory.bits, "backgrounds": len(memory.backgrounds)}
    if told != {key: report.memory[key] for key in told}:
        raise ToolError(f"{name} is not the memory of the report, which is {report.memory['name']}")
    return memory


# an escape: its primitive, the line about it, whether a read differs, and its steps as lines
Told = Iterator[Tuple[str, str, bool, List[str]]]


def inside_word(report: InWordReport, memory: Memory) -> Told:
    for verdict in report.escapes:
        why, steps = in_word.reason(verdict, report.elements, memory)
        bits = f"aggressor {verdict.aggressor} victim {verdict.victim} reading {verdict.reading}"
        said = f"{verdict.primitive} {verdict.kind} {bits}: {why}"
        yield verdict.primitive, said, steps[-1].differs, [in_word.shown(step, memory) for step in steps]


def links(report: LinkedReport) -> Told:
    for verdict in report.escapes:
        why, steps = linked.reason(verdict, report.elements)
        yield verdict.primitive, f"{verdict.primitive}: {why}", steps[-1].differs, [
            shown(verdict, step) for step in steps
        ]


def between_words(report: Report | DecoderReport) -> Told:
    for verdict in report.escapes:
        if isinstance(verdict, DecoderVerdict):
            why, steps = decoder.reason(verdict, report.elements)
        else:
            why, steps = reasons.reason(verdict, report.elements)
        yield verdict.primitive, f"{verdict.primitive} {verdict.kind}: {why}", steps[-1].differs, [
            shown(verdict, step) for step in steps
        ]


def march_file(report: Report, path: pathlib.Path) -> pathlib.Path:
    """Makes the file with the report's march beside the report; a file with another text stays as it is."""
    march = path.with_name(path.name + ".m")
    text = report.march + "\n"
    if not os.path.lexists(march):
        write_whole(march, text)
    elif march.read_bytes() != text.encode():
        raise ToolError(f"{march} is there, and does not hold the report's march; move it away first")
    return march


def outcome(verdict: Verdict, report: Report, words: List[str]) -> str:
    """The answer of a run in the array of an escape: from the program, or from the model for a dynamic primitive."""
    if not verdict.is_dynamic:
        return ask(*words)
    last = list(verdict.array().march(report.elements, verdict.directions))[-1]
    return f"caught element {last.element} address {last.cell}" if last.differs else "passes"


def replay(name: str, runs: bool) -> int:
    """The calls of `sim` that replay the escapes, and the answer of each."""
    path = pathlib.Path(name)
    report = read_report(path)
    march = march_file(report, path)
    caught = 0
    for verdict in report.escapes:
        words = verdict.words(march)
        if verdict.is_dynamic:
            aggressor = "none" if verdict.aggressor is None else verdict.aggressor
            print(
                f"# {verdict.primitive} {verdict.kind} in {len(verdict.content)} cells {verdict.content}, aggressor "
                f"{aggressor}, victim {verdict.victim}, directions {verdict.directions}"
            )
        else:
            print("vidlakost", shlex.join(words))
        if runs:
            said = outcome(verdict, report, words)
            print(f"  {said}")
            caught += said != "passes"
    return 1 if caught else 0


def main(arguments: list[str]) -> int:
    (name, *chosen), options = words_of(__doc__, arguments, {"--steps": 0, "--memory": 1, "--calls": 0, "--run": 0}, 1)
    if {"--calls", "--run"} & set(options):
        if chosen or {"--steps", "--memory"} & set(options):
            raise ToolError(f"--calls and --run take a report and nothing else\n{usage_of(__doc__)}")
        return replay(name, "--run" in options)
    report = read_any(name)
    missing = [word for word in chosen if word not in {verdict.primitive for verdict in report.escapes}]
    if missing:
        raise ToolError(f"{name} has no escape of {missing[0]}")
    if isinstance(report, InWordReport):
        told = inside_word(report, memory_of(report, options.get("--memory")))
    elif "--memory" in options:
        raise ToolError("--memory is for a report of `inword`")
    else:
        told = links(report) if isinstance(report, LinkedReport) else between_words(report)
    caught = 0
    for primitive, said, differs, steps in told:
        if not chosen or primitive in chosen:
            caught += differs
            print("\n".join([said, *(steps if "--steps" in options else [])]))
    return 1 if caught else 0
