"""The page's questions, which the program answers: verdicts, what can come at a place, an escape step by step, a
memory, and the files to save.

A question is an object of JSON, and so is its answer. A text that the program refuses is no failure: its answer is
`refused`, with the place and the words of the launcher's explanation."""
from __future__ import annotations

import dataclasses
import itertools
import os
import pathlib
import re
from typing import Sequence

from vidlakost_tools.explorer.caught import Catch, catches
from vidlakost_tools.explorer.questions import Folder, Object, Wrong, refusable, text_in
from vidlakost_tools.pages import cycles_picture
from vidlakost_tools.program import FORMATS, ROOT, ask, is_proved, run, settle, version, with_text
from vidlakost_tools.refusals.finding import CLASSES, SHOWN, Trier, word_start
from vidlakost_tools.text import lines_of, read_text
from vidlakost_tools.texts import decoder, in_word, linked, reasons
from vidlakost_tools.texts.decoder import DecoderReport, DecoderVerdict, decoded
from vidlakost_tools.texts.faults import Step
from vidlakost_tools.texts.linked import LinkVerdict, LinkedReport, LinkedStep
from vidlakost_tools.texts.march import Element, length_of, march_of
from vidlakost_tools.texts.memory import Memory, read_memory
from vidlakost_tools.texts.old_names import apart
from vidlakost_tools.texts.report import Report, Verdict, judged, read_report
from vidlakost_tools.tool import Refused


# how long a call of the program may take; on a calm machine it answers in milliseconds
SECONDS = 60.0
DYNAMIC = ["DYN1", "DYN2"]
# the words for classes in a list, if they are not the names themselves
WORDS = {"DYN1": "dyn1", "DYN2": "dyn2"}
EVERY = "all\nDRF\ndyn1\ndyn2\n"
MARCHES = ROOT / "examples" / "marches"
# a primitive as a report prints it
PRIMITIVE = re.compile("<[01wrt;]{1,24}/[01]/[-01]>")
# a link as a report prints it: its kind and its two primitives
LINK = re.compile(f"({'|'.join(linked.KINDS)}) {PRIMITIVE.pattern} {PRIMITIVE.pattern}")
FIRST_MARCH = "{any(w0);up(r0,w1);down(r1,w0)}"
FIRST_MEMORY = "memory 2\nname buffer\nwords 16\nbits 8\nlatency 1\nbackgrounds log\n"


# ---- what the page begins with


def in_words() -> Object:
    """The classes in words, from the tables of FORMATS."""
    found: Object = {"DYN1": "two operations, one cell", "DYN2": "two operations, two cells"}
    inside = False
    for line in lines_of(read_text(FORMATS)):
        inside = line.startswith("| Class | In words") or inside and line.startswith("|")
        row = re.fullmatch(r"\| ([A-Z][A-Za-z, ]*) \| ([^|]*) \|", line) if inside else None
        if row and row[1] != "Class":
            found.update(zip(row[1].split(", "), apart(row[2])))
    return found


def gallery() -> list[Object]:
    """The marches of the gallery."""
    made = []
    for line in lines_of(read_text(MARCHES / "index")):
        if line and not line.startswith("#"):
            file, name, length, source, purpose = (part.strip() for part in line.split("|"))
            text = read_text(MARCHES / file).strip()
            made.append({"name": name, "length": length, "source": source, "purpose": purpose, "text": text})
    return made


def classes() -> list[Object]:
    """The classes, each with its primitives as the program lists them, and its word in a list."""
    report = with_text("any(w0)", lambda march: with_text(EVERY, lambda faults: judged(march, faults)))
    words = in_words()
    return [
        {
            "name": name,
            "word": WORDS.get(name, name),
            "means": words.get(name, ""),
            "primitives": [verdict.primitive for verdict in report.verdicts if verdict.kind == name],
        }
        for name in [*CLASSES, *DYNAMIC]
    ]


def decoder_class() -> Object:
    """The faults of the address decoder, as a class that no list has."""
    return {"name": decoder.CLASS, "means": decoder.MEANS, "primitives": list(decoder.NAMES)}


def link_classes() -> list[Object]:
    """The kinds of linked faults, as classes that no list has."""
    return [{"name": kind, "means": linked.MEANS[kind], "primitives": count} for kind, count in linked.KINDS.items()]


class Beginning:
    """What does not change while a page is open: which program answers, the gallery, the classes, and the texts that
    the page begins with."""

    def __init__(self, march: str | None, faults: str | None, memory: str | None):
        named = bool(os.environ.get("VIDLAKOST_PROGRAM") or os.environ.get("VIDLAKOST"))
        program = settle(SECONDS)
        self.told: Object = {
            "program": {
                "path": program or "the kit's rt try",
                "proved": is_proved(program, named),
                "quick": program is not None,
            },
            "version": version()[0],
            "gallery": gallery(),
            "classes": classes(),
            "decoder": decoder_class(),
            "links": link_classes(),
            "march": FIRST_MARCH if march is None else march,
            "list": faults,
            "memory": FIRST_MEMORY if memory is None else memory,
        }

    def answer(self, _: Object) -> Object:
        return self.told


# ---- verdicts


def shown_report(report: Report, of_decoder: DecoderReport | None = None) -> Object:
    """A report in the schema of `report --json`, with the elements of its march. After its verdicts come those on the
    address decoder, which its total doesn't count."""
    made = report.as_object()
    verdicts = [verdict.as_object() for verdict in report.verdicts]
    verdicts += [verdict.as_object() for verdict in of_decoder.verdicts] if of_decoder else []
    return {**made, "verdicts": verdicts, "elements": [dataclasses.asdict(element) for element in report.elements]}


@refusable
def judge(folder: Folder, question: Object) -> Object:
    """The verdicts of a list on a march."""
    march = folder.put("march", text_in(question, "march"))
    faults = folder.put("list", text_in(question, "list"))
    made = {"report": shown_report(judged(march, faults), decoded(march))}
    return {**made, "inWord": covered_inside(inside_report(folder, march, faults, question))}


def inside_report(
    folder: Folder, march: pathlib.Path, faults: pathlib.Path, question: Object
) -> in_word.InWordReport | None:
    """The report of `inword`; None if a question has no memory, or a refused one."""
    if "memory" not in question:
        return None
    try:
        return in_word.judged_in_word(march, folder.put("memory", text_in(question, "memory")), faults)
    except Refused:
        return None


def covered_inside(report: in_word.InWordReport | None) -> Object | None:
    """For each coupling: whether it is covered inside a word."""
    return None if report is None else {verdict.primitive: verdict.covered for verdict in report.verdicts}


def complete(question: Object) -> Object:
    """What can come between two parts of a text, and how many letters before it belong to the word that it
    completes."""
    kind = text_in(question, "kind")
    if kind not in ("march", "list", "memory"):
        raise Wrong("kind has to be march, list or memory")
    before, after = (text_in(question, name).encode("utf-8") for name in ("before", "after"))
    found, whole = Trier(kind).fitting(before + after, len(before))
    begun = "" if whole else before[word_start(before + after, len(before)) :].decode("utf-8", "replace")
    # no word represents these, so a note describes them
    named = {**SHOWN.get(kind, {}), "a hexadecimal word": "a hexadecimal word"}
    words = [word for word in found if word not in named]
    return {
        "words": [word for word in words if word.startswith(begun)] or words,
        "notes": [named[word] for word in found if word in named],
        "begun": len(begun),
        "whole": whole,
    }


# ---- an escape, step by step


def shown_steps(steps: Sequence[Step], of: DecoderVerdict | None = None) -> list[Object]:
    """The steps of a run. `place` is that of the operation in its element, `reaches` the cells that an address of a
    wrong decoder reaches, and `acting` which of two linked primitives acts."""
    made: list[Object] = []
    for before, step in zip([None, *steps], steps):
        visit = None if before is None or before.cell is None else (before.element, before.cell)
        made.append(
            {
                "element": step.element,
                "place": made[-1]["place"] + 1 if visit == (step.element, step.cell) else 0,
                "operation": step.operation,
                "cell": step.cell,
                "cells": step.cells,
                "answer": step.answer,
                "acts": step.acts,
                "differs": step.differs,
            }
        )
        if of is not None and step.cell is not None:
            made[-1]["reaches"] = of.reached(step.cell)
        if isinstance(step, LinkedStep):
            made[-1]["acting"] = step.acting
    return made


def replayed(verdict: Verdict, elements: list[Element], march: pathlib.Path) -> Object:
    """Why an escape escapes, and its steps, in the plain model of the definition; and the line of `sim` on it, which
    takes no dynamic primitives."""
    why, steps = reasons.reason(verdict, elements)
    made: Object = {"why": why, "steps": shown_steps(steps)}
    if not verdict.is_dynamic:
        words = verdict.words(march)
        made["sim"] = {"words": ["sim", "MARCH", *words[2:]], "said": ask(*words)}
    return made


def shown_catch(catch: Catch, march: pathlib.Path, keeps_steps: bool = True) -> Object:
    """The read that catches a primitive in an array, the steps up to it, and the line of `sim` on that array."""
    read = catch.read
    made: Object = {
        "array": catch.array.as_object()["escape"],
        "element": read.element,
        "operation": read.operation,
        "cell": read.cell,
        "steps": shown_steps(catch.steps) if keeps_steps else [],
    }
    if not catch.array.is_dynamic and keeps_steps:
        words = catch.array.words(march)
        made["sim"] = {"words": ["sim", "MARCH", *words[2:]], "said": ask(*words)}
    return made


def replayed_decoder(verdict: DecoderVerdict, elements: list[Element]) -> Object:
    """The same for an escape of the address decoder."""
    why, steps = decoder.reason(verdict, elements)
    return {"why": why, "steps": shown_steps(steps, verdict)}


def traced_decoder(march: pathlib.Path, name: str) -> Object:
    """The verdict on one fault of the address decoder, and what an escape does."""
    report = decoded(march)
    verdict = next(it for it in report.verdicts if it.name == name)
    elements = [dataclasses.asdict(element) for element in report.elements]
    found: Object = {"report": {"march": report.march, "verdicts": [verdict.as_object()], "elements": elements}}
    return found if verdict.covered else {**found, **replayed_decoder(verdict, report.elements)}


# ---- linked faults


def shown_links(report: LinkedReport) -> Object:
    """A report on linked faults, as one on a list."""
    return {
        "march": report.march,
        "length": length_of(report.elements),
        "total": {"primitives": len(report.verdicts), "covered": report.covered, "escapes": len(report.escapes)},
        "verdicts": [verdict.as_object() for verdict in report.verdicts],
        "elements": [dataclasses.asdict(element) for element in report.elements],
    }


@refusable
def links(folder: Folder, question: Object) -> Object:
    """The verdicts on the linked faults."""
    return {"report": shown_links(linked.linked(folder.put("march", text_in(question, "march"))))}


def replayed_link(verdict: LinkVerdict, elements: list[Element]) -> Object:
    """Why the escape of a link escapes, and its steps."""
    why, steps = linked.reason(verdict, elements)
    return {"why": why, "steps": shown_steps(steps)}


def traced_link(march: pathlib.Path, name: str) -> Object:
    """The verdict on one link, and what an escape does."""
    report = linked.linked(march)
    verdict = next((it for it in report.verdicts if it.primitive == name), None)
    if verdict is None:
        raise Wrong("primitive has to be a link")
    elements = [dataclasses.asdict(element) for element in report.elements]
    found: Object = {"report": {"march": report.march, "verdicts": [verdict.as_object()], "elements": elements}}
    return found if verdict.covered else {**found, **replayed_link(verdict, report.elements)}


@refusable
def trace(folder: Folder, question: Object) -> Object:
    """The verdict on one primitive or fault, and what an escape does."""
    march = folder.put("march", text_in(question, "march"))
    primitive = text_in(question, "primitive")
    if primitive in decoder.NAMES:
        return traced_decoder(march, primitive)
    if LINK.fullmatch(primitive):
        return traced_link(march, primitive)
    if not PRIMITIVE.fullmatch(primitive):
        raise Wrong("primitive has to be one of the report")
    report = judged(march, folder.put("list", primitive + "\n"))
    found = {"report": shown_report(report)}
    if report.escapes:
        return {**found, **replayed(report.escapes[0], report.elements, march)}
    caught = [shown_catch(it, march) for it in catches(report.verdicts[0], report.elements)]
    return {**found, "caught": caught}


@refusable
def inside(folder: Folder, question: Object) -> Object:
    """The verdict on a coupling inside a word of a memory; for an escape also the reason, and its steps as lines."""
    march = folder.put("march", text_in(question, "march"))
    memory_path = folder.put("memory", text_in(question, "memory"))
    primitive = text_in(question, "primitive")
    if not PRIMITIVE.fullmatch(primitive):
        raise Wrong("primitive has to be one of the report")
    report = in_word.judged_in_word(march, memory_path, folder.put("list", primitive + "\n"))
    if not report.verdicts:
        raise Wrong("the primitive has to be a coupling")
    return told_inside(report.verdicts[0], report, read_memory(memory_path))


def told_inside(verdict: in_word.WordVerdict, report: in_word.InWordReport, held: Memory) -> Object:
    """A verdict inside a word; for an escape also the reason, and its steps as lines."""
    found: Object = {"memory": report.memory, "verdict": verdict.as_object()}
    if verdict.covered:
        return {**found, "steps": []}
    why, steps = in_word.reason(verdict, report.elements, held)
    return {**found, "why": why, "steps": [in_word.shown(step, held) for step in steps]}


# ---- a memory


def first_commands(march: pathlib.Path, memory: pathlib.Path, to: pathlib.Path) -> list[str] | None:
    """The first commands of a test; None if the test is longer than `vectors` allows."""
    status, said = run("vectors", march, memory, to)
    if status == 12:
        return None
    if status > 1 or status < 0:
        raise Refused(["vectors", str(march), str(memory), str(to)], said, status)
    with open(to, encoding="ascii") as file:
        return [line.rstrip("\n") for line in itertools.islice(file, cycles_picture.COUNT)]


@refusable
def memory(folder: Folder, question: Object) -> Object:
    """A memory under a march: its values, the length of the test, and the picture of the first cycles."""
    march = folder.put("march", text_in(question, "march"))
    described = folder.put("memory", text_in(question, "memory"))
    held = read_memory(described)
    printed, elements = march_of(march)
    ask("compile", march, described, folder.put("list", ""), folder.path / "module", folder.path / "report")
    told = read_report(folder.path / "report").memory or {}
    first = first_commands(march, described, folder.path / "vectors")
    return {
        "memory": {
            "name": held.name,
            "words": held.words,
            "bits": held.bits,
            "latency": held.latency,
            "polarity": held.digits(held.polarity),
            "pause": held.pause,
            "backgrounds": " ".join(map(held.digits, held.backgrounds)),
            "scrambled": held.rows is not None,
        },
        "march": printed,
        "length": length_of(elements),
        "commands": told["commands"],
        "cycles": held.cycles(elements),
        "first": first,
        "picture": None if first is None else cycles_picture.picture(printed, held, first),
    }


@refusable
def files(folder: Folder, question: Object) -> Object:
    """The module and the report of `compile`."""
    names = [folder.put(name, text_in(question, name)) for name in ("march", "memory", "list")]
    said = ask("compile", *names, folder.path / "module", folder.path / "report")
    return {
        "said": said,
        "name": read_memory(names[1]).name,
        "module": read_text(folder.path / "module"),
        "report": read_text(folder.path / "report"),
    }
