"""Pages over many reports: a table for sign-off, and a page on a test for the tester."""
from __future__ import annotations

import collections
import csv
import dataclasses
import html
import io
import shlex
from typing import Iterator

from vidlakost_tools.access import apb, tap
from vidlakost_tools.access.target import Target
from vidlakost_tools.texts.chip import read_chip
from vidlakost_tools.texts.march import Element, length_of, march_of
from vidlakost_tools.texts.memory import Memory, read_memory
from vidlakost_tools.texts.reads import spans
from vidlakost_tools.texts.report import Report, read_report
from vidlakost_tools.tool import ToolError
from vidlakost_tools.verilog.stream import number_of_commands

FOOT = (
    "A verdict holds for arrays of every size, from every content and in every choice of directions, and speaks of "
    "unlinked faults of one and two cells, static or of two operations, and of losses over a pause. No verdict "
    "speaks of coupling inside one word, linked faults, neighbourhoods, address decoder faults, stuck-open cells, "
    "or faults of the port, of the sense amplifiers or of write masks. Nothing here speaks of timing."
)
STYLE = (
    "body { font-family: sans-serif; color: #222; margin: 2em auto; max-width: 76em; padding: 0 1em; line-height: "
    "1.4 } table { border-collapse: collapse; margin: 1em 0 } th, td { padding: .25em .7em; border-bottom: 1px "
    "solid #ddd; text-align: left; vertical-align: top } td.number { text-align: right } pre { background: #f5f5f5; "
    "padding: .7em }"
)


@dataclasses.dataclass
class Row:
    """A memory and its report, with the cycles if the call has its description; how many instances of it a chip has,
    and how many controllers test these."""

    report: Report
    memory: Memory | None
    instances: int = 1
    tests: int = 1

    @property
    def cycles(self) -> int | None:
        return self.memory.cycles(self.report.elements) if self.memory else None


def told_of(memory: Memory, report: Report) -> tuple[int, int, int, int]:
    """What the report of a memory says about it: words, bits, backgrounds and commands."""
    return memory.words, memory.bits, len(memory.backgrounds), number_of_commands(memory, report.elements)


def counted(rows: list[Row], path: str, pins: list[str]) -> None:
    """Gives each row the number of its instances in a chip file or a list."""
    from vidlakost_tools.chip import system as soc

    system = soc.read_system(path)
    if pins:
        soc.give_collars(system, pins)
    instances = collections.Counter(part.memory.name for part in system.parts)
    tests = collections.Counter(part.memory.name for part in system.parts if part.leader is None)
    named = {str(row.report.memory["name"]): row for row in rows if row.report.memory}
    odd = sorted(set(named) ^ set(instances))
    if odd:
        told = f"{path} has no memory" if odd[0] in named else "there is no report of"
        raise ToolError(f"{told} {odd[0]}")
    for name, row in named.items():
        row.instances, row.tests = instances[name], tests[name]


def rows_of(reports: list[str], memories: list[str]) -> list[Row]:
    """A row for each report; a description belongs to the reports of its name."""
    known: dict[str, Memory] = {}
    for name in memories:
        one = read_memory(name)
        if known.setdefault(one.name, one) != one:
            raise ToolError(f"{name}: the call has another description of {one.name}, whose test may take other cycles")
    rows = []
    for name in reports:
        report = read_report(name)
        if report.memory is None:
            raise ToolError(
                f"{name}: this is a report of `judge`, which names no memory; --all needs reports of `compile`"
            )
        memory = known.get(str(report.memory["name"]))
        if memory and told_of(memory, report) != tuple(
            report.memory[key] for key in ("words", "bits", "backgrounds", "commands")
        ):
            raise ToolError(f"{name}: {memory.name} has another size or another test in its description")
        rows.append(Row(report, memory))
    unused = set(known) - {str(row.report.memory["name"]) for row in rows if row.report.memory}
    if unused:
        raise ToolError(f"there is no report of {', '.join(sorted(unused))}")
    return rows


def columns(rows: list[Row]) -> list[str]:
    """The heads of the table: a column for each class that some report has."""
    kinds: dict[str, None] = {}
    for row in rows:
        kinds.update(dict.fromkeys(row.report.classes))
    memory = ["memory", *(["instances"] if any(row.instances > 1 for row in rows) else [])]
    return [*memory, "words", "bits", "backgrounds", "march", "length", *kinds, "total", "commands", "cycles", "ms"]


def cells_of(row: Row, heads: list[str], mhz: float) -> list[str]:
    """The texts in a row."""
    shape, (count, covered, _) = row.report.memory or {}, row.report.total
    told = {key: str(shape[key]) for key in ("words", "bits", "backgrounds", "commands")}
    told.update({kind: f"{good}/{of}" for kind, (of, good) in row.report.classes.items()})
    told.update(memory=str(shape["name"]), instances=str(row.instances), march=row.report.march)
    told.update(length=length_of(row.report.elements), total=f"{covered}/{count}")
    if row.cycles is not None:
        told.update(cycles=str(row.cycles), ms=f"{row.cycles / mhz / 1000:.3f}")
    return [told.get(head, "") for head in heads]


def as_csv(rows: list[Row], mhz: float) -> str:
    heads, out = columns(rows), io.StringIO()
    writer = csv.writer(out, lineterminator="\n")
    writer.writerow(heads)
    writer.writerows(cells_of(row, heads, mhz) for row in rows)
    return out.getvalue()


def table(heads: list[str], rows: list[list[str]]) -> str:
    lines = ["<table><tr>" + "".join(f"<th>{html.escape(head)}</th>" for head in heads) + "</tr>"]
    for row in rows:
        lines.append("<tr>" + "".join(f"<td>{html.escape(cell)}</td>" for cell in row) + "</tr>")
    return "\n".join([*lines, "</table>"])


def document(title: str, body: list[str]) -> str:
    head = f'<meta charset="utf-8">\n<title>{html.escape(title)}</title>\n<style>{STYLE}</style>'
    parts = "\n".join([f"<h1>{html.escape(title)}</h1>", *body])
    return f'<!DOCTYPE html>\n<html lang="en">\n<head>\n{head}\n</head>\n<body>\n{parts}\n</body>\n</html>\n'


def sign_off(rows: list[Row], mhz: float) -> str:
    """The page for sign-off."""
    heads = columns(rows)
    body = [table(heads, [cells_of(row, heads, mhz) for row in rows])]
    if all(row.cycles is not None for row in rows):
        whole = sum(row.tests * (row.cycles or 0) for row in rows)
        body.append(
            f"<p>One after another {whole:,} cycles, {whole / mhz / 1000:.3f} ms at {mhz:g} MHz; "
            f"all at once {max(row.cycles or 0 for row in rows):,} cycles.</p>"
        )
    else:
        why = "which has its latency and its pauses"
        body.append(f"<p>A memory has cycles here if the call has its description, {why}.</p>")
    return document(f"Self-test of {sum(row.instances for row in rows)} memories", [*body, f"<p>{FOOT}</p>"])


# ---- the page for a tester


def tested(words: list[str]) -> tuple[Target, list[tuple[str, list[Element], Memory, int]]]:
    """What is tested: a march and a memory, or a chip file; for each unit the march, the memory and the start."""
    if len(words) == 1:
        chip = read_chip(words[0])
        return Target.of_chip(chip), [(unit.march, unit.elements, unit.memory, unit.start) for unit in chip.units]
    elements, memory = march_of(words[0])[1], read_memory(words[1])
    return Target.of_memory(memory, memory.cycles(elements) - 1), [(words[0], elements, memory, 0)]


def holds(elements: list[Element], memory: Memory, start: int) -> Iterator[str]:
    """The first and the last cycle of each pause, in which the clock may be stopped."""
    for span in spans(elements, memory):
        if span.element.is_pause:
            first, last = start + span.first, start + span.last
            yield f"{first} to {last}" if last > first else str(first)


def locating(words: list[str], is_chip: bool) -> str:
    """The call that decodes the register, quoted for a shell: the reader of the page has not chosen the names of the
    files."""
    return shlex.join(["vidlakost", "locate", *words, *(["--chip"] if is_chip else []), "--tdr", "HEX"])


def tester_page(words: list[str], mhz: float) -> str:
    """How to start a test, how long it takes, what to read, where to stop the clock, and how to decode."""
    target, units = tested(words)
    done = target.done or 0
    rows = []
    for number, (march, elements, memory, start) in enumerate(units):
        pauses = ", ".join(holds(elements, memory, start)) or "none"
        rows.append([str(number), memory.name, str(memory.words), str(memory.bits), march, str(start), pauses])
    registers = [
        [f"0x{it.at:02x}", it.name, field.name, field.about] for it in apb.registers(target) for field in it.fields
    ]
    parts = [[part.bits, part.name, "written" if part.writable else ""] for part in tap.parts(target)]
    sound = "3 in the lowest digit of the register, 0x3 in STATUS"
    body = [
        "<h2>Start and wait</h2>",
        (
            f"<p>Write 1 to start. The test takes {done:,} cycles of clk, {done / mhz / 1000:.3f} ms at {mhz:g} MHz,"
            " and some more for the start to arrive. Read until done is 1. If it does not come in that time,"
            " that is a failure. Keep start at 1 in each scan that reads: the result is lost when start"
            " falls.</p>"
        ),
        "<h2>Pass</h2>",
        f"<p>{sound}. Anything else is a failure.</p>",
        "<h2>What is tested, and where the clock may be stopped</h2>",
        table(["unit", "memory", "words", "bits", "march", "start", "cycles of pauses"], rows),
        "<h2>The instructions of the TAP</h2>",
        (
            f"<p>The instruction register has {tap.IR_BITS} bits, and the identity is {target.identity:08X} unless"
            " `--idcode` named another. Test-Logic-Reset ends a test.</p>"
        ),
        table(["opcode", "instruction", ""], [list(row) for row in tap.OPCODES]),
        "<h2>The register of the TAP, instruction BIST, lowest bit first</h2>",
        (
            "<p>Each scan writes the bits that are marked as written: start, and for a chip also ignore. Shift the bits"
            " of ignore in again in each scan, or those that were set are lost.</p>"
        ),
        table(["bits", "part", ""], parts),
        "<h2>The registers of the APB block</h2>",
        table(["address", "register", "field", "meaning"], registers),
        "<h2>Which cell it was</h2>",
        f"<pre>{html.escape(locating(words, target.is_chip))}</pre>",
    ]
    return document(f"To test {target.name}", body)
