"""A report of `judge`, `compile` or `inword` for other programs, or as a page to look at.

usage: vidlakost report REPORT --json             one object on standard output
       vidlakost report REPORT --html FILE        one file of HTML that needs nothing else
       vidlakost report REPORT --inword INWORD --json | --html FILE       also the verdicts inside a word
       vidlakost report --all REPORT.. --csv [--memory MEMORY ..] [--mhz F]          a row for each memory, for sign-off
       vidlakost report --all REPORT.. --html FILE [--memory MEMORY ..] [--mhz F]    the same as a page
                        [--of LIST|CHIPFILE [PINS..]]                                of a chip: sums count each instance
       vidlakost report --tester MARCH MEMORY | CHIPFILE --html FILE [--mhz F]       what a tester has to know
       vidlakost report --help

For reports of `compile`, each --memory adds the cycles and milliseconds of the memory of that name, at F MHz (100 by
default). PINS end in .pins; of those that share a controller with --of, one test counts.

The object:
    schema      vidlakost-report-1
    march       the printed march
    length      its operations on each of n words, and its pauses, as 23n+2D
    memory      of a report of `compile`: name, words, bits, backgrounds, commands
    verdicts    in the list's order, each with primitive, class, covered (true or false). An escape also has `escape`:
                cells, aggressor (null for a primitive of one cell), victim, content (a digit for each cell, cell 0
                first), directions (a letter for each element)
    classes     by name: primitives, covered
    total       primitives, covered, escapes
    in_word     with --inword: the object of that report
For a report of `inword` the schema is vidlakost-inword-1. An escape there has aggressor and victim, the numbers of two
bits, content, the aggressor's digit first, and reading: `before`, `behind` or `both`. `apart` counts the primitives
that have no verdict there, and `no_two_bits` those that no word has two bits for. `readings` has what each reading
alone would call covered. The rest is as above.
Later versions may add keys, under new names. If one of these keys changes, the schema changes."""
from __future__ import annotations

import html
import json
import re
from typing import Any, Iterator, List, Sequence, Tuple

from vidlakost_tools.folder import write_whole
from vidlakost_tools.pages import signoff
from vidlakost_tools.text import beside, shown
from vidlakost_tools.texts import reasons
from vidlakost_tools.texts.chip import read_chip
from vidlakost_tools.texts.in_word import BOTH, InWordReport, WordVerdict, is_in_word, read_in_word
from vidlakost_tools.texts.march import length_of
from vidlakost_tools.texts.report import Report, read_report
from vidlakost_tools.tool import ToolError, refuse_inputs, usage_of, words_of

STYLE = """
body { font-family: sans-serif; color: #222; margin: 2em auto; max-width: 70em; padding: 0 1em; line-height: 1.4 }
code { font-family: monospace }
table { border-collapse: collapse; margin: 1em 0 }
th, td { padding: .25em .7em; border-bottom: 1px solid #ddd; text-align: left; vertical-align: top }
td.number { text-align: right }
.squares { display: flex; flex-wrap: wrap; gap: 4px }
.square { font: 11px monospace; padding: 3px 5px; border: 1px solid #888; border-radius: 3px; white-space: nowrap }
.covered { background: #1b7f5c; border-color: #1b7f5c; color: #fff }
.escape { background: #fff; color: #222 }
.small { color: #666; font-size: 90% }
"""


def marked(content: str) -> str:
    """A cell of a table with text that has markup already."""
    return f"<td>{content}</td>"


def cell(text: object, number: bool = False) -> str:
    """A cell of a table with a text."""
    return f"<td{' class=number' if number else ''}>{html.escape(str(text))}</td>"


def code(text: str) -> str:
    return f"<code>{html.escape(text)}</code>"


def squares(report: Report | InWordReport, kind: str) -> list[str]:
    """The cells of a class in one report: how many are covered, and a square for each primitive."""
    if kind not in report.classes:
        return [cell(""), cell("")]
    count, covered = report.classes[kind]
    each = "".join(
        f'<span class="square {"covered" if verdict.covered else "escape"}"'
        f' title="{"covered" if verdict.covered else "escapes"}">{html.escape(verdict.primitive)}</span>'
        for verdict in report.verdicts
        if verdict.kind == kind
    )
    return [cell(f"{covered}/{count}", number=True), marked(f'<div class="squares">{each}</div>')]


def class_rows(reports: Sequence[Report | InWordReport]) -> Iterator[str]:
    """A row for each class: in each report its counts, and a square for each primitive."""
    for kind in reports[0].classes:
        yield "<tr>" + cell(kind) + "".join(part for report in reports for part in squares(report, kind)) + "</tr>"


def escape_rows(report: Report) -> Iterator[str]:
    """A row for each escape: the array in which the march passes, and why it does."""
    for verdict in report.escapes:
        why = reasons.reason(verdict, report.elements)[0]
        aggressor = "none" if verdict.aggressor is None else verdict.aggressor
        array = f"{len(verdict.content)} cells {verdict.content}, aggressor {aggressor}, victim {verdict.victim}"
        array += f", directions {verdict.directions}"
        yield "<tr>" + marked(code(verdict.primitive)) + cell(verdict.kind) + cell(array) + cell(why) + "</tr>"


def in_readings(verdict: WordVerdict) -> str:
    """In which readings an escape inside a word escapes."""
    return "in both readings" if verdict.reading == BOTH else f"in the reading {verdict.reading} alone"


def in_word_rows(report: InWordReport) -> Iterator[str]:
    """A row for each escape inside a word: its two bits, and what they hold."""
    for verdict in report.escapes:
        bits = (
            f"aggressor at bit {verdict.aggressor}, victim at bit {verdict.victim}, which hold {verdict.content[0]} and"
            f" {verdict.content[1]}, {in_readings(verdict)}"
        )
        yield "<tr>" + marked(code(verdict.primitive)) + cell(verdict.kind) + cell(bits) + "</tr>"


BETWEEN = beside(__file__, "report_between.txt")
INSIDE = beside(__file__, "report_inside.txt")

# a title, how many, the text above the table, its head and its rows
Escapes = Tuple[str, int, str, List[str], Iterator[str]]


def about(reports: Sequence[Report | InWordReport]) -> Iterator[str]:
    """The march, and the memory if the report names one."""
    yield f"<p>March ({length_of(reports[0].elements)}): {code(reports[0].march)}</p>"
    memory = next((report.memory for report in reports if report.memory), None)
    if memory:
        shape = "Memory {name}: {words:,} words of {bits} bits, {backgrounds} backgrounds, {commands:,} commands."
        yield f"<p>{html.escape(shape.format(**memory))}</p>"


def escapes_of(reports: Sequence[Report | InWordReport]) -> Iterator[Escapes]:
    """The escapes of each report."""
    for report in reports:
        if isinstance(report, InWordReport):
            told = "The least two bits of a word, and their content, with which the test passes in spite of the fault."
            yield "escapes inside a word", report.total[2], told, ["Primitive", "Class", "Bits"], in_word_rows(report)
        else:
            told = "The least array in which the march passes in spite of the fault, and why it does."
            yield "escapes", report.total[2], told, ["Primitive", "Class", "Array", "Why"], escape_rows(report)


def page(reports: Sequence[Report | InWordReport]) -> str:
    inside = any(isinstance(report, InWordReport) for report in reports)
    names = ["inside a word" if isinstance(report, InWordReport) else "between words" for report in reports]
    shares = [f"{report.total[1]} of {report.total[0]}" for report in reports]
    told = ", ".join(f"{share} {name}" for share, name in zip(shares, names))
    title = f"Covered: {told}" if inside else f"{shares[0]} primitives covered"
    heads = [f"<th>{f'{name.capitalize()}, c' if inside else 'C'}overed</th><th>Primitives</th>" for name in names]
    parts = [f"<h1>{title}</h1>", *about(reports)]
    notes = [INSIDE if isinstance(report, InWordReport) else BETWEEN for report in reports]
    if any(isinstance(report, InWordReport) and report.memory["bits"] == 1 for report in reports):
        notes.append("A word of one bit has no two bits, so nothing is judged there.")
    parts += [
        f'<p class="small">{" ".join(" ".join(notes).split())}</p>',
        f"<table><tr><th>Class</th>{''.join(heads)}</tr>",
        *class_rows(reports),
        "</table>",
    ]
    for what, count, note, columns, rows in escapes_of(reports):
        if count:
            head = "".join(f"<th>{column}</th>" for column in columns)
            parts += [
                f"<h2>{count} {what}</h2>",
                f'<p class="small">{note}</p>',
                f"<table><tr>{head}</tr>",
                *rows,
                "</table>",
            ]
    body = "\n".join(parts)
    top = f'<meta charset="utf-8">\n<title>{title}</title>\n<style>{STYLE}</style>'
    return f'<!DOCTYPE html>\n<html lang="en">\n<head>\n{top}\n</head>\n<body>\n{body}\n</body>\n</html>\n'


def both(name: str, inside: str | None) -> list[Report | InWordReport]:
    """The report of a file, and that of `inword` beside it. Both have to be of the same march and memory."""
    report: Report | InWordReport = read_in_word(name) if is_in_word(name) else read_report(name)
    if inside is None:
        return [report]
    other = read_in_word(inside)
    if isinstance(report, InWordReport) or report.march != other.march or report.memory not in (None, other.memory):
        raise ToolError(
            f"{inside} has to be a report of `inword`, and {name} one of `judge` or `compile` on the same march and"
            " memory"
        )
    return [report, other]


def as_object(reports: Sequence[Report | InWordReport]) -> dict[str, object]:
    """The report as an object, with that of `inword` if the call has one."""
    return {**reports[0].as_object(), **({"in_word": reports[1].as_object()} if len(reports) == 2 else {})}


def megahertz(options: dict[str, Any]) -> float:
    """The clock of --mhz."""
    text = options.get("--mhz", "100")
    if not re.fullmatch(r"[0-9]{1,6}(\.[0-9]{1,6})?", text) or not float(text):
        raise ToolError(f"--mhz is a clock in megahertz, and not {shown(text)}")
    return float(text)


def all_reports(words: list[str], options: dict[str, Any]) -> int:
    """The table over many reports."""
    if ("--csv" in options) == ("--html" in options) or "--json" in options:
        raise ToolError(f"--all needs --csv or --html FILE\n{usage_of(__doc__)}")
    memories, pins = options.get("--memory", []), [word for word in words if word.endswith(".pins")]
    whole = [options["--of"]] if "--of" in options else []
    if pins and not whole:
        raise ToolError(f"{pins[0]}: PINS need --of\n{usage_of(__doc__)}")
    refuse_inputs(options.get("--html"), [("what is read", name) for name in (*words, *memories, *whole)])
    rows, mhz = signoff.rows_of([word for word in words if word not in pins], memories), megahertz(options)
    for path in whole:
        signoff.counted(rows, path, pins)
    if "--csv" in options:
        print(signoff.as_csv(rows, mhz), end="")
    else:
        write_whole(options["--html"], signoff.sign_off(rows, mhz))
    return 0


def tester(words: list[str], options: dict[str, Any]) -> int:
    """The page for a tester."""
    if set(options) - {"--mhz"} != {"--tester", "--html"} or len(words) > 2:
        raise ToolError(f"--tester takes a march and a memory, or a chip file, and --html FILE\n{usage_of(__doc__)}")
    files = read_chip(words[0]).files if len(words) == 1 else []
    refuse_inputs(options["--html"], [("what is read", name) for name in (*words, *files)])
    write_whole(options["--html"], signoff.tester_page(words, megahertz(options)))
    return 0


def main(arguments: list[str]) -> int:
    allowed: dict[str, int | list[str]] = {
        "--json": 0,
        "--html": 1,
        "--all": 0,
        "--csv": 0,
        "--memory": [],
        "--mhz": 1,
        "--tester": 0,
        "--inword": 1,
        "--of": 1,
    }
    words, options = words_of(__doc__, arguments, allowed, 1)
    if "--all" in options or "--tester" in options:
        return all_reports(words, options) if "--all" in options else tester(words, options)
    if (
        len(words) != 1
        or ("--json" in options) == ("--html" in options)
        or set(options) - {"--json", "--html", "--inword"}
    ):
        raise ToolError(f"give either --json or --html FILE\n{usage_of(__doc__)}")
    name, inside = words[0], options.get("--inword")
    reports = both(name, inside)
    if "--json" in options:
        print(json.dumps(as_object(reports), indent=1))
        return 0
    refuse_inputs(
        options["--html"], [("the report itself", name), *([("the report of --inword", inside)] if inside else [])]
    )
    write_whole(options["--html"], page(reports))
    return 0
