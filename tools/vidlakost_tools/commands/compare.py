"""Marches side by side: what each covers of a list, by class, and which primitives only some cover.

usage: vidlakost compare LIST MARCH MARCH ..          a table, then a line for each primitive that only some cover
       vidlakost compare LIST MARCH MARCH .. --json   the same as one object
       vidlakost compare LIST MARCH MARCH .. --memory MEMORY [--json]    also what they cover inside a word of it
       vidlakost compare --help

The column AF counts the faults of the address decoder, LF the linked faults, and CFin, among these, the inversion
couplings; no list has these. Inside a word the columns `before` and `behind` have what one reading alone would call
covered. The object has these keys:
    schema      vidlakost-compare-1
    reports     by the word of each march: its report, in the schema of `vidlakost report`
    decoder     by the word of each march: its verdicts on the faults of the address decoder
    linked      by the word of each march: its verdicts on the linked faults
    differs     by primitive or fault: the words of the marches that cover it
    in_word     with --memory: an object with `reports` and `differs`, for the verdicts between two bits of a word of
                that memory, by the whole test with all its backgrounds"""
from __future__ import annotations

import dataclasses
import json
import pathlib
from typing import Iterator, Optional, Sequence, Union

from vidlakost_tools.texts.decoder import CLASS, DecoderReport, DecoderVerdict, decoded
from vidlakost_tools.texts.in_word import READINGS, InWordReport, WordVerdict, judged_in_word
from vidlakost_tools.texts.linked import CFIN, LinkedReport, linked
from vidlakost_tools.texts.march import length_of
from vidlakost_tools.texts.report import Report, Verdict, judged
from vidlakost_tools.tool import words_of


@dataclasses.dataclass
class Judged:
    """The answers for a march: its report on the list, and its verdicts on the address decoder and on linked faults.
    These two play no part inside a word."""

    report: Union[Report, InWordReport]
    decoder: Optional[DecoderReport] = None
    linked: Optional[LinkedReport] = None

    @property
    def verdicts(self) -> Sequence[Union[Verdict, WordVerdict, DecoderVerdict]]:
        return [*self.report.verdicts, *(self.decoder.verdicts if self.decoder else [])]


def names_of(words: list[str]) -> list[str]:
    """A short name for each march: that of its file, if these names differ."""
    short = [pathlib.Path(word).stem for word in words]
    return short if len(set(short)) == len(short) else words


def table(names: list[str], marches: list[Judged]) -> Iterator[str]:
    inside = isinstance(marches[0].report, InWordReport)
    more = READINGS if inside else [CLASS, "LF", CFIN] if marches[0].decoder else ()
    rows = [["march", "length", *marches[0].report.classes, "total", *more]]
    for name, march in zip(names, marches):
        report = march.report
        shares = [f"{covered}/{count}" for count, covered in report.classes.values()]
        shares.append(f"{report.total[1]}/{report.total[0]}")
        shares += [f"{it.covered}/{len(it.verdicts)}" for it in (march.decoder, march.linked) if it]
        shares += ["{1}/{0}".format(*march.linked.inversions)] if march.linked else []
        shares += [f"{covered}/{report.total[0]}" for covered in by_reading(report)]
        rows.append([name, length_of(report.elements), *shares])
    widths = [max(map(len, column)) for column in zip(*rows)]
    for row in rows:
        yield "  ".join([row[0].ljust(widths[0]), *(cell.rjust(width) for cell, width in zip(row[1:], widths[1:]))])


def by_reading(report: Union[Report, InWordReport]) -> list[int]:
    """Inside a word: how many couplings each reading alone would call covered."""
    return report.by_reading if isinstance(report, InWordReport) else []


def differing(names: list[str], marches: list[Judged]) -> Iterator[tuple[str, str, list[str]]]:
    """For each primitive or fault that only some cover: its class, its text, and the names of the marches that cover
    it."""
    seen = set()
    for verdicts in zip(*(march.verdicts for march in marches)):
        covering = [name for name, verdict in zip(names, verdicts) if verdict.covered]
        text = verdicts[0].primitive
        if 0 < len(covering) < len(names) and text not in seen:
            seen.add(text)
            yield verdicts[0].kind, text, covering


def as_object(words: list[str], marches: list[Judged]) -> dict[str, object]:
    made: dict[str, object] = {"reports": {word: march.report.as_object() for word, march in zip(words, marches)}}
    decoders = [(word, march.decoder.verdicts) for word, march in zip(words, marches) if march.decoder]
    if decoders:
        made["decoder"] = {word: [verdict.as_object() for verdict in verdicts] for word, verdicts in decoders}
    links = [(word, march.linked.verdicts) for word, march in zip(words, marches) if march.linked]
    if links:
        made["linked"] = {word: [verdict.as_object() for verdict in verdicts] for word, verdicts in links}
    return {**made, "differs": {text: covering for _, text, covering in differing(words, marches)}}


def told(names: list[str], marches: list[Judged]) -> Iterator[str]:
    """The table, and the primitives in which they differ."""
    yield from table(names, marches)
    lines = list(differing(names, marches))
    if lines:
        yield "\nprimitives that only some cover, and the marches that do:"
    for kind, text, covering in lines:
        yield f"{kind:5} {text:16} {', '.join(covering)}"


def main(arguments: list[str]) -> int:
    (faults, *words), options = words_of(__doc__, arguments, {"--json": 0, "--memory": 1}, 3)
    memory = options.get("--memory")
    marches = [Judged(judged(word, faults), decoded(word), linked(word)) for word in words]
    inside = [judged_in_word(word, memory, faults) for word in words] if memory else []
    if "--json" in options:
        made: dict[str, object] = {"schema": "vidlakost-compare-1", **as_object(words, marches)}
        print(
            json.dumps({**made, **({"in_word": as_object(words, [*map(Judged, inside)])} if inside else {})}, indent=1)
        )
        return 0
    names = names_of(words)
    print("\n".join(told(names, marches)))
    if inside:
        shape = "\ninside a word of {name}: {bits} bits, {backgrounds} backgrounds".format(**inside[0].memory)
        shape += "; a word of one bit has no two bits, so nothing escapes" if inside[0].memory["bits"] == 1 else ""
        print("\n".join([shape, *told(names, [*map(Judged, inside)])]))
    return 0
