"""Forms of the language that Yosys doesn't read, with what to write in their stead, for sources that it refuses."""
from __future__ import annotations

import pathlib
import re
from typing import Iterable, Iterator

from vidlakost_tools.text import shown

FORMS = [
    (
        r"\b(?:unique0?|priority)\s+if\b",
        "Yosys doesn't read `{0}`; without the first word it means the same to a simulator",
    ),
    (r"\bimport\s+\w+\s*::", "Yosys doesn't read `{0}`; write the package before each name, as pkg::NAME"),
    (r"\b(?:tri[01]|trireg)\b", "Yosys has no net that pulls ({0}); a choice says what it is while nothing drives it"),
    (
        r"\bpull(?:up|down)\b",
        "Yosys has no gate that pulls ({0}); a choice says what the net is while nothing drives it",
    ),
    (r"\bdo\b", "Yosys doesn't read `{0}`; a `for` with a number of turns says the same"),
    (r"\bwhile\b", "Yosys reads `{0}` in constant functions alone; a `for` with a number of turns says the same"),
    (r"\bforeach\b", "Yosys doesn't read `{0}`; a `for` over the places says the same"),
    (r"\b(?:break|continue|disable)\b", "Yosys doesn't read `{0}`; a condition within the loop says the same"),
    (r"\breturn\b", "Yosys doesn't read `{0}`; a function's own name, set to the value, says the same"),
    (r"\bfunction\s+(?:automatic\s+)?void\b", "Yosys doesn't read `{0}`; a task says the same"),
    (r"\binside\b", "Yosys doesn't read `{0}`; comparisons with == say the same"),
    (r"[=!]=\?", "Yosys doesn't read {0}; a comparison of the bits that count says the same"),
    (
        r"\b(?:logic|reg|wire|bit)(?:\s+(?:un)?signed)?\s*(?:\[[^\]]*\]\s*){2,}(?=\w)",
        "Yosys reads words of one range ({0}); one word, and parts of it as [i * W +: W], say the same",
    ),
    (r"\bstruct\s*\{", "Yosys reads packed structures alone; write `struct packed {{`"),
    (r"'\{", "Yosys doesn't read {0}; an assignment to each part says the same"),
    (
        r"\b(?:int|integer|byte|shortint|longint)\s*'\s*\(",
        "Yosys doesn't read {0}); a cast to a number of bits, as 32'(x), is read",
    ),
    (r"\{\s*(?:<<|>>)", "Yosys doesn't read {0}; a concatenation of the bits says the same"),
    (r"\w\.(?:next|prev|first|last|num|name)\s*\(\s*\)", "Yosys doesn't read {0}; a case over the names says the same"),
    (r"\blet\b", "Yosys doesn't read `{0}`; a function says the same"),
    (r"\b(?:parameter|localparam)\s+type\b", "Yosys doesn't read `{0}`; a typedef says the same"),
    (r"\biff\b", "Yosys doesn't read `{0}`; an `if` within the block says the same"),
    (
        r"\bassign\s*\(\s*(?:(?:strong|pull|weak)[01]|supply[01]|highz[01])\b",
        "Yosys reads no strengths; a choice says which driver is taken",
    ),
    (
        r"\b(?:x?n?or|n?and|not|buf)\s+(?:\w+\s*)?\[",
        "Yosys doesn't read an array of gates ({0}); an `assign` of the words says the same",
    ),
    (r"\bprimitive\b", "Yosys doesn't read `{0}`; a module with an `assign` or a block says the same"),
    (
        r"\b(?:assert|assume|cover)\s+property\s*\(\s*@",
        "Yosys reads no property of a clock; `ifndef SYNTHESIS round it leaves it to a simulator",
    ),
    (
        r"\b(?:assert|assume|cover)\b(?=\s*\([^;]*\)[^;]*\belse\b)",
        "Yosys reads no else of `{0}`; `ifndef SYNTHESIS round it leaves it to a simulator",
    ),
    (r"\b(?:real|realtime|shortreal|string|event|chandle)\b", "Yosys doesn't read `{0}`, of which no hardware is made"),
    (r"\b(?:fork|wait|deassign|force|release|final)\b", "Yosys doesn't read `{0}`, of which no hardware is made"),
    (r"\buwire\b", "Yosys doesn't read `{0}`; a `wire` is the same"),
    (
        r"\b(?:r?[np]mos|r?cmos|r?tran(?:if[01])?)\b",
        "Yosys has no switches ({0}); a multiplexer says which driver is taken",
    ),
    (
        r"\b\w+\s*\[(?!\s*\d+\s*\])[^\]]*\]\s*\.\s*[A-Za-z_]\w*",
        "Yosys reads no member of an element ({0}); an array of its own for each member says the same",
    ),
]


def reasons(text: str) -> Iterator[tuple[int, str]]:
    """The forms in a text without comments, each with its line."""
    for pattern, why in FORMS:
        for match in re.finditer(pattern, text):
            yield text.count("\n", 0, match.start()) + 1, why.format(" ".join(match[0].split()))


def reason(sources: Iterable[tuple[str, str]], error: str) -> str | None:
    """What there is to say of an error, of sources without comments: the form on the line that it names, or else the
    first of all."""
    sources = list(sources)
    known = without_line(sources, error)
    if known:
        return known
    found = [(pathlib.Path(file), line, why) for file, text in sources for line, why in reasons(text)]
    at = re.search(r"([^\s:/]+):(\d+): ERROR", error)
    there = [one for one in found if at and (one[0].name, str(one[1])) == (at[1], at[2])]
    return next((f"{shown(str(file))}:{line}: {why}" for file, line, why in there or found), None)


# what is said of errors that Yosys gives no line: the words of the error, the form in the text, and what says the same
SIGNED = "Yosys takes no {0} at a port of a part; a signed wire that is set to the word, named there, says the same"
WITHOUT_LINE = [
    # a port by its name is told before one by its place, which looks as a call does
    (r"Assert .*is_signed", r"\.\s*\w+\s*\(\s*(?P<form>\$(?:un)?signed)\b", SIGNED),
    (r"Assert .*is_signed", r"[(,]\s*(?P<form>\$(?:un)?signed)\b", SIGNED),
    (
        r"mix of lookahead and non-lookahead|has two drivers",
        r"(?:[;)]|\b(?:begin|else)\b|:)\s*(?P<form>\{[^{};=]*\})\s*<?=(?!=)",
        "Yosys sets no word {0} together of which a part is set at an open index; an assignment to each says the same",
    ),
]


def without_line(sources: Iterable[tuple[str, str]], error: str) -> str | None:
    """What there is to say of an error for which Yosys names no line, of sources without comments: the first place of
    the form that brings it."""
    for said, form, why in WITHOUT_LINE:
        if re.search(said, error):
            for file, text in sources:
                match = re.search(form, text)
                if match:
                    line = text.count("\n", 0, match.start("form")) + 1
                    return f"{shown(file)}:{line}: {why.format(' '.join(match['form'].split()))}"
    return None


def latch(error: str) -> str | None:
    """What there is to say where a block that says to be combinational keeps what a signal is."""
    match = re.search(
        (
            r"Latch inferred for signal `\\(?:\S*?\.)?\\?([^\s']+)' from always_comb process"
            r" `\S*\$proc\$(?:\S*/)?([^\s:/]+):"
        ),
        error,
    )
    why = "an always_comb doesn't set it in every branch, and so it would be a latch; give it a default first"
    return f"{match[1]} ({match[2]}): {why}" if match else None


def within_parts(said: Iterable[str]) -> Iterator[str]:
    """What there is to warn of where a name reaches into a part: Yosys takes it for a signal of its own, which nothing
    drives."""
    for line in said:
        match = re.match(r"(?:.*/)?([^\s:/]+:\d+): Warning: Identifier `\\(\S+\.\S+)' is implicitly declared", line)
        if match:
            yield (
                f"{match[2]} ({match[1]}): Yosys follows no name into a part, and takes it for open; a port of the part"
                " carries it"
            )
