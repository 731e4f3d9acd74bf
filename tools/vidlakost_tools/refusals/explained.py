"""What a refusal of the program means in this very call, as a compiler says it: FILE:LINE:COLUMN, the line with a
caret, what is wrong there, and what is expected there instead."""
from __future__ import annotations

import os
import re
from typing import Iterator, Mapping

from vidlakost_tools.program import FORMATS
from vidlakost_tools.refusals import chips as diagnose_chips, texts as diagnose_texts, verilog as diagnose_verilog
from vidlakost_tools.refusals.call import CONSOLE, usage, words_by_name
from vidlakost_tools.refusals.finding import Trier, close_to, thousands
from vidlakost_tools.text import lines_of, read_bytes, read_described, read_text, visible
from vidlakost_tools.texts.faults import place_of, read_primitive
from vidlakost_tools.texts.march import elements_of
from vidlakost_tools.texts.memory import Memory, parse_memory
from vidlakost_tools.tool import ToolError

# the word of a call that names the refused text
SUBJECTS = {
    "march": ["MARCH"],
    "memory": ["MEMORY"],
    "fault": ["FAULTS", "PRIM"],
    "verilog": ["VERILOG"],
    "chip": ["CHIPFILE"],
}
FIELDS = [
    (r"line (\d+) byte (\d+)", ("line", "byte")),
    (r"line (\d+)", ("line",)),
    (r"byte (\d+)", ("byte",)),
    (r"element (\d+) operation (\d+)", ("element", "operation")),
    (r"element (\d+)", ("element",)),
    (r"rows (.+)", ("rows",)),
    (r"unit (\d+)", ("unit",)),
]


def values_of(code: str, rest: str) -> dict[str, str]:
    """The values in a refusal, by name."""
    if code == "N3":
        return dict(zip(("x", "y"), rest.split()))
    if code in ("N7", "D4", "C4"):
        return {"names" if code == "N7" else "field": rest}
    for form, names in FIELDS:
        match = re.fullmatch(form, rest)
        if match:
            return dict(zip(names, match.groups()))
    return {"name": rest} if rest else {}


def is_there_still(word: str) -> bool:
    """Whether a text can be read a second time. What came by a pipe or a device is gone, and opening it again may wait
    for ever."""
    return os.path.isfile(word)


def once(word: str, said: str) -> list[str]:
    """The explanation of a refused text that could be read only once."""
    meant = next((when for form, when in meanings() if re.fullmatch(form, said)), "the program refuses it")
    return [f"{word}: error: {meant}", "  the text came by a pipe or a device, so its place is not shown"]


def meanings() -> Iterator[tuple[str, str]]:
    """The pattern of each refusal of the tables of FORMATS, and when it comes."""
    for line in lines_of(read_text(FORMATS)):
        cells = [cell.strip() for cell in re.split(r"(?<!\\)\|", line)[1:-1]]
        form = (
            re.fullmatch(r"`((?:march|memory|fault|verilog|chip) [A-Z][0-9]+)\b.*`", cells[0])
            if len(cells) >= 2
            else None
        )
        if form:
            yield f"{form[1]}\\b.*", cells[1].replace("`", "").replace("\\|", "|")


def refused_text(words: list[str], said: str) -> list[str]:
    """A refusal of a march, a memory, a list, a primitive, a module or a chip file."""
    kind, code, *rest = said.split(" ", 2)
    named = words_by_name(words)
    subjects = [word for word in SUBJECTS[kind] if word in named]
    if not subjects:
        return []
    subject = "PRIM" if "PRIM" in subjects else subjects[0]
    values = values_of(code, rest[0] if rest else "")
    if subject == "PRIM":
        return diagnose_texts.fault("PRIM", named["PRIM"].encode("utf-8", "replace"), code, values, True).lines()
    if not is_there_still(named[subject]):
        return once(named[subject], said)
    text = read_bytes(named[subject])
    if kind == "verilog":
        Trier.reader = words[0]
        found = diagnose_verilog.verilog(named[subject], text, code, values, named.get("MEMORY"))
    elif kind == "fault":
        found = diagnose_texts.fault(named[subject], text, code, values, False)
    else:
        tell = {"march": diagnose_texts.march, "memory": diagnose_texts.memory, "chip": diagnose_chips.chip}[kind]
        found = tell(named[subject], text, code, values)
    return [*found.lines(), *(f"  {note}" for note in [*another_kind(subject, kind, text), *other_reader(words[0])])]


def other_reader(command: str) -> list[str]:
    """A hint at the tool that reads Verilog beyond the subset. That tool asks `check` about modules of its own making,
    and passes on its refusals."""
    return (
        ["`vidlakost audit` reads a controller in any Verilog, also with other port names"]
        if command == "check"
        else []
    )


# how a text of each kind begins; a comment matches only up to its first end, or the search would try many splits
BEGINS = {
    "a march": rb"\s*(?:\{\s*)?(?:any|up|down|del|[v^*])\b\s*[(;}]",
    "a memory description": rb"(?:\s|#[^\n]*\n)*memory\b",
    "a chip file": rb"(?:\s|#[^\n]*\n)*chip\b",
    "a module of Verilog": rb"(?:\s|//[^\n]*\n|/\*(?:(?!\*/).)*\*/)*module\b",
    "a list of primitives": rb"(?:\s|#[^\n]*\n)*(?:<|(?:SF|TF|WDF|D?RDF|IRF|CF[a-z]{2}|DRF|one|two|all|dyn[12])\b)",
}
KINDS = {
    "march": "a march",
    "memory": "a memory description",
    "chip": "a chip file",
    "verilog": "a module of Verilog",
    "fault": "a list of primitives",
}


def another_kind(subject: str, kind: str, text: bytes) -> Iterator[str]:
    """The hint for a text that begins with a byte-order mark, or like a text of another kind."""
    if text.startswith((b"\xef\xbb\xbf", b"\xff\xfe", b"\xfe\xff")):
        yield "the file begins with a byte-order mark: save it as plain UTF-8, without one"
    elif not re.match(BEGINS[KINDS[kind]], text, re.DOTALL):
        other = next((what for what, begin in BEGINS.items() if re.match(begin, text, re.DOTALL)), None)
        if other:
            yield f"the file looks like {other}, but {subject} has to be {KINDS[kind]}: did you swap two words?"


# ---- files


def absent(word: str) -> list[str]:
    folder = os.path.dirname(word) or "."
    if not os.path.isdir(folder):
        return [f"{word}: error: there is no folder '{folder}'"]
    meant = close_to(
        os.path.basename(word), [name for name in os.listdir(folder) if os.path.isfile(os.path.join(folder, name))]
    )
    return [
        f"{word}: error: there is no such file"
        + (f"; did you mean '{os.path.join(os.path.dirname(word), meant)}'?" if meant else "")
    ]


def why_not(word: str, mode: str) -> str:
    """Why the system doesn't open a file."""
    if os.path.isdir(word):
        return "it is a folder"
    folder = os.path.dirname(word) or "."
    if mode == "w" and not os.path.isdir(folder):
        return f"there is no folder '{folder}'"
    if mode == "w" and not os.path.exists(word):
        return (
            "you may not create files in this folder"
            if not os.access(folder, os.W_OK)
            else "the system had no more room, or failed"
        )
    return "you may not open it" if not os.access(word, os.R_OK if mode == "r" else os.W_OK) else "the system failed"


def file_of(words: list[str], said: str) -> list[str]:
    """A file that is missing, too large, or can't be read or written."""
    what, place = said.rsplit(" ", 1)
    word = words[int(place)]
    if what == "absent":
        return absent(word)
    if what == "too large":
        size = f"{os.path.getsize(word):,} bytes" if os.path.isfile(word) else "too many bytes"
        return [f"{word}: error: the file has {size}, but an input may have at most 1,048,576"]
    mode, verb = ("r", "read") if what == "read failed" else ("w", "written")
    return [f"{word}: error: the file could not be {verb}: {why_not(word, mode)}"]


# ---- cells, directions and cycles


def memory_file(named: Mapping[str, str]) -> Memory:
    return parse_memory(read_described(named["MEMORY"]))


def device(words: list[str], said: str) -> list[str]:
    named = words_by_name(words)
    if not is_there_still(named.get("MEMORY", "")):
        return []
    if said != "device V2" or "VIC" not in named:
        return [
            f"{CONSOLE}: error: "
            + (
                "the program has no model of a memory for this run"
                if said == "device V4"
                else "the model has too little room for this memory"
            )
        ]
    memory = memory_file(named)
    for name in ("AGG", "VIC"):
        if named[name] == "none":
            continue
        word, bit = place_of(named[name])
        if word >= memory.words:
            return [
                f"{name}: error: {named[name]} is outside {memory.name}: "
                f"its words are 0 to {thousands(memory.words - 1)}, by physical index"
            ]
        if bit >= memory.bits:
            return [
                f"{name}: error: {named[name]} is outside {memory.name}: the bits of its words are 0 to"
                f" {memory.bits - 1}"
            ]
    return [
        f"VIC: error: aggressor {named['AGG']} and victim {named['VIC']} are in one word; they have to be in"
        " two words"
    ]


def misfit(words: list[str], said: str) -> list[str]:
    named = words_by_name(words)
    if said == "misfit aggressor":
        two = read_primitive(named["PRIM"]).aggressor is not None
        cells, wanted = ("two cells", "the cell of its aggressor") if two else ("one cell", "none")
        return [f"AGG: error: {named['PRIM']} has {cells}, so AGG has to be {wanted}, not '{named['AGG']}'"]
    if not is_there_still(named["MARCH"]):
        return []
    elements = elements_of(read_text(named["MARCH"]))
    directions = named["DIRS"]
    lines = [
        f"DIRS: error: '{directions}' has {len(directions)} letters, but {named['MARCH']} has {len(elements)} elements"
    ]
    shown = [
        f"  {element.text:24} {directions[place] if place < len(directions) else '(no letter)'}"
        for place, element in enumerate(elements)
    ]
    for place, (element, letter) in enumerate(zip(elements, directions)):
        wants = {"up": "u", "down": "d", "del": "u"}.get(element.order, letter)
        if letter != wants:
            shown[place] += "   a pause has u" if element.is_pause else f"   this element goes {element.order}: {wants}"
            lines[0] = (
                f"DIRS: error: letter {place} is '{letter}', which does not fit element {place}"
                if len(directions) == len(elements)
                else lines[0]
            )
    return lines + shown


def too_long(words: list[str], said: str) -> list[str]:
    named = words_by_name(words)
    if not is_there_still(named["MEMORY"]) or not is_there_still(named["MARCH"]):
        return [
            f"{named['MEMORY']}: error: the test takes {thousands(said.split(' ')[2])} cycles, but the program runs"
            " at most 2,000,000"
        ]
    memory, elements = memory_file(named), elements_of(read_text(named["MARCH"]))
    one = sum(map(memory.cycles_of, elements))
    most = (2000000 - memory.latency - 2) // one if one <= 2000000 else 0
    cure = (
        f"with {most} background{'s' if most > 1 else ''} the test would fit"
        if most
        else "use a shorter march, or fewer words"
    )
    return [
        (
            f"{named['MEMORY']}: error: the test takes {thousands(said.split(' ')[2])} cycles, but the program runs"
            " at most 2,000,000"
        ),
        f"  the march takes {thousands(one)} cycles in each of {len(memory.backgrounds)} backgrounds; {cure}",
        "  (compile has no such limit)",
    ]


def not_text(words: list[str]) -> list[str]:
    for place, word in enumerate(words):
        try:
            word.encode("utf-8")
        except UnicodeEncodeError:
            return [f"{CONSOLE}: error: word {place} is not UTF-8"]
    return [f"{CONSOLE}: error: the words could not be read"]


def no_primitives(words: list[str]) -> list[str]:
    return [
        f"{words_by_name(words).get('FAULTS', 'the list')}: warning: the list holds no primitive, so nothing was judged"
    ]


def lines(words: list[str], said: str, status: int) -> list[str]:
    """The explanation of a refusal; empty if there is none for this call."""
    return list(map(visible, told_lines(words, said, status)))


def told_lines(words: list[str], said: str, status: int) -> list[str]:
    try:
        if status <= 1:
            return no_primitives(words) if said.startswith("total 0 ") else []
        if status == 2:
            return usage(words)
        if words[0] == "chip" and said.startswith("unit ") and not is_there_still(words[1]):
            return once(words[1], said.split(" ", 2)[2])
        if words[0] == "chip" and said.startswith("unit "):
            return told_lines(*diagnose_chips.unit_call(words[1], said), status)
        if status in (3, 4, 5, 14, 15):
            return refused_text(words, said)
        if status in (6, 7, 8, 10) and said:
            return file_of(words, said)
        by_status = {11: device, 12: too_long, 13: misfit}
        if status in by_status:
            return by_status[status](words, said)
        return {
            8: [f"{CONSOLE}: error: the line of the answer could not be written"],
            9: [f"{CONSOLE}: error: out of memory"],
            16: not_text(words),
        }.get(status, [])
    except (OSError, IndexError, ValueError, KeyError, StopIteration, TypeError, ToolError):
        # a file changed meanwhile, or the words fit no command
        return []
