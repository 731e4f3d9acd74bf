"""What the lines of the program mean, from docs/FORMATS.md, and what a refusal means in a call.

usage: vidlakost explain                                   every refusal, on one page
       vidlakost explain march M8                          a refusal, by its line, its code or the beginning of its line
       vidlakost explain CFds                              a class of primitives, AF, or a kind of links as LF1; a name
                                                           from the literature, as CFin; or a status, as 13
       vidlakost explain caught                            an answer of the program: the sentences that describe it
       vidlakost explain --said STATUS LINE -- WORD..      what this refusal means in the call with these words
       vidlakost explain --json FILE STATUS LINE -- WORD.. writes the verdict of this call of check, for scripts
       vidlakost explain --warn WORD..                     what other tools may read otherwise in the files of this call
       vidlakost explain --commands [COMMAND]              the commands and the tools, or one of them in full
       vidlakost explain --help"""
from __future__ import annotations

import re
from typing import Iterator

from vidlakost_tools.program import FORMATS, commands
from vidlakost_tools.refusals import explained as diagnose, otherwise
from vidlakost_tools.refusals.finding import close_to
from vidlakost_tools.tasks import by_task, line_of, tools
from vidlakost_tools.text import cut, read_text, visible
from vidlakost_tools.texts import decoder, linked, old_names
from vidlakost_tools.tool import ToolError, refuse_inputs, usage_of

# what a letter of a line stands for
VALUES = {
    "B": r"\d+",
    "L": r"\d+",
    "U": r"\d+",
    "E": r"\d+",
    "O": r"\d+",
    "W": r"\d+",
    "C": r"\d+",
    "N": r"\d+",
    "FIELD": r"\S+",
    "NAME": r"\S+",
    "R": r".+",
    "NAMES": r".+",
    "X": r"\d+",
    "Y": r"\d+",
    "P": r"\w+",
}


def plain(text: str) -> str:
    """A text of the page without its marks."""
    return re.sub(r"\s+", " ", text.replace("`", "").replace("\\|", "|")).strip()


def rows(header: str) -> Iterator[list[str]]:
    """The cells of the tables that begin with this header."""
    inside = False
    for line in read_text(FORMATS).splitlines():
        if line.startswith("| " + header):
            inside = True
        elif not line.startswith("|"):
            inside = False
        elif inside and not line.startswith("|--"):
            yield [cell.strip() for cell in re.split(r"(?<!\\)\|", line)[1:-1]]


def meanings() -> Iterator[tuple[str, str, str]]:
    """The form of each line that refuses, and when it comes."""
    for form, when, *example in rows("Refusal"):
        yield plain(form), plain(when), plain(example[0]) if example and example[0] else ""
    for status, forms, when in rows("Status"):
        if int(status) > 1:
            for form in forms.split(", "):
                if ".." not in form:
                    yield plain(form), plain(when), ""


def pattern(form: str) -> str:
    return "".join(f" {VALUES[part]}" if part in VALUES else " " + re.escape(part) for part in form.split())[1:]


def refusals(words: str) -> Iterator[str]:
    """The refusals that fit a line, its beginning or its code alone."""
    for form, when, example in meanings():
        code = next((part for part in form.split() if re.fullmatch(r"[A-Z]\d+", part)), None)
        if form.startswith(words) or re.fullmatch(pattern(form), words) or words == code:
            yield f"{form}\n    {when}" + (f"\n    for example {example}" if example else "")


def answers(words: str) -> Iterator[str]:
    """The answers that fit a line or its beginning, for the commands that have a table of answers."""
    for form, status, tells in rows("Line | Status"):
        if plain(form).startswith(words) or re.fullmatch(pattern(plain(form)), words):
            yield f"{plain(form)}\n    status {status}: {plain(tells)}"


def classes(word: str) -> Iterator[str]:
    """What the page says of a class: its name in words, and its primitives."""
    for header in ("Class | In words", "Class | Primitives", "Class | Word"):
        for names, *cells in rows(header):
            for name, first in zip(plain(names).split(", "), old_names.apart(plain(cells[0]))):
                if name == word:
                    yield f"{word}\n    {'; '.join([first, *map(plain, cells[1:])])}"


def decoder_faults(word: str) -> Iterator[str]:
    """What the page says of the faults of the address decoder, or of one of them."""
    for names, *cells in rows("Name | Address x"):
        if word in (decoder.CLASS, *plain(names).split(", ")):
            yield f"{plain(names)}\n    address x {plain(cells[0])}\n    in the literature {plain(cells[1])}"


def link_kinds(word: str) -> Iterator[str]:
    """What the page says of a kind of linked faults."""
    for kind, aggressors, count in rows("Kind | Aggressors"):
        if word in ("LF", kind):
            yield f"{kind}\n    {linked.MEANS[kind]}: {plain(aggressors)}\n    {count} links"


def literature(word: str) -> Iterator[str]:
    """The meaning of a name from the literature, in the words of FORMATS."""
    meaning, meant = old_names.meaning_of(word), old_names.class_of(word)
    if meaning is not None:
        yield f"{word}\n    {plain(meaning)}"
    elif meant is not None and meant.lower() != word.lower():
        yield f"{word}\n    {meant} here"
        yield from classes(meant)


def statuses(word: str) -> Iterator[str]:
    for status, forms, when in rows("Status"):
        if status == word:
            yield f"status {status}: {plain(forms)}\n    {plain(when)}"
    if word in ("16", "125"):
        # these have no line, so the page has them below the table
        below = read_text(FORMATS).split("Status 16 is the program's alone", 1)[1].split("\n")[0]
        said = re.split(r"(?<=\.) (?=The launcher)", f"Status 16 is the program's alone{below}")
        yield f"status {word}\n    {plain(said[0] if word == '16' else said[-1])}"


def sentences(word: str) -> Iterator[str]:
    """The sentences of the page that show a line or a word of the program that begins so."""
    prose = "\n".join(line for line in read_text(FORMATS).splitlines() if not re.match(r"\||#|```", line))
    for paragraph in prose.split("\n"):
        for sentence in re.split(r"(?<=[.:;]) (?=[A-Z`])", paragraph):
            if re.search(rf"`{re.escape(word)}\b", sentence):
                yield f"    {plain(re.sub(r'^(- |[0-9]+[.] )', '', sentence))}"


def page(words: str) -> int:
    found = [
        *refusals(words),
        *answers(words),
        *classes(words),
        *decoder_faults(words),
        *link_kinds(words),
        *statuses(words),
    ]
    found += literature(words) if not found else []
    if words and not any(row.split("\n")[0].startswith(words) and " " not in words for row in found):
        # a line of the program begins with the word that its sentences show
        known = [*sentences(words), *(sentences(words.split()[0]) if words.split() else [])]
        told = list(dict.fromkeys(known))[:6] if not found else []
        found += [words, *told] if told else []
    for row in found:
        print("\n".join(map(cut, row.split("\n"))))
    if found:
        return 0
    names = [
        plain(name)
        for header in ("Class | In words", "Class | Word")
        for cells in rows(header)
        for name in cells[0].split(", ")
    ]
    meant = old_names.class_meant(words, [*names, *(command.name for command in commands())])
    raise ToolError(f"nothing is known of '{words}'" + (f"; did you mean '{meant}'?" if meant else ""), 1)


# ---- the commands


def list_commands() -> None:
    """The commands and the tools by task, and the statuses."""
    print("usage: vidlakost NAME WORD..\n")
    for title, names in by_task():
        print(f"{title}:")
        for name in names:
            print(f"  {name:11} {line_of(name)}")
    print("Statuses:")
    for status, forms, when in rows("Status"):
        if int(status) <= 1:
            print(f"  {status:>3}  {plain(when)}")
    for status, forms, when in rows("Status"):
        if int(status) > 1:
            print(f"  {status:>3}  {plain(forms):{22}}  {plain(when)}")
    print("  125  the launcher found no program to run, could not build one, or had no answer\n")
    print(
        "`vidlakost NAME --help` describes one in full. `vidlakost --version` prints the commit and the kit's line.\n"
        "docs/GUIDE.md goes through the tasks, and docs/FORMATS.md has the texts and every refusal."
    )


def tell_command(name: str) -> None:
    command = next((it for it in commands() if it.name == name), None)
    if command is None:
        meant = close_to(name, [*(it.name for it in commands()), *tools()])
        raise ToolError(f"'{name}' is no command and no tool" + (f"; did you mean '{meant}'?" if meant else ""))
    print(f"usage: vidlakost {' '.join(command.form)}\n       vidlakost {command.example}\n")
    print(re.sub(r"\n{3,}", "\n\n", command.does.replace("`", "").replace("**", "")))


def write_verdict(file: str, status: int, line: str, inputs: list[str]) -> None:
    """Writes what `check` said of its module, march and memory."""
    from vidlakost_tools.audit.outcome import of_check

    refuse_inputs(file, list(zip(("the module", "the march", "the memory"), inputs)))
    of_check(status, line).write(file, inputs)


def main(arguments: list[str]) -> int:
    arguments = arguments
    if arguments == ["--help"]:
        print(__doc__)
        return 0
    if arguments[:1] == ["--commands"]:
        tell_command(arguments[1]) if arguments[1:] else list_commands()
        return 0
    if arguments[:1] == ["--said"]:
        if arguments[3:4] != ["--"] or not re.fullmatch(r"\d+", arguments[1]):
            raise ToolError(usage_of(__doc__))
        for line in diagnose.lines(arguments[4:], arguments[2], int(arguments[1])):
            print(cut(line))
        return 0
    if arguments[:1] == ["--json"]:
        if arguments[4:6] != ["--", "check"] or len(arguments) != 9 or not re.fullmatch(r"\d+", arguments[2]):
            raise ToolError(usage_of(__doc__))
        write_verdict(arguments[1], int(arguments[2]), arguments[3], arguments[6:])
        return 0
    if arguments[:1] == ["--warn"]:
        for line in otherwise.warnings_of(arguments[1:]):
            print(cut(visible(line)))
        return 0
    if arguments[:1] and arguments[0].startswith("-"):
        raise ToolError(f"there is no option {arguments[0]}\n{usage_of(__doc__)}")
    return page(" ".join(arguments))
