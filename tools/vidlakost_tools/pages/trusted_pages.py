"""The pages of the trusted definitions: those of the headline, those of the other clauses of the top call, and the
committed index of both."""
from __future__ import annotations

import hashlib
import re
from typing import Iterator, List, NamedTuple, Tuple

from vidlakost_tools.pages.spec_graph import Clause, Graph
from vidlakost_tools.pages.spec_reader import Definition, Key
from vidlakost_tools.pages.trusted_parts import HEADLINE_TITLE, INDEX_TITLE, OTHERS_TITLE, PARTS, Part
from vidlakost_tools.tool import ToolError

RUN = "bist_app::run"
HEADLINE = "compilation"
File = Tuple[str, str]


# ---- what rests on what


def clauses_of(graph: Graph, call: str, clause: str | None = None) -> list[Clause]:
    found = [one for one in graph.clauses if one.call == call and clause in (None, one.name)]
    if not found:
        raise ToolError(f"no public call {call} has {'a clause ' + clause if clause else 'clauses'}")
    return found


def below(graph: Graph, clauses: list[Clause]) -> list[Key]:
    """What clauses rest on, each after what it rests on itself."""
    return graph.below({key for clause in clauses for key in clause.uses})


def headline_and_others(graph: Graph) -> tuple[list[Key], list[Key]]:
    """The definitions that the headline rests on, and those that only other clauses of the top call need."""
    headline = set(below(graph, clauses_of(graph, RUN, HEADLINE)))
    order = below(graph, clauses_of(graph, RUN))
    return [key for key in order if key in headline], [key for key in order if key not in headline]


def lines_of(graph: Graph, keys: list[Key]) -> int:
    """The lines of these definitions, without comments."""
    return sum(not line.strip().startswith(("--", "///")) for key in keys for line in graph.by_key[key].lines)


def source_of(file: File) -> str:
    crate, name = file
    if name.startswith("declared."):
        return f"crates/{crate}/src/{name[len('declared.'):].replace('.', '/')}.rt"
    return f"crates/{crate}/specs/{name.replace('.', '/')}.antt"


# ---- the order of files and definitions


def part_of(key: Key) -> Part:
    return next(part for part in PARTS if part.has(key.crate, key.file))


def by_part(keys: list[Key]) -> list[tuple[Part, list[Key]]]:
    """The definitions part by part, without the parts that have none."""
    parts = [(part, [key for key in keys if part_of(key) is part]) for part in PARTS]
    return [(part, found) for part, found in parts if found]


def in_reading_order(graph: Graph, part: Part, keys: list[Key]) -> list[tuple[File, list[Definition]]]:
    """The files of a part with their definitions, in the order of the part's list, or else in the order of use."""
    files: dict[File, list[Definition]] = {}
    for key in keys:
        files.setdefault((key.crate, key.file), []).append(graph.by_key[key])
    places = {file: (part.place(*file), place) for place, file in enumerate(files)}
    return [(file, sorted(files[file], key=lambda one: one.line)) for file in sorted(files, key=places.__getitem__)]


# ---- the pages


def shown(definition: Definition) -> list[str]:
    mark = "///" if definition.kind == "type" else "--"
    return [f"{mark} {line}" for line in definition.comment] + definition.lines


def table(graph: Graph, keys: list[Key]) -> list[str]:
    """How many definitions and lines each part has, and all together."""
    made = ["| Part | Definitions | Lines |", "|---|--:|--:|"]
    rows = [(part.title, found) for part, found in by_part(keys)] + [("All", keys)]
    return made + [f"| {title} | {len(found):,} | {lines_of(graph, found):,} |" for title, found in rows]


def sections(graph: Graph, keys: list[Key], heads: dict[File, str], is_further: bool) -> list[str]:
    """The complete definitions, file by file, each part with the text above it."""
    made: list[str] = []
    for part, found in by_part(keys):
        words = part.further if is_further else part.words
        made += ["", f"## {part.title}", "", words.strip(), ""]
        for file, definitions in in_reading_order(graph, part, found):
            said = heads.get(file, "")
            made += [f"### `{source_of(file)}`", ""] + ([said, ""] if said else []) + ["```"]
            for count, definition in enumerate(definitions):
                made += ([""] if count else []) + shown(definition)
            made += ["```", ""]
    return made


def heads_of(graph: Graph) -> dict[File, str]:
    """The head of each spec file, without its kind."""
    return {
        (spec.crate, spec.name): re.sub(r"^(Trusted|Public|Inner)\. ", "", " ".join(spec.head)) for spec in graph.specs
    }


def clause_lines(clause: Clause) -> list[str]:
    return ["```", f"ensures {HEADLINE} {{ {clause.text.strip().rstrip(' }')} }}", "```", ""]


def headline_page(graph: Graph) -> str:
    keys, _ = headline_and_others(graph)
    made = [HEADLINE_TITLE] + clause_lines(clauses_of(graph, RUN, HEADLINE)[0])
    made += table(graph, keys) + sections(graph, keys, heads_of(graph), is_further=False)
    return "\n".join(made).rstrip() + "\n"


def others_page(graph: Graph) -> str:
    _, keys = headline_and_others(graph)
    made = [OTHERS_TITLE] + table(graph, keys) + sections(graph, keys, heads_of(graph), is_further=True)
    return "\n".join(made).rstrip() + "\n"


# ---- the index


def mark_of(definition: Definition) -> str:
    return hashlib.sha256("\n".join(shown(definition)).encode()).hexdigest()[:10]


def index_lines(graph: Graph, keys: list[Key]) -> list[str]:
    made: list[str] = []
    for part, found in by_part(keys):
        for file, definitions in in_reading_order(graph, part, found):
            made += [f"### `{source_of(file)}`", ""]
            for one in definitions:
                names = sorted({key.name for key in one.uses} - {one.key.name})
                made.append(f"- {mark_of(one)} `{one.key.name}`" + (f": {' '.join(names)}" if names else ""))
            made.append("")
    return made


def index_page(graph: Graph, promises: str) -> str:
    headline, others = headline_and_others(graph)
    known = {*headline, *others}
    further = [key for key in below(graph, promised(graph, promises)) if key not in known]
    made = [INDEX_TITLE] + clause_lines(clauses_of(graph, RUN, HEADLINE)[0])
    for title, keys in (
        ("The headline", headline),
        ("The other clauses of the top call", others),
        ("The other clauses that the promises name", further),
    ):
        made += [f"## {title}", ""] + table(graph, keys) + [""] + index_lines(graph, keys)
    return "\n".join(made).rstrip() + "\n"


# ---- the claims

CLAIM = re.compile(r"`(\w+(?:::\w+)+)`(?: \((`\w+`(?:, `\w+`)*)\))?")


class Claim(NamedTuple):
    """What a line of a page's list names: calls, each with its clauses or with none; and the calls that are named
    alone, beside these."""

    number: int
    calls: List[Tuple[str, List[str]]]
    alone: List[str]

    def crates(self) -> set[str]:
        return {call.split("::")[0] for call, _ in self.calls}

    def is_beside(self, call: str, name: str) -> bool:
        return call.split("::")[0] in self.crates() and call.rsplit("::", 1)[-1] == name


def claims_of(page: str) -> Iterator[Claim]:
    """The lines of a page's list of calls."""
    before, heading, listed = page.rpartition("## Each call\n")
    for number, line in enumerate(listed.splitlines(), before.count("\n") + 2 if heading else 1):
        begun = line.split(": ", 1)[0] if line.startswith("- ") else ""
        calls = [(one[1], re.findall(r"\w+", one[2] or "")) for one in CLAIM.finditer(begun)]
        if begun:
            yield Claim(number, calls, re.findall(r"`(\w+)`", CLAIM.sub("", begun)) if calls else [])


def promised(graph: Graph, page: str) -> list[Clause]:
    """The clauses that a page's list names; all of a call that is named without any."""
    claims = list(claims_of(page))

    def is_promised(clause: Clause) -> bool:
        return any(
            any(clause.call == call and (not names or clause.name in names) for call, names in claim.calls)
            or any(claim.is_beside(clause.call, name) for name in claim.alone)
            for claim in claims
        )

    return [clause for clause in graph.clauses if is_promised(clause)]


def headline_count(graph: Graph) -> str:
    """How much has to be read to know what the headline says."""
    keys = headline_and_others(graph)[0]
    return f"{len(keys):,} definitions of {lines_of(graph, keys):,} lines"


def wrong_claims(graph: Graph, page: str) -> list[str]:
    """The lines of a page's list of calls that name a call or a clause that does not exist, and what is wrong. A name
    alone is that of a call in the crate of its line."""
    clauses: dict[str, set[str]] = {}
    for clause in graph.clauses:
        clauses.setdefault(clause.call, set()).add(clause.name)
    wrong = []
    for claim in claims_of(page):
        if not claim.calls:
            wrong.append(f"{claim.number}: names no call")
        for call, names in claim.calls:
            if call not in clauses:
                wrong.append(f"{claim.number}: there is no public call {call}")
            known = clauses.get(call, set(names))
            wrong += [f"{claim.number}: {call} has no clause {name}" for name in names if name not in known]
        wrong += [
            f"{claim.number}: there is no public call {name} beside {claim.calls[0][0]}"
            for name in claim.alone
            if not any(claim.is_beside(call, name) for call in clauses)
        ]
    return wrong
