"""The definitions of the repository, and which rests on which, from `specs/`, from the types that the sources declare,
and from the clauses of public calls.

A definition is known by its crate, its file and its name. Names are followed through imports. What a definition
binds itself (arguments, fields, names after λ) refers to nothing. The definitions of the kit are not followed."""
from __future__ import annotations

import dataclasses
import pathlib
import re
from collections.abc import Iterable, Iterator

from vidlakost_tools.pages.spec_reader import (
    Definition,
    Key,
    SpecFile,
    imported,
    joined_uses,
    read_spec,
    references,
    words_in,
)
from vidlakost_tools.tool import ToolError

EVERY = "*"


@dataclasses.dataclass
class Clause:
    """A clause of a public call: its place, and the names in it as its file imports them."""

    call: str
    name: str
    text: str
    uses: set[Key]


# ---- reading a spec file


# ---- what a definition refers to


# ---- the types that sources declare


def declared_types(path: pathlib.Path, crate: str, module: str) -> Iterator[Definition]:
    lines = path.read_text().splitlines()
    comment: list[str] = []
    index = 0
    while index < len(lines):
        line = lines[index]
        found = re.match(r"(?:pub(?:\([a-z]+\))? )?(?:enum|struct|trait) (\w+)", line)
        if line.startswith("///"):
            comment.append(line[3:].strip())
        elif found:
            end = index
            while not lines[end].startswith("}") and not lines[end].endswith(";"):
                end += 1
            if line.endswith(";"):
                end = index
            key = Key(crate, "declared." + module, found[1])
            yield Definition(key, "type", "", comment, lines[index : end + 1], [found[1]], path=path, line=index + 1)
            comment, index = [], end
        elif not line.startswith("#["):
            comment = []
        index += 1


TYPE = re.compile(r"\b[A-Z]\w*")
VARIANT = re.compile(r"^\s*[A-Z]\w*(?=\W|$)")
RUST_USE = re.compile(r"^(?:pub )?use (\w+)((?:::\w+)*)(?:::\{([^}]*)\})?;")


def brought_types(path: pathlib.Path, crate: str) -> Iterator[tuple[str, tuple[str, str]]]:
    """The types that the `use` lines of a source file import: the name here, then the crate and the name there."""
    for line in joined_uses(path.read_text().splitlines()):
        found = RUST_USE.match(line)
        if found:
            home = crate if found[1] in ("crate", "self", "super") else found[1]
            for part in (found[3] or found[2].rsplit("::", 1)[-1]).split(","):
                words = part.split()
                if words:
                    yield words[-1].rsplit("::", 1)[-1], (home, words[0].rsplit("::", 1)[-1])


# ---- the whole


class Graph:
    """All definitions, and what each rests on."""

    def __init__(self, root: pathlib.Path):
        self.root = root
        self.specs: list[SpecFile] = []
        self.by_key: dict[Key, Definition] = {}
        self.by_name: dict[tuple[str, str, str], Definition] = {}
        self.handed_on: dict[tuple[str, str, str], tuple[str, str, str]] = {}
        self.clauses: list[Clause] = []
        for folder in sorted((root / "crates").iterdir()):
            self.read_crate(folder)
        for spec in self.specs:
            for definition in spec.definitions:
                self.follow(spec, definition)
        for folder in sorted((root / "crates").iterdir()):
            exported = exports(folder / "src" / "lib.rt")
            for path in sorted((folder / "src").glob("**/*.rt")):
                self.read_source(path, folder.name, exported)
        self.follow_types()

    def read_crate(self, folder: pathlib.Path) -> None:
        for path in sorted((folder / "specs").glob("**/*.antt")):
            spec = read_spec(path, folder.name)
            self.specs.append(spec)
            for name, place in spec.imports.items():
                self.handed_on[(spec.crate, spec.name, name)] = place
            for definition in spec.definitions:
                self.add(definition)
        for path in sorted((folder / "src").glob("**/*.rt")):
            module = ".".join(path.relative_to(folder / "src").with_suffix("").parts)
            for definition in declared_types(path, folder.name, module):
                self.add(definition)

    def add(self, definition: Definition) -> None:
        if definition.key in self.by_key:
            raise ToolError(f"{definition.path}:{definition.line}: {definition.key.name} is defined twice")
        self.by_key[definition.key] = definition
        for name in definition.names:
            self.by_name[(definition.key.crate, definition.key.file, name)] = definition

    def target(self, place: tuple[str, str, str]) -> Definition | None:
        """What a name in a file means, through files that pass on names."""
        while place not in self.by_name and (further := self.handed_on.get(place)):
            place = further
        return self.by_name.get(place)

    def meant(
        self, word: str, imports: dict[str, tuple[str, str, str]], otherwise: tuple[str, str, str]
    ) -> Definition | None:
        """What a word means under these imports; after the name of a file comes a name of that file."""
        parts = word.split(".")
        crate, file, name = imports.get(parts[0], otherwise)
        return self.target((crate, file, name or parts[1])) if name or len(parts) > 1 else None

    def follow(self, spec: SpecFile, definition: Definition) -> None:
        for word in references(definition):
            found = self.meant(word, spec.imports, (spec.crate, spec.name, word.split(".")[0]))
            if found and found is not definition:
                definition.uses.add(found.key)

    def read_source(self, path: pathlib.Path, crate: str, exported: set[str]) -> None:
        text = path.read_text()
        lines = joined_uses(text.splitlines())
        imports: dict[str, tuple[str, str, str]] = {}
        for line in lines:
            imports.update(imported(line))
        for call, name, clause in clauses_of(lines, EVERY in exported):
            if not exported & {EVERY, call.split("::")[0], path.stem} and path.stem != "lib":
                continue
            uses = {found.key for word in words_in([clause]) if (found := self.meant(word, imports, ("", "", "")))}
            self.clauses.append(Clause(f"{crate}::{call}", name, clause, uses))

    def follow_types(self) -> None:
        """A declared type rests on the types of its parts: for a model on what each is seen as, else on the type
        itself."""
        seen_as = {one.call: one.uses for one in self.clauses if one.name == "Value"}
        types: dict[tuple[str, str], list[Definition]] = {}
        for definition in self.by_key.values():
            if definition.kind == "type":
                types.setdefault((definition.key.crate, definition.key.name), []).append(definition)
        brought: dict[pathlib.Path, dict[str, tuple[str, str]]] = {}
        for definition in [one for several in types.values() for one in several]:
            if definition.path not in brought:
                brought[definition.path] = dict(brought_types(definition.path, definition.key.crate))
            definition.uses |= seen_as.get(f"{definition.key.crate}::{definition.key.name}", set())
            for word in TYPE.findall(" ".join(VARIANT.sub("", line.split("//")[0]) for line in definition.lines)):
                crate, name = brought[definition.path].get(word, (definition.key.crate, word))
                name = self.renamed(crate).get(name, name)
                found = types.get((crate, name), [])
                part = next((one for one in found if one.path == definition.path), found[0] if found else None)
                if part and part is not definition:
                    definition.uses |= seen_as.get(f"{crate}::{name}") or {part.key}

    def renamed(self, crate: str) -> dict[str, str]:
        """The names under which a crate exports types that have other names inside."""
        library = self.root / "crates" / crate / "src" / "lib.rt"
        text = library.read_text() if library.exists() else ""
        return {there: here for here, there in re.findall(r"\b(\w+) as (\w+)", text)}

    def below(self, start: Iterable[Key]) -> list[Key]:
        """All that these rest on, each after what it uses."""
        order: list[Key] = []
        seen: set[Key] = set()
        for key in sorted(start):
            stack: list[tuple[Key, Iterator[Key]]] = []
            if key not in seen:
                seen.add(key)
                stack.append((key, iter(sorted(self.by_key[key].uses))))
            while stack:
                top, rest = stack[-1]
                following = next((one for one in rest if one not in seen), None)
                if following is None:
                    order.append(top)
                    stack.pop()
                else:
                    seen.add(following)
                    stack.append((following, iter(sorted(self.by_key[following].uses))))
        return order


def exports(library: pathlib.Path) -> set[str]:
    """The names that a crate's root passes on, and its public modules; for a program, which has no library, all of
    them."""
    if not library.exists():
        return {EVERY}
    text = library.read_text()
    names = set(re.findall(r"^pub mod (\w+);", text, re.M))
    for found in re.finditer(r"^pub use [\w:]*?(?:\{([^}]*)\}|(\w+));", text, re.M):
        for word in (found[1] or found[2]).replace(",", "\n").splitlines():
            names.update(part for part in word.split() if part != "as")
    return names


def clauses_of(lines: list[str], of_all: bool) -> Iterator[tuple[str, str, str]]:
    """For each public call, or for each call of a program: its name, and the names and texts of its clauses; and the
    ghost parts of models and traits."""
    owner, call, index = "", "", 0
    while index < len(lines):
        line = lines[index]
        stripped = line.strip()
        block = re.match(r"(?:pub )?(?:impl|trait)(?:<[^>]*>)? (?:(\w+)(?:<[^>]*>)? for )?(\w+)", line)
        if block and not line.startswith(" "):
            owner = block[2]
        elif line and not line.startswith((" ", "}")):
            owner = owner if not line.startswith(("pub fn", "fn")) else ""
        found = re.match(r"(pub |pub\(crate\) )?(?:ghost )?fn (\w+)", stripped)
        if found:
            is_public = of_all or found[1] == "pub " or block_is_trait(lines, index)
            call = (f"{owner}::" if owner and line.startswith(" ") else "") + found[2] if is_public else ""
        starts = re.match(
            r"(?:(ensures|requires|returns)\b\*? ?(\w*)|ghost (Value|view|invariant|\w+)\s*[:=]) ?\{", stripped
        )
        if starts and (call or starts[3]):
            text = stripped
            while text.count("{") > text.count("}") and index + 1 < len(lines):
                index += 1
                text += " " + lines[index].strip()
            name = starts[2] or starts[3] or ""
            yield (f"{owner}" if starts[3] else call), name, text[text.index("{") + 1 :]
        index += 1


def block_is_trait(lines: list[str], index: int) -> bool:
    for line in reversed(lines[:index]):
        if line and not line.startswith((" ", "}", "#")):
            return bool(re.match(r"(pub )?trait |impl .* for ", line))
    return False
