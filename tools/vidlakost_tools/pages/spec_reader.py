"""Reads the files of `specs/`: their definitions, and what each names."""
from __future__ import annotations

import dataclasses
import pathlib
import re
from collections.abc import Iterable, Iterator

from vidlakost_tools.tool import ToolError


NAME = re.compile(r"[^\W\d][\w']*(?:\.[^\W\d][\w']*)*")
USE = re.compile(r"^\s*(?:ghost |unfoldable )?(?:pub )?use ([\w.]+?)(?:\.\{(.*)\})?(?: as (\w+))?;?$")
HEAD = re.compile(r"^(?:(?:abbrev|unfoldable|opaque) )*(?:pub )?(?:(record|data) )?([^\s(){}:]+)")
BINDER = re.compile(r"[({]((?:[^\W\d][\w']*\s+)*[^\W\d][\w']*)\s*:")
LAMBDA = re.compile(r"λ\s*\(?((?:[^\W\d][\w']*\s+)*[^\W\d][\w']*)")
FIELD = re.compile(r"([^\W\d][\w']*)\s*=(?!=)")


@dataclasses.dataclass(frozen=True, order=True)
class Key:
    crate: str
    file: str
    name: str


@dataclasses.dataclass
class Definition:
    """A definition of a spec file, or a type that a source file declares: `lines` are its own, `comment` those
    above."""

    key: Key
    kind: str
    heading: str = ""
    comment: list[str] = dataclasses.field(default_factory=list)
    lines: list[str] = dataclasses.field(default_factory=list)
    names: list[str] = dataclasses.field(default_factory=list)
    uses: set[Key] = dataclasses.field(default_factory=set)
    path: pathlib.Path = pathlib.Path()
    line: int = 0


@dataclasses.dataclass
class SpecFile:
    path: pathlib.Path
    crate: str
    name: str
    imports: dict[str, tuple[str, str, str]] = dataclasses.field(default_factory=dict)
    head: list[str] = dataclasses.field(default_factory=list)
    definitions: list[Definition] = dataclasses.field(default_factory=list)
    proofs: list[str] = dataclasses.field(default_factory=list)


def imported(line: str) -> Iterator[tuple[str, tuple[str, str, str]]]:
    """The names that a `use` line imports: the name here, then crate, file and name there."""
    found = USE.match(line)
    if not found:
        return
    module, names, alias = found[1], found[2], found[3]
    parts = module.split(".")
    if parts[0] not in ("Rattle", "crate") or len(parts) < 4 and parts[0] == "Rattle":
        return
    crate = parts[1]
    if parts[2] != "specs":
        return
    if parts[3] == "declared":
        if parts[-1] in ("TheVariants", "TheOpen", "TheInside"):
            parts = parts[:-1]
        target = (crate, "declared." + ".".join(parts[4:-1]), parts[-1])
        for name in split_names(names):
            yield name[1], target
        if alias:
            yield alias, target
        return
    file = ".".join(parts[3:])
    for there, here in split_names(names):
        yield here, (crate, file, there)
    if alias:
        yield alias, (crate, file, "")


def split_names(names: str | None) -> Iterator[tuple[str, str]]:
    for part in (names or "").split(","):
        words = part.split()
        if len(words) == 3 and words[1] == "as":
            yield words[0], words[2]
        elif words:
            yield words[0], words[0]


def joined_uses(lines: list[str]) -> list[str]:
    """The lines, with a `use` over several lines as one."""
    joined: list[str] = []
    open_use = False
    for line in lines:
        if open_use:
            joined[-1] += " " + line.strip()
        else:
            joined.append(line)
        stripped = joined[-1].lstrip()
        is_use = stripped.startswith(("use ", "ghost use ", "pub use "))
        open_use = is_use and joined[-1].count("{") > joined[-1].count("}")
    return joined


def read_spec(path: pathlib.Path, crate: str) -> SpecFile:
    spec = SpecFile(
        path,
        crate,
        ".".join(path.relative_to(path.parents[len(path.parts) - path.parts.index("specs") - 2]).with_suffix("").parts),
    )
    reader = SpecReader(spec)
    for number, line in enumerate(path.read_text().splitlines(), 1):
        reader.take(number, line)
    reader.finish()
    return spec


class SpecReader:
    """One spec file, line by line: what is pending (a comment, a heading, a definition), and what was read."""

    def __init__(self, spec: SpecFile):
        self.spec = spec
        self.comment: list[str] = []
        self.heading = ""
        self.current: Definition | None = None
        self.use = ""
        self.seen_code = False

    def take(self, number: int, line: str) -> None:
        if self.use:
            self.use += " " + line.strip()
            self.end_use()
        elif line.startswith(("use ", "pub use ", "unfoldable pub use ")):
            self.seen_code = True
            self.current = None
            self.use = line
            self.end_use()
        elif not line.strip():
            self.comment = []
        elif line.startswith("--"):
            self.take_comment(line)
        elif line.startswith((" ", "}")):
            if self.current:
                self.current.lines.append(line)
            elif line.strip() != "}":
                raise ToolError(f"{self.spec.path}:{number}: this line belongs to no definition")
        else:
            self.take_code(number, line)

    def end_use(self) -> None:
        if self.use.count("{") > self.use.count("}"):
            return
        if ".proofs." in self.use and "Rattle.std" not in self.use:
            self.spec.proofs.append(self.use)
        self.spec.imports.update(imported(self.use))
        self.use = ""

    def take_comment(self, line: str) -> None:
        if line.startswith("-- ----"):
            self.heading = line[8:].strip()
            self.current = None
        elif self.seen_code:
            self.comment.append(line[2:].strip())
        else:
            self.spec.head.append(line[2:].strip())

    def take_code(self, number: int, line: str) -> None:
        self.seen_code = True
        if line.startswith(("mod ", "pub mod ")):
            return
        first = line.split()[0]
        if self.current and not is_block(line) and (first in self.current.names or first == "unfolding"):
            self.current.lines += [f"-- {words}" for words in self.comment] + [line]
            self.comment = []
            return
        found = HEAD.match(line)
        if found is None:
            raise ToolError(f"{self.spec.path}:{number}: this line begins no definition")
        kind = "block" if is_block(line) else found[1] or "definition"
        name = found[2]
        self.current = Definition(
            Key(self.spec.crate, self.spec.name, name),
            kind,
            self.heading,
            self.comment,
            [line],
            [name],
            path=self.spec.path,
            line=number,
        )
        self.comment = []
        self.spec.definitions.append(self.current)

    def finish(self) -> None:
        for definition in self.spec.definitions:
            definition.names = list(names_of(definition))
            definition.key = Key(self.spec.crate, self.spec.name, definition.names[0])


def names_of(definition: Definition) -> Iterator[str]:
    """The names of a definition: its own and its constructors', or for a block those of all definitions in it."""
    if definition.kind == "block":
        yield from names_within(definition.lines[1:], 2)
        return
    yield definition.key.name
    if definition.kind == "data":
        yield from constructors(definition.lines[1:], 2)


def names_within(lines: list[str], depth: int) -> Iterator[str]:
    """The names of a block, whose definitions begin at this depth."""
    space = " " * depth
    starts = [at for at, line in enumerate(lines) if re.match(space + r"[^\s-]", line)] + [len(lines)]
    for start, end in zip(starts, starts[1:]):
        line = lines[start][depth:]
        if is_block(line):
            yield from names_within(lines[start + 1 : end], depth + 2)
        elif " : " in line and (found := HEAD.match(line)) and "=" not in line[: line.index(" : ")]:
            yield found[2]
            if found[1] == "data":
                yield from constructors(lines[start + 1 : end], depth + 2)


def constructors(lines: list[str], depth: int) -> Iterator[str]:
    for line in lines:
        found = re.match(" {%d}(?:pub )?([^\\W\\d][\\w']*) :" % depth, line)
        if found:
            yield found[1]


def is_block(line: str) -> bool:
    """Whether a line begins mutual definitions, or definitions that share parameters."""
    return bool(re.match(r"(?:abbrev )?mutual\b|module _ ", line))


FIELD_HEAD = re.compile(r"\s+(?:pub )?([^\W\d][\w']*) : ")


def bound_in(lines: Iterable[str], own: Iterable[str]) -> set[str]:
    """The names that these lines bind. Fields of a record are left out, since each is bound after the one before it."""
    bound: set[str] = set()
    own = set(own)
    for line in lines:
        for found in BINDER.finditer(line):
            bound.update(found[1].split())
        for found in LAMBDA.finditer(line):
            bound.update(found[1].split())
        stripped = line.strip()
        words = stripped.split()
        if words and words[0] in own and "=" in words:
            pattern = stripped[: stripped.index(" =")] if " =" in stripped else stripped
            # a constructor has its type after a colon, and a record may be changed in that
            if " : " not in pattern:
                bound.update(word for word in NAME.findall(pattern)[1:] if word[0].islower())
        for found in re.finditer(r"\blet ([^\W\d][\w']*)", line):
            bound.add(found[1])
    return bound - own


def references(definition: Definition) -> Iterator[str]:
    """The words of a definition that it doesn't bind itself. A field's type may use a name that the field then
    takes."""
    bound = bound_in(definition.lines, definition.names)
    field = ""
    for line in definition.lines:
        head = FIELD_HEAD.match(line) if definition.kind == "record" else None
        if head:
            bound.add(field)
            field, line = head[1], line[head.end() :]
        for word in words_in([line]):
            if word.split(".")[0] not in bound:
                yield word


def words_in(lines: Iterable[str]) -> Iterator[str]:
    for line in lines:
        line = re.sub(r'"[^"]*"', '""', line.split(" -- ")[0])
        line = re.sub(r"([;{]\s*)" + FIELD.pattern, r"\1", line)
        yield from NAME.findall(line)
        yield from re.findall(r"[^\w\s(){}\[\];,.:=\"'→λ×⊥∷]+", line)
