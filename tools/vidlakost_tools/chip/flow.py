"""The makefile of a chip: each step from descriptions to reports is a target, with what it depends on."""
from __future__ import annotations

import dataclasses
import hashlib
import os
import pathlib
import re
from typing import ClassVar

from vidlakost_tools.chip import text as system_text
from vidlakost_tools.chip.system import Part, Placed, System
from vidlakost_tools.collar.clock_mux import chosen_clocks
from vidlakost_tools.collar.pins import literal
from vidlakost_tools.collar.vendor import files_beside
from vidlakost_tools.collar.watch import GATES as GATES_DEFINE
from vidlakost_tools.text import beside, shown, template
from vidlakost_tools.texts.memory import Memory
from vidlakost_tools.tool import ToolError

MARK = "# made by vidlakost flow"
# what a makefile and a shell take as it is
PLAIN = re.compile(r"[A-Za-z0-9_./+@][A-Za-z0-9_./+@-]*")

HEAD = template(__file__, "flow_head.mk")
# what Verilator is told of vendors' models: both ports of a memory write the same array
THEIRS = "-Wno-MULTIDRIVEN "
# a report and the controller; that primitives escape is no failure of the step
COMPILE = template(__file__, "flow_compile.mk")
COLLAR = """
{name}/passed: {needs} FORCE
	@$(call kept,$@,{files}) || {{ $(call again,$@); \\
	  (cd $(ROOT) && $(LAUNCHER) collar {memories} --macro {pins} $(OUT)/{name}{model}{mux} >/dev/null) && \\
	  (cd {name} && $(call simulate,{name}_collar_tb,passed)) && touch $@ && $(call done,$@,{files}); }}
"""
# the gates of a collar in its testbench, sound
GATES = template(__file__, "flow_gates.mk")
TOP = beside(__file__, "flow_top.mk")
# what a tester starts the whole by, in its testbenches; and the timing of that, where there are cells and OpenSTA
ACCESS = beside(__file__, "flow_access.mk")
PAGES = """
reports.html: {reports} FORCE
	@$(call kept,$@,{files} $@) || {{ $(call again,$@); \\
	  (cd $(ROOT) && $(LAUNCHER) report --all {all} --html $(OUT)/$@{memories}{whole}) && $(call done,$@,{files} $@); }}
"""
TESTER = """
{page}: {needs}FORCE
	@$(call kept,$@,{files} $@) || {{ $(call again,$@); \\
	  (cd $(ROOT) && $(LAUNCHER) report --tester {chip} --html $(OUT)/$@) && $(call done,$@,{files} $@); }}
"""


def plain(path: str) -> str:
    """A path as a makefile can have it."""
    if not PLAIN.fullmatch(path):
        why = "a file name in the makefile has only letters, digits and _./+@-, and does not begin with -"
        raise ToolError(f"{shown(path)}: {why}")
    return path


@dataclasses.dataclass
class Flow:
    """A chip, its files, and the folder of the makefile."""

    # the folders that belong to no memory
    FOLDERS: ClassVar[tuple[str, ...]] = ("chip",)

    system: System
    chip_file: str
    pins: list[str]
    list_file: str
    folder: pathlib.Path
    vendors: dict[str, list[str]]
    clock_mux: str = ""

    def __post_init__(self) -> None:
        taken = next((part.memory.name for part in self.system.parts if part.memory.name.lower() in self.FOLDERS), None)
        if taken:
            raise ToolError(f"a memory named {taken} would have the folder of the whole: rename it")
        here, there = os.path.realpath("."), os.path.realpath(self.folder)
        self.root, self.out = plain(os.path.relpath(here, there)), plain(os.path.relpath(there, here))

    def given(self, path: str) -> str:
        """A file that is read, as the makefile names it where a target depends on it."""
        plain(path)
        return path if os.path.isabs(path) else f"$(ROOT)/{path}"

    def bases(self) -> list[Part]:
        """One part of each description."""
        found: dict[str, Part] = {}
        for part in self.system.parts:
            found.setdefault(part.memory.name, part)
        return list(found.values())

    def collars(self) -> list[Placed]:
        """One collar of each macro's pins."""
        found: dict[str, Placed] = {}
        for placed in self.system.collars:
            found.setdefault(placed.word.name, placed)
        return list(found.values())

    def folder_of(self, memory: str) -> str:
        """The folder of a memory; the high part of a wide word is in the folder of its low one."""
        return next(
            placed.word.name for placed in self.collars() if memory in [one.name for one in placed.word.memories]
        )

    def vendors_of(self, placed: Placed) -> list[str]:
        """The files of --model that a simulator reads beside the macro of a collar."""
        return files_beside(placed.macro.name, self.vendors, {other.macro.name for other in self.system.collars})

    def beside(self, path: str) -> str:
        """A file of --model, whose whole name was looked at, as a recipe names it from the folder that the tool runs
        in."""
        return plain(os.path.relpath(path, os.path.realpath(".")))

    def controllers(self, memories: list[Memory]) -> list[str]:
        return [f"{self.folder_of(memory.name)}/{memory.name}_bist.v" for memory in memories]

    def compiled(self) -> list[str]:
        made = []
        for part in self.bases():
            name, march, memory = part.memory.name, plain(part.unit.march), plain(part.unit.memory_file)
            files = [
                *map(self.given, (march, memory, self.list_file)),
                f"{name}.report",
                *self.controllers([part.memory]),
            ]
            values = {"march": march, "memory": memory, "list": plain(self.list_file), "files": " ".join(files)}
            made.append(COMPILE.substitute(name=name, folder=self.folder_of(name), **values))
        return made

    def collared(self) -> list[str]:
        made = []
        for placed in self.collars():
            memories = [part.unit.memory_file for part in self.bases() if part.memory in placed.word.memories]
            name, vendors = placed.word.name, list(map(self.beside, self.vendors_of(placed)))
            models = list(map(self.given, vendors)) or [f"{name}/{placed.macro.name}.v"]
            own = [f"{name}/{file}" for file in (f"{name}_collar.v", f"{name}_collar_tb.sv", "files.f")]
            own += self.cell_of(placed, f"{name}/")
            files = [
                *map(self.given, [*memories, placed.macro.path]),
                *own,
                *models,
                *self.controllers(placed.word.memories),
            ]
            values = {
                "mux": self.mux(),
                "memories": " ".join(memories),
                "pins": placed.macro.path,
                "needs": " ".join(f"{memory.name}.report" for memory in placed.word.memories),
                "files": " ".join(files),
                "model": "".join(f" --model {file}" for file in vendors),
            }
            made.append(COLLAR.format(name=name, **values))
            made.append(self.gated(placed, [*own, *models, *self.controllers(placed.word.memories)]))
        return made

    def mux(self) -> str:
        """The words that name the cell of clocks."""
        return f" --clock-mux {self.clock_mux}" if self.clock_mux else ""

    def cell_of(self, placed: Placed, folder: str) -> list[str]:
        """The model of that cell, if a collar has one and the vendor's files beside it have none."""
        cell = self.clock_mux.split(":")[0]
        theirs = {name for file in self.vendors_of(placed) for name in self.vendors[file]}
        return [f"{folder}{cell}.v"] if cell and cell not in theirs and chosen_clocks(placed.macro) else []

    def gated(self, placed: Placed, files: list[str]) -> str:
        """The gates of a collar in its testbench."""
        here = os.path.realpath(self.folder / placed.word.name)
        models = [os.path.relpath(file, here) for file in self.vendors_of(placed)] or [f"{placed.macro.name}.v"]
        modules = " ".join(f"{memory.name}_bist.v" for memory in placed.word.memories)
        model = " ".join([*models, *self.cell_of(placed, "")])
        values = {
            "files": " ".join(files),
            "modules": modules,
            "model": model,
            "whole": self.system.name,
            "define": GATES_DEFINE,
        }
        return GATES.substitute(name=placed.word.name, **values)

    def inputs(self) -> list[str]:
        """What describes the chip, as the makefile names it."""
        described = [file for part in self.bases() for file in (part.unit.march, part.unit.memory_file)]
        return list(dict.fromkeys(map(self.given, [self.chip_file, *self.pins, *described])))

    def whole(self) -> str:
        """The top, its test, and what other tools say of it."""
        system, vendors = self.system, [self.given(self.beside(file)) for file in self.vendors]
        known = {name for modules in self.vendors.values() for name in modules}
        own = [
            f"{name}.v" for name in dict.fromkeys(placed.macro.name for placed in system.collars) if name not in known
        ]
        names = [system.name_of(number) for number in range(len(system.chips))]
        modules = [
            f"{system.name}_system.v",
            *(f"{placed.word.name}_collar.v" for placed in self.collars()),
            *(f"{name}.v" for name in names),
        ]
        written = [
            *modules,
            f"{system.name}_boxes.v",
            *own,
            f"{system.name}_system_tb.sv",
            "files.f",
            *(f"{name}.chip" for name in names if system.is_list),
        ]
        return (TOP + ACCESS).format(
            name=system.name,
            words=" ".join([self.chip_file, *self.pins]),
            mux=self.mux(),
            read=" ".join([*self.inputs(), *vendors]),
            written=" ".join([*(f"chip/{name}" for name in written), *vendors]),
            models="".join(f" --model {self.beside(file)}" for file in self.vendors),
            modules=" ".join(modules),
            timed=f"chip/{system.name}_access.v chip/{system.name}_test.sdc",
        )

    def known(self) -> str:
        """The pins of macros of which OpenSTA has to warn: no path goes to a tied one, and two clocks go to one that
        the test chooses."""
        made, found = system_text.Text(self.system), []
        made.text()
        for number, placed in enumerate(self.system.collars):
            macro = f"  self_test.{made.collar_names[number]}.{made.memory_names[number]}"
            for pin in placed.macro.of("tie"):
                width = (literal(pin.value) or (1, 0))[0]
                found += [f"{macro}/{pin.name}", *(f"{macro}/{pin.name}[{bit}]" for bit in range(width))]
            found += [f"{macro}/{name}" for name in chosen_clocks(placed.macro)]
        return "\n".join([MARK, *found, ""])

    def chips(self) -> list[tuple[str, str]]:
        """The pages for a tester, and the chip file of each."""
        if not self.system.is_list:
            return [("tester.html", self.chip_file)]
        names = [self.system.name_of(number) for number in range(len(self.system.chips))]
        return [(f"tester_{number}.html", f"{self.out}/chip/{name}.chip") for number, name in enumerate(names)]

    def pages(self) -> str:
        reports, memories = self.reports(), [part.unit.memory_file for part in self.bases()]
        every = " ".join(f"$(OUT)/{report}" for report in reports)
        of_list = [self.chip_file, *self.pins] if self.system.is_list else []
        files = " ".join([*reports, *map(self.given, [*memories, *of_list])])
        options = "".join(f" --memory {file}" for file in memories)
        whole = f" --of {' '.join(of_list)}" if of_list else ""
        text = PAGES.format(reports=" ".join(reports), all=every, memories=options, whole=whole, files=files)
        for page, chip in self.chips():
            read = [*self.inputs(), *([f"chip/{pathlib.PurePath(chip).name}"] if self.system.is_list else [])]
            needs = "chip/made " if self.system.is_list else ""
            text += TESTER.format(page=page, chip=chip, needs=needs, files=" ".join(read))
        return text

    def steps(self) -> dict[str, list[str]]:
        """The words for make, and the steps of each."""
        of_each = {what: [f"{placed.word.name}/{what}" for placed in self.collars()] for what in ("passed", "gates")}
        return {
            "reports": [*self.reports(), "reports.html", *(page for page, _ in self.chips())],
            "collars": of_each["passed"],
            "gates": of_each["gates"],
            "top": ["chip/passed"],
            "lint": ["chip/lint.txt"],
            "synthesis": ["chip/synthesis.txt"],
            "access": ["chip/access"],
            "sta": ["chip/sta.txt"],
        }

    def reports(self) -> list[str]:
        return [f"{part.memory.name}.report" for part in self.bases()]

    def described_by(self) -> list[str]:
        """The files from which the makefile is made, besides descriptions; it belongs to them as they are now."""
        return [self.chip_file]

    def text(self) -> str:
        """The makefile."""
        steps, made_from = self.steps(), [plain(path) for path in self.described_by()]
        sums = {path: hashlib.sha256(pathlib.Path(path).read_bytes()).hexdigest() for path in made_from}
        head = HEAD.substitute(
            mark=MARK,
            name=self.system.name,
            chip=" or ".join(made_from),
            sums="".join(f' "{value}  {path}"' for path, value in sums.items()),
            root=self.root,
            out=self.out,
            kinds=" ".join(steps),
            targets="\n".join(f"{word}: {' '.join(made)}" for word, made in steps.items()),
            steps=" ".join(["chip/made", *(step for made in steps.values() for step in made)]),
            theirs=THEIRS if self.vendors else "",
        )
        return "".join([head, *self.compiled(), *self.collared(), self.whole(), self.pages()])
