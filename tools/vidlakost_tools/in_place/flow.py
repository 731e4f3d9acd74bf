"""The makefile of memories that stay where they are: the module of each, the sequencer of all, and if a text lists
their places, the chip that contains them."""
from __future__ import annotations

import dataclasses
import os
from typing import ClassVar

from vidlakost_tools.chip.flow import MARK, Flow, plain
from vidlakost_tools.chip.system import Placed
from vidlakost_tools.collar.clock_mux import chosen_clocks
from vidlakost_tools.collar.pins import literal
from vidlakost_tools.collar.text import memory_name
from vidlakost_tools.collar.watch import GATES as GATES_DEFINE
from vidlakost_tools.in_place.files import models_beside
from vidlakost_tools.in_place.place_list import Places
from vidlakost_tools.in_place.text import InPlace, kind_of
from vidlakost_tools.text import template

WORD = template(__file__, "flow_word.mk")
LOOKS = template(__file__, "flow_looks.mk")
TIMED = template(__file__, "flow_timed.mk")
MADE = template(__file__, "flow_made.mk")
PLACES = template(__file__, "flow_places.mk")


@dataclasses.dataclass
class PlaceFlow(Flow):
    """The memories, and if a text lists their places, the chip that contains them."""

    FOLDERS: ClassVar[tuple[str, ...]] = ("chip", "places")

    places: Places | None = None
    # whether the chip has a TAP already, under which a register stands
    is_under: bool = False

    # ---- what is read and written

    def described_by(self) -> list[str]:
        return [self.chip_file, *([self.places.path] if self.places else [])]

    def models(self, placed: Placed) -> list[str]:
        """The files that model the macro of a collar in a simulation, from the makefile on."""
        files = models_beside(self.system, placed, self.vendors)
        return [self.given(self.beside(file)) if file in self.vendors else f"chip/{file}" for file in files]

    def modules(self, placed: Placed) -> list[str]:
        """The sources of a module in its place."""
        name = placed.word.name
        return [f"{name}_in_place.v", f"{name}_collar.v", *(f"{memory.name}_bist.v" for memory in placed.word.memories)]

    @property
    def boxes(self) -> str:
        return f"{self.system.name}_boxes.v"

    def written(self) -> list[str]:
        """What `top` writes, except the sequencer, which `access` writes again."""
        found = [f"chip/{self.boxes}", "chip/files.f"]
        for placed in self.collars():
            module = f"{placed.word.name}_in_place"
            found += [f"chip/{name}" for name in (*self.modules(placed), f"{module}_tb.sv", f"{module}.f")]
            found += self.models(placed)
        return list(dict.fromkeys(found))

    def sources(self) -> list[str]:
        """The sources of the chip, as it is and as it was."""
        files = [*self.places.sources, *self.places.before] if self.places else []
        return [self.given(plain(file)) for file in files]

    def inputs(self) -> list[str]:
        return [*super().inputs(), *([self.given(self.places.path)] if self.places else []), *self.sources()]

    def chips(self) -> list[tuple[str, str]]:
        """No page is for a tester: the cycles of the chip's test are those of its sequencer."""
        return []

    # ---- the steps

    def looks(self, folder: str, module: str, after: str, sources: list[str]) -> str:
        """Lint, synthesis and timing of a module of these sources, which are in the folder chip."""
        up = "" if folder == "chip" else "../chip/"
        values = {
            "folder": folder,
            "module": module,
            "files": " ".join(f"chip/{name}" for name in [*sources, self.boxes]),
            "modules": " ".join(up + name for name in sources),
            "inner": up + self.boxes,
        }
        case = f"{self.system.name}_test.sdc" if folder == "chip" else f"{module}_test.sdc"
        timed = {**values, "constraints": f"chip/{case}", "read": up + case}
        return LOOKS.substitute(after=after, **values) + TIMED.substitute(**timed)

    def collared(self) -> list[str]:
        made = []
        for placed in self.collars():
            name, module = placed.word.name, f"{placed.word.name}_in_place"
            own = [f"chip/{file}" for file in (f"{module}_tb.sv", f"{module}.f", *self.modules(placed))]
            models = self.models(placed)
            values = {
                "name": name,
                "module": module,
                "whole": self.system.name,
                "bench": " ".join([*own, *models]),
                "boxes": f"chip/{self.boxes}",
                "inner": f"../chip/{self.boxes}",
                "modules": " ".join(f"../chip/{file}" for file in self.modules(placed)),
                "model": " ".join(file if file.startswith("/") else f"../{file}" for file in models),
                "define": GATES_DEFINE,
            }
            made.append(WORD.substitute(**values))
            made.append(self.looks(name, module, "chip/made", self.modules(placed)))
        return made

    def words(self) -> str:
        return " ".join([self.chip_file, *self.pins])

    def whole(self) -> str:
        name, written = self.system.name, self.written()
        values = {"name": name, "words": self.words(), "read": " ".join(self.inputs())}
        access = " ".join([*written, f"chip/{name}_access.v"])
        made = MADE.substitute(
            written=" ".join(written),
            access=access,
            models="".join(f" --model {self.beside(file)}" for file in self.vendors),
            log=f" --log {self.system.depth}" if self.system.depth else "",
            mux=self.mux(),
            way="--under-tap" if self.is_under else "--jtag",
            turn=self.turn(),
            places=f" --places {plain(self.places.path)}" if self.places else "",
            **values,
        )
        made += self.looks("chip", f"{name}_access", "chip/access", [f"{name}_access.v"])
        if self.places is None:
            return made
        return made + PLACES.substitute(file=self.places.path, access=access, **values) + self.chip_timed(self.places)

    def turn(self) -> str:
        """The module by which a TAP reaches the sequencer."""
        return "register" if self.is_under else "tap"

    def chip_timed(self, places: Places) -> str:
        """The timing of the chip, without its hierarchy: what it ties has then no end of a path."""
        name = self.system.name
        own = [module for placed in self.collars() for module in self.modules(placed)]
        own += [f"{name}_{what}.v" for what in ("access", "cross", "apb", self.turn())]
        here = os.path.realpath(self.folder / "places")
        sources = [plain(os.path.relpath(os.path.realpath(file), here)) for file in places.sources]
        case = f"{name}_chip_test.sdc"
        return TIMED.substitute(
            folder="places",
            module=places.chip,
            files=" ".join([*self.sources(), *(f"chip/{file}" for file in [*own, self.boxes])]),
            modules=" ".join([*sources, *(f"../chip/{file}" for file in own)]),
            inner=f"../chip/{self.boxes}",
            constraints=f"chip/{case}",
            read=f"../chip/{case}",
        )

    def steps(self) -> dict[str, list[str]]:
        folders = [*(placed.word.name for placed in self.collars()), "chip"]
        found = {**super().steps(), "top": ["chip/made"]}
        for word, step in (("lint", "lint.txt"), ("synthesis", "synthesis.txt"), ("sta", "sta.txt")):
            found[word] = [f"{folder}/{step}" for folder in folders]
        if self.places:
            found["places"] = ["places/passed"]
            found["sta"].append("places/sta.txt")
        return found

    # ---- what OpenSTA may tell

    def known(self) -> str:
        """The pins of macros of which it warns, by the folder of the step."""
        lines = []
        for placed in self.collars():
            lines += [f"{placed.word.name}:  {pin}" for pin in told_pins(placed)]
        for placed in self.system.collars if self.places else []:
            at = self.places.places[placed.name].path if self.places else ""
            lines += [f"places:  {at}.{pin}" for pin in told_pins(placed)]
        return "\n".join([MARK, *lines, ""])


def told_pins(placed: Placed) -> list[str]:
    """The pins of a macro to which no path goes, or two clocks, from the module in its place on."""
    made = InPlace(placed.macro, placed.word)
    made.text()
    macro = f"{made.names.of('collar')}.{memory_name(placed.macro, placed.word, kind_of(placed.word))}"
    found = []
    for pin in placed.macro.of("tie"):
        width = (literal(pin.value) or (1, 0))[0]
        found += [f"{macro}/{pin.name}", *(f"{macro}/{pin.name}[{bit}]" for bit in range(width))]
    return [*found, *(f"{macro}/{name}" for name in chosen_clocks(placed.macro))]
