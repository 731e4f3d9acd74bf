"""The wishes in the words of a call, in the form that the search uses."""
from __future__ import annotations

import dataclasses
import re
from typing import Any, Callable, Dict, List, Optional, Set, Tuple

from vidlakost_tools.design.finder import Wish
from vidlakost_tools.design.instances import Instance, decoder_instances, instances_of, linked_instances
from vidlakost_tools.design.parts import Limits, Parts, parts_of, text_of
from vidlakost_tools.design.reach import ENOUGH, can_cover
from vidlakost_tools.program import ROOT, with_text
from vidlakost_tools.text import shown
from vidlakost_tools.texts.in_word import judged_in_word
from vidlakost_tools.texts.linked import linked
from vidlakost_tools.texts.march import march_of
from vidlakost_tools.texts.memory import Memory, read_memory
from vidlakost_tools.texts.report import judged
from vidlakost_tools.tool import ToolError, number_of

# a march that any reader takes, for calls about a list alone
PLAIN = "any(w0)"
# a march that covers as much inside a word as any march of the gallery
INSIDE = ROOT / "examples" / "marches" / "march_ss.m"
# a search without an end in time
FOREVER = 10**9
MOST_OPERATIONS, MOST_ELEMENTS, MOST_BACKGROUNDS = 16, 64, 8


@dataclasses.dataclass
class Clock:
    """A frequency, and the memory whose test is timed."""

    mhz: float
    memory: Memory


@dataclasses.dataclass
class Words:
    """The words of a call."""

    faults: str
    behind: Optional[str] = None
    is_open: bool = False
    limits: Limits = dataclasses.field(default_factory=Limits)
    decoder: bool = False
    linked: bool = False
    in_word: Optional[str] = None
    # the most backgrounds of the list to look for (0: it looks for none)
    backgrounds: int = 0
    timed: Optional[str] = None
    clock: Optional[Clock] = None
    width: int = 300
    # of the search by random changes: how long it takes, and what decides its chances
    seconds: int = 60
    seed: int = 1
    # a part of the walks, and the march that it begins with
    walks: Optional[Tuple[int, int]] = None
    begin: Optional[str] = None

    @classmethod
    def of(cls, faults: str, options: Dict[str, Any]) -> "Words":
        made = cls(faults, options.get("--behind"), "--any" in options)
        operations = number(options, "--operations", MOST_OPERATIONS, MOST_OPERATIONS)
        made.limits = Limits(operations, number(options, "--elements", MOST_ELEMENTS, MOST_ELEMENTS))
        made.decoder, made.linked = "--decoder" in options, "--linked" in options
        made.in_word, made.width = options.get("--inword"), number(options, "--width", 300, 100_000)
        made.seconds = number_of(options.get("--seconds", "60"), "--seconds")
        made.seed = number_of(options.get("--seed", "1"), "--seed")
        if "--walks" in options:
            made.walks, made.begin = part_of(options["--walks"]), options.get("--from")
            made.seconds = made.seconds if "--seconds" in options else FOREVER
        elif "--from" in options:
            raise ToolError("--from needs --walks, which names the part of the walks")
        if "--backgrounds" in options:
            if made.in_word is None:
                raise ToolError("--backgrounds needs --inword, which names the memory")
            made.backgrounds = number(options, "--backgrounds", 0, MOST_BACKGROUNDS)
        if "--time" in options:
            mhz, memory = options["--time"]
            if not re.fullmatch(r"\d{1,6}(\.\d{1,6})?", mhz) or float(mhz) <= 0:
                raise ToolError(f"--time takes a positive number of MHz first, and not {shown(mhz)}")
            made.timed, made.clock = memory, Clock(float(mhz), read_memory(memory))
        return made

    @property
    def inputs(self) -> List[Tuple[str, str]]:
        """The files that are read."""
        named = [
            ("the list itself", self.faults),
            ("the march itself", self.behind),
            ("the march itself", self.begin),
            ("the memory itself", self.in_word),
        ]
        return [(what, name) for what, name in [*named, ("the memory itself", self.timed)] if name is not None]


def number(options: Dict[str, Any], option: str, usual: int, most: int) -> int:
    value = number_of(options.get(option, str(usual)), option, 1)
    if value > most:
        raise ToolError(f"{option} is a number from 1 to {most:,}, and not {value}")
    return value


def part_of(text: str) -> Tuple[int, int]:
    """The first number of a part of the walks, and the last one."""
    found = re.fullmatch(r"([1-9]\d{0,7})-([1-9]\d{0,7})", text)
    if found is None or int(found[1]) > int(found[2]):
        raise ToolError(f"--walks takes two numbers from 1 on, as 1-50, and not {shown(text)}")
    return int(found[1]), int(found[2])


def begin_of(words: Words) -> Optional[Parts]:
    """The march that a part of the walks begins with."""
    return None if words.begin is None else parts_of(march_of(words.begin)[1])


def names_of(faults: str) -> List[str]:
    """The primitives of a list, each once."""
    return list(dict.fromkeys(it.primitive for it in with_text(PLAIN, lambda march: judged(march, faults)).verdicts))


def links() -> List[Instance]:
    verdicts = with_text(PLAIN, linked).verdicts
    return [made for it in verdicts for made in linked_instances(it.primitive, it.first, it.second)]


def behind_of(words: Words) -> Parts:
    """The march that is extended."""
    if words.behind is None:
        return []
    parts = parts_of(march_of(words.behind)[1])
    if not words.limits.allow(parts):
        raise ToolError(f"{words.behind} has more elements, or more operations in one, than the march may have")
    if parts[0].order == "del":
        raise ToolError(f"{words.behind} begins with a pause; a march to extend begins with a write")
    return parts


def fits_inside(memory: str, faults: str) -> Callable[[Parts], bool]:
    """Whether a march covers as much of a list inside a word as March SS does."""
    known: Dict[str, bool] = {}

    def covered(march: Any) -> Set[str]:
        return {it.primitive for it in judged_in_word(march, memory, faults).verdicts if it.covered}

    wanted = covered(INSIDE)

    def fits(parts: Parts) -> bool:
        text = text_of(parts)
        if text not in known:
            known[text] = wanted <= with_text(text, covered)
        return known[text]

    return fits


def wish_of(words: Words) -> Tuple[Wish, List[str]]:
    """What the search has to find, and the primitives that no march of such elements covers."""
    names = names_of(words.faults)
    if not names and not words.decoder and not words.linked:
        raise ToolError(f"{words.faults} names no primitive, so there is nothing to cover")
    most = words.limits.operations
    beyond = [name for name in names if most < ENOUGH and not can_cover(name, most)]
    instances = [it for name in names if name not in beyond for it in instances_of(name)]
    if not instances and not words.decoder and not words.linked:
        raise ToolError(f"elements of at most {most} operations cover no primitive of {words.faults}")
    if words.linked:
        instances += links()
    fits = fits_inside(words.in_word, words.faults) if words.in_word is not None else None
    decoder = decoder_instances() if words.decoder else []
    return Wish(instances, decoder, words.limits, behind_of(words), words.width, words.is_open, fits), beyond
