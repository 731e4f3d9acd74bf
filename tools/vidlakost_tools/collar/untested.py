"""What of a macro its self-test leaves out, pin by pin: where a bit of a pin stands still at the macro, and the test
passes all the same. Each is tried in the self-test of the tools, and so is each pin that is not told here."""
from __future__ import annotations

import dataclasses

from vidlakost_tools.collar.model_words import model_words
from vidlakost_tools.collar.pins import ADDRESSES, Macro, Pin, Word

# what is said of a further pin
FURTHER = {
    "tie": "tied",
    "open": "left open",
    "out": "the chip's",
    "pass": "the chip's",
    "clock2": "a further clock, which the model ignores",
    "power": "a supply",
}


@dataclasses.dataclass(frozen=True)
class Untested:
    """A pin, and what of it no read of the test sees."""

    pin: str
    why: str


def tried_lanes(macro: Macro) -> list[Pin]:
    """The pins whose lanes are tried one by one."""
    if not macro.masks:
        return []
    return [*macro.lane_pins(), *(macro.lane_pins(True) if macro.second_writes else [])]


def is_beside_lanes(pin: Pin, macro: Macro) -> bool:
    """Whether the lanes of the other port are tried: a port that is on meanwhile writes whole words."""
    return macro.second_writes and any(lane.is_second != pin.is_second for lane in tried_lanes(macro))


def why_untested(pin: Pin, macro: Macro, word: Word, is_theirs: bool) -> str:
    """What of a pin the test does not see; nothing where it sees all. A vendor's model needs the clock of each way."""
    if pin.kind == "clock2" and is_theirs:
        return "" if macro.has("raddr") else "a further clock, which the test may not need"
    if pin.kind in FURTHER:
        return "fixed in test" if pin.kind == "pass" and pin.value else FURTHER[pin.kind]
    if pin.has_lanes and pin not in tried_lanes(macro):
        return "its lanes are never tried alone"
    if pin.kind in ("read", "write") or pin.kind == "en" and not pin.has_lanes:
        return "" if pin.kind != "read" and is_beside_lanes(pin, macro) else "whether it is ever off"
    if pin.kind in ADDRESSES and pin.width > word.first.width:
        return "its other bits are 0 in test"
    return ""


def untested(macro: Macro, word: Word, is_theirs: bool = False) -> list[Untested]:
    """Each such pin, in the order of the lines, beside the written model or one of theirs."""
    found = [(pin.name, why_untested(pin, macro, word, is_theirs)) for pin in macro.pins]
    return [Untested(name, why) for name, why in found if why]


def beyond(macro: Macro, word: Word, model: str | None = None) -> list[Untested]:
    """The address pins that count further than the words of the description, which a larger macro may have: the model
    in a file may tell."""
    words, last = word.first.words, (1 << word.first.width) - 1
    there = model_words(macro, model, word.bits) if model else None
    if words > last or there == words:
        return []
    told = f"from {words} to {last}, if the macro has these words"
    if model and there and there > words:
        told = f"from {words} to {min(there - 1, last)}, words that the macro has in {model}"
    return [Untested(pin.name, told) for pin in macro.pins if pin.kind in ADDRESSES]


def told_pins(left: list[Untested]) -> str:
    """The pins of each reason."""
    reasons = dict.fromkeys(one.why for one in left)
    return "; ".join(f"{', '.join(one.pin for one in left if one.why == why)}: {why}" for why in reasons)
