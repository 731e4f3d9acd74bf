"""Where the test of a memory finds less than its march: a run of another background goes on into that of the background
0 without an idle cycle, so its last operation and the first there can be the two of a dynamic primitive."""
from __future__ import annotations

from vidlakost_tools.texts.faults import Primitive
from vidlakost_tools.texts.march import Element
from vidlakost_tools.texts.memory import Memory


def act_of(operation: str, background: int, bit: int) -> str:
    """What an operation of a march does to a bit of a word in a background: `r`, `w0` or `w1`."""
    return "r" if operation[0] == "r" else f"w{int(operation[1]) ^ background >> bit & 1}"


def acts_of(primitive: Primitive) -> list[str]:
    """The operations of a primitive, of reads without the bit that they expect."""
    return ["r" if operation[0] == "r" else operation for operation in primitive.operations]


def same_word(elements: list[Element]) -> bool:
    """Whether a run ends at the word at which the next begins; where it begins or ends with a pause none is at one."""
    first, last = elements[0], elements[-1]
    return not first.is_pause and not last.is_pause and (first.order == "down") != (last.order == "down")


def runs_on(primitive: Primitive, elements: list[Element], memory: Memory, background: int) -> bool:
    """Whether the last operation of a run in this background and the first of one in the background 0 are the two of
    the primitive, at some bit of one word."""
    if not same_word(elements):
        return False
    last, first = elements[-1].operations[-1], elements[0].operations[0]
    return any(
        [act_of(last, background, bit), act_of(first, 0, bit)] == acts_of(primitive) for bit in range(memory.bits)
    )


def begins_afresh(primitive: Primitive, elements: list[Element], memory: Memory) -> bool:
    """Whether a run of the background 0 is the first, or the one before it doesn't go on into it so."""
    before = [None, *memory.backgrounds]
    return any(
        background == 0 and (one is None or not runs_on(primitive, elements, memory, one))
        for one, background in zip(before, memory.backgrounds)
    )
