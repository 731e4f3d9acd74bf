"""Why an escape of a report escapes: what the march lacks, or what hides the fault. The reason comes from a run of the
plain model."""
from __future__ import annotations

from vidlakost_tools.texts.faults import Step
from vidlakost_tools.texts.march import Element
from vidlakost_tools.texts.report import Verdict


def meets_alone(verdict: Verdict, steps: list[Step]) -> bool:
    """Whether the first operation of a primitive comes at its own cell in its state, whatever the other cell holds."""
    array = verdict.array()
    actor = array.own_cell()
    state, operation = array.senses[actor].state, array.operations[0]
    for before, step in zip(steps, steps[1:]):
        held = before.cells[actor]
        done = f"r{held}" if step.operation[:1] == "r" else step.operation
        if step.cell == actor and int(held) == state and done == operation:
            return True
    return False


def why_never(verdict: Verdict, elements: list[Element], steps: list[Step]) -> str:
    """What the march lacks if a primitive never acts."""
    array = verdict.array()
    operations = array.operations
    if not operations:
        return "its states never hold together"
    if "t" in operations:
        pauses = any(element.is_pause for element in elements)
        return f"the cell never holds {array.primitive.victim.state} in a pause" if pauses else "the march has no pause"
    state = array.senses[array.own_cell()].state
    actor = (
        "the aggressor" if array.actor != array.victim else "the victim" if array.primitive.aggressor else "the cell"
    )
    if not meets_alone(verdict, steps):
        return f"no {operations[0]} comes at {actor} while it holds {state}"
    if len(operations) == 2:
        return f"{operations[1]} never comes right after {operations[0]} with its states held before"
    other = "the victim" if array.actor != array.victim else "the aggressor"
    held = next(part.state for cell, part in array.senses.items() if cell != array.actor)
    return f"{operations[0]} never comes while {other} holds {held}"


def where(element: int | None) -> str:
    return "before the march" if element is None else f"in element {element}"


def later(steps: list[Step], place: int, victim: int) -> Step | None:
    """The next operation on the victim."""
    return next((step for step in steps[place + 1 :] if step.cell == victim), None)


def hidden(verdict: Verdict, steps: list[Step]) -> list[str]:
    """For each time that a primitive acts: why no read shows it."""
    found = []
    for place, step in enumerate(steps):
        if not step.acts:
            continue
        after = later(steps, place, verdict.victim)
        acts = f"acts {where(step.element)}"
        if after is None:
            found.append(f"{acts}, and the victim is not visited again")
        elif after.operation[0] == "w":
            found.append(f"{acts}, and {after.operation} {where(after.element)} writes over it before a read")
        else:
            found.append(f"{acts}, and {after.operation} {where(after.element)} reads what it expects")
    return list(dict.fromkeys(found))


def reason(verdict: Verdict, elements: list[Element]) -> tuple[str, list[Step]]:
    """Why an escape escapes, and its steps."""
    steps = list(verdict.array().march(elements, verdict.directions))
    if steps[-1].differs:
        return f"is caught in element {steps[-1].element}, so it is no escape", steps
    found = hidden(verdict, steps)
    return "; ".join(found) if found else f"never acts: {why_never(verdict, elements, steps)}", steps
