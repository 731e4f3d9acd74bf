"""A picture of the groups of a chip in time: `vidlakost schedule` draws it for any chip file, `dev/pictures` for the
guide."""
from __future__ import annotations

from vidlakost_tools.pages.drawing import INK, SOFT, document, line, text
from vidlakost_tools.texts.chip import Chip

LEFT, TOP, WIDE, HIGH = 60, 44, 760, 220
FILLS = ["#cfe5dc", "#dde3f2", "#f4e3cf", "#ead9ea"]


def block(chip: Chip, number: int, below: int) -> list[str]:
    """A unit from its start to its end, above those of its group that are below it."""
    unit = chip.units[number]
    across, up = WIDE / chip.done, HIGH / chip.budget
    x, y = LEFT + unit.start * across, TOP + HIGH - (below + unit.weight) * up
    wide, high = unit.length * across, unit.weight * up
    box = (
        f'<rect x="{x:g}" y="{y:g}" width="{wide:g}" height="{high:g}" fill="{FILLS[unit.group % 4]}" stroke="{INK}"/>'
    )
    label = f"{number} {unit.memory.name}"
    # the name is in the box or, if that is too narrow, after it
    inside = wide > 7 * len(label) + 8
    return [box, *([text(x + (4 if inside else wide + 4), y + high / 2 + 4, label, 11)] if high > 12 else [])]


def picture(chip: Chip) -> str:
    """Time to the right, weights upward; the dashed line is the budget."""
    made = [
        text(
            LEFT, 20, f"{chip.name}: {len(chip.units)} memories in {chip.groups} groups", 12, more=' font-weight="bold"'
        )
    ]
    for group in range(chip.groups):
        below = 0
        members = [(number, unit) for number, unit in enumerate(chip.units) if unit.group == group]
        for number, unit in members:
            made += block(chip, number, below)
            below += unit.weight
        x = LEFT + members[0][1].start * WIDE / chip.done
        made.append(line([(x, TOP - 8), (x, TOP + HIGH + 6)], "#bbbbbb", 0.8))
        made.append(text(x, TOP + HIGH + 20, f"{members[0][1].start:,}", 10, "middle" if group else "start", SOFT))
    base = TOP + HIGH
    made += [
        line([(LEFT, TOP), (LEFT + WIDE, TOP)], INK, 1.2, ' stroke-dasharray="5 3"'),
        text(LEFT - 6, TOP + 4, f"{chip.budget:,}", 10, "end", SOFT),
        text(LEFT + WIDE, TOP - 6, "budget", 10, "end", SOFT),
        line([(LEFT, TOP), (LEFT, base), (LEFT + WIDE, base)]),
        text(LEFT + WIDE, base + 20, f"done {chip.done:,}", 10, "end", SOFT),
        text(LEFT, base + 38, "cycles since the reset; the height of a box is the weight of its memory", 10, fill=SOFT),
    ]
    return document(LEFT + WIDE + 20, base + 50, made)
