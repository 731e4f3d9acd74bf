"""The read behind a cycle of `bench`, `benchfault`, `benchfile` or a waveform; the command behind a line of `check`.

usage: vidlakost locate MARCH MEMORY CYCLE [EXPECTED RETURNED]
       vidlakost locate MARCH MEMORY --line LINE      the cycle and the words from the line of such a command
       vidlakost locate MARCH MEMORY --elements       the first and the last cycle of each element in each background
       vidlakost locate MARCH MEMORY --tdr HEX [--sib]   from the register of the TAP of `vidlakost access --jtag`
       vidlakost locate CHIPFILE --chip CYCLE FAILBITS [EXPECTED RETURNED]
       vidlakost locate CHIPFILE --chip --tdr HEX [--sib]
       vidlakost locate LIST|CHIPFILE PINS.. --whole CYCLE FAILBITS [EXPECTED RETURNED]
       vidlakost locate LIST|CHIPFILE PINS.. --whole --line LINE     from the line of a log, or of a testbench
       vidlakost locate LIST|CHIPFILE PINS.. --whole --tdr HEX [--sib]
       vidlakost locate LIST|CHIPFILE PINS.. --in-place ..           the same three of memories in their places,
                                               of which --tdr HEX --log is the register where they keep logs
       vidlakost locate --help

CYCLE is the cycle in which the answer is on `rdata`. The cycle of the reset is 0, and `fail` is 1 from the cycle after
CYCLE on. With `--at fail` CYCLE is the one in which `fail` rose.
locate prints the background, the element, the operation, the index and the address. Give it also the two words, as the
commands print them. Then it prints the bits that differ, and the words as the memory stores them if its polarity
inverts some bits. The cycle in a line of `check` is that of the command itself; for it locate prints the command that
is due.

HEX is what a scan of the register gave. With --sib the register was after segment insertion bits, which are above it
in the scan. With --whole the cycles are those of the whole that `vidlakost top` joins, PINS end in .pins, and a bit of
FAILBITS is a memory. With --in-place the memories are those in their places, and a cycle is one of the
memory's own test. With --chip the cycles are the chip's own, and FAILBITS are the bits of `fail`, that of unit 0 last.
With `--mux M` a row of the array has M words: bit B of an index is in column B * M + index modulo M."""
from __future__ import annotations

import re
from typing import Any, Iterator

from vidlakost_tools.access.log import OF_UNIT, entry_in
from vidlakost_tools.chip import locate as system_locate, system as soc
from vidlakost_tools.diagnosis import tester
from vidlakost_tools.in_place import locate as place_locate
from vidlakost_tools.text import shown
from vidlakost_tools.texts.chip import read_chip
from vidlakost_tools.texts.march import Element, march_of
from vidlakost_tools.texts.memory import Memory, read_memory
from vidlakost_tools.texts.reads import Read, due_lines, due_numbers, read_of, spans, visit_lines
from vidlakost_tools.tool import ToolError, number_of, usage_of, words_of


PORTS = ("en", "we", "addr", "wdata", "done", "fail")
CHECKED = re.compile("(?:differs|unknown) cycle ([0-9]{1,9}) port ([a-z]+)(?: expected ([0-9a-f]+) got ([0-9a-fxz]+))?")


def bits_of(read: Read, memory: Memory, given: list[str], mux: int | None) -> list[str]:
    """The bits that differ, and both words as the memory stores them. With --mux it adds the columns of these bits."""
    words = []
    for word in given:
        if not re.fullmatch(r"[0-9a-fA-F]{1,16}", word) or int(word, 16) >> memory.bits:
            raise ToolError(f"'{word}' is no hexadecimal word of {memory.bits} bits")
        words.append(int(word, 16))
    tester.check_expected(read, memory, words[0])
    if words[0] == words[1]:
        raise ToolError(f"{memory.digits(words[0])} is both expected and returned, so this read is not wrong")
    differing = [bit for bit in range(memory.bits) if (words[0] ^ words[1]) >> bit & 1]
    lines = [f"bits {' '.join(map(str, differing))}"]
    if mux is not None:
        lines.append(f"columns {' '.join(str(bit * mux + read.index % mux) for bit in differing)}")
    if memory.polarity:
        stored = [memory.digits(word ^ memory.polarity) for word in words]
        lines.append(f"stored {stored[0]} expected, {stored[1]} returned")
    return lines


def element_lines(elements: list[Element], memory: Memory) -> Iterator[str]:
    """The cycles of each element. A pause may be one cycle, in which a tester stops the clock."""
    for span in spans(elements, memory):
        before = f"background {span.background} {memory.digits(memory.backgrounds[span.background])}"
        yield f"{before} element {span.number} {span.element.text} cycles {span.first} to {span.last}"
    yield f"done from cycle {memory.cycles(elements) - 1}"


def of_check(text: str, elements: list[Element], memory: Memory) -> list[str]:
    """What is due in the cycle of a line of `check`. A line of `check` expects a decimal number, that of a testbench a
    hexadecimal one."""
    line = CHECKED.fullmatch(text.strip())
    if line is None or line[2] not in PORTS or text.startswith("differs") != bool(line[3]):
        raise ToolError(
            f"{shown(text)} is no line of check: it names one of the ports {', '.join(PORTS)}, and `differs` needs"
            " `expected`"
        )
    if line[3] and line[3] == line[4]:
        raise ToolError(f"the line expects {line[3]} on {line[2]} and got it, so nothing differs")
    lines = due_lines(elements, memory, int(line[1]))
    due = due_numbers(elements, memory, int(line[1])).get(line[2])
    if line[3] and (due is None or line[3] not in (str(due), f"{due:x}")):
        told = f"but this march has {'nothing' if due is None else due} there: is it another march, memory or cycle?"
        raise ToolError(f"the line expects {line[3]} on {line[2]}, {told}")
    return lines


def of_chip(words: list[str], options: dict[str, Any], mux: int) -> list[str]:
    """What is said of a chip."""
    if "--tdr" in options:
        if len(words) != 1 or "--at" in options:
            raise ToolError(f"--chip --tdr takes only a chip file\n{usage_of(__doc__)}")
        return tester.chip_register(read_chip(words[0]), options["--tdr"], mux, "--sib" in options)
    if len(words) not in (3, 5):
        raise ToolError(
            f"--chip takes a chip file, a cycle, the bits of fail, and two words or none\n{usage_of(__doc__)}"
        )
    chip = read_chip(words[0])
    units = tester.failing_units(words[2], len(chip.units))
    return list(tester.in_chip(chip, answered(words[1], options), units, words[3:], mux))


def of_whole(words: list[str], options: dict[str, Any], mux: int) -> list[str]:
    """What is said of a whole chip."""
    path, pins = words[0], [word for word in words[1:] if word.endswith(".pins")]
    rest = [word for word in words[1:] if not word.endswith(".pins")]
    system = soc.read_system(path)
    soc.give_collars(system, pins)
    soc.planned(system, path)
    if "--tdr" in options:
        if rest or "--at" in options:
            raise ToolError(f"--whole --tdr takes a chip file or a list, and the pins\n{usage_of(__doc__)}")
        return system_locate.register(system, options["--tdr"], mux, "--sib" in options)
    if "--line" in options:
        return of_line(system, rest, options["--line"], mux)
    if len(rest) not in (2, 4):
        raise ToolError(f"--whole takes a cycle, the bits of fail, and two words or none\n{usage_of(__doc__)}")
    parts = [system.parts[number] for number in tester.failing_units(rest[1], len(system.parts))]
    if len(parts) > 1:
        names = ", ".join(part.name for part in parts)
        raise ToolError(f"{names} fail: which of them does the cycle belong to? Set one bit alone")
    return list(system_locate.in_system(system, answered(rest[0], options), parts[0], rest[2:], mux))


def of_places(words: list[str], options: dict[str, Any], mux: int) -> list[str]:
    """What is said of memories in their places."""
    path, pins = words[0], [word for word in words[1:] if word.endswith(".pins")]
    rest = [word for word in words[1:] if not word.endswith(".pins")]
    if {"--whole", "--chip", "--elements"} & set(options):
        raise ToolError(f"--in-place stands without --whole, --chip and --elements\n{usage_of(__doc__)}")
    system = soc.read_system(path)
    soc.give_collars(system, pins)
    if "--tdr" in options:
        if rest or set(options) - {"--in-place", "--tdr", "--sib", "--log"}:
            raise ToolError(f"--in-place --tdr takes a chip file or a list, and the pins\n{usage_of(__doc__)}")
        return place_locate.register(system, options["--tdr"], mux, "--sib" in options, "--log" in options)
    if "--line" in options:
        number, given = of_unit(options["--line"], rest, len(system.collars))
        return list(place_locate.at_cycle(system.collars[number], int(given[0]), given[1:], mux))
    if len(rest) not in (2, 4):
        raise ToolError(f"--in-place takes a cycle, the bits of fail, and two words or none\n{usage_of(__doc__)}")
    failing = tester.failing_units(rest[1], len(system.collars))
    if len(failing) > 1:
        names = ", ".join(system.collars[number].name for number in failing)
        raise ToolError(f"{names} fail: which of them does the cycle belong to? Set one bit alone")
    return list(place_locate.at_cycle(system.collars[failing[0]], answered(rest[0], options), rest[2:], mux))


def of_unit(line: str, rest: list[str], count: int) -> tuple[int, list[str]]:
    """The unit of a line of a log, and its cycle and words."""
    match, whose = entry_in(line), OF_UNIT.search(line)
    if match is None or whose is None or rest:
        raise ToolError("--line has 'unit U cycle C expected X returned Y', and stands behind the pins alone")
    if int(whose[1]) >= count:
        raise ToolError(f"the unit is 0 to {count - 1}, and not {whose[1]}")
    return int(whose[1]), list(match.groups())


def of_line(system: soc.System, rest: list[str], line: str, mux: int) -> list[str]:
    """What is said of a line of a log of a whole chip."""
    number, (cycle, *given) = of_unit(line, rest, len(system.parts))
    return list(system_locate.in_system(system, int(cycle), system.parts[number], given, mux))


def answered(text: str, options: dict[str, Any]) -> int:
    """The cycle in which the answer is on `rdata`."""
    if options.get("--at", "fail") != "fail":
        raise ToolError("--at takes only fail")
    return number_of(text, "CYCLE", 1) - 1 if "--at" in options else number_of(text, "CYCLE")


def words_in(line: str, rest: list[str]) -> list[str]:
    """The cycle and the two words of a line of a memory's own test."""
    match, whose = entry_in(line), OF_UNIT.search(line)
    if match is None or rest:
        raise ToolError("the line names no read: it has no 'cycle C expected X returned Y'")
    if whose is not None:
        why = "whose cycles are the chip's: give the chip file with --chip and the cycle, or its pins with --whole"
        raise ToolError(f"the line is of unit {whose[1]} of a chip, {why}")
    return list(match.groups())


def of_memory(words: list[str], options: dict[str, Any], mux: int, has_rows: bool) -> list[str]:
    """What is said of one memory."""
    march, memory_file, *rest = words
    if "--tdr" in options and (rest or set(options) - {"--tdr", "--sib"}):
        raise ToolError(f"--tdr takes only a march and a memory, with --sib or --mux\n{usage_of(__doc__)}")
    if "--elements" in options and (rest or len(options) > 1):
        raise ToolError(f"--elements takes only a march and a memory\n{usage_of(__doc__)}")
    line = options.get("--line")
    is_of_check = line is not None and line.startswith(("differs ", "unknown ")) and not rest
    if line is not None and not is_of_check:
        rest = words_in(line, rest)
    if not is_of_check and not {"--tdr", "--elements"} & set(options) and len(rest) not in (1, 3):
        raise ToolError(f"after the memory comes a cycle, or a cycle and two words\n{usage_of(__doc__)}")
    elements, memory = march_of(march)[1], read_memory(memory_file)
    if "--tdr" in options:
        return tester.memory_register(elements, memory, options["--tdr"], mux, "--sib" in options)
    if "--elements" in options:
        return list(element_lines(elements, memory))
    if is_of_check:
        return of_check(line or "", elements, memory)
    read = read_of(elements, memory, answered(rest[0], options))
    lines = tester.told(read, elements, memory, mux) if has_rows else visit_lines(read, elements[read.element], memory)
    return lines + (bits_of(read, memory, rest[1:], mux if has_rows else None) if rest[1:] else [])


def main(arguments: list[str]) -> int:
    allowed = {"--line": 1, "--elements": 0, "--chip": 0, "--tdr": 1, "--at": 1, "--mux": 1, "--sib": 0}
    words, options = words_of(__doc__, arguments, {**allowed, "--whole": 0, "--in-place": 0, "--log": 0}, 1, None)
    if "--log" in options and not {"--in-place", "--tdr"} <= set(options):
        raise ToolError(f"--log needs --in-place and --tdr\n{usage_of(__doc__)}")
    if "--sib" in options and "--tdr" not in options:
        raise ToolError(f"--sib needs --tdr\n{usage_of(__doc__)}")
    has_rows, mux = "--mux" in options, number_of(options.pop("--mux", "1"), "--mux", 1)
    is_many = "--in-place" in options or "--whole" in options
    if not is_many and (len(words) > 5 or len(words) < 2 and "--chip" not in options):
        raise ToolError(f"too {'many' if len(words) > 5 else 'few'} words\n{usage_of(__doc__)}")
    for option, told in (("--in-place", of_places), ("--whole", of_whole), ("--chip", of_chip)):
        if option in options:
            print("\n".join(told(words, options, mux)))
            return 0
    print("\n".join(of_memory(words, options, mux, has_rows)))
    return 0
