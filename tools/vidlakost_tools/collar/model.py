"""A model of a macro by the pins that its collar uses, for simulation beside the collar alone."""
from __future__ import annotations

from vidlakost_tools.collar.names import MARK, Names
from vidlakost_tools.collar.pins import Macro, Pin, Word, bit_of, pin_width
from vidlakost_tools.collar.watch import POWER
from vidlakost_tools.verilog.syntax import ranged

HEAD = f"{MARK} collar: a model of the macro"


def active(macro: Macro, names: Names, *kinds: str, second: bool) -> list[str]:
    """The conditions that the pins without lanes are at their active value."""
    pins = [pin for pin in macro.of(*kinds, second=second) if not pin.has_lanes]
    return [f"{'!' if pin.is_low else ''}{value_of(pin, names)}" for pin in pins]


def value_of(pin: Pin, names: Names) -> str:
    return names.of(f"bus_{pin.name}") if pin.bits else pin.name


def number(second: bool) -> int:
    """The number of a port, in names."""
    return 2 if second else 1


def lanes_of(macro: Macro, names: Names, word: Word, second: bool, *kinds: str) -> list[str]:
    """The conditions that bit i of a word is in a lane that is enabled."""
    found = []
    i = names.of(f"i_{number(second)}")
    for pin in macro.lane_pins(second):
        if pin.kind in kinds:
            each = word.bits // pin.width
            place = "" if pin.width == 1 else f"[{i} / {each}]" if each > 1 else f"[{i}]"
            found.append(f"{'!' if pin.is_low else ''}{value_of(pin, names)}{place}")
    return found


def place(macro: Macro, names: Names, word: Word, second: bool, kind: str) -> str:
    """The address as the words are numbered."""
    pin = next(iter(macro.of("addr", kind, second=second)))
    value, width = value_of(pin, names), word.first.width
    if pin.at == list(range(pin.width)):
        return f"({'~' if pin.is_low else ''}{value})"
    bits = [value if pin.width == 1 else f"{value}[{bit}]" for bit in reversed(pin.at)]
    return (
        f"({'~' if pin.is_low else ''}{{{', '.join(bits)}}})"
        if width > 1
        else f"({'~' if pin.is_low else ''}{bits[0]})"
    )


def awake(macro: Macro, names: Names) -> list[str]:
    """The pins that are fixed in test have that value where the memory is used."""
    return [f"{value_of(pin, names)} == {pin.value}" for pin in macro.of("pass") if pin.value]


def stores(macro: Macro, names: Names, word: Word, second: bool) -> list[str]:
    """The write of a port, part by part where it has lanes."""
    i, changed, any_lane = (names.of(f"{name}_{number(second)}") for name in ("i", "changed", "any_lane"))
    words = names.of("words")
    writes = [*awake(macro, names), *active(macro, names, "en", "we", "write", second=second)]
    data = macro.of("wdata", second=second)[0]
    at = place(macro, names, word, second, "waddr")
    lanes = lanes_of(macro, names, word, second, "en", "we", "mask")
    given = f"{'~' if data.is_low else ''}{value_of(data, names)}"
    lines = [f"    if ({' && '.join(writes) or '1'}) begin"]
    if lanes:
        bit = "" if word.bits == 1 else f"[{i}]"
        chosen = value_of(data, names)
        lines += [
            f"      {changed} = {words}[{at}];",
            f"      {any_lane} = 1'b0;",
            f"      for ({i} = 0; {i} < {word.bits}; {i} = {i} + 1)",
            f"        if ({' && '.join(lanes)}) begin",
            f"          {changed}{bit} = {'~' if data.is_low else ''}{chosen}{bit};",
            f"          {any_lane} = 1'b1;",
            "        end",
            f"      if ({any_lane}) {words}[{at}] <= {changed};",
        ]
    else:
        lines.append(f"      {words}[{at}] <= {given};")
    lines.append("    end")
    return lines


def side(macro: Macro, names: Names, word: Word, second: bool, clock: str) -> list[str]:
    """What a port does at an edge of its clock."""
    i, answers, words = names.of(f"i_{number(second)}"), names.of(f"answers_{number(second)}"), names.of("words")
    latency, lines = macro.latency(word), [f"  always @(posedge {clock}) begin"]
    if macro.has("we", "write", second=second):
        lines += stores(macro, names, word, second)
    reads = [*awake(macro, names), *active(macro, names, "read", "en", second=second)]
    parts = [pin for pin in macro.lane_pins(second) if pin.kind == "en"]
    reads += [f"&{'(~' if pin.is_low else '('}{value_of(pin, names)})" for pin in parts]
    if not macro.has("read", second=second):
        idle = macro.of("we", "write", second=second)
        reads += [f"{'&' if pin.is_low else '~|'}{value_of(pin, names)}" for pin in idle]
    lines.append(
        f"    {answers}[1] <= ({' && '.join(reads) or '1'}) ? {words}[{place(macro, names, word, second, 'raddr')}] : "
        f"{{{word.bits}{{1'bx}}}};"
    )
    if latency > 1:
        lines.append(f"    for ({i} = 1; {i} < {latency}; {i} = {i} + 1) {answers}[{i} + 1] <= {answers}[{i}];")
    return [*lines, "  end"]


def moved(macro: Macro, names: Names, word: Word, pin: Pin) -> str:
    """What an output has that no line tells more of: bits of the word to write, so that it moves."""
    net = value_of(macro.of("wdata")[0], names)
    return "{" + ", ".join(bit_of(net, word.bits, bit % word.bits) for bit in reversed(range(pin.width))) + "}"


def ports(macro: Macro, widths: dict[str, int]) -> list[str]:
    """The ports, as the collar connects them."""
    found = [f"input {macro.clk}"]
    for pin in macro.pins:
        if pin.kind == "power" or pin.kind == "clk" and not pin.is_second:
            continue
        way = "output" if pin.kind in ("rdata", "open", "out") else "input"
        width = 64 if pin.kind == "open" else widths.get(pin.value, pin_width(pin)) if pin.kind == "tie" else pin.width
        found += [f"{way} {name}" for name in pin.bits] or [f"{way} {ranged(width)}{pin.name}"]
    return found


def box(macro: Macro) -> str:
    """The macro as tools see it that look at what stands round it: its ports alone, whatever its model is."""
    given = ", ".join(f"parameter {name} = {value}" for name, value in macro.parameters)
    power = macro.of("power")
    widths = {pin.name: pin.width for _, pin in macro.chip_pins()}
    lines = [f"(* blackbox *)\nmodule {macro.name}{f' #({given})' if given else ''}("]
    lines += [f"`ifdef {POWER}", *(f"  inout {pin.name}," for pin in power), "`endif"] if power else []
    return "\n".join([*lines, "  " + ",\n  ".join(ports(macro, widths)), ");", "endmodule", ""])


def boxes(macros: list[Macro]) -> str:
    """A file with the ports of macros, for lint and for synthesis."""
    named = {macro.name: macro for macro in macros}
    about = f"{MARK} top: the macros without what is in them, for lint and for synthesis.\n"
    rules = ("UNUSED", "UNDRIVEN", "DECLFILENAME")
    off, on = (" ".join(f"/* verilator lint_{way} {rule} */" for rule in rules) for way in ("off", "on"))
    cells = {macro.clock_cell.cell: macro.clock_cell.box() for macro in macros if macro.clock_cell}
    return "\n".join([about + off, *(box(macro) for macro in named.values()), *cells.values(), on, ""])


def model(macro: Macro, word: Word) -> str:
    """A memory behind these pins: it writes and reads at the clock's edge, and a word stands on its port in the one
    cycle of its latency, so that a wrong latency is seen."""
    names = Names({name for pin in macro.pins for name in pin.names()} | {name for name, _ in macro.parameters})
    bits, latency = word.bits, macro.latency(word)
    lines = [f"{HEAD} {macro.name} by the pins that its collar uses: for simulation beside the collar alone."]
    lines.append("`timescale 1ns / 1ps")
    given = ", ".join(f"parameter {name} = {value}" for name, value in macro.parameters)
    power = macro.of("power")
    lines += ["/* verilator lint_off UNUSED */", "/* verilator lint_off BLKSEQ */"]
    lines += [f"module {macro.name}{f' #({given})' if given else ''}("]
    lines += [f"`ifdef {POWER}", *(f"  inout {pin.name}," for pin in power), "`endif"] if power else []
    widths = {pin.name: pin.width for _, pin in macro.chip_pins()}
    lines += ["  " + ",\n  ".join(ports(macro, widths)), ");"]
    for pin in macro.driven():
        if pin.bits:
            lines.append(f"  wire {ranged(pin.width)}{value_of(pin, names)} = {pin.joined()};")
    for pin in macro.of("pass"):
        if pin.bits:
            lines.append(f"  wire {ranged(pin.width)}{value_of(pin, names)} = {pin.joined()};")
    words = names.of("words")
    lines.append("  /* verilator lint_off MULTIDRIVEN */")
    lines.append(f"  reg {ranged(bits)}{words} [0:{(1 << word.first.width) - 1}];")
    lines.append("  /* verilator lint_on MULTIDRIVEN */")
    for second in (False, True):
        if not macro.has("rdata", second=second):
            continue
        answers = names.of(f"answers_{number(second)}")
        lines.append(f"  reg {ranged(bits)}{names.of(f'changed_{number(second)}')};")
        lines.append(f"  reg {names.of(f'any_lane_{number(second)}')};")
        lines.append(f"  integer {names.of(f'i_{number(second)}')};")
        clocks = macro.of("clk", second=second)
        lines.append(f"  reg {ranged(bits)}{answers} [1:{latency}];")
        lines += side(macro, names, word, second, clocks[0].name if clocks else macro.clk)
        lines.append(f"  assign {macro.answers(second).joined()} = {answers}[{latency}];")
    lines += [f"  assign {pin.name} = 64'h0;" for pin in macro.of("open")]
    lines += [f"  assign {pin.joined()} = {moved(macro, names, word, pin)};" for pin in macro.of("out")]
    lines += ["endmodule", "/* verilator lint_on BLKSEQ */", "/* verilator lint_on UNUSED */"]
    return "\n".join([*lines, ""])
