"""A Liberty library of macros, made of their files of pins: each input is looked at by a rising edge of the clock of
its port, and each output changes behind one."""
from __future__ import annotations

from vidlakost_tools.collar.pins import Macro, Pin, literal

UNITS = """  delay_model : table_lookup; time_unit : "1ns"; voltage_unit : "1V"; current_unit : "1mA";
  capacitive_load_unit(1, pf);
"""
RESETS = ("recovery_rising", "removal_rising")
THRESHOLDS = {
    **{f"{side}_threshold_pct_{way}": 50 for side in ("input", "output") for way in ("rise", "fall")},
    **{f"slew_lower_threshold_pct_{way}": 20 for way in ("rise", "fall")},
    **{f"slew_upper_threshold_pct_{way}": 80 for way in ("rise", "fall")},
}


def tables(*names: str, value: float) -> str:
    return "".join(f' {name}(scalar) {{ values("{value}"); }}' for name in names)


def looked_at(clock: str) -> str:
    """An input has to stand round an edge of a clock."""
    checks = tables("rise_constraint", "fall_constraint", value=0.1)
    kinds = ("setup_rising", "hold_rising")
    return "".join(f' timing() {{ related_pin : "{clock}"; timing_type : {kind};{checks} }}' for kind in kinds)


def answered(clock: str) -> str:
    """An output changes behind an edge of a clock."""
    ways = tables("cell_rise", "cell_fall", "rise_transition", "fall_transition", value=0.5)
    return f' timing() {{ related_pin : "{clock}"; timing_type : rising_edge; timing_sense : non_unate;{ways} }}'


def width_of(pin: Pin, widths: dict[str, int]) -> int:
    """The width of a pin; one that is tied has that of its literal, or of the pin that it is tied to."""
    known = literal(pin.value) if pin.kind == "tie" else None
    return known[0] if known else widths.get(pin.value, 1) if pin.kind == "tie" else pin.width or 1


def cell_of(macro: Macro) -> str:
    """The macro as a cell."""
    second = next((pin.name for pin in macro.of("clk", second=True)), macro.clk)
    widths = {pin.name: pin.width for _, pin in macro.chip_pins()}
    lines, types = [f"  cell({macro.name}) {{ area : 100;"], set()
    lines.append(f"    pin({macro.clk}) {{ direction : input; clock : true; capacitance : 0.01; }}")
    for pin in macro.pins:
        if pin.kind == "power" or pin.name == macro.clk:
            continue
        clock = second if pin.is_second else macro.clk
        is_clock = pin.kind in ("clk", "clock2")
        is_output = pin.kind in ("rdata", "open", "out")
        said = "direction : output;" + answered(clock) if is_output else "direction : input; capacitance : 0.01;"
        said += " clock : true;" if is_clock else "" if is_output else looked_at(clock)
        width = width_of(pin, widths)
        for name in pin.bits or [pin.name]:
            if pin.bits or width == 1:
                lines.append(f"    pin({name}) {{ {said} }}")
                continue
            types.add(width)
            lines.append(f"    bus({name}) {{ bus_type : of_{width}; {said} }}")
    base = "base_type : array; data_type : bit;"
    for width in sorted(types):
        limits = f"bit_width : {width}; bit_from : {width - 1}; bit_to : 0; downto : true;"
        lines.insert(1, f"    type(of_{width}) {{ {base} {limits} }}")
    return "\n".join([*lines, "  }"])


def library_of(macros: list[Macro]) -> str:
    """A library of these macros."""
    named = {macro.name: macro for macro in macros}
    units = UNITS + "".join(f"  {name} : {value};\n" for name, value in THRESHOLDS.items())
    return "\n".join([f"library(macros) {{\n{units}", *map(cell_of, named.values()), "}", ""])


def flop(name: str, what: str, arc: str) -> str:
    """A flip-flop that R sets to a value at any time, while it is 0."""
    checks = tables("rise_constraint", value=0.1)
    ways = tables("cell_rise", "cell_fall", "rise_transition", "fall_transition", value=0.1)
    lasts = "".join(f' timing() {{ related_pin : "C"; timing_type : {kind};{checks} }}' for kind in RESETS)
    edge = f' timing() {{ related_pin : "R"; timing_type : {arc}; timing_sense : non_unate;{ways} }}'
    out = f'direction : output; function : "IQ";{edge}' + answered("C")
    pins = {
        "D": "direction : input; capacitance : 0.01;" + looked_at("C"),
        "C": "direction : input; clock : true; capacitance : 0.01;",
        "R": f"direction : input; capacitance : 0.01;{lasts}",
        "Q": out,
    }
    told = " ".join(f"pin({pin}) {{ {said} }}" for pin, said in pins.items())
    return f'cell({name}) {{ area : 5; ff(IQ, IQN) {{ clocked_on : "C"; next_state : "D"; {what} : "!R"; }} {told} }}'


def with_resets(library: str) -> str:
    """A library with two flip-flops more, as a TAP has them: one that is cleared, and one that is set."""
    cells = [flop("DFFC", "clear", "clear"), flop("DFFP", "preset", "preset")]
    return "\n".join([library.rstrip()[:-1], *cells, "}", ""])
