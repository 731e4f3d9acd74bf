"""The short machine behind the march of a collar that tries the lanes of a word: it writes one lane at a time and reads
the word, in the first word and in the last."""
from __future__ import annotations

from vidlakost_tools.collar.pins import Macro, Pin, Word
from vidlakost_tools.verilog.syntax import ranged

ABOUT = """// Tries the lanes of {name} while go is 1: with each lane alone, and with none, it writes ones over
// zeros and zeros over ones, and reads the word, at address 0 and at the last one. over rises when the last
// word has been compared."""


def spread(net: str, pin: Pin, bits: int) -> str:
    """The bits of a word that the lanes enable."""
    each = bits // pin.width
    if pin.width == 1:
        return f"{{{bits}{{{net}}}}}"
    parts = [f"{{{each}{{{net}[{lane}]}}}}" if each > 1 else f"{net}[{lane}]" for lane in reversed(range(pin.width))]
    return "{" + ", ".join(parts) + "}"


def lane_pins(macro: Macro) -> list[Pin]:
    """The pins whose lanes are tried, those of the other port behind."""
    return [*macro.lane_pins(), *(macro.lane_pins(True) if macro.second_writes else [])]


def starts(pins: list[Pin]) -> list[int]:
    """The number of the first lane of each pin; each has one number more, for no lane."""
    found = [0]
    for pin in pins:
        found.append(found[-1] + pin.width + 1)
    return found


def counted(macro: Macro) -> tuple[list[int], dict[bool, int]]:
    """The first numbers of the pins, and the last number of each port."""
    own = starts(macro.lane_pins())
    both = own[:-1]
    last = {False: own[-1] - 1}
    if macro.second_writes and macro.lane_pins(True):
        other = starts(macro.lane_pins(True))
        both += other[:-1]
        last[True] = other[-1] - 1
    return both, last


def chosen(pins: list[Pin], firsts: list[int], wide: int, has_two: bool) -> list[str]:
    """Of each pin the lane whose turn it is, or all where it is another pin's."""
    lines = []
    for number, (pin, first) in enumerate(zip(pins, firsts)):
        ones = f"{{{pin.width}{{1'b1}}}}"
        within = [f"lane >= {wide}'d{first}"] if first else []
        within += [f"lane <= {wide}'d{first + pin.width}"] if first + pin.width + 1 < 1 << wide else []
        within += ["second" if pin.is_second else "!second"] if has_two else []
        mine = " && ".join(within) or "1'b1"
        offset = f"(lane - {wide}'d{first})" if first else "lane"
        lines.append(f"  wire {ranged(pin.width)}hot_{number} = ({mine}) ? {pin.width}'d1 << {offset} : {ones};")
        lines.append(f"  assign lanes_{number} = alone ? hot_{number} : {ones};")
    return lines


def lanes(macro: Macro, word: Word) -> str:
    """The module NAME_lanes."""
    pins, (firsts, last) = lane_pins(macro), counted(macro)
    wide = max(last.values()).bit_length()
    width, bits, latency = word.first.width, word.bits, word.first.latency
    has_two = True in last
    ports = ["input wire clk", "input wire go"] + (["input wire second"] if has_two else [])
    ports += [f"input wire {ranged(bits)}rdata", "output wire en", "output wire we"]
    ports += [f"output wire {ranged(width)}addr", f"output wire {ranged(bits)}wdata"]
    ports += [f"output wire {ranged(pin.width)}lanes_{number}" for number, pin in enumerate(pins)]
    ports += ["output wire over", "output reg fail"]
    end = f"second ? {wide}'d{last[True]} : {wide}'d{last[False]}" if has_two else f"{wide}'d{last[False]}"
    lines = [
        ABOUT.format(name=word.name),
        f"module {word.name}_lanes(",
        "  " + ",\n  ".join(ports),
        ");",
        "  reg [2:0] step;",
        f"  reg {ranged(wide)}lane;",
        "  reg place;",
        f"  reg [{latency}:0] ends;",
        f"  reg [{latency}:1] reads;",
        *(f"  reg {ranged(bits)}want_{age};" for age in range(1, latency + 1)),
        "  wire live = go & ~ends[0];",
        "  wire alone = step == 3'd1 || step == 3'd4;",
        f"  wire is_last = lane == ({end});",
    ]
    lines += chosen(pins, firsts, wide, has_two)
    which = " & ".join(spread(f"hot_{number}", pin, bits) for number, pin in enumerate(pins))
    lines += [
        f"  wire {ranged(bits)}which = {which};",
        "  assign en = live;",
        "  assign we = step != 3'd2 && step != 3'd5;",
        f"  assign addr = place ? {width}'d{word.first.words - 1} : {width}'d0;",
        f"  assign wdata = {{{bits}{{step == 3'd1 || step == 3'd3}}}};",
        f"  assign over = ends[{latency}];",
        *clocked(latency, wide),
        "endmodule",
    ]
    return "\n".join(lines) + "\n"


def clocked(latency: int, wide: int) -> list[str]:
    """The registers of the machine."""
    before = ", ".join(f"reads[{age}]" for age in reversed(range(1, latency)))
    return [
        "  always @(posedge clk)",
        "    if (!go) begin",
        "      step <= 3'd0;",
        f"      lane <= {wide}'d0;",
        "      place <= 1'b0;",
        f"      ends <= {latency + 1}'d0;",
        f"      reads <= {latency}'d0;",
        "      fail <= 1'b0;",
        "    end else begin",
        "      if (live) step <= step == 3'd5 ? 3'd0 : step + 3'd1;",
        "      if (live && step == 3'd5) begin",
        f"        lane <= is_last ? {wide}'d0 : lane + {wide}'d1;",
        "        if (is_last) place <= 1'b1;",
        "      end",
        f"      ends <= {{ends[{latency - 1}:0], ends[0] | (live && step == 3'd5 && is_last && place)}};",
        f"      reads <= {f'{{{before}, live & ~we}}' if before else 'live & ~we'};",
        f"      fail <= fail | (reads[{latency}] & (rdata != want_{latency}));",
        "    end",
        "  always @(posedge clk) begin",
        "    want_1 <= step == 3'd2 ? which : ~which;",
        *(f"    want_{age} <= want_{age - 1};" for age in range(2, latency + 1)),
        "  end",
    ]
