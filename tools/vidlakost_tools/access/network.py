"""The scan network of IEEE 1687 behind the instruction BIST: a segment insertion bit in front of the register of the
self-test, and one in front of that of its log. From TDI to TDO are the bit of the log, the log, the bit of the
self-test, and its register: so the register has the lowest bits of a scan, as without the network."""
from __future__ import annotations

from vidlakost_tools.access.target import Target
from vidlakost_tools.text import template

SIB = template(__file__, "network_sib.sv")
INSTANCE = """  {name}_sib {of}_sib(.tck(tck), .reset_n(sib_reset_n), .sel(instruction == BIST),
    .capture(state == CAPTURE_DR), .shift(state == SHIFT_DR), .update(state == UPDATE_DR),
    .si({si}), .so({of}_so), .to_sel({of}_sel), .to_si({of}_si), .from_so({of}_data[0]));
"""
RESET = """  // no state is decoded on its way to a reset
  reg sib_reset_n;
  always @(negedge tck or negedge trst_n)
    if (!trst_n) sib_reset_n <= 1'b0;
    else sib_reset_n <= state != RESET;
"""


def block(target: Target) -> str:
    """The module NAME_sib."""
    return SIB.substitute(name=target.name)


def segments(target: Target) -> list[str]:
    """What has a bit of its own, from TDI on."""
    if not target.has_sib:
        return []
    return ["log", "bist"] if target.depth is not None else ["bist"]


def opened(target: Target, size: int, word: int, is_log_open: bool = False) -> int:
    """The word of a scan while the register alone is in the path. The scan leaves it there, with the log if that is
    said."""
    if not target.has_sib:
        return word
    return word | 1 << size | int(is_log_open) << size + 1


def choosing(target: Target, size: int) -> str:
    """In a testbench the word of a scan that keeps `start` and writes `ignored` to the highest part of the register,
    which stays in the path."""
    word = f"ignored, {size - target.count}'d1"
    if not target.has_sib:
        return f"{{{word}}}"
    return f"{{{len(segments(target))}'d{opened(target, size, 0) >> size}, {word}}}"


def whole(target: Target, size: int) -> int:
    """How many bits a scan has while the register alone is in the path."""
    return size + len(segments(target))


def to_log(size: int) -> int:
    """The word of a scan of the register that keeps `start`, closes it and opens the log."""
    return 1 | 1 << size + 1


def constant(width: int, value: int) -> str:
    return f"{width}'h{value:x}"


# ---- in the TAP


def about(target: Target, log_length: int) -> str:
    """What the head of the TAP says of the log and the network."""
    if not target.has_sib:
        if target.depth is None:
            return ""
        told = "each scan of {} bits tells an entry of the log and goes on"
        return f"// With the instruction 1001, LOG, {told.format(log_length)}.\n"
    lines = ["// BIST selects a scan network of IEEE 1687. From TDI to TDO it has"]
    if target.depth is not None:
        entry = f"the {log_length} bits of an entry of the log, behind which a scan goes on"
        lines.append(f"//   a segment insertion bit, and while it is 1 {entry}")
    own = "the register of the self-test; while it is 0 the test runs on"
    lines.append(f"//   a segment insertion bit, and while it is 1 {own}")
    return "\n".join([*lines, ""])


def instances(target: Target) -> str:
    """The segment insertion bits."""
    made, si = [], "tdi"
    for of in segments(target):
        made.append("".join(f"  wire {of}_{end};\n" for end in ("so", "sel", "si")))
        text = INSTANCE.format(name=target.name, of=of, si=si)
        made.append(text.replace("bist_data[0]", "data[0]"))
        si = f"{of}_so"
    return RESET + "".join(made)


def shifts(target: Target, last: int, log_last: int) -> str:
    """What a scan of BIST shifts."""
    lines = ["        BIST: begin", f"          if (bist_sel) data <= {{bist_si, data[{last}:1]}};"]
    if target.depth is not None:
        lines.append(f"          if (log_sel) log_data <= {{log_si, log_data[{log_last}:1]}};")
    return "\n".join([*lines, "        end", ""])


def updates(target: Target, update: str, log_step: str, log_reset: str) -> str:
    """What the end of a scan of BIST does."""
    own = f"      want <= data[0];\n{update}"
    if target.has_sib:
        own = f"      if (bist_sel) begin\n{own}      end\n"
    if target.has_sib and target.depth is not None:
        own += f"      if (log_sel) begin\n{log_step}      end else begin\n{log_reset}      end\n"
    return f"    else if (state == UPDATE_DR && instruction == BIST) begin\n{own}    end\n"


def tap_parts(target: Target, last: int, log: dict[str, str], log_last: int, update: str) -> dict[str, str]:
    """What the TAP has for its register and for the network, if there is one."""
    plain = f"        BIST: data <= {{tdi, data[{last}:1]}};\n"
    return {
        "sib_held": instances(target) if target.has_sib else "",
        "data_shift": shifts(target, last, log_last) if target.has_sib else plain,
        "data_update": updates(target, update, log["log_step"], log["log_reset"]),
        "data_out": "bist_so" if target.has_sib else "data[0]",
    }


# ---- in its testbench


# what goes through a closed network comes out behind its bits, and leaves the register open
THROUGH = """      shift({count}, {word});
      if (heard[{top}:0] !== {{4'ha, {bits}'d0}})
        $fatal(1, "{name}: the segment insertion bits are no closed path: %b", heard[{top}:0]);
"""
CLOSED = """      // while its segment insertion bit is 0 the test runs on
      shift({scan}, {close});
      shift({bits}, {rest});
      repeat (16) turn(1'b0, 1'b0);
      if (test !== 1'b1) $fatal(1, "{name}: test is %b while start is 1", test);
"""


def bench_open(target: Target, width: int) -> str:
    """Opens the register when all bits are 0, and nothing else is in the path."""
    bits = len(segments(target))
    word = constant(width, 1 << 4 | 0xA)
    return THROUGH.format(name=target.name, bits=bits, count=bits + 4, top=bits + 3, word=word) if bits else ""


def bench_closed(target: Target, size: int, width: int) -> str:
    """Closes the register, and opens it again."""
    bits = len(segments(target))
    if not bits:
        return ""
    close, rest = (constant(width, word) for word in (1, 0))
    closed = CLOSED.format(name=target.name, bits=bits, scan=whole(target, size), close=close, rest=rest)
    return closed + bench_open(target, width)
