"""The self-test behind an APB3 bus: the block, its registers as a table and in SystemRDL, and its testbench."""
from __future__ import annotations

import dataclasses

from vidlakost_tools.access import log_window, logs
from vidlakost_tools.access.bench import most, testbench
from vidlakost_tools.access.block import inside
from vidlakost_tools.access.target import Port, Target, extended, header, links, zero
from vidlakost_tools.text import template
from vidlakost_tools.verilog.bench_end import FINISH


@dataclasses.dataclass
class Field:
    name: str
    low: int
    width: int
    source: str
    about: str


@dataclasses.dataclass
class Register:
    """A register: its name, its address, its fields, and whether a bus may write it."""

    name: str
    at: int
    fields: list[Field]
    writable: bool = False

    def value(self) -> str:
        """What a read gives."""
        used = sum(field.width for field in self.fields)
        parts = [field.source for field in reversed(self.fields)]
        whole = parts[0] if len(parts) == 1 else f"{{{', '.join(parts)}}}"
        return extended(whole, used, 32)


def pieces(width: int) -> list[tuple[int, int]]:
    """A word in registers, from its lower bits on: of each its lowest bit and how many it has."""
    return [(low, min(32, width - low)) for low in range(0, width, 32)]


def bits_in(source: str, low: int, width: int) -> str:
    return f"{source}[{low + width - 1}:{low}]" if width > 1 else f"{source}[{low}]"


def parts_of(name: str, source: str, width: int, at: int, further: int, about: str) -> list[Register]:
    """A word as so many registers as it has, from its lower bits on; those after the second are at `further` and
    after."""
    if width <= 32:
        gated = f"(is_seen ? {source} : {zero(width)})"
        return [Register(name, at, [Field(name.lower(), 0, width, gated, about)])]
    made, named = [], ["LOW", "HIGH", *map(str, range(2, len(pieces(width))))]
    for number, (low, wide) in enumerate(pieces(width)):
        gated = f"(is_seen ? {bits_in(source, low, wide)} : {zero(wide)})"
        told = ("its lower 32 bits", "its upper bits")[number > 0] if width <= 64 else f"bits {low} to {low + wide - 1}"
        field = Field(f"{name}_{named[number]}".lower(), 0, wide, gated, f"{about}, {told}")
        place = at + 4 * number if number < 2 else further + 4 * (number - 2)
        made.append(Register(f"{name}_{named[number]}", place, [field]))
    return made


def in_words(
    name: str, at: int, further: int, source: str, count: int, about: str, writable: bool = False
) -> list[Register]:
    """A bit for each unit in one register, or in several of 32 bits; those after the first are at `further` and
    after."""
    field = source.split("_")[-1].replace("failed", "fail")
    if count <= 32:
        return [Register(name, at, [Field(field, 0, count, source, about)], writable)]
    made = []
    for number, low in enumerate(range(0, count, 32)):
        width = min(32, count - low)
        bits = f"{source}[{low + width - 1}:{low}]" if width > 1 else f"{source}[{low}]"
        told = f"{about}: units {low} to {low + width - 1}"
        place = further + 4 * (number - 1) if number else at
        made.append(
            Register(f"{name}_{number}" if number else name, place, [Field(field, 0, width, bits, told)], writable)
        )
    return made


def registers(target: Target) -> list[Register]:
    state = [
        Field("test", 0, 1, "has_test", "the start has arrived: the self-test has the memory"),
        Field("done", 1, 1, "is_done", "the test is over; all else stands"),
        Field("fail", 2, 1, f"(has_failed != {zero(target.count)})", "a read was wrong"),
        Field("seen", 3, 1, "is_seen", "CYCLE, EXPECTED and RETURNED stand"),
    ]
    bits = target.unit_bits
    whose = Field("unit", 0, bits, f"(is_seen ? unit : {zero(bits)})", "whose failure it is")
    loose = "a bit for each unit whose failures are not kept; it stays while START is 1"
    loose = "a bit for each unit of whose failure nothing is told" if target.shows_each else loose
    begin = Field("start", 0, 1, "want", "1 starts a test and keeps what it found; 0 ends it")
    return [
        Register("CONTROL", 0x00, [begin], True),
        Register("STATUS", 0x04, state),
        *in_words("FAIL", 0x08, 0x100, "has_failed", target.count, "a bit for each unit, the first one's lowest"),
        *([Register("UNIT", 0x0C, [whose])] if target.is_chip else []),
        *parts_of("CYCLE", "cycle", 32, 0x10, 0, "of the first failure the cycle, as vidlakost locate takes it"),
        *parts_of("EXPECTED", "expected", target.word, 0x14, 0x300, "the word that the march expects"),
        *parts_of("RETURNED", "returned", target.word, 0x1C, 0x340, "the word that returned"),
        *(in_words("IGNORE", 0x24, 0x200, "ignore", target.count, loose, True) if target.is_chip else []),
        *(of_log(target) if target.depth else []),
        *(of_entries() if target.has_entries else []),
    ]


def of_entries() -> list[Register]:
    """The registers that choose a wrong read of those that the memory keeps of which is told."""
    told = [
        Field("count", 0, 7, "(is_seen ? count : 7'd0)", "how many wrong reads the memory of UNIT has kept"),
        Field("reserved", 7, 1, "1'b0", "0"),
        Field("shown", 8, 6, "(is_seen ? shown : 6'd0)", "which of them is told, the first is 0"),
        Field("reserved", 14, 17, "17'd0", "0"),
        Field("more", 31, 1, "(is_seen & more)", "wrong reads came when it could keep no more"),
    ]
    asked = Field("entry", 0, 6, "entry", "which of them is to be told; it is told when SHOWN has its number")
    return [Register("LOG", 0x28, told), Register("ENTRY", 0x2C, [asked], True)]


def of_log(target: Target) -> list[Register]:
    """The registers in front of the window of the log."""
    count = Field("count", 0, 7, "log_count", "how many entries the log has; it stands when the test is done")
    gap = Field("reserved", 7, 24, "24'd0", "0")
    more = Field("more", 31, 1, "log_more", "wrong reads came when the log was full")
    which = Field("log_unit", 0, target.unit_bits, "log_unit", "whose log stands in LOG and in the window")
    return [
        Register("LOG", 0x28, [count, gap, more]),
        *([Register("LOG_UNIT", 0x2C, [which], True)] if target.is_chip else []),
    ]


APB = """// The self-test of {name} behind an APB3 bus; {name}_apb.md tells the registers. There are no wait states. A
// transfer to an address that has no register, and a write to one that is only read, end with pslverr at 1 and change
// nothing."""


def bus() -> list[Port]:
    return [
        Port("input", "pclk"),
        Port("input", "presetn"),
        Port("input", "psel"),
        Port("input", "penable"),
        Port("input", "pwrite"),
        Port("input", "paddr", 12),
        Port("input", "pwdata", 32),
        Port("output", "prdata", 32),
        Port("output", "pready"),
        Port("output", "pslverr"),
    ]


def written(register: Register) -> str:
    """What a write to a register of bits does."""
    field = register.fields[0]
    pick = f"pwdata[{field.width - 1}:0]" if field.width > 1 else "pwdata[0]"
    return f"      if (paddr == 12'h{register.at:03x}) {field.source} <= {pick};"


def block(target: Target) -> str:
    """The module NAME_apb."""
    ports = [*bus(), Port("input", "clk"), *target.ports(), Port("output", "test")]
    table = registers(target)
    choice = target.choice()
    held = [f"  reg {Port('', port.name, port.width).declared().strip()};" for port in choice]
    reset = [f"      {port.name} <= {zero(port.width)};" for port in choice]
    more = [written(it) for it in table if it.name.startswith(("IGNORE", "ENTRY"))]
    if target.is_chip and target.depth:
        bits = target.unit_bits
        held.append(f"  reg {Port('', 'log_unit', bits).declared().strip()};")
        reset.append(f"      log_unit <= {zero(bits)};")
        more.append(f"      if (paddr == 12'h02c) log_unit <= pwdata{f'[{bits - 1}:0]' if bits > 1 else '[0]'};")
    answer = [
        "      case (paddr)",
        *(f"        12'h{it.at:03x}: value <= {it.value()};" for it in table),
        "        default: begin",
        "          value <= 32'd0;",
        "          is_there <= 1'b0;",
        "        end",
        "      endcase",
    ]
    used = min(32, max(1, *(port.width for port in choice), 1))
    lines = [
        "  reg want;",
        *held,
        "  reg [31:0] value;",
        "  reg is_there;",
        "  wire access_phase;",
        "  wire unused;",
        (inside(target, "pclk", "presetn") + logs.inside(target)).rstrip("\n"),
        *(["  assign log_pick = paddr[10:5];"] if target.depth else []),
        f"  assign unused = &{{1'b0, pwdata[31:{used}]}};" if used < 32 else "  assign unused = 1'b0;",
        "  assign access_phase = psel & penable;",
        "  assign pready = access_phase;",
        "  assign prdata = value;",
        "  assign pslverr = access_phase & (!is_there | (pwrite & !writable));",
        "  wire writable;",
        "  assign writable = " + " | ".join(f"(paddr == 12'h{it.at:03x})" for it in table if it.writable) + ";",
        "  always @(posedge pclk or negedge presetn)",
        "    if (!presetn) begin",
        "      want <= 1'b0;",
        *reset,
        "    end else if (access_phase & pwrite) begin",
        "      if (paddr == 12'h000) want <= pwdata[0];",
        *more,
        "    end",
        "  // a read is answered in its access phase with what stood in its setup phase",
        "  always @(posedge pclk)",
        "    if (psel & !penable) begin",
        "      is_there <= 1'b1;",
        *log_window.window(target, answer),
        "    end",
        "endmodule",
    ]
    # what is declared stands before what uses it
    lines.remove("  wire writable;")
    lines.insert(lines.index("  wire access_phase;"), "  wire writable;")
    return (
        header(APB.format(name=target.name), f"{target.name}_apb", ports, before=target.conditional())
        + "\n".join(lines)
        + "\n"
    )


# ---- the registers in words


def table(target: Target) -> str:
    """The registers as a table of Markdown."""
    rows = []
    for it in registers(target):
        for field in it.fields:
            bits = f"{field.low}" if field.width == 1 else f"{field.low + field.width - 1}:{field.low}"
            way = "read, write" if it.writable else "read"
            rows.append(f"| 0x{it.at:02x} | {it.name} | {bits} | {field.name} | {way} | {field.about} |")
    return "\n".join(
        [
            f"# The registers of {target.name}_apb",
            "",
            "| Address | Register | Bits | Field | | Meaning |",
            "|---|---|---|---|---|---|",
            *rows,
            *log_window.table_rows(target),
            "",
            "All other bits are read as 0, and a write to them is without effect. Behind presetn all fields are 0.",
            "",
            "To test: write 1 to CONTROL, read STATUS until `done` is 1, read the rest, and write 0 to CONTROL. What",
            "was found is kept while START is 1. A test that is not done in the cycles of `vidlakost summary` does not",
            "end: its clock does not run, or the module is another. A 0 behind a 1 ends a test at once, and a 1 behind",
            "that begins anew, however fast they come.",
            "",
        ]
    )


def system_rdl(target: Target) -> str:
    """The registers in SystemRDL."""
    lines = [f"addrmap {target.name}_apb {{", f'  name = "Self-test of {target.name}";', "  default regwidth = 32;"]
    for it in registers(target):
        lines.append("  reg {")
        for field in it.fields:
            access = "sw = rw; hw = r; reset = 0" if it.writable else "sw = r; hw = w"
            bits = f"[{field.low + field.width - 1}:{field.low}]"
            lines.append(f'    field {{ {access}; desc = "{field.about}"; }} {field.name}{bits};')
        lines.append(f"  }} {it.name} @ 0x{it.at:02x};")
    return "\n".join([*lines, *log_window.rdl(target), "};", ""])


BODY = template(__file__, "apb_body.sv")


def read_word(target: Target, name: str, of: str) -> str:
    """The statements that read a word, a register after another."""
    places = [it.at for it in registers(target) if it.name.startswith(of)]
    lines = []
    for at, (low, wide) in zip(places, pieces(target.word)):
        part = f"[{low + wide - 1}:{low}]" if target.word > 32 else ""
        lines.append(f"      get(12'h{at:03x});\n      {name}{part} = heard[{wide - 1}:0];\n")
    return "".join(lines)


def read_fails(target: Target) -> str:
    """The statements that read the bits of all units."""
    lines, low = [], 0
    for it in [it for it in registers(target) if it.name.startswith("FAIL")]:
        width = it.fields[0].width
        place = f"[{low + width - 1}:{low}]" if target.count > 32 else ""
        lines += [f"      get(12'h{it.at:03x});", f"      failing{place} = heard[{width - 1}:0];"]
        low += width
    return "\n".join([*lines, ""])


def bench(target: Target) -> str:
    """The testbench of NAME_apb: wrong addresses first, then two runs."""
    words = read_word(target, "wanted", "EXPECTED") + read_word(target, "got", "RETURNED")
    words += "      get(12'h00c);\n      whose = heard[9:0];\n" if target.is_chip else "      whose = 10'd0;\n"
    declared = """  reg pclk = 1'b0;
  initial forever #7 pclk = ~pclk;
  reg presetn = 1'b0;
  reg psel = 1'b0;
  reg penable = 1'b0;
  reg pwrite = 1'b0;
  reg [11:0] paddr = 12'd0;
  reg [31:0] pwdata = 32'd0;
  wire [31:0] prdata;
  wire pready;
  wire pslverr;
"""
    link = (
        f"  {target.name}_apb dut({target.bench_links()}{links(bus())},\n    .clk(clk), {links(target.ports())},"
        " .test(test));\n"
    )
    # with a log the first address behind the window, or behind an entry of it
    behind = 0x30 if target.has_entries else 0x28
    if target.depth is not None:
        behind = 0x800 + 32 * target.depth if target.depth < 64 else 0xFF4
    beyond = f"12'h{behind:03x}"
    log = log_window.apb_reads(target)
    read = f"      get(12'h010);\n      when_read = heard;\n{words}"
    each = target.read_each("apb", read)
    body = BODY.substitute(
        finish=FINISH,
        name=target.name, most=most(target), fails=read_fails(target), read=read, each=each, beyond=beyond, log=log
    )
    declared += log_window.APB_DECLARED if target.depth else ""
    return testbench(target, "apb", "by an APB3 bus", 5, declared, link, body)
