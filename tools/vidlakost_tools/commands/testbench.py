"""A Verilog testbench for a self-test module, with a behavioural memory of the description, for any simulator.

usage: vidlakost testbench MARCH MEMORY FOLDER [--sv] [--stream] [--content HEX]
                           [--fault PRIM --victim W.B [--aggressor W.B]]
       vidlakost testbench MARCH MEMORY FOLDER --assert
       vidlakost testbench CHIPFILE FOLDER --chip [--sv] [--stream]
                           [--unit U --fault PRIM --victim W.B [--aggressor W.B]]
       vidlakost testbench --help

testbench writes to FOLDER the testbench NAME_tb.v and the commands that it compares, NAME_commands.hex. That file has
a comment, one command a line (a bit for a write, the address, the word), and a last line of ones. A testbench that
can't read it ends by $fatal. Put a module NAME_bist in the folder, for instance the one that `compile` writes:

    vidlakost compile MARCH MEMORY LIST FOLDER/NAME_bist.v FOLDER/report
    cd FOLDER && iverilog -g2005 -o tb NAME_tb.v NAME_bist.v && vvp tb

The memory has the scrambling, the latency and the polarity of the description. Its words hold HEX at first (0 by
default). --fault plants one fault of one or two cells: PRIM is a primitive as for the command `benchfault`, and W.B is
a physical index and a bit. The testbench prints
    differs cycle C port P expected X got Y     for each port, the first cycle that is not as the march's commands say
    read cycle C expected X returned Y          the first word on rdata that is not the one that its read expects
    fail F done C                               at the end
With +dump in the call of the simulator it writes a waveform, NAME_tb.vcd.

With --stream the testbench computes the commands by itself, without NAME_commands.hex. Use it for tests of more than
2,000,000 cycles, whose commands `vectors` doesn't list.

The line `fail F done C` is the last one. If it is missing, something ended the run early, as a module may, and nothing
passed. With --sv the testbench is NAME_tb.sv, in SystemVerilog. Then the simulator ends with 1, by $fatal, if a port
differs or if something ends the run early. A run that passes ends with the line `NAME_tb: passed`.

With --chip it writes the testbench CHIP_tb.v of a chip file, with the memory of each unit. Put the file that the
command `chip` writes in the folder. --unit U plants the fault in the memory of unit U. The lines of a unit begin with
`unit U`, and its cycles count from its start, which `vidlakost schedule` prints. The other lines are
    weights cycle C W                           the first cycle in which the weights W of the enabled memories exceed
                                                the budget
    fail BITS done C                            at the end, the bit of unit 0 last

With --assert it writes NAME_rule.sv instead of a testbench: assertions of the rule of the ports, for each cycle from
the first reset on. They bind to the module NAME_bist, or to the one that the macro CONTROLLER names. NAME_rule.sv is a
controller of its own, written from the description, and shares nothing with the module that `compile` writes."""
from __future__ import annotations

import pathlib
import re
from typing import Any, Iterator, Mapping

from vidlakost_tools.files import look_first, marked, refuse_no_folder, write_own
from vidlakost_tools.program import vectors_of
from vidlakost_tools.text import template
from vidlakost_tools.texts.chip import Chip, read_chip
from vidlakost_tools.texts.march import Element, march_of
from vidlakost_tools.texts.memory import Memory, read_memory
from vidlakost_tools.tool import ToolError, number_of, usage_of, words_of
from vidlakost_tools.verilog import rule_of_ports, stream
from vidlakost_tools.verilog.bench_end import FINISH, over
from vidlakost_tools.verilog.planted_fault import Fault, fault_of

# what one memory needs: its port, itself, its commands, and their comparison; `cycle` is 0 in the cycle of its reset
PART = template(__file__, "testbench_part.sv")
DONE = """      differs(4, done !== (cycle >= CYCLES - 1), "done", {63'h0, cycle >= CYCLES - 1}, {63'h0, done});
"""
TOP = template(__file__, "testbench_top.sv")


def way_back(memory: Memory) -> str:
    if memory.rows is None:
        return "      index_of = a;"
    lines = []
    for bit, (bits, constant) in enumerate(memory.way_back()):
        parts = [f"a[{b}]" for b in bits] + (["1'b1"] if constant else [])
        lines.append(f"      index_of[{bit}] = {' ^ '.join(parts)};")
    return "\n".join(lines)


def gaps(memory: Memory, elements: list[Element], each_run: int) -> str:
    """The idle cycles before the commands of a run that follows a pause."""
    before: dict[int, int] = {}
    at = 0
    for element in elements:
        if element.is_pause:
            before[at] = before.get(at, 0) + memory.pause
        else:
            at += len(element.operations) * memory.words
    lines = ["      gap_before = 0;"]
    for at, cycles in before.items():
        where = f"k % {each_run} == {at % each_run}"
        if at == each_run:
            where += " && k > 0"
        lines.append(f"      if ({where}) gap_before = gap_before + {cycles};")
    return "\n".join(lines)


def content_of(options: Mapping[str, Any], memory: Memory) -> int:
    """The word that all words hold at first."""
    text = options.get("--content", "0")
    if not re.fullmatch(r"[0-9a-fA-F]{1,16}", text) or int(text, 16) >> memory.bits:
        raise ToolError(f"--content is a hexadecimal word of {memory.bits} bits, and not '{text}'")
    return int(text, 16)


def plain_access(memory: Memory) -> str:
    polarity = f"{memory.bits}'h{memory.polarity:x}"
    return f"          if (we) words[index] = wdata ^ {polarity};\n          else own = words[index] ^ {polarity};"


def numbers_of(lines: list[str], memory: Memory) -> Iterator[int]:
    """The commands of `vectors`, each as a number (a bit for a write, the address, the word), and the mark after
    them."""
    bits, both = memory.bits, memory.width + memory.bits
    for line in lines:
        kind, address, word = line.split()
        yield (kind == "w") << both | int(address) << bits | int(word, 16)
    yield (2 << both) - 1


def commands_of(options: Mapping[str, Any], tests: list[tuple[str, str, Memory]]) -> dict[str, str]:
    """The files with the commands of these marches and memories, unless the testbench computes them."""
    if "--stream" in options:
        return {}
    return {
        f"{memory.name}_commands.hex": "".join(
            f"{number:x}\n" for number in numbers_of(vectors_of(march, file), memory)
        )
        for march, file, memory in tests
    }


HEAD = "// A testbench of "
CHIP = template(__file__, "testbench_chip.sv")
# the names in a part that each unit has for itself; port names become those of the chip
OWN = set(
    "rdata en we fail addr wdata words pending idle own index found commands command expected compares cycle j gap i"
    " port_differs read_differs is_command want COUNT CYCLES index_of gap_before prepare compare_ports differs"
    " compare_read memory_cycle acts stored holds work_out step_on at_background at_element at_visit at_operation"
    " at_index at_value element_behind operations_of goes_down does background_word address_of".split()
)


def owned(text: str, number: int) -> str:
    """A part with the names of unit `number`, whose lines begin with that unit."""

    def renamed(match: re.Match[str]) -> str:
        if match["name"] in OWN and match["call"] is None:
            return f"{match[0]}_{number}"
        return match[0].replace('"differs ', f'"unit {number} differs ').replace('"read ', f'"unit {number} read ')

    return re.sub(r'"[^"]*"|//[^\n]*|(?P<call>\$)?(?P<name>\b[A-Za-z_]\w*)', renamed, text)


def chip_testbench(
    chip: Chip, unit: int | None, fault: tuple[str, Fault | None] | None, options: Mapping[str, Any]
) -> str:
    """The testbench of a chip; the fault is planted in the memory of a unit."""
    parts, numbers = [], range(len(chip.units))
    for number, it in enumerate(chip.units):
        planted = fault[1] if fault and number == unit else None
        text = owned(part(it.memory, it.elements, planted, 0, "", "--stream" in options), number)
        declared = f"fail_{number};\n"
        parts.append(text.replace(declared, f"{declared}  assign fail_{number} = fail[{number}];\n", 1))
    ports = [
        f".{port}_{number}({port}_{number})" for number in numbers for port in ("rdata", "en", "we", "addr", "wdata")
    ]
    differs = " || ".join(f"port_differs_{number} != 6'b0" for number in numbers)
    return CHIP.substitute(
        name=chip.name,
        count=len(chip.units),
        groups=chip.groups,
        planted=f", with {fault[0]} planted in unit {unit}" if fault else "",
        last=len(chip.units) - 1,
        parts="".join(parts),
        links=",\n    ".join(", ".join(ports[begin : begin + 5]) for begin in range(0, len(ports), 5)),
        prepare="\n".join(f"    prepare_{number};" for number in numbers),
        done=chip.done,
        starts="\n".join(f"      cycle_{number} = now - {it.start};" for number, it in enumerate(chip.units)),
        weights=" + ".join(f"(en_{number} ? {it.weight} : 0)" for number, it in enumerate(chip.units)),
        budget=chip.budget,
        turns="\n".join(
            f"      {turn}_{number};"
            for number in numbers
            for turn in ("compare_ports", "compare_read", "memory_cycle")
        ),
        answers="\n".join(f"      rdata_{number} = pending_{number}[0];" for number in numbers),
        **ending_of(chip.name, f"{differs} || is_heavy || done_cycle != {chip.done}", "marches'", options),
    )


def ending_of(name: str, wrong: str, whose: str, options: Mapping[str, Any]) -> dict[str, str]:
    """The head and the end of a testbench. In plain Verilog the line before the end says how the run went."""
    if "--sv" not in options:
        return {"over": "", "ending": "    $finish;\n"}
    fatal = f'    if (({wrong}) !== 1\'b0)\n      $fatal(1, "the ports are not as the {whose} commands say");\n'
    return {"over": over(f"{name}_tb"), "ending": f"{fatal}    {FINISH}\n"}


def part(
    memory: Memory, elements: list[Element], fault: Fault | None, content: int, done: str, is_streamed: bool
) -> str:
    """The declarations and tasks of one memory."""
    count = stream.number_of_commands(memory, elements)
    each_run = count // len(memory.backgrounds)
    entry = memory.width + memory.bits
    zeros = "" if memory.bits == 64 else f"{64 - memory.bits}'h0, "
    return PART.substitute(
        name=memory.name,
        words=memory.words,
        bits=memory.bits,
        last=memory.words - 1,
        latency=memory.latency,
        bits_range=f"[{memory.bits - 1}:0] ",
        width_range=f"[{memory.width - 1}:0] ",
        count=count,
        cycles=memory.cycles(elements),
        entry=entry,
        commands=stream.streamed(memory, elements) if is_streamed else stream.listed(memory),
        entry_address=entry - 1,
        top_bit=memory.bits - 1,
        address_zeros=64 - memory.width,
        word_64_command=f"{{{zeros}command[{memory.bits - 1}:0]}}",
        word_64_data=f"{{{zeros}wdata}}",
        way_back=way_back(memory),
        gaps=gaps(memory, elements, each_run),
        pause=memory.pause,
        content=f"{memory.bits}'h{content:x}",
        fault=fault.declarations() if fault else "",
        access=fault.access() if fault else plain_access(memory),
        rest=fault.rest() if fault else "",
        closed=fault.closed() if fault else "",
        done=done,
    )


def testbench(
    memory: Memory,
    elements: list[Element],
    fault: tuple[str, Fault | None] | None,
    content: int,
    options: Mapping[str, Any],
) -> str:
    return TOP.substitute(
        name=memory.name,
        words=memory.words,
        bits=memory.bits,
        planted=f", with {fault[0]} planted" if fault else "",
        part=part(memory, elements, fault[1] if fault else None, content, DONE, "--stream" in options),
        **ending_of(memory.name, "port_differs != 6'b0", "march's", options),
    )


def bench_name(name: str, options: Mapping[str, Any]) -> str:
    return f"{name}_tb.{'sv' if '--sv' in options else 'v'}"


def write(folder: str, name: str, text: str, inputs: list[str], commands: dict[str, str]) -> None:
    """Writes a testbench or assertions, and the commands beside it, which it does not list."""
    write_own(pathlib.Path(folder), marked("testbench", {**commands, name: text}), inputs, [name])


def look(folder: str, name: str, options: Mapping[str, Any]) -> None:
    """Refuses a testbench that could not be written, before its text is made."""
    look_first(pathlib.Path(folder), bench_name(name, options), HEAD)


def write_chip(words: list[str], options: Mapping[str, Any]) -> None:
    """The testbench of a chip file."""
    if len(words) != 2 or {"--content", "--assert"} & set(options):
        raise ToolError(f"--chip takes a chip file and a folder\n{usage_of(__doc__)}")
    if ("--unit" in options) != ("--fault" in options):
        raise ToolError("--unit and --fault need each other")
    refuse_no_folder(pathlib.Path(words[1]))
    chip, fault = read_chip(words[0]), None
    look(words[1], chip.name, options)
    number = number_of(options["--unit"], "--unit") if "--unit" in options else None
    if number is not None and number >= len(chip.units):
        raise ToolError(f"--unit is 0 to {len(chip.units) - 1}, and not {number}")
    if number is not None:
        unit = chip.units[number]
        fault = ("".join(options["--fault"].split()), fault_of(options, unit.march, unit.memory_file, unit.memory))
    commands = commands_of(options, [(unit.march, unit.memory_file, unit.memory) for unit in chip.units])
    inputs = [words[0], *(file for unit in chip.units for file in (unit.march, unit.memory_file))]
    write(words[1], bench_name(chip.name, options), chip_testbench(chip, number, fault, options), inputs, commands)


def main(arguments: list[str]) -> None:
    allowed = {
        "--fault": 1,
        "--victim": 1,
        "--aggressor": 1,
        "--content": 1,
        "--sv": 0,
        "--assert": 0,
        "--chip": 0,
        "--unit": 1,
        "--stream": 0,
    }
    words, options = words_of(__doc__, arguments, allowed, 2, 3)
    if "--chip" in options:
        return write_chip(words, options)
    if len(words) < 3 or "--unit" in options:
        raise ToolError(f"{'--unit needs --chip' if words[2:] else 'too few words'}\n{usage_of(__doc__)}")
    march, memory_file, folder = words
    if "--assert" in options and len(options) > 1:
        raise ToolError("--assert takes no other option")
    elements, memory = march_of(march)[1], read_memory(memory_file)
    if "--assert" in options:
        return write(folder, f"{memory.name}_rule.sv", rule_of_ports.rule(elements, memory), [march, memory_file], {})
    look(folder, memory.name, options)
    fault = fault_of(options, march, memory_file, memory)
    content = content_of(options, memory)
    planted = ("".join(options["--fault"].split()), fault) if fault else None
    text = testbench(memory, elements, planted, content, options)
    commands = commands_of(options, [(march, memory_file, memory)])
    return write(folder, bench_name(memory.name, options), text, [march, memory_file], commands)
