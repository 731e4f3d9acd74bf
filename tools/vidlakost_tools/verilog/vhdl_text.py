"""A module of the subset as VHDL-93, and a testbench that compares its ports in each cycle with the commands of a
march."""
from __future__ import annotations

import collections
import functools
import re
from typing import Iterator

from vidlakost_tools.text import beside, template
from vidlakost_tools.texts.march import Element
from vidlakost_tools.texts.memory import Memory
from vidlakost_tools.tool import ToolError
from vidlakost_tools.verilog.syntax import Always, Assign, Block, Case, Declared, Expression, If, Module, Set, Statement

RESERVED = set(
    (
        "abs access after alias all and architecture array assert attribute begin block body buffer bus case "
        "component configuration constant disconnect downto else elsif end entity exit file for function generate "
        "generic group guarded if impure in inertial inout is label library linkage literal loop map mod nand new "
        "next nor not null of on open or others out package port postponed procedure process pure range record "
        "register reject rem report return rol ror select severity shared signal sla sll sra srl subtype then to "
        "transport type unaffected units until use variable wait when while with xnor xor"
    ).split()
)
# what the architecture itself names
OWN = set("ieee std_logic std_logic_vector unsigned work rtl std truth is_known known choose same is_true".split())

FUNCTIONS = beside(__file__, "vhdl_text_functions.vhd")
OWN |= set(re.findall(r"function (\w+)\(", FUNCTIONS))
INFIX = {
    "&": "({} and {})",
    "|": "({} or {})",
    "^": "({} xor {})",
    "&&": "(any({}) and any({}))",
    "||": "(any({}) or any({}))",
    "==": "equal({}, {})",
    "!=": "(not equal({}, {}))",
    "<": "less({}, {})",
    ">=": "(not less({}, {}))",
    "+": "plus({}, {})",
    "-": "minus({}, {})",
    "<<": "shifted({}, {}, true)",
    ">>": "shifted({}, {}, false)",
}
PREFIX = {
    "~": "(not {})",
    "!": "(not any({}))",
    "&": "each({})",
    "|": "any({})",
    "^": "odd({})",
    "~&": "(not each({}))",
    "~|": "(not any({}))",
    "~^": "(not odd({}))",
    "^~": "(not odd({}))",
}


class Names:
    """The names of a module in VHDL: where one is none there, or differs from another in case alone, it stands between
    backslashes."""

    def __init__(self, names: list[str]):
        self.lower = collections.Counter(name.lower() for name in names)

    def of(self, name: str) -> str:
        """A name of a port or of the entity."""
        is_plain = re.fullmatch(r"[A-Za-z](_?[A-Za-z0-9])*", name)
        taken = name.lower() in RESERVED | OWN or self.lower[name.lower()] > 1
        return name if is_plain and not taken else f"\\{name}\\"

    def inner(self, name: str) -> str:
        """The signal inside the architecture."""
        is_plain = re.fullmatch(r"[A-Za-z](_?[A-Za-z0-9])*", name) and self.lower[name.lower()] == 1
        return f"v_{name}" if is_plain and f"v_{name}".lower() not in self.lower else f"\\v_{name}\\"


def expression(it: Expression, names: Names) -> str:
    """An expression; each is a vector, of one bit where Verilog has one."""
    parts = [expression(part, names) for part in it.operands]
    mark = it.token.text
    if it.kind == "literal":
        return f"unsigned'(\"{it.value:0{it.width}b}\")"
    if it.kind == "name":
        name = names.inner(mark)
        return name if it.bits is None else f"{name}({it.bits[0]} downto {it.bits[1]})"
    if it.kind == "choice":
        return f"choose({', '.join(parts)})"
    if it.kind == "join":
        return functools.reduce("join({}, {})".format, parts)
    if it.kind == "prefix":
        return PREFIX[mark].format(*parts)
    if mark in (">", "<="):
        turned = f"less({parts[1]}, {parts[0]})"
        return turned if mark == ">" else f"(not {turned})"
    if mark in ("~^", "^~"):
        return f"(not ({parts[0]} xor {parts[1]}))"
    return INFIX[mark].format(*parts)


def statement(it: Statement, names: Names, margin: str) -> list[str]:
    """A statement behind the edge of the clock."""
    if isinstance(it, Set):
        return [f"{margin}{names.inner(it.target.text)} <= {expression(it.value, names)};"]
    if isinstance(it, Block):
        return [line for part in it.parts for line in statement(part, names, margin)] or [f"{margin}null;"]
    if isinstance(it, If):
        lines = [f"{margin}if is_true({expression(it.condition, names)}) then"]
        lines += statement(it.then, names, margin + "  ")
        if it.otherwise is not None:
            lines += [f"{margin}else", *statement(it.otherwise, names, margin + "  ")]
        return [*lines, f"{margin}end if;"]
    return cases(it, names, margin)


def cases(it: Case, names: Names, margin: str) -> list[str]:
    """A case, as a row of comparisons; the default comes last."""
    subject, lines, word = expression(it.subject, names), [], "if"
    for labels, body in it.arms:
        if labels:
            tests = " or ".join(f"same({subject}, {expression(label, names)})" for label in labels)
            lines += [f"{margin}{word} {tests} then", *statement(body, names, margin + "  ")]
            word = "elsif"
    others = [body for labels, body in it.arms if not labels]
    if word == "if":
        return [line for body in others for line in statement(body, names, margin)] or [f"{margin}null;"]
    for body in others:
        lines += [f"{margin}else", *statement(body, names, margin + "  ")]
    return [*lines, f"{margin}end if;"]


def kind_of(port: Declared) -> str:
    return f"std_logic_vector({port.width - 1} downto 0)" if port.width > 1 else "std_logic"


def port_lines(module: Module, names: Names, margin: str) -> str:
    lines = [
        f"{margin}{names.of(port.token.text)} : {'in' if port.kind == 'input' else 'out'} {kind_of(port)}"
        for port in module.ports
    ]
    return ";\n".join(lines)


def linked(port: Declared, names: Names) -> str:
    """What leads from an input to its signal, or from a signal to its output."""
    outer, inner = names.of(port.token.text), names.inner(port.token.text)
    if port.kind == "input":
        return f"  {inner} <= unsigned({outer});" if port.width > 1 else f"  {inner}(0) <= {outer};"
    return f"  {outer} <= std_logic_vector({inner});" if port.width > 1 else f"  {outer} <= {inner}(0);"


def item(it: Declared | Assign | Always, names: Names) -> list[str]:
    """An item behind the declarations."""
    if isinstance(it, Assign):
        return [f"  {names.inner(it.target.text)} <= {expression(it.value, names)};"]
    if isinstance(it, Always):
        clock = names.of(it.clock.text)
        body = statement(it.body, names, "      ")
        head = [f"  process ({clock})", "  begin", f"    if rising_edge({clock}) then"]
        return [*head, *body, "    end if;", "  end process;"]
    return []


def all_names(module: Module) -> list[str]:
    declared = [it.token.text for it in module.items if isinstance(it, Declared)]
    return [*(port.token.text for port in module.ports), *declared]


def vhdl(module: Module) -> str:
    """The module as an entity and its architecture."""
    names = Names(all_names(module))
    entity = Names([]).of(module.name)
    signals = [*module.ports, *(it for it in module.items if isinstance(it, Declared))]
    declared = [f"  signal {names.inner(it.token.text)} : unsigned({it.width - 1} downto 0);" for it in signals]
    lines = [
        f"-- The module {module.name} of Verilog.",
        "library ieee;",
        "use ieee.std_logic_1164.all;",
        "use ieee.numeric_std.all;",
        "",
        f"entity {entity} is",
        "  port (",
        port_lines(module, names, "    "),
        "  );",
        f"end {entity};",
        "",
        f"architecture rtl of {entity} is",
        FUNCTIONS.rstrip("\n"),
        *declared,
        "begin",
        *(linked(port, names) for port in module.ports),
        *(line for it in module.items for line in item(it, names)),
        "end rtl;",
    ]
    return "\n".join(lines) + "\n"


# ---- the cycles of a test, as lines of bits


def rows(elements: list[Element], memory: Memory, commands: list[str]) -> Iterator[str]:
    """Of each cycle the ports en, we, addr, wdata, done and fail as they have to be, and the word on rdata; - is
    open."""
    width, bits = memory.width, memory.bits
    idle = f"0-{'-' * width}{'-' * bits}"
    issued = [idle]
    told = iter(commands)
    for _ in memory.backgrounds:
        for element in elements:
            for _ in range(memory.cycles_of(element)):
                if element.is_pause:
                    issued.append(idle)
                    continue
                kind, address, word = next(told).split()
                issued.append(f"1{int(kind == 'w')}{int(address):0{width}b}{int(word, 16):0{bits}b}")
    last = memory.cycles(elements) - 1
    for cycle in range(last + 1):
        asked = issued[cycle - memory.latency] if 0 < cycle - memory.latency < len(issued) else idle
        answer = asked[-bits:] if asked.startswith("10") else "-" * bits
        ports = issued[cycle] if cycle < len(issued) else idle
        if ports.startswith("10"):
            # the rule of the ports leaves wdata open in a read
            ports = ports[: 2 + width] + "-" * bits
        yield f"{ports}{int(cycle == last)}0{answer}"


BENCH = template(__file__, "vhdl_text_bench.vhd")


def vector_compare(name: str, width: int, first: int) -> str:
    """The comparison of a port whose highest bit is character `first` of a line."""
    if width == 1:
        return f'      compare({name}, {first}, "{name}");\n'
    each = f'        compare({name}(i), {first + width - 1} - i, "{name}");\n'
    return f"      for i in 0 to {width - 1} loop\n{each}      end loop;\n"


def bench(module: Module, elements: list[Element], memory: Memory) -> str:
    """The testbench of a self-test module."""
    wanted = ["clk", "reset", "rdata", "en", "we", "addr", "wdata", "done", "fail"]
    if sorted(port.token.text for port in module.ports) != sorted(wanted):
        raise ToolError(f"{module.name} does not have the ports of a self-test, so it gets no testbench")
    widths = {port.token.text: port.width for port in module.ports}
    if (widths["addr"], widths["rdata"], widths["wdata"]) != (memory.width, memory.bits, memory.bits):
        raise ToolError(f"the ports of {module.name} are not as wide as those of {memory.name}")
    done = 3 + memory.width + memory.bits
    answer = done + 2
    bit = (
        "      if wanted({at}) = '1' then {to} <= '1'; elsif wanted({at}) = '0' then {to} <= '0';\n"
        "      else {to} <= 'X'; end if;\n"
    )
    wide = memory.bits > 1
    drive = "".join(
        bit.format(at=answer + memory.bits - 1 - number, to=f"rdata({number})" if wide else "rdata")
        for number in range(memory.bits)
    )
    lowest = answer + memory.bits - 1
    low = "rdata(0)" if wide else "rdata"
    names = Names(all_names(module))
    flip = f"        if wanted({lowest}) = '1' then {low} <= '0'; else {low} <= '1'; end if;\n"
    text = BENCH.substitute(
        name=module.name,
        file=f"{module.name}_cycles.txt",
        bench=Names([]).of(f"{module.name}_tb"),
        entity=Names([]).of(module.name),
        ports=port_lines(module, names, "      "),
        word=f"std_logic_vector({memory.bits - 1} downto 0)" if wide else "std_logic",
        address=f"std_logic_vector({memory.width - 1} downto 0)" if memory.width > 1 else "std_logic",
        length=lowest,
        drive=drive,
        lowest=lowest,
        low=low,
        low_wanted="PLANT",
        compares=vector_compare("addr", memory.width, 3) + vector_compare("wdata", memory.bits, 3 + memory.width),
        done=done,
        fail=done + 1,
        cycles=memory.cycles(elements),
    )
    return text.replace(f"        {low} <= not PLANT;\n", flip)
