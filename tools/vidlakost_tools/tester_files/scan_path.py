"""The bits that are in the path of an instruction by ICL, between TDI and TDO."""
from __future__ import annotations

from typing import Iterator, List, Mapping, Sequence, Tuple

from vidlakost_tools.tester_files.icl import Module, Signal
from vidlakost_tools.tool import ToolError

# the place of a module: the names of the instances that lead to it
Where = Tuple[str, ...]
# a bit of a register of a module at some place
Bit = Tuple[Where, str, int]


def module_at(modules: Mapping[str, Module], top: str, where: Where) -> Module:
    """The module at the end of a path of instances."""
    module = modules[top]
    for name in where:
        module = modules[module.instances[name][0]]
    return module


def path(modules: Mapping[str, Module], top: str, link: str, state: Mapping[Bit, int]) -> list[Bit]:
    """The bits between TDI and TDO under an instruction, the one next to TDO first; `state` has what each bit holds."""
    found: list[Bit] = []
    of, end = modules[top].links[link]
    inner = modules[modules[top].instances[of][0]]
    outs = [name for name in inner.interfaces[end] if inner.ports[name].kind == "ScanOutPort"]
    if len(outs) != 1:
        raise ToolError(f"ICL: {of}.{end} does not have exactly one scan output")
    where: Where = (of,)
    at: Signal | None = Signal("", outs[0])
    steps = 0
    while at is not None:
        steps += 1
        if steps > 10000:
            raise ToolError(f"ICL: the path of {link} has no end")
        where, at = before(modules, top, where, at, state, found)
    if len(set(found)) != len(found):
        raise ToolError(f"ICL: a bit is twice in the path of {link}")
    return found


def before(
    modules: Mapping[str, Module], top: str, where: Where, at: Signal, state: Mapping[Bit, int], found: List[Bit]
) -> Tuple[Where, Signal | None]:
    """What comes before a signal in the path; it adds the bits of a register to those found so far."""
    module = module_at(modules, top, where)
    if at.instance:
        return (*where, at.instance), Signal("", at.name)
    if at.name in module.registers:
        one = module.registers[at.name]
        found.extend((where, at.name, bit) for bit in range(one.width))
        return where, one.source
    if at.name in module.muxes:
        choice = module.muxes[at.name]
        return where, choice.ways[value_of(where, module, choice.selected_by, state)]
    if module.ports[at.name].kind == "ScanOutPort":
        return where, module.ports[at.name].source[0]
    links = module_at(modules, top, where[:-1]).instances[where[-1]][1]
    return where[:-1], links.get(at.name)


def value_of(where: Where, module: Module, signal: Signal, state: Mapping[Bit, int]) -> int:
    """What some bits of a register hold."""
    first, last = signal.bits or (module.registers[signal.name].width - 1, 0)
    return sum(state[(where, signal.name, bit)] << bit - last for bit in range(last, first + 1))


def every(modules: Mapping[str, Module], top: str, where: Where = ()) -> Iterator[Tuple[Where, Module]]:
    """Each module inside another, with its place."""
    module = module_at(modules, top, where)
    yield where, module
    for name in module.instances:
        yield from every(modules, top, (*where, name))


def bits_of(where: Where, module: Module, name: str) -> Sequence[Bit]:
    """The bits of a register or of an alias, the lowest first."""
    if name in module.registers:
        return [(where, name, bit) for bit in range(module.registers[name].width)]
    if name not in module.aliases:
        raise ToolError(f"ICL: {module.name} has no register {name}")
    found: list[Bit] = []
    for part in reversed(module.aliases[name][1]):
        first, last = part.bits or (module.registers[part.name].width - 1, 0)
        found.extend((where, part.name, bit) for bit in range(last, first + 1))
    return found
