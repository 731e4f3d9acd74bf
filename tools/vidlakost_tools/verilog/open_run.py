"""A plain model of `check`, by the definitions: one run of a controller in which every register of the first cycle and
every word that returns is left open, and the first port in it that is not as the rule of the ports wants it. It judges
the program: it shares nothing with it, and of the tools only the readers of a march, a memory and a module, whose
meaning is told here alone. It takes modules that the program accepts; a number that is left open is None."""
from __future__ import annotations

import dataclasses
import itertools
from typing import Callable, Dict, Iterable, Iterator, List, Mapping, Optional, Tuple

from vidlakost_tools.text import Path, read_described, read_text
from vidlakost_tools.texts.march import Element, elements_of
from vidlakost_tools.texts.memory import Memory, parse_memory
from vidlakost_tools.tool import ToolError
from vidlakost_tools.verilog.syntax import (
    Assign,
    Block,
    Case,
    Declared,
    Expression,
    If,
    Item,
    Reader,
    Set,
    Statement,
    Unread,
)

# the ports that have a number or none in each cycle; `fail` is not looked at
PORTS = ("en", "we", "addr", "wdata", "done")
# the number of each name in a cycle, None where it is left open; what an expression is for them, and what a statement
# sets
Numbers = Mapping[str, Optional[int]]
Number = Callable[[Numbers], Optional[int]]
Sets = Callable[[Numbers], List[Tuple[str, Optional[int]]]]
# whether a command writes, its address and its word
Command = Tuple[bool, int, int]


@dataclasses.dataclass
class Value:
    """An expression: its width, and what it is for the numbers of names."""

    width: int
    of: Number


@dataclasses.dataclass
class Run:
    """A module to be run: the width of each name, the inputs, the registers, an expression for each wire and plain
    output, with the names that it reads, and the statements of all blocks in their order, as functions of the numbers
    of names."""

    widths: dict[str, int] = dataclasses.field(default_factory=dict)
    inputs: list[str] = dataclasses.field(default_factory=list)
    registers: list[str] = dataclasses.field(default_factory=list)
    assigns: dict[str, Value] = dataclasses.field(default_factory=dict)
    reads: dict[str, set[str]] = dataclasses.field(default_factory=dict)
    blocks: list[Sets] = dataclasses.field(default_factory=list)

    def declare(self, declared: Declared) -> None:
        self.widths[declared.token.text] = declared.width
        if declared.kind in ("input", "reg"):
            (self.inputs if declared.kind == "input" else self.registers).append(declared.token.text)

    def take(self, item: Item) -> None:
        if isinstance(item, Declared):
            self.declare(item)
        elif isinstance(item, Assign):
            self.assigns[item.target.text] = self.value(item.value)
            self.reads[item.target.text] = set(names_in(item.value))
        else:
            self.blocks.append(self.sets(item.body)[0])

    # statements: what they set, and the names that they may set

    def sets(self, statement: Statement | None) -> tuple[Sets, set[str]]:
        if statement is None:
            return (lambda env: []), set()
        if isinstance(statement, Set):
            name, value = statement.target.text, self.value(statement.value).of
            return (lambda env: [(name, value(env))]), {name}
        if isinstance(statement, Block):
            parts = [self.sets(part) for part in statement.parts]
            return (lambda env: [pair for part, _ in parts for pair in part(env)]), set().union(
                *(names for _, names in parts)
            )
        if isinstance(statement, If):
            return self.choice_of_statements(statement)
        return self.cases(statement)

    def choice_of_statements(self, statement: If) -> tuple[Sets, set[str]]:
        condition = self.value(statement.condition).of
        (first, names), (other, others) = self.sets(statement.then), self.sets(statement.otherwise)
        may = names | others

        def sets(env: Numbers) -> list[tuple[str, int | None]]:
            taken = condition(env)
            if taken is None:
                return [(name, None) for name in may]
            return first(env) if taken else other(env)

        return sets, may

    def cases(self, statement: Case) -> tuple[Sets, set[str]]:
        subject = self.value(statement.subject).of
        arms = [({label.value for label in labels}, *self.sets(body)) for labels, body in statement.arms]
        may = set().union(*(names for _, _, names in arms))
        default = next((body for labels, body, _ in arms if not labels), self.sets(None)[0])

        def sets(env: Numbers) -> list[tuple[str, int | None]]:
            number = subject(env)
            if number is None:
                return [(name, None) for name in may]
            return next((body for labels, body, _ in arms if number in labels), default)(env)

        return sets, may

    # expressions

    def value(self, it: Expression) -> Value:
        if it.kind == "literal":
            return Value(it.width, lambda env: it.value)
        if it.kind == "name":
            return self.named(it)
        operands = [self.value(operand) for operand in it.operands]
        if it.kind == "prefix":
            return prefix(it.token.text, *operands)
        if it.kind == "infix":
            return infix(it.token.text, *operands)
        return choice(*operands) if it.kind == "choice" else concatenation(operands)

    def named(self, it: Expression) -> Value:
        name = it.token.text
        if name not in self.widths:
            raise Unread(f"'{name}' is not declared", it.token.at)
        if it.bits is None:
            return Value(self.widths[name], lambda env: env[name])
        high, low = it.bits
        kept = (1 << high + 1 - low) - 1

        def value(env: Numbers) -> int | None:
            number = env[name]
            return None if number is None else number >> low & kept

        return Value(high + 1 - low, value)


def names_in(it: Expression) -> Iterator[str]:
    """The names that an expression reads."""
    if it.kind == "name":
        yield it.token.text
    for operand in it.operands:
        yield from names_in(operand)


# ---- what expressions are, where some numbers are left open


def prefix(mark: str, x: Value) -> Value:
    ones = (1 << x.width) - 1
    of: Callable[[int], int] = {
        "~": lambda a: ones - a,
        "!": lambda a: int(a == 0),
        "&": lambda a: int(a == ones),
        "|": lambda a: int(a != 0),
        "^": lambda a: bin(a).count("1") % 2,
    }[mark]

    def value(env: Numbers) -> int | None:
        a = x.of(env)
        return None if a is None else of(a)

    return Value(x.width if mark == "~" else 1, value)


def infix(mark: str, x: Value, y: Value) -> Value:
    width, ones = x.width, (1 << x.width) - 1
    of: Callable[[int, int], int]
    of, result = {
        "+": (lambda a, b: a + b & ones, width),
        "-": (lambda a, b: a - b & ones, width),
        "&": (lambda a, b: a & b, width),
        "|": (lambda a, b: a | b, width),
        "^": (lambda a, b: a ^ b, width),
        "<<": (lambda a, b: a << b & ones if b < width else 0, width),
        ">>": (lambda a, b: a >> b if b < width else 0, width),
        "==": (lambda a, b: int(a == b), 1),
        "!=": (lambda a, b: int(a != b), 1),
        "<": (lambda a, b: int(a < b), 1),
        "<=": (lambda a, b: int(a <= b), 1),
        ">": (lambda a, b: int(a > b), 1),
        ">=": (lambda a, b: int(a >= b), 1),
        "&&": (lambda a, b: int(a != 0 and b != 0), 1),
        "||": (lambda a, b: int(a != 0 or b != 0), 1),
    }[mark]

    def alone(a: int) -> int | None:
        """What one operand gives, whatever the other is."""
        if mark in ("&", "&&") and a == 0:
            return 0
        if mark == "||" and a != 0:
            return 1
        return ones if mark == "|" and a == ones else None

    def value(env: Numbers) -> int | None:
        a, b = x.of(env), y.of(env)
        if a is None or b is None:
            known = b if a is None else a
            return None if known is None else alone(known)
        return of(a, b)

    return Value(result, value)


def choice(condition: Value, x: Value, y: Value) -> Value:
    def value(env: Numbers) -> int | None:
        taken = condition.of(env)
        if taken is None:
            a = x.of(env)
            return a if a == y.of(env) else None
        return x.of(env) if taken else y.of(env)

    return Value(x.width, value)


def concatenation(parts: list[Value]) -> Value:
    def value(env: Numbers) -> int | None:
        number = 0
        for part in parts:
            a = part.of(env)
            if a is None:
                return None
            number = number << part.width | a
        return number

    return Value(sum(part.width for part in parts), value)


# ---- the run


def order_of(module: Run) -> list[str]:
    """The wires and plain outputs, each behind those that it reads."""
    order: dict[str, bool] = {}
    for name in module.assigns:
        # a way through the wires may be longer than calls can be nested
        todo = [(name, False)]
        while todo:
            here, is_ready = todo.pop()
            if is_ready:
                del order[here]
                order[here] = True
            elif here in module.assigns and not order.get(here):
                if here in order:
                    raise ToolError(f"'{here}' stands in a loop of wires")
                order[here] = False
                todo += [(here, True), *((read, False) for read in sorted(module.reads[here], reverse=True))]
    return list(order)


def clocked(module: Run, first: Numbers, inputs: Iterable[Numbers]) -> Iterator[Dict[str, Optional[int]]]:
    """Of each cycle the numbers of all names, from what the registers hold at first, with what comes in in each
    cycle."""
    order = order_of(module)
    registers: Dict[str, Optional[int]] = dict(first)
    for given in inputs:
        env: Dict[str, Optional[int]] = {**{name: None for name in module.inputs}, **registers, **given}
        for name in order:
            env[name] = module.assigns[name].of(env)
        yield env
        registers = {name: env[name] for name in registers}
        for sets in module.blocks:
            registers.update(sets(env))


def cycles_of(module: Run) -> Iterator[Dict[str, Optional[int]]]:
    """Of each cycle the numbers of all names, `reset` being 1 in the first alone, and all else that comes in open."""
    first: Numbers = {name: None for name in module.registers}
    return clocked(module, first, itertools.chain([{"reset": 1}], itertools.repeat({"reset": 0})))


# ---- what the ports have to be


def commands_of(elements: list[Element], memory: Memory) -> Iterator[Optional[Command]]:
    """Of each cycle behind the reset, to the last of the march, its command: whether it writes, address and word; None
    in a pause."""
    ones = (1 << memory.bits) - 1
    addresses = [memory.address_of(index) for index in range(memory.words)]
    for background in memory.backgrounds:
        for element in elements:
            if element.is_pause:
                yield from [None] * memory.pause
                continue
            for address in reversed(addresses) if element.order == "down" else addresses:
                for operation in element.operations:
                    word = background if operation[1] == "0" else ones ^ background
                    yield operation[0] == "w", address, word ^ memory.polarity


def compared(command: Optional[Command], done: bool) -> list[tuple[str, int]]:
    """The ports that are compared in a cycle, in their order, with what they have to be."""
    ports = [("en", int(command is not None))]
    if command is not None:
        writes, address, word = command
        ports += [("we", int(writes)), ("addr", address)] + ([("wdata", word)] if writes else [])
    return [*ports, ("done", int(done))]


def line_of(module: Run, elements: list[Element], memory: Memory) -> str:
    """What `check` says of a module."""
    commands = [None, *commands_of(elements, memory), *[None] * (memory.latency + 1)]
    last = len(commands) - 1
    for cycle, (command, env) in enumerate(zip(commands, cycles_of(module))):
        for port, expected in compared(command, cycle == last):
            if env[port] is None:
                return f"unknown cycle {cycle} port {port}"
            if env[port] != expected:
                return f"differs cycle {cycle} port {port} expected {expected} got {env[port]}"
    return f"conforms {len(commands)}"


def read_module(path: Path) -> Run:
    """The module of a file that the program accepts."""
    run = read_module_of_any(path)
    missing = [port for port in ("reset", "rdata", *PORTS) if port not in run.widths]
    if missing:
        raise ToolError(f"{path} has no port '{missing[0]}'")
    return run


def read_module_of_any(path: Path) -> Run:
    """A module of the subset with any ports."""
    text, run = read_described(path), Run()
    try:
        module = Reader(text).module()
        for declared in module.ports:
            run.declare(declared)
        for item in module.items:
            run.take(item)
    except (Unread, KeyError) as error:
        line = text.count("\n", 0, getattr(error, "at", len(text))) + 1
        raise ToolError(f"{path}:{line}: this is not a module of the subset: {error}") from error
    return run


def told(verilog: Path, march: Path, memory: Path) -> str:
    """The line of `check VERILOG MARCH MEMORY`, by this model."""
    elements, described = elements_of(read_text(march)), parse_memory(read_described(memory))
    return line_of(read_module(verilog), elements, described)
