"""A module of the subset as gates with three values (1, 0, open), each in many lanes at once: a signal is two long
numbers, the lanes in which it is 1 and those in which it is 0."""
from __future__ import annotations

from typing import Any, Callable, Sequence

from vidlakost_tools.temporary import folder_of_its_own
from vidlakost_tools.tool import ToolError
from vidlakost_tools.verilog import yosys
from vidlakost_tools.verilog.front_end import OPEN_X, SIMPLER, Plain

BINARY = {"$_AND_": "and", "$_OR_": "or", "$_XOR_": "xor", "$_NAND_": "nand", "$_NOR_": "nor", "$_XNOR_": "xnor"}


def gates_of(plain: Plain) -> dict[str, Any]:
    """The module as gates, made by Yosys of the text that `check` reads."""
    with folder_of_its_own() as folder:
        source, out = folder / "plain.v", folder / "gates.json"
        source.write_text(plain.text())
        yosys.run(
            (
                f"read_verilog {yosys.quoted(source)}\nhierarchy -auto-top\nproc -noopt"
                f" -norom\n{yosys.OPEN}{OPEN_X}{SIMPLER}techmap\n{SIMPLER}{OPEN_X}write_json {yosys.quoted(out)}\n"
            ),
            folder,
            "-q",
        )
        return yosys.top_module(out)[1]


class Machine:
    """The gates on which some ports hang, as a function of their registers and inputs."""

    def __init__(self, module: dict[str, Any], ports_wanted: tuple[str, ...]):
        self.module = module
        ports = module["ports"]
        self.words = ports["rdata"]["bits"]
        self.inputs = [*self.words, ports["reset"]["bits"][0]]
        self.driver = {
            bit: cell
            for cell in module["cells"].values()
            for pin, found in cell["connections"].items()
            if pin in ("Y", "Q")
            for bit in found
        }
        self.results = [bit for port in ports_wanted for bit in ports[port]["bits"]]
        self.order, self.registers = self.cone()
        self.step = self.compiled(self.results)

    def operands(self, cell: dict[str, Any]) -> list[Any]:
        return [bits[0] for pin, bits in cell["connections"].items() if pin not in ("Y", "Q", "C")]

    def is_register(self, cell: dict[str, Any]) -> bool:
        return bool(cell["type"] == "$_DFF_P_")

    def after(self, register: Any) -> Any:
        """The bit that a register becomes."""
        return self.driver[register]["connections"]["D"][0]

    def cone(self) -> tuple[list[Any], list[Any]]:
        """The gates' outputs, each behind its operands, and the registers, on which the ports hang in any cycle."""
        registers, order, done = [], [], set()
        roots = list(self.results)
        while roots:
            todo = [(roots.pop(), False)]
            while todo:
                bit, is_ready = todo.pop()
                cell = self.driver.get(bit)
                if cell is None or bit in done and not is_ready:
                    continue
                if is_ready:
                    order.append(bit)
                    continue
                done.add(bit)
                if self.is_register(cell):
                    registers.append(bit)
                    roots.append(cell["connections"]["D"][0])
                elif cell["type"] != "$anyseq":
                    todo.append((bit, True))
                    todo += [(operand, False) for operand in self.operands(cell)]
        return order, registers

    def pair(self, bit: object) -> tuple[str, str]:
        """In which lanes a bit is 1 and in which it is 0, as names of the function that is made."""
        if bit in ("0", "1"):
            return ("full", "0") if bit == "1" else ("0", "full")
        known = bit in self.known
        return (f"a{bit}", f"b{bit}") if known else ("0", "0")

    def gate(self, cell: dict[str, Any]) -> tuple[str, str]:
        kind, pins = cell["type"], cell["connections"]
        a1, a0 = self.pair(pins["A"][0])
        if kind in ("$_NOT_", "$_BUF_"):
            return (a0, a1) if kind == "$_NOT_" else (a1, a0)
        b1, b0 = self.pair(pins["B"][0])
        if kind == "$_MUX_":
            s1, s0 = self.pair(pins["S"][0])
            return f"{s1}&{b1}|{s0}&{a1}|{a1}&{b1}", f"{s1}&{b0}|{s0}&{a0}|{a0}&{b0}"
        if kind not in BINARY:
            raise ToolError(f"a cell {kind} has no lanes", 1)
        one, zero = {
            "and": (f"{a1}&{b1}", f"{a0}|{b0}"),
            "or": (f"{a1}|{b1}", f"{a0}&{b0}"),
            "xor": (f"{a1}&{b0}|{a0}&{b1}", f"{a1}&{b1}|{a0}&{b0}"),
        }[BINARY[kind].replace("xn", "x").replace("nand", "and").replace("nor", "or")]
        return (zero, one) if BINARY[kind] in ("nand", "nor", "xnor") else (one, zero)

    def names(self) -> dict[object, tuple[str, int, int]]:
        """Of each bit of a port or of a register its name and its place in it."""
        found: dict[object, tuple[str, int, int]] = {}
        for name, net in self.module["netnames"].items():
            if not net["hide_name"]:
                found.update({bit: (name, index, len(net["bits"])) for index, bit in enumerate(net["bits"])})
        for name, said in self.module["ports"].items():
            if said["direction"] == "input":
                found.update({bit: (name, index, len(said["bits"])) for index, bit in enumerate(said["bits"])})
        return found

    def compiled(self, results: list[Any], split: Sequence[Any] = ()) -> Callable[..., Any]:
        """A function of the registers, the inputs and all lanes to the registers behind the edge and the results. Of
        each bit that is split it takes two more masks, the lanes in which it is 1 and those in which it is 0 where it
        is open, and answers the lanes in which it is open even so."""
        self.known = {*self.order, *self.registers, *self.inputs, *split}
        lines = ["def step(state, inputs, full, force=()):"]
        for bits, name in ((self.registers, "state"), (self.inputs, "inputs")):
            if bits:
                lines.append(f"  ({''.join(f'(a{bit}, b{bit}), ' for bit in bits)}) = {name}")
        order = set(self.order)
        free = [bit for bit in split if bit not in order]
        lines += [f"  a{bit} = b{bit} = 0" for bit in free if bit not in {*self.registers, *self.inputs}]
        lines += [line for bit in free for line in forced(bit, split.index(bit))]
        for bit in self.order:
            one, zero = self.gate(self.driver[bit])
            lines.append(f"  a{bit} = {one}; b{bit} = {zero}")
            lines += forced(bit, split.index(bit)) if bit in split else []
        after = [self.pair(self.driver[bit]["connections"]["D"][0]) for bit in self.registers]
        told = [
            "[" + "".join(f"({one}, {zero}), " for one, zero in pairs) + "]"
            for pairs in (after, map(self.pair, results))
        ]
        opens = "[" + "".join(f"u{bit}, " for bit in split) + "]"
        lines.append(f"  return {told[0]}, {told[1]}" + (f", {opens}" if split else ""))
        return made_of(lines)


    def function(self, inputs: Sequence[Any], results: Sequence[Any]) -> tuple[Callable[..., Any], int]:
        """A function of the pairs of some bits to those of others, in which nothing else is known and a 1 in each lane
        is -1; and how many gates it has."""
        needed, todo, cut = set(), list(results), set(inputs)
        while todo:
            bit = todo.pop()
            cell = self.driver.get(bit)
            if cell is None or bit in needed or bit in cut or self.is_register(cell) or cell["type"] == "$anyseq":
                continue
            needed.add(bit)
            todo += self.operands(cell)
        self.known = {*inputs, *needed}
        lines = ["def function(pairs, full=-1):"]
        lines += [f"  ({''.join(f'(a{bit}, b{bit}), ' for bit in inputs)}) = pairs"] if inputs else []
        for bit in (bit for bit in self.order if bit in needed):
            one, zero = self.gate(self.driver[bit])
            lines.append(f"  a{bit} = {one}; b{bit} = {zero}")
        told = "".join(f"({one}, {zero}), " for one, zero in map(self.pair, results))
        return made_of([*lines, f"  return ({told})"]), len(needed)


def made_of(lines: list[str]) -> Callable[..., Any]:
    """The function of these lines, which have names and marks alone, made from numbers of bits."""
    made: dict[str, Any] = {}
    exec("\n".join(lines), made)
    (function,) = (one for name, one in made.items() if not name.startswith("__"))
    found: Callable[..., Any] = function
    return found


def forced(bit: object, place: int) -> list[str]:
    """The lines by which a bit that is open becomes what the masks at a place say."""
    return [
        (
            f"  u{bit} = full & ~(a{bit} | b{bit}); a{bit} |= u{bit} & force[{place}][0]; b{bit} |= u{bit} &"
            f" force[{place}][1]"
        ),
        f"  u{bit} &= ~(a{bit} | b{bit})",
    ]
