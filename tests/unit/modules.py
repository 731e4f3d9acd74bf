"""Modules as Yosys writes them in JSON, for tests."""
from __future__ import annotations

from typing import Any

from vidlakost_tools.verilog.front_end import Plain
from vidlakost_tools.verilog.named_bits import Drive
from vidlakost_tools.verilog.yosys_operators import Writer


def port(way: str, *bits: int) -> dict[str, Any]:
    return {"direction": way, "bits": list(bits)}


def net(*bits: int) -> dict[str, Any]:
    return {"hide_name": 0, "bits": list(bits), "attributes": {}}


def cell(kind: str, parameters: dict[str, Any] | None = None, **pins: list[Any]) -> dict[str, Any]:
    return {"type": kind, "parameters": parameters or {}, "attributes": {}, "connections": pins}


def module(cells: dict[str, Any], **ports: dict[str, Any]) -> dict[str, Any]:
    return {"ports": ports, "cells": cells, "netnames": {name: net(*said["bits"]) for name, said in ports.items()}}


def value_of(kind: str, width: int, parameters: dict[str, Any] | None = None, **pins: list[Any]) -> str:
    """The expression of one cell whose operands are the bits of the inputs a (2 to 5) and b (6 to 9)."""
    made = cell(kind, parameters, Y=list(range(20, 20 + width)), **pins)
    writer = Writer(module({"one": made}, a=port("input", 2, 3, 4, 5), b=port("input", 6, 7, 8, 9)), None, None)
    return writer.cells()[0][0].value


A, B = [2, 3, 4, 5], [6, 7, 8, 9]


def remembers() -> Plain:
    """A module whose `fail` is what it remembers of bit 0 on `rdata`, but for what nothing drives."""
    others = ("en", "we", "addr", "wdata", "done")
    ports = [
        ("input", "clk", 1),
        ("input", "reset", 1),
        ("input", "rdata", 2),
        *(("output", port, 1) for port in (*others, "fail")),
    ]
    outputs = [*(Drive(port, 1, "1'b0", [[]]) for port in others), Drive("fail", 1, "(bad ^ lost)", [["bad", "lost"]])]
    bad = Drive("bad", 1, "(rdata[0] & (~reset))", [["rdata", "reset"]])
    return Plain("m", ports, [], outputs, [bad], ["lost"], {}, "clk")
