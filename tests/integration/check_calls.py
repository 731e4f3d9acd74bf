"""Calls of the command `check`, and what the launcher says of each."""
from __future__ import annotations

from typing import List

from tests.integration.call import Call

CHECKS: List[Call] = [
    Call(
        "./vidlakost check examples/foreign/one_hot.v examples/mats_plus.m examples/foreign/four.mem",
        prints="conforms 43",
    ),
    Call(
        "./vidlakost check examples/foreign/not_reset.v examples/c.m examples/foreign/six.mem",
        status=1,
        prints="unknown cycle 2 port wdata",
    ),
    Call(
        "./vidlakost check blank.v c.m s.mem", status=14, prints="verilog L2", says="blank.v: error: the file is empty"
    ),
    Call(
        "./vidlakost check token.v c.m s.mem",
        status=14,
        prints="verilog L1",
        says="token.v:2:3: error: 'wir' is not allowed here; did you mean 'wire'?",
    ),
    Call(
        "./vidlakost check operand.v c.m s.mem",
        status=14,
        prints="verilog L1",
        says="operand.v:2:21: error: 'reset' is not allowed here",
    ),
    Call(
        "./vidlakost check operators.v c.m s.mem",
        status=14,
        prints="verilog L3",
        says="operators.v:2:2069: error: this is the 257th operator",
    ),
    Call(
        "./vidlakost check loop.v c.m s.mem",
        status=14,
        prints="verilog N7 x y",
        says="loop.v:4:10: error: these wires form a loop",
    ),
    Call(
        "./vidlakost check port.v c.m s.mem",
        status=14,
        prints="verilog B2 rdata",
        says="port.v:1:46: error: 'rdata' has 4 bits here",
    ),
    Call(
        "./vidlakost check port.v c.m huge.mem",
        status=12,
        prints="too long 4587523",
        says="huge.mem: error: the test takes 4,587,523 cycles",
    ),
    Call("./vidlakost check port.v wrong.m huge.mem", status=3, prints="march M8", says="wrong.m:2:5: error: "),
    Call(
        "./vidlakost check missing.v c.m s.mem",
        status=10,
        prints="absent 1",
        says="missing.v: error: there is no such file",
    ),
    Call(
        "./vidlakost check port.v c.m",
        status=2,
        prints="usage",
        says="vidlakost: error: check takes 3 words, but the call has 2: MEMORY is missing",
    ),
]
