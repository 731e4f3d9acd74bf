"""Calls on files that were made to lead a tool astray."""
from __future__ import annotations

from typing import List

from tests.integration.call import Call
from tests.integration.files import FILES, REPORT

LOOSE = "memory 1\nname s # was\rname {name}\nwords 4 # was\rwords 8\nbits 1\n"
LONG = REPORT.replace("content 00", "content " + "01" * 4000)

FILES.update(
    {
        # what stands behind a lone carriage return is the comment's
        "loose.mem": LOOSE.format(name="other"),
        "path.mem": LOOSE.format(name="../../outside"),
        "task.mem": LOOSE.format(name="$system"),
        "loose.chip": "chip 1\nname both # was\rname ../other\nbudget 3 # was\rbudget 1\nunit 2 c.m loose.mem\n",
        "loose.pins": "macro ram # was\rmacro ../ram\nclk ck\nwrite we\naddr a\nwdata d\nrdata q\n",
        "named.pins": "macro ../ram\nclk ck\nwrite we\naddr a\nwdata d\nrdata q\n",
        "tied.pins": 'macro ram\nclk ck\nwrite we\naddr a\nwdata d\nrdata q\ntie t 1\'b0);initial$system("x");//\n',
        "latin.mem": "memory 1 # \udce9\nname s\nwords 4\nbits 1\n",
        # a report that nobody's program wrote
        "bell.report": REPORT.replace(" TF\nescape", " \x1b[2J\nescape"),
        "mark.report": REPORT.replace("TF 2", "<script>alert(1)</script> 2"),
        "shape.report": REPORT.replace(
            "\ncovered", "\nmemory <b>x words 4 bits 1 backgrounds 1 commands 40\ncovered", 1
        ),
        "long.report": LONG,
        "quoted\nname.v": FILES["free.v"],
        "many.report": REPORT.replace("covered <0w1/0/-> TF\n", "covered <0w1/0/-> TF\n" * 1100),
        "sum.report": REPORT.replace("total 2", "total " + "9" * 5000),
    }
)

RIGHT = "examples/foreign/one_hot.v examples/mats_plus.m examples/foreign/four.mem"
CALLS: List[Call] = [
    Call("tools/summary c.m loose.mem", prints="\ns           4 "),
    Call("tools/summary c.m latin.mem", prints="\ns           4 "),
    Call("tools/testbench c.m path.mem harm", prints="harm/s_tb.v\n"),
    Call("tools/testbench c.m task.mem harm", prints="harm/s_tb.v\n"),
    Call("tools/schedule loose.chip", prints="   0  s            2      0       0      42\ngroups 1 done 42\n"),
    Call("tools/testbench loose.chip harm --chip", prints="harm/both_tb.v\n"),
    Call("tools/collar s.mem --macro loose.pins harm", prints="harm/ram.v\n", says="collar: not tested: we: whether"),
    Call("tools/collar s.mem --macro named.pins harm", status=2, says="collar: named.pins:1: the name of a pin"),
    Call("tools/collar s.mem --macro tied.pins harm", status=2, says="collar: tied.pins:7: an input is tied to"),
    Call(
        f"tools/audit {RIGHT} --vcd 'latin\udce9.vcd'",
        status=2,
        prints="fail is exact",
        says="audit: a name that is not UTF-8 would be",
        needs="yosys",
    ),
    Call("tools/trace bell.report", status=2, says="trace: bell.report:2: a report has no such line"),
    Call("tools/replay bell.report", status=2, says="replay: bell.report:2: a report has no such line"),
    Call("tools/report mark.report --html m.html", status=2, says="report: mark.report:4: a report has no such line"),
    Call("tools/report shape.report --html m.html", status=2, says="report: shape.report:2: a report has no such line"),
    Call("tools/report long.report --html m.html", status=2, says="report: long.report:3: a report has no such line"),
    Call("tools/trace many.report", status=2, says="trace: many.report:1026: this is the 1,025th primitive"),
    Call("tools/report sum.report --json", status=2, says="report: sum.report:5: the last line is no total"),
    Call(
        "tools/plain plain.v free.v --top 't; shell touch harmed'",
        status=2,
        says="plain: what --top names is",
        needs="yosys",
    ),
    Call("tools/plain plain.v 'a\"; shell touch harmed; \".v'", status=2, says='plain: a"; shell', needs="yosys"),
    Call(
        "tools/plain plain.v 'quoted\nname.v'",
        status=2,
        says="plain: 'quoted\\x0aname.v': a name for Yosys may have",
        needs="yosys",
    ),
    Call(
        "tools/plain plain.v latch.v",
        status=1,
        says="plain: q, latch.v:2: a latch is outside the subset",
        needs="yosys",
    ),
    Call(
        "tools/formal free.v no.v c.m s.mem",
        status=1,
        says="formal: yosys refuses it: no.v:1: ERROR: syntax error",
        needs="yosys",
    ),
]


# ---- controllers that must not pass: edits of one_hot.v, which conforms, each with what they make of it
