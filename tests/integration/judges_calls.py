"""Calls of the judges of foreign controllers on the files of `judges`."""
from __future__ import annotations

from typing import List

from tests.integration.call import Call
from tests.integration.judges import (
    CELLS,
    COMPILE,
    EXACT,
    IDLE,
    SEEN,
    STYLES,
    TEST,
    WRONG_WORD,
    for_ice40,
    in_shell,
    netlist,
)

FORMAL = "formal: right as Yosys reads it, not simulated\n"


def audited(name: str, status: int = 0, prints: str = "", says: str = "", options: str = "") -> Call:
    return Call(f"tools/audit {name} {TEST} --no-simulate {options}", status, prints, says, "yosys")


def clocked(name: str, status: int = 0, prints: str = "", says: str = "") -> Call:
    """Beside Icarus too."""
    return Call(f"tools/audit {name} {TEST}", status, prints, says, "yosys iverilog")


CALLS: List[Call] = [
    audited("rows_apart.v", prints=EXACT),
    audited("rows_of_one_word.v", prints=EXACT),
    audited(
        "rows_meet.v",
        status=1,
        prints="  wdata hangs on rows_that_overlap (rows_meet.v:45): more than one holds, and a tool may take any",
    ),
    audited("comment_apart.v", prints=EXACT, says="audit: Warning: Encountered `"),
    audited(
        "comment_meet.v",
        status=1,
        prints="  wdata hangs on rows_that_overlap (comment_meet.v:45)",
        says="audit: Warning: Encountered `",
    ),
    audited("priority_rows.v", prints=EXACT),
    audited("full.v", prints=EXACT, says="audit: Warning: Encountered `"),
    audited("full_not.v", status=1, prints="audit: unknown: cycle 14 port wdata", says="audit: Warning: Encountered `"),
    audited("full_priority.v", status=1, prints="audit: unknown: cycle 14 port wdata"),
    audited(
        "priority_if.v",
        status=1,
        prints="audit: refused",
        says="audit: 'priority_if.v':50: Yosys doesn't read `priority if`",
    ),
    Call(f"tools/formal rows_apart.v {TEST} --no-simulate", prints=FORMAL, needs="yosys"),
    Call(f"tools/formal rows_meet.v {TEST}", status=1, prints="formal: wrong: differs in cycle 6\n", needs="yosys"),
    Call(f"tools/formal list_short.v {TEST}", 1, "formal: refused: ", "formal: 'list_short.v':38", "yosys iverilog"),
    Call("tools/plain out.v list_short.v", 1, "", "plain: 'list_short.v':38: the block reads reset", "yosys iverilog"),
    audited("cells.v", prints=EXACT, options="--liberty three_state.lib"),
    Call(f"tools/audit cells.v {TEST} --liberty three_state.lib", 0, SEEN, "", "yosys iverilog"),
    audited(
        "cells_off.v",
        status=1,
        says="audit: 'two' (cells_off.v:13): the cell TBUF is a three-state driver",
        options="--liberty three_state.lib",
    ),
    audited("gate_off.v", status=1, says="audit: 'gate_off.v':20: bufif1: a driver that can be off"),
    audited("gate_unused.v", prints=EXACT, options="--top two_processes"),
    audited(
        "net_off.v",
        status=1,
        prints="audit: unknown: fail is unknown in cycle 0",
        says="audit: Warning: Yosys has only limited",
    ),
    audited("net_on.v", prints=EXACT),
    audited("kept.v", prints=EXACT),
    audited("kept_by_lanes.v", prints=EXACT),
    audited(
        "kept_twice.v",
        status=1,
        prints="audit: refused",
        says="audit: 'kept' (kept_twice.v:41 and kept_twice.v:42): two blocks write",
    ),
    audited(
        "set_twice.v",
        status=1,
        prints="audit: refused",
        says="audit: wrong (set_twice.v:22 and set_twice.v:38): two blocks set it",
    ),
    audited(
        "list_short.v",
        prints=EXACT,
        says="audit: 'list_short.v':38: the block reads reset, which is not in its sensitivity list",
    ),
    audited(
        "list_short.v",
        status=1,
        prints="a simulator may read the sources differently",
        says="audit: 'list_short.v':38",
        options="--strict",
    ),
    audited("list_whole.v", prints=EXACT, options="--strict"),
    audited("read_early.v", prints=EXACT, says="audit: 'read_early.v':22: the block reads now before it sets it"),
    audited("read_late.v", prints=EXACT),
    Call("tools/plain out.v read_early.v --no-simulate", 0, "", "plain: 'read_early.v':22: the block reads", "yosys"),
    Call(
        f"tools/formal read_early.v {TEST} --no-simulate",
        prints=FORMAL,
        says="formal: 'read_early.v':22: the block reads now",
        needs="yosys",
    ),
    audited("delayed.v", prints=EXACT, says="audit: 'delayed.v':20: a delay is skipped"),
    clocked("list_short.v", status=1, prints="audit: refused", says="audit: 'list_short.v':38"),
    clocked("list_whole.v", prints=SEEN),
    clocked("read_early.v", status=1, prints="audit: refused", says="audit: 'read_early.v'"),
    clocked("read_late.v", prints=SEEN),
    clocked("delayed.v", status=1, prints="audit: refused", says="audit: 'delayed.v'"),
    clocked(
        "writes.v",
        status=1,
        prints="audit: refused",
        says="audit: yosys refuses it: writes.v:0: ERROR: Can't resolve task name",
    ),
    audited("pipelined.v", status=1, prints="audit: wrong: done 1 cycle late, fail is exact\n"),
    audited("pipelined.v", prints="ever after, 1 cycle later than the rule of the ports\n", options="--fail-late 1"),
    audited(
        "pipelined_twice.v",
        status=1,
        prints="audit: wrong: done 1 cycle late, fail is ",
        options="--fail-late 1",
    ),
    audited(
        "pipelined_forgets.v",
        status=1,
        prints="audit: wrong: done 1 cycle late, fail is ",
        options="--fail-late 1",
    ),
    audited(
        "unique_if.v", status=1, prints="audit: refused", says="audit: 'unique_if.v':50: Yosys doesn't read `unique if`"
    ),
    audited(
        "returns.v",
        status=1,
        prints="audit: refused",
        says="audit: 'returns.v':21: Yosys doesn't read `return`; a function's own name",
    ),
    audited("says.v", prints=EXACT),
    audited("says_not.v", status=1, prints="audit: wrong: fail is 1 in cycle 1 though all answers are right"),
    audited(
        "keeps.v",
        status=1,
        prints="audit: refused",
        says="audit: said (keeps.v): an always_comb doesn't set it in every branch",
    ),
    audited("keeps_not.v", prints=EXACT),
    audited("turns.v", prints=EXACT),
    audited("turns_kept.v", status=1, prints="audit: refused", says="audit: b.k, turns_kept.v:"),
    audited(
        "pulled.v", status=1, prints="audit: refused", says="audit: 'pulled.v':20: Yosys has no net that pulls (tri1)"
    ),
    audited("falls_late.v", prints="fail is exact to cycle 106\n"),
    audited("falls_late.v", status=1, prints="fail is exact to cycle 106\n", options="--strict"),
    audited("kept.v", prints=EXACT, options="--strict"),
    clocked("counts.v", prints="; splitting 1 bit settles it, with 8 states at once\n"),
    audited("counts.v", prints=EXACT),
    audited(
        "counts_on.v",
        status=1,
        prints="audit: wrong: fail is 0 in cycle 21 though bit 0 of the answer of cycle 6 is wrong\n",
    ),
    clocked("minus.v", prints=SEEN),
    audited(
        "minus_short.v",
        status=1,
        prints="audit: wrong: fail is 0 in cycle 15 though bit 0 of the answer of cycle 14",
    ),
    clocked("signed.v", prints=SEEN),
    audited("signed_half.v", status=1, prints="audit: wrong: fail is 0 in cycle 15 though"),
    Call(in_shell(netlist("counts.v", "counts_gates.v")), prints=EXACT, needs="yosys"),
    Call(in_shell(CELLS), prints=SEEN, needs="yosys iverilog"),
    Call(
        in_shell(netlist("counts_on.v", "counts_on_gates.v")),
        status=1,
        prints="audit: wrong: fail is 0 in cycle ",
        needs="yosys",
    ),
    Call(in_shell(for_ice40(f"{STYLES}two_processes.v", "ice.v")), prints=SEEN, needs="yosys iverilog"),
    Call(
        in_shell(for_ice40(f"{STYLES}two_processes_forgets.v", "ice_forgets.v")),
        status=1,
        prints="audit: wrong: fail is 0 in cycle 9",
        needs="yosys",
    ),
    Call(
        in_shell(for_ice40("counts_on.v", "ice_counts_on.v")),
        status=1,
        prints="audit: wrong: fail is 0 in cycle ",
        needs="yosys",
    ),
    Call(
        in_shell(f"{COMPILE} && {for_ice40('own.v', 'ice_own.v', '--no-simulate')}"),
        prints=EXACT,
        says="nothing.list: warning: the list holds no primitive",
        needs="yosys",
    ),
    clocked(
        "member.v", prints=SEEN, says="audit: 'member.v':37: kept.expected[i] is read as a part of its own word"
    ),
    audited(
        "member_beyond.v",
        status=1,
        prints="audit: wrong: fail is ",
        says="audit: 'member_beyond.v':37: kept.expected[i + 1]",
    ),
    audited(
        "member_written.v",
        status=1,
        says="audit: 'member_written.v':36: a part of a structure's member, beyond which Yosys",
    ),
    Call(
        "tools/plain out.v ram_cell.v --cells ice40",
        status=1,
        says="plain: ram_cell has a part SB_RAM40_4K, which is no",
        needs="yosys",
    ),
    Call("tools/plain out.v ram_cell.v --cells ice", status=2, says="plain: --cells knows ice40", needs="yosys"),
    Call(
        f"tools/formal counts.v {TEST}",
        prints="formal: right: each port is right in each cycle, simulated by Icarus\n",
        needs="yosys iverilog",
    ),
    # of the second word another one is expected, whose first answer comes in cycle 7; some registers become constants
    Call(
        in_shell(WRONG_WORD),
        status=1,
        prints="formal: wrong: differs in cycle 8\n",
        says="nothing.list: warning: the list holds no primitive",
        needs="yosys",
    ),
    Call(f"tools/formal {IDLE}", status=1, prints="formal: wrong: differs in cycle 1\n", needs="yosys"),
    Call(
        f"tools/formal pinned.v {TEST} --pins pinned.pins",
        prints="formal: right: each port is",
        needs="yosys iverilog",
    ),
    Call(
        "tools/plain out.v nothing.v",
        status=1,
        says="plain: all modules of the sources are empty",
        needs="yosys",
    ),
    audited("nothing.v", status=1, prints="audit: refused", says="audit: all modules of the sources are empty"),
    Call("tools/plain out.v dollar.v", status=1, says="plain: 'dollar.v':1: '$paramod$x", needs="yosys"),
    Call("tools/plain out.v unclosed.v", status=1, says="plain: yosys refuses it: unclosed.v:1: ERROR", needs="yosys"),
]
