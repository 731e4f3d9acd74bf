"""What `design` finds, refuses and ends with, of lists whose shortest marches are known by hand."""
from __future__ import annotations

import os
import re
import shutil
import signal
import subprocess
import time
from typing import Dict, List, Tuple

from tests.integration.bench import Bench
from vidlakost_tools.program import ROOT

FILES: Dict[str, str] = {
    "none.list": "# nothing\n",
    "small.list": "tf\n",
    "stuck.list": "SF\n",
    "wide.list": "CFst\n",
    "two.list": "<0w0w0;1/0/->\n",
    "pause.list": "SF\nTF\nDRF\n",
    # 1,024 primitives, which is the most
    "thousand.list": "one\nCFst\ndyn1\n" * 22 + "<0/1/->\n" * 12,
    "paused.m": "{del;any(w0);any(r0)}\n",
    "long.m": "{any(w0,r0,r0,r0)}\n",
    "eight.mem": "memory 1\nname eight\nwords 16\nbits 8\n",
    "pair.mem": "memory 1\nname pair\nwords 4\nbits 2\nbackgrounds 0\n",
}
# the words behind `design`, the status, a part of the answer, and the beginning of standard error
ROWS: List[Tuple[List[str], int, str, str]] = [
    (
        ["stuck.list"],
        0,
        "length 4n, shortest: a search of all shorter ones finds none\njudge total 2 covered 2",
        "design: 4n after",
    ),
    (["tf.list"], 0, "length 5n, shortest:", "design: 5n after"),
    (["stuck.list", "--decoder"], 0, "length 5n, shortest:", "design: "),
    (["stuck.list", "--decoder"], 0, "decoder total 6 covered 6 escapes 0", "design: "),
    (["none.list", "--decoder"], 0, "judge total 0 covered 0 escapes 0", "design: "),
    (["pause.list"], 0, "length 5n+2D, shortest:", "design: "),
    (["tf.list", "--behind", "c.m"], 0, "length 10n, 0 more than c.m, shortest:", "design: "),
    (["tf.list", "--any"], 0, "{any(w0,w1,r1,w0,r0)}", "design: "),
    (["tf.list", "--operations", "1"], 0, "judge total 2 covered 2 escapes 0", "design: "),
    (
        ["tf.list", "--time", "100", "eight.mem"],
        0,
        "time 0.003 ms at 100 MHz, 323 cycles of eight",
        "design: 5n, 0.003 ms at 100 MHz after",
    ),
    (["tf.list", "--inword", "eight.mem"], 0, "inword total 0 covered 0 escapes 0", "design: "),
    (["tf.list", "--inword", "eight.mem", "--backgrounds", "2"], 0, "escapes 0 with `backgrounds 00`", "design: "),
    (["wide.list", "--inword", "pair.mem"], 0, "inword total 4 covered 2 escapes 2\n", "design: "),
    (
        ["wide.list", "--inword", "pair.mem", "--backgrounds", "3"],
        0,
        "inword total 4 covered 4 escapes 0 with `backgrounds 0 2`",
        "design: ",
    ),
    (
        ["wide.list", "--inword", "pair.mem", "--backgrounds", "1"],
        0,
        "inword total 4 covered 2 escapes 2 with `backgrounds 0`",
        "design: ",
    ),
    (["tf.list", "--backgrounds", "2"], 2, "", "design: --backgrounds needs --inword, which names the memory"),
    (
        ["tf.list", "--inword", "eight.mem", "--backgrounds", "9"],
        2,
        "",
        "design: --backgrounds is a number from 1 to 8, and not 9",
    ),
    (["tf.list", "--walks", "2-1"], 2, "", "design: --walks takes two numbers from 1 on, as 1-50, and not '2-1'"),
    (["tf.list", "--from", "c.m"], 2, "", "design: --from needs --walks, which names the part of the walks"),
    (["tf.list", "--walks", "1-3"], 0, "\nwalks 1 to 3: no shorter march", "design: 5n after"),
    (["wide.list", "--walks", "1-3", "--from", "long.m"], 1, "", "design: long.m does not cover all of this"),
    (["tf.list", "--seconds", "ten"], 2, "", "design: --seconds is a number of at least 0, and not 'ten'"),
    (["wide.list", "--elements", "1"], 1, "<0;0/1/-> CFst: the search found no march that covers it too", ""),
    (["two.list", "--operations", "3", "--seconds", "0"], 0, "judge total 1 covered 1 escapes 0", "design: "),
    (
        ["two.list", "--operations", "2"],
        2,
        "",
        "design: elements of at most 2 operations cover no primitive of two.list",
    ),
    (["none.list"], 2, "", "design: none.list names no primitive, so there is nothing to cover"),
    (["small.list"], 5, "", "design: fault F1 line 1 byte 1"),
    (["no.list"], 10, "", "design: absent 2"),
    (["tf.list", "tf.list"], 2, "", "design: 'tf.list' is the list itself"),
    (["tf.list", "./c.m", "--behind", "c.m"], 2, "", "design: './c.m' is the march itself"),
    (["tf.list", "no/where"], 2, "", "design: "),
    (["tf.list", "--behind", "stray.m"], 3, "", "design: march M1 byte 12"),
    (["tf.list", "--behind", "paused.m"], 2, "", "design: paused.m begins with a pause"),
    (
        ["tf.list", "--behind", "long.m", "--operations", "3"],
        2,
        "",
        "design: long.m has more elements, or more operations in one",
    ),
    (["tf.list", "--operations", "17"], 2, "", "design: --operations is a number from 1 to 16, and not 17"),
    (["tf.list", "--elements", "0"], 2, "", "design: --elements is a number of at least 1, and not '0'"),
    (["tf.list", "--width", "many"], 2, "", "design: --width is a number of at least 1, and not 'many'"),
    (
        ["tf.list", "--time", "0", "eight.mem"],
        2,
        "",
        "design: --time takes a positive number of MHz first, and not '0'",
    ),
    (["tf.list", "--time", "100", "seven.mem"], 4, "", "design: memory"),
    (["tf.list", "--inword", "seven.mem"], 4, "", "design: memory"),
]


def calls(bench: Bench) -> None:
    """The rows, and the file that is written."""
    for name, text in FILES.items():
        (bench.folder / name).write_text(text)
    for words, status, out, error in ROWS:
        bench.look(["tools/design", *words], status, out, error)
    bench.look(["tools/design", "tf.list", "made.m"], 0, "length 5n", "design: ")
    bench.is_so((bench.folder / "made.m").read_text() == "{any(w0,w1,r1,w0,r0)}\n", "design writes another march")
    bench.look(["./vidlakost", "judge", "made.m", "tf.list", "made.report"], 0, "total 2 covered 2 escapes 0", "")


def large(bench: Bench) -> None:
    """A list of 1,024 items, each of whose primitives is looked at once."""
    (bench.folder / "thousand.list").write_text(FILES["thousand.list"])
    bench.look(
        ["tools/design", "thousand.list", "--width", "20", "--seconds", "0"],
        0,
        "judge total 1024 covered 1024 escapes 0",
        "design: ",
    )


def parts(bench: Bench) -> None:
    """Two parts of the walks and the whole of them come to one march; the least number decides."""
    (bench.folder / "long.list").write_text(FILES["stuck.list"] + "TF\nWDF\nCFst\n")
    shutil.copy(ROOT / "examples" / "marches" / "march_ss.m", bench.folder)
    made = {}
    for part in ("1-4", "1-2", "3-4"):
        words = ["tools/design", "long.list", "--walks", part, "--from", "march_ss.m"]
        done = subprocess.run(
            words, cwd=bench.folder, env=bench.environment, text=True, capture_output=True, check=False
        )
        lines = done.stdout.splitlines()
        found = re.match(r"walk (\d+) of ", lines[-1]) if lines else None
        made[part] = (int(found[1]) if found else 1 << 30, lines[:1])
    bench.is_so(made["1-4"] == min(made["1-2"], made["3-4"]), f"the parts of a search come to {made}")
    bench.is_so(made["1-4"][0] < 1 << 30, "four walks come to no shorter march")


def ended(bench: Bench) -> None:
    """Ctrl-C ends the search with the best so far; a kill ends it without an answer, and no file is left or written."""
    for number, status in ((signal.SIGINT, 0), (signal.SIGTERM, 128 + signal.SIGTERM)):
        before = sorted(os.listdir(bench.folder))
        process = subprocess.Popen(
            ["tools/design", "examples/all.list", "ended.m", "--linked", "--prove"],
            cwd=bench.folder,
            env=bench.environment,
            text=True,
            stdout=subprocess.PIPE,
            stderr=subprocess.PIPE,
        )
        if process.stderr is None:
            raise ValueError("there is no standard error")
        said = process.stderr.readline()
        bench.is_so(said.startswith("design: ") and "n after" in said, f"design says {said!r} first")
        time.sleep(0.2)
        process.send_signal(number)
        out, _ = process.communicate(timeout=60)
        bench.is_so(process.returncode == status, f"design ends with {process.returncode} by {number}")
        bench.is_so(bool(out) == (status == 0), f"design prints {out!r} when {number} ends it")
        after = sorted(set(os.listdir(bench.folder)) - {"ended.m"})
        bench.is_so(
            after == before and (bench.folder / "ended.m").exists() == (status == 0), f"{number} leaves {after}"
        )
        if status == 0:
            bench.is_so("shortest found" in out, f"a search that was ended prints {out!r}")
            (bench.folder / "ended.m").unlink()


PARTS = [calls, large, parts, ended]
