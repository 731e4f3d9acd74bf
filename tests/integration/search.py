"""The search for a march on the page of `vidlakost explore`, asked by plain HTTP: what it finds, and how it ends."""
from __future__ import annotations

import contextlib
import json
import pathlib
import time
from typing import Any

from tests.integration.bench import Bench
from tests.integration.explore import MARCH, SECONDS, Served, comes, serving

SEARCH: dict[str, Any] = {"list": "TF\n", "decoder": False, "linked": False}
SHORTEST = "length 5n, shortest: a search of all shorter ones finds none"
LONG_SEARCH: dict[str, Any] = {**SEARCH, "list": "all\n", "linked": True}


def heard(served: Served, begun: dict[str, Any]) -> dict[str, Any]:
    """What a search ends with."""
    until, told = time.monotonic() + SECONDS, begun
    while time.monotonic() < until and told.get("ended") is None and told.get("broken") is None and "search" in told:
        time.sleep(0.1)
        told = served.ask("found", {"search": begun["search"]})
    return told


def running(served: Served) -> list[pathlib.Path]:
    """The searches of a server that run."""
    found = []
    for path in pathlib.Path("/proc").glob("[0-9]*"):
        with contextlib.suppress(OSError):
            parent = (path / "stat").read_text().rpartition(")")[2].split()[1]
            if b"search_run" in (path / "cmdline").read_bytes() and parent == str(served.process.pid):
                found.append(path)
    return found


def searches(bench: Bench, served: Served) -> None:
    """A march that is found, one that is extended, one that is stopped, and one that another takes the place of."""
    told = heard(served, served.ask("find", SEARCH))
    bench.is_so(
        told["ended"] is not None and told["ended"]["march"] == "{any(w0,w1,r1,w0,r0)}",
        f"the page is told {told} of a search",
    )
    bench.is_so(told["ended"]["length"] == SHORTEST, f"it is told {told}")
    bench.is_so(told["ended"]["lines"] == ["judge total 2 covered 2 escapes 0"], f"it is told {told}")
    bench.is_so(told["ended"]["isWhole"], f"it is told {told}")
    told = heard(served, served.ask("find", {**SEARCH, "decoder": True}))
    bench.is_so(told["ended"]["lines"][1] == "decoder total 6 covered 6 escapes 0", f"with a decoder it is told {told}")
    told = heard(served, served.ask("find", {**SEARCH, "march": MARCH, "letter": "C"}))
    extended = "length 10n, 0 more than march C, shortest"
    bench.is_so(told["ended"]["length"].startswith(extended), f"extended it is {told}")
    refused = served.ask("find", {**SEARCH, "list": "tf\n"}).get("refused", {})
    bench.is_so((refused.get("what"), refused.get("line")) == ("list", 1), f"a wrong list is told as {refused}")
    refused = served.ask("find", {**SEARCH, "march": "{any(w0)", "letter": "A"}).get("refused", {})
    bench.is_so(refused.get("what") == "march", f"a march that is refused is told as {refused}")
    told = heard(served, served.ask("find", {**SEARCH, "list": "# nothing\n"}))
    nothing = "the list names no primitive, so there is nothing to cover"
    bench.is_so(told["broken"] == nothing, f"of an empty list it is told {told}")
    first = served.ask("find", LONG_SEARCH)
    second = served.ask("find", LONG_SEARCH)
    bench.is_so(served.ask("found", {"search": first["search"]}) == {"status": 400}, "two searches run at once")
    until = time.monotonic() + SECONDS
    while time.monotonic() < until and served.ask("found", {"search": second["search"]})["march"] is None:
        time.sleep(0.1)
    count = len(running(served))
    bench.is_so(count == 1, f"{count} searches run")
    served.ask("stop", {"search": second["search"]})
    told = heard(served, second)
    length = (told["ended"] or {"length": ""})["length"]
    bench.is_so("shortest found" in length, f"a search that is stopped is told as {told}")
    bench.is_so(comes(lambda: not running(served)), "a search that is over runs on")


def wrong_searches(bench: Bench, served: Served) -> None:
    """Searches that no page asks for."""
    for name, question in (
        ("find", {"list": "TF\n"}),
        ("find", {**SEARCH, "decoder": 1}),
        ("find", {**SEARCH, "march": MARCH}),
        ("find", {**SEARCH, "march": MARCH, "letter": "../A"}),
        ("find", {**SEARCH, "march": MARCH, "letter": ""}),
        ("found", {"search": 0}),
        ("found", {}),
        ("stop", {"search": "1"}),
    ):
        got, said = served.request(name, json.dumps(question).encode())
        bench.is_so(got == 400, f"explore answers {name} {question} with {got} {said[:80]!r}")


def by_http(bench: Bench) -> None:
    """All of them, and a server that ends while a search runs."""
    with serving(bench, "c.m") as served:
        searches(bench, served)
        wrong_searches(bench, served)
        served.ask("find", LONG_SEARCH)
        left = running(served)
    bench.is_so(
        len(left) == 1 and comes(lambda: not left[0].exists()), f"the searches {left} run on when explore has ended"
    )


PARTS = [by_http]
