"""The server of `vidlakost explore` asked by plain HTTP, as its page asks it, as others on the machine may ask it, and
as a page of elsewhere in the same browser does; then its page in a browser. `python3 -m tests.integration` goes through
them."""
from __future__ import annotations

import contextlib
import json
import os
import pathlib
import shutil
import signal
import socket
import subprocess
import sys
import time
from typing import Any, Callable, Iterator

from tests.integration.bench import Bench
from vidlakost_tools.program import ROOT

MARCH = "{any(w0);up(r0,w1);up(r1,w0);down(r0,w1);down(r1,w0);any(r0)}"
MATS = "{any(w0);any(r0,w1);any(r1)}"
MEMORY = "memory 1\nname s\nwords 4\nbits 1\n"
MARKUP = '{any(w0)}<img src=x onerror="document.title=1"><script>document.title=2</script>'
JSON = "application/json"
# of the kit's Python a browser's driver may be unknown, where it is the system's that knows it
INTERPRETERS = [sys.executable, "/usr/bin/python3"]
# how long something may take on a machine under load
SECONDS = 120.0


def comes(holds: Callable[[], object]) -> bool:
    """Whether something holds before long."""
    until = time.monotonic() + SECONDS
    while time.monotonic() < until:
        if holds():
            return True
        time.sleep(0.05)
    return False


class Served:
    """A server that runs, and requests to it."""

    def __init__(self, process: subprocess.Popen[str]):
        self.process = process
        self.address = process.stdout.readline().strip() if process.stdout else ""
        self.host, self.token = self.address[len("http://") : -1].split("/")
        self.port = int(self.host.split(":")[1])

    def send(self, request: bytes, wait: float = 30.0) -> bytes:
        """What is answered to some bytes, to the end of the connection."""
        answered = b""
        with socket.create_connection(("127.0.0.1", self.port), wait) as connection:
            with contextlib.suppress(OSError):
                connection.sendall(request)
                while True:
                    piece = connection.recv(65536)
                    if not piece:
                        break
                    answered += piece
        return answered

    def request(self, name: str, body: bytes | None = None, **changed: Any) -> tuple[int, bytes]:
        """The status and the body of an answer to a request as the page makes it, with some of its headers changed
        (None: left out)."""
        headers: dict[str, Any] = {"Host": self.host}
        if body is not None:
            headers.update({"Origin": f"http://{self.host}", "Content-Type": JSON, "Content-Length": len(body)})
        headers.update({key: value for key, value in changed.items() if key not in ("path", "method")})
        path = changed.get("path", f"/{self.token}/{name}")
        lines = [f"{changed.get('method', 'GET' if body is None else 'POST')} {path} HTTP/1.1"]
        lines += [f"{key}: {value}" for key, value in headers.items() if value is not None]
        request = "\r\n".join([*lines, "", ""]).encode("latin-1") + (body or b"")
        head, _, rest = self.send(request).partition(b"\r\n\r\n")
        parts = head.split(b" ", 2)
        return int(parts[1]) if len(parts) == 3 else 0, rest

    def ask(self, name: str, question: object) -> dict[str, Any]:
        status, body = self.request(name, json.dumps(question).encode())
        return dict(json.loads(body)) if status == 200 else {"status": status}


@contextlib.contextmanager
def serving(bench: Bench, *words: str) -> Iterator[Served]:
    """A server with these words, which Ctrl-C ends."""
    process = subprocess.Popen(
        ["tools/explore", *words],
        cwd=bench.folder,
        env=bench.environment,
        text=True,
        stdin=subprocess.DEVNULL,
        stdout=subprocess.PIPE,
        stderr=subprocess.PIPE,
    )
    try:
        yield Served(process)
    finally:
        process.send_signal(signal.SIGINT)
        _, said = process.communicate(timeout=SECONDS)
        bench.is_so((process.returncode, said) == (0, ""), f"explore ends with {process.returncode} and says {said!r}")


# ---- what the page asks


def questions(bench: Bench, served: Served) -> None:
    """Each question, with an answer that is known."""
    begin = served.ask("begin", {})
    bench.is_so(begin.get("march") == MARCH + "\n", f"explore begins with {begin.get('march')!r}")
    bench.is_so(sum(len(row["primitives"]) for row in begin["classes"]) == 176, "the classes have not 176 primitives")
    total = served.ask("judge", {"march": MARCH, "list": "all\n"})["report"]["total"]
    bench.is_so(total == {"primitives": 48, "covered": 32, "escapes": 16}, f"of March C- the page is told {total}")
    refused = served.ask("judge", {"march": "{any(w0); upp(r0)}", "list": "TF\n"})["refused"]
    bench.is_so((refused["what"], refused["column"]) == ("march", 11), f"a mistake is told as {refused}")
    bench.is_so("did you mean 'up'?" in refused["message"], f"a mistake is told as {refused}")
    refused = served.ask("judge", {"march": MARCH, "list": "tf\n"})["refused"]
    bench.is_so((refused["what"], refused["line"]) == ("list", 1), f"a mistake in the list is told as {refused}")
    could = served.ask("complete", {"kind": "march", "before": "{any(w0);u", "after": ""})
    bench.is_so(could["words"][:1] == ["up"] and could["begun"] == 1, f"behind 'u' could stand {could}")
    traced = served.ask("trace", {"march": MARCH, "primitive": "<0w0/1/->"})
    bench.is_so(traced["sim"]["said"] == "passes" and len(traced["steps"]) == 21, f"an escape is traced as {traced}")
    traced = served.ask("trace", {"march": MARCH, "primitive": "<0w1/0/->"})
    bench.is_so("steps" not in traced, f"a covered primitive has steps: {traced}")
    verdicts = served.ask("judge", {"march": MATS, "list": "TF\n"})["report"]["verdicts"]
    found = {row["primitive"]: row["covered"] for row in verdicts if row["class"] == "AF"}
    bench.is_so(
        len(found) == 6 and [it for it in found if not found[it]] == ["both and", "both own"],
        f"of the decoder is told {found}",
    )
    traced = served.ask("trace", {"march": MATS, "primitive": "both and"})
    bench.is_so(traced["steps"][-1]["reaches"] == [1] and "sim" not in traced, f"a wrong decoder is traced as {traced}")
    traced = served.ask("trace", {"march": MATS, "primitive": "other"})
    bench.is_so("steps" not in traced, f"a covered fault has steps: {traced}")
    inside = served.ask("judge", {"march": MARCH, "list": "all\n", "memory": "memory 1\nname s\nwords 4\nbits 2\n"})[
        "inWord"
    ]
    bench.is_so((len(inside), sum(inside.values())) == (36, 16), f"inside a word the page is told {inside}")
    inside = served.ask(
        "inside", {"march": MARCH, "primitive": "<0w1;0/1/->", "memory": "memory 1\nname s\nwords 4\nbits 2\n"}
    )
    bench.is_so(
        inside["verdict"]["escape"]["victim"] == 1 and len(inside["steps"]) == 21, f"inside a word it is {inside}"
    )
    told = served.ask("memory", {"march": MARCH, "memory": MEMORY})
    bench.is_so((told["cycles"], told["commands"]) == (43, 40), f"a memory is told as {told}")
    refused = served.ask("memory", {"march": MARCH, "memory": "memory 1\nname s\nwords 1\nbits 1\n"})["refused"]
    bench.is_so((refused["what"], refused["line"]) == ("memory", 3), f"a mistake in a memory is told as {refused}")
    files = served.ask("files", {"march": MARCH, "memory": MEMORY, "list": "all\n"})
    bench.is_so(files["module"].startswith("module s_bist("), f"the module is {files['module'][:40]!r}")
    page = served.ask("keep", {"marches": [MARCH], "list": "TF\n", "memory": MEMORY, "place": 0})["page"]
    bench.is_so(bench.environment["VIDLAKOST_PROGRAM"] not in page, "a kept page tells where the program lies")
    bench.is_so(
        'id="kept"' in page and "page.css" not in page and "page.js" not in page,
        "a page is kept without its parts",
    )


# ---- what is refused


def strangers(bench: Bench, served: Served) -> None:
    """Requests of those who don't know the token, of other pages, and of names that were bound to this address."""
    question = json.dumps({"march": MARCH, "list": "TF\n"}).encode()
    elsewhere = "http://elsewhere.example"
    rows: list[tuple[int, dict[str, Any]]] = [
        (404, {"path": "/"}),
        (404, {"path": "/begin"}),
        (404, {"path": f"/{'A' * len(served.token)}/"}),
        (404, {"path": f"/{served.token[:-1]}/"}),
        (404, {"path": f"/{served.token}"}),
        (404, {"path": f"/{served.token}//"}),
        (404, {"path": f"/{served.token}/../explore"}),
        (404, {"path": f"/{served.token}/../../../../etc/passwd"}),
        (404, {"path": f"/{served.token}/%2e%2e/%2e%2e/etc/passwd"}),
        (404, {"path": f"/{served.token}/page.js%00.html"}),
        (404, {"path": f"/{served.token}/page.js?x"}),
        (404, {"path": f"/{served.token}/server.py"}),
        (421, {"Host": "elsewhere.example"}),
        (421, {"Host": f"elsewhere.example:{served.port}"}),
        (421, {"Host": f"localhost:{served.port}"}),
        (421, {"Host": "127.0.0.1"}),
        (421, {"Host": None}),
        (403, {"Origin": elsewhere}),
        (403, {"Origin": "null"}),
        (403, {"path": f"/{served.token}/page.js", "Sec-Fetch-Site": "cross-site"}),
        (403, {"path": f"/{served.token}/page.js", "Sec-Fetch-Site": "cross-site", "Sec-Fetch-Mode": "no-cors"}),
        (403, {"Sec-Fetch-Site": "cross-site", "Sec-Fetch-Mode": "no-cors"}),
        (501, {"method": "OPTIONS"}),
        (501, {"method": "PUT"}),
        (501, {"method": "<script>"}),
    ]
    for status, changed in rows:
        got, body = served.request("", **changed)
        bench.is_so(got == status and b"<" not in body, f"explore answers {changed} with {got} {body[:80]!r}")
    asked: list[tuple[int, dict[str, Any]]] = [
        (403, {"Origin": elsewhere}),
        (403, {"Origin": "null"}),
        (403, {"Origin": None}),
        (403, {"Origin": f"http://localhost:{served.port}"}),
        (421, {"Host": f"elsewhere.example:{served.port}", "Origin": f"http://elsewhere.example:{served.port}"}),
        (403, {"Sec-Fetch-Site": "same-site"}),
        (415, {"Content-Type": "text/plain"}),
        (415, {"Content-Type": None}),
        (415, {"Transfer-Encoding": "chunked"}),
        (411, {"Content-Length": None}),
        (411, {"Content-Length": "-1"}),
        (411, {"Content-Length": "1_0"}),
        (413, {"Content-Length": 1048577}),
    ]
    for status, changed in asked:
        got, body = served.request("judge", question, **changed)
        bench.is_so(got == status, f"explore answers a question with {changed} by {got} {body[:80]!r}")


def wrong_questions(bench: Bench, served: Served) -> None:
    """Questions that no page asks."""
    bodies = [
        b"",
        b"[]",
        b"1",
        b"{",
        b"[" * 100000,
        b'{"march": 1, "list": "TF"}',
        b'{"march": "\\ud800", "list": "TF"}',
    ]
    for body in bodies:
        got, said = served.request("judge", body)
        bench.is_so(got == 400, f"explore answers {body[:40]!r} with {got} {said[:80]!r}")
    for name, question in (
        ("trace", {"march": MARCH, "primitive": "all"}),
        ("trace", {"march": MARCH, "primitive": "../x"}),
        ("complete", {"kind": "chip", "before": "", "after": ""}),
        ("keep", {"marches": [MARCH] * 5, "list": "", "memory": "", "place": 0}),
        ("keep", {"marches": [MARCH], "list": "", "memory": "", "place": 1}),
    ):
        got, said = served.request(name, json.dumps(question).encode())
        bench.is_so(got == 400, f"explore answers {name} {question} with {got} {said[:80]!r}")
    told = served.ask("judge", {"march": MARKUP, "list": "TF\n"})
    bench.is_so("refused" in told, f"a march with markup is told as {told}")
    page = served.ask(
        "keep",
        {"marches": [MARCH], "list": "TF # </script><script>x</script>\n", "memory": MEMORY, "place": 0},
    )
    bench.is_so("</script><script>x" not in page["page"], "a list with markup ends the script of a kept page")


def headers(bench: Bench, served: Served) -> None:
    """What a browser is told of each answer, also of one that is refused."""
    for request in (f"GET /{served.token}/ HTTP/1.1\r\nHost: {served.host}\r\n\r\n", "GET / HTTP/1.1\r\n\r\n"):
        head = served.send(request.encode()).split(b"\r\n\r\n")[0].decode().lower()
        for told in ("default-src 'none'", "frame-ancestors 'none'", "nosniff", "no-store", "no-referrer"):
            bench.is_so(told in head, f"explore answers {request!r} without {told}")
        bench.is_so("unsafe" not in head and "access-control" not in head, f"explore answers {request!r} with {head}")


def refused_of(held: list[socket.socket]) -> int:
    """How many of some connections are refused within a while."""
    refused: set[int] = set()
    until = time.monotonic() + 15
    while len(refused) <= 500 and time.monotonic() < until:
        for place, connection in enumerate(held):
            with contextlib.suppress(OSError):
                if connection.recv(16).startswith(b"HTTP/1.0 503"):
                    refused.add(place)
        time.sleep(0.1)
    return len(refused)


def floods(bench: Bench, served: Served) -> None:
    """A body of 2 MiB, a slow body, and a thousand connections at once; the page is answered afterwards."""
    got, _ = served.request("judge", b" " * (2 << 20))
    bench.is_so(got in (0, 413), f"explore answers a body of 2 MiB with {got}")
    begun = time.monotonic()
    head = f"POST /{served.token}/judge HTTP/1.1\r\nHost: {served.host}\r\nOrigin: http://{served.host}\r\n"
    said = served.send(f"{head}Content-Type: {JSON}\r\nContent-Length: 50\r\n\r\n{{".encode())
    bench.is_so(
        b" 408 " in said[:20] and time.monotonic() - begun < 15,
        f"explore answers a slow body with {said[:40]!r}",
    )
    held = [socket.socket() for _ in range(1000)]
    for connection in held:
        connection.settimeout(5)
        with contextlib.suppress(OSError):
            connection.connect(("127.0.0.1", served.port))
        connection.settimeout(0)
    for place, connection in enumerate(held[-100:]):
        with contextlib.suppress(OSError):
            connection.send(
                [b"GET /", b"GET /x/ HTTP/1.1\r\n", f"GET /{served.token[:-2]}".encode(), b"\n" * 9][place % 4]
            )
    begun = time.monotonic()
    is_heard = "classes" in served.ask("begin", {}) and time.monotonic() - begun < 2
    bench.is_so(is_heard, "a thousand connections that don't know the token shut out who does")
    bench.is_so(refused_of(held) > 500, "of a thousand connections at once not five hundred are refused")
    for connection in held:
        connection.close()
    time.sleep(4)
    bench.is_so("classes" in served.ask("begin", {}), "explore does not answer after a thousand connections")


def words_of_all() -> str:
    """The words of all calls that run, as everybody on the machine can read them."""
    told = []
    for path in pathlib.Path("/proc").glob("[0-9]*/cmdline"):
        with contextlib.suppress(OSError):
            told.append(path.read_text("utf-8", "replace"))
    return "\n".join(told)


def begun(bench: Bench) -> None:
    """Words and files that are wrong, a port that is taken, and a browser that is opened."""
    bench.look(["tools/explore", "missing.m"], 2, "", "explore: missing.m: No such file")
    bench.look(["tools/explore", "bytes.m"], 2, "", "explore: a file is not UTF-8")
    bench.look(["tools/explore", "large.m"], 2, "", "explore: 'large.m' has more than 1,048,576 bytes")
    bench.look(["tools/explore", "--port", "x"], 2, "", "explore: --port is a number")
    bench.look(["tools/explore", "--port", "65536"], 2, "", "explore: --port is at most 65535")
    bench.look(["tools/explore", "c.m", "tf.list", "s.mem", "c.m"], 2, "", "explore: too many words")
    script = 'ls -l "${1#file://}" >opening; cat "${1#file://}" >>opening; mv opening opened\n'
    (bench.folder / "browser").write_text(script)
    bench.environment["BROWSER"] = "sh browser %s"
    with serving(bench, "--open") as served:
        opened = bench.folder / "opened"
        told = opened.read_text() if comes(opened.exists) else ""
        bench.is_so(told.startswith("-rw-------") and served.address in told, f"the browser is given {told!r}")
        bench.is_so(served.token not in words_of_all(), "the words of a call tell the token")
        taken = bench.run(["tools/explore", "--port", str(served.port)])
        said = f"explore: port {served.port} can't be used: Address already in use\n"
        bench.is_so((taken.returncode, taken.stderr) == (2, said), f"a port that is taken is told as {taken.stderr!r}")
    del bench.environment["BROWSER"]


def by_http(bench: Bench) -> None:
    """Everything that needs no browser."""
    begun(bench)
    with serving(bench, "c.m") as served:
        for part in (questions, strangers, wrong_questions, headers, floods):
            part(bench, served)


# ---- in a browser


def interpreter() -> str | None:
    """A Python that knows how to drive a browser."""
    for candidate in INTERPRETERS:
        if os.access(candidate, os.X_OK):
            done = subprocess.run([candidate, "-c", "import selenium"], stderr=subprocess.DEVNULL, check=False)
            if done.returncode == 0:
                return candidate
    return None


def in_browser(bench: Bench) -> None:
    """The page as somebody uses it, in Chromium without a screen."""
    python = interpreter() if shutil.which("chromium") and shutil.which("chromedriver") else None
    if python is None:
        print("chromium, chromium-driver or python3-selenium is missing, so the page of explore is tried in no browser")
        return
    with serving(bench, "c.m") as served:
        done = subprocess.run(
            [python, "-m", "tests.integration.browser", served.address],
            cwd=bench.folder,
            env={**bench.environment, "PYTHONPATH": str(ROOT)},
            text=True,
            stdin=subprocess.DEVNULL,
            stdout=subprocess.PIPE,
            stderr=subprocess.STDOUT,
            check=False,
        )
    lines = done.stdout.splitlines()
    for line in lines:
        bench.is_so(line.startswith("ok "), f"explore in a browser: {line}")
    bench.is_so(
        done.returncode == 0 and len(lines) > 20,
        f"the browser's run ends with {done.returncode}: {done.stdout[-600:]}",
    )


PARTS = [by_http, in_browser]
