"""A server on the loopback address for one page and its questions. It trusts nobody who does not know its token.

A client has to know the token, which is a part of the address. Its `Host` has to name this very address; a page
whose name was bound to the address anew can't do that. For a question, its `Origin` has to be this page. The server
looks up no path in the file system: a table has the answers. Each connection has one request, with limits in bytes
and in time for its head and its body. A client that named the token gets one of the places in which requests are
answered. All others wait before these, without a thread, for a short time; if many wait, the oldest goes."""
from __future__ import annotations

import contextlib
import hmac
import http.server
import io
import json
import secrets
import selectors
import socket
import socketserver
import sys
import threading
import time
from typing import Any, Callable, Dict, Tuple

from vidlakost_tools.explorer.questions import Object, Wrong
from vidlakost_tools.tool import ToolError, tell

CONNECTIONS, WAITING, CALLS = 32, 128, 2
# a request has to begin, within so many bytes, with its method, a blank, and the token between two slashes
METHOD_BYTES, FIRST_BYTES = 16, 4096
HEAD_SECONDS, BODY_SECONDS, WAIT_SECONDS = 3.0, 10.0, 20.0
HEAD_BYTES, BODY_BYTES = 16384, 1 << 20
CONTENT_POLICY = (
    "default-src 'none'; script-src 'self'; style-src 'self'; img-src data:; connect-src 'self'; base-uri 'none'; "
    "form-action 'none'; frame-ancestors 'none'; require-trusted-types-for 'script'"
)
HEADERS = {
    "Content-Security-Policy": CONTENT_POLICY,
    "Cache-Control": "no-store",
    "Cross-Origin-Opener-Policy": "same-origin",
    "Cross-Origin-Resource-Policy": "same-origin",
    "Referrer-Policy": "no-referrer",
    "X-Content-Type-Options": "nosniff",
    "X-Frame-Options": "DENY",
}

# the type and the bytes of a file of the page
Page = Tuple[str, bytes]
Answer = Callable[[Object], Object]


class Refusal(Exception):
    """A refused request, with its status and the words for it."""

    def __init__(self, status: int, message: str):
        super().__init__(message)
        self.status, self.message = status, message


class Reader(io.RawIOBase):
    """What a connection sends, up to a number of bytes and until a moment."""

    def __init__(self, connection: socket.socket, begun: bytes = b""):
        self.connection, self.begun = connection, begun
        self.allow(HEAD_SECONDS, HEAD_BYTES)

    def allow(self, seconds: float, size: int) -> None:
        self.until, self.left = time.monotonic() + seconds, size

    def readable(self) -> bool:
        return True

    def readinto(self, buffer: Any) -> int:
        rest = self.until - time.monotonic()
        if rest <= 0 or self.left <= 0:
            raise socket.timeout("too slow, or too much")
        if self.begun:
            piece = self.begun[: min(len(buffer), self.left)]
            buffer[: len(piece)], self.begun = piece, self.begun[len(piece) :]
            self.left -= len(piece)
            return len(piece)
        self.connection.settimeout(rest)
        got = self.connection.recv_into(memoryview(buffer)[: self.left])
        self.left -= got
        return got


class Explorer(socketserver.ThreadingMixIn, socketserver.TCPServer):
    """The server: the files of the page by name, each with its type, and the functions that answer a question, by its
    name."""

    daemon_threads, block_on_close = True, False
    allow_reuse_address = True
    request_queue_size = 512

    def __init__(self, port: int, pages: dict[str, Page], questions: dict[str, Answer]):
        self.pages, self.questions = pages, questions
        self.token = secrets.token_urlsafe(32)
        self.slots = threading.BoundedSemaphore(CONNECTIONS)
        # for each connection that has not named the token: the moment at which it goes, the oldest first, and what it
        # sent
        self.waiting: Dict[socket.socket, Tuple[float, bytes]] = {}
        # what the connections sent that have named it
        self.begun: Dict[socket.socket, bytes] = {}
        self.calls = threading.BoundedSemaphore(CALLS)
        super().__init__(("127.0.0.1", port), Handler)
        self.host = f"127.0.0.1:{self.server_address[1]}"

    @property
    def address(self) -> str:
        return f"http://{self.host}/{self.token}/"

    def serve_forever(self, poll_interval: float = 0.5) -> None:
        """Takes connections, reads how they begin, and passes on those that name the token."""
        self.socket.setblocking(False)
        with selectors.DefaultSelector() as selector:
            selector.register(self.socket, selectors.EVENT_READ)
            while True:
                for key, _ in selector.select(poll_interval):
                    self.serve(selector, key.fileobj)
                now = time.monotonic()
                for request in [request for request, (until, _) in self.waiting.items() if until < now]:
                    self.drop(selector, request, 408)

    def serve(self, selector: selectors.BaseSelector, ready: object) -> None:
        """A new connection, or one that waits and has sent something. Whatever goes wrong with one, the server goes
        on: a connection of this turn may have gone already, since it had to make room for another."""
        try:
            if ready is self.socket:
                self.take(selector)
            elif isinstance(ready, socket.socket) and ready in self.waiting:
                self.hear(selector, ready)
        except Exception as error:
            tell(f"explore: a connection failed: {type(error).__name__}: {error}")
            if isinstance(ready, socket.socket) and ready in self.waiting:
                self.drop(selector, ready, 503)

    def take(self, selector: selectors.BaseSelector) -> None:
        """A new connection, which waits at first."""
        try:
            request, _ = self.get_request()
        except OSError:
            # it is gone, or too many files are open
            if self.waiting:
                self.drop(selector, next(iter(self.waiting)), 503)
            return
        request.setblocking(False)
        if len(self.waiting) >= WAITING:
            self.drop(selector, next(iter(self.waiting)), 503)
        self.waiting[request] = time.monotonic() + HEAD_SECONDS, b""
        selector.register(request, selectors.EVENT_READ)
        self.hear(selector, request)

    def hear(self, selector: selectors.BaseSelector, request: socket.socket) -> None:
        """What a connection that waits has sent."""
        until, begun = self.waiting[request]
        try:
            piece = request.recv(FIRST_BYTES - len(begun))
        except BlockingIOError:
            return
        except OSError:
            piece = b""
        begun += piece
        self.waiting[request] = until, begun
        known = self.knows(begun)
        if known is False or not piece:
            self.drop(selector, request, 404)
        elif known:
            selector.unregister(request)
            del self.waiting[request]
            request.setblocking(True)
            self.answer(request, begun)

    def knows(self, begun: bytes) -> bool | None:
        """Whether a request names the token; None if that is not known yet. A part of the token gets no answer, so
        nobody can guess it letter by letter."""
        wanted = f"/{self.token}/".encode()
        method, blank, rest = begun.partition(b" ")
        if len(method) > METHOD_BYTES or b"\n" in begun[: METHOD_BYTES + len(wanted)] and len(rest) < len(wanted):
            return False
        if not blank or len(rest) < len(wanted):
            return None
        return hmac.compare_digest(rest[: len(wanted)], wanted)

    def drop(self, selector: selectors.BaseSelector, request: socket.socket, status: int) -> None:
        """Ends a connection that waits."""
        del self.waiting[request]
        with contextlib.suppress(KeyError, ValueError):
            selector.unregister(request)
        self.refuse(request, status)

    def refuse(self, request: socket.socket, status: int) -> None:
        """Sends a status, if that works at once, and ends a connection."""
        lines = [
            f"HTTP/1.0 {status} {http.HTTPStatus(status).phrase}",
            *(f"{name}: {value}" for name, value in HEADERS.items()),
        ]
        try:
            request.setblocking(False)
            request.send("\r\n".join([*lines, "Content-Length: 0", "", ""]).encode())
        except OSError:
            pass
        self.shutdown_request(request)

    def answer(self, request: socket.socket, begun: bytes) -> None:
        """Starts a thread for a connection that has named the token, if one is free and the system gives it."""
        if self.slots.acquire(blocking=False):
            self.begun[request] = begun
            try:
                self.process_request(request, ("127.0.0.1", 0))
                return
            except (RuntimeError, MemoryError):
                # there is no thread, so nobody else gives the place back
                self.begun.pop(request, None)
                self.slots.release()
        self.refuse(request, 503)

    def process_request_thread(self, request: Any, client_address: Any) -> None:
        try:
            super().process_request_thread(request, client_address)
        finally:
            self.begun.pop(request, None)
            self.slots.release()

    def handle_error(self, request: Any, client_address: Any) -> None:
        """Ignores a broken connection, and prints a line for a failure of the server."""
        error = sys.exc_info()[1]
        if not isinstance(error, OSError):
            tell(f"explore: a request failed: {type(error).__name__}: {error}")


class Handler(http.server.BaseHTTPRequestHandler):
    """One request."""

    server: Explorer

    def setup(self) -> None:
        super().setup()
        self.reader = Reader(self.connection, self.server.begun.pop(self.connection, b""))
        self.rfile = io.BufferedReader(self.reader, 4096)

    def version_string(self) -> str:
        return "vidlakost"

    def log_message(self, *_: object) -> None:
        """Logs no request, since its path holds the token."""

    def only(self, name: str) -> str | None:
        """The value of a header that comes at most once."""
        values: list[str] = self.headers.get_all(name) or []
        if len(values) > 1:
            raise Refusal(400, f"{name} stands twice")
        return values[0] if values else None

    def named(self) -> str:
        """What the path names after the token, for a request that comes from this page or opens it."""
        if self.only("Host") != self.server.host:
            raise Refusal(421, "the request names another host")
        origin, site = self.only("Origin"), self.only("Sec-Fetch-Site")
        if origin not in (None, f"http://{self.server.host}"):
            raise Refusal(403, "another page asks")
        before, _, rest = self.path.partition("/")
        token, slash, name = rest.partition("/")
        known = hmac.compare_digest(token.encode("latin-1", "replace"), self.server.token.encode())
        if not known or before or not slash:
            raise Refusal(404, "there is no such page")
        opens = name == "" and self.only("Sec-Fetch-Mode") in (None, "navigate")
        if site not in (None, "same-origin") and not opens:
            raise Refusal(403, "another page asks")
        return name

    def do_GET(self) -> None:
        self.attempt(self.page)

    def do_POST(self) -> None:
        self.attempt(self.question)

    def attempt(self, answer: Callable[[], tuple[int, str, bytes]]) -> None:
        """Sends an answer, or why there is none."""
        try:
            status, kind, content = answer()
        except Refusal as error:
            status, kind, content = error.status, "text/plain", error.message.encode()
        self.reply(status, kind, content)

    def reply(self, status: int, kind: str, content: bytes) -> None:
        self.connection.settimeout(BODY_SECONDS)
        self.send_response(status)
        for name, value in HEADERS.items():
            self.send_header(name, value)
        self.send_header("Content-Type", f"{kind}; charset=utf-8")
        self.send_header("Content-Length", str(len(content)))
        self.end_headers()
        self.wfile.write(content)

    def send_error(self, code: int, message: str | None = None, explain: str | None = None) -> None:
        """Refuses what the library refuses, without the library's page."""
        self.request_version = "HTTP/1.0"
        self.close_connection = True
        self.reply(int(code), "text/plain", b"this request is none of the page's")

    def page(self) -> tuple[int, str, bytes]:
        name = self.named()
        if name not in self.server.pages:
            raise Refusal(404, "there is no such page")
        kind, content = self.server.pages[name]
        return 200, kind, content

    def question(self) -> tuple[int, str, bytes]:
        name = self.named()
        if self.only("Origin") is None:
            raise Refusal(403, "no page asks")
        answer = self.server.questions.get(name)
        if answer is None:
            raise Refusal(404, "there is no such question")
        asked = self.asked()
        if not self.server.calls.acquire(timeout=WAIT_SECONDS):
            raise Refusal(503, "too many questions at once")
        try:
            return 200, "application/json", json.dumps(answer(asked)).encode()
        except Wrong as error:
            raise Refusal(400, str(error)) from error
        except ToolError as error:
            return 200, "application/json", json.dumps({"failed": str(error)}).encode()
        finally:
            self.server.calls.release()

    def asked(self) -> Object:
        """The object that a question sends."""
        if self.only("Content-Type") != "application/json" or self.only("Transfer-Encoding") is not None:
            raise Refusal(415, "a question has to be a JSON object")
        length = self.only("Content-Length") or ""
        if not (length.isascii() and length.isdigit() and len(length) < 10):
            raise Refusal(411, "a question needs its length")
        if int(length) > BODY_BYTES:
            raise Refusal(413, f"a question has at most {BODY_BYTES:,} bytes")
        self.reader.allow(BODY_SECONDS, int(length) + 1)
        try:
            body = self.rfile.read(int(length))
        except socket.timeout as error:
            raise Refusal(408, "the question came too slowly") from error
        try:
            asked = json.loads(body)
        except (ValueError, RecursionError) as error:
            raise Refusal(400, "a question has to be a JSON object") from error
        if len(body) != int(length) or not isinstance(asked, dict):
            raise Refusal(400, "a question has to be a JSON object")
        return asked
