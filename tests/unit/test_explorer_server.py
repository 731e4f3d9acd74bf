"""The server of the page of `explore`, asked over its socket: who may ask, what is answered, and what is refused."""
from __future__ import annotations

import contextlib
import http.client
import json
import random
import socket
import struct
import threading
import time
import unittest
from typing import Any
from unittest import mock

from vidlakost_tools.explorer import server
from vidlakost_tools.explorer.questions import Object, Wrong
from vidlakost_tools.explorer.server import Explorer
from vidlakost_tools.tool import ToolError

PAGES = {"": ("text/html", b"<p>page</p>"), "page.css": ("text/css", b"p {}")}


def twice(question: Object) -> Object:
    """The answer of a question here: some wrong ones are none of the page's, or fail."""
    if question.get("number") == "x":
        raise Wrong("number is a number")
    if question.get("number") == 0:
        raise ToolError("0 has no answer")
    return {"twice": 2 * question["number"]}


class Served(unittest.TestCase):
    server: Explorer
    place: tuple[str, int]
    origin: str

    @classmethod
    def setUpClass(cls) -> None:
        cls.server = Explorer(0, PAGES, {"twice": twice})
        cls.origin = f"http://{cls.server.host}"
        cls.place = "127.0.0.1", int(cls.server.host.split(":")[1])
        threading.Thread(target=cls.server.serve_forever, args=(0.05,), daemon=True).start()
        cls.addClassCleanup(cls.server.server_close)

    def take_all(self, places: threading.BoundedSemaphore, count: int) -> None:
        """Takes places for as long as a test goes."""
        for _ in range(count):
            places.acquire()
            self.addCleanup(places.release)

    def ask(
        self, method: str, name: str, body: bytes | None = None, token: str = "", **headers: str
    ) -> tuple[int, bytes]:
        """The status and the body of an answer; `_` in the name of a header stands for -."""
        connection = http.client.HTTPConnection(*self.place, timeout=10)
        with contextlib.closing(connection):
            path = f"/{token or self.server.token}/{name}"
            connection.request(method, path, body, {key.replace("_", "-"): value for key, value in headers.items()})
            answer = connection.getresponse()
            self.headers = dict(answer.getheaders())
            return answer.status, answer.read()

    def question(self, asked: Any, **headers: str) -> tuple[int, bytes]:
        body = asked if isinstance(asked, bytes) else json.dumps(asked).encode()
        own = {"Origin": self.origin, "Content_Type": "application/json", **headers}
        return self.ask("POST", "twice", body, **own)

    def say(self, *pieces: bytes) -> bytes:
        """What comes back for some bytes of a connection, which waits a little between them."""
        with socket.create_connection(self.place, timeout=10) as connection:
            for piece in pieces:
                connection.sendall(piece)
                time.sleep(0.02)
            return b"".join(iter(lambda: connection.recv(4096), b""))


class Pages(Served):
    def test_files_of_the_page(self) -> None:
        self.assertEqual(self.ask("GET", ""), (200, b"<p>page</p>"))
        self.assertEqual(self.headers["Content-Type"], "text/html; charset=utf-8")
        self.assertIn("default-src 'none'", self.headers["Content-Security-Policy"])
        self.assertEqual(self.ask("GET", "page.css"), (200, b"p {}"))
        self.assertEqual(self.server.address, f"{self.origin}/{self.server.token}/")

    def test_what_is_no_file(self) -> None:
        for name in ("page", "../page.css", "twice"):
            self.assertEqual(self.ask("GET", name), (404, b"there is no such page"))

    def test_token_is_wanted(self) -> None:
        """Nothing is said of a part of it, nor of what stands behind another one."""
        token = self.server.token
        for wrong in ("x" * len(token), token[:-1], f"{token}x", "x"):
            self.assertEqual(self.ask("GET", "", token=wrong), (404, b""), wrong)

    def test_who_asks(self) -> None:
        refused = [
            (421, {"Host": "localhost"}),
            (403, {"Origin": "http://example.org"}),
            (403, {"Sec_Fetch_Site": "cross-site", "Sec_Fetch_Mode": "no-cors"}),
        ]
        for status, headers in refused:
            with self.subTest(headers=headers):
                self.assertEqual(self.ask("GET", "", None, "", **headers)[0], status)
        # a link of another page may open it
        self.assertEqual(self.ask("GET", "", Sec_Fetch_Site="cross-site", Sec_Fetch_Mode="navigate")[0], 200)
        self.assertEqual(self.ask("GET", "page.css", Sec_Fetch_Site="cross-site", Sec_Fetch_Mode="navigate")[0], 403)

    def test_other_methods(self) -> None:
        self.assertEqual(self.ask("PUT", "", b"{}"), (501, b"this request is none of the page's"))


class Questions(Served):
    def test_answers(self) -> None:
        self.assertEqual(self.question({"number": 3}), (200, b'{"twice": 6}'))
        self.assertEqual(self.question({"number": "x"}), (400, b"number is a number"))
        self.assertEqual(self.question({"number": 0}), (200, b'{"failed": "0 has no answer"}'))
        self.assertEqual(self.ask("POST", "thrice", b"{}", Origin=self.origin)[0], 404)

    def test_what_is_no_question(self) -> None:
        none = (400, b"a question has to be a JSON object")
        for text in (b"", b"[1]", b"{", b"1", b"[" * 5000):
            self.assertEqual(self.question(text), none, text[:9])
        self.assertEqual(self.question({}, Content_Type="text/plain")[0], 415)
        self.assertEqual(self.question({}, Content_Length="x")[0], 411)
        self.assertEqual(self.question({}, Content_Length=str(server.BODY_BYTES + 1))[0], 413)
        # a page has to say that it is this one
        self.assertEqual(self.ask("POST", "twice", b"{}", Content_Type="application/json"), (403, b"no page asks"))

    def test_header_that_stands_twice(self) -> None:
        lines = [f"GET /{self.server.token}/ HTTP/1.0", *[f"Host: {self.server.host}"] * 2, "", ""]
        said = self.say("\r\n".join(lines).encode())
        self.assertTrue(said.startswith(b"HTTP/1.0 400 ") and said.endswith(b"Host stands twice"), said)

    def test_question_that_comes_too_slowly(self) -> None:
        head = f"POST /{self.server.token}/twice HTTP/1.0\r\nHost: {self.server.host}\r\nOrigin: {self.origin}\r\n"
        head += "Content-Type: application/json\r\nContent-Length: 9\r\n\r\n{"
        with mock.patch.object(server, "BODY_SECONDS", 0.05):
            self.assertIn(b"the question came too slowly", self.say(head.encode()))

    def test_too_many_questions_at_once(self) -> None:
        with mock.patch.object(server, "WAIT_SECONDS", 0.01):
            self.take_all(self.server.calls, server.CALLS)
            self.assertEqual(self.question({"number": 3}), (503, b"too many questions at once"))


class Waits(Served):
    def test_request_that_comes_in_pieces(self) -> None:
        rest = f" /{self.server.token}/ HTTP/1.0\r\nHost: {self.server.host}\r\n\r\n".encode()
        said = self.say(b"GE", b"T", rest[:9], rest[9:])
        self.assertTrue(said.startswith(b"HTTP/1.0 200 ") and said.endswith(b"<p>page</p>"), said)

    def test_what_names_no_token_goes(self) -> None:
        """Known at once where it can't be one any more, else when its time is over."""
        for begun in (b"GET /x\r\n", b"A" * 20, b"GET /" + b"x" * 60):
            self.assertTrue(self.say(begun).startswith(b"HTTP/1.0 404 "), begun)
        with mock.patch.object(server, "HEAD_SECONDS", 0.05):
            self.assertTrue(self.say(b"GET").startswith(b"HTTP/1.0 408 "))

    def test_oldest_that_waits_goes_where_many_wait(self) -> None:
        with mock.patch.object(server, "WAITING", 1):
            with socket.create_connection(self.place, timeout=10) as first:
                time.sleep(0.05)
                with socket.create_connection(self.place, timeout=10):
                    self.assertTrue(first.recv(4096).startswith(b"HTTP/1.0 503 "))

    def test_places_are_bounded(self) -> None:
        self.take_all(self.server.slots, server.CONNECTIONS)
        self.assertEqual(self.ask("GET", "")[0], 503)

    def test_failure_is_told_in_a_line(self) -> None:
        with mock.patch.object(server, "tell") as tell:
            try:
                raise KeyError("x")
            except KeyError:
                self.server.handle_error(None, None)
            try:
                raise BrokenPipeError
            except BrokenPipeError:
                self.server.handle_error(None, None)
        tell.assert_called_once_with("explore: a request failed: KeyError: 'x'")


class Survives(Served):
    """Whatever connections do, the server goes on."""

    def opened(self, chance: random.Random) -> socket.socket:
        """A connection that has sent the front of a request, of the right one or of something else."""
        connection = socket.create_connection(self.place, timeout=10)
        token = self.server.token if chance.random() < 0.5 else "x" * 43
        whole = f"GET /{token}/ HTTP/1.1\r\nHost: {self.server.host}\r\n\r\n".encode()
        front = whole[: chance.randrange(len(whole) + 1)]
        if chance.random() < 0.2:
            front = bytes(chance.randrange(256) for _ in range(60))
        if front:
            connection.sendall(front)
        return connection

    def left(self, connection: socket.socket, chance: random.Random) -> None:
        """Ends a connection in one of the ways in which it can end: closed, broken off, or half open before that."""
        way = chance.randrange(3)
        with contextlib.suppress(OSError):
            if way == 1:
                connection.setsockopt(socket.SOL_SOCKET, socket.SO_LINGER, struct.pack("ii", 1, 0))
            elif way == 2:
                connection.shutdown(socket.SHUT_WR)
        connection.close()

    def test_ten_thousand_connections(self) -> None:
        chance = random.Random(7)
        for _ in range(250):
            many = []
            for _ in range(40):
                with contextlib.suppress(OSError):
                    many.append(self.opened(chance))
            chance.shuffle(many)
            for connection in many:
                self.left(connection, chance)
        self.assertEqual(self.ask("GET", "")[0], 200)

    def test_connection_that_goes_in_the_turn_in_which_it_is_served(self) -> None:
        """A new one takes the place of the oldest, which has sent something meanwhile."""
        ready = [socket.create_connection(self.place, timeout=10) for _ in range(3)]
        with mock.patch.object(server, "WAITING", 1):
            for _ in range(20):
                ready += [socket.create_connection(self.place, timeout=10) for _ in range(8)]
                for connection in ready[-8:]:
                    with contextlib.suppress(OSError):
                        connection.sendall(b"G")
        for connection in ready:
            connection.close()
        self.assertEqual(self.ask("GET", "")[0], 200)

    def test_without_a_thread(self) -> None:
        with mock.patch.object(self.server, "process_request", side_effect=RuntimeError("can't start new thread")):
            self.assertEqual(self.ask("GET", "")[0], 503)
        self.assertEqual(self.ask("GET", "")[0], 200)
