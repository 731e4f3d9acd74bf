"""A page to try marches on: what they cover as you type, each escape step by step, and the test of a memory.

usage: vidlakost explore [MARCH] [LIST] [MEMORY]     serves the page on this machine alone, and prints its address
       vidlakost explore .. --open                   opens it in the browser as well
       vidlakost explore .. --port N                 takes this port instead of a free one
       vidlakost explore --help

The page begins with the texts of the files, or with short ones. It asks for no file and writes none; the browser keeps
what you save in it. The program gives each answer, and the page says if the program is unproved. Ctrl-C ends the tool.
Whoever has the address can ask. A part of it can't be guessed, and it is good for this run alone."""
from __future__ import annotations

import html
import os
import pathlib
import threading
import webbrowser

from vidlakost_tools.explorer import answers, kept
from vidlakost_tools.explorer.search import Searches
from vidlakost_tools.explorer.server import Explorer
from vidlakost_tools.temporary import folder_of_its_own
from vidlakost_tools.text import shown
from vidlakost_tools.tool import ToolError, number_of, tell, words_of

LIMIT = 1 << 20
OPENED_SECONDS = 60.0


def text_of(name: str) -> str:
    """The text of a file that the page begins with."""
    with open(name, "rb") as file:
        content = file.read(LIMIT + 1)
    if len(content) > LIMIT:
        raise ToolError(f"{shown(name)} has more than {LIMIT:,} bytes, the most that an input has")
    return content.decode("utf-8")


def server_of(words: list[str], port: int, searches: Searches) -> Explorer:
    texts = [text_of(word) for word in words]
    beginning = answers.Beginning(*texts, *[None] * (3 - len(texts)))
    questions = {
        "begin": beginning.answer,
        "judge": answers.judge,
        "inside": answers.inside,
        "complete": answers.complete,
        "trace": answers.trace,
        "links": answers.links,
        "memory": answers.memory,
        "files": answers.files,
        "keep": kept.Keeper(beginning).answer,
        "find": searches.begin,
        "found": searches.heard,
        "stop": searches.stop,
    }
    try:
        return Explorer(port, kept.files(), questions)
    except OSError as error:
        raise ToolError(f"port {port} can't be used: {error.strerror}") from error


def open_in_browser(address: str, folder: pathlib.Path) -> None:
    """Opens the page by a file that leads to it, which only its owner can read. Everybody can read the words of a
    call."""
    path = folder / "explore.html"
    with os.fdopen(os.open(path, os.O_WRONLY | os.O_CREAT | os.O_EXCL, 0o600), "w", encoding="utf-8") as file:
        file.write(f'<!DOCTYPE html>\n<meta http-equiv="refresh" content="0; url={html.escape(address)}">\n')
    if not webbrowser.open(path.as_uri()):
        tell("explore: there is no browser to open; use the address above")
    timer = threading.Timer(OPENED_SECONDS, lambda: path.unlink() if path.exists() else None)
    # which doesn't delay the end
    timer.daemon = True
    timer.start()


def main(arguments: list[str]) -> int:
    words, options = words_of(__doc__, arguments, {"--open": 0, "--port": 1}, most=3)
    port = number_of(options.get("--port", "0"), "--port")
    if port > 65535:
        raise ToolError(f"--port is at most 65535, and not {port}")
    searches = Searches()
    with folder_of_its_own() as folder, server_of(words, port, searches) as server:
        print(server.address, flush=True)
        if "--open" in options:
            open_in_browser(server.address, folder)
        try:
            server.serve_forever()
        except KeyboardInterrupt:
            pass
        finally:
            searches.close()
    return 0
