"""Temporary folders. Each goes with the tool that made it. What a killed tool left goes when a later one makes its
first."""
from __future__ import annotations

import atexit
import contextlib
import fcntl
import functools
import os
import pathlib
import re
import secrets
import shutil
import stat
import tempfile
import time
from typing import Iterator

# the names of our folders, which no user's folder has by chance
NAME = re.compile(r"vidlakost-held-[0-9a-f]{16}")
# how a folder is opened that nobody put a link in the place of
FOLDER = os.O_RDONLY | os.O_DIRECTORY | os.O_NOFOLLOW | os.O_CLOEXEC
# those of this process that are there, or about to be: a signal may come between two steps
held: dict[pathlib.Path, int] = {}


def remove(path: pathlib.Path) -> None:
    """Removes a folder, also where a program took rights away in it, or is still ending there."""

    for pause in (0, 0.01, 0.05, 0.2, 1):
        time.sleep(pause)
        shutil.rmtree(path, ignore_errors=True)
        if not path.exists():
            return
        with contextlib.suppress(OSError):
            os.chmod(path, stat.S_IRWXU)
        for place, folders, _ in os.walk(path):
            for inner in (os.path.join(place, name) for name in folders):
                with contextlib.suppress(OSError):
                    if not os.path.islink(inner):
                        os.chmod(inner, stat.S_IRWXU)


def locked(path: pathlib.Path) -> int | None:
    """A folder of the caller's own, opened and locked; None if a process holds it, if it is somebody else's, or if it
    is gone. The lock ends with the process, whatever ends that. It holds across containers, as a process's number does
    not."""
    try:
        number = os.open(path, FOLDER)
    except OSError:
        return None
    try:
        about = os.fstat(number)
        if about.st_uid == os.geteuid():
            fcntl.flock(number, fcntl.LOCK_EX | fcntl.LOCK_NB)
            if os.path.samestat(about, os.lstat(path)):
                return number
    except OSError:
        pass
    os.close(number)
    return None


@functools.lru_cache(maxsize=None)
def sweep(top: pathlib.Path) -> None:
    """Removes what killed tools left there, once in a process."""
    with contextlib.suppress(OSError):
        for name in filter(NAME.fullmatch, os.listdir(top)):
            number = locked(top / name)
            if number is not None:
                remove(top / name)
                os.close(number)


@contextlib.contextmanager
def folder_of_its_own(inside: pathlib.Path | None = None) -> Iterator[pathlib.Path]:
    """A temporary folder that goes whatever happens. It has the name of those that are swept only once it is locked: it
    never has where the file system knows no locks, and stays then if its tool is killed."""
    top, token = pathlib.Path(inside or tempfile.gettempdir()).resolve(), secrets.token_hex(8)
    sweep(top)
    path, kept, number = top / f"vidlakost-begun-{token}", top / f"vidlakost-held-{token}", None
    held.update({path: os.getpid(), kept: os.getpid()})
    try:
        path.mkdir(0o700)
        number = locked(path)
        if number is not None:
            path.rename(kept)
        yield path if number is None else kept
    finally:
        for one in (path, kept):
            remove(one)
            held.pop(one, None)
        if number is not None:
            os.close(number)


@atexit.register
def remove_held() -> None:
    """Removes the folders of this process that a signal kept it from removing."""
    for path, process in list(held.items()):
        if process == os.getpid():
            remove(path)
