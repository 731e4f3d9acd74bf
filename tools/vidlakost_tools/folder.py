"""A folder that is opened once. What is looked at, made and renamed in it is in this very folder, whatever becomes of
its path meanwhile; and no link in it is followed."""
from __future__ import annotations

import contextlib
import os
import pathlib
import re
import secrets
import stat
import time
from typing import Callable, Iterable, Iterator, Mapping

from vidlakost_tools.text import LARGE_BYTES, Path
from vidlakost_tools.tool import ToolError

# temporary files of the tools and of the program, and how long their owner may still run
STAGED = re.compile(r"\.vidlakost-(?:staged-[0-9a-f]{16}|[0-9]{19})")
LEFT_SECONDS = 3600
# how a file is opened that was not there, and a plain file that is only read
NEW = os.O_WRONLY | os.O_CREAT | os.O_EXCL | os.O_NOFOLLOW | os.O_CLOEXEC
OLD = os.O_RDONLY | os.O_NOFOLLOW | os.O_NONBLOCK | os.O_CLOEXEC


class Folder:
    """An opened folder, with the path by which messages name it."""

    def __init__(self, path: pathlib.Path):
        self.path = path
        self.number = os.open(path, os.O_RDONLY | os.O_DIRECTORY | os.O_CLOEXEC)

    def __enter__(self) -> Folder:
        return self

    def __exit__(self, *_: object) -> None:
        os.close(self.number)

    def found(self, name: str) -> os.stat_result | None:
        """What stands under a name: a link itself, not what it leads to."""
        try:
            return os.stat(name, dir_fd=self.number, follow_symlinks=False)
        except FileNotFoundError:
            return None

    def content(self, name: str, most: int = LARGE_BYTES) -> bytes | None:
        """The bytes of a plain file of the folder itself; None of anything else, and of a file that is longer. A pipe
        is not waited for."""
        try:
            number = os.open(name, OLD, dir_fd=self.number)
        except OSError:
            return None
        with open(number, "rb") as file:
            if not stat.S_ISREG(os.fstat(number).st_mode):
                return None
            content = file.read(most + 1)
        return content if len(content) <= most else None

    def text(self, name: str, most: int = LARGE_BYTES) -> str | None:
        content = self.content(name, most)
        return None if content is None else content.decode("utf-8", "replace")

    def stage(self, name: str, text: str) -> str:
        """Makes a new file with the text and with the permissions of the file that it is to replace, and returns its
        name."""
        before = self.found(name)
        if before is not None and not os.access(name, os.W_OK, dir_fd=self.number):
            raise ToolError(f"{self.path / name}: Permission denied")
        return self.stage_bytes(name, text.encode("utf-8"), None)

    def stage_bytes(self, name: str, content: bytes, mode: int | None) -> str:
        """The same of bytes, with these permissions."""
        self.sweep()
        made, before = f".vidlakost-staged-{secrets.token_hex(8)}", self.found(name)
        try:
            number = os.open(made, NEW, 0o600, dir_fd=self.number)
        except OSError as error:
            raise OSError(error.errno, error.strerror, str(self.path / name)) from error
        try:
            with open(number, "wb") as file:
                file.write(content)
                file.flush()
                os.fsync(number)
                os.fchmod(number, permissions(before, os.fstat(number).st_gid) if mode is None else mode)
        except BaseException:
            self.remove(made)
            raise
        return made

    def take(self, staged: str, name: str) -> None:
        """Puts a staged file in its place; a link that stands there goes, and what it leads to stays."""
        os.replace(staged, name, src_dir_fd=self.number, dst_dir_fd=self.number)

    def remove(self, name: str) -> None:
        # a signal may have come right after the renaming
        with contextlib.suppress(FileNotFoundError):
            os.unlink(name, dir_fd=self.number)

    def sweep(self) -> None:
        """Removes what a killed tool or program left: only the caller's own files, and only after an hour."""
        for name in os.listdir(self.number):
            found = self.found(name) if STAGED.fullmatch(name) else None
            if found is None or not stat.S_ISREG(found.st_mode) or found.st_uid != os.geteuid() or found.st_nlink != 1:
                continue
            if time.time() - found.st_mtime > LEFT_SECONDS:
                with contextlib.suppress(OSError):
                    self.remove(name)


def permissions(before: os.stat_result | None, group: int) -> int:
    """The permissions of a new file of this group. If it replaces a file, it gets the permissions of that one. If the
    file had another group, the new group and others get only what both had. Else somebody whom the one kept out could
    come in by the other."""
    if before is None:
        umask = os.umask(0)
        os.umask(umask)
        return 0o666 & ~umask
    mode = before.st_mode & 0o777
    both = mode >> 3 & mode & 0o7
    return mode if before.st_gid == group else mode & 0o700 | both << 3 | both


# ---- writing


def write_whole(target: Path, text: str) -> None:
    """Writes a text to a file. After a full disk or a kill the file still has its old text. A device is written
    directly."""
    write_all({pathlib.Path(target): text})


def write_all(texts: Mapping[pathlib.Path, str]) -> None:
    """Writes several files that the caller named; each takes its place only when the texts of all are on the disk.
    What a link leads to, a device, and a file with several names are written directly."""
    with contextlib.ExitStack() as stack:
        folders: dict[pathlib.Path, Folder] = {}
        for path in texts:
            if path.parent not in folders:
                folders[path.parent] = stack.enter_context(folder_of(path))
        directly = [path for path in texts if is_written_as_it_is(folders[path.parent].found(path.name))]
        staged = [(folders[path.parent], path.name, text) for path, text in texts.items() if path not in directly]
        with staging(staged) as all_are_there:
            for path in directly:
                path.write_text(texts[path], encoding="utf-8")
            all_are_there()


def folder_of(path: pathlib.Path) -> Folder:
    """The folder of a file that is to be written; where it can't be opened, the message names the file."""
    try:
        return Folder(path.parent)
    except OSError as error:
        raise OSError(error.errno, error.strerror, str(path)) from error


@contextlib.contextmanager
def staging(texts: Iterable[tuple[Folder, str, str]]) -> Iterator[Callable[[], None]]:
    """Stages texts, each for a name in a folder. What is given back puts all in their places; those that did not take
    theirs are removed."""
    left: list[tuple[Folder, str, str]] = []

    def take_all() -> None:
        while left:
            folder, made, name = left[0]
            folder.take(made, name)
            del left[0]

    try:
        for folder, name, text in texts:
            left.append((folder, folder.stage(name, text), name))
        yield take_all
    finally:
        for folder, made, _ in left:
            folder.remove(made)


def is_written_as_it_is(found: os.stat_result | None) -> bool:
    return found is not None and (not stat.S_ISREG(found.st_mode) or found.st_nlink > 1)
