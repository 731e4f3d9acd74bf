"""A program that begins under its bounds: of memory, of the bytes of each file that it writes, and of what it may
change. `bounded` starts this file by itself, and it becomes the program, so that none of our code runs between fork and
exec beside threads.

Files outside of one folder: Landlock (Linux 5.13 on) takes the right to write there from the program; where that is
missing, a mount namespace of its own does, in which all else is read only (Linux 5.12 on, where the caller may have
one). Where neither is there, nothing holds the program, and the caller has to rest on what it refuses beforehand."""
from __future__ import annotations

import ctypes
import os
import resource
import signal
import struct
import sys

LIBRARY = ctypes.CDLL(None, use_errno=True)
# the numbers of these calls are those of every architecture
MOUNT_SETATTR, CREATE_RULESET, ADD_RULE, RESTRICT_SELF = 442, 444, 445, 446
DIES_WITH_PARENT, NO_NEW_PRIVILEGES, FROM_HERE, RECURSIVE = 1, 38, -100, 0x8000
# rights of Landlock: to write a file; to remove and to make files of each kind; to cut one, from its version 3 on
WRITE_FILE, REMOVE_AND_MAKE, TRUNCATE = 1 << 1, 0x1FF0, 1 << 14
NEW_NAMESPACES, PRIVATE, BIND, READ_ONLY = 0x10020000, 0x44000, 0x1000, 1


def call(number: int, *words: object) -> int:
    """A call of the system; -1 where it is refused or missing."""
    return int(LIBRARY.syscall(ctypes.c_long(number), *words))


def rule(ruleset: int, path: str, rights: int) -> bool:
    """Whether a ruleset now allows these rights below a path."""
    at = os.open(path, os.O_PATH | os.O_CLOEXEC)
    try:
        return call(ADD_RULE, ruleset, 1, ctypes.c_char_p(struct.pack("=Qi", rights, at)), 0) == 0
    finally:
        os.close(at)


def ruleset_of(folder: str) -> int | None:
    """A ruleset of Landlock by which only this folder can be changed, and the null device written; None without
    Landlock."""
    version = call(CREATE_RULESET, None, ctypes.c_size_t(0), 1)
    if version < 1:
        return None
    rights = WRITE_FILE | REMOVE_AND_MAKE | (TRUNCATE if version >= 3 else 0)
    handled = ctypes.create_string_buffer(struct.pack("=Q", rights), 8)
    ruleset = call(CREATE_RULESET, handled, ctypes.c_size_t(8), 0)
    if ruleset < 0:
        return None
    if rule(ruleset, folder, rights) and rule(ruleset, os.devnull, rights & (WRITE_FILE | TRUNCATE)):
        return ruleset
    os.close(ruleset)
    return None


def restrict(ruleset: int) -> bool:
    """Puts this process, and what it begins, under a ruleset."""
    return LIBRARY.prctl(NO_NEW_PRIVILEGES, 1, 0, 0, 0) == 0 and call(RESTRICT_SELF, ruleset, 0) == 0


def mount_again(folder: str) -> bool:
    """Gives this process mounts of its own, of which only that of the folder can be written."""
    name = os.fsencode(os.path.realpath(folder))
    here = os.path.realpath(os.curdir)
    set_it, clear_it = (ctypes.c_char_p(struct.pack("=QQQQ", *bits, 0, 0)) for bits in ((READ_ONLY, 0), (0, READ_ONLY)))
    is_held = (
        LIBRARY.unshare(NEW_NAMESPACES) == 0
        and LIBRARY.mount(b"none", b"/", None, PRIVATE, None) == 0
        and LIBRARY.mount(name, name, None, BIND, None) == 0
        and call(MOUNT_SETATTR, FROM_HERE, ctypes.c_char_p(b"/"), RECURSIVE, set_it, ctypes.c_size_t(32)) == 0
        and call(MOUNT_SETATTR, FROM_HERE, ctypes.c_char_p(name), 0, clear_it, ctypes.c_size_t(32)) == 0
    )
    # the folder that it stands in is still that of the mount before
    os.chdir(here)
    return is_held


def hold(folder: str, ways: list[str]) -> bool:
    """Whether one of these ways now holds this process to a folder."""
    ruleset = ruleset_of(folder) if "landlock" in ways else None
    return ruleset is not None and restrict(ruleset) or "mounts" in ways and mount_again(folder)


def lower(kind: int, most: int) -> None:
    """Bounds something of this process, unless it has a lower bound already."""
    _, hard = resource.getrlimit(kind)
    least = most if hard == resource.RLIM_INFINITY else min(most, hard)
    resource.setrlimit(kind, (least, least))


def main(words: list[str]) -> None:
    """MEMORY OUTPUT WAYS FOLDER PROGRAM WORD..: becomes the program. Without a folder nothing holds its files."""
    memory, output, ways, folder, *program = words
    LIBRARY.prctl(DIES_WITH_PARENT, signal.SIGKILL, 0, 0, 0)
    if folder:
        hold(folder, ways.split(","))
    # Python passes over these two signals, and the program would too
    for number in (signal.SIGPIPE, signal.SIGXFSZ):
        signal.signal(number, signal.SIG_DFL)
    lower(resource.RLIMIT_CORE, 0)
    lower(resource.RLIMIT_FSIZE, int(output))
    lower(resource.RLIMIT_AS, int(memory))
    os.execv(program[0], program)


if __name__ == "__main__":
    main(sys.argv[1:])
