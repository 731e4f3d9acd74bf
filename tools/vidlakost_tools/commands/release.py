"""Packs the proved program with its launcher, tools, examples and pages, for machines without the kit.

usage: vidlakost release                  writes dist/vidlakost-VERSION-x86_64-linux.tar.gz, and its checksum beside it
       vidlakost release --prefix DIR     installs into DIR: program and tools in bin, man page, completion
       vidlakost release --deb            writes dist/vidlakost_VERSION_amd64.deb, of the same files
       vidlakost release --unproved       packs, also with --prefix or --deb, a program that is not proved, and says so
       vidlakost release --check          unpacks that archive into an empty folder and tries it there, without the kit
       vidlakost release --help

The archive has the program that `.ci/run` or `./vidlakost --prove` left, or the one that VIDLAKOST_PROGRAM names. The
file `kit` beside that program has to say that it was proved of these sources. Only --unproved packs another program.
Such an archive says so in its name, in RELEASE, in README and with each answer.
The file RELEASE has the commit, the line of the kit that proved the program, and what the program needs of a machine.
SHA256SUMS has each file's checksum. The archive unpacks anywhere, and --prefix also installs from there. The same
sources and the same program give the same bytes, on every machine and with every Python. Files are in the order of
their names, with the time of the commit, without an owner and not compressed.
If there is a Debian package, --check also installs it into a system of its own, tries it, and removes it again."""
from __future__ import annotations

import datetime
import hashlib
import os
import pathlib
import re
import shutil
import struct
import subprocess
import sys
import zlib
from typing import Dict, Iterator, List, Mapping

from vidlakost_tools.folder import Folder
from vidlakost_tools.pages import debian, installing, trusted_pages, unpacking
from vidlakost_tools.pages.debian import PROGRAM
from vidlakost_tools.pages.spec_graph import Graph
from vidlakost_tools.program import ROOT, UNPROVED, proof_of, quick_program, version
from vidlakost_tools.temporary import folder_of_its_own
from vidlakost_tools.text import shown
from vidlakost_tools.tool import ToolError, words_of

PARTS = ["README.md", "CHANGELOG.md", "SECURITY.md", "docs", "examples", "tools", "vidlakost"]
# what `dev/manual` makes, and its options for it
MADE: Dict[str, List[str]] = {
    "share/man/man1/vidlakost.1": [],
    "share/bash-completion/completions/vidlakost": ["--completion"],
}
# the repository's own tools, which only the checkout needs
INNER = {"release"}


# the head of the first page if the program is not known to be proved
WARNING = b"**The program of this archive is unproved: what is said below of proofs does not hold of it.**\n\n"
# the processor that the kit compiles for; no part of the program names it
PROCESSOR = "a processor of x86-64-v2"


def git(*words: str) -> bytes:
    done = subprocess.run(
        ["git", "-C", str(ROOT), *words], stdout=subprocess.PIPE, stderr=subprocess.DEVNULL, check=False
    )
    return done.stdout


def proof(program: str, content: bytes, unproved: bool) -> str:
    """What RELEASE says of the proof of a program. A program that is not known to be proved is refused, unless the call
    asks for one."""
    line = None if unproved else proof_of(program)
    if line is None and not unproved:
        raise ToolError(
            (
                f"nothing says that {shown(program)} was proved of these sources: ./vidlakost --prove makes a proved"
                " program, and --unproved packs this one as unproved"
            ),
            125,
        )
    if content != pathlib.Path(program).read_bytes():
        raise ToolError(f"{shown(program)} has changed meanwhile", 125)
    return f"{UNPROVED[1:]}: nothing says that this program was proved" if line is None else f"proved with {line}"


def needs(content: bytes) -> str:
    """What the program needs of a machine: the newest version of the C library that it names, and the processor."""
    versions = {tuple(map(int, one.split(b"."))) for one in re.findall(rb"GLIBC_([0-9]+\.[0-9]+)", content)}
    library = f"a C library (glibc) of version {'.'.join(map(str, max(versions)))} or later and " if versions else ""
    return f"needs {library}{PROCESSOR}"


def is_unpacked() -> bool:
    return (ROOT / "RELEASE").exists()


def full_version(unproved: bool) -> str:
    """The version, which says whether the program is proved; that of an unpacked release says so already."""
    return f"{version()[0]}{'-unproved' if unproved and not is_unpacked() else ''}"


def release_text(program: str, content: bytes, unproved: bool) -> str:
    _, date, commit = version()
    told = proof(program, content, unproved)
    return f"vidlakost {full_version(unproved)}\ncommit {commit}, {date}\n{told}\n{needs(content)}\n"


def below(parts: list[str]) -> list[str]:
    """The files below some folders, if git does not list them."""
    paths = [
        path for part in parts for path in ([ROOT / part] if (ROOT / part).is_file() else (ROOT / part).rglob("*"))
    ]
    return [str(path.relative_to(ROOT)) for path in paths if path.is_file() and "__pycache__" not in path.parts]


def packed() -> list[str]:
    """The files of this release, and none that somebody put beside them. Each file of the list has to be there, but for
    those that an installation has elsewhere. The launcher is the last one of a list, so that none is cut short."""
    with Folder(ROOT) as folder:
        text = folder.text(unpacking.LIST)
    if text is None:
        raise ToolError(f"{ROOT / unpacking.LIST} is not there as a plain file, so nothing is done", 1)
    names = [unpacking.LIST, *unpacking.sums_of(text)]
    outside = next((name for name in names if not unpacking.is_inside(name)), None)
    if outside is not None:
        raise ToolError(f"{shown(outside)} of the list SHA256SUMS lies outside of the release, so nothing is done", 1)
    there = [name for name in sorted(names) if (ROOT / name).is_file()]
    for name in (PROGRAM, "RELEASE", "vidlakost", *names):
        if name not in there and name not in MADE or name not in names:
            raise ToolError(f"the release has no {name}, or {unpacking.LIST} does not list it, so nothing is done", 125)
    return there


def refuse_changed(files: Mapping[str, tuple[bytes, bool]]) -> None:
    """Refuses to hand on a file of an unpacked release that is not as it was released."""
    sums = unpacking.sums_of(files[unpacking.LIST][0].decode("utf-8", "replace"))
    changed = [name for name, (content, _) in files.items() if unpacking.sum_of(content) != sums.get(name)]
    changed = [name for name in changed if name != unpacking.LIST]
    if changed:
        raise ToolError(f"{shown(changed[0])} is not the file that was released, so nothing is installed", 1)


def tree(unproved: bool) -> dict[str, tuple[bytes, bool]]:
    """For each file of the release: its bytes, and whether it is a program."""
    if is_unpacked():
        files = {name: ((ROOT / name).read_bytes(), os.access(ROOT / name, os.X_OK)) for name in packed()}
        refuse_changed(files)
        return files
    program = quick_program()
    if not program or pathlib.Path(program).read_bytes()[:4] != b"\x7fELF":
        raise ToolError("no proved program is here; ./vidlakost --prove makes one", 125)
    content = pathlib.Path(program).read_bytes()
    told = release_text(program, content, unproved)
    names = [os.fsdecode(name) for name in git("ls-files", "-z", *PARTS).split(b"\0") if name] or below(PARTS)
    files = {name: ((ROOT / name).read_bytes(), os.access(ROOT / name, os.X_OK)) for name in names}
    files[PROGRAM], files["RELEASE"] = (content, True), (told.encode(), False)
    if unproved:
        files["README.md"] = (WARNING + files["README.md"][0], False)
    for name, option in MADE.items():
        made = subprocess.run(
            [sys.executable, str(ROOT / "dev" / "manual"), *option], stdout=subprocess.PIPE, check=True
        )
        files[name] = (made.stdout, False)
    graph = Graph(ROOT)
    files["docs/HEADLINE.md"] = (trusted_pages.headline_page(graph).encode(), False)
    files["docs/OTHERS.md"] = (trusted_pages.others_page(graph).encode(), False)
    sums = "".join(f"{hashlib.sha256(files[name][0]).hexdigest()}  {name}\n" for name in sorted(files))
    files["SHA256SUMS"] = (sums.encode(), False)
    return files


def archive_name(unproved: bool) -> str:
    return f"vidlakost-{full_version(unproved)}-x86_64-linux"


def header(name: str, size: int, time: int, mode: int) -> bytes:
    """The header of a file as `ustar` has it; a long name is cut at a slash."""
    path = os.fsencode(name)
    cut = 0 if len(path) <= 100 else path.index(b"/", len(path) - 101) + 1
    if len(path) - cut > 100 or cut > 156:
        raise ToolError(f"the name {shown(name)} is too long for an archive")
    before, after = path[: max(cut - 1, 0)], path[cut:]
    numbers = (f"{mode:07o}", f"{0:07o}", f"{0:07o}", f"{size:011o}", f"{time:011o}")
    fields = [after.ljust(100, b"\0"), *(f"{number}\0".encode() for number in numbers), b" " * 8, b"0", bytes(100)]
    made = b"".join([*fields, b"ustar\00000", bytes(64), bytes(16), before.ljust(155, b"\0"), bytes(12)])
    return made[:148] + f"{sum(made):06o}\0 ".encode() + made[156:]


def stored(content: bytes) -> bytes:
    """A file of `gzip` in blocks without compression, since libraries compress in different ways."""
    pieces = [content[at : at + 65535] for at in range(0, len(content), 65535)] or [b""]
    blocks = [
        struct.pack("<BHH", number == len(pieces) - 1, len(piece), 65535 - len(piece)) + piece
        for number, piece in enumerate(pieces)
    ]
    head = b"\x1f\x8b\x08" + bytes(6) + b"\xff"
    return head + b"".join(blocks) + struct.pack("<II", zlib.crc32(content), len(content) & 0xFFFFFFFF)


def pack(files: Mapping[str, tuple[bytes, bool]], time: int, top: str) -> bytes:
    """The bytes of the archive. They depend only on the files, the time and the folder at the top."""
    packed = []
    for name in sorted(files):
        content, is_program = files[name]
        packed.append(header(f"{top}/{name}", len(content), time, 0o755 if is_program else 0o644))
        packed += [content, bytes(-len(content) % 512)]
    whole = b"".join([*packed, bytes(1024)])
    return stored(whole + bytes(-len(whole) % 10240))


def write_archive(unproved: bool) -> None:
    if is_unpacked():
        raise ToolError("this is an unpacked release already; --prefix installs it")
    path = ROOT / "dist" / f"{archive_name(unproved)}.tar.gz"
    content = pack(tree(unproved), int(git("log", "-1", "--format=%ct").strip() or 0), archive_name(unproved))
    installing.put(path, content, False)
    beside = f"{hashlib.sha256(content).hexdigest()}  {path.name}\n"
    installing.put(path.with_name(path.name + ".sha256"), beside.encode(), False)
    print(f"{path} {len(content)} bytes")


def deb_path(unproved: bool) -> pathlib.Path:
    return ROOT / "dist" / f"vidlakost_{full_version(unproved)}_amd64.deb"


def package_of(path: pathlib.Path, files: Mapping[str, tuple[bytes, bool]], unproved: bool) -> None:
    """Makes the Debian package of these files."""
    if PROGRAM not in files:
        raise ToolError(f"the release has no {PROGRAM}, so there is nothing to pack", 125)
    time = int(git("log", "-1", "--format=%ct").strip() or 0)
    date = datetime.datetime.fromtimestamp(time, datetime.timezone.utc).strftime("%a, %d %b %Y %H:%M:%S +0000")
    debian.package(path, files, full_version(unproved), needs(files[PROGRAM][0]), time, date, unproved)


def write_deb(unproved: bool) -> None:
    """The Debian package of the same files."""
    path = deb_path(unproved)
    with folder_of_its_own() as folder:
        package_of(folder / path.name, tree(unproved), unproved)
        installing.put(path, (folder / path.name).read_bytes(), False)
    for line in debian.complaints(path):
        print(line)
    print(f"{path} {path.stat().st_size} bytes")


def check_deb(package: pathlib.Path, folder: pathlib.Path, environment: Mapping[str, str]) -> int:
    """Installs the package, tries it, and removes it; returns the number of differences."""
    root = folder / "system"
    said = debian.install(package, root)
    if said:
        print(said)
        return 1
    wrong = try_calls(root / debian.HOME, root / "usr" / "bin", folder / "of_package", environment)
    left = debian.left_behind(root)
    if left:
        print(f"the package leaves {', '.join(left)}")
    return wrong + len(left)


# ---- trying a release


def without_kit(folder: pathlib.Path) -> dict[str, str]:
    """An environment whose PATH has no `rt`, and this very Python."""
    own = folder / "path"
    if not own.exists():
        own.mkdir()
        (own / "python3").symlink_to(sys.executable)
    places = os.environ.get("PATH", os.defpath).split(os.pathsep)
    kept = [place for place in places if not os.access(os.path.join(place, "rt"), os.X_OK)]
    return {"PATH": os.pathsep.join([str(own), *kept, "/usr/bin", "/bin"]), "LC_ALL": "C.UTF-8", "HOME": "/nonexistent"}


def tries(home: pathlib.Path, bin_folder: pathlib.Path) -> Iterator[tuple[list[object], int, str]]:
    """Calls of a release in an empty folder, with the status and a part of what each prints."""
    examples = home / "examples"
    program = str(bin_folder / "vidlakost")
    yield [
        program,
        "compile",
        examples / "c.m",
        examples / "cache.mem",
        examples / "all.list",
        "cache_data_bist.v",
        "report.txt",
    ], 1, "total 48 covered 32 escapes 16"
    yield [program, "bench", examples / "c.m", examples / "buffer.mem"], 0, "fail 0 done 162"
    yield [
        program,
        "judge",
        examples / "c.m",
        "missing.list",
        "report",
    ], 10, "missing.list: error: there is no such file"
    yield [program, "--version"], 0, "needs a C library (glibc) of version 2."
    yield [program, "--prove"], 125, "this is a release"
    yield [program, "help", "compile"], 0, "compile MARCH MEMORY FAULTS VERILOG REPORT"
    yield [program, "--help"], 0, "  trace       why the escapes of a report escape"
    yield [program, "replay", "report.txt", "--run"], 0, "passes"
    # the tool serves its page until it is ended
    yield ["timeout", "--signal=INT", "5", program, "explore"], 124, "http://127.0.0.1:"


def try_calls(
    home: pathlib.Path, bin_folder: pathlib.Path, folder: pathlib.Path, environment: Mapping[str, str]
) -> int:
    wrong = 0
    folder.mkdir()
    for words, status, part in tries(home, bin_folder):
        done = subprocess.run(
            [str(word) for word in words],
            cwd=folder,
            env=environment,
            text=True,
            stdin=subprocess.DEVNULL,
            stdout=subprocess.PIPE,
            stderr=subprocess.STDOUT,
            check=False,
        )
        if done.returncode != status or part not in done.stdout:
            wrong += 1
            print(f"{' '.join(map(str, words))} ends with {done.returncode} and prints:\n{done.stdout}")
    return wrong


def check(unproved: bool) -> int:
    """Looks at the sums of the archive, of its files and of the package first, and runs nothing of another one. Then it
    unpacks the archive and tries it without the kit, and an installation from there."""
    with folder_of_its_own() as folder:
        environment = without_kit(folder)
        if shutil.which("rt", path=environment["PATH"]):
            raise ToolError("the kit is on each PATH that could be tried")
        home = folder / archive_name(unproved)
        files = unpacking.files_of(ROOT / "dist" / f"{archive_name(unproved)}.tar.gz", archive_name(unproved))
        package = deb_path(unproved) if deb_path(unproved).exists() and shutil.which("dpkg") else None
        if package:
            package_of(folder / "made.deb", files, unproved)
            unpacking.refuse_another_package(package, folder / "made.deb")
        unpacking.unpack(files, home)
        wrong = try_calls(home, home, folder / "empty", environment)
        installed = subprocess.run(
            [str(home / "tools" / "release"), "--prefix", str(folder / "prefix")],
            env=environment,
            stdout=subprocess.DEVNULL,
            check=False,
        ).returncode
        wrong += installed != 0 or try_calls(
            folder / "prefix" / "lib" / "vidlakost", folder / "prefix" / "bin", folder / "again", environment
        )
        if package:
            wrong += check_deb(package, folder, environment)
    print(f"the release {archive_name(unproved)}, tried without the kit: {wrong} differences")
    return 1 if wrong else 0


def main(arguments: list[str]) -> int:
    _, options = words_of(__doc__, arguments, {"--prefix": 1, "--check": 0, "--deb": 0, "--unproved": 0}, most=0)
    unproved = "--unproved" in options
    if "--prefix" in options:
        prefix = pathlib.Path(options["--prefix"]).absolute()
        installing.install(prefix, tree(unproved), INNER)
        print(prefix / "bin" / "vidlakost")
        return 0
    if "--check" in options:
        return check(unproved)
    if "--deb" in options:
        write_deb(unproved)
        return 0
    write_archive(unproved)
    return 0
