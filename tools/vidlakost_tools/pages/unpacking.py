"""What a release has to be before anything of it runs: an archive whose sum stands beside it, with the files of its
list and no others; and a package that is made of these very files."""
from __future__ import annotations

import gzip
import hashlib
import io
import pathlib
import tarfile
import zlib
from typing import Dict, Iterator, Mapping, Tuple

from vidlakost_tools import bounded
from vidlakost_tools.folder import Folder
from vidlakost_tools.temporary import folder_of_its_own
from vidlakost_tools.text import lines_of, read_bytes, shown
from vidlakost_tools.tool import ToolError

# for each file its bytes, and whether it is a program
Files = Dict[str, Tuple[bytes, bool]]
LIST = "SHA256SUMS"
# the rights of a file of a release, and whether it is a program then
MODES = {0o755: True, 0o644: False}
# the most bytes of an archive, and of what a package unpacks to
MOST = 1 << 28


class Tampered(ToolError):
    """A release that is not as it was made; nothing of it was run."""

    def __init__(self, message: str):
        super().__init__(f"{message}, so nothing of it is run", 1)


def sum_of(content: bytes) -> str:
    return hashlib.sha256(content).hexdigest()


def sums_of(text: str) -> dict[str, str]:
    """The sums of a list, by the names of the files."""
    return {name: wanted for wanted, _, name in (line.partition("  ") for line in lines_of(text))}


def is_inside(name: str) -> bool:
    """Whether a name leads to a file below the folder that it stands in."""
    return all(part not in ("", ".", "..") for part in name.split("/"))


def plain(path: pathlib.Path) -> bytes:
    """The bytes of a plain file. A pipe is not waited for, a link not followed, and one without an end not read."""
    with Folder(path.parent) as folder:
        content = folder.content(path.name, MOST)
    if content is None:
        raise Tampered(f"{path.name} is not there as a plain file of at most {MOST:,} bytes")
    return content


def entries_of(content: bytes, name: str) -> Iterator[tuple[tarfile.TarInfo, bytes | None]]:
    """The members of an archive, with the bytes of those that are plain files. A file with holes is none: it could be
    longer than all that is read."""
    try:
        with tarfile.open(fileobj=io.BytesIO(content), mode="r:") as archive:
            for entry in archive:
                file = archive.extractfile(entry) if entry.type == tarfile.REGTYPE and not entry.issparse() else None
                yield entry, file.read() if file else None
    except (tarfile.TarError, EOFError, ValueError, OSError) as error:
        raise Tampered(f"{name} is no archive that can be read") from error


def unzipped(content: bytes, name: str) -> bytes:
    """What an archive is before it is compressed, where that is not too long."""
    try:
        with gzip.GzipFile(fileobj=io.BytesIO(content)) as file:
            unzipped = file.read(MOST + 1)
    except (EOFError, OSError, zlib.error) as error:
        raise Tampered(f"{name} is no archive that can be read") from error
    if len(unzipped) > MOST:
        raise Tampered(f"{name} unpacks to more than {MOST:,} bytes")
    return unzipped


def member(entry: tarfile.TarInfo, content: bytes | None, top: str) -> tuple[str, tuple[bytes, bool]]:
    """A plain file of an archive: its name below the folder at the top, its bytes, and whether it is a program."""
    before, slash, name = entry.name.partition("/")
    if before != top or not slash or not is_inside(name):
        raise Tampered(f"{shown(entry.name)} of the archive lies outside of {top}")
    if content is None:
        raise Tampered(f"{shown(entry.name)} of the archive is no plain file")
    if entry.mode not in MODES or (entry.uid, entry.gid) != (0, 0):
        raise Tampered(f"{shown(entry.name)} of the archive has rights or an owner that no release gives")
    return name, (content, MODES[entry.mode])


def files_of(path: pathlib.Path, top: str) -> Files:
    """The files of an archive, each looked at before any is written: the sum beside the archive is its sum, and those
    of its list are those of its files, of all of them and of no others."""
    content, beside = plain(path), plain(path.with_name(path.name + ".sha256"))
    if beside != f"{sum_of(content)}  {path.name}\n".encode():
        raise Tampered(f"{path.name} is not the archive whose sum stands beside it")
    files: Files = {}
    for entry, held in entries_of(unzipped(content, path.name), path.name):
        name, file = member(entry, held, top)
        if name in files:
            raise Tampered(f"{shown(name)} is twice in the archive")
        files[name] = file
    refuse_other_sums(files)
    return files


def refuse_other_sums(files: Mapping[str, tuple[bytes, bool]]) -> None:
    """Refuses files that are not those of their list."""
    if LIST not in files:
        raise Tampered(f"the archive has no {LIST}")
    sums = sums_of(files[LIST][0].decode("utf-8", "replace"))
    for name in sorted({*sums, *files} - {LIST}):
        if name not in files or name not in sums or sum_of(files[name][0]) != sums[name]:
            raise Tampered(f"{shown(name)} of the archive is not the file that {LIST} lists")


def unpack(files: Mapping[str, tuple[bytes, bool]], home: pathlib.Path) -> None:
    """Writes the files to a folder of their own, which is not there yet."""
    for name, (content, is_program) in files.items():
        path = home / name
        path.parent.mkdir(parents=True, exist_ok=True)
        path.write_bytes(content)
        path.chmod(0o755 if is_program else 0o644)


def parts_of(package: pathlib.Path) -> dict[str, tuple[str, int, str]]:
    """What a Debian package holds: for each member of both its archives the sum of its bytes or where a link leads, its
    kind and mode, and its owner. Nothing of it runs."""
    found: dict[str, tuple[str, int, str]] = {}
    with folder_of_its_own() as folder:
        (folder / "package").write_bytes(plain(package))
        for part in ("--ctrl-tarfile", "--fsys-tarfile"):
            words = ["dpkg-deb", part, str(folder / "package")]
            call = bounded.Call(words, bounds=bounded.Bounds(output=MOST), is_apart=True, out=folder / "part")
            if bounded.run(call).status != 0:
                raise Tampered(f"{package.name} is no package")
            for entry, content in entries_of(read_bytes(folder / "part", MOST), package.name):
                kind = f"{entry.type!r} {entry.uid} {entry.gid}"
                name = f"{part[2:6]} {entry.name}"
                if name in found:
                    raise Tampered(f"{shown(entry.name)} is twice in {package.name}")
                found[name] = (entry.linkname if content is None else sum_of(content), entry.mode, kind)
    return found


def refuse_another_package(package: pathlib.Path, made: pathlib.Path) -> None:
    """Refuses a package that holds something else than the one that was made of the files of the archive: another file,
    a further script."""
    one, other = parts_of(package), parts_of(made)
    different = sorted(name for name in {*one, *other} if one.get(name) != other.get(name))
    if different:
        raise Tampered(f"{shown(different[0])} of {package.name} is not what the archive's files make")
