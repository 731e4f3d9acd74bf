"""An installation of a release below a prefix: all files in lib/vidlakost, and links in the usual places. Nothing that
an installation did not write is replaced, and no link is written through."""
from __future__ import annotations

import os
import pathlib
from typing import Collection, Mapping

from vidlakost_tools.folder import Folder
from vidlakost_tools.pages.unpacking import LIST, sum_of, sums_of
from vidlakost_tools.tool import ToolError

HOME = "lib/vidlakost"


def place_of(prefix: pathlib.Path, name: str) -> pathlib.Path:
    """Where a file of a release goes."""
    return prefix / name if name.startswith("share/") else prefix / HOME / name


def links_of(files: Mapping[str, tuple[bytes, bool]], inner: Collection[str]) -> dict[str, str]:
    """The links in bin, with what they lead to: the launcher, and each tool but those that only a checkout needs."""
    programs = [name for name, (_, is_program) in files.items() if is_program and name.startswith("tools/")]
    tools = [name[len("tools/") :] for name in programs]
    return {
        "vidlakost": f"../{HOME}/vidlakost",
        **{f"vidlakost-{tool}": f"../{HOME}/tools/{tool}" for tool in tools if tool not in inner},
    }


def installed_sums(prefix: pathlib.Path) -> dict[str, str]:
    """The sums of what an earlier installation wrote."""
    path = prefix / HOME / LIST
    return sums_of(path.read_text(encoding="utf-8", errors="replace")) if path.is_file() else {}


def is_older(path: pathlib.Path, wanted: str | None) -> bool:
    """Whether an earlier installation wrote a file, and nobody changed it since."""
    return not path.is_symlink() and path.is_file() and sum_of(path.read_bytes()) == wanted


def is_list_of_ours(prefix: pathlib.Path) -> bool:
    """Whether the list that stands there is that of an installation: a plain file that has the sum of RELEASE beside
    it."""
    home = prefix / HOME
    return not (home / LIST).is_symlink() and is_older(home / "RELEASE", installed_sums(prefix).get("RELEASE"))


def refuse_strangers(prefix: pathlib.Path, files: Collection[str], links: Mapping[str, str]) -> None:
    """Refuses before anything is written: a link in the place of a folder, a file that no installation wrote, and one
    in bin that is no link of ours."""
    sums = installed_sums(prefix)
    for name in files:
        path = place_of(prefix, name)
        for folder in path.parents:
            if folder == prefix:
                break
            if folder.is_symlink() and folder not in (prefix / "lib", prefix / "share"):
                raise ToolError(f"{folder} is a link, so nothing is installed")
        is_ours = is_list_of_ours(prefix) if name == LIST else is_older(path, sums.get(name))
        if os.path.lexists(path) and not is_ours:
            raise ToolError(f"{path} is there and no installation wrote it, or it was changed, so nothing is installed")
    for name, target in links.items():
        path = prefix / "bin" / name
        if (path.is_symlink() or path.exists()) and not (path.is_symlink() and os.readlink(path) == target):
            raise ToolError(f"{path} is there and is no link of an installation, so nothing is installed")


def make_folder(path: pathlib.Path) -> None:
    """Makes a folder and those above it, which everyone may look into, whatever the installer's umask is."""
    if not path.is_dir():
        make_folder(path.parent)
        path.mkdir()
        path.chmod(0o755)


def put(path: pathlib.Path, content: bytes, is_program: bool) -> None:
    """Writes a file beside its place, and renames it there."""
    make_folder(path.parent)
    with Folder(path.parent) as folder:
        made = folder.stage_bytes(path.name, content, 0o755 if is_program else 0o644)
        try:
            folder.take(made, path.name)
        except BaseException:
            folder.remove(made)
            raise


def install(prefix: pathlib.Path, files: Mapping[str, tuple[bytes, bool]], inner: Collection[str]) -> None:
    """Puts the files of a release below the prefix; the list of their sums comes last."""
    links = links_of(files, inner)
    refuse_strangers(prefix, files, links)
    for name in sorted(files, key=lambda it: it == LIST):
        put(place_of(prefix, name), *files[name])
    make_folder(prefix / "bin")
    for name, target in links.items():
        path = prefix / "bin" / name
        if not path.is_symlink():
            path.symlink_to(target)
