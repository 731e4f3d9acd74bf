"""A Debian package of a release: the same files below /usr/lib/vidlakost, with the one command, its man page and its
completion in the usual places."""
from __future__ import annotations

import gzip
import os
import pathlib
import re
import shutil
import subprocess
from typing import Mapping

from vidlakost_tools.temporary import folder_of_its_own
from vidlakost_tools.tool import ToolError

HOME = "usr/lib/vidlakost"
PROGRAM = "libexec/vidlakost"
MAINTAINER = "Vidlakost maintainers <maintainers@users.noreply.vidlakost.example>"
CONTROL = """Package: vidlakost
Version: {version}
Architecture: amd64
Maintainer: {maintainer}
Installed-Size: {size}
Depends: {library}, bash (>= 4.4), python3 (>= 3.8)
Suggests: iverilog, verilator, yosys
Section: electronics
Priority: optional
Description: memory BIST compiler with a march coverage prover
 Compiles a march and the description of a memory to a self-test module in
 Verilog, and says which fault primitives of a list the march covers, with
 an escape for each that it does not. {proof}
 It needs {processor}.
"""
COPYRIGHT = """Vidlakost, a memory BIST compiler with a march coverage prover.

Copyright 2026 the maintainers of Vidlakost. The sources of this version name no licence.
"""
# the remarks that lintian would make, and why it is so
OVERRIDES = """# The program is the one that was built, byte for byte, so that its checksum is that of a proof.
vidlakost: unstripped-binary-or-object *
# The pages are read by the command itself, for its help and its explanations.
vidlakost: package-contains-documentation-outside-usr-share-doc *
"""
# what Python caches when root runs the tools is removed with them
PRERM = """#!/bin/sh
set -e
find "${DPKG_ROOT}/usr/lib/vidlakost" -type d -name __pycache__ -prune -exec rm -rf {} +
"""
CHANGELOG = """vidlakost ({version}) unstable; urgency=medium

  * The state of the sources of this version.

 -- {maintainer}  {date}
"""


def zipped(text: bytes) -> bytes:
    """The text as `gzip -n` compresses it, without a time."""
    return gzip.compress(text, 9, mtime=0)


def paths_of(files: Mapping[str, tuple[bytes, bool]], version: str, date: str) -> dict[str, tuple[bytes, bool]]:
    """Where each file of the release goes, and the further files of a package."""
    made = {}
    for name, (content, is_program) in files.items():
        if name.startswith("share/man/"):
            made[f"usr/{name}.gz"] = zipped(content), False
        else:
            made[f"usr/{name}" if name.startswith("share/") else f"{HOME}/{name}"] = content, is_program
    changelog = CHANGELOG.format(version=version, maintainer=MAINTAINER, date=date)
    made["usr/share/doc/vidlakost/changelog.Debian.gz"] = zipped(changelog.encode()), False
    made["usr/share/doc/vidlakost/copyright"] = COPYRIGHT.encode(), False
    made["usr/share/lintian/overrides/vidlakost"] = OVERRIDES.encode(), False
    return made


def control(version: str, needs: str, program: bytes, size: int, unproved: bool) -> str:
    library = re.search(r"version ([0-9.]+)", needs)
    processor = needs.rsplit(" and ", 1)[-1]
    wants = f"libc6 (>= {library[1]})" if library else "libc6"
    wants += ", libgcc-s1" if b"libgcc_s.so.1" in program else ""
    proof = "The program is unproved." if unproved else "The program is proved; the\n tools round it are not."
    return CONTROL.format(
        version=version, maintainer=MAINTAINER, size=size, library=wants, processor=processor, proof=proof
    )


def lay_out(root: pathlib.Path, files: Mapping[str, tuple[bytes, bool]]) -> None:
    for name, (content, is_program) in sorted(files.items()):
        path = root / name
        path.parent.mkdir(parents=True, exist_ok=True)
        path.write_bytes(content)
        path.chmod(0o755 if is_program else 0o644)
    (root / "usr" / "bin").mkdir(parents=True)
    (root / "usr" / "bin" / "vidlakost").symlink_to("../lib/vidlakost/vidlakost")


def package(
    target: pathlib.Path,
    files: Mapping[str, tuple[bytes, bool]],
    version: str,
    needs: str,
    time: int,
    date: str,
    unproved: bool,
) -> None:
    """Writes the package. With one `dpkg-deb` the same files, version and time give the same bytes."""
    if shutil.which("dpkg-deb") is None:
        raise ToolError("dpkg-deb makes a Debian package, and it is not on the PATH")
    with folder_of_its_own() as folder:
        root = folder / "vidlakost"
        placed = paths_of(files, version, date)
        lay_out(root, placed)
        size = sum(-len(content) // 1024 * -1 for content, _ in placed.values())
        (root / "DEBIAN").mkdir()
        (root / "DEBIAN" / "control").write_text(control(version, needs, files[PROGRAM][0], size, unproved))
        (root / "DEBIAN" / "prerm").write_text(PRERM)
        (root / "DEBIAN" / "prerm").chmod(0o755)
        for path in [root, *root.rglob("*")]:
            if path.is_dir():
                path.chmod(0o755)
            os.utime(path, (time, time), follow_symlinks=False)
        words = ["dpkg-deb", "--root-owner-group", "-Zxz", "--build", str(root), str(target)]
        environment = {**os.environ, "SOURCE_DATE_EPOCH": str(time)}
        done = subprocess.run(
            words, env=environment, stdout=subprocess.PIPE, stderr=subprocess.STDOUT, text=True, check=False
        )
        if done.returncode:
            raise ToolError(f"dpkg-deb fails: {done.stdout.strip()}", 1)


# ---- trying a package


def dpkg(root: pathlib.Path, *words: str) -> str:
    """A call of `dpkg` on a system of its own below a folder; returns the message if it fails."""
    forced = ["--force-depends", "--force-not-root", "--force-bad-path", "--force-script-chrootless"]
    form = ["dpkg", f"--root={root}", *forced, *words]
    done = subprocess.run(form, stdout=subprocess.PIPE, stderr=subprocess.STDOUT, text=True, check=False)
    return done.stdout if done.returncode else ""


def install(target: pathlib.Path, root: pathlib.Path) -> str:
    """Installs a package into an empty system below a folder."""
    for folder in ("info", "updates", "triggers"):
        (root / "var" / "lib" / "dpkg" / folder).mkdir(parents=True)
    for file in ("status", "available"):
        (root / "var" / "lib" / "dpkg" / file).write_text("")
    return dpkg(root, "--install", str(target))


def left_behind(root: pathlib.Path) -> list[str]:
    """Removes the package again; returns what is left of it."""
    said = dpkg(root, "--purge", "vidlakost")
    there = [
        str(path.relative_to(root)) for path in sorted(root.rglob("*")) if path.relative_to(root).parts[0] != "var"
    ]
    return [*([said] if said else []), *there]


def complaints(target: pathlib.Path) -> list[str]:
    """What lintian says about a package, if lintian is installed."""
    if shutil.which("lintian") is None:
        return []
    done = subprocess.run(
        ["lintian", str(target)], stdout=subprocess.PIPE, stderr=subprocess.STDOUT, text=True, check=False
    )
    return [line for line in done.stdout.splitlines() if line.startswith(("E:", "W:"))]
