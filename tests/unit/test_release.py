"""What is looked at of a release before anything of it runs, and an installation from an unpacked one."""
from __future__ import annotations

import contextlib
import gzip
import hashlib
import io
import os
import pathlib
import shutil
import subprocess
import sys
import tarfile
import tempfile
import unittest
from typing import Iterable
from unittest import mock

from vidlakost_tools.commands import release
from vidlakost_tools.commands.release import pack
from vidlakost_tools.pages import debian, installing, unpacking
from vidlakost_tools.program import tagged
from vidlakost_tools.tool import ToolError

ROOT = pathlib.Path(__file__).resolve().parent.parent.parent
RELEASE = "from vidlakost_tools.tool import command; command('release')"
TOP = "vidlakost-1-x86_64-linux"
PROGRAM = "libexec/vidlakost"


def sum_of(content: bytes) -> str:
    return hashlib.sha256(content).hexdigest()


def released(**changed: bytes) -> dict[str, tuple[bytes, bool]]:
    """The files of a small release with their list; what is changed is not as the list has it."""
    files = {"README.md": (b"read me\n", False), PROGRAM: (b"program\n", True), "vidlakost": (b"launcher\n", True)}
    files["RELEASE"] = b"vidlakost 1\n", False
    files["SHA256SUMS"] = "".join(f"{sum_of(files[name][0])}  {name}\n" for name in sorted(files)).encode(), False
    for name, content in changed.items():
        files[name] = content, files.get(name, (b"", False))[1]
    return files


class Installation(unittest.TestCase):
    def test_a_version_is_the_newest_tag(self) -> None:
        self.assertEqual(tagged("v1.2-0-gabc0123"), "1.2")
        self.assertEqual(tagged("v1.2-rc-3-gabc0123"), "1.2-rc+3.gabc0123")
        self.assertEqual(tagged(""), "")

    def test_what_somebody_put_beside_a_release_is_not_installed(self) -> None:
        with tempfile.TemporaryDirectory() as name:
            home = pathlib.Path(name)
            shutil.copytree(ROOT / "tools" / "vidlakost_tools", home / "tools" / "vidlakost_tools")
            shutil.copy(ROOT / "tools" / "release", home / "tools")
            (home / "RELEASE").write_text("vidlakost 1\ncommit a, b\n")
            (home / "libexec").mkdir()
            for one in (PROGRAM, "vidlakost"):
                (home / one).write_text("program\n")
            listed = (PROGRAM, "RELEASE", "tools/release", "vidlakost")
            sums = [f"{sum_of((home / one).read_bytes())}  {one}\n" for one in listed]
            (home / "SHA256SUMS").write_text("".join([*sums, "0  share/man/man1/vidlakost.1\n"]))
            (home / "mine.txt").write_text("mine\n")
            for _ in range(2):
                words = [sys.executable, str(home / "tools" / "release"), "--prefix", "local"]
                subprocess.run(words, cwd=home, check=True, stdout=subprocess.DEVNULL)
            files = [path.relative_to(home / "local") for path in (home / "local").rglob("*") if path.is_file()]
            kept = pathlib.Path("lib", "vidlakost")
            wanted = [pathlib.Path("bin", "vidlakost"), *(kept / one for one in (*listed, "SHA256SUMS"))]
            self.assertEqual(sorted(files), sorted(wanted))
            (home / "tools" / "release").write_text("another\n")
            done = subprocess.run(
                [sys.executable, "-c", f"import sys; sys.argv = ['release', '--prefix', 'again']; exec({RELEASE!r})"],
                cwd=home,
                env={"PYTHONPATH": str(home / "tools")},
                stderr=subprocess.PIPE,
                text=True,
                check=False,
            )
            self.assertEqual(done.returncode, 1, done.stderr)
            self.assertIn("'tools/release' is not the file that was released", done.stderr)
            self.assertFalse((home / "again").exists())


class Unpacked(unittest.TestCase):
    def setUp(self) -> None:
        made = tempfile.TemporaryDirectory()
        self.addCleanup(made.cleanup)
        self.folder = pathlib.Path(made.name)
        self.path = self.folder / f"{TOP}.tar.gz"

    def put(self, content: bytes, told: bytes | None = None) -> None:
        self.path.write_bytes(content)
        beside = self.path.with_name(self.path.name + ".sha256")
        beside.write_text(f"{sum_of(content if told is None else told)}  {self.path.name}\n")

    def refused(self, part: str) -> None:
        with self.assertRaises(unpacking.Tampered) as caught:
            unpacking.files_of(self.path, TOP)
        self.assertIn(part, str(caught.exception))

    def test_what_was_made_is_taken(self) -> None:
        self.put(pack(released(), 0, TOP))
        self.assertEqual(unpacking.files_of(self.path, TOP), released())

    def test_another_archive_than_that_of_the_sum(self) -> None:
        self.put(pack(released(), 0, TOP), pack(released(), 1, TOP))
        self.refused("is not the archive whose sum stands beside it")
        self.path.with_name(self.path.name + ".sha256").unlink()
        self.refused(".sha256 is not there as a plain file")

    def test_pipes_are_not_waited_for(self) -> None:
        for name in (self.path.name, self.path.name + ".sha256"):
            self.put(pack(released(), 0, TOP))
            self.path.with_name(name).unlink()
            os.mkfifo(self.path.with_name(name))
            self.refused(f"{name} is not there as a plain file")
            self.path.with_name(name).unlink()

    def test_what_is_no_archive(self) -> None:
        whole = pack(released(), 0, TOP)
        large = tarfile.TarInfo(f"{TOP}/large")
        large.size = 1 << 40
        for content in (b"", b"no archive", whole[:-9000], gzip.compress(large.tobuf())):
            self.put(content)
            self.refused("is no archive that can be read")

    def test_an_archive_that_unpacks_to_much(self) -> None:
        self.put(gzip.compress(bytes(99999)))
        with mock.patch.object(unpacking, "MOST", 9000):
            self.refused("unpacks to more than 9,000 bytes")

    def test_rights_and_owners_that_no_release_gives(self) -> None:
        for mode, owner in ((0o4755, 0), (0o777, 0), (0o600, 0), (0o644, 1)):
            entry = tarfile.TarInfo(f"{TOP}/x")
            entry.mode, entry.uid = mode, owner
            self.archive([entry])
            self.refused("has rights or an owner that no release gives")

    def test_files_that_are_not_those_of_the_list(self) -> None:
        changed = released()
        changed[PROGRAM] = b"stub\n", True
        fewer = {name: file for name, file in released().items() if name != "vidlakost"}
        more = {**released(), "tools/more": (b"", True)}
        for files in (changed, fewer, more):
            self.put(pack(files, 0, TOP))
            self.refused("is not the file that SHA256SUMS lists")
        self.put(pack({name: file for name, file in released().items() if name != "SHA256SUMS"}, 0, TOP))
        self.refused("has no SHA256SUMS")

    def archive(self, entries: Iterable[tarfile.TarInfo]) -> None:
        """An archive with further members behind those of a release."""
        whole = io.BytesIO()
        with tarfile.open(fileobj=whole, mode="w") as archive:
            for name, (content, _) in released().items():
                entry = tarfile.TarInfo(f"{TOP}/{name}")
                entry.size = len(content)
                archive.addfile(entry, io.BytesIO(content))
            for entry in entries:
                archive.addfile(entry, io.BytesIO(bytes(entry.size)))
        self.put(gzip.compress(whole.getvalue()))

    def test_members_outside(self) -> None:
        for name in ("/etc/x", f"{TOP}/../x", f"{TOP}/a/../../../x", "x", f"{TOP}2/x", f"{TOP}//x", f"{TOP}/./x", TOP):
            self.archive([tarfile.TarInfo(name)])
            self.refused("lies outside")

    def test_links_and_devices_and_twins(self) -> None:
        for kind in (tarfile.SYMTYPE, tarfile.LNKTYPE, tarfile.CHRTYPE, tarfile.FIFOTYPE, tarfile.DIRTYPE):
            entry = tarfile.TarInfo(f"{TOP}/x")
            entry.type, entry.linkname = kind, f"{TOP}/vidlakost"
            self.archive([entry])
            self.refused("is no plain file")
        self.archive([tarfile.TarInfo(f"{TOP}/vidlakost")])
        self.refused("is twice in the archive")

    @unittest.skipIf(shutil.which("dpkg-deb") is None, "dpkg-deb makes a package")
    def test_a_package_of_other_files_or_with_a_script(self) -> None:
        one, other = self.folder / "one.deb", self.folder / "other.deb"
        needs = "needs a C library (glibc) of version 2.34 or later and a processor"
        for path, files in ((one, released()), (other, {**released(), PROGRAM: (b"stub\n", True)})):
            debian.package(path, files, "1", needs, 0, "today", False)
        unpacking.refuse_another_package(one, one)
        with self.assertRaisesRegex(unpacking.Tampered, "libexec/vidlakost"):
            unpacking.refuse_another_package(other, one)
        root = self.folder / "root"
        subprocess.run(["dpkg-deb", "--raw-extract", str(one), str(root)], check=True)
        (root / "DEBIAN" / "postinst").write_text("#!/bin/sh\n")
        (root / "DEBIAN" / "postinst").chmod(0o755)
        words = ["dpkg-deb", "--root-owner-group", "--build", str(root), str(other)]
        subprocess.run(words, check=True, stdout=subprocess.DEVNULL)
        with self.assertRaisesRegex(unpacking.Tampered, "postinst"):
            unpacking.refuse_another_package(other, one)


class Installed(unittest.TestCase):
    def setUp(self) -> None:
        made = tempfile.TemporaryDirectory()
        self.addCleanup(made.cleanup)
        self.prefix = pathlib.Path(made.name) / "local"
        self.home = self.prefix / "lib" / "vidlakost"

    def test_an_installation_replaces_its_own(self) -> None:
        files = {**released(), "share/man/man1/vidlakost.1": (b"man\n", False), "tools/trace": (b"tool\n", True)}
        sums = files["SHA256SUMS"][0] + f"{sum_of(b'man' + bytes([10]))}  share/man/man1/vidlakost.1\n".encode()
        files["SHA256SUMS"] = sums + f"{sum_of(b'tool' + bytes([10]))}  tools/trace\n".encode(), False
        for _ in range(2):
            installing.install(self.prefix, files, ())
        self.assertEqual((self.prefix / "bin" / "vidlakost").read_text(), "launcher\n")
        self.assertEqual((self.prefix / "bin" / "vidlakost-trace").read_text(), "tool\n")
        self.assertEqual((self.prefix / "share/man/man1/vidlakost.1").read_text(), "man\n")
        (self.home / "README.md").write_text("mine\n")
        self.refused("was changed")
        self.assertEqual((self.home / "README.md").read_text(), "mine\n")

    def refused(self, part: str) -> None:
        with self.assertRaises(ToolError) as caught:
            installing.install(self.prefix, released(), ())
        self.assertIn(part, str(caught.exception))

    def test_what_others_put_there_stays(self) -> None:
        outside = self.prefix.parent / "outside"
        outside.mkdir()
        (outside / "vidlakost").write_text("mine\n")
        (self.prefix / "bin").mkdir(parents=True)
        for place in (self.prefix / "bin" / "vidlakost", self.prefix / "bin" / "vidlakost"):
            place.write_text("mine\n")
            self.refused("no link of an installation")
            self.assertEqual(place.read_text(), "mine\n")
            place.unlink()
            place.symlink_to(outside / "vidlakost")
            self.refused("no link of an installation")
            place.unlink()
        self.home.parent.mkdir()
        self.home.symlink_to(outside)
        self.refused("is a link")
        self.home.unlink()
        self.home.mkdir()
        (self.home / "vidlakost").symlink_to(outside / "vidlakost")
        self.refused("no installation wrote it")
        self.assertEqual((outside / "vidlakost").read_text(), "mine\n")

    def test_a_list_of_others_stays(self) -> None:
        """A list of sums in the place of ours, with or without a RELEASE beside it that it doesn't list."""
        self.home.mkdir(parents=True)
        mine, other = self.home / "SHA256SUMS", self.home / "RELEASE"
        for text in ("mine\n", f"{sum_of(b'mine')}  mine\n", f"{sum_of(b'other')}  RELEASE\n"):
            mine.write_text(text)
            self.refused("no installation wrote it")
            self.assertEqual(mine.read_text(), text)
            self.assertFalse(other.exists())


class Handed(unittest.TestCase):
    def home(self, name: str) -> pathlib.Path:
        """A release as it stands unpacked, with the tools of this checkout and without its program."""
        home = pathlib.Path(name) / "home"
        shutil.copytree(ROOT / "tools" / "vidlakost_tools", home / "tools" / "vidlakost_tools")
        shutil.copy(ROOT / "tools" / "release", home / "tools")
        (home / "RELEASE").write_text("vidlakost 1\ncommit a, b\n")
        (home / "SHA256SUMS").write_text(f"{sum_of((home / 'RELEASE').read_bytes())}  RELEASE\n")
        return home

    def call(self, home: pathlib.Path, *words: str) -> subprocess.CompletedProcess[str]:
        form = [sys.executable, str(home / "tools" / "release"), *words]
        return subprocess.run(
            form, cwd=home, stdout=subprocess.PIPE, stderr=subprocess.STDOUT, text=True, check=False, timeout=60
        )

    def test_a_list_of_files_outside(self) -> None:
        """A list that names a file outside, with the sum of that file, brings none of it below the prefix or beside."""
        with tempfile.TemporaryDirectory() as name:
            home = self.home(name)
            for listed in ("../outside", "share/../../outside", str(home.parent / "outside")):
                (home.parent / "outside").write_text("outside\n")
                (home / "share").mkdir(exist_ok=True)
                with open(home / "SHA256SUMS", "a", encoding="utf-8") as file:
                    file.write(f"{sum_of(b'outside' + bytes([10]))}  {listed}\n")
                done = self.call(home, "--prefix", "local")
                self.assertEqual(done.returncode, 1, done.stdout)
                self.assertIn("lies outside of the release", done.stdout)
                self.assertFalse((home / "local").exists())

    def test_no_program_to_pack(self) -> None:
        with tempfile.TemporaryDirectory() as name:
            done = self.call(self.home(name), "--deb")
        self.assertEqual((done.returncode, done.stdout.splitlines()[1:]), (125, []), done.stdout)
        self.assertIn("the release has no libexec/vidlakost", done.stdout)

    def test_a_list_that_is_cut_short_and_files_that_are_none(self) -> None:
        """Nothing is installed of a list without its end, without a file of the list, or with a pipe in its place."""
        with tempfile.TemporaryDirectory() as name:
            home = self.home(name)
            (home / "libexec").mkdir()
            for one in (PROGRAM, "vidlakost", "README.md"):
                (home / one).write_text("text\n")
            whole = [f"{sum_of((home / one).read_bytes())}  {one}\n" for one in ("README.md", "RELEASE", PROGRAM)]
            (home / "SHA256SUMS").write_text("".join(whole))
            self.kept(home, "the release has no vidlakost")
            whole.append(f"{sum_of((home / 'vidlakost').read_bytes())}  vidlakost\n")
            (home / "SHA256SUMS").write_text("".join(whole))
            self.assertEqual(self.call(home, "--prefix", "whole").returncode, 0)
            for one in ("README.md", "RELEASE", "SHA256SUMS"):
                (home / one).rename(home / "aside")
                os.mkfifo(home / one)
                self.kept(home, one)
                (home / one).unlink()
                self.kept(home, one if one != "RELEASE" else "release: ")
                (home / "aside").rename(home / one)

    def kept(self, home: pathlib.Path, part: str) -> None:
        done = self.call(home, "--prefix", "local")
        self.assertIn(part, done.stdout)
        self.assertGreater(done.returncode, 0)
        self.assertFalse((home / "local").exists())

    def test_an_archive_is_written_through_no_link(self) -> None:
        """A link in the place of the archive, or of its sum, goes, and what it leads to stays."""
        with tempfile.TemporaryDirectory() as name:
            root = pathlib.Path(name)
            theirs, dist = root / "theirs", root / "dist"
            theirs.write_text("mine\n")
            dist.mkdir()
            with mock.patch.multiple(
                release, ROOT=root, tree=lambda _: released(), git=lambda *_: b"0", archive_name=lambda _: "made"
            ):
                for link in ("made.tar.gz", "made.tar.gz.sha256"):
                    (dist / link).symlink_to(theirs)
                with contextlib.redirect_stdout(io.StringIO()):
                    release.write_archive(True)
            self.assertEqual(theirs.read_text(), "mine\n")
            self.assertEqual(
                [(path.name, path.is_symlink()) for path in sorted(dist.iterdir())],
                [("made.tar.gz", False), ("made.tar.gz.sha256", False)],
            )
            beside = f"{sum_of((dist / 'made.tar.gz').read_bytes())}  made.tar.gz\n"
            self.assertEqual((dist / "made.tar.gz.sha256").read_text(), beside)


if __name__ == "__main__":
    unittest.main()
