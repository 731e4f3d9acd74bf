"""Which program the launcher takes, in a checkout of one crate: `python3 -m unittest discover -s tests/unit -t .`."""
from __future__ import annotations

import os
import pathlib
import resource
import shlex
import shutil
import signal
import subprocess
import tempfile
import time
import unittest

from vidlakost_tools.program import ROOT

PROGRAM = "#!/bin/sh\necho total 1\n"
# a kit whose `ci` leaves a program, and does something more
KIT = """#!/bin/sh
if [ "$1" = version ]; then echo kit 1; exit; fi
[ "$1" = ci ] || exit 2
mkdir -p crates/bist_cli/out
printf '#!/bin/sh\\necho proved\\n' >crates/bist_cli/out/bist_cli
chmod +x crates/bist_cli/out/bist_cli
echo 'rt: bist_cli proved'
{}
"""


class Launcher(unittest.TestCase):
    def setUp(self) -> None:
        self.place = tempfile.TemporaryDirectory()
        # a name that is more to a shell than itself
        self.root = pathlib.Path(self.place.name) / "a [b]* $c"
        self.root.mkdir()
        shutil.copy(ROOT / "vidlakost", self.root / "vidlakost")
        (self.root / "crates.txt").write_text("bist_cli:\n")
        (self.root / "HANDLES").write_text("Handles allowed: none.\n")
        for part, name in (("src", "lib.rt"), ("src", "more.rt"), ("specs", "Lib.antt"), ("proofs", "Lemma.antt")):
            path = self.root / "crates" / "bist_cli" / part / name
            path.parent.mkdir(parents=True, exist_ok=True)
            path.write_text(f"{name}\n")
        self.source = self.root / "crates" / "bist_cli" / "src" / "lib.rt"
        self.build = self.root / "build"
        self.program = self.build / "vidlakost"
        self.kit("")

    def tearDown(self) -> None:
        self.place.cleanup()

    def kit(self, more: str) -> None:
        path = self.root / "bin" / "rt"
        path.parent.mkdir(exist_ok=True)
        path.write_text(KIT.format(more))
        path.chmod(0o755)

    def call(
        self, *words: str, umask: int = 0o022, files: int = 0, sizes: int = 0, **changed: str
    ) -> subprocess.CompletedProcess[str]:
        kept = {name: value for name, value in os.environ.items() if not name.startswith("VIDLAKOST")}

        def prepare() -> None:
            os.umask(umask)
            if files:
                resource.setrlimit(resource.RLIMIT_NOFILE, (files, files))
            if sizes:
                resource.setrlimit(resource.RLIMIT_FSIZE, (sizes, sizes))

        return subprocess.run(
            ["bash", str(self.root / "vidlakost"), *words],
            cwd=self.root,
            env={**kept, "PATH": f"{self.root / 'bin'}:{kept['PATH']}", "VIDLAKOST_EXPLAIN": "0", **changed},
            stdin=subprocess.DEVNULL,
            stdout=subprocess.PIPE,
            stderr=subprocess.PIPE,
            text=True,
            preexec_fn=prepare,
            check=False,
        )

    def prove(self) -> None:
        done = self.call("--prove")
        self.assertEqual(done.returncode, 0, done.stderr)

    def is_taken(self) -> bool:
        return self.call("--program").stdout == f"{self.program}\n"

    def age(self) -> None:
        """Dates the sources long ago, so that their dates are kept beside the program."""
        for path in self.root.glob("crates/*/*/*"):
            os.utime(path, (1, 1))

    def test_a_proved_program_is_taken(self) -> None:
        self.assertFalse(self.is_taken())
        self.prove()
        self.assertTrue(self.is_taken())
        self.assertEqual(self.call("bench").stdout, "proved\n")

    def test_another_source_of_an_older_date_is_not_what_was_proved(self) -> None:
        self.prove()
        self.age()
        self.assertTrue(self.is_taken())
        before = self.source.stat()
        for text in ("bil.rt\n", "another length\n"):
            self.source.write_text(text)
            os.utime(self.source, ns=(before.st_atime_ns, before.st_mtime_ns))
            self.assertFalse(self.is_taken(), text)
            self.assertIn("not known to be proved of these sources", self.call("--program").stderr)
        self.source.write_text("lib.rt\n")
        self.assertTrue(self.is_taken())

    def test_a_source_that_is_gone_or_new_is_seen(self) -> None:
        self.prove()
        self.source.rename(self.source.with_name("other.rt"))
        self.assertFalse(self.is_taken())
        self.source.with_name("other.rt").rename(self.source)
        self.assertTrue(self.is_taken())
        (self.root / "crates.txt").write_text("bist_cli: more\n")
        self.assertFalse(self.is_taken())

    def test_dates_and_proofs_alone_change_nothing(self) -> None:
        self.prove()
        self.source.touch()
        (self.root / "crates" / "bist_cli" / "proofs" / "Lemma.antt").write_text("another\n")
        self.assertTrue(self.is_taken())

    def test_without_its_kit_nothing_is_proved(self) -> None:
        self.prove()
        kit = self.build / "kit"
        lines = kit.read_text().splitlines()
        wrong: list[list[str]] = [[], lines[:2], [lines[0], lines[1], "sources 0"], ["0", *lines[1:]]]
        for told in wrong:
            kit.write_text("".join(f"{line}\n" for line in told))
            self.assertFalse(self.is_taken(), told)
        kit.unlink()
        self.assertFalse(self.is_taken())

    def test_another_program_is_not_the_proved_one(self) -> None:
        self.prove()
        self.age()
        self.assertTrue(self.is_taken())
        self.program.write_text(PROGRAM)
        self.assertFalse(self.is_taken())

    def test_what_others_may_write_is_not_taken(self) -> None:
        self.prove()
        for loose in (self.program, self.build / "kit", self.build):
            mode = loose.stat().st_mode
            for more in (0o002, 0o020):
                loose.chmod(mode | more)
                self.assertFalse(self.is_taken(), loose)
                self.assertIn("others may write the program", self.call("--stale", "bench").stderr)
            loose.chmod(mode)
        self.assertTrue(self.is_taken())

    @unittest.skipIf(os.geteuid(), "only root gives files away")
    def test_what_is_somebody_elses_is_not_taken(self) -> None:
        self.prove()
        for path in (self.program, self.build / "kit", self.build):
            os.chown(path, 65534, 65534)
            self.assertFalse(self.is_taken(), path)
            os.chown(path, 0, 0)
        self.assertTrue(self.is_taken())

    def test_what_is_proved_is_ones_own_under_any_umask(self) -> None:
        self.assertEqual(self.call("--prove", umask=0).returncode, 0)
        for path in (self.build, self.program):
            self.assertEqual(path.stat().st_mode & 0o777, 0o700, path)
        self.assertTrue(self.is_taken())

    def test_a_source_that_changes_meanwhile_is_told(self) -> None:
        self.kit(f"echo more >>{shlex.quote(str(self.source))}")
        done = self.call("--prove")
        self.assertEqual(done.returncode, 125)
        self.assertIn("a source was changed meanwhile", done.stderr)
        self.assertFalse(self.program.exists())

    def test_what_fails_is_not_taken(self) -> None:
        self.kit("exit 1")
        done = self.call("--prove")
        self.assertEqual(done.returncode, 125)
        self.assertIn("the build failed", done.stderr)
        self.assertFalse(self.program.exists())

    def test_it_is_proved_again_where_that_is_asked(self) -> None:
        self.prove()
        self.kit(f'echo "$@" >{shlex.quote(str(self.root / "words"))}')
        self.assertEqual(self.call("--prove", "--anew").returncode, 0)
        self.assertEqual((self.root / "words").read_text(), "ci --anew\n")
        for words in (["now"], [""], ["--anew", "--anew"]):
            self.assertEqual(self.call("--prove", *words).returncode, 2, words)

    def test_a_stopped_proof_leaves_nothing(self) -> None:
        self.kit(f"touch {shlex.quote(str(self.root / 'begun'))}; exec sleep 60")
        place = self.root / "place"
        place.mkdir()
        changed = {"PATH": f"{self.root / 'bin'}:{os.environ['PATH']}", "TMPDIR": str(place)}
        call = ["bash", str(self.root / "vidlakost"), "--prove"]
        with subprocess.Popen(call, env={**os.environ, **changed}, stderr=subprocess.DEVNULL) as launcher:
            while not (self.root / "begun").exists():
                time.sleep(0.05)
            launcher.terminate()
            self.assertEqual(launcher.wait(30), -signal.SIGTERM)
        self.assertEqual(list(place.iterdir()), [])
        self.assertFalse(self.program.exists())

    def test_only_what_the_program_stands_on_is_proved(self) -> None:
        (self.root / "crates.txt").write_text("bist_cli: low\nlow: arrayvec\ntests: low\n")
        for name in ("low/src", "low/out", "tests/src", "bist_cli/must-fail"):
            path = self.root / "crates" / name / "file"
            path.parent.mkdir(parents=True, exist_ok=True)
            path.write_text("text\n")
        seen = self.root / "seen"
        self.kit(f"cat crates.txt >{shlex.quote(str(seen))}; find . -type f >>{shlex.quote(str(seen))}")
        done = self.call("--prove")
        self.assertEqual(done.returncode, 0, done.stderr)
        self.assertIn("1 of 2 crates proved, after 0 minutes; now", done.stderr)
        parts = ("bist_cli/src/lib.rt", "bist_cli/src/more.rt", "bist_cli/specs/Lib.antt", "bist_cli/proofs/Lemma.antt")
        wanted = ["bist_cli: low", "low: arrayvec", "./HANDLES", "./crates.txt", "./crates/bist_cli/out/bist_cli"]
        wanted += [f"./crates/{part}" for part in (*parts, "low/src/file")]
        self.assertEqual(sorted(seen.read_text().splitlines()), sorted(wanted))

    def test_a_named_program_is_a_file(self) -> None:
        self.assertEqual(self.call("bench", VIDLAKOST_PROGRAM="printf").returncode, 125)
        path = self.root / "printf"
        path.write_text(PROGRAM)
        path.chmod(0o755)
        self.assertEqual(self.call("bench", VIDLAKOST_PROGRAM="printf").stdout, "total 1\n")

    def test_it_does_not_run_itself(self) -> None:
        for name in ("vidlakost", str(self.root / "vidlakost"), "link"):
            if name == "link":
                (self.root / name).symlink_to("vidlakost")
            done = self.call("bench", VIDLAKOST_PROGRAM=name)
            self.assertEqual((done.returncode, "the launcher itself" in done.stderr), (125, True), done.stderr)

    def test_a_tag_is_the_version(self) -> None:
        def git(*words: str) -> None:
            who = ["-c", "user.name=n", "-c", "user.email=e@example.org"]
            subprocess.run(["git", *who, *words], cwd=self.root, check=True, stdout=subprocess.DEVNULL)

        git("init", "-q")
        git("commit", "-q", "--allow-empty", "-m", "first")
        self.assertRegex(self.call("--version").stdout, r"\Avidlakost \d{4}\.\d\d\.\d\d-[0-9a-f]{7,}\n")
        git("tag", "v1.2")
        self.assertRegex(self.call("--version").stdout, r"\Avidlakost 1\.2\n")
        git("commit", "-q", "--allow-empty", "-m", "second")
        self.assertRegex(self.call("--version").stdout, r"\Avidlakost 1\.2\+1\.g[0-9a-f]{7,}\n")

    def plant(self) -> pathlib.Path:
        """A program in the place of a release's."""
        planted = self.root / "libexec" / "vidlakost"
        planted.parent.mkdir()
        planted.write_text("#!/bin/sh\necho planted\n")
        planted.chmod(0o755)
        return planted

    def test_a_program_of_a_release_is_none_of_a_checkout(self) -> None:
        self.plant()
        done = self.call("--program")
        self.assertEqual(done.stdout, "")
        self.assertIn("is no program of this checkout", done.stderr)
        self.prove()
        self.assertEqual(self.call("bench").stdout, "proved\n")

    def test_a_release_without_its_program_says_so(self) -> None:
        self.plant().unlink()
        (self.root / "RELEASE").write_text("vidlakost 1\n")
        done = self.call("bench")
        self.assertEqual(done.returncode, 125)
        self.assertIn("this release has no program", done.stderr)
        self.assertNotIn("unproved", done.stderr)

    def test_what_others_may_write_of_a_release_is_not_taken(self) -> None:
        planted = self.plant()
        (self.root / "RELEASE").write_text("vidlakost 1\ncommit 1, 2026-12-01\nproved with kit\nneeds nothing\n")
        self.assertEqual(self.call("bench").stdout, "planted\n")
        for loose in (planted, planted.parent):
            loose.chmod(0o757)
            done = self.call("bench")
            self.assertNotEqual(done.stdout, "planted\n", loose)
            self.assertIn("others may write the program", done.stderr)
            loose.chmod(0o755)

    def test_a_sum_that_can_not_be_made_is_none(self) -> None:
        """Without `sha256sum` an altered program and its kit would have equal sums, two empty ones."""
        self.prove()
        few = self.root / "few"
        few.mkdir()
        for name in ("find", "cut", "sort", "xargs", "readlink", "dirname", "bash", "sh", "mv", "rm", "awk", "sed"):
            found = shutil.which(name)
            if found:
                (few / name).symlink_to(found)
        self.program.write_text(PROGRAM)
        (self.build / "kit").write_text("\nkit 1\nsources \n")
        (self.build / "seen").write_text("\n")
        done = self.call("--program", PATH=str(few))
        self.assertEqual(done.stdout, "")

    def test_a_pipe_for_its_release_is_none(self) -> None:
        self.plant()
        os.mkfifo(self.root / "RELEASE")
        (self.root / "crates.txt").unlink()
        done = self.call("bench")
        self.assertEqual(done.returncode, 125)
        self.assertIn("this release has no program", done.stderr)

    def named(self) -> str:
        self.program.parent.mkdir(exist_ok=True)
        self.program.write_text(PROGRAM)
        self.program.chmod(0o755)
        return str(self.program)

    def test_names_that_can_not_be_told_are_no_verdict(self) -> None:
        """A status of 1 would say that something escapes."""
        shutil.copytree(ROOT / "tools", self.root / "tools")
        gone = self.root / "gone"
        gone.mkdir()
        script = f"rmdir ../gone && exec bash {shlex.quote(str(self.root / 'vidlakost'))} judge a b c"
        words = ["bash", "-c", script]
        done = subprocess.run(
            words,
            cwd=gone,
            env={**os.environ, "VIDLAKOST_PROGRAM": self.named(), "VIDLAKOST_EXPLAIN": "0"},
            stdout=subprocess.PIPE,
            stderr=subprocess.PIPE,
            text=True,
            check=False,
        )
        self.assertEqual((done.returncode, done.stdout), (125, ""), done.stderr)
        self.assertIn("vidlakost: readlink gives no whole names", done.stderr)

    def test_modules_of_the_callers_folder_are_not_taken(self) -> None:
        (self.root / "tools").mkdir()
        tool = self.root / "tools" / "trace"
        tool.write_text("#!/usr/bin/env python3\nimport json\nprint(json.dumps('ours'))\n")
        tool.chmod(0o755)
        (self.root / "json.py").write_text("print('planted')\ndumps = str\n")
        for path in ("", ":/x", ".", str(self.root)):
            self.assertEqual(self.call("trace", PYTHONPATH=path).stdout, '"ours"\n', path)

    def test_a_limit_of_files_is_told_to_the_program(self) -> None:
        """It writes as much as it may then, and says so, where a signal would end it without a word."""
        program = self.named()
        pathlib.Path(program).write_text("#!/bin/bash\necho {1..9999} >more 2>/dev/null || echo write failed 3\n")
        done = self.call("bench", sizes=1024, VIDLAKOST_PROGRAM=program)
        self.assertEqual(done.stdout, "write failed 3\n", done.stderr)

    def test_few_files(self) -> None:
        self.program.parent.mkdir()
        self.program.write_text(PROGRAM)
        self.program.chmod(0o755)
        for files in range(4, 24):
            done = self.call("bench", files=files, VIDLAKOST_PROGRAM="build/vidlakost")
            if done.returncode != 0:
                self.assertEqual(done.returncode, 125, files)
                self.assertIn("vidlakost: too few files may be open at once", done.stderr)
        self.assertEqual(done.returncode, 0, done.stderr)


if __name__ == "__main__":
    unittest.main()
