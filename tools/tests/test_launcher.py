"""The script ./chordsim, tools/renew_release and tools/check_release, with a stand-in for the kit."""

import os
import shutil
import subprocess
import sys
import tempfile
import time
import unittest
from collections.abc import Callable
from concurrent.futures import ThreadPoolExecutor
from pathlib import Path

from tests.support.kit import copy_tool, make_crate, make_kit

TOP = Path(__file__).resolve().parents[2]
SCRIPTS = ["chordsim", "tools/renew_release", "tools/check_release"]

# The commands that the scripts and the stand-in use, beside rt and python3.
COMMANDS = (
    "awk cat chmod cmp cp cut date dirname find flock mkdir mv nproc readlink rm sh sha256sum sleep sort stat tee "
    "uname wc xargs"
).split()

CRATES = """# NAME: the libraries that it stands on
low: sha1
chordsim may_wait=5: low clap
tests_alone: low chordsim
"""


def change_at_the_same_time(source: Path) -> None:
    """Writes another text of the same size, and sets the time back."""
    before = source.stat()
    source.write_text("other\n", encoding="utf-8")
    os.utime(source, ns=(before.st_atime_ns, before.st_mtime_ns))


def replace_by_older(source: Path) -> None:
    """Puts an older file of the same size in its place."""
    older = source.with_suffix(".old")
    older.write_text("older\n", encoding="utf-8")
    os.utime(older, (1, 1))
    older.replace(source)


def add_folder(source: Path) -> None:
    """Adds a folder with a source."""
    folder = source.with_name("deep")
    folder.mkdir()
    (folder / "more.antt").touch()


CHANGES: dict[str, Callable[[Path], object]] = {
    "changed": lambda source: source.write_text("second\n", encoding="utf-8"),
    "changed at the same time": change_at_the_same_time,
    "replaced by an older one": replace_by_older,
    "added": lambda source: source.with_name("more.rt").touch(),
    "added in a folder": add_folder,
    "removed": Path.unlink,
    "renamed": lambda source: source.rename(source.with_name("other.rt")),
    "crates.txt": lambda source: (source.parents[3] / "crates.txt").write_text(CRATES + "more:\n", encoding="utf-8"),
}


class Launcher(unittest.TestCase):
    """A repository of one program and the library below it."""

    def setUp(self) -> None:
        """No program is there. PATH has the commands and the rt of the stand-in, not the rt of this machine."""
        folder = tempfile.TemporaryDirectory()
        self.addCleanup(folder.cleanup)
        self.folder = Path(folder.name)
        self.top = self.folder / "a repository"
        for name in SCRIPTS:
            (self.top / name).parent.mkdir(parents=True, exist_ok=True)
            shutil.copy(TOP / name, self.top / name)
        copy_tool(self.top)
        (self.top / "crates.txt").write_text(CRATES, encoding="utf-8")
        for crate in ("low", "chordsim", "tests_alone"):
            make_crate(self.top, crate, crate != "low")
        (self.top / "crates" / "chordsim" / "stdout").write_text("built of first: ids\n", encoding="utf-8")
        self.calls = self.folder / "calls"
        self.tools = self.folder / "bin"
        self.tools.mkdir()
        make_kit(self.folder / "kit")
        (self.tools / "rt").symlink_to(self.folder / "kit" / "bin" / "rt")
        (self.tools / "python3").symlink_to(sys.executable)
        for command in COMMANDS:
            path = shutil.which(command)
            self.assertIsNotNone(path, command)
            (self.tools / command).symlink_to(str(path))

    def start(self, script: str, *arguments: str, **more: str) -> subprocess.CompletedProcess[str]:
        """Starts a script of the repository."""
        environment = {"PATH": str(self.tools), "CALLS": str(self.calls), **more}
        command = [str(self.top / script), *arguments]
        return subprocess.run(command, env=environment, capture_output=True, text=True, check=False, timeout=60)

    def gate(self) -> None:
        """Calls rt in the repository, as the gate does. builds() does not count it."""
        environment = {"PATH": str(self.tools)}
        subprocess.run([self.tools / "rt", "ci"], cwd=self.top, env=environment, stdout=subprocess.DEVNULL, check=True)

    def without_rt(self) -> None:
        """Takes rt away."""
        (self.tools / "rt").unlink()

    def builds(self) -> int:
        """How often the program was begun to be built."""
        return len([note for note in self.noted() if note.startswith("begin chordsim ")])

    def noted(self) -> list[str]:
        """What the kit has noted."""
        return self.calls.read_text(encoding="utf-8").splitlines() if self.calls.exists() else []

    def change(self, crate: str, file: str, text: str) -> None:
        """Writes another source."""
        (self.top / "crates" / crate / "src" / file).write_text(text, encoding="utf-8")

    def replace_command(self, command: str, script: str) -> None:
        """Puts a script in the place of a command of PATH."""
        path = self.tools / command
        path.unlink()
        path.write_text(f"#!/bin/sh\n{script}\n", encoding="utf-8")
        path.chmod(0o755)

    def set_clock(self, seconds: int) -> None:
        """Lets the time of the scripts be that many seconds after the right one."""
        self.replace_command("date", f'echo $(($({shutil.which("date")} +%s) + {seconds}))')

    def stamp(self) -> Path:
        """The file of the stamp."""
        return self.top / "out" / "sources.stamp"

    def make_stamp(self) -> None:
        """A release of the sources, started once with a stamp of them. Nothing else is built, and there is no rt."""
        self.start("tools/renew_release")
        shutil.rmtree(self.top / "out")
        self.without_rt()
        self.set_clock(3600)
        self.assertEqual(self.start("chordsim", "ids").stdout, "built of first: ids\n")
        self.assertTrue(self.stamp().exists())

    def test_builds_once(self) -> None:
        """The first start builds and says so; the second starts the program at once, from another folder too."""
        first = self.start("chordsim", "run", "two words")
        self.assertEqual((first.returncode, first.stdout), (0, "built of first: run two words\n"))
        self.assertIn("proving and building", first.stderr)
        self.assertIn("low is proved (1 of 2)", first.stderr)
        self.assertIn("chordsim is proved (2 of 2)", first.stderr)
        second = self.start("chordsim", "check")
        self.assertEqual((second.returncode, second.stdout, second.stderr), (0, "built of first: check\n", ""))
        self.assertEqual(self.builds(), 1)

    def test_what_is_built(self) -> None:
        """The crates of the program alone are built, in out/. Nothing is written beside the sources or to TMPDIR."""
        folder = self.folder / "temporary"
        folder.mkdir()
        files = sorted((self.top / "crates").glob("**/*"))
        self.assertEqual(self.start("chordsim", TMPDIR=str(folder)).returncode, 0)
        begun = [" ".join(note.split()[:4]) for note in self.noted() if note.startswith("begin ")]
        self.assertEqual(begun, ["begin low in low:", "begin chordsim in chordsim:"])
        self.assertTrue((self.top / "out" / "proved" / "rlibs" / "low.rlib").exists())
        self.assertEqual(sorted((self.top / "crates").glob("**/*")), files)
        self.assertEqual(list(folder.iterdir()), [])

    def test_crates_at_once(self) -> None:
        """No more crates are proved at once than there are processors, and as many as RT_JOBS says."""
        jobs = self.folder / "calls.jobs"
        (self.top / "tools" / "build_program").write_text('#!/bin/sh\necho "$2" > "$CALLS.jobs"\n', encoding="utf-8")
        self.start("chordsim")
        self.assertIn(int(jobs.read_text(encoding="utf-8")), range(1, len(os.sched_getaffinity(0)) + 1))
        self.start("chordsim", RT_JOBS="7")
        self.assertEqual(jobs.read_text(encoding="utf-8"), "7\n")

    def test_no_place_for_the_build(self) -> None:
        """If the folder, the lock or the log of the build cannot be made, the status is 125, and nothing is built."""
        for name in ("out", "out/build.lock", "out/build.log"):
            place = self.top / name
            if name == "out":
                place.touch()
            else:
                place.mkdir(parents=True)
            with self.subTest(name):
                refused = self.start("chordsim")
                self.assertEqual((refused.returncode, refused.stdout), (125, ""))
                self.assertIn("cannot write", refused.stderr)
                self.assertEqual(self.builds(), 0)
            if name == "out":
                place.unlink()
            else:
                place.rmdir()

    def test_changed_source(self) -> None:
        """A change of a crate below builds again; one of a crate of tests does not."""
        self.start("chordsim")
        self.change("tests_alone", "main.rt", "second\n")
        self.start("chordsim")
        self.assertEqual(self.builds(), 1)
        self.change("chordsim", "main.rt", "second\n")
        self.assertEqual(self.start("chordsim").stdout, "built of second:\n")
        self.change("low", "lib.rt", "third\n")
        self.start("chordsim")
        self.assertEqual(self.builds(), 3)

    def test_release(self) -> None:
        """A release of these sources is started without rt; a stale one is not, but its --help is."""
        self.assertEqual(self.start("tools/renew_release").returncode, 0)
        shutil.rmtree(self.top / "out")
        self.gate()
        self.assertEqual(self.start("tools/check_release").returncode, 0)
        self.without_rt()
        self.assertEqual(self.start("chordsim", "ids").stdout, "built of first: ids\n")
        self.change("low", "lib.rt", "second\n")
        stale = self.start("chordsim", "ids")
        self.assertEqual((stale.returncode, stale.stdout), (125, ""))
        self.assertIn("the sources have changed since", stale.stderr)
        self.assertIn("no rt", stale.stderr)
        for asked in (["--help"], ["run", "--help"], ["--version"], ["help", "run"]):
            with self.subTest(asked=asked):
                text = f"built of first: {' '.join(asked)}\n"
                self.assertEqual(self.start("chordsim", *asked).stdout, text)
        self.assertEqual(self.builds(), 1)

    def test_large_pages(self) -> None:
        """The program has large pages, unless the user has set the variable, even to nothing."""
        self.change("chordsim", "main.rt", "$GLIBC_TUNABLES\n")
        self.assertEqual(self.start("chordsim", "ids").stdout, "built of glibc.malloc.hugetlb=1: ids\n")
        for own in ("glibc.malloc.hugetlb=0", ""):
            with self.subTest(own=own):
                self.assertEqual(self.start("chordsim", "ids", GLIBC_TUNABLES=own).stdout, f"built of {own}: ids\n")

    def test_damaged_release(self) -> None:
        """A release that is empty, cut, longer, not executable, missing or without a digest is never started.

        The line names the remedy. A program of these sources that was built here is started in its place."""
        self.start("tools/renew_release")
        self.without_rt()
        release = self.top / "release" / "x86_64-linux"
        kept = self.folder / "kept"
        shutil.copytree(release, kept)
        program, built = release / "chordsim", self.top / "out"
        whole = program.read_bytes()
        damages: dict[str, Callable[[], object]] = {
            "empty": lambda: program.write_bytes(b""),
            "cut": lambda: program.write_bytes(whole[:-1]),
            "longer": lambda: program.write_bytes(whole + b"#"),
            "not executable": lambda: program.chmod(0o644),
            "missing": program.unlink,
            "without a digest": (release / "chordsim.sha256").unlink,
            "with an empty digest": lambda: (release / "chordsim.sha256").write_bytes(b""),
            "without its folder": lambda: shutil.rmtree(release),
        }
        for name, damage in damages.items():
            shutil.rmtree(release, ignore_errors=True)
            shutil.copytree(kept, release)
            damage()
            with self.subTest(name):
                self.assertEqual(self.start("chordsim", "ids").stdout, "built of first: ids\n")
                self.assertEqual(self.start("chordsim", "--where").stdout, f"{built / 'chordsim'}\n")
                built.rename(self.folder / "away")
                for arguments in (["ids"], ["--help"], ["--where"], ["--build"]):
                    refused = self.start("chordsim", *arguments)
                    self.assertEqual((refused.returncode, refused.stdout), (125, ""), arguments)
                    first = refused.stderr.splitlines()[0]
                    remedy = f"run git checkout -- release in {self.top}"
                    self.assertEqual(first, f"chordsim: the release in {release} is missing or damaged: {remedy}")
                (self.folder / "away").rename(built)
        self.assertEqual(self.builds(), 1)

    def test_damaged_release_is_not_built_unasked(self) -> None:
        """If there is rt, a start of a damaged release names the remedies. --build builds, renew_release mends it."""
        self.start("tools/renew_release")
        self.gate()
        shutil.rmtree(self.top / "out")
        program = self.top / "release" / "x86_64-linux" / "chordsim"
        program.write_bytes(b"")
        for removed in ("nothing else", "chordsim.sources"):
            (program.parent / removed).unlink(missing_ok=True)
            refused = self.start("chordsim", "ids")
            self.assertEqual((refused.returncode, refused.stdout), (125, ""), removed)
            self.assertIn("is missing or damaged: run git checkout -- release", refused.stderr)
            self.assertIn("./chordsim --build", refused.stderr)
        self.assertEqual(self.builds(), 1)
        self.assertEqual(self.start("chordsim", "--build").returncode, 0)
        self.assertEqual(self.start("chordsim", "ids").stdout, "built of first: ids\n")
        self.assertEqual(self.start("tools/check_release").returncode, 1)
        self.assertEqual(self.start("tools/renew_release").returncode, 0)
        self.assertEqual(self.start("tools/check_release").returncode, 0)
        self.assertEqual(self.start("chordsim", "--where").stdout, f"{program}\n")
        self.assertEqual(self.builds(), 2)

    def test_running_program(self) -> None:
        """Another program is built while the one before it runs, which goes on."""
        self.start("chordsim")
        program = self.top / "out" / "chordsim"
        program.unlink()
        shutil.copy(self.tools / "sleep", program)
        with subprocess.Popen([program, "60"]) as running:
            self.change("low", "lib.rt", "second\n")
            self.assertEqual(self.start("chordsim").stdout, "built of first:\n")
            self.assertIsNone(running.poll())
            running.kill()

    def test_stale_release(self) -> None:
        """Where there is rt, sources that differ from the release's are built."""
        self.start("tools/renew_release")
        self.change("low", "lib.rt", "second\n")
        self.assertIn("proving and building", self.start("chordsim").stderr)
        self.assertEqual(self.builds(), 2)

    def test_release_from_the_gate(self) -> None:
        """A program that rt has made here is taken as it is, unless a source is newer or an argument is unknown."""
        renew = "tools/renew_release"
        self.assertIn("built no program", self.start(renew, "--from-gate").stderr)
        self.gate()
        self.assertEqual(self.start(renew, "--from-gate").returncode, 0)
        self.assertEqual(self.start("tools/check_release").returncode, 0)
        self.assertEqual(self.builds(), 0)
        for arguments in (["--gate"], ["--from-gate", "again"]):
            with self.subTest(arguments=arguments):
                self.assertEqual(self.start(renew, *arguments).returncode, 2)

    def test_release_from_an_older_gate(self) -> None:
        """A program that rt has made here is not taken if the sources have changed since, whatever their times are."""
        source = self.top / "crates" / "low" / "src" / "lib.rt"
        for name, change in CHANGES.items():
            with self.subTest(change=name):
                source.write_text("first\n", encoding="utf-8")
                # Some file systems count time in steps of ten milliseconds.
                time.sleep(0.05)
                self.gate()
                self.assertEqual(self.start("tools/renew_release", "--from-gate").returncode, 0)
                time.sleep(0.05)
                change(source)
                stale = self.start("tools/renew_release", "--from-gate")
                self.assertEqual(stale.returncode, 1)
                self.assertIn("have changed", stale.stderr)

    def test_check_release(self) -> None:
        """The gate refuses another program, another digest and other sources."""
        self.start("tools/renew_release")
        self.gate()
        release = self.top / "release" / "x86_64-linux"
        made = self.top / "crates" / "chordsim" / "out" / "chordsim"
        kept = made.read_bytes()
        made.write_bytes(kept + b"#")
        self.assertIn("not the program that was built", self.start("tools/check_release").stderr)
        made.write_bytes(kept)
        digest = release / "chordsim.sha256"
        digest.write_text(digest.read_text(encoding="utf-8").replace("a", "b"), encoding="utf-8")
        self.assertIn("another program's", self.start("tools/check_release").stderr)
        self.start("tools/renew_release")
        self.assertEqual(self.start("tools/check_release").returncode, 0)
        self.change("low", "lib.rt", "second\n")
        refused = self.start("tools/check_release")
        self.assertEqual(refused.returncode, 1)
        self.assertIn("not of these sources", refused.stderr)

    def test_no_kit(self) -> None:
        """With nothing built and without rt the status is 125, and the line says what to do."""
        self.without_rt()
        for asked in ("check", "--help"):
            refused = self.start("chordsim", asked)
            self.assertEqual((refused.returncode, refused.stdout), (125, ""))
            self.assertIn("put the bin folder of the Rattle kit on PATH", refused.stderr)

    def test_failed_build(self) -> None:
        """A build that fails names the log, which has what rattle printed, and leaves nothing that is started."""
        failed = self.start("chordsim", "check", UNPROVED="low")
        self.assertEqual((failed.returncode, failed.stdout), (125, ""))
        self.assertIn("low is not proved", failed.stderr)
        self.assertIn(str(self.top / "out" / "build.log"), failed.stderr)
        self.assertIn("low: no proof", (self.top / "out" / "build.log").read_text(encoding="utf-8"))
        self.assertEqual(self.start("chordsim", "check").returncode, 0)

    def test_two_starts(self) -> None:
        """Of two starts at once one builds, and the other waits for it."""
        go = self.folder / "calls.go"
        environment = {"PATH": str(self.tools), "CALLS": str(self.calls), "WAITING": "chordsim"}

        def begin() -> subprocess.Popen[str]:
            """A start that has begun."""
            return subprocess.Popen(
                [self.top / "chordsim"], env=environment, stdout=subprocess.PIPE, stderr=subprocess.PIPE, text=True
            )

        with begin() as first:
            while self.builds() == 0:
                self.assertIsNone(first.poll())
                time.sleep(0.01)
            with begin() as second:
                assert second.stderr is not None
                self.assertIn("waiting for another start", second.stderr.readline())
                go.touch()
                self.assertEqual(second.communicate(timeout=60)[0], "built of first:\n")
            self.assertEqual(first.communicate(timeout=60)[0], "built of first:\n")
        self.assertEqual(self.builds(), 1)

    def test_where(self) -> None:
        """--where builds nothing, --build builds; both print the path alone."""
        absent = self.start("chordsim", "--where")
        self.assertEqual((absent.returncode, absent.stdout), (125, ""))
        self.assertEqual(self.builds(), 0)
        path = f"{self.top / 'out' / 'chordsim'}\n"
        self.assertEqual(self.start("chordsim", "--build").stdout, path)
        self.assertEqual(self.start("chordsim", "--where").stdout, path)
        self.assertEqual(self.start("chordsim", "--build").stdout, path)
        self.assertEqual(self.builds(), 1)

    def test_sources_are_not_read_again(self) -> None:
        """With a stamp a start reads the program alone. There is no stamp of sources that have just been changed."""
        self.make_stamp()
        self.stamp().unlink()
        self.set_clock(-3600)
        self.start("chordsim", "ids")
        self.assertFalse(self.stamp().exists())
        self.set_clock(3600)
        self.start("chordsim", "ids")
        self.replace_command("sha256sum", f'echo "$*" >> "$CALLS.sums"\nexec {shutil.which("sha256sum")} "$@"')
        self.assertEqual(self.start("chordsim", "ids").stdout, "built of first: ids\n")
        sums = self.folder / "calls.sums"
        self.assertEqual(sums.read_text(encoding="utf-8"), "--check --status chordsim.sha256\n")

    def test_changes_after_a_stamp(self) -> None:
        """A source that is changed, added, removed, renamed or replaced by an older one is noticed."""
        self.make_stamp()
        self.stamp().unlink()
        kept = self.top
        for name, change in CHANGES.items():
            self.top = self.folder / name
            shutil.copytree(kept, self.top)
            self.assertEqual(self.start("chordsim", "ids").returncode, 0)
            self.assertTrue(self.stamp().exists())
            change(self.top / "crates" / "low" / "src" / "lib.rt")
            with self.subTest(name):
                refused = self.start("chordsim", "ids")
                self.assertEqual((refused.returncode, refused.stdout), (125, ""))
                self.assertIn("the sources have changed since", refused.stderr)

    def test_damaged_stamp(self) -> None:
        """A stamp that is empty, cut, longer or of another sum is ignored, and written again."""
        self.make_stamp()
        whole = self.stamp().read_bytes()
        length = whole.index(b"\n")
        damages = {
            "empty": b"",
            "cut": whole[:-1],
            "without its end": whole[: -len(b"end\n")],
            "without marks": whole[: length + 1] + b"end\n",
            "longer": whole + b"end\n",
            "of another sum": b"0" * length + whole[length:],
            "of no sum": whole[length:],
            "of other bytes": bytes(range(256)),
        }
        for name, damaged in damages.items():
            self.stamp().write_bytes(damaged)
            with self.subTest(name):
                started = self.start("chordsim", "ids")
                self.assertEqual((started.stdout, started.stderr), ("built of first: ids\n", ""))
                self.assertEqual(self.stamp().read_bytes(), whole)

    def test_damaged_release_after_a_stamp(self) -> None:
        """A program that has been changed is refused in spite of the stamp."""
        self.make_stamp()
        program = self.top / "release" / "x86_64-linux" / "chordsim"
        program.write_bytes(program.read_bytes() + b"#")
        refused = self.start("chordsim", "ids")
        self.assertEqual((refused.returncode, refused.stdout), (125, ""))
        self.assertIn("is missing or damaged", refused.stderr)

    def test_no_place_for_a_stamp(self) -> None:
        """If the stamp cannot be written, the program is started without a word."""
        self.make_stamp()
        shutil.rmtree(self.top / "out")
        (self.top / "out").touch()
        for _ in range(2):
            started = self.start("chordsim", "ids")
            self.assertEqual((started.stdout, started.stderr), ("built of first: ids\n", ""))

    def test_stamps_of_starts_at_once(self) -> None:
        """Starts at the same time write one whole stamp, and leave nothing beside it."""
        self.make_stamp()
        whole = self.stamp().read_bytes()
        self.stamp().unlink()
        with ThreadPoolExecutor(8) as pool:
            starts = [pool.submit(self.start, "chordsim", "ids") for _ in range(8)]
        for started in starts:
            self.assertEqual((started.result().stdout, started.result().stderr), ("built of first: ids\n", ""))
        self.assertEqual([file.name for file in self.stamp().parent.iterdir()], ["sources.stamp"])
        self.assertEqual(self.stamp().read_bytes(), whole)


if __name__ == "__main__":
    unittest.main()
