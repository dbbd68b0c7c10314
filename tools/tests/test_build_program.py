"""The tool build_program, with a stand-in for the kit that proves nothing."""

import os
import signal
import subprocess
import sys
import tempfile
import time
from collections.abc import Callable, Iterator
from contextlib import contextmanager
from functools import partial
from pathlib import Path
from unittest import TestCase

from tests.support.kit import copy_tool, make_crate, make_kit
from tests.support.programs import heed_interrupts

CRATES = """# NAME: the libraries that it stands on
left: low
low: sha1
right may_wait=2: low std
lonely: low
chordsim may_wait=5: left right low clap  # the program
tests_alone: low chordsim
"""
OF_PROGRAM = ("low", "left", "right", "chordsim")
"""The crates of the program, in the order in which one at a time is built."""


class BuildProgramTest(TestCase):
    """A repository of one program, and a kit."""

    def setUp(self) -> None:
        """Nothing is built yet."""
        self.folder = Path(self.enterContext(tempfile.TemporaryDirectory()))
        self.top, self.kit, self.out = (self.folder / name for name in ("top", "kit", "out"))
        self.calls = self.folder / "calls"
        make_kit(self.kit)
        copy_tool(self.top)
        (self.folder / "bin").mkdir()
        (self.folder / "bin" / "rt").symlink_to(self.kit / "bin" / "rt")
        (self.top / "crates.txt").write_text(CRATES, encoding="utf-8")
        for name in (*OF_PROGRAM, "lonely", "tests_alone"):
            make_crate(self.top, name, name == "chordsim")

    @contextmanager
    def begun(self, jobs: int = 1, **more: str) -> Iterator[subprocess.Popen[str]]:
        """A build that has begun. It is ended if the test fails."""
        self.calls.write_text("", encoding="utf-8")
        path = f"{self.folder / 'bin'}:{os.environ['PATH']}"
        with subprocess.Popen(  # pylint: disable=subprocess-popen-preexec-fn
            [self.top / "tools" / "build_program", "--jobs", str(jobs), self.out], stdout=subprocess.PIPE,
            stderr=subprocess.PIPE, text=True, env=os.environ | {"PATH": path, "CALLS": str(self.calls)} | more,
            preexec_fn=heed_interrupts,
        ) as build:
            try:
                yield build
            finally:
                build.terminate()

    def build(self, jobs: int = 1, **more: str) -> tuple[int, list[str], str]:
        """The status of a build, the lines that it prints, and what it says on standard error."""
        with self.begun(jobs, **more) as build:
            out, error = build.communicate(timeout=60)
        return build.returncode, out.splitlines(), error

    def noted(self) -> list[str]:
        """What the kit has noted since the last build began."""
        return self.calls.read_text(encoding="utf-8").splitlines()

    def wait_for(self, note: str) -> None:
        """Waits until the kit has noted a line that begins like this."""
        self.wait_until(lambda: any(line.startswith(note) for line in self.noted()))

    def wait_until(self, is_so: Callable[[], bool]) -> None:
        """Waits until something is so, or fails after 30 seconds."""
        latest = time.monotonic() + 30
        while not is_so():
            self.assertLess(time.monotonic(), latest)
            time.sleep(0.01)

    def sums(self) -> set[str]:
        """The crates that have a sum. It looks into no library: a build that runs may just remove it."""
        return {file.stem for pattern in ("*.sum", "rlibs/*.sum") for file in self.out.glob(pattern)}

    def source(self, name: str) -> Path:
        """The source of a library."""
        return self.top / "crates" / name / "src" / "lib.rt"

    def test_words(self) -> None:
        """What rattle and rattle-link are called with, each in the folder of the crate."""
        self.assertEqual(self.build(), (0, [f"{name} is proved" for name in OF_PROGRAM], ""))
        kit, out = self.kit, self.out
        shared = (
            f"-L dependency={kit}/rlibs -L dependency={out}/rlibs "
            f"--antt-project {kit}/rattle/logic/antt-project.json --logic-built {kit}/logic_built"
        )
        notes = [note for note in self.noted() if not note.startswith("end ")]
        self.assertEqual(notes[2:], [
            "begin right in right: build --crate-name right src/lib.rt "
            f"--extern std={kit}/rlibs/std.rlib --extern low={out}/rlibs/low.rlib {shared} "
            f"--links right= --jobs 1 --statements -o {out}/rlibs/right.rlib",
            "begin chordsim in chordsim: build --crate-name chordsim src/main.rt "
            f"--extern std={kit}/rlibs/std.rlib --extern left={out}/rlibs/left.rlib "
            f"--extern right={out}/rlibs/right.rlib --extern low={out}/rlibs/low.rlib "
            f"--extern clap={kit}/rlibs/clap.rlib {shared} "
            f"--links chordsim= --jobs 1 --toolchain {kit}/toolchain --backend llvm -o {out}/chordsim.o",
            f"link: --target x86_64-unknown-linux-gnu --toolchain {kit}/toolchain -o {out}/chordsim {out}/chordsim.o "
            f"{kit}/c/libos_c.a {kit}/c/liblibc_c.a",
        ])
        ran = subprocess.run([out / "chordsim", "ids"], stdout=subprocess.PIPE, text=True, check=True)
        self.assertEqual(ran.stdout, "built of first: ids\n")

    def test_order(self) -> None:
        """A crate begins when all below it are built: one at a time, or two at once if there may be two."""
        self.build(1)
        notes = [" ".join(note.split()[:2]) for note in self.noted()[:-1]]
        self.assertEqual(notes, [f"{word} {name}" for name in OF_PROGRAM for word in ("begin", "end")])
        for name in ("left", "right"):
            self.source(name).write_text("second\n", encoding="utf-8")
        with self.begun(2, WAITING="left") as build:
            self.wait_for("begin left")
            self.wait_for("begin right")
            self.wait_until(lambda: "right" in self.sums())
            self.assertFalse(any(note.startswith("begin chordsim") for note in self.noted()))
            Path(f"{self.calls}.go").touch()
            told = ["low is kept", "right is proved", "left is proved", "chordsim is proved"]
            self.assertEqual(build.communicate(timeout=60)[0].splitlines(), told)

    def test_changes(self) -> None:
        """A crate that is changed is proved again with those above it, and no other. Another kit proves all again."""
        self.build()
        kept = {name: f"{name} is kept" for name in OF_PROGRAM}
        self.assertEqual(self.build(), (0, list(kept.values()), ""))
        self.assertEqual(self.noted(), [])
        right, left, rlibs = self.source("right"), self.source("left"), self.out / "rlibs"
        changes: dict[str, Callable[[], object]] = {
            "changed": partial(right.write_text, "second\n", encoding="utf-8"),
            "added": (right.parents[1] / "More.antt").touch,
            "library is missing": (rlibs / "left.rlib").rmdir,
            "sum is damaged": partial((rlibs / "left.sum").write_bytes, b"\xff"),
            "wrong body": (left.parents[1] / "must-fail" / "more.rt").touch,
            "other crate": self.source("lonely").unlink,
            "kit": partial((self.kit / "KIT-ID").write_text, "kit-2\n", encoding="utf-8"),
        }
        above = ("right", "chordsim")
        again = (above, above, ("left",), ("left",), (), (), OF_PROGRAM)
        for (name, change), proved in zip(changes.items(), again):
            change()
            with self.subTest(name):
                told = kept | {crate: f"{crate} is proved" for crate in proved}
                self.assertEqual(self.build(), (0, list(told.values()), ""))

    def test_not_proved(self) -> None:
        """The crate is named with what rattle printed, what runs ends, and no other begins. Status 0 is no proof."""
        for variable, text in (("UNPROVED", "left: no proof\n"), ("SILENT", "")):
            with self.subTest(variable), self.begun(2, **{variable: "left", "WAITING": "right"}) as build:
                assert build.stdout is not None
                self.assertEqual(build.stdout.readline(), f"low is {'proved' if variable == 'UNPROVED' else 'kept'}\n")
                self.assertEqual(build.stdout.readline(), "left is not proved\n")
                Path(f"{self.calls}.go").touch()
                out, error = build.communicate(timeout=60)
                self.assertEqual((build.returncode, out), (1, "right is proved\n"))
                told = "tools/build_program: left is not proved\ntools/build_program: the program is not built\n"
                self.assertEqual(error, f"{self.out}/logs/left.log:\n{text}{told}")
                self.assertFalse(any(note.startswith("begin chordsim") for note in self.noted()))
                self.assertEqual(self.sums(), {"low", "right"})
            (self.out / "rlibs" / "right.sum").unlink()
            Path(f"{self.calls}.go").unlink()
        self.assertEqual(self.build()[0], 0)

    def test_interrupt(self) -> None:
        """A signal ends what runs. Nothing is left of the crate, and those that were built are kept.

        What still ran would hold the lock, and the next build would be refused. A build ignores what is ignored where
        it starts, as SIGHUP under nohup."""
        numbers = [signal.SIGINT, signal.SIGTERM, signal.SIGHUP]
        for number in [number for number in numbers if signal.getsignal(number) is not signal.SIG_IGN]:
            with self.subTest(number=number), self.begun(2, WAITING="left") as build:
                self.wait_for("begin left")
                self.wait_until(lambda: "right" in self.sums())
                build.send_signal(number)
                self.assertEqual(build.communicate(timeout=60)[1], "interrupted\n")
                self.assertEqual(build.returncode, 128 + number)
                self.assertEqual(self.sums(), {"low", "right"})
                self.assertEqual({path.name for path in self.out.glob("rlibs/*.rlib")}, {"low.rlib", "right.rlib"})
        told = ["low is kept", "left is proved", "right is kept", "chordsim is proved"]
        self.assertEqual(sorted(self.build()[1]), sorted(told))

    def test_sources_change(self) -> None:
        """A source that is changed while its crate is built, and changed back, is noticed."""
        with self.begun(WAITING="left") as build:
            self.wait_for("begin left")
            for text in ("second\n", "first\n"):
                self.source("left").write_text(text, encoding="utf-8")
            Path(f"{self.calls}.go").touch()
            told = "tools/build_program: left has changed while it was built: start again\n"
            self.assertIn(told, build.communicate(timeout=60)[1])
        self.assertEqual((build.returncode, self.sums()), (1, {"low"}))

    def test_two_builds(self) -> None:
        """A second build into the folder is refused."""
        with self.begun(WAITING="left") as build:
            self.wait_for("begin left")
            second = subprocess.run(build.args, env={"PATH": f"{self.folder / 'bin'}:{os.environ['PATH']}"},
                                    capture_output=True, text=True, check=False)
            told = f"tools/build_program: another build is at work in {self.out}\n"
            self.assertEqual((second.returncode, second.stdout, second.stderr), (1, "", told))
            Path(f"{self.calls}.go").touch()
            build.communicate(timeout=60)
        self.assertEqual(build.returncode, 0)

    def test_no_kit(self) -> None:
        """Without rt the status is 1, and the line says what to do."""
        (self.folder / "bin" / "rt").unlink()
        (self.folder / "bin" / "python3").symlink_to(sys.executable)
        status, told, error = self.build(PATH=str(self.folder / "bin"))
        self.assertEqual((status, told), (1, []))
        self.assertIn("put the bin folder of the Rattle kit on it", error)
