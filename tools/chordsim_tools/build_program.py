"""The command tools/build_program."""

import contextlib
import fcntl
import os
import shutil
import signal
import subprocess
import sys
import time
from dataclasses import dataclass, field
from pathlib import Path
from typing import BinaryIO, NamedTuple

from chordsim_tools.cli import Failure, ToolParser, ended, run, say, write_out
from chordsim_tools.files import make_folder, read_input, reason, sum_of, write_whole
from chordsim_tools.options import whole
from chordsim_tools.place import FOLDER, tool

PROG = tool("build_program")
HELP = """\
Proves and builds the program of these sources into FOLDER, by the Rattle kit whose rt is on PATH: the crates that
chordsim stands on, each as soon as all below it are built. A crate of FOLDER that is of the same sources is kept.
`./chordsim --build` calls this. Wrong bodies and tests are left to the gate."""
EPILOG = """\
in FOLDER:
  chordsim             the program
  rlibs/CRATE.rlib     each library, and beside it the sum of what it is made of
  logs/CRATE.log       what rattle printed of each crate

status: 0 the program is built; 1 a crate is not proved, or there is no kit; 2 the arguments are wrong; 3 something
failed (the disk, say); 129, 130 or 143 stopped by a signal"""
TOP = FOLDER.parent
PROGRAM = "chordsim"
LEFT_OUT = ("out", "must-fail")
"""Folders of a crate that have no sources of it."""
PAUSE = 0.05
"""Seconds between two looks at what runs."""
SIGNALS = (signal.SIGHUP, signal.SIGINT, signal.SIGTERM)


class NotBuilt(Failure):
    """The program is not built, for a reason that is no failure of the disk or of the system."""

    def __init__(self, text: str) -> None:
        """Status 1."""
        super().__init__(1, text)

    def line(self, prog: str) -> str:
        """The line for standard error."""
        return f"{prog}: {self.text}"


class Source(NamedTuple):
    """A file of a crate. A change of it gives it another time, which nobody can set back."""

    name: str
    inode: int
    changed: int


@dataclass(frozen=True)
class Crate:
    """A crate of the program, the libraries that crates.txt names for it, and its sources when the build began."""

    name: str
    libraries: tuple[str, ...]
    sources: list[Source]
    sum: str
    """The sum of its sources, of the kit, and of the sums of its libraries."""


@dataclass
class Job:
    """A command that runs for a crate, and the commands that are to follow."""

    crate: Crate
    process: subprocess.Popen[bytes]
    commands: list[list[str]]


def listed_libraries(text: str) -> dict[str, tuple[str, ...]]:
    """The crates of crates.txt, and the libraries that each names."""
    listed = {}
    for line in text.splitlines():
        words, colon, libraries = line.partition("#")[0].partition(":")
        if colon and words.split():
            listed[words.split()[0]] = tuple(libraries.split())
    return listed


def names_of_program(listed: dict[str, tuple[str, ...]]) -> list[str]:
    """The crates that the program is made of, each after those below it."""
    found: list[str] = []

    def add(name: str, above: tuple[str, ...]) -> None:
        """Adds a crate after those below it. A library that is not listed is the kit's."""
        if name in above:
            raise NotBuilt(f"crates.txt: {name} stands on itself")
        if name not in listed or name in found:
            return
        for library in listed[name]:
            add(library, (*above, name))
        found.append(name)

    add(PROGRAM, ())
    return found


def folder_of(name: str) -> Path:
    """The folder of a crate."""
    return TOP / "crates" / name


def sources_of(name: str) -> list[Source]:
    """The code, definitions and proofs of a crate, by their names."""
    top = folder_of(name)
    found: list[Source] = []
    for folder, folders, files in os.walk(top):
        folders[:] = [below for below in folders if below not in LEFT_OUT]
        found += [source_of(Path(folder, file), top) for file in files if file.endswith((".rt", ".antt"))]
    return sorted(found)


def source_of(path: Path, top: Path) -> Source:
    """A file of a crate, whose folder is given."""
    status = path.stat()
    return Source(str(path.relative_to(top)), status.st_ino, status.st_ctime_ns)


def read_crates(kit_id: str) -> list[Crate]:
    """The crates of the program, each after those below it."""
    listed = listed_libraries(read_input(TOP / "crates.txt").decode(errors="replace"))
    sums: dict[str, str] = {}
    crates = []
    for name in names_of_program(listed):
        sources = sources_of(name)
        parts = [kit_id, *(f"{library} {sums.get(library, '')}" for library in listed[name])]
        parts += [f"{file.name} {sum_of(read_input(folder_of(name) / file.name))}" for file in sources]
        sums[name] = sum_of("\n".join(parts))
        crates.append(Crate(name, listed[name], sources, sums[name]))
    return crates


def find_kit() -> Path:
    """The folder of the kit whose rt is on PATH."""
    found = shutil.which("rt")
    if found is None:
        raise NotBuilt("there is no rt on PATH: put the bin folder of the Rattle kit on it")
    return Path(found).resolve().parents[1]


def remove(path: Path) -> None:
    """Removes a file or a folder, if it is there. A library is a folder."""
    if path.is_dir():
        shutil.rmtree(path)
    else:
        path.unlink(missing_ok=True)


def lock_of(folder: Path) -> BinaryIO:
    """The lock of a folder that is built into. What the build starts holds it too, also after a build is killed."""
    file = open(folder / "lock", "ab")
    try:
        fcntl.flock(file, fcntl.LOCK_EX | fcntl.LOCK_NB)
    except BlockingIOError:
        file.close()
        raise NotBuilt(f"another build is at work in {folder}") from None
    return file


@dataclass
class Build:
    """What is built into a folder, by a kit. It holds the lock of the folder."""

    kit: Path
    folder: Path
    lock: BinaryIO
    waiting: list[Crate]
    own: frozenset[str]
    """The names of all crates. Other libraries are the kit's."""
    built: set[str] = field(default_factory=set)
    failed: dict[str, str] = field(default_factory=dict)
    """The crates that are not built, and why."""
    running: list[Job] = field(default_factory=list)
    stopped: int | None = None
    """The signal that stops the build."""

    def result(self, name: str) -> Path:
        """What is built of a crate: its library, or the program."""
        return self.folder / PROGRAM if name == PROGRAM else self.folder / "rlibs" / f"{name}.rlib"

    def sum_file(self, name: str) -> Path:
        """The file of the sum of a crate that is built."""
        return self.result(name).with_suffix(".sum")

    def log(self, name: str) -> Path:
        """What was printed of a crate."""
        return self.folder / "logs" / f"{name}.log"

    def library(self, name: str) -> Path:
        """A library of these sources or of the kit."""
        return self.result(name) if name in self.own else self.kit / "rlibs" / f"{name}.rlib"

    def commands(self, crate: Crate) -> list[list[str]]:
        """The commands that prove and build a crate, one after the other."""
        kit, out = self.kit, self.folder
        is_program = crate.name == PROGRAM
        words = [f"{kit}/bin/rattle", "build", "--crate-name", crate.name, f"src/{'main' if is_program else 'lib'}.rt"]
        for library in dict.fromkeys(("std", *crate.libraries)):
            words += ["--extern", f"{library}={self.library(library)}"]
        words += ["-L", f"dependency={kit}/rlibs", "-L", f"dependency={out}/rlibs"]
        words += ["--antt-project", f"{kit}/rattle/logic/antt-project.json", "--logic-built", f"{kit}/logic_built"]
        words += ["--links", f"{crate.name}=", "--jobs", "1"]
        if not is_program:
            return [[*words, "--statements", "-o", str(self.result(crate.name))]]
        program = f"{out}/{PROGRAM}"
        link = [f"{kit}/bin/rattle-link", "--target", "x86_64-unknown-linux-gnu", "--toolchain", f"{kit}/toolchain"]
        link += ["-o", program, f"{program}.o", f"{kit}/c/libos_c.a", f"{kit}/c/liblibc_c.a"]
        return [[*words, "--toolchain", f"{kit}/toolchain", "--backend", "llvm", "-o", f"{program}.o"], link]

    def is_kept(self, crate: Crate) -> bool:
        """Whether the crate is there, built of the same."""
        try:
            kept = self.sum_file(crate.name).read_text(encoding="ascii")
        except (OSError, ValueError):
            return False
        return kept == f"{crate.sum}\n" and self.result(crate.name).exists()

    def start(self, crate: Crate, commands: list[list[str]]) -> None:
        """Starts the first of these commands for a crate, in a session of its own."""
        try:
            with open(self.log(crate.name), "ab") as log:
                process = subprocess.Popen(
                    commands[0], cwd=folder_of(crate.name), stdin=subprocess.DEVNULL, stdout=log,
                    stderr=subprocess.STDOUT, start_new_session=True, pass_fds=[self.lock.fileno()],
                )
        except OSError as fault:
            raise Failure(3, f"cannot run {commands[0][0]} for {crate.name}: {reason(fault)}") from None
        self.running.append(Job(crate, process, commands[1:]))

    def start_ready(self, jobs: int) -> None:
        """Starts the crates that have all below them, as many at once as may run."""
        for crate in list(self.waiting):
            if len(self.running) >= jobs or self.failed:
                return
            if self.own.intersection(crate.libraries) <= self.built:
                self.waiting.remove(crate)
                self.begin(crate)

    def begin(self, crate: Crate) -> None:
        """Keeps a crate, or starts to build it. Until it is built it has no sum."""
        if self.is_kept(crate):
            self.succeed(crate, "is kept")
            return
        remove(self.sum_file(crate.name))
        remove(self.result(crate.name))
        remove(self.log(crate.name))
        if sources_of(crate.name) != crate.sources:
            self.fail(crate, "changed before it was built: start again")
        else:
            self.start(crate, self.commands(crate))

    def finish(self, job: Job) -> None:
        """Takes the end of a command."""
        self.running.remove(job)
        crate = job.crate
        is_proved = self.is_proved(crate)
        if job.process.returncode != 0 or not is_proved:
            self.fail(crate, "is proved, but not built" if is_proved else "is not proved")
        elif sources_of(crate.name) != crate.sources:
            self.fail(crate, "has changed while it was built: start again")
        elif job.commands:
            self.start(crate, job.commands)
        else:
            write_whole(self.sum_file(crate.name), f"{crate.sum}\n")
            self.succeed(crate, "is proved")

    def is_proved(self, crate: Crate) -> bool:
        """Whether rattle has printed that the crate is proved."""
        with open(self.log(crate.name), encoding="utf-8", errors="replace") as log:
            return any(line.split()[:1] == ["logic=proved"] for line in log)

    def succeed(self, crate: Crate, told: str) -> None:
        """The crate is there for those above it."""
        self.built.add(crate.name)
        write_out(f"{crate.name} {told}\n")

    def fail(self, crate: Crate, told: str) -> None:
        """The crate is not built, and no other one is begun."""
        remove(self.result(crate.name))
        self.failed[crate.name] = told
        write_out(f"{crate.name} {told}\n")

    def build(self, jobs: int) -> None:
        """Builds all crates, as many at once, until one is not built or a signal comes. Leaves nothing that runs."""
        try:
            while self.stopped is None and (self.running or not (self.failed or len(self.built) == len(self.own))):
                self.start_ready(jobs)
                time.sleep(PAUSE)
                self.finish_ended()
        finally:
            self.end_all()

    def finish_ended(self) -> None:
        """Takes the ends of the commands that have ended."""
        for job in [job for job in self.running if job.process.poll() is not None]:
            self.finish(job)

    def end_all(self) -> None:
        """Ends the commands that run."""
        for job in self.running:
            with contextlib.suppress(ProcessLookupError):
                os.killpg(job.process.pid, signal.SIGKILL)
            job.process.wait()
            remove(self.result(job.crate.name))

    def report(self) -> None:
        """Fails if a crate is not built, and prints what rattle printed of it."""
        for name, told in self.failed.items():
            if self.log(name).exists():
                say(f"{self.log(name)}:\n{self.log(name).read_text(encoding='utf-8', errors='replace')}")
            say(f"{PROG}: {name} {told}\n")
        if self.failed:
            raise NotBuilt("the program is not built")


def watch_signals(build: Build) -> None:
    """Lets signals that would end this process stop the build."""

    def stop(number: int, _frame: object) -> None:
        """Notes the signal."""
        build.stopped = number

    for number in SIGNALS:
        if signal.getsignal(number) is not signal.SIG_IGN:
            signal.signal(number, stop)


def build_program(folder: Path, jobs: int) -> int:
    """Builds the program into the folder. Returns the status."""
    kit = find_kit()
    for below in ("rlibs", "logs"):
        make_folder(folder / below)
    with lock_of(folder) as lock:
        crates = read_crates(read_input(kit / "KIT-ID").decode(errors="replace"))
        build = Build(kit, folder, lock, crates, frozenset(crate.name for crate in crates))
        watch_signals(build)
        build.build(jobs)
        if build.stopped is not None:
            return ended(128 + build.stopped, "interrupted")
        build.report()
    return 0


def parser_of() -> ToolParser:
    """The parser of the arguments."""
    parser = ToolParser(PROG, HELP, EPILOG)
    parser.add_argument("--jobs", metavar="N", type=whole(1, 1024), default="1", help="N crates at once (default: 1)")
    parser.add_argument("folder", metavar="FOLDER", type=Path, help="the folder to build into")
    return parser


def main(arguments: list[str]) -> int:
    """Builds the program. Returns the status."""
    parsed = parser_of().parse_args(arguments)
    return run(PROG, lambda: build_program(parsed.folder.resolve(), parsed.jobs.value))


if __name__ == "__main__":
    sys.exit(main(sys.argv[1:]))
