"""What does the runs of a study: the program as it was at the start, and how many runs are done side by side."""

from dataclasses import dataclass, field
from pathlib import Path

from chordsim_tools.cli import Failure
from chordsim_tools.files import read_input, sum_of
from chordsim_tools.known import known
from chordsim_tools.program import find_program

Stamp = tuple[int, ...]
"""What changes if a file is written or replaced: where it is, its size and its times. Of no file it is empty."""


@dataclass(frozen=True)
class Runner:
    """The program with its digest, and how many runs it does at once: here, or by the workers of a Dask cluster."""

    program: Path
    digest: str
    stamp: Stamp
    jobs: int
    dask: str | None = None
    told: set[str] = field(default_factory=set)
    """The traps that were told before."""

    def check_program(self) -> None:
        """Fails if the program may be another one than that of the digest."""
        if stamp_of(self.program) != self.stamp:
            raise changed(self.program)


def runner_of(jobs: int, dask: str | None = None) -> Runner:
    """What does the runs with the program that is found, which may be built first."""
    program = known(find_program(build=True))
    stamp = stamp_of(program)
    return Runner(program, sum_of(read_input(program)), stamp, jobs, dask)


def stamp_of(path: Path) -> Stamp:
    """The stamp of a file."""
    try:
        found = path.stat()
    except OSError:
        return ()
    return found.st_dev, found.st_ino, found.st_size, found.st_mtime_ns, found.st_ctime_ns


def check_content(path: Path, content: bytes | None) -> None:
    """Fails if a file does not have the content that the study has read of it."""
    try:
        is_same = path.read_bytes() == content
    except OSError:
        is_same = False
    if not is_same:
        raise changed(path)


def changed(path: Path) -> Failure:
    """What stops a study if a file that runs are made of has changed: a run may have read either content."""
    return Failure(3, f"{path} has changed since the study began: start again")
