"""The program chordsim, as a study calls it."""

import os
import signal
import subprocess
import tempfile
from collections.abc import Callable, Iterable, Iterator, Sequence
from contextlib import contextmanager
from io import BytesIO
from pathlib import Path
from typing import IO

from chordsim_tools.cli import Failure
from chordsim_tools.files import reason
from chordsim_tools.known import known
from chordsim_tools.program import environment
from chordsim_tools.study.lookups import Table, read_table

PART = 1 << 18
"""So many bytes of an output are read at once."""
Read = Callable[[Iterable[str]], Iterable[str]]
"""Reads the lines of a digest, and gives those without a time."""
CLOSED = "failed: 4 Write"
"""What the program says if nobody reads what it writes into a pipe."""


def one_line(text: bytes) -> str:
    """The last line of what a program said."""
    lines = text.decode("utf-8", "replace").strip().splitlines()
    return lines[-1].strip() if lines else "nothing was said"


class Program:
    """Calls the program with the files of one run."""

    def __init__(self, path: Path, scenario: Path, latency: Path | None) -> None:
        """The files are named in each call."""
        self.path = path
        self.files = ["--scenario", str(scenario)] + ([] if latency is None else ["--latency", str(latency)])

    def check(self) -> None:
        """Fails if the scenario is refused."""
        with self.output(["check"]):
            pass

    def idents(self, names: list[str]) -> dict[str, int]:
        """The identifier of each node. The program has to give one for each of these names."""
        with self.output(["ids"]) as output:
            idents = {name: int(ident) for name, ident in (line.split(" ") for line in lines_of(output))}
        if idents.keys() != set(names):
            raise self.wrong("ids")
        return idents

    def run(self) -> dict[str, int]:
        """Runs the scenario; gives the report."""
        with self.output(["run", "--serial", "--trace", os.devnull]) as output:
            lines = list(lines_of(output))
        return self.report_of(line for line in lines if not line[:1].isdigit())

    def judged(self, edges: Iterable[int], read: Read) -> tuple[Table, dict[str, int]]:
        """Runs the scenario and judges its trace as it comes. The lines of the digest are read, in which messages are
        counted from one of the edges to the next. Gives the lookups and the report."""
        times = ",".join(map(str, sorted({*edges} - {0})))
        with tempfile.TemporaryDirectory() as folder:
            digest = Path(folder) / "digest"
            judge = ["judge", "--digest", str(digest), *(["--edges", times] if times else [])]
            with self.output(["run", "--serial"], judge) as output:
                # All of it first: taken apart as it comes, it takes a third more time, as caches are shared then.
                table = read_table(BytesIO(output.read()))
            if not digest.is_file():
                raise self.wrong("judge")
            with digest.open("rb") as file:
                return table, self.report_of(read(lines_of(file)))

    def report_of(self, lines: Iterable[str]) -> dict[str, int]:
        """The report in these lines."""
        try:
            report = {word: int(number) for word, number in (line.split(" ") for line in lines)}
        except (ValueError, LookupError):
            report = {}
        if "events" not in report:
            raise self.wrong("run")
        return report

    def wrong(self, command: str) -> Failure:
        """What stops the study if a command of the program ends well and writes something else than chordsim."""
        return Failure(3, f"{self.path} {command}: the output is not that of chordsim")

    @contextmanager
    def output(self, *calls: Sequence[str], source: IO[bytes] | None = None) -> Iterator[IO[bytes]]:
        """What the last of these calls writes; each one reads what the one before it writes, and the first one the
        source, if there is one. Fails if a status is not 0; the program never outlives the block."""
        wrong = False
        try:
            with Pipe(source) as pipe:
                for command, *arguments in calls:
                    pipe.start([str(self.path), command, *self.files, *arguments])
                output = known(pipe.processes[-1].stdout)
                try:
                    yield output
                except (ValueError, LookupError):
                    wrong = True
                output.read()
                pipe.end()
        except OSError as fault:
            raise Failure(3, f"cannot run {self.path}: {reason(fault)}") from None
        if wrong:
            raise self.wrong(calls[-1][0])


class Pipe:
    """Processes each of which reads what the one before it writes."""

    def __init__(self, source: IO[bytes] | None = None) -> None:
        """No processes yet. The first one reads the source, or what this process has as standard input."""
        self.source = source
        self.processes: list[subprocess.Popen[bytes]] = []
        self.errors: list[IO[bytes]] = []

    def __enter__(self) -> "Pipe":
        """The pipe."""
        return self

    def __exit__(self, *_: object) -> None:
        """None of the processes is left."""
        for process in self.processes:
            process.kill()
            process.wait()
            known(process.stdout).close()
        for errors in self.errors:
            errors.close()

    def start(self, command: list[str]) -> None:
        """One more process, whose standard output is to be read."""
        before = self.processes[-1].stdout if self.processes else self.source
        self.errors.append(tempfile.TemporaryFile())
        self.processes.append(
            subprocess.Popen(
                command, env=environment(), stdin=before, stdout=subprocess.PIPE, stderr=self.errors[-1]
            )
        )
        if before is not None:
            # So the process before this one learns if this one ends.
            before.close()

    def end(self) -> None:
        """Waits for all processes. Fails as the first of them that failed by itself."""
        for process, errors in zip(self.processes, self.errors, strict=True):
            status = process.wait()
            errors.seek(0)
            told = errors.read()
            if status == 0 or (process is not self.processes[-1] and is_closed(status, told)):
                continue
            # What one process writes for another is no file of the user's that could be refused.
            raise ended(3 if status == 1 and process is not self.processes[0] else status, told)


def is_closed(status: int, errors: bytes) -> bool:
    """Whether the program ended because nobody read what it wrote."""
    return status == -signal.SIGPIPE or (status == 3 and one_line(errors) == CLOSED)


def lines_of(output: IO[bytes]) -> Iterator[str]:
    """The lines of an output, without their line feeds."""
    rest = b""
    while part := output.read(PART):
        whole, end, rest = (rest + part).rpartition(b"\n")
        yield from (whole + end).decode("utf-8", "replace").split("\n")[:-1]
    if rest:
        yield rest.decode("utf-8", "replace")


def ended(status: int, errors: bytes) -> Failure:
    """What stops the study if the program ends with another status than 0."""
    if status < 0:
        return Failure(3, f"the program was ended by {signal.Signals(-status).name}")
    return Failure(1 if status == 1 else 3, f"the program says: {one_line(errors)}")
