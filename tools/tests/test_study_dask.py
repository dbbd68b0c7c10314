"""A study by a Dask cluster: a scheduler and two workers on this machine, one of which is killed."""

import os
import re
import signal
import subprocess
import sys
import time
from collections.abc import Iterator
from contextlib import ExitStack, contextmanager
from importlib.util import find_spec
from pathlib import Path
from unittest import SkipTest, TestCase
from unittest.mock import patch

from tests.test_study_parts import same_tables
from tests.test_study_run import STUDY, TOOL, TOP, call, study_folder

STARTED = 90
"""How many seconds a scheduler and its workers may take to start on a busy machine."""
SCHEDULER = ["-m", "distributed.cli.dask_scheduler", "--host", "127.0.0.1", "--port", "0", "--no-dashboard"]
WORKER = ["-m", "distributed.cli.dask_worker", "--nthreads", "1", "--no-nanny", "--no-dashboard"]


@contextmanager
def started(arguments: list[str], log: Path, program: Path) -> Iterator["subprocess.Popen[bytes]"]:
    """A process of the cluster, which writes to a log and is killed at the end."""
    environment = os.environ | {"CHORDSIM": str(program), "PYTHONPATH": str(TOP / "tools")}
    with log.open("wb") as file:
        process = subprocess.Popen(
            [sys.executable, *arguments], stdout=file, stderr=file, env=environment, cwd=log.parent
        )
    try:
        yield process
    finally:
        process.kill()
        process.wait()


def waited(log: Path, pattern: str) -> str:
    """What a log says, once it says it."""
    text = ""
    for _ in range(STARTED * 10):
        text = log.read_text(errors="replace") if log.exists() else ""
        found = re.search(pattern, text)
        if found is not None:
            return found[0]
        time.sleep(0.1)
    raise AssertionError(f"{log.name} does not say {pattern}: {text}")


def parent_of(pid: int) -> int:
    """The process that started another one."""
    return int(Path(f"/proc/{pid}/stat").read_text(encoding="ascii").rpartition(")")[2].split()[1])


@contextmanager
def cluster(folder: Path, *programs: Path) -> Iterator[tuple[str, list["subprocess.Popen[bytes]"]]]:
    """The address of a scheduler, and a worker for each program."""
    if find_spec("distributed") is None:
        raise SkipTest("this Python has no distributed: apt-get install python3-distributed")
    with ExitStack() as stack:
        log = folder / "scheduler.log"
        stack.enter_context(started(SCHEDULER, log, programs[0]))
        address = waited(log, r"tcp://127\.0\.0\.1:[0-9]+")
        workers = []
        for number, program in enumerate(programs):
            log = folder / f"worker{number}.log"
            workers.append(stack.enter_context(started([*WORKER, address], log, program)))
        for number in range(len(programs)):
            waited(folder / f"worker{number}.log", "Registered to")
        yield address, workers


class DaskTest(TestCase):
    """The same bytes, also if a worker dies; and what is refused."""

    def test_worker_that_is_killed(self) -> None:
        """One of four runs sleeps; the worker that has it is killed, and the other one does the run again."""
        with study_folder(STUDY.replace("[1, 2]", "[1]", 1).replace("list = [1, 2]", "list = [1, 2, 3, 4]")) as folder:
            call(folder)
            (folder / "sleep").write_text("list = 2")
            program = folder / "fake"
            with cluster(folder, program, program) as (address, workers):
                words = [sys.executable, str(TOOL), "run", "study.toml", "--dask", address, "-o", "all"]
                environment = os.environ | {"CHORDSIM": str(program)}
                tool = subprocess.Popen(words, env=environment, cwd=folder, stderr=subprocess.PIPE, text=True)
                sleeper = int(waited(folder / "pid", r"[0-9]+(?=\n)"))
                (folder / "sleep").write_text("nothing")
                next(worker for worker in workers if worker.pid == parent_of(sleeper)).kill()
                os.kill(sleeper, signal.SIGKILL)
                assert tool.communicate(timeout=STARTED)[1] == "" and tool.returncode == 0
            assert same_tables(folder / "study", folder / "all")
            assert (folder / "calls").read_text().count("run ") == 9

    def test_worker_with_another_program(self) -> None:
        """It refuses the task, and the line names both digests."""
        with study_folder() as folder:
            other = folder / "other"
            other.write_text((folder / "fake").read_text() + "# more\n")
            other.chmod(0o755)
            with cluster(folder, other) as (address, _):
                status, told = call(folder, "--dask", address)
            assert status == 3 and "has another digest: " in told and "worker tcp://" in told, told
            assert not (folder / "study" / "runs.csv").exists()

    def test_without_the_package(self) -> None:
        """One line that names it."""
        with study_folder() as folder, patch.dict(sys.modules, distributed=None):
            status, told = call(folder, "--dask", "tcp://127.0.0.1:1")
            assert status == 3 and "apt-get install python3-distributed" in told
