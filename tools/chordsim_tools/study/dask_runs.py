"""Runs by the workers of a Dask cluster (docs/clusters.md)."""

import functools
import tempfile
from collections.abc import Callable, Iterator
from pathlib import Path
from typing import Any

from chordsim_tools.cli import Failure
from chordsim_tools.files import read_input, sum_of
from chordsim_tools.place import remedy
from chordsim_tools.program import find_program
from chordsim_tools.study.pool import SEED
from chordsim_tools.study.progress import RunProgress
from chordsim_tools.study.task import Task, result_of

MISSING = f"--dask needs the package distributed: {remedy('python3-distributed', 'distributed', 'run')}"
CONNECT_SECONDS = 20
Answer = tuple[int, str, dict[str, Any]]
"""What a worker returns: a status, what went wrong, the result. An exception would lose its status on the way."""
Wanted = tuple[Task, Callable[[dict[str, Any]], None]]
"""A task, and what takes its result."""


def distributed() -> Any:
    """The package."""
    try:
        import distributed as package  # pylint: disable=import-outside-toplevel,import-error
    except ImportError:
        raise Failure(3, MISSING) from None
    return package


def run_by_dask(wanted: list[Wanted], address: str, program_sum: str, progress: RunProgress) -> None:
    """Gives the tasks to the cluster, and their results to those that want them, as they come."""
    package = distributed()
    if not wanted:
        return
    try:
        client = package.Client(address, timeout=CONNECT_SECONDS)
    except (OSError, ValueError, ImportError) as fault:
        raise Failure(3, f"no Dask scheduler at {address}: {fault}") from None
    with client:
        gather(package, client, wanted, program_sum, progress)


def gather(package: Any, client: Any, wanted: list[Wanted], program_sum: str, progress: RunProgress) -> None:
    """Waits for all tasks. The first one that fails ends the work; what was done before is kept."""
    takers = {client.submit(answer_of, task, program_sum, pure=False): (task, take) for task, take in wanted}
    for future in as_they_end(package, set(takers), progress):
        task, take = takers.pop(future)
        take(checked(package, future, task))
        progress.one_more(task.name.rpartition(SEED)[0])


def as_they_end(package: Any, left: set[Any], progress: RunProgress) -> Iterator[Any]:
    """These tasks, each when it has ended."""
    while left:
        try:
            done = package.wait(left, timeout=1, return_when="FIRST_COMPLETED").done
        except TimeoutError:
            done = set()
        left -= done
        yield from done
        progress.tick()


def checked(package: Any, future: Any, task: Task) -> dict[str, Any]:
    """The result of a task that has ended."""
    try:
        status, text, result = future.result()
    except package.KilledWorker:
        raise Failure(3, f"{task.name}: the workers that had this run died, one after the other") from None
    except Exception as fault:  # pylint: disable=broad-exception-caught
        # What a worker raises can be anything, as an ImportError if it does not find this package.
        raise Failure(3, f"{task.name}: a worker failed: {type(fault).__name__}: {fault}") from None
    if status != 0:
        raise Failure(status, f"{task.name}: {text}")
    return dict(result)


def answer_of(task: Task, program_sum: str) -> Answer:
    """Does a task, on a worker."""
    try:
        return 0, "", done_task(task, program_sum)
    except Failure as fault:
        return fault.status, f"{worker_name()}: {fault.text}", {}


def done_task(task: Task, program_sum: str) -> dict[str, Any]:
    """The result of a task, if this worker has the program that is wanted."""
    program, own_sum = worker_program()
    if own_sum != program_sum:
        digests = f"{own_sum[:12]}, and the study wants {program_sum[:12]}"
        raise Failure(3, f"the worker's program {program} has another digest: {digests}")
    with tempfile.TemporaryDirectory() as folder:
        scenario, latency = Path(folder) / "scenario.toml", Path(folder) / "latency.csv"
        scenario.write_text(task.scenario, encoding="utf-8")
        if task.latency is not None:
            latency.write_bytes(task.latency)
        return result_of(task, program, scenario, None if task.latency is None else latency)


@functools.cache
def worker_program() -> tuple[Path, str]:
    """The program of a worker and its digest. It is looked for once: restart a worker after a new build."""
    program = find_program(build=False)
    if program is None:
        raise Failure(3, "the worker has no program: CHORDSIM is not set, and its checkout has none")
    return program, sum_of(read_input(program))


def worker_name() -> str:
    """The worker as messages name it."""
    return f"worker {distributed().get_worker().address}"
