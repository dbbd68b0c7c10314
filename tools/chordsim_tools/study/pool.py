"""Runs side by side on this machine, each in a process of its own."""

import contextlib
import multiprocessing
import signal
import sys
import time
from collections.abc import Callable
from multiprocessing import connection
from multiprocessing.process import BaseProcess

from chordsim_tools.cli import Failure
from chordsim_tools.files import reason
from chordsim_tools.study.progress import RunProgress
from chordsim_tools.study.stops import heed, stop

Work = tuple[str, Callable[[], None]]
"""A piece of work, by the name that messages give it."""
# concurrent.futures would be shorter, but a pool of it cannot end the runs in hand: they are seconds to hours long, and
# a stop has to end them at once, together with their programs.
Going = dict[int, tuple[BaseProcess, connection.Connection, str, float]]
"""The processes of the runs in hand, by their sentinels, and when they began."""
SEED = ", seed="
"""What is between the setting and the seed in the name of a run."""


def work_all(works: list[Work], jobs: int, progress: RunProgress) -> None:
    """Does this work, at most `jobs` pieces side by side. The first one that stops, stops all."""
    going: Going = {}
    try:
        waiting = list(reversed(works))
        while waiting or going:
            start_some(waiting, going, jobs)
            finish_some(going, progress)
            progress.tick()
    finally:
        end_all([process for process, *_ in going.values()])


def start_some(waiting: list[Work], going: Going, jobs: int) -> None:
    """Starts the pieces of work for which there is room, the last ones first."""
    while waiting and len(going) < jobs:
        start(waiting.pop(), going)


def finish_some(going: Going, progress: RunProgress) -> None:
    """Takes the ends of the pieces of work that end within a second."""
    for sentinel in [place for place in connection.wait(list(going), 1) if isinstance(place, int)]:
        process, pipe, name, begun = going.pop(sentinel)
        finish(process, pipe, name)
        progress.one_more(name.rpartition(SEED)[0], time.monotonic() - begun)


def end_all(processes: list[BaseProcess]) -> None:
    """Ends processes: first all are told, then all are waited for."""
    for process in processes:
        process.terminate()
    for process in processes:
        process.join()


def in_process(work: Callable[[], None], pipe: connection.Connection) -> None:
    """A process of its own does the work; what stops it goes through the pipe."""
    heed(signal.SIGHUP, signal.SIGINT)
    # The tool ends its processes by this one, also if it ignores it itself.
    signal.signal(signal.SIGTERM, stop)
    try:
        work()
        return
    except Failure as fault:
        told = fault.status, fault.text
    except OSError as fault:
        told = 3, f"{fault.filename or 'a stream'}: {reason(fault)}"
    except MemoryError:
        told = 3, "no memory is left"
    pipe.send(told)
    sys.exit(told[0])


def start(work: Work, going: Going) -> None:
    """Starts a process for a piece of work."""
    name, call = work
    context = multiprocessing.get_context("fork")
    receiver, sender = context.Pipe(duplex=False)
    process = context.Process(target=in_process, args=(call, sender))
    try:
        process.start()
    except OSError as fault:
        raise Failure(3, f"cannot start a process: {reason(fault)}") from None
    sender.close()
    going[process.sentinel] = (process, receiver, name, time.monotonic())


def finish(process: BaseProcess, pipe: connection.Connection, name: str) -> None:
    """Takes the end of a piece of work."""
    process.join()
    status, text = 3, f"its process ended with status {process.exitcode}"
    with contextlib.suppress(EOFError, OSError):
        if pipe.poll():
            status, text = pipe.recv()
    pipe.close()
    if process.exitcode != 0:
        raise Failure(status, f"{name}: {text}")
