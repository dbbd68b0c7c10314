"""Runs tools in the test's own process, and the program if there is one."""

import functools
import io
import os
import signal
import subprocess
from collections.abc import Callable
from contextlib import redirect_stderr, redirect_stdout
from pathlib import Path
from unittest import SkipTest

from chordsim_tools.cli import Failure
from chordsim_tools.program import find_program

TOOLS = ("explain", "generate", "latency", "reference", "study", "trace")


def ended(main: Callable[[list[str]], int], *arguments: str) -> tuple[int, str, str]:
    """The status of a tool, and what it wrote to its two streams."""
    out, err = io.StringIO(), io.StringIO()
    with redirect_stdout(out), redirect_stderr(err):
        try:
            status = main(list(arguments))
        except SystemExit as end:
            assert isinstance(end.code, int)
            status = end.code
    return status, out.getvalue(), err.getvalue()


def heed_interrupts() -> None:
    """Undoes that whoever started the tests ignores SIGINT, as a shell does for what runs in the background."""
    signal.signal(signal.SIGINT, signal.SIG_DFL)


@functools.cache
def program_or_reason() -> Path | str:
    """The program, or why there is none. The launcher looks at all sources to say it, so that it is asked once."""
    try:
        return find_program(build=False) or "there is no program of these sources: build it, or name one by CHORDSIM"
    except Failure as fault:
        return fault.text


def program() -> Path:
    """The program. A test that needs it is skipped if there is none."""
    found = program_or_reason()
    if isinstance(found, str):
        raise SkipTest(found)
    return found


def called(*command: str | Path, **more: str) -> tuple[int, str, str]:
    """The status of a command, and what it prints on both streams. CHORDSIM is not set, unless it is one of `more`."""
    environment = {name: value for name, value in os.environ.items() if name != "CHORDSIM"} | more
    done = subprocess.run(command, env=environment, capture_output=True, text=True, check=False, timeout=300)
    return done.returncode, done.stdout, done.stderr


def checked(scenario: Path, latency: Path | None = None) -> str:
    """What `chordsim check` returns."""
    rows = [] if latency is None else ["--latency", str(latency)]
    command = [str(program()), "check", "--scenario", str(scenario), *rows]
    done = subprocess.run(command, capture_output=True, text=True, check=False)
    return done.stdout + done.stderr
