"""The commands of an installed package: `chordsim`, and each tool as `chordsim-NAME`."""

import os
import signal
import sys
from collections.abc import Mapping
from functools import partial
from importlib import import_module
from pathlib import Path
from typing import NoReturn

from chordsim_tools.cli import Failure, ended
from chordsim_tools.files import reason
from chordsim_tools.place import IS_INSTALLED
from chordsim_tools.program import LAUNCHER, environment, packaged_program

NO_PROGRAM = 125
"""The status if there is no whole program. The program itself never returns it."""


def run_tool(name: str) -> int:
    """Runs a tool with the arguments of the command line, and returns its status."""
    return int(import_module(f"chordsim_tools.{name}.command").main(sys.argv[1:]))


explain = partial(run_tool, "explain")
generate = partial(run_tool, "generate")
latency = partial(run_tool, "latency")
reference = partial(run_tool, "reference")
study = partial(run_tool, "study")
trace = partial(run_tool, "trace")


def chordsim() -> NoReturn:
    """Becomes the program, with the same arguments and streams. Ends with status 125 if there is no whole program."""
    try:
        if IS_INSTALLED:
            become(packaged_program(), environment())
        else:
            become(LAUNCHER, os.environ)
    except Failure as fault:
        sys.exit(ended(NO_PROGRAM, f"chordsim: {fault.text}"))


def become(program: Path, variables: Mapping[str, str]) -> NoReturn:
    """Replaces this process by the program, with this environment."""
    # Python ignores these two signals, and the program would too.
    for number in (signal.SIGPIPE, signal.SIGXFSZ):
        signal.signal(number, signal.SIG_DFL)
    try:
        os.execve(program, ["chordsim", *sys.argv[1:]], variables)
    except OSError as fault:
        raise Failure(3, f"cannot run {program}: {reason(fault)}") from None
