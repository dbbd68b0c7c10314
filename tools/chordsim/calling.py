"""Calls the program chordsim with a scenario and its latencies."""

import functools
import os
import re
import subprocess
from pathlib import Path
from tempfile import TemporaryDirectory
from typing import NamedTuple

from chordsim.errors import Failed, Refused, failures_raised, refused_argument
from chordsim_tools.explain.command import explanations
from chordsim_tools.explain.files import Explanation
from chordsim_tools.program import environment, find_program
from chordsim_tools.scenario.tables import GREATEST_SIZE

REMEDIES = {
    "1 Memory": "the scenario needs more memory than there is",
    "2 Worker": "ask for fewer workers, or for engine=\"serial\"",
    "3 TooManyEvents": "take a greater max_events, or a shorter duration_us",
    "4 Write": "see whether the folder of the trace is there, may be written and has room",
}
"""What to do about the errors of a run (docs/formats.md, section 5)."""


class Files(NamedTuple):
    """The bytes of the two files of a scenario. Without latencies the second one is None."""

    scenario: bytes
    latency: bytes | None


def program() -> Path:
    """The program. It is looked for once, and never built."""
    return found_program(os.environ.get("CHORDSIM"))


@functools.cache
def found_program(_named: str | None) -> Path:
    """The program, with this value of the variable CHORDSIM."""
    with failures_raised():
        found = find_program(build=False)
    if found is None:
        remedy = "build it with `./chordsim --build`, or name it by the variable CHORDSIM"
        raise Failed("there is no program chordsim of these sources", remedy)
    return found


def output_of(files: Files, command: str, *options: str) -> str:
    """What the program prints for a scenario. Refused or Failed if it does not end with status 0."""
    for name, content in files._asdict().items():
        if content is not None and len(content) > GREATEST_SIZE:
            raise Refused(f"the {name} has {len(content)} bytes, and chordsim reads at most {GREATEST_SIZE}")
    path = program()
    with failures_raised(), TemporaryDirectory(prefix="chordsim-") as folder:
        arguments = [str(path), command]
        for name, content in files._asdict().items():
            if content is not None:
                file = Path(folder) / name
                file.write_bytes(content)
                arguments += [f"--{name}", str(file)]
        done = subprocess.run(
            [*arguments, *options], env=environment(), capture_output=True, text=True, errors="replace", check=False
        )
    if done.returncode != 0:
        raise ended(done.returncode, done.stderr.strip(), files)
    return done.stdout


def ended(status: int, told: str, files: Files) -> Refused | Failed:
    """The error of a program that ended with this status and this text on standard error."""
    if status == 1 and told.startswith("refused: "):
        return refusal(told.removeprefix("refused: "), files)
    if status == 2:
        return refused_option(told)
    if status < 0:
        return Failed(f"the program was ended by signal {-status}", status=status)
    text = told.removeprefix("failed: ") or "the program said nothing"
    return Failed(text, REMEDIES.get(text), status)


def refused_option(told: str) -> Refused:
    """The refusal of an option: the first lines of what the program says."""
    text = " ".join(told.partition("\n\n")[0].split()).removeprefix("error: ")
    named = re.search("'--([a-z]+)", text)
    return Refused(text) if named is None else refused_argument(named[1], text)


def refusal(fault: str, files: Files) -> Refused:
    """The refusal of a scenario, in the words of tools/explain if its first fault is the same."""
    _, found = explanations(files.scenario, files.latency or b"", ("the scenario", "the latencies"))
    with failures_raised():
        first = next((one for one in found), None)
    if first is None or first.fault != fault:
        return Refused(fault)
    refused = Refused(f"{fault}: {first.what}: {first.found}{position_told(first)}", remedy_of(first))
    refused.place, refused.key = first.place or None, first.key or None
    if not first.near:
        refused.line, refused.column = first.line, first.column
    return refused


def position_told(one: Explanation) -> str:
    """Where a fault is, in words."""
    if one.line is None or one.near:
        return f" ({one.file})"
    return f" ({one.file}, line {one.line}" + ("" if one.column is None else f", column {one.column}") + ")"


def remedy_of(one: Explanation) -> str:
    """What was likely meant, else what is allowed."""
    return "; ".join(one.hints) if one.hints else f"allowed: {one.allowed}"
