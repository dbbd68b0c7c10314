"""Asks the program chordsim what it finds."""

import subprocess
import tempfile
from pathlib import Path

from chordsim_tools.cli import Failure
from chordsim_tools.files import reason
from chordsim_tools.program import environment


def answer_of(program: Path, scenario: bytes, latency: bytes) -> str:
    """What `chordsim check` prints for these bytes: `refused: ...`, or `accepted: N nodes, M commands`."""
    with tempfile.TemporaryDirectory() as folder:
        files = [Path(folder) / "scenario", Path(folder) / "latency"]
        for file, content in zip(files, (scenario, latency), strict=True):
            file.write_bytes(content)
        return answered([str(program), "check", "--scenario", str(files[0]), "--latency", str(files[1])])


def answered(command: list[str]) -> str:
    """What the program prints for this command."""
    try:
        done = subprocess.run(
            command, env=environment(), capture_output=True, text=True, errors="replace", check=False
        )
    except OSError as error:
        raise Failure(3, f"{command[0]}: {reason(error)}") from None
    said = (done.stdout if done.returncode == 0 else done.stderr).strip().splitlines()
    last = said[-1] if said else "nothing"
    if done.returncode == 0 and last.startswith("ok nodes="):
        nodes, commands = (word.partition("=")[2] for word in last.split()[1:])
        return f"accepted: {nodes} nodes, {commands} commands"
    if done.returncode == 1 and last.startswith("refused: "):
        return last
    raise Failure(3, f"{command[0]}: status {done.returncode}: {last}")
