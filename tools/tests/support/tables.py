"""The table of lookups of tools/trace, by the program and by the reading of the trace in Python."""

import tempfile
from pathlib import Path
from unittest.mock import patch

from chordsim_tools.trace.command import main
from tests.support.programs import ended, program


def table_of(lines: Path, scenario: Path, found: Path | None, *options: str) -> tuple[bytes, str]:
    """The table that the tool writes if this is the program that it finds, and its standard error."""
    with tempfile.TemporaryDirectory() as folder, patch("chordsim_tools.trace.judge.program_path", return_value=found):
        table = Path(folder) / "table.csv"
        status, _, error = ended(main, str(lines), str(scenario), "--lookups", str(table), *options)
        assert status == 0, error
        return table.read_bytes(), error


def table_by_python(lines: Path, scenario: Path, *options: str) -> tuple[bytes, str]:
    """The same, if it finds no program."""
    return table_of(lines, scenario, None, *options)


def table_by_judge(lines: Path, scenario: Path, *options: str) -> tuple[bytes, str]:
    """The same, if it finds the program. It may not read the trace in Python then."""
    with patch("chordsim_tools.trace.command.read_run", side_effect=AssertionError):
        return table_of(lines, scenario, program(), *options)
