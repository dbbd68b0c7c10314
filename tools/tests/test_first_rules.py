"""The extended profile with its later rules switched off: the bytes of the program before these rules came.

data/first_rules.json has thirty random scenarios of profile 4, as tools/generate made them of these seeds before the
keys of the rules of Chord as published came. For each it has the status with which the program of that time ended, and
the SHA-256 of its trace and of its report. The release program of commit 7cbf669c wrote these, with `--serial`. In the
last scenario a lookup fails at its ninth timeout.

data/first_joins.json has thirty more, of commit 698ac09, when the rules of lookups and of silent nodes were there, and
those of joins were not: ten of tools/generate, and twenty in which rings break and heal.
"""

import hashlib
import json
import subprocess
from collections.abc import Iterator
from pathlib import Path
from tempfile import TemporaryDirectory
from typing import Any, NamedTuple
from unittest import TestCase

from tests.support.programs import program
from tests.support.worlds import OFF_WITH_TIMES, of_joins
from tests.test_random import expected

DATA = Path(__file__).parent / "data"
JOINS = ("creates ",)
"""The lines of the report that came with the rules of joins."""
LOOKUPS = ("rescues ", "timeouts-sum ")
"""Those that came with the rules of lookups and of silent nodes."""
LEAVES = ("leaves ",)
"""The one that came with leaves, which need no key to be off."""


class Table(NamedTuple):
    """A table of runs: its file, the keys that switch off what came later, and the lines of the report that did."""

    file: str
    off: dict[str, str]
    later: tuple[str, ...]


TABLES = (
    Table("first_rules.json", OFF_WITH_TIMES, (*LOOKUPS, *JOINS, *LEAVES)),
    Table("first_joins.json", of_joins(), (*JOINS, *LEAVES)),
)


class Kept(NamedTuple):
    """A run of a table, with its name, its scenario without the rules that came later, and the lines of the report."""

    name: str
    run: dict[str, Any]
    toml: str
    later: tuple[str, ...]

    def check(self, status: int, trace: str | None, report: str) -> None:
        """Asserts that a run has ended like this. Without a trace only the rest is compared."""
        lines = report.splitlines(keepends=True)
        old = "".join(line for line in lines if not line.startswith(self.later))
        assert status == self.run["status"], status
        assert trace is None or sum_of(trace) == self.run["trace"], "another trace"
        assert sum_of(old) == self.run["report"], "another report"
        if status == 0:
            assert len(lines) == len(old.splitlines()) + len(self.later)
            assert all(f"{word}0\n" in lines for word in self.later if word != "timeouts-sum ")


def kept() -> Iterator[Kept]:
    """All runs of both tables."""
    for table in TABLES:
        runs = json.loads((DATA / table.file).read_text(encoding="utf-8"))
        assert len(runs) == 30
        for run in runs:
            given = {line.split(" = ")[0] for line in run["scenario"].splitlines()}
            off = "".join(f"{key} = {value}\n" for key, value in table.off.items() if key not in given)
            yield Kept(str(run.get("name", run.get("seed"))), run, off + run["scenario"], table.later)


class FirstRulesTest(TestCase):
    """Each key at the value that switches its rule off: the same status, trace and report, with more lines of 0."""

    def test_bytes_of_the_reference(self) -> None:
        """If there are too many events, the reference has the whole trace up to there, and the program a part of it."""
        for one in kept():
            with self.subTest(one.name):
                trace, report = expected(one.toml, one.run["latency"])
                one.check(3 if report is None else 0, None if report is None else trace, report or "")

    def test_bytes_of_the_program(self) -> None:
        """By the serial engine."""
        chordsim = program()
        with TemporaryDirectory() as name:
            folder = Path(name)
            for one in kept():
                with self.subTest(one.name):
                    (folder / "toml").write_text(one.toml, encoding="utf-8")
                    (folder / "csv").write_text(one.run["latency"], encoding="utf-8")
                    files = ("--scenario", f"{folder}/toml", "--latency", f"{folder}/csv", "--trace", f"{folder}/trace")
                    done = subprocess.run([chordsim, "run", "--serial", *files], capture_output=True, check=False)
                    trace = (folder / "trace").read_text(encoding="utf-8")
                    one.check(done.returncode, trace, done.stdout.decode())


def sum_of(text: str) -> str:
    """The SHA-256 of a text, in hexadecimal."""
    return hashlib.sha256(text.encode()).hexdigest()
