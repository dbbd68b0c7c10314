"""The program against the reference simulator, on random scenarios.

CHORDSIM_RANDOM says how many of each kind (default 30); they are the same in each run. The count of the reference's
lines that they reach is printed.
"""

import os
import subprocess
import sys
from collections.abc import Iterator
from contextlib import nullcontext
from pathlib import Path
from tempfile import TemporaryDirectory
from typing import NamedTuple
from unittest import TestCase

from chordsim_tools.generate.breaking_scenario import breaking_scenario
from chordsim_tools.generate.random_scenario import scenario_files
from chordsim_tools.reference import procedures, rules, turn
from chordsim_tools.reference.report import Report
from chordsim_tools.reference.simulation import Simulation, TooManyEvents
from chordsim_tools.scenario.reading import read_scenario
from tests.support.programs import program
from tests.support.reached import Lines
from tests.test_long_lookups import chain

COUNT = int(os.environ.get("CHORDSIM_RANDOM", "30"))
WORKERS = ("--workers", "2", "--parts", "3")
PLANS = (("--serial",), ("--engine", "crew", *WORKERS), ("--engine", "team", *WORKERS))


class Case(NamedTuple):
    """A scenario with its name and its two files, and a plan to run it by."""

    name: str
    toml: str
    csv: str
    plan: tuple[str, ...]


def cases() -> Iterator[Case]:
    """In the chain a lookup sends as many requests as it may. The others are random."""
    yield Case("chain", chain(), "", PLANS[0])
    for seed in range(COUNT):
        # Profiles come round every six seeds. So each of them meets each plan.
        yield Case(f"random {seed}", *scenario_files(seed), PLANS[(seed + seed // 6) % 3])
        yield Case(f"breaking {seed}", breaking_scenario(seed), "", PLANS[seed % 3])


def expected(toml: str, csv: str) -> tuple[str, str | None]:
    """The trace by the reference, and the report, or none if there are too many events."""
    simulation = Simulation(read_scenario(toml.encode(), csv.encode()))
    report = Report(simulation.scenario.profile)
    trace = []
    try:
        for line in simulation.lines():
            report.read(line)
            trace.append(line + "\n")
    except TooManyEvents:
        return "".join(trace), None
    return "".join(trace), report.text(simulation.events)


class RandomTest(TestCase):
    """Traces and reports, by a plan of each engine."""

    def setUp(self) -> None:
        """A folder for the files."""
        self.program = str(program())
        folder = TemporaryDirectory()
        self.addCleanup(folder.cleanup)
        self.folder = Path(folder.name)

    def test_random_scenarios(self) -> None:
        """Trace and report have the same bytes, serially and by workers; of too many events, the beginning.

        The scenarios reach each line of the rules in the reference. So no case of the rules is left uncompared.
        """
        lines = Lines(turn, procedures, rules)
        for case in cases():
            with lines.watched() if lines.missed() else nullcontext():
                trace, report = expected(case.toml, case.csv)
            with self.subTest(case.name):
                self.compare(case, trace, report)
        missed = lines.missed()
        print(f"cases reached: {lines.count - len(missed)} of {lines.count} lines of the rules", file=sys.__stderr__)
        assert not missed or COUNT < 30, missed

    def compare(self, case: Case, trace: str, report: str | None) -> None:
        """Asserts that a run of the program leaves the trace and the report, or too many events."""
        scenario, latency = self.folder / "scenario.toml", self.folder / "latency.csv"
        scenario.write_text(case.toml, encoding="utf-8")
        latency.write_text(case.csv, encoding="utf-8")
        command = [self.program, "run", "--scenario", str(scenario), "--latency", str(latency), *case.plan]
        ran = subprocess.run(command, capture_output=True, text=True, check=False)
        if report is None:
            assert (ran.returncode, ran.stderr) == (3, "failed: 3 TooManyEvents\n"), ran.stderr
            assert trace.startswith(ran.stdout), "no beginning of the trace"
        else:
            assert (ran.returncode, ran.stderr) == (0, ""), ran.stderr
            assert ran.stdout == trace + report, "another trace or report"
