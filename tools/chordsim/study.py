"""Studies, and what they leave in their folders."""

import copy
import json
import os
import re
from collections.abc import Mapping
from dataclasses import dataclass
from pathlib import Path
from typing import Any

from chordsim.calling import program
from chordsim.errors import failures_raised, refused_argument
from chordsim.names import Name, name_of
from chordsim.table import Cell, Table
from chordsim_tools.study import plan
from chordsim_tools.study.command import folder_of
from chordsim_tools.study.confirm import confirm_here
from chordsim_tools.study.outcome import outcome
from chordsim_tools.study.pieces import COLUMN
from chordsim_tools.study.runs import run_study
from chordsim_tools.study.search_runs import run_search
from chordsim_tools.study.so_far import Drawn, tables_of, write_report

MOST_JOBS = 1024


@dataclass(frozen=True)
class StudyResult:
    """What a study has left in a folder. It is read at each call."""

    folder: Path

    @classmethod
    def read(cls, folder: Name) -> "StudyResult":
        """What is in a folder of `tools/study run`. Refused if no run is there."""
        result = cls(Path(name_of("folder", folder)))
        result._drawn()
        return result

    def rows(self) -> Table[Mapping[str, Cell]]:
        """The rows of runs.csv, or of the runs so far if the study is not done."""
        tables = self._drawn().tables
        varied = {key: {str(value): value for value in values} for key, values in tables.manifest["vary"].items()}
        rows = tuple(
            {name: varied[name].get(text) if name in varied else cell_of(name, text) for name, text in row.items()}
            for row in tables.runs
        )
        return Table(tuple(rows[0]) if rows else (), rows)

    def answer(self) -> Mapping[str, Any]:
        """What `tools/study report` writes to answer.json: the goal, and what is shown of each setting."""
        drawn = self._drawn()
        with failures_raised():
            told: dict[str, Any] = json.loads(outcome(drawn.tables, drawn.mark))
        return told

    def _drawn(self) -> Drawn:
        """The tables."""
        with failures_raised():
            return tables_of(self.folder)


class Study:
    """A study file: a scenario, the settings and seeds to run it with, and a goal."""

    def __init__(self, study: plan.Study) -> None:
        """The study that was read."""
        self._study = study

    @classmethod
    def read(cls, path: Name) -> "Study":
        """The study of a file."""
        with failures_raised():
            return cls(plan.read_study(Path(name_of("path", path))))

    @property
    def path(self) -> Path:
        """The file."""
        return self._study.path

    @property
    def question(self) -> str:
        """The question that the study is to answer."""
        return self._study.question

    @property
    def seeds(self) -> tuple[int, ...]:
        """The seeds; of a study with a precision, those that it begins with."""
        return tuple(self._study.seeds)

    def settings(self) -> tuple[Mapping[str, int | str], ...]:
        """The settings: the varied keys and their values. A search begins with these."""
        return tuple(dict(setting) for setting in self._study.settings())

    def run(self, folder: Name | None = None, jobs: int | None = None) -> StudyResult:
        """Does the runs that are not done yet, as `tools/study run` or `tools/study search` does, and as many at once.

        Without a folder it is the study file without `.toml`. Without jobs there is one for each processor."""
        if jobs is not None and not (isinstance(jobs, int) and 1 <= jobs <= MOST_JOBS):
            raise refused_argument("jobs", f"1 to {MOST_JOBS}, not {jobs!r}")
        program()
        study = copy.deepcopy(self._study)
        result = StudyResult(folder_of(study.path) if folder is None else Path(name_of("folder", folder)))
        count = jobs or len(os.sched_getaffinity(0))
        with failures_raised():
            if study.search is None:
                run_study(study, result.folder, count)
            else:
                run_search(study, result.folder, count)
            confirm_here(study, result.folder, count)
            if study.search is not None:
                write_report(result.folder)
        return result

    def __repr__(self) -> str:
        """The file and the question."""
        return f"<Study {self.path}: {self.question}>"


def cell_of(name: str, text: str) -> Cell:
    """A cell of runs.csv: a number if it is one, None if it is empty, else the text, as in columns of pieces."""
    if COLUMN in name:
        return text or None
    if re.fullmatch(r"-?(0|[1-9][0-9]*)", text):
        return int(text)
    if re.fullmatch(r"-?[0-9]+\.[0-9]+", text):
        return float(text)
    return text or None
