"""The tables of a folder: those that were written, or, of a study that is not done yet, those of the runs so far."""

import os
import tempfile
from dataclasses import dataclass, field
from pathlib import Path

from chordsim_tools.cli import Refused
from chordsim_tools.explain.traps import warn
from chordsim_tools.files import read_input, sum_of, write_whole
from chordsim_tools.place import tool
from chordsim_tools.study import outcome
from chordsim_tools.study.curves import CDF, STEPS, TAIL, write_results
from chordsim_tools.study.numbers import Cells
from chordsim_tools.study.page import page
from chordsim_tools.study.plan import Study
from chordsim_tools.study.plot_files import plots_text
from chordsim_tools.study.precise import more_seeds
from chordsim_tools.study.record import NAME, Record, read_record, study_of
from chordsim_tools.study.runs import runs_of
from chordsim_tools.study.tables import Row, Tables, checked_table, read_tables
from chordsim_tools.study.wrap import paragraph


@dataclass
class Drawn:
    """The tables that plots and pages are made of. The mark of a study that is not done is as "29 of 150 runs"."""

    tables: Tables
    cdf: list[Cells]
    steps: list[Cells]
    tail: list[Cells] = field(default_factory=list)
    mark: str = ""


def tables_of(folder: Path, named: Path | None = None) -> Drawn:
    """The tables of a folder."""
    if not (folder / NAME).exists():
        return drawn_of(folder)
    record = read_record(folder)
    if (folder / "manifest.json").exists():
        drawn = drawn_of(folder)
        if is_of(drawn.tables, record):
            return drawn
    return tables_so_far(folder, record, named)


def whole_tables(folder: Path, named: Path | None = None) -> Tables:
    """The tables of a folder, if all its runs are done."""
    drawn = tables_of(folder, named)
    if drawn.mark:
        parts = f"`{tool('study')} run` goes on, and `{tool('study')} merge` puts parts together"
        raise Refused(f"{folder}: {drawn.mark} are done; compare needs all: {parts}")
    return drawn.tables


def drawn_of(folder: Path) -> Drawn:
    """The tables that were written. Older studies have none of curves."""
    tables = read_tables(folder)
    sums = tables.manifest["sha256"]
    names = (CDF, STEPS, TAIL)
    cdf, steps, tail = (checked_table(folder / name, sums[name]) if name in sums else [] for name in names)
    return Drawn(tables, cdf, steps, tail)


def is_of(tables: Tables, record: Record) -> bool:
    """Whether the tables are of the study that was run last."""
    sums = tables.manifest["sha256"]
    same = all(sums.get(name) == digest for name, digest in record.files.items())
    return same and bool(tables.manifest["program"]["sha256"] == record.program)


def tables_so_far(folder: Path, record: Record, named: Path | None) -> Drawn:
    """Tables of the results that are there."""
    study = study_of(folder, record, named)
    rows, count = rows_so_far(study, folder / "done", record.program)
    if not rows:
        raise Refused(f"{folder}: none of {count} runs is done")
    with tempfile.TemporaryDirectory() as made:
        write_results(study, Path(made), record.program_path(), record.program, rows)
        drawn = drawn_of(Path(made))
    drawn.mark = "" if len(rows) == count else f"{len(rows)} of {count} runs"
    return drawn


def rows_so_far(study: Study, done: Path, program: str) -> tuple[list[Row], int]:
    """The results that are there, and how many runs the study has. With [precision] it has the seeds that they ask for.

    As long as one of them is missing, it is open which seeds come next."""
    while True:
        runs = runs_of(study, done, program)
        results = [(run, run.read_result()) for run in runs]
        rows = [(run.setting, run.seed, result) for run, result in results if result is not None]
        more = more_seeds(study, rows) if len(rows) == len(runs) else []
        if not more:
            return rows, len(runs)
        study.seeds += more


def changed_files(folder: Path, named: Path | None = None) -> list[Path]:
    """The files of a study that are not as they were when it was run. Those that are not there are left out."""
    if not (folder / NAME).exists():
        return []
    record = read_record(folder)
    study = named or next((path for path in (folder / record.study, Path(record.whole_path)) if path.exists()), None)
    if study is None:
        return []
    named_files = record.files.items() - {(Path(record.study).name, record.study_sum)}
    files = [(Path(os.path.normpath(study.parent / name)), digest) for name, digest in sorted(named_files)]
    return [path for path, digest in files if path.exists() and sum_of(read_input(path)) != digest]


def changed_told(changed: list[Path]) -> str:
    """What a page says of files that have changed."""
    verb = "has" if len(changed) == 1 else "have"
    text = f"**{', '.join(path.name for path in changed)} {verb} changed since the study was run.** "
    return "\n" + paragraph(text + "This page is of what was there then.").rstrip() + "\n" if changed else ""


def write_report(folder: Path, named: Path | None = None) -> None:
    """Writes report.md, with a mark if the study is not done."""
    drawn = tables_of(folder, named)
    changed = changed_files(folder, named)
    warn([f"{path} has changed since the study was run: the page is of the file as it was" for path in changed])
    write_whole(folder / outcome.NAME, outcome.outcome(drawn.tables, drawn.mark))
    plots = plots_text(folder, drawn.tables.manifest, drawn.mark)
    title, rest = page(drawn.tables, plots, not drawn.mark).split("\n", 1)
    told = f"\n**{drawn.mark}: the study is not done.** What follows is of the runs that are.\n" if drawn.mark else ""
    write_whole(folder / "report.md", f"{title}\n{told}{changed_told(changed)}{rest}")
