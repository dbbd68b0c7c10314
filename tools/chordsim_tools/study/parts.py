"""Shares of a study: which runs are one, and folders that are put together."""

import re
from argparse import ArgumentTypeError
from pathlib import Path

from chordsim_tools.cli import Refused
from chordsim_tools.files import make_folder
from chordsim_tools.place import tool
from chordsim_tools.study.curves import write_results
from chordsim_tools.study.plan import Study
from chordsim_tools.study.precise import more_seeds
from chordsim_tools.study.record import Record, read_record, study_of, write_record
from chordsim_tools.study.runs import READING, Run, Share, runs_of, whole_result
from chordsim_tools.study.tables import Row


def share_of(text: str) -> Share:
    """A share of the command line, as 2/5."""
    match = re.fullmatch(r"([0-9]{1,6})/([0-9]{1,6})", text)
    if match is None or not 1 <= int(match[1]) <= int(match[2]):
        raise ArgumentTypeError(f"K/N is wanted, as 2/5 for the second of five parts, not {text!r}")
    return int(match[1]), int(match[2])


def merge(folders: list[Path], out: Path, named: Path | None = None) -> None:
    """Puts the results of folders together, and writes the tables if no run is missing."""
    records = [read_record(folder) for folder in folders]
    check_same(folders, records)
    study = study_of(folders[0], records[0], named)
    if study.search is not None:
        raise Refused(f"{study.path} has [search], which has no parts: each round depends on the one before")
    make_folder(out / "done")
    program, program_sum = records[0].program_path(), records[0].program
    write_record(study, out, program, program_sum, READING)
    write_results(study, out, program, program_sum, taken_rows(study, folders, out / "done", program_sum))


def taken_rows(study: Study, folders: list[Path], done: Path, program: str) -> list[Row]:
    """The results of all runs, which are taken from the folders. With [precision] they say how many seeds there are."""
    while True:
        runs = runs_of(study, done, program)
        check_whole(runs, [run for run in runs if not taken(run, folders)])
        rows = [(run.setting, run.seed, whole_result(run)) for run in runs]
        more = more_seeds(study, rows)
        if not more:
            return rows
        study.seeds += more


def check_whole(runs: list[Run], missing: list[Run]) -> None:
    """Fails if runs are missing, and says how many."""
    if missing:
        count, first = f"{len(missing)} of {len(runs)} runs", missing[0].task.name
        raise Refused(f"{count} are in no folder, or were changed there, the first of them {first}")


def check_same(folders: list[Path], records: list[Record]) -> None:
    """Fails if two folders are not of the same study, files and program, and names them."""
    for folder, record in zip(folders, records, strict=True):
        different = records[0].difference(record)
        if different is not None:
            raise Refused(f"{folders[0]} and {folder} do not go together: {different}")
    if records[0].reading != READING:
        raise Refused(f"{folders[0]}: its runs were read by another version of {tool('study')}")


def taken(run: Run, folders: list[Path]) -> bool:
    """Whether the run's result is in one of the folders; it and its files are then in the new one."""
    if run.read_result() is not None:
        run.write_files()
        return True
    for folder in folders:
        other = Run(run.study, run.setting, run.seed, folder / "done" / run.stem.name, run.task)
        result = other.read_result()
        if result is not None:
            run.write_files()
            run.write_result(result)
            return True
    return False
