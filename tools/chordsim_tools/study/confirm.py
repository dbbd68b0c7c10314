"""The winner is run once more with fresh seeds: it was chosen among settings because it did well with the others.

Its own numbers are those of a winner, who was also lucky. The fresh seeds had no part in the choice, so their intervals
hold as they stand. They are in a table of their own, so that no other table changes."""

import json
from collections.abc import Callable
from dataclasses import replace
from pathlib import Path

from chordsim_tools.files import read_input, sum_of, write_whole
from chordsim_tools.study.answer import least_of, those_that_reach
from chordsim_tools.study.goal import goal_again
from chordsim_tools.study.keys import BEYOND
from chordsim_tools.study.layout import of_each_world
from chordsim_tools.study.numbers import Summary, summaries
from chordsim_tools.study.plan import Setting, Study
from chordsim_tools.study.runner import runner_of
from chordsim_tools.study.runs import Run, do_left, runs_of, whole_result
from chordsim_tools.study.tables import FRESH, Tables, read_tables, runs_text

Work = Callable[[list[Run]], None]


def fresh_seeds(study: Study) -> list[int]:
    """As many seeds as the study has, none of which it has."""
    return [BEYOND + seed for seed in study.seeds]


def winners(tables: Tables) -> list[Summary]:
    """The setting of the answer of each world in which there was a choice."""
    goal = goal_again(tables.manifest["goal"])
    if goal is None:
        return []
    worlds = of_each_world(tables, summaries(tables)).values()
    reaching = [those_that_reach(settings, goal) for settings in worlds if len(settings) > 1]
    return [least_of(settings, goal) for settings in reaching if settings]


def winning_settings(study: Study, tables: Tables) -> list[Setting]:
    """The same as the study has them."""
    values = [one.values for one in winners(tables)]
    return [setting for setting in study.settings() if tuple(str(value) for _, value in setting) in values]


def confirm(study: Study, folder: Path, program_sum: str, work: Work) -> None:
    """Runs the winners with fresh seeds and writes their table, if the study asks for it and has an answer."""
    settings = winning_settings(study, read_tables(folder)) if study.confirm else []
    if not settings:
        (folder / FRESH).unlink(missing_ok=True)
        return
    runs = runs_of(replace(study, seeds=fresh_seeds(study), tried=settings), folder / "done", program_sum)
    work(runs)
    rows = [(run.setting, run.seed, whole_result(run)) for run in runs]
    text = runs_text(rows, study.sizes)
    write_whole(folder / FRESH, text)
    path = folder / "manifest.json"
    manifest = json.loads(read_input(path))
    manifest["sha256"][FRESH] = sum_of(text)
    write_whole(path, json.dumps(manifest, indent=2) + "\n")


def confirm_here(study: Study, folder: Path, jobs: int, dask: str | None = None) -> None:
    """The same with the program, on this machine or by the workers of a Dask cluster."""
    runner = runner_of(jobs, dask)
    confirm(study, folder, runner.digest, lambda runs: do_left(runs, runner))


def fresh_of(tables: Tables) -> dict[str, Summary]:
    """The winners with their fresh seeds, by their labels."""
    return {one.label: one for one in summaries(replace(tables, runs=tables.fresh))} if tables.fresh else {}
