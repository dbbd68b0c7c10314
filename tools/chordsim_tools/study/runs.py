"""`tools/study run`: the runs of a study, those that are to be done, and their results."""

import contextlib
import json
import tomllib
from dataclasses import dataclass
from functools import partial
from itertools import product
from pathlib import Path
from typing import Any

from chordsim_tools.cli import Failure, Refused
from chordsim_tools.explain.traps import timer_events, warn
from chordsim_tools.files import make_folder, sum_of, write_whole
from chordsim_tools.place import tool
from chordsim_tools.study.curves import write_results
from chordsim_tools.study.dask_runs import run_by_dask
from chordsim_tools.study.interval import LEAST_SEEDS
from chordsim_tools.study.load import Load
from chordsim_tools.study.plan import Setting, Study, file_stem, label
from chordsim_tools.study.pool import work_all
from chordsim_tools.study.precise import more_seeds, numberless
from chordsim_tools.study.program import Program
from chordsim_tools.study.progress import RunProgress
from chordsim_tools.study.record import write_record
from chordsim_tools.study.refused import refusal
from chordsim_tools.study.runner import Runner, check_content, runner_of
from chordsim_tools.study.setting_traps import tell_traps
from chordsim_tools.study.sizes import check_leaves, check_not_negative
from chordsim_tools.study.starts import start_traps
from chordsim_tools.study.task import Task, result_of
from chordsim_tools.study.worlds import argument_traps, forget_worlds, latency_of, scenario_of

READING = 12
"""Goes up if a trace is read in another way, so that no older result is taken for a new one."""
DIGEST = "sha256"
"""The key of a result's digest. It is of all other keys."""
Share = tuple[int, int]
"""The part of a study that is done here, from 1, and how many parts there are."""


@dataclass
class Run:
    """One run of a study: its task, and where its files are."""

    study: Study
    setting: Setting
    seed: int
    stem: Path
    task: Task

    def scenario(self) -> Path:
        """The scenario file."""
        return self.stem.with_name(self.stem.name + ".toml")

    def result(self) -> Path:
        """The file of the result."""
        return self.stem.with_name(self.stem.name + ".json")

    def latency(self) -> Path | None:
        """The latency file: the study's own, or one beside the scenario if each seed has another."""
        if self.task.latency is None:
            return None
        if self.study.latency is not None and self.task.latency == self.study.latency_content:
            return self.study.beside(self.study.latency)
        return self.stem.with_name(self.stem.name + ".csv")

    def write_files(self) -> None:
        """Writes the scenario, and the latency file if it is the run's own, unless they are there and the same."""
        write_if_other(self.scenario(), self.task.scenario.encode())
        latency = self.latency()
        if latency is not None and self.task.latency is not None and latency.parent == self.stem.parent:
            write_if_other(latency, self.task.latency)

    def found_result(self) -> dict[str, Any] | None:
        """The result that is there, if it says that it was made of the same."""
        try:
            result = json.loads(self.result().read_bytes())
        except (OSError, ValueError):
            return None
        return result if isinstance(result, dict) and result.get("made_of") == self.task.made_of else None

    def read_result(self) -> dict[str, Any] | None:
        """The result, if there is one that was made of the same and is as it was written."""
        result = self.found_result()
        return None if result is None or is_changed(result) else result

    def write_result(self, result: dict[str, Any]) -> None:
        """Keeps the result with its digest."""
        write_whole(self.result(), json.dumps({**result, DIGEST: digest_of(result)}) + "\n")


def digest_of(result: dict[str, Any]) -> str:
    """The digest of all of a result but the digest itself."""
    return sum_of(json.dumps({key: value for key, value in result.items() if key != DIGEST}))


def is_changed(result: dict[str, Any]) -> bool:
    """Whether a result was changed after it was written. One of an older tools/study has no digest, and is believed."""
    return DIGEST in result and result[DIGEST] != digest_of(result)


def write_if_other(path: Path, content: bytes) -> None:
    """Writes a file, unless it has this content."""
    with contextlib.suppress(OSError):
        if path.read_bytes() == content:
            return
    write_whole(path, content)


def run_study(study: Study, folder: Path, jobs: int, share: Share = (1, 1), dask: str | None = None) -> None:
    """Does the runs of a share that are not done yet, and writes the tables if the share is the whole study."""
    if study.search is not None:
        raise Refused(f"{study.path} has [search]: `{tool('study')} search` does this study")
    if study.precision is not None and share[1] > 1:
        raise Refused(f"{study.path}: [precision] looks at all runs, so that there are no parts")
    runner = runner_of(jobs, dask)
    forget_worlds()
    make_folder(folder / "done")
    # Arguments that are refused come first: the others are computed from them.
    bare_times = argument_traps(study)
    warn([*few_seeds(study), *start_traps(study), *bare_times])
    told_precision = False
    while True:
        runs = runs_of(study, folder / "done", runner.digest)[share[0] - 1 :: share[1]]
        write_record(study, folder, runner.program, runner.digest, READING)
        do_left(runs, runner)
        if share[1] > 1:
            return
        rows = [(run.setting, run.seed, whole_result(run)) for run in runs]
        more = more_seeds(study, rows)
        if not told_precision:
            warn(numberless(study, rows))
            told_precision = True
        if not more:
            write_results(study, folder, runner.program, runner.digest, rows)
            return
        study.seeds += more


def few_seeds(study: Study) -> list[str]:
    """That a goal will have no answer."""
    if study.goal is None or len(study.seeds) >= LEAST_SEEDS:
        return []
    return [f"[goal] will have no answer: it needs {LEAST_SEEDS} seeds or more, and seeds has {len(study.seeds)}"]


def do_left(runs: list[Run], runner: Runner) -> None:
    """Does those of the runs that are not done yet, and warns of traps that were not told before."""
    remove_parts(runs)
    left = look_at(runs)
    check_settings(left, runner.program)
    firsts: dict[Setting, Task] = {}
    for run in left:
        firsts.setdefault(run.setting, run.task)
    tell_traps(firsts.values(), runner.program, runner.told)
    try:
        with RunProgress(len(runs), len(runs) - len(left), load=load_of(left, firsts)) as progress:
            do_runs(left, runner, progress)
    finally:
        remove_parts(runs)


def load_of(left: list[Run], firsts: dict[Setting, Task]) -> Load:
    """The runs that are to be done, by the events that the timers of their settings make."""
    weights = {setting: timer_events(tomllib.loads(task.scenario)) for setting, task in firsts.items()}
    return Load((label(run.setting), weights[run.setting]) for run in left)


def look_at(runs: list[Run]) -> list[Run]:
    """The runs that are to be done. The files of the others are written again if they were changed."""
    left = []
    for run in runs:
        if run.read_result() is None:
            left.append(run)
        else:
            run.write_files()
    changed = [run.result() for run in left if run.found_result() is not None]
    if changed:
        more = "" if len(changed) == 1 else f", and so are those of {len(changed) - 1} more"
        warn([f"{changed[0]} was changed since it was written: its run is done again{more}"])
    return left


def do_runs(runs: list[Run], runner: Runner, progress: RunProgress) -> None:
    """Does these runs here, or by the workers of a Dask cluster."""
    if runner.dask is None:
        work_all([(run.task.name, partial(do_run, run, runner)) for run in runs], runner.jobs, progress)
        return
    run_by_dask([(run.task, run.write_result) for run in runs], runner.dask, runner.digest, progress)


def do_run(run: Run, runner: Runner) -> None:
    """Does one run here. Its result is kept if the latencies and the program are still those of its digest."""
    run.write_files()
    latency = run.latency()
    result = result_of(run.task, runner.program, run.scenario(), latency)
    if latency is not None:
        check_content(latency, run.task.latency)
    runner.check_program()
    run.write_result(result)


def whole_result(run: Run) -> dict[str, Any]:
    """The result of a run that was done."""
    result = run.read_result()
    if result is None:
        other = "does another study use this folder? -o takes another one"
        raise Failure(3, f"{run.result()} is not there any more: {other}")
    return result


def remove_parts(runs: list[Run]) -> None:
    """Removes what a process that was ended had begun to write. Another machine's files are left alone."""
    for run, ending in product(runs, ("toml", "csv", "json")):
        with contextlib.suppress(OSError):
            run.stem.with_name(f"{run.stem.name}.{ending}.part").unlink()


def runs_of(study: Study, done: Path, program_sum: str) -> list[Run]:
    """All runs, settings first and then seeds."""
    runs = []
    for setting, seed in product(study.settings(), study.seeds):
        stem = file_stem(",".join(f"{key}={value}" for key, value in (*setting, ("seed", seed))))
        runs.append(Run(study, setting, seed, done / stem, task_of(study, setting, seed, program_sum)))
    return runs


def task_of(study: Study, setting: Setting, seed: int, program_sum: str) -> Task:
    """The task of a run: its files, and the sum of what its result depends on."""
    text, latency = files_of(study, setting, seed)
    latency_sum = None if latency is None else sum_of(latency)
    spans = tuple((name, *ends) for name, ends in study.spans.items())
    made_of = json.dumps([text, latency_sum, program_sum, *study.times(), *spans, READING])
    name = f"{label(setting)}, seed={seed}"
    return Task(name, text, latency, *study.times(), sum_of(made_of), spans)


def files_of(study: Study, setting: Setting, seed: int) -> tuple[str, bytes | None]:
    """The scenario and the latencies of a setting and a seed."""
    return scenario_of(study, setting, seed), latency_of(study, setting, seed)


def check_settings(runs: list[Run], program: Path) -> None:
    """Fails if a setting is refused, before the first run."""
    seen: set[Setting] = set()
    for run in runs:
        if run.setting not in seen:
            seen.add(run.setting)
            run.write_files()
            try:
                Program(program, run.scenario(), run.latency()).check()
            except Failure as fault:
                raise refusal(run.study, run.setting, run.task, fault) from None
            top = tomllib.loads(run.task.scenario)
            check_not_negative(run.study.path, run.study.sizes, top)
            check_leaves(run.study.path, run.study.sizes, top)
