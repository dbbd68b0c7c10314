"""`tools/study search`: rounds of runs around the best setting so far, with the same seeds in all."""

from pathlib import Path

from chordsim_tools.cli import Refused, write_out
from chordsim_tools.files import make_folder
from chordsim_tools.explain.traps import warn
from chordsim_tools.known import known
from chordsim_tools.place import tool
from chordsim_tools.study.answer import cost, cost_told, least_of, nearest_of
from chordsim_tools.study.bounds import misses, missing_level, reaches
from chordsim_tools.study.curves import write_results
from chordsim_tools.study.goal import Goal
from chordsim_tools.study.interval import LEAST_SEEDS
from chordsim_tools.study.names import in_words
from chordsim_tools.study.numbers import Summary, summaries_of
from chordsim_tools.study.plan import Setting, Study, label
from chordsim_tools.study.record import write_record
from chordsim_tools.study.runner import Runner, runner_of
from chordsim_tools.study.runs import READING, do_left, runs_of, whole_result
from chordsim_tools.study.search import Search
from chordsim_tools.study.so_far import write_report
from chordsim_tools.study.tables import Row
from chordsim_tools.study.worlds import argument_traps, forget_worlds

NEGLIGIBLE = 0.01
"""A setting that costs less by this share or a smaller one is not worth a smaller step."""


def run_search(study: Study, folder: Path, jobs: int) -> None:
    """Does all rounds, keeps their runs as `run` does, and writes the tables and the page after each round."""
    search, goal = study.search, study.goal
    if search is None or goal is None:
        raise Refused(f"{study.path}: no [search]: `{tool('study')} run` does this study")
    if len(study.seeds) < LEAST_SEEDS:
        raise Refused(f"{study.path}: [search] needs {LEAST_SEEDS} seeds or more, and seeds has {len(study.seeds)}")
    runner = runner_of(jobs)
    forget_worlds()
    make_folder(folder / "done")
    warn(argument_traps(study))
    new, why, count = search.first(), "", 0
    while not why:
        count += 1
        study.tried, study.groups = search.sorted(), search.groups()
        best = one_round(study, folder, runner)
        write_out(round_told(count, new, best, goal))
        write_report(folder)
        why = "nothing beside the best one costs less" if is_decided(search, best) else ""
        new = search.next(best.setting())
        why = why or ("" if new else "the step is small")
        why = why or ("that is most_rounds" if count == search.most_rounds else "")
    rounds = f"{count} round{'' if count == 1 else 's'}"
    last = [*at_an_end(search, best), *no_answer(study, best)]
    write_out(f"done after {rounds}: {why}; page: {folder / 'report.md'}\n{''.join(last)}")


def is_decided(search: Search, best: "Best") -> bool:
    """Whether the best setting reaches the goal, and no setting beside it costs less by more than can be neglected."""
    costs = dict(zip(best.settings, (cost(one, best.goal) for one in best.found), strict=True))
    beside = [search.setting(place) for place in search.beside(search.tried[best.setting()])]
    are_dearer = all(costs.get(setting, 0.0) >= (1 - NEGLIGIBLE) * costs[best.setting()] for setting in beside)
    return bool(best.reaching) and are_dearer


def at_an_end(search: Search, best: "Best") -> list[str]:
    """The keys whose best value is an end of its range."""
    places = zip(search.axes, search.tried[best.setting()], strict=True)
    keys = [axis.key for axis, place in places if place in (0, axis.steps)]
    return [f"{key} is best at the end of its range: beyond it there may be a better one\n" for key in keys]


def no_answer(study: Study, best: "Best") -> list[str]:
    """That a search adds no seeds, if no setting reaches the goal by those that it has."""
    if best.reaching:
        return []
    return [
        f"no setting is shown to reach the goal by {len(study.seeds)} seeds, and a search adds none: set more `seeds` "
        "and search again, the runs that are done are kept\n"
    ]


class Best:
    """What the runs so far show: the best setting, and of each whether it reaches the goal."""

    def __init__(self, study: Study, rows: list[Row], goal: Goal) -> None:
        """Of all runs so far."""
        self.settings = study.settings()
        self.found = summaries_of(study, rows)
        self.goal = goal
        # As many settings as may come share the risk from the start, so that a setting that reaches the goal stays so.
        self.level = 1 - 0.05 / known(study.search).most_settings()
        self.reaching = [one for one in self.found if reaches(one, goal, self.level)]

    def summary(self) -> Summary:
        """The setting that reaches the goal at the least cost, else the nearest to it."""
        if self.reaching:
            return least_of(self.reaching, self.goal)
        return nearest_of(self.found, self.goal, self.level)

    def setting(self) -> Setting:
        """The same as the search has it."""
        return self.settings[self.found.index(self.summary())]

    def told(self, one: Summary) -> str:
        """What is shown of a setting, and its cost."""
        if one in self.reaching:
            shown = "reaches the goal"
        else:
            is_missed = misses(one, self.goal, missing_level(self.found, self.goal))
            shown = "misses the goal" if is_missed else "is not decided"
        return f"{one.label} {shown}, {in_words(self.goal.least)} {cost_told(one, self.goal)}"


def one_round(study: Study, folder: Path, runner: Runner) -> Best:
    """Does the runs of the settings that were not tried before, and looks at all."""
    runs = runs_of(study, folder / "done", runner.digest)
    write_record(study, folder, runner.program, runner.digest, READING)
    do_left(runs, runner)
    rows = [(run.setting, run.seed, whole_result(run)) for run in runs]
    write_results(study, folder, runner.program, runner.digest, rows)
    return Best(study, rows, known(study.goal))


def round_told(number: int, new: list[Setting], best: Best, goal: Goal) -> str:
    """The lines of a round: each new setting, and the best so far."""
    by_label = {one.label: one for one in best.found}
    lines = [f"round {number}: {best.told(by_label[label(setting)])}\n" for setting in new]
    wanted = "the least " + in_words(goal.least) if best.reaching else "the nearest to the goal"
    told = f"best so far {best.summary().label} ({wanted} of {len(best.found)} settings)"
    return "".join(lines) + f"round {number}: {told}\n"
