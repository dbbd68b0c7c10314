"""How many seeds a study with [precision] runs: until intervals are narrow enough, the same seeds for all settings."""

import math

from chordsim_tools.study.goal import SHARES, Precision
from chordsim_tools.study.numbers import OF_MESSAGES, Summary, summaries_of
from chordsim_tools.study.plan import Study
from chordsim_tools.study.tables import Row


def more_seeds(study: Study, rows: list[Row]) -> list[int]:
    """The seeds to run next, a fifth more and at least two; none if it is enough. The runs so far alone decide it."""
    wanted = study.precision
    if wanted is None or len(study.seeds) >= wanted.most_seeds:
        return []
    if all(is_narrow(one, wanted) for one in summaries_of(study, rows)):
        return []
    count = min(max(2, math.ceil(len(study.seeds) / 5)), wanted.most_seeds - len(study.seeds))
    return list(range(study.seeds[-1] + 1, study.seeds[-1] + 1 + count))


def is_narrow(one: Summary, wanted: Precision) -> bool:
    """Whether a setting's interval is narrow enough. One that has lost a ring is not asked.

    A number without an interval is not narrow. The interval is the one that holds at each look."""
    reach = one.numbers[wanted.number].reach()
    return one.kept < one.seeds or (reach is not None and reach <= wanted.half)


def numberless(study: Study, rows: list[Row]) -> list[str]:
    """That no run so far has the number of [precision], for which more seeds may be run in vain."""
    if study.precision is None:
        return []
    number = study.precision.number
    without = [one.label for one in summaries_of(study, rows) if one.kept and one.numbers[number].count == 0]
    return [f"[precision] {number}: no run has it so far, of {'; '.join(without)}"] if without else []


def stopped(wanted: Precision, found: list[Summary]) -> str:
    """What a page says of it."""
    is_estimate = wanted.number in OF_MESSAGES and not all(one.is_counted for one in found)
    return stop_told(wanted, found) + (" ± says nothing of the error of an estimate." if is_estimate else "")


def stop_told(wanted: Precision, found: list[Summary]) -> str:
    """Why a study stopped."""
    seeds = found[0].seeds
    scale, unit = (100, " points") if wanted.number in (*SHARES, "members") else (1, "")
    half = f"{wanted.number} to ± {wanted.half * scale:g}{unit}"
    if not any(one.kept == one.seeds for one in found):
        return f"Stopped at {seeds} seeds: [precision] wants {half}, but every setting has lost rings."
    if all(is_narrow(one, wanted) for one in found):
        return f"Stopped at {seeds} seeds by [precision]: {half} in each setting that lost no ring, at each look."
    return f"Stopped at most_seeds, {seeds}: [precision] wants {half}, which some settings do not reach."
