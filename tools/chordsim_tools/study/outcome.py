"""FOLDER/answer.json: what the page says of the goal, for programs."""

import json
import math
from typing import Any

from chordsim_tools.study.answer import FRESH_LEVEL, least_of, nearest_of, same_runs, those_that_reach
from chordsim_tools.study.bounds import (
    bound_of, is_beyond, level_of, loss_bounds, loss_slack, misses, missing_level, reaches, slack,
)
from chordsim_tools.study.compare import Pair, guarded_level
from chordsim_tools.study.confirm import fresh_of
from chordsim_tools.study.goal import Goal, Limit, goal_again
from chordsim_tools.study.interval import LEAST_SEEDS
from chordsim_tools.study.layout import of_each_world, worlds_of
from chordsim_tools.study.numbers import Summary, summaries
from chordsim_tools.study.tables import Tables

NAME = "answer.json"
FORM = 1
"""Goes up if the form changes in a way that a program could stumble over."""
REACHED, MISSED, OPEN = "reached", "missed", "open"
Table = dict[str, Any]


def finite(value: float | None) -> float | None:
    """A number that JSON has."""
    return None if value is None or not math.isfinite(value) else value


def limit_told(one: Summary, limit: Limit, level: float, missing: float) -> Table:
    """A limit: what is shown of it, by which bound, and whether it is reached."""
    sign = -1 if limit.is_least else 1
    verdict = REACHED if slack(one, limit, level) >= 0 else MISSED if is_beyond(one, limit, missing) else OPEN
    return {
        "number": limit.number,
        "at": "least" if limit.is_least else "most",
        "limit": limit.value,
        "mean": finite(one.numbers[limit.number].mean),
        "error": finite(one.error(limit.number)),
        "shown": finite(bound_of(one, limit.number, level, sign)),
        "verdict": verdict,
    }


def losses_told(one: Summary, goal: Goal, level: float, missing: float) -> Table:
    """The rings lost an hour. Without a limit none may be lost."""
    if goal.lost_max is None:
        verdict = REACHED if one.kept == one.seeds else MISSED
    else:
        is_missed = loss_bounds(one, missing)[0] > goal.lost_max
        verdict = REACHED if loss_slack(one, goal, level) >= 0 else MISSED if is_missed else OPEN
    shown = finite(loss_bounds(one, level)[1])
    return {"number": "rings_lost", "at": "most", "limit": goal.lost_max or 0, "shown": shown, "verdict": verdict}


def setting_told(one: Summary, goal: Goal, level: float, missing: float) -> Table:
    """A setting, each of its limits, and whether it reaches the goal."""
    cost = one.numbers[goal.least]
    # What is estimated may be off by this much to both sides.
    low, high = cost.ends() or (-math.inf, math.inf)
    low, high = low - one.error(goal.least), high + one.error(goal.least)
    verdict = REACHED if reaches(one, goal, level) else MISSED if misses(one, goal, missing) else OPEN
    return {
        "setting": one.label,
        "verdict": verdict if one.seeds >= LEAST_SEEDS else OPEN,
        "seeds": one.seeds,
        "rings_kept": one.kept,
        "limits": [
            *(limit_told(one, limit, level, missing) for limit in goal.limits), losses_told(one, goal, level, missing),
        ],
        "cost": {
            "number": goal.least, "mean": finite(cost.mean), "error": finite(one.error(goal.least)),
            "low": finite(low), "high": finite(high),
        },
    }


def world_told(world: str, found: list[Summary], goal: Goal, fresh: dict[str, Summary]) -> Table:
    """A world: its answer, or the nearest setting, and all its settings."""
    level, missing = level_of(found), missing_level(found, goal)
    reaching = those_that_reach(found, goal) if min(one.seeds for one in found) >= LEAST_SEEDS else []
    best = least_of(reaching, goal) if reaching else None
    told: Table = {"world": world, "answer": None, "same_runs": [], "not_told_apart": []}
    told |= {"fresh": None, "nearest": None}
    if best is not None:
        guarded = guarded_level(len(found))
        same = same_runs(best, found)
        told["answer"] = best.label
        told["same_runs"] = [one.label for one in same]
        told["not_told_apart"] = [
            one.label for one in reaching
            if one is not best and one not in same and not Pair(best, one, guarded).is_apart(goal.least)
        ]
        if best.label in fresh:
            told["fresh"] = setting_told(fresh[best.label], goal, FRESH_LEVEL, FRESH_LEVEL)
    elif any(one.kept for one in found):
        told["nearest"] = nearest_of(found, goal, level).label
    told["settings"] = [setting_told(one, goal, level, missing) for one in found]
    return told


def outcome(tables: Tables, mark: str = "") -> str:
    """The whole file. The mark of a study that is not done is as "29 of 150 runs"."""
    manifest = tables.manifest
    goal, found, fresh = goal_again(manifest["goal"]), summaries(tables), fresh_of(tables)
    worlds = of_each_world(tables, found)
    if not worlds_of(tables):
        worlds = {"": found}
    told = {
        "form": FORM,
        "question": manifest["question"],
        "study": manifest["study"],
        "done": mark or True,
        "goal": manifest["goal"],
        "worlds": [] if goal is None else [world_told(name, one, goal, fresh) for name, one in worlds.items()],
    }
    return json.dumps(told, indent=2) + "\n"
