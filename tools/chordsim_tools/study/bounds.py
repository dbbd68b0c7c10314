"""What the seeds show of a setting and a goal: that it reaches the goal, that it misses it, or neither.

A setting is shown to reach a goal if the one-sided bound of each number is within its limit. All of them have to be, so
that each bound may have the whole risk of the setting. It is shown to miss the goal if the bound to the other side of
any number is beyond its limit. Each of these bounds has its share of the risk, as one of them is enough. A setting
either reaches the goal or misses it, so that only one of the two can be shown wrongly. So all that is shown of the
settings of a world holds together with 95 %, also if seeds are added and somebody looks again."""

import math

from chordsim_tools.study.exact import count_interval
from chordsim_tools.study.goal import Goal, Limit
from chordsim_tools.study.interval import at_each_look
from chordsim_tools.study.names import is_percent
from chordsim_tools.study.numbers import Summary


def level_of(found: list[Summary]) -> float:
    """The level of the one-sided bound of each setting, so that all of them hold with 95%."""
    return 1 - 0.05 / len(found)


def missing_level(found: list[Summary], goal: Goal) -> float:
    """The level of each of the bounds that can show that a setting misses the goal."""
    limits = len(goal.limits) + (goal.lost_max is not None)
    return 1 - 0.05 / (len(found) * max(1, limits))


def bound_of(one: Summary, number: str, level: float, sign: int) -> float:
    """The one-sided bound of a number: the lower one for the sign -1, the upper one for 1. Infinite: there is none."""
    bound = one.numbers[number].bound(level, sign) + sign * one.error(number)
    return min(1.0, max(0.0, bound)) if is_percent(number) and math.isfinite(bound) else bound


def slack(one: Summary, limit: Limit, level: float) -> float:
    """How far the bound of a setting is within a limit; below 0 if it does not reach it."""
    sign = -1 if limit.is_least else 1
    return sign * (limit.value - bound_of(one, limit.number, level, sign))


def loss_bounds(one: Summary, level: float) -> tuple[float, float]:
    """The one-sided bounds of the rings lost an hour, the lower and the upper one, however often somebody looks."""
    low, high = count_interval(one.seeds - one.kept, 2 * at_each_look(level) - 1)
    return low / one.hours, high / one.hours


def loss_slack(one: Summary, goal: Goal, level: float) -> float:
    """How far the rings lost are within their limit. Without a limit none may be lost."""
    if goal.lost_max is None:
        return 0.0 if one.kept == one.seeds else -math.inf
    return goal.lost_max - loss_bounds(one, level)[1]


def reaches(one: Summary, goal: Goal, level: float) -> bool:
    """Whether the bounds of a setting are within all limits."""
    slacks = [slack(one, limit, level) for limit in goal.limits] + [loss_slack(one, goal, level)]
    return min(slacks) >= 0 and one.numbers[goal.least].mean is not None


def is_beyond(one: Summary, limit: Limit, level: float) -> bool:
    """Whether a setting is shown to miss a limit."""
    sign = 1 if limit.is_least else -1
    return sign * (limit.value - bound_of(one, limit.number, level, sign)) > 0


def misses(one: Summary, goal: Goal, level: float) -> bool:
    """Whether a setting is shown to miss the goal. If no ring may be lost, one that was lost shows it."""
    if goal.lost_max is None and one.kept < one.seeds:
        return True
    is_lossy = goal.lost_max is not None and loss_bounds(one, level)[0] > goal.lost_max
    return is_lossy or any(is_beyond(one, limit, level) for limit in goal.limits)
