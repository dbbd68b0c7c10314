"""How pages name a goal, its limits and values."""

from chordsim_tools.study.goal import Goal, Limit
from chordsim_tools.study.interval import significant
from chordsim_tools.study.names import in_words, is_percent


def value_told(number: str, value: float) -> str:
    """A value with its unit."""
    if is_percent(number):
        return f"{significant(value * 100, 4)} %"
    return f"{significant(value, 4)} ms" if number.endswith("_ms") else significant(value, 3)


def limit_told(limit: Limit) -> str:
    """A limit as the answer names it."""
    bound = "least" if limit.is_least else "most"
    return f"at {bound} {value_told(limit.number, limit.value)} {in_words(limit.number)}"


def goal_told(goal: Goal) -> str:
    """All limits. Without a limit to losses no ring may have been lost."""
    lost = "no ring lost" if goal.lost_max is None else f"less than {rings(goal.lost_max)} lost per hour"
    limits = " and ".join(map(limit_told, goal.limits))
    return f"{limits}, with {lost}" if limits else lost


def rings(count: float) -> str:
    """A number of rings."""
    return f"{count:g} ring" + ("" if count == 1 else "s")
