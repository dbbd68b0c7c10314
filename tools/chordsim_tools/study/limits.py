"""The limits of a study's goal as plots draw them."""

from typing import Any

from chordsim_tools.study.goal import Limit, goal_again
from chordsim_tools.study.names import base_of, span_of

NUMBERS = {
    "right-of-begun": "right_of_begun", "served": "served", "all-us-p50": "p50_ms", "all-us-p90": "p90_ms",
    "all-us-p99": "p99_ms", "all-us-p99.9": "p999_ms", "cost": "messages",
}
"""The numbers of goals by the columns that plots draw."""
STYLE = {"color": "#B00020", "linewidth": 1, "linestyle": (0, (5, 2)), "zorder": 1.5}
"""Lines of limits are in a colour of their own."""
SHARES = {"p50_ms": 0.5, "p90_ms": 0.9, "p99_ms": 0.99, "p999_ms": 0.999}


def limits_of(manifest: dict[str, Any], column: str) -> list[float]:
    """The limits of a column, in the unit of the column: shares of 0 to 1, times in us. Those of a span's number are as
    in the goal."""
    goal = goal_again(manifest.get("goal"))
    limits = goal.limits if goal is not None else ()
    if span_of(column):
        return [limit.value for limit in limits if limit.number == column]
    return [in_units(limit) for limit in limits if limit.number == NUMBERS.get(column)]


def span_numbers(manifest: dict[str, Any]) -> list[str]:
    """The numbers of spans that the goal limits, each once."""
    goal = goal_again(manifest.get("goal"))
    limits = goal.limits if goal is not None else ()
    return list(dict.fromkeys(limit.number for limit in limits if span_of(limit.number)))


def span_limits(manifest: dict[str, Any], column: str) -> list[tuple[float, float, float]]:
    """The limits of a column in spans: the begin and the end of the span in us, and the limit."""
    found = []
    for number in span_numbers(manifest):
        begin, end = manifest["spans"][span_of(number)]
        is_of_column = base_of(number) == NUMBERS.get(column)
        found += [(begin, end, limit) for limit in limits_of(manifest, number) if is_of_column]
    return found


def in_units(limit: Limit) -> float:
    """A limit in the unit of its column."""
    return limit.value * 1000 if limit.number.endswith("_ms") else limit.value


def time_limits(manifest: dict[str, Any]) -> list[tuple[float, float]]:
    """The limits of percentiles: the share and the time in us."""
    goal = goal_again(manifest.get("goal"))
    limits = goal.limits if goal is not None else ()
    return [(SHARES[limit.number], in_units(limit)) for limit in limits if limit.number in SHARES]


def draw_across(axes: Any, limits: list[float], scale: float) -> None:
    """A horizontal line for each limit."""
    for limit in limits:
        axes.axhline(scale * limit, **STYLE)


def draw_in_spans(axes: Any, limits: list[tuple[float, float, float]], scale: float) -> None:
    """A horizontal line for each limit of a span, over the time of the span, in seconds."""
    for begin, end, limit in limits:
        axes.plot([begin / 1e6, end / 1e6], [scale * limit] * 2, **{**STYLE, "linestyle": "-", "linewidth": 2})


def handle(pyplot: Any) -> Any:
    """The entry of the legend."""
    return pyplot.Line2D([], [], label="the goal's limit", **STYLE)
