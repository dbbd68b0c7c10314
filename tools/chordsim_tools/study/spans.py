"""The tables [span.NAME]: further parts of a run that are judged, each with limits of its own."""

import re
from collections.abc import Iterable
from dataclasses import replace
from pathlib import Path
from typing import Any

from chordsim_tools.cli import Refused
from chordsim_tools.quantities import time_text
from chordsim_tools.study.goal import NUMBERS, OF_SPANS, Goal, Limit, limit_of
from chordsim_tools.study.keys import number_of

Spans = dict[str, tuple[int, int]]
"""The begin and the end of each span, in microseconds."""
KEYS = ("from", "to", "goal")


def spans_of(path: Path, table: Any) -> Spans:
    """The spans of a study file."""
    if not isinstance(table, dict) or not all(isinstance(span, dict) for span in table.values()):
        raise Refused(f'{path}: a span is a table of its own, as [span.outage] with from = "360s" and to = "420s"')
    return {name: span_of(path, name, span) for name, span in table.items()}


def span_of(path: Path, name: str, table: dict[str, Any]) -> tuple[int, int]:
    """The begin and the end of a span."""
    place = f"{path}: [span.{name}]"
    if not re.fullmatch(r"[a-z][a-z0-9_-]{0,30}", name):
        raise Refused(f"{place}: a span's name has small letters, digits, - and _, and begins with a letter")
    for key in table:
        if key not in KEYS:
            raise Refused(f"{place} {key}: a span has from, to and [span.{name}.goal]")
    begin, end = (time_in(path, name, table, key) for key in ("from", "to"))
    if begin >= end:
        raise Refused(f"{place}: from ({time_text(begin)}) has to be before to ({time_text(end)})")
    return begin, end


def time_in(path: Path, name: str, table: dict[str, Any], key: str) -> int:
    """One end of a span."""
    place = f"[span.{name}] {key}_us"
    # The key has no unit in its name, so that the message must not have it either.
    try:
        return number_of(path, {place: table.get(key)}, place, 0, None)
    except Refused as fault:
        raise Refused(fault.text.replace(place, place.removesuffix("_us"))) from None


def limits_of(path: Path, table: dict[str, Any]) -> tuple[Limit, ...]:
    """The limits of all spans, each with the name of its span before its number."""
    return tuple(
        replace(limit, number=f"{name}.{limit.number}")
        for name, span in table.items() for limit in limits_in(path, name, span.get("goal", {}))
    )


def limits_in(path: Path, name: str, goal: Any) -> Iterable[Limit]:
    """The limits of a span."""
    place = f"{path}: [span.{name}.goal]"
    if not isinstance(goal, dict):
        raise Refused(f"{place} has to be a table")
    for key, value in goal.items():
        number = key.rpartition("_")[0]
        if key in ("least", "lost_max") or number in set(NUMBERS) - set(OF_SPANS):
            has = ", ".join(OF_SPANS)
            raise Refused(f"{place} {key}: rings lost, costs and `least` are of [goal]; a span has {has}")
        yield limit_of(place, key, value, OF_SPANS)


def whole_goal(goal: Goal | None, limits: tuple[Limit, ...]) -> Goal | None:
    """The goal with the limits of the spans, which are a goal by themselves too."""
    if not limits:
        return goal
    return Goal(limits, None, "messages") if goal is None else replace(goal, limits=(*goal.limits, *limits))


def check_spans(path: Path, spans: Spans, duration: int) -> None:
    """Fails if a span goes on after the end of a run."""
    for name, (_, end) in spans.items():
        if end > duration:
            run = f"the end of the run ({time_text(duration)})"
            raise Refused(f"{path}: [span.{name}] to ({time_text(end)}) is after {run}")
