"""The traps of a study's settings: each kind once, with the first setting that has it."""

import tomllib
from collections.abc import Iterable
from pathlib import Path
from typing import Any

from chordsim_tools.explain.traps import (
    events_needed, events_told, greatest_latency, most_events, timer_events, traps_of, warn,
)
from chordsim_tools.study.task import Task

Settings = list[tuple[Task, dict[str, Any]]]
"""The first run of each setting, with its scenario."""


def tell_traps(tasks: Iterable[Task], program: Path, told: set[str]) -> None:
    """A line for each kind of trap, which begins with its key; those in `told` were told before."""
    settings = [(task, tomllib.loads(task.scenario)) for task in tasks]
    found = traps_by_key(settings)
    if settings and "max_events" not in told:
        beyond = settings_beyond(settings, program)
        found |= {"max_events": beyond} if beyond else {}
    lines = [first_told(traps) for kind, traps in found.items() if kind not in told]
    told |= set(found)
    warn(lines)


def traps_by_key(settings: Settings) -> dict[str, list[str]]:
    """The traps of settings, each with the name of its setting, by their keys."""
    found: dict[str, list[str]] = {}
    traps = (
        (task, trap)
        for task, top in settings for trap in traps_of(top, greatest_latency(top, task.latency or b""))
    )
    for task, trap in traps:
        found.setdefault(trap.partition(" ")[0], []).append(f"{task.name}: {trap}")
    return found


def first_told(traps: list[str]) -> str:
    """The first of these traps, and in how many more settings the others are."""
    others = len(traps) - 1
    return traps[0] + (f" (and in {others} more setting{'' if others == 1 else 's'})" if others else "")


def settings_beyond(settings: Settings, program: Path) -> list[str]:
    """The settings whose runs are likely to need more events than they may have; the first one with its estimate.

    One setting is tried: the one that comes nearest to its limit by its timers. What the others need is taken to be in
    proportion to their timers."""
    by_load = sorted(settings, key=lambda one: timer_events(one[1]) / most_events(one[1]), reverse=True)
    task, top = by_load[0]
    need = events_needed(program, top, task.latency or b"")
    if need is None or need.events <= most_events(top):
        return []
    factor = need.events / timer_events(top)
    others = [other.name for other, top in by_load[1:] if factor * timer_events(top) > most_events(top)]
    return [f"{task.name}: {events_told(top, need)}", *others]
