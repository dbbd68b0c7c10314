"""Chooses what of the varied keys goes where in a plot."""

from chordsim_tools.cli import Refused
from chordsim_tools.generate.top import WAYS
from chordsim_tools.study.keys import OF_GENERATE
from chordsim_tools.study.looks import Layout, Values
from chordsim_tools.study.numbers import Summary, groups, setting_label
from chordsim_tools.study.tables import Tables

WORLD = ("profile", "duration_us", "latency_us", "loss_ppm", "spread_us", "latency", "base")
"""Keys that no designer chooses: these are worlds, as churn and lookups are, if the study file has no `world`."""
PROTOCOL = (
    "bits", "list", "window", "timeout", "audit", "stabilize", "finger", "jitter", "max-events", "retries",
    "join-pause", "join-forever", "no-join-forever", "check", "detail", "via", "ids", "bootstrap", *dict(WAYS),
)
"""The options of tools/generate that somebody chooses. All others, as lives and nodes, describe the world."""
Worlds = dict[str, list[Summary]]
"""The settings of each world, by what the world has."""


def is_world(key: str, named: list[str] | None) -> bool:
    """Whether a varied key is of the world, not of the protocol."""
    if named is not None:
        return key in named
    if key.startswith(OF_GENERATE):
        return key.removeprefix(f"{OF_GENERATE}--") not in PROTOCOL
    return key in WORLD or key.startswith(("churn.", "lookups.", "world"))


def worlds_of(tables: Tables) -> list[str]:
    """The varied keys that make the world."""
    named = tables.manifest.get("world")
    names = list(named) if isinstance(named, list | dict) else None
    return [key for key in varied(tables) if is_world(key, names)]


def of_each_world(tables: Tables, found: list[Summary]) -> Worlds:
    """The settings of each world. Nobody chooses between worlds."""
    keys = worlds_of(tables)
    worlds: Worlds = {}
    for one in found:
        worlds.setdefault(label_of(tables, one, keys), []).append(one)
    return worlds


def choice_label(tables: Tables, one: Summary) -> str:
    """What of a setting somebody chooses, as pages name it."""
    keys = worlds_of(tables)
    return label_of(tables, one, [key for key in varied(tables) if key not in keys])


def label_of(tables: Tables, one: Summary, keys: list[str]) -> str:
    """A setting by some of its keys."""
    return setting_label(keys, tuple(one.values[varied(tables).index(key)] for key in keys))


def varied(tables: Tables) -> list[str]:
    """The keys that settings differ in."""
    return list(tables.manifest["vary"])


def layout_of(tables: Tables, x: str | None, by: list[str] | None, panels: list[str] | None) -> Layout:
    """The layout that is asked for. What is left open: worlds to panels, most values to the axis, all else to lines."""
    keys = varied(tables)
    for key in [*([x] if x else []), *(by or []), *(panels or [])]:
        if key not in keys:
            raise Refused(f"the study does not vary {key}; it varies {', '.join(keys) or 'nothing'}")
    settings: list[Values] = list(groups(tables.runs, keys))
    taken = [*([x] if x else []), *(by or [])]
    if panels is None:
        panels = [key for key in worlds_of(tables) if key not in taken]
    if x is None:
        x = axis_key(keys, settings, [*panels, *(by or [])])
        if not x and panels and not by:
            x = panels.pop()
    others = [key for key in keys if key != x and key not in panels]
    by = [*(by or []), *(key for key in others if key not in (by or []))]
    return Layout(x, [key for key in by if key != x and key not in panels], panels, keys, settings, tables.manifest)


def axis_key(keys: list[str], settings: list[Values], taken: list[str]) -> str:
    """The key with the most values, the last of these; none if nothing is left."""
    counts = {key: len({setting[keys.index(key)] for setting in settings}) for key in keys if key not in taken}
    return max(reversed(list(counts)), key=lambda key: counts[key], default="")
