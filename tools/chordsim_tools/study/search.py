"""The table [search]: one or two keys, and which of their values are tried next around the best setting."""

import itertools
import math
from dataclasses import dataclass, field
from pathlib import Path
from typing import Any

from chordsim_tools.cli import Refused
from chordsim_tools.quantities import UNIT_NAMES, time_of, time_text
from chordsim_tools.study.keys import (
    BOOLEANS, OF_GENERATE, Value, is_integer, unknown_told, varied_keys, varied_options,
)
from chordsim_tools.study.vary import Group, whole_key

SMALL = 1.1
"""The search ends if the next time is less than this many times the one before it. Counts end at steps of 1."""
MOST_ROUNDS = 10
"""How many rounds a search has if the study file does not say."""
GREATEST_ROUNDS = 50
DIGITS = 3
"""So many significant digits a time has that was not named."""
Setting = tuple[tuple[str, Value], ...]
Place = tuple[int, ...]
"""Where a setting is: a step of each axis."""


@dataclass(frozen=True)
class Axis:
    """A key and the ends of its range, in equal steps: of counts, or of ratios of times."""

    key: str
    low: int
    high: int
    is_count: bool

    @property
    def steps(self) -> int:
        """How many steps the range has: a power of 2."""
        wanted = self.high - self.low if self.is_count else math.log(self.high / self.low) / math.log(SMALL)
        return 1 << max(1, math.ceil(math.log2(wanted)))

    def value(self, place: int) -> Value:
        """The value at a step. The ends are those of the file."""
        number = self.number(place / self.steps)
        is_text = self.key.startswith(OF_GENERATE) and not self.is_count
        return time_text(number) if is_text else number

    def number(self, part: float) -> int:
        """The number at a part of the range."""
        if part in (0, 1):
            return self.high if part else self.low
        if self.is_count:
            return round(self.low + (self.high - self.low) * part)
        exact = self.low * (self.high / self.low) ** part
        digits = DIGITS - 1 - math.floor(math.log10(exact))
        return min(self.high, max(self.low, int(round(exact, digits))))


@dataclass
class Search:
    """The axes, the bound on the rounds, and what was tried so far, by its setting."""

    axes: list[Axis]
    most_rounds: int
    tried: dict[Setting, Place] = field(default_factory=dict)
    halvings: int = 1

    def setting(self, place: Place) -> Setting:
        """The setting at a place."""
        return tuple((axis.key, axis.value(step)) for axis, step in zip(self.axes, place, strict=True))

    def first(self) -> list[Setting]:
        """Both ends and the middle of each axis, in every combination."""
        return self.taken(itertools.product(*((0, axis.steps // 2, axis.steps) for axis in self.axes)))

    def taken(self, places: Any) -> list[Setting]:
        """Notes places as tried. Gives their settings, without those that were tried before."""
        new = {setting: place for place in places if (setting := self.setting(place)) not in self.tried}
        self.tried |= new
        return list(new)

    def step(self, axis: Axis) -> int:
        """The step of an axis after so many halvings."""
        return axis.steps >> self.halvings

    def next(self, best: Setting) -> list[Setting]:
        """The settings beside the best one that were not tried. If there is none, the step is halved, down to one."""
        while any(self.step(axis) for axis in self.axes):
            new = self.taken(self.beside(self.tried[best]))
            if new:
                return new
            self.halvings += 1
        return []

    def beside(self, place: Place) -> list[Place]:
        """The places one step away on one axis."""
        found: list[Place] = []
        for number, axis in enumerate(self.axes):
            steps = (place[number] - self.step(axis), place[number] + self.step(axis))
            found += [(*place[:number], to, *place[number + 1 :]) for to in steps if 0 <= to <= axis.steps]
        return found

    def begun(self) -> list[Group]:
        """The values of each key in the first round."""
        self.first()
        return self.groups()

    def most_settings(self) -> int:
        """So many settings it may try at most."""
        rounds = int(3 ** len(self.axes)) + 2 * len(self.axes) * (self.most_rounds - 1)
        return min(rounds, math.prod(axis.steps + 1 for axis in self.axes))

    def sorted(self) -> list[Setting]:
        """All settings that were tried, by their places."""
        return sorted(self.tried, key=lambda setting: self.tried[setting])

    def groups(self) -> list[Group]:
        """The values of each key that were tried."""
        places = [sorted({place[number] for place in self.tried.values()}) for number in range(len(self.axes))]
        return [((axis.key,), list(dict.fromkeys((axis.value(step),) for step in steps)))
                for axis, steps in zip(self.axes, places, strict=True)]


def search_of(path: Path, top: dict[str, Any]) -> Search | None:
    """The table [search] of a study file, if it has one."""
    table = top.get("search")
    if table is None:
        return None
    if not isinstance(table, dict):
        raise Refused(f"{path}: search has to be a table")
    for other in ("vary", "precision"):
        if other in top:
            raise Refused(f"{path}: [search] and [{other}] exclude each other")
    if "goal" not in top:
        raise Refused(f"{path}: [search] needs [goal]: it looks for the setting that reaches it at the least cost")
    axes = [axis_of(path, key, value, "generate" in top) for key, value in table.items() if key != "most_rounds"]
    if not 1 <= len(axes) <= 2:
        raise Refused(f"{path}: [search] has one or two keys, not {len(axes)}")
    rounds = table.get("most_rounds", MOST_ROUNDS)
    if not is_integer(rounds) or not 1 <= rounds <= GREATEST_ROUNDS:
        raise Refused(f"{path}: [search] most_rounds has to be an integer, 1 to {GREATEST_ROUNDS}")
    return Search(axes, rounds)


def axis_of(path: Path, name: str, value: Any, is_generated: bool) -> Axis:
    """A key of [search] with its range, as `stabilize_us = "250ms..8s"`."""
    key, place = whole_key(name), f"{path}: [search] {name}"
    if key in BOOLEANS or (key not in varied_keys() and not (is_generated and key in varied_options())):
        reason = "is true or false: vary it" if key in BOOLEANS else unknown_told(key, is_generated)
        raise Refused(f"{path}: [search] {key} {reason}" if key in BOOLEANS else f"{path}: [search] {reason}")
    ends = value.split("..") if isinstance(value, str) else []
    are_counts = all(end.isdecimal() for end in ends)
    if len(ends) != 2 or (are_counts and key.endswith("_us")):
        raise Refused(f'{place} has to be a range, as "2..16", or of times with units, as "250ms..8s"')
    low, high = (time_of(end) if are_counts or not end.isdecimal() else None for end in ends)
    if low is None or high is None or low >= high or (low == 0 and not are_counts):
        raise Refused(f'{place} = "{value}" has to go up, and times from above 0, with units ({UNIT_NAMES})')
    return Axis(key, low, high, are_counts)
