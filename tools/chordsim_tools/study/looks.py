"""How plots name and draw keys and values."""

from collections.abc import Sequence
from dataclasses import dataclass, field
from functools import cached_property
from itertools import product
from typing import Any

COLOURS = ("#0072B2", "#D55E00", "#009E73", "#CC79A7", "#E69F00", "#56B4E9", "#000000", "#8C510A")
"""Colours that people who are colour-blind can tell apart (Okabe and Ito), and a brown."""
MARKERS = "os^Dv<>Ph*X"
LINES: tuple[Any, ...] = ("-", "-.", ":", (0, (6, 1, 1, 1, 1, 1)))
"""Dashes are kept for steps with few seeds."""
FEW = (0, (3, 2))
Values = tuple[str, ...]


@dataclass(frozen=True)
class Look:
    """A colour, a marker and a line for a value."""

    colour: str
    marker: str
    line: Any


def look_of(number: int) -> Look:
    """The look of the value at this place: the first 88 are all different, and neighbours differ in all three."""
    colour = COLOURS[number % len(COLOURS)]
    return Look(colour, MARKERS[number % len(MARKERS)], LINES[(number + number // len(COLOURS)) % len(LINES)])


def time_words(micros: float) -> str:
    """A time with its unit: 60 s for 60000000."""
    for factor, unit in ((1e6, "s"), (1e3, "ms")):
        if micros >= factor:
            return f"{micros / factor:g} {unit}"
    return f"{micros:g} us"


def key_words(key: str) -> str:
    """A key without its table and its unit."""
    name = key.rpartition(".")[2]
    for ending in ("_us", "_ppm"):
        name = name.removesuffix(ending)
    return name.replace("_", " ")


def value_words(key: str, value: str) -> str:
    """A value with its unit."""
    try:
        number = float(value)
    except ValueError:
        return value
    if key.endswith("_us"):
        return time_words(number)
    if key.endswith("_ppm"):
        return f"{number / 1e4:g} %"
    return value


def setting_words(keys: Sequence[str], values: Sequence[str]) -> str:
    """Keys with their values: `list 4, stabilize 60 s`."""
    return ", ".join(f"{key_words(key)} {value_words(key, value)}" for key, value in zip(keys, values, strict=True))


def numbers_of(values: Sequence[str]) -> list[float] | None:
    """The values as numbers, if all are."""
    try:
        return [float(value) for value in values]
    except ValueError:
        return None


class Axis:
    """A key along a plot: its values get places, and the axis may have to be logarithmic."""

    def __init__(self, key: str, values: list[str]) -> None:
        """The axis of a key. Values that are no numbers, or 0 and a wide span, are placed one beside the other."""
        self.key = key
        numbers = numbers_of(values)
        self.values = values if numbers is None else sorted(values, key=float)
        positive = sorted(number for number in numbers or [] if number > 0)
        is_wide = bool(positive) and positive[-1] / positive[0] > 10
        self.is_log = is_wide and len(positive) == len(values)
        if numbers is None or (is_wide and not self.is_log):
            self.places = {value: float(place) for place, value in enumerate(self.values)}
        else:
            self.places = {value: float(value) for value in self.values}

    def place(self, value: str, shift: float) -> float:
        """Where a value is drawn; `shift` moves it a little, so that bars of several lines can be told apart."""
        place = self.places[value]
        ends = list(self.places.values())
        if self.is_log:
            return float(place * (max(ends) / min(ends)) ** (0.012 * shift))
        return place + 0.012 * shift * ((max(ends) - min(ends)) or 1)

    def dress(self, axes: Any) -> None:
        """Ticks at the values alone, with units."""
        if self.is_log:
            axes.set_xscale("log")
        axes.set_xticks([], minor=True)
        words = [value_words(self.key, value) for value in self.values]
        is_crowded = len(words) > 6 or sum(map(len, words)) > 28
        turn = {"rotation": 45, "ha": "right"} if is_crowded else {}
        axes.set_xticks(list(self.places.values()), words, **turn)
        if self.key:
            axes.set_xlabel(key_words(self.key))


@dataclass
class Layout:
    """Which varied keys go along the axis, into lines and into panels."""

    x: str
    by: list[str]
    panels: list[str]
    keys: list[str]
    settings: list[Values]
    manifest: dict[str, Any] = field(default_factory=dict)

    def part(self, values: Values, keys: list[str]) -> Values:
        """The values of some keys in a setting."""
        return tuple(values[self.keys.index(key)] for key in keys)

    def parts(self, keys: list[str]) -> list[Values]:
        """All values of some keys that settings have, in order."""
        seen = dict.fromkeys(self.part(values, keys) for values in self.settings)
        return sorted(seen, key=lambda part: [order(value) for value in part])

    def grouped(self, settings: list[Values], keys: list[str]) -> dict[Values, list[Values]]:
        """Settings by their values of some keys."""
        groups: dict[Values, list[Values]] = {}
        for one in settings:
            groups.setdefault(self.part(one, keys), []).append(one)
        return groups

    @cached_property
    def looks(self) -> dict[Values, Look]:
        """The look of each line: of the values of the keys that lines are by."""
        return {part: look_of(number) for number, part in enumerate(self.parts(self.by))}

    def look(self, values: Values) -> Look:
        """The look of a setting: that of its line."""
        return self.looks[self.part(values, self.by)]

    def cells(self) -> list[list[Values]]:
        """The settings of each panel and value of the axis, in order: what one small plot shows."""
        groups = self.grouped(self.settings, [*self.panels, *self.x_keys])
        places = product(self.parts(self.panels), self.parts(self.x_keys))
        return [groups[panel + value] for panel, value in places if panel + value in groups]

    @cached_property
    def by_panel(self) -> dict[Values, list[Values]]:
        """The settings of each panel."""
        return self.grouped(self.settings, self.panels)

    def of_panel(self, panel: Values) -> list[Values]:
        """The settings of a panel."""
        return self.by_panel[panel]

    @property
    def x_keys(self) -> list[str]:
        """The key of the axis, if there is one."""
        return [self.x] if self.x else []


def order(value: str) -> tuple[float, str]:
    """Numbers by their size, before texts."""
    numbers = numbers_of([value])
    return (float("inf"), value) if numbers is None else (numbers[0], value)
