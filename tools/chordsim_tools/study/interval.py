"""Means over seeds with their intervals, and how they are written.

Somebody who adds seeds and looks again gives chance more occasions. So the bounds that decide have the same small risk
at each look (Pocock, Biometrika 64, 1977). With a sixth of the whole risk at each, ten looks at 10, 20 .. 100 seeds, or
looks at 10, 20, 40 .. 160, are together wrong as rarely as they should be."""

import math
from collections.abc import Iterable
from dataclasses import dataclass
from statistics import fmean, stdev

from chordsim_tools.study.exact import student

LEAST_SEEDS = 5
"""Of fewer seeds no interval is computed: with two degrees of freedom it says next to nothing."""
LOOKS = 6
"""The whole risk of a bound that decides, by its risk at one look."""


def at_each_look(level: float) -> float:
    """The level of a bound at one look, so that it holds with this level at all of them together."""
    return 1 - (1 - level) / LOOKS


@dataclass(frozen=True)
class Interval:
    """A mean of `count` of `of` values, and half of its 95% interval, if there are enough of them.

    `low` and `high` are the least and the greatest value, `error` is the standard error of the mean."""

    mean: float | None
    half: float | None
    count: int = 0
    of: int = 0
    low: float = 0.0
    high: float = 0.0
    error: float = 0.0

    def told(self, scale: float = 1.0) -> str:
        """As `mean ± half` with two significant digits of the half.

        If values are missing their number is told, as `(9 of 10)`."""
        if self.mean is None:
            return "-"
        return self.number(scale) + (f" ({self.count} of {self.of})" if self.count < self.of else "")

    def number(self, scale: float) -> str:
        """The mean and the half."""
        if self.mean is None or math.isinf(self.mean):
            return "never"
        mean, half = self.mean * scale, (self.half or 0.0) * scale
        if not half:
            return significant(mean, 4)
        digits = digits_of(half)
        return f"{rounded(mean, digits)} ± {rounded(half, digits)}"

    def ends(self) -> tuple[float, float] | None:
        """Both ends of the interval, if there is one."""
        return None if self.mean is None or self.half is None else (self.mean - self.half, self.mean + self.half)

    def reach(self) -> float | None:
        """How far the interval goes from the mean to its farther end, if it has to hold at each look."""
        if self.half is None:
            return None
        return student(self.count - 1, at_each_look(0.95)) * self.error

    def excludes(self, value: float, margin: float = 0.0) -> bool:
        """Whether there is an interval, and this value is not in it nor so near to it."""
        ends = self.ends()
        return ends is not None and not ends[0] - margin <= value <= ends[1] + margin

    def bound(self, level: float, sign: int) -> float:
        """The one-sided bound of the mean: the lower one for the sign -1, the upper one for 1.

        It holds with this level however often somebody looks, within reason."""
        if self.mean is None or self.count < LEAST_SEEDS:
            return sign * math.inf
        return self.mean + sign * student(self.count - 1, 2 * at_each_look(level) - 1) * self.error


def digits_of(half: float) -> int:
    """How many digits after the point two significant digits of a half have; less than none for tens."""
    return 1 - math.floor(math.log10(half) + 1e-12)


def rounded(value: float, digits: int) -> str:
    """A number with so many digits after the point."""
    return f"{round(value, digits):.{max(0, digits)}f}"


def significant(value: float, digits: int) -> str:
    """A number without a half."""
    return f"{value:.{digits}g}" if abs(value) < 10**digits else f"{value:.0f}"


def outward(value: float, digits: int, sign: int) -> float:
    """A bound with so many significant digits, rounded up for the sign 1 and down for -1, so that it still holds."""
    if value == 0:
        return value
    step = 10.0 ** (math.floor(math.log10(abs(value))) - digits + 1)
    # A value that has no more digits is not moved by what floating numbers add to it.
    nearest = round(value / step)
    if math.isclose(nearest * step, value, rel_tol=1e-12):
        return float(f"{nearest * step:.12g}")
    return float(f"{(math.ceil if sign > 0 else math.floor)(value / step) * step:.12g}")


def of_there(values: Iterable[float | None]) -> list[float]:
    """The values that are there."""
    return [value for value in values if value is not None]


def interval(values: Iterable[float | None], level: float = 0.95) -> Interval:
    """Mean and half interval of the values that are there, by Student's t."""
    every = list(values)
    there = of_there(every)
    if not there:
        return Interval(None, None, 0, len(every))
    low, high = min(there), max(there)
    if math.isinf(high):
        return Interval(math.inf, None, len(there), len(every), low, high)
    error = stdev(there) / len(there) ** 0.5 if len(there) > 1 else 0.0
    half = student(len(there) - 1, level) * error if len(there) >= LEAST_SEEDS else None
    return Interval(fmean(there), half, len(there), len(every), low, high, error)
