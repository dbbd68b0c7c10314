"""Bounds of the mean of shares, whatever their law, by betting: Waudby-Smith and Ramdas, JRSS B 86 (2024).

Somebody who has 1 bets against the claim that the mean is m: of each share x, in the order of the seeds, the part c of
what they have becomes c x / m. If the claim is true they do not gain on average, however many seeds there are. So they
ever have 1 / risk with at most this risk (Ville). Claims against which they have so much are refuted. The stake is
divided into parts c, since no single one is best for all laws.

Ten shares of 1 refute a mean below 0.65 at 2.5 %, and ten that are nearly 1 not much more: a world that serves nothing
may be among those that were not run. No interval that is right for all laws is much shorter."""

import math
from collections.abc import Sequence
from dataclasses import dataclass
from functools import lru_cache

from chordsim_tools.study.interval import LEAST_SEEDS, Interval, interval, of_there, outward, significant

STAKES = ((1.0, 0.5), (0.5, 0.2), (0.25, 0.1), (0.125, 0.1), (0.0625, 0.1))
"""The parts c, and how the 1 is divided among them."""
HALVINGS = 24
"""Bounds are exact to seven digits, and never beyond what is refuted."""


def wealth(shares: Sequence[float], mean: float) -> float:
    """What the bets against a mean have become."""

    def grown(part: float) -> float:
        """The logarithm of what 1 has become that bets this part."""
        kept, won = 1 - part, part / mean
        factors = [kept + won * share for share in shares]
        return sum(map(math.log, factors)) if min(factors) > 0 else -math.inf

    return sum(stake * math.exp(min(700.0, grown(part))) for part, stake in STAKES)


# A page asks for the same bound of a setting several times.
@lru_cache(maxsize=4096)
def least_mean(shares: tuple[float, ...], risk: float) -> float:
    """The greatest mean up to which all are refuted at this risk, by bisection: what is won falls with the mean."""
    low, high = 0.0, max(shares)
    for _ in range(HALVINGS):
        middle = (low + high) / 2
        low, high = (middle, high) if middle > 0 and wealth(shares, middle) >= 1 / risk else (low, middle)
    return low


def seeds_to_show(share: float, risk: float = 0.05) -> int:
    """How many seeds can show that a mean is at least this share, if all of them have 1: fewer never can."""
    return math.ceil(math.log(risk * STAKES[0][1]) / math.log(share))


@dataclass(frozen=True)
class Bounded(Interval):
    """A mean of numbers of `floor` to 1, whose interval holds for any law and however often somebody looks."""

    values: tuple[float, ...] = ()
    floor: float = 0.0
    level: float = 0.95

    def bound(self, level: float, sign: int) -> float:
        """The one-sided bound of the mean. Looking again costs nothing more."""
        if self.mean is None or self.count < LEAST_SEEDS:
            return sign * math.inf
        width = 1 - self.floor
        shares = tuple((value - self.floor) / width for value in self.values)
        if sign < 0:
            return self.floor + width * least_mean(shares, 1 - level)
        return 1 - width * least_mean(tuple(1 - share for share in shares), 1 - level)

    def ends(self) -> tuple[float, float] | None:
        """Both ends of the interval, each at half the risk."""
        if self.mean is None or self.count < LEAST_SEEDS:
            return None
        each = (1 + self.level) / 2
        return self.bound(each, -1), self.bound(each, 1)

    def reach(self) -> float | None:
        """How far the interval goes from the mean to its farther end."""
        ends = self.ends()
        return None if ends is None or self.mean is None else max(self.mean - ends[0], ends[1] - self.mean)

    def number(self, scale: float) -> str:
        """As `mean (low..high)`, both ends rounded outward."""
        ends = self.ends()
        if self.mean is None or ends is None:
            return super().number(scale)
        low, high = (outward(end * scale, 3, sign) for end, sign in zip(ends, (-1, 1), strict=True))
        return f"{significant(self.mean * scale, 4)} ({low:g}..{high:g})"


def bounded(values: Sequence[float | None], level: float = 0.95, floor: float = 0.0) -> Bounded:
    """Mean and interval of the values that are there, none of which is below `floor` or above 1."""
    one = interval(values, level)
    there = tuple(of_there(values))
    return Bounded(one.mean, None, one.count, one.of, one.low, one.high, one.error, there, floor, level)


def share_mean(values: Sequence[float | None], level: float = 0.95) -> Interval:
    """Mean and interval of shares: by Student's t, if enough of them are neither 0 nor 1.

    If nearly all worlds have none, or all, those that have another share may be missing among the seeds."""
    inside = sum(0 < value < 1 for value in of_there(values))
    return interval(values, level) if inside >= LEAST_SEEDS else bounded(values, level)
