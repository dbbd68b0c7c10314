"""How long lookups take, all of them: those that were given up never end, those that were cut off are censored."""

from bisect import bisect_right
from collections.abc import Iterable
from math import ceil, inf

NEVER = "never"
ROUNDING = 1e-9
TAIL = (0, 20, 40, 50, 60, 70, 80, 90, 95, 98, 99, 99.5, 99.8, 99.9, 99.95, 99.98, 99.99)
"""The percentiles of a tail."""
LEAST_BEYOND = 10
"""So many lookups have to take longer than a percentile, or it is nearly the greatest one."""


def percentile(values: list[int], share: int) -> int | None:
    """Nearest rank: of k values in ascending order the one at place k * share / 100, rounded up, counted from 1."""
    return ranked(sorted(values), share)


def ranked(ordered: list[int], share: int) -> int | None:
    """The same of values that are in ascending order."""
    return ordered[(len(ordered) * share + 99) // 100 - 1] if ordered else None


class Times:
    """The times of lookups by what became of them, and the curve of Kaplan and Meier."""

    def __init__(self) -> None:
        """No lookups yet."""
        self.ended: list[int] = []
        self.cut: list[int] = []
        self.lost = 0

    def count(self) -> int:
        """How many lookups there are."""
        return len(self.ended) + len(self.cut) + self.lost

    def percentile(self, share: float) -> int | str | None:
        """The time by which this share of a hundred has ended; `never` if that is never so, nothing without lookups."""
        return self.percentiles((share,))[share]

    def percentiles(self, shares: Iterable[float]) -> dict[float, int | str | None]:
        """Some percentiles. At equal times lookups that were cut off come after those that ended."""
        wanted = sorted(shares)
        found: dict[float, int | str | None] = dict.fromkeys(wanted, NEVER if self.count() else None)
        ended, left, rest, begin, reached = sorted(self.ended), 1.0, self.count(), 0, 0
        for cut in [*sorted(self.cut), inf]:
            # Until a lookup is cut off, each one that ends takes away an equal share of what is left.
            end = bisect_right(ended, cut, begin)
            while end > begin and reached < len(wanted):
                place = begin + needed(left, rest, 1 - wanted[reached] / 100)
                if place > end:
                    break
                found[wanted[reached]] = ended[place - 1]
                reached += 1
            left *= 1 - (end - begin) / rest if rest else 1
            rest -= end - begin + 1
            begin = end
        return found

    def tail(self) -> list[tuple[float, int]]:
        """The percentiles that a plot of the tail has: those that are reached, with ten lookups or more beyond them."""
        known = [share for share in TAIL if self.count() * (1 - share / 100) >= LEAST_BEYOND - ROUNDING]
        return [(share, time) for share, time in self.percentiles(known).items() if isinstance(time, int)]


def needed(left: float, rest: int, wanted: float) -> int:
    """How many of so many lookups have to end so that of the share that is left no more than this one is."""
    return max(1, ceil(rest * (1 - (wanted + ROUNDING) / left)))
