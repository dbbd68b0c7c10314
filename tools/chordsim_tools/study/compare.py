"""Two settings compared seed by seed."""

import math
from dataclasses import dataclass, replace

from chordsim_tools.study.bounded import bounded
from chordsim_tools.study.exact import mcnemar
from chordsim_tools.study.interval import LEAST_SEEDS, Interval, interval, of_there, outward
from chordsim_tools.study.layout import of_each_world
from chordsim_tools.study.names import COUNTS, MILLISECONDS, RATE, RATES, base_of, is_percent, is_wild
from chordsim_tools.study.numbers import Cells, Summary, is_kept, summaries, take_of
from chordsim_tools.study.tables import Tables

UNITS = {
    **dict.fromkeys(MILLISECONDS, ("ms", 1.0)), **dict.fromkeys(RATES, (RATE, 1.0)), **dict.fromkeys(COUNTS, ("", 1.0)),
}
"""The units of the numbers that are no shares, which are told in percent."""
OF_SETTING = ("scenario-list", "scenario-bits", "bytes", "bytes-error")
"""Columns that are other in another setting though the run is the same."""
UNDECIDED = ("not told apart", "no interval")
"""What is said of a difference that does not tell two settings apart: there was an interval, or none."""


@dataclass(frozen=True)
class Pair:
    """Two settings over the seeds that they have in common."""

    first: Summary
    second: Summary
    level: float = 0.95

    def seeds(self) -> list[str]:
        """The seeds of both."""
        return [seed for seed in self.first.by_seed if seed in self.second.by_seed]

    def rows(self) -> list[tuple[Cells, Cells]]:
        """The runs of both, seed by seed."""
        return [(self.first.by_seed[seed], self.second.by_seed[seed]) for seed in self.seeds()]

    def equal(self) -> int:
        """In how many seeds both have the same run, as far as the tables say."""
        return sum(core(self.first, a) == core(self.second, b) for a, b in self.rows())

    def lost(self) -> tuple[int, int]:
        """In how many seeds only the first, and only the second, lost its ring."""
        kept = [(is_kept(a), is_kept(b)) for a, b in self.rows()]
        return kept.count((False, True)), kept.count((True, False))

    def values(self, number: str) -> list[float | None]:
        """The first less the second in each seed: served in all, other numbers if both kept their rings."""
        pairs = ((a, b) if base_of(number) == "served" or (is_kept(a) and is_kept(b)) else None for a, b in self.rows())
        return [None if pair is None else self.of_seed(number, *pair) for pair in pairs]

    def difference(self, number: str) -> Interval:
        """The mean of the first less the second, and its interval if the seeds say enough for one."""
        return difference_of(number, self.values(number), self.level)

    def of_seed(self, number: str, a: Cells, b: Cells) -> float | None:
        """The difference in a seed."""
        first, second = take_of(number)(a), take_of(number)(b)
        if first is None or second is None or math.isinf(first) or math.isinf(second):
            return None
        return first - second

    def more_and_less(self, number: str) -> tuple[int, int]:
        """In how many seeds the first has more, and less, than the second."""
        there = of_there(self.values(number))
        return sum(value > 0 for value in there), sum(value < 0 for value in there)

    def is_apart(self, number: str) -> bool:
        """Whether the two can be told apart: by the mean, the rings lost, or who serves more in how many seeds."""
        risk = 1 - self.level
        by_signs = is_wild(number) and mcnemar(*self.more_and_less(number)) < risk
        is_other = self.difference(number).excludes(0.0, self.error(number))
        return by_signs or is_other or mcnemar(*self.lost()) < risk

    def error(self, number: str) -> float:
        """How far the difference may be off because messages are estimated."""
        return self.first.error(number) + self.second.error(number)

    def verdict(self, number: str) -> str:
        """What is said of a difference that does not tell the two apart."""
        if self.is_apart(number):
            return ""
        return UNDECIDED[1] if self.difference(number).ends() is None else UNDECIDED[0]


def error_told(error: float) -> str:
    """How far a number or a difference may be off because messages are estimated, as texts have it behind a number."""
    if not error:
        return ""
    return "estimated, no bound" if math.isinf(error) else f"estimated, off by {outward(error, 2, 1):g} at most"


def difference_of(number: str, values: list[float | None], level: float) -> Interval:
    """The mean of these differences. With fewer than five that are not 0 there is no interval by Student's t."""
    are_few = sum(value != 0 for value in of_there(values)) < LEAST_SEEDS
    if is_wild(number) or (is_percent(number) and are_few):
        return bounded(values, level, -1.0)
    found = interval(values, level)
    return replace(found, half=None) if are_few else found


def core(summary: Summary, cells: Cells) -> list[str]:
    """A row without what the setting alone says: its values, and what repeats or weighs them."""
    places = list(cells.items())[len(summary.values) :]
    return [cell for word, cell in places if word not in OF_SETTING]


def guarded_level(*worlds: int) -> float:
    """The level of each interval of all pairs of settings of worlds with so many each: all of them hold with 95%."""
    return 1 - 0.05 / max(1, sum(settings * (settings - 1) // 2 for settings in worlds))


def settings_of(tables: Tables) -> list[Summary]:
    """All settings in the order in which the page has them, which their numbers count."""
    return [one for settings in of_each_world(tables, summaries(tables)).values() for one in settings]


def scale_of(number: str) -> tuple[str, float]:
    """The unit of a number and what it is multiplied with."""
    return UNITS.get(base_of(number), ("points", 100.0))
