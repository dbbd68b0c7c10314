"""How much work a study has left: runs of a setting are about as long, those of another one ten times as long."""

from collections import Counter
from collections.abc import Iterable
from statistics import fmean


class Load:
    """The runs that are to be done, by their settings. Each setting has a weight, in any unit."""

    def __init__(self, runs: Iterable[tuple[str, float]] = ()) -> None:
        """The setting of each run, with its weight."""
        self.left: Counter[str] = Counter()
        self.weights: dict[str, float] = {}
        for setting, weight in runs:
            self.left[setting] += 1
            self.weights[setting] = weight
        self.done: Counter[str] = Counter()
        self.taken: dict[str, list[float]] = {}

    def one_more(self, setting: str, seconds: float | None) -> None:
        """A run was done, and took so long, if that is known."""
        self.left[setting] -= 1
        self.done[setting] += 1
        if seconds is not None:
            self.taken.setdefault(setting, []).append(seconds)

    def costs(self) -> dict[str, float]:
        """What a run of each setting costs: the mean time of its runs, else by its weight."""
        known = sum(fmean(times) for times in self.taken.values())
        weight = sum(self.weights[setting] for setting in self.taken)
        unit = known / weight if known and weight else 1.0
        return {
            setting: fmean(self.taken[setting]) if setting in self.taken else unit * weight
            for setting, weight in self.weights.items()
        }

    def seconds_left(self, elapsed: float) -> float | None:
        """The time left, if runs go on to be done as fast as in this time; nothing if none was done."""
        costs = self.costs()
        done = sum(costs[setting] * count for setting, count in self.done.items())
        left = sum(costs[setting] * count for setting, count in self.left.items())
        return elapsed * left / done if done else None
