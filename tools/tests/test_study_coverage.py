"""How often printed intervals and bounds hold the truth: 500 draws of seeds from a fixed population of worlds.

The population is made by a formula. A few worlds lose their rings, some keep half of their members, and nearly none has
a lookup that was given up: the cases in which an interval can miss."""

import math
from collections import Counter
from random import Random
from typing import Any
from unittest import TestCase

from chordsim_tools.study.bounds import bound_of, loss_bounds
from chordsim_tools.study.compare import Pair, guarded_level
from chordsim_tools.study.exact import count_interval, share_interval
from chordsim_tools.study.interval import Interval
from chordsim_tools.study.numbers import TAKES, Summary, mean_of
from tests.support.studies import row

WORLDS, DRAWS, SEEDS = 300, 500, 10
KEEPS = (0.94, 0.98, 1.0)
"""The chance that a ring is kept, by setting."""
NUMBERS = ("served", "members", "given_up", "right_of_begun", "p99_ms", "messages")
BY_STUDENT = ("right_of_begun", "p99_ms", "messages")
LEAST, MOST = 0.93 * DRAWS, 0.99 * DRAWS
Rows = list[dict[str, str]]


def world(draws: Random, setting: int, common: float, luck: float) -> dict[str, Any]:
    """The cells of a world in a setting. What is common makes all settings better or worse in it."""
    right = 9700 - 60 * setting + round(40 * common + 30 * draws.gauss(0, 1))
    is_half = draws.random() < 0.03
    members = 0.6 if is_half else 1 - min(0.3, 0.02 * math.exp(0.8 * draws.gauss(0, 1)))
    served = members * right / 10_000
    cells: dict[str, Any] = {}
    if luck > KEEPS[setting]:
        served = draws.uniform(0.2, 0.8)
        cells = {"ringless": 3, "lost-at-us": 40_000_000}
    lost = 20 if draws.random() < 0.02 else 0
    return cells | {
        "list": setting, "judged-found": 10_000 - lost, "judged-lost": lost, "right": right, "right-defensible": right,
        "wanted": round(right / served), "up-us": 10**9, "member-us": round(10**9 * members),
        "messages": 5000 + 100 * setting + round(80 * common + 50 * draws.gauss(0, 1)), "judged-lookups": 10_000,
        "all-us-p99": round(2e6 * math.exp(0.06 * common + 0.04 * draws.gauss(0, 1))),
    }


def population() -> list[Rows]:
    """All worlds of each setting."""
    draws = Random(20)
    found: list[Rows] = [[] for _ in KEEPS]
    for number in range(WORLDS):
        common, luck = draws.gauss(0, 1), draws.random()
        for setting, rows in enumerate(found):
            rows.append(row(**world(draws, setting, common, luck), seed=number))
    return found


def of_rows(rows: Rows, numbers: tuple[str, ...] = ()) -> Summary:
    """The setting of these rows with some of its numbers. Seeds count the rows, since a world may come twice."""
    hours = sum(int(one["lost-at-us"] or one["duration-us"]) for one in rows) / 3.6e9
    found = Summary("", (rows[0]["list"],), rows, {}, hours, {str(seed): one for seed, one in enumerate(rows)})
    found.numbers = {number: found.of(TAKES[number], number) for number in numbers}
    if "served" in numbers:
        found.numbers["served"] = mean_of("served", list(map(TAKES["served"], rows)))
    return found


def holds(found: Interval, truth: float | None) -> bool:
    """Whether an interval holds the truth."""
    ends = found.ends()
    return ends is not None and truth is not None and ends[0] - 1e-12 <= truth <= ends[1] + 1e-12


class StudyCoverageTest(TestCase):
    """Of 500 draws 465 to 495 have to hold for Student's intervals, and 465 or more for those that promise more."""

    def setUp(self) -> None:
        """The worlds, and the truth of each setting."""
        self.worlds = population()
        self.truth = [of_rows(rows, NUMBERS) for rows in self.worlds]
        self.draws = Random(4)

    def drawn(self, *numbers: str, settings: int = 1) -> list[Summary]:
        """A study of ten seeds, the same ones in all settings, with some numbers."""
        places = [self.draws.randrange(WORLDS) for _ in range(SEEDS)]
        return [of_rows([rows[place] for place in places], numbers) for rows in self.worlds[:settings]]

    def check(self, counts: Counter[str], most: float = DRAWS) -> None:
        """Asserts that each kind holds often enough, and not always if it promises no more."""
        assert counts and all(LEAST <= count <= most for count in counts.values()), counts

    def test_students_intervals(self) -> None:
        """Means of right of begun, p99 and messages, and their differences seed by seed."""
        counts: Counter[str] = Counter()
        pair = Pair(self.truth[0], self.truth[1])
        for _ in range(DRAWS):
            first, second = self.drawn(*BY_STUDENT, settings=2)
            for number in BY_STUDENT:
                counts[number] += holds(first.numbers[number], self.truth[0].numbers[number].mean)
                counts[f"{number} less"] += holds(Pair(first, second).difference(number), pair.difference(number).mean)
        self.check(counts, MOST)

    def test_intervals_that_hold_for_any_law(self) -> None:
        """Served, members and given up; the rings kept and lost, exactly."""
        counts: Counter[str] = Counter()
        truth = self.truth[0]
        share, rate = truth.kept / truth.seeds, (truth.seeds - truth.kept) / truth.hours
        for _ in range(DRAWS):
            [found] = self.drawn("served", "members", "given_up")
            for number in ("served", "members", "given_up"):
                counts[number] += holds(found.numbers[number], truth.numbers[number].mean)
            low, high = share_interval(found.kept, found.seeds)
            counts["rings kept"] += low <= share <= high
            low, high = (bound / found.hours for bound in count_interval(found.seeds - found.kept))
            counts["rings lost"] += low <= rate <= high
        self.check(counts)

    def test_families(self) -> None:
        """All differences of three settings together; served too, though two of them lose rings."""
        counts: Counter[str] = Counter()
        pairs = [(0, 1), (0, 2), (1, 2)]
        level = guarded_level(len(KEEPS))
        numbers = ("messages", "right_of_begun", "served")
        truths = {
            number: [Pair(self.truth[a], self.truth[b]).difference(number).mean for a, b in pairs] for number in numbers
        }
        for _ in range(DRAWS):
            found = self.drawn(settings=len(KEEPS))
            for number in numbers:
                each = (Pair(found[a], found[b], level).difference(number) for a, b in pairs)
                counts[number] += all(map(holds, each, truths[number]))
        self.check(counts)

    def test_bounds_that_decide_at_each_look(self) -> None:
        """Looks at 10, 20, 30 and 40 seeds of one study: all bounds hold at all of them."""
        counts: Counter[str] = Counter()
        truth = self.truth[0]
        goal = {"right_of_begun": -1, "p99_ms": 1, "messages": 1, "served": -1}
        for _ in range(DRAWS):
            places = [self.draws.randrange(WORLDS) for _ in range(40)]
            rows = [self.worlds[0][place] for place in places]
            looks = [of_rows(rows[:seeds], tuple(goal)) for seeds in (10, 20, 30, 40)]
            for number, sign in goal.items():
                mean = truth.numbers[number].mean or 0.0
                counts[number] += all(sign * (bound_of(one, number, 0.95, sign) - mean) >= 0 for one in looks)
            rate = (truth.seeds - truth.kept) / truth.hours
            counts["rings lost"] += all(loss_bounds(one, 0.95)[1] >= rate for one in looks)
        self.check(counts)

    def test_what_would_not_hold(self) -> None:
        """Student's interval of served misses by far in samples that lost no ring: the test can fail."""
        misses = count = 0
        truth = self.truth[0].numbers["served"].mean or 0.0
        for _ in range(DRAWS):
            [found] = self.drawn("served")
            if found.kept == found.seeds:
                count += 1
                served = found.numbers["served"]
                misses += abs((served.mean or 0.0) - truth) > 2.262 * served.error
        assert count > DRAWS / 3 and misses > count / 4, (misses, count)
