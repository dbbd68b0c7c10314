"""Intervals, exact and by Student's t, and summaries, by hand or from the literature."""

from math import gamma, inf, pi, sqrt
from random import Random
from unittest import TestCase

from chordsim_tools.cli import Refused
from chordsim_tools.study.exact import count_interval, mcnemar, share_interval, student
from chordsim_tools.study.interval import Interval, interval
from chordsim_tools.study.numbers import summaries
from chordsim_tools.study.tables import Tables
from tests.support.studies import row, tables_of


def middle(limit: float, degrees: int) -> float:
    """How much of Student's t lies within -limit to limit, by Simpson's rule."""
    factor = gamma((degrees + 1) / 2) / (sqrt(degrees * pi) * gamma(degrees / 2))
    steps = 2000
    width = 2 * limit / steps
    total = 0.0
    for step in range(steps + 1):
        at = -limit + step * width
        weight = 1 if step in (0, steps) else 4 if step % 2 else 2
        total += weight * (1 + at * at / degrees) ** (-(degrees + 1) / 2)
    return factor * total * width / 3


def tables() -> Tables:
    """Lists of 2 keep all five rings, lists of 1 lose that of the last seed and of seed 4."""
    kept = [{"list": 2, "seed": seed, "right": 900 + seed} for seed in range(1, 6)]
    lost = [{"list": 1, "seed": seed, "right": 900 + seed} for seed in range(1, 4)]
    dead = [{"list": 1, "seed": seed, "ringless": 3, "right": 0, "lost-at-us": 60_000_000} for seed in (4, 5)]
    return tables_of([row(**one) for one in (*kept, *lost, *dead)], vary={"list": [2, 1]})


class StudyNumbersTest(TestCase):
    """Intervals and the numbers of a page."""

    def test_student(self) -> None:
        """Within each limit lie 95%; and the limits of the tables, also for many settings at once."""
        for degrees in (*range(1, 31), 40, 60, 120):
            assert abs(middle(student(degrees), degrees) - 0.95) < 2e-4, degrees
        for degrees, pairs, limit in ((9, 1, 2.262), (9, 12, 3.808), (9, 30, 4.422), (2, 12, 15.44), (2, 30, 24.46)):
            assert abs(student(degrees, 1 - 0.05 / pairs) - limit) < 0.01, (degrees, pairs)

    def test_shares(self) -> None:
        """The intervals of Clopper and Pearson, in percent."""
        for seen, count, low, high in (
            (0, 10, 0, 30.8), (1, 10, 0.3, 44.5), (10, 10, 69.2, 100), (0, 3, 0, 70.8), (2, 60, 0.4, 11.5),
            (0, 59, 0, 6.1),
        ):
            found = share_interval(seen, count)
            assert [round(100 * bound, 1) for bound in found] == [low, high], (seen, count, found)

    def test_rates(self) -> None:
        """The intervals of Garwood for 0, 2 and 3 in three hours."""
        for seen, low, high in ((0, 0, 1.2), (2, 0.1, 2.4), (3, 0.2, 2.9)):
            assert [round(bound / 3, 1) for bound in count_interval(seen)] == [low, high], seen

    def test_mcnemar(self) -> None:
        """Two against none: 0.5; six against none: one in 32; one against one, and none at all: 1."""
        assert [mcnemar(2, 0), mcnemar(0, 6), mcnemar(1, 1), mcnemar(0, 0)] == [0.5, 1 / 32, 1, 1]

    def test_mcnemar_of_many_pairs(self) -> None:
        """Of 1,030 pairs none, or one, against all others: 2 and 2 * 1,031 in 2 ** 1030; of 3,000 it is nearly 0."""
        assert mcnemar(0, 1030) == 2.0**-1029 and mcnemar(1029, 1) == 1031 * 2.0**-1029
        assert mcnemar(600, 600) == 1 and mcnemar(3000, 0) == 0

    def test_interval(self) -> None:
        """1 to 5: mean 3, standard deviation 1.5811, half 2.776 times this by the root of 5."""
        found = interval([1, 3, 2, 5, 4])
        assert found.mean == 3 and abs((found.half or 0) - 1.9632) < 1e-3
        assert interval([1, 3, 2, 5]).half is None and interval([None]).mean is None
        assert interval([1, inf]).mean == inf

    def test_told(self) -> None:
        """Two digits of the half; the number of seeds if some are missing."""
        for one, wanted in (
            (Interval(4478, 212, 10, 10), "4480 ± 210"),
            (Interval(0.01234, 0.00051, 10, 10), "0.01234 ± 0.00051"),
            (Interval(19.96, 0.996, 10, 10), "19.96 ± 1.00"),
            (Interval(98.5, 3.0, 9, 10), "98.5 ± 3.0 (9 of 10)"),
            (Interval(35.06, None, 3, 3), "35.06"),
            (Interval(None, None, 0, 3), "-"),
            (Interval(inf, None, 3, 3), "never"),
        ):
            assert one.told() == wanted, one.told()

    def test_missing_seed_is_told(self) -> None:
        """Of three seeds one has no number, since its ring was dead."""
        assert interval([0.9978, 0.9998, None]).told(100) == "99.88 (2 of 3)"

    def test_rings_lost_are_in_no_mean_but_served(self) -> None:
        """Lists of 1 keep three of five rings: right of begun is that of these; served has the dead ones as 0."""
        two, one = summaries(tables())
        assert (two.kept, two.seeds, one.kept, one.seeds) == (5, 5, 3, 5)
        assert (two.numbers["right_of_begun"].count, one.numbers["right_of_begun"].count) == (5, 3)
        assert abs((one.numbers["right_of_begun"].mean or 0) - 902 / 950) < 1e-9
        assert abs((two.numbers["served"].mean or 0) - 0.903) < 1e-9
        assert abs((one.numbers["served"].mean or 0) - 0.902 * 3 / 5) < 1e-9
        # Solved by hand for the mean at which the bets of the five seeds have become 40, and for its mirror image.
        assert two.numbers["served"].told(100) == "90.3 (38.2..95.9)"
        assert one.numbers["served"].told(100) == "54.12 (5.59..89.4)"
        assert one.numbers["right_of_begun"].told(100) == "94.95 (3 of 5)"
        assert one.kept_told() == "3 of 5 (15..95 %)"

    def test_rate_of_losses(self) -> None:
        """Five rings of 100 s live 500 s; three and two of 60 s live 420 s. None lost: an upper bound, never 0."""
        two, one = summaries(tables())
        assert abs(two.hours - 500 / 3600) < 1e-9 and abs(one.hours - 420 / 3600) < 1e-9
        assert two.rate_told() == "below 27" and one.rate_told() == "17 (2.1..62)"

    def test_cost_is_by_member(self) -> None:
        """Half as many members with half as many messages cost the same."""
        whole, half = (
            summaries(tables_of([row(seed=1, messages=count, **{"cost-member-us": time})]))[0].numbers["messages"].mean
            for count, time in ((8000, 1_000_000_000), (4000, 500_000_000))
        )
        assert whole == half == 8

    def test_p99_of_few_lookups(self) -> None:
        """Below 1,000 lookups a run has none; one that is never reached is infinite."""
        few = summaries(tables_of([row(seed=1, **{"judged-lookups": 999})]))[0]
        never = summaries(tables_of([row(seed=1, **{"all-us-p99": "never"}), row(seed=2)]))[0]
        assert few.numbers["p99_ms"].told() == "-" and few.numbers["p50_ms"].told() == "500"
        assert never.numbers["p99_ms"].told() == "never"

    def test_coverage_with_one_ring_in_sixty_lost(self) -> None:
        """59 rings of some 98% and a dead one, ten drawn again and again: both figures hold what they should."""
        draws = Random(3)
        kept_values = [0.98 + draws.gauss(0, 0.002) for _ in range(59)]
        truth = sum(kept_values) / 59
        shares = [share_interval(kept, 10) for kept in range(11)]
        rings = means = 0
        for _ in range(10_000):
            drawn = [draws.choice((*kept_values, None)) for _ in range(10)]
            found = interval(drawn)
            rings += shares[found.count][0] <= 59 / 60 <= shares[found.count][1]
            means += found.half is not None and abs((found.mean or 0) - truth) <= found.half
        assert rings >= 9300 and means >= 9300, (rings, means)

    def test_older_tables(self) -> None:
        """Tables without the columns are refused."""
        try:
            summaries(tables_of([{"seed": "1", "ringless": "0"}]))
        except Refused as stop:
            assert "older" in stop.text
        else:
            raise AssertionError("old tables")
