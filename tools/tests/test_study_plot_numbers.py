"""What plots draw: the numbers of the page, limits of the goal, times at their places, and tails. All by hand."""

from math import inf
from pathlib import Path
from typing import Any
from unittest import TestCase

from chordsim_tools.known import known
from chordsim_tools.study.columns import Column, SpanColumn
from chordsim_tools.study.distribution import tail_points
from chordsim_tools.study.front import BELOW, ON, UNSURE, Plane, spots_of
from chordsim_tools.study.limits import limits_of, span_limits, span_numbers, time_limits
from chordsim_tools.study.lines import never_told, point_of, same_limits
from chordsim_tools.study.numbers import groups, summaries
from chordsim_tools.study.overtime import MEMBERS, RIGHT, Lines, quantity_points, right_of, row_limits
from chordsim_tools.study.survival import Times
from tests.support.studies import row, tables_of

EXAMPLES = Path(__file__).resolve().parents[2] / "examples"
MOST_BYTES = 1_500_000
"""A plot of a published study is smaller."""
MANIFEST = {"nodes": 9, "window_us": 1_000_000, "cooldown_us": 1_000_000, "warmup_us": 0}


def limit(number: str, value: float) -> dict[str, Any]:
    """A limit as a manifest has it."""
    return {"number": number, "is_least": False, "value": value}


class Axes:
    """The scale of a plot."""

    def __init__(self, limits: tuple[float, float]) -> None:
        """A plot with these ends of its axis."""
        self.limits = limits

    def get_ylim(self) -> tuple[float, float]:
        """The ends."""
        return self.limits

    def set_ylim(self, low: float, high: float) -> None:
        """Other ends."""
        self.limits = low, high

    def get_yscale(self) -> str:
        """It is no logarithmic one."""
        return "linear"


def step(at: int, seed: int, **counts: int) -> dict[str, str]:
    """A line of series.csv, of a step of a second."""
    cells = {word.replace("_", "-"): str(number) for word, number in counts.items()}
    return {"from_us": str(at * 1_000_000), "seed": str(seed)} | cells


class PlotNumbersTest(TestCase):
    """Points and lines."""

    def test_times_are_those_of_the_page(self) -> None:
        """p99 of all lookups: none with fewer than 1,000, and a setting with a run that never gets there has none."""
        times = (2_000_000, 4_000_000, "never")
        rows = [row(list=1, seed=seed, **{"all-us-p99": time}) for seed, time in enumerate(times, start=1)]
        rows.append(row(list=1, seed=4, **{"judged-lookups": 999}))
        column = Column("all-us-p99", tables_of(rows, vary={"list": [1]}))
        assert [column.of(cells) for cells in rows] == [2e6, 4e6, inf, None] and column.values(rows) == [2e6, 4e6]
        assert point_of(column, rows, 1e-3) is None
        assert never_told([column], {("1",): rows}) == "; no point: some seed never gets there"
        assert not never_told([column], {("1",): rows[:2]})
        found = point_of(column, rows[:2], 1e-3)
        assert found is not None and (found.mean, found.told) == (3000.0, "2 of 2")
        assert column.scale(4e6) == (1e-3, "lookup time, p99, ms")

    def test_how_many_seeds_a_hollow_point_has(self) -> None:
        """Of three, one of which lost its ring."""
        rows = [row(list=1, seed=seed, **{"lost-at-us": 5 if seed == 3 else ""}) for seed in (1, 2, 3)]
        found = point_of(Column("right-of-begun", tables_of(rows, vary={"list": [1]})), rows, 100)
        assert found is not None and found.is_hollow and found.told == "2 of 3"

    def test_limits(self) -> None:
        """In the unit of the column; those of spans are of no column."""
        goal = {"limits": [limit("right_of_begun", 0.9), limit("p99_ms", 800.0), limit("outage.p99_ms", 3000.0)],
                "lost_max": None, "least": "messages"}
        manifest = {"goal": goal}
        assert limits_of(manifest, "right-of-begun") == [0.9] and limits_of(manifest, "all-us-p99") == [800_000.0]
        assert not limits_of(manifest, "all-us-p50") and not limits_of({"goal": None}, "all-us-p99")
        assert time_limits(manifest) == [(0.99, 800_000.0)] and not limits_of(manifest, "")

    def test_limits_of_spans(self) -> None:
        """In the plots of the span's numbers and, of what is drawn over time, over the time of the span."""
        goal = {"limits": [limit("right_of_begun", 0.9), limit("outage.right_of_begun", 0.8),
                           limit("outage.p99_ms", 3000.0), limit("outage.p99_ms", 2000.0)],
                "lost_max": None, "least": "messages"}
        manifest = {"goal": goal, "spans": {"outage": [5_000_000, 7_000_000]}}
        assert span_numbers(manifest) == ["outage.right_of_begun", "outage.p99_ms"]
        assert limits_of(manifest, "outage.p99_ms") == [3000.0, 2000.0]
        assert span_limits(manifest, "right-of-begun") == [(5_000_000, 7_000_000, 0.8)]
        assert not span_limits(manifest, "served") and not span_limits({"goal": None}, "served")

    def test_numbers_of_spans(self) -> None:
        """The page's own, with its intervals: p99 in ms, and served of all seeds by betting."""
        cells = {
            "outage.judged-lookups": 1000, "outage.wanted": 100, "outage.judged-found": 90, "outage.judged-lost": 0,
            "outage.right-defensible": 88, "outage.member-us": 9, "outage.up-us": 10,
        }
        rows = [
            row(list=1, seed=seed, **cells, **{"lost-at-us": 5 if seed == 6 else ""},
                **{"outage.right": 80 + seed, "outage.all-us-p99": 1_000_000 * seed}) for seed in range(1, 7)
        ]
        tables = tables_of(rows, vary={"list": [1]}, spans={"outage": [0, 1]})
        [one] = summaries(tables)
        for number, scale, words in (("p99_ms", 1.0, "p99 in outage, ms"), ("served", 100.0, "served in outage, %"),
                                     ("right_of_begun", 100.0, "right of begun in outage, %")):
            column = SpanColumn(f"outage.{number}", tables)
            found, ends = point_of(column, rows, scale), known(one.numbers[f"outage.{number}"].ends())
            assert found is not None and column.scale(3000.0) == (scale, words), column.scale(3000.0)
            drawn = (found.mean - found.below, found.mean + found.above)
            assert all(abs(a - scale * b) < 1e-9 for a, b in zip(drawn, ends, strict=True)), (number, drawn, ends)

    def test_bars_are_those_of_the_page(self) -> None:
        """Served has bars by betting, also if a ring was lost; a share of 100 % in all seeds has one too."""
        for lost_at, right in (("", 940), ("", 900), (5, 900)):
            rows = [row(list=1, seed=seed, right=right - seed * (right < 940),
                        **{"judged-found": 940, "judged-lost": 0, "lost-at-us": lost_at if seed == 1 else ""})
                    for seed in range(1, 9)]
            tables = tables_of(rows, vary={"list": [1]})
            [one] = summaries(tables)
            for name, number in (("served", "served"), ("right-of-begun", "right_of_begun")):
                found, ends = point_of(Column(name, tables), rows, 100), known(one.numbers[number].ends())
                assert found is not None and found.below + found.above > 0, (name, right)
                drawn = (found.mean - found.below, found.mean + found.above)
                assert all(abs(a - 100 * b) < 1e-9 for a, b in zip(drawn, ends, strict=True)), (name, drawn, ends)

    def test_estimated_cost(self) -> None:
        """The label has the bound of the estimate, and a setting is dominated only by more than that."""
        for counted, label in ((1, ""), (0, "\n(estimated, to within 3 %)")):
            rows = [row(list=size, seed=seed, messages=6000 - 300 * size + seed, right=800 + 20 * size + seed,
                        **{"messages-counted": counted}) for size in (0, 1) for seed in range(6)]
            tables = tables_of(rows, vary={"list": [0, 1]})
            plane = Plane(Column("cost", tables), Column("right-of-begun", tables))
            assert plane.cost.scale(0) == (1, f"messages per member and second{label}")
            states = [spot.state for spot in spots_of(plane, [("0",), ("1",)], groups(rows, ["list"]))]
            # 300 of 6,000 messages are 5 %, and both estimates may be off by 3 %.
            assert states == [BELOW if counted else UNSURE, ON], states

    def test_axes_end_at_100_percent(self) -> None:
        """Those of shares, and over time those of shares too; members and times go on."""
        share, time = (Column(name, tables_of([row(list=1, seed=1)])) for name in ("right-of-begun", "all-us-p99"))
        for column, wanted in ((share, (97.0, 100)), (time, (0, 104.0 * 1.04))):
            axes = Axes((97.0, 104.0))
            same_limits([axes], column, [])
            assert axes.get_ylim() == wanted, axes.get_ylim()
        for most, high in ((100.0, 100.0), (9.0, 104.0)):
            axes = Axes((97.0, 104.0))
            row_limits([axes], most)
            assert axes.get_ylim()[1] == high

    def test_members_at_the_end_of_a_step(self) -> None:
        """What is counted when a step ends is drawn there, and what begins in it where it begins."""
        counts = {"right_of_ended": 8, "ended": 9, "wanted": 16}
        lines = [step(at, seed, members=9 - at, **counts) for at in range(4) for seed in (1, 2, 3)]
        both = Lines(lines, lines)
        members = quantity_points(both, MEMBERS, MANIFEST)
        assert [(point[0], point[1]) for point in members] == [(1, 9), (2, 8), (3, 7), (4, 6)]
        served, right = (quantity_points(both, quantity, MANIFEST) for quantity in RIGHT[:2])
        assert [(point[0], point[1]) for point in served] == [(0, 50), (1, 50), (2, 50)]
        assert [round(point[1], 6) for point in right] == [88.888889] * 3

    def test_rings_lost_over_time(self) -> None:
        """Right of begun is of the rings kept. Served is of all seeds, without a band over both kinds of rings. If all
        rings were kept its band is from the least to the greatest seed."""
        lines = [step(0, seed, right_of_ended=seed, ended=10, wanted=20) for seed in range(1, 8)]
        lines.append(step(1, 1, right_of_ended=0, ended=10, wanted=20))
        mixed = Lines(lines, lines[:5])
        (_, mean, low, high, count), *_ = quantity_points(mixed, RIGHT[0], MANIFEST | {"cooldown_us": 0})
        assert (mean, low, high, count) == (20, 20, 20, 7)
        (_, mean, low, high, count), *_ = quantity_points(Lines(lines, lines), RIGHT[0], MANIFEST | {"cooldown_us": 0})
        assert (mean, low, high, count) == (20, 5, 35, 7)
        [(_, mean, low, high, count)] = quantity_points(mixed, RIGHT[1], MANIFEST | {"cooldown_us": 0})
        assert (mean, count) == (30, 5) and low < 30 < high

    def test_older_series(self) -> None:
        """They have right answers of those found alone, and the label says so."""
        title, quantities = right_of([{"found": "4", "right": "3", "members": "2"}])
        assert title == "Right answers and members over time"
        assert [one.label for one in quantities] == ["right answers,\n% of all found", "members"]
        assert quantities[0].take({"found": "4", "right": "3"}) == 75.0
        assert quantities[0].take({"found": "0", "right": "0"}) is None

    def test_tail(self) -> None:
        """Of 1,000 lookups that took 1 to 999 us, and one that was given up: up to p99, as ten have to be beyond."""
        times = Times()
        times.ended, times.lost = list(range(1, 1000)), 1
        assert times.tail()[-3:] == [(95, 950), (98, 980), (99, 990)]
        times.lost = 31
        assert dict(times.tail())[95] == 979 and 98 not in dict(times.tail())

    def test_tail_of_a_setting(self) -> None:
        """Means over the seeds; a percentile that one seed does not reach ends the line."""
        lines = [{"percent": percent, "us": str(us + 10 * seed), "seed": str(seed)} for seed in range(5)
                 for percent, us in (("50", 100), ("99", 200), ("99.9", 900)) if seed or percent != "99.9"]
        points = tail_points(lines)
        assert [(round(point[0], 6), point[1]) for point in points] == [(50, 120), (1, 220)]
        assert points[0][2] < 120 < points[0][3]

    def test_sizes_of_the_published_plots(self) -> None:
        """So that a clone stays small: each plot is kept once, as the picture that its page shows."""
        plots = list(EXAMPLES.glob("*/*.png"))
        assert len(plots) >= 20 and not [path for path in plots if path.stat().st_size > MOST_BYTES]
        assert not list(EXAMPLES.glob("**/*.svg"))
