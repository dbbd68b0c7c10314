"""Settings compared seed by seed, by hand and by many random studies."""

import csv
import io
import tempfile
from contextlib import redirect_stdout
from pathlib import Path
from random import Random
from typing import Any
from unittest import TestCase

from chordsim_tools.cli import Refused
from chordsim_tools.study.answer import chosen
from chordsim_tools.study.compare import Pair, guarded_level
from chordsim_tools.study.comparison import named, text_of, write_comparison
from chordsim_tools.study.numbers import Summary, summaries
from tests.support.programs import program
from tests.support.studies import row, tables_of
from tests.test_study_run import STUDY, call, study_folder


def settings(*lists: list[dict[str, Any]]) -> list[Summary]:
    """Settings list=1, list=2 and so on, each with the cells of its seeds."""
    rows = [
        row(**{"list": number, "seed": seed, **cells})
        for number, seeds in enumerate(lists, start=1) for seed, cells in enumerate(seeds, start=1)
    ]
    return summaries(tables_of(rows, vary={"list": list(range(1, len(lists) + 1))}))


def rights(*values: int) -> list[dict[str, Any]]:
    """Seeds with so many right answers of 1,000 wanted."""
    return [{"right": value} for value in values]


class StudyCompareTest(TestCase):
    """Pairs, the choice of the best, and the command."""

    def test_paired_difference(self) -> None:
        """1 to 5 more of 950 in five seeds that differ by far more: 3 / 950, half 1.9632 / 950 by Student's t."""
        first, second = settings(rights(901, 802, 703, 604, 505), rights(900, 800, 700, 600, 500))
        pair = Pair(first, second)
        found = pair.difference("right_of_begun")
        assert abs((found.mean or 0) - 3 / 950) < 1e-9 and abs((found.half or 0) - 1.9632 / 950) < 1e-6
        assert pair.is_apart("right_of_begun") and found.told(100) == "0.32 ± 0.21"
        lines = text_of(pair).splitlines()
        assert "  right of begun  0.32 ± 0.21 points" in lines
        assert "  messages        0 /member/s  equal in all seeds" in lines
        assert not Pair(first, second, guarded_level(30)).is_apart("right_of_begun")

    def test_served_holds_for_any_law(self) -> None:
        """1 to 5 more of 1,000 in five seeds: 0.3 points, but a world with 57 less may not have been run.

        The exact sign test tells ten seeds of one sign apart, 2 / 2 ** 10 = 0.00195, and no five of them."""
        first, second = settings(rights(901, 802, 703, 604, 505), rights(900, 800, 700, 600, 500))
        pair = Pair(first, second)
        assert pair.difference("served").told(100) == "0.3 (-57.5..57.8)" and pair.more_and_less("served") == (5, 0)
        assert pair.verdict("served") == "not told apart"
        assert "  served          0.3 (-57.5..57.8) points  A more in 5, less in 0  not told apart" in text_of(pair)
        first, second = settings(rights(*range(901, 911)), rights(*range(900, 910)))
        assert Pair(first, second, 0.998).verdict("served") == "" != Pair(first, second, 0.9981).verdict("served")

    def test_no_interval_is_no_likeness(self) -> None:
        """Four pairs say nothing of a mean, and neither do differences that four of six seeds do not have."""
        first, second = settings(rights(901, 802, 703, 604), rights(900, 800, 700, 600))
        assert Pair(first, second).verdict("right_of_begun") == Pair(first, second).verdict("served") == "no interval"
        cells = [{"messages": 6000}] * 4
        first, second = settings([*cells, {"messages": 6100}, {"messages": 6200}], [*cells, *cells[:2]])
        assert Pair(first, second).verdict("messages") == "no interval"

    def test_seeds_with_a_dead_ring(self) -> None:
        """One that only A lost is in that of served alone; McNemar says whether the rings lost tell them apart."""
        dead = {"right": 0, "ringless": 1, "lost-at-us": 5}
        first, second = settings([*rights(901, 802, 703, 604, 505), dead], rights(900, 800, 700, 600, 500, 400))
        pair = Pair(first, second)
        assert pair.lost() == (1, 0)
        found, kept = pair.difference("served"), pair.difference("right_of_begun")
        assert (found.count, found.of) == (6, 6) and abs((found.mean or 0) - (0.015 - 0.4) / 6) < 1e-9
        assert (kept.count, kept.of) == (5, 6) and abs((kept.mean or 0) - 3 / 950) < 1e-9
        all_dead, alive = settings([dead] * 6, rights(*[900] * 6))
        assert Pair(all_dead, alive).difference("served").mean == -0.9 and Pair(all_dead, alive).is_apart("messages")
        assert Pair(all_dead, alive).difference("messages").mean is None
        # Served is over all six seeds, in none of which both kept their rings.
        assert "  served          -90 (-95.2.." in text_of(Pair(all_dead, alive))
        assert "\nServed is over all seeds, all other numbers over those in which both" in text_of(pair)

    def test_equal_runs(self) -> None:
        """Rows that are equal but for the setting: said so, with what ten such seeds bound."""
        first, second = settings(rights(*range(900, 910)), rights(*range(900, 910)))
        assert "the same run in 10 of 10 seeds: at most 26 % of runs differ (95%)" in text_of(Pair(first, second))
        # One of ten differs: at most 39.4 %, since 0.606 ** 10 + 10 * 0.394 * 0.606 ** 9 = 0.05.
        first, second = settings(rights(*range(900, 910)), rights(*range(900, 909), 1))
        assert "the same run in 9 of 10 seeds: at most 40 % of runs differ (95%)" in text_of(Pair(first, second))

    def test_equal_runs_of_two_lists(self) -> None:
        """What repeats the setting in a row, and the bytes that follow from it, make no other run."""
        lists = [[{"scenario-list": size, "bytes": 40 * size, "right": 900} for _ in range(5)] for size in (3, 6)]
        first, second = settings(*lists)
        assert Pair(first, second).equal() == 5
        first, second = settings(lists[0], [{**cells, "right": 901} for cells in lists[1]])
        assert Pair(first, second).equal() == 0

    def test_equal_but_for_a_lost_ring(self) -> None:
        """Nothing is called equal without the seed that was left out: served has the mean of all."""
        dead = {"right": 140, "ringless": 1, "lost-at-us": 5}
        first, second = settings([*rights(*range(900, 909)), dead], rights(*range(900, 910)))
        text = text_of(Pair(first, second))
        assert "  served          -7.69 (" in text and "at most 40 % of runs differ (95%)" in text
        assert "  messages        0 (9 of 10) /member/s  equal in the 9 seeds in which both kept their rings\n" in text
        assert "equal in all seeds" not in text

    def test_best_of_equal_settings(self) -> None:
        """Thirty settings of one law: in at most one study of twenty one is apart from all others, or just from one."""
        draws = Random(7)
        apart = alone = 0
        for _ in range(100):
            found = settings(*(rights(*(900 + round(draws.gauss(0, 20)) for _ in range(5))) for _ in range(12)))
            best = chosen(found, None)
            assert best is not None
            pairs = [Pair(one, best, guarded_level(12)) for one in found if one is not best]
            told = [pair.is_apart("right_of_begun") for pair in pairs]
            apart += any(told)
            alone += all(told)
        assert apart <= 5 and alone == 0, (apart, alone)

    def test_names_of_settings(self) -> None:
        """By label or number."""
        found = settings(rights(1), rights(2))
        assert named(found, "list=2") is named(found, "2") is found[1]
        try:
            named(found, "list=3")
        except Refused as stop:
            assert "1: list=1; 2: list=2" in stop.text
        else:
            raise AssertionError("a setting that is not there")

    def test_command(self) -> None:
        """It prints and writes the same differences."""
        chordsim = program()
        study = STUDY.replace("seeds = [1, 2]", "seeds = 5").replace("list = [1, 2]", "list = [4, 2]")
        with study_folder(study) as folder:
            assert call(folder, chordsim=chordsim) == (0, "")
            out = io.StringIO()
            with redirect_stdout(out):
                write_comparison(folder / "study", "list=4", "2")
            lines = list(csv.DictReader((folder / "study" / "compare.csv").read_text().splitlines()))
            assert [line["number"] for line in lines][:2] == ["served", "right_of_begun"]
            assert {(line["A"], line["B"], line["of"]) for line in lines} == {("list=4", "list=2", "5")}
            assert "A: list=4\nB: list=2\n" in out.getvalue()

    def test_precision_runs_more_seeds(self) -> None:
        """From five on, a fifth more and at least two: seven, nine and so on; the same study stops at the same seed."""
        chordsim = program()
        precise = (
            'question = "How?"\nbase = "base.toml"\n[vary]\nlist = [8]\n'
            "[precision]\nmessages = 0.00001\nleast_seeds = 5\nmost_seeds = 8\n"
        )
        with study_folder(precise) as folder, tempfile.TemporaryDirectory() as other:
            assert call(folder, chordsim=chordsim) == (0, "")
            assert call(folder, "-o", other, "--jobs", "2", chordsim=chordsim) == (0, "")
            names = ("runs.csv", "manifest.json")
            assert all((folder / "study" / name).read_bytes() == (Path(other) / name).read_bytes() for name in names)
            assert (folder / "study" / "runs.csv").read_text().count("\n") == 9
            (folder / "study.toml").write_text(precise.replace("0.00001", "50"))
            assert call(folder, chordsim=chordsim) == (0, "")
            assert (folder / "study" / "runs.csv").read_text().count("\n") == 6
