"""Goals: how limits are read, and which setting is the nearest to one."""

from unittest import TestCase

from chordsim_tools.study.answer import nearest_of
from chordsim_tools.study.goal import Goal, Limit
from chordsim_tools.study.numbers import summaries
from tests.support.studies import row, tables_of
from tests.test_study_plan import HEAD, SEEDS, in_folder

GOAL = HEAD + SEEDS + "[goal]\n"


class StudyGoalTest(TestCase):
    """Limits."""

    def test_times(self) -> None:
        """Numbers are milliseconds; times with a unit are understood."""
        for value in ("800", "800.0", "'800ms'", "'0.8s'"):
            assert in_folder(GOAL + f"p99_ms_max = {value}\n").goal.limits == (Limit("p99_ms", False, 800.0),)
        for value in ("'800'", "'fast'", "true", "[1]"):
            wanted = "[goal] p99_ms_max has to be a number of milliseconds, or a time such as \"800ms\""
            assert wanted in in_folder(GOAL + f"p99_ms_max = {value}\n")

    def test_numbers_that_are_none(self) -> None:
        """TOML has floats that are no numbers, or without an end: no limit is one."""
        span = HEAD + SEEDS + '[span.a]\nfrom = "0us"\nto = "9us"\n[span.a.goal]\n'
        for text, wanted in (
            (GOAL + "served_min = {}", "[goal] served_min has to be a number, not {}"),
            (GOAL + "messages_max = {}", "[goal] messages_max has to be a number, not {}"),
            (GOAL + "p99_ms_max = {}", "[goal] p99_ms_max has to be a number of milliseconds"),
            (GOAL + "lost_max = {}", "[goal] lost_max has to be a number of rings lost an hour, above 0"),
            (span + "hops_max = {}", "[span.a.goal] hops_max has to be a number, not {}"),
        ):
            for value in ("nan", "inf", "-inf"):
                with self.subTest(study=text, value=value):
                    answer = in_folder(text.format(value) + "\n")
                    assert isinstance(answer, str) and wanted.format(value) in answer, answer

    def test_limits_below_0(self) -> None:
        """No number can be below 0, so no limit is."""
        for key in ("p99_ms_max", "messages_max", "served_min"):
            assert in_folder(GOAL + f"{key} = -1\n") == f"study.toml: [goal] {key} has to be 0 or more, not -1"

    def test_what_was_meant(self) -> None:
        """A misspelt limit is told with the right one."""
        for text, meant in (
            ("p99_max = 800", "p99_ms_max"), ("p99.9_ms_max = 800", "p999_ms_max"), ("p90_max = 1", "p90_ms_max"),
            ("right_of_begin_min = 0.9", "right_of_begun_min"), ("serve_min = 0.9", "served_min"),
        ):
            answer = in_folder(GOAL + text + "\n")
            assert isinstance(answer, str) and f"did you mean `{meant}`?" in answer, answer

    def test_shares(self) -> None:
        """A share is from 0 to 1, and percents are told as one."""
        answer = in_folder(GOAL + "right_of_begun_min = 99.9\n")
        assert answer == "study.toml: [goal] right_of_begun_min has to be a share, 0 to 1: 0.999 for 99.9 %"
        assert in_folder(GOAL + "served_min = '1'\n").endswith("[goal] served_min has to be a number, not '1'")

    def test_the_nearest(self) -> None:
        """Of 0.1 % that may be wrong 0.15 % are half as much too many, and 818 ms are 2.25 % above 800."""
        rows = [row(list=1, seed=seed, **{"all-us-p99": 818_000}) for seed in range(1, 7)]
        wrong_ones = {"judged-found": 100_000, "judged-lost": 0, "right": 99_850}
        rows += [row(list=2, seed=seed, **wrong_ones) for seed in range(1, 7)]
        for one in rows[:6]:
            one |= {"judged-found": "100000", "judged-lost": "0", "right": "99900"}
        for one in rows[6:]:
            one["all-us-p99"] = "790000"
        found = summaries(tables_of(rows, vary={"list": [1, 2]}))
        goal = Goal((Limit("right_of_begun", True, 0.999), Limit("p99_ms", False, 800.0)), None, "messages")
        assert nearest_of(found, goal, 0.95).label == "list=1"
        wrong = Goal((Limit("given_up", False, 0.001), Limit("p99_ms", False, 800.0)), None, "messages")
        rows[6]["judged-lost"] = "0"
        assert nearest_of(found, wrong, 0.95).label == "list=2"

    def test_mean_times_hops_and_timeouts(self) -> None:
        """Of the 950 lookups that ended; tables without the sums have no such numbers."""
        sums = {"ended-us": "285000000", "ended-hops": "3800", "ended-timeouts": "95"}
        rows = [row(list=1, seed=seed) | sums for seed in range(1, 6)]
        numbers = summaries(tables_of(rows, vary={"list": [1]}))[0].numbers
        assert [numbers[name].mean for name in ("mean_ms", "hops", "timeouts")] == [300.0, 4.0, 0.1]
        old = summaries(tables_of([row(list=1, seed=1)], vary={"list": [1]}))[0].numbers
        assert [old[name].mean for name in ("mean_ms", "hops", "timeouts", "p999_ms", "bytes")] == [None] * 5

    def test_percentiles_need_lookups(self) -> None:
        """p99.9 needs 10,000 of them in a run, and p90 a hundred."""
        for lookups, known in ((99, ()), (100, ("p90_ms",)), (9_999, ("p90_ms", "p99_ms")),
                               (10_000, ("p90_ms", "p99_ms", "p999_ms"))):
            cells = row(list=1, seed=1, **{"judged-lookups": lookups}) | {"all-us-p99.9": "5000000"}
            numbers = summaries(tables_of([cells], vary={"list": [1]}))[0].numbers
            assert tuple(name for name in ("p90_ms", "p99_ms", "p999_ms") if numbers[name].mean is not None) == known
