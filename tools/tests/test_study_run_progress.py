"""How far a study is: the bar, the lines of a log, and plots and pages of what is done so far."""

import io
import json
import sys
from contextlib import redirect_stderr
from unittest import TestCase
from unittest.mock import patch

from chordsim_tools.study.load import Load
from chordsim_tools.study.progress import RunProgress, time_words
from chordsim_tools.study.so_far import tables_of
from tests.test_study_run import STUDY, call, said, study_folder


class Terminal(io.StringIO):
    """A terminal."""

    def isatty(self) -> bool:
        """It is one."""
        return True


class Clock:
    """A clock that a test turns."""

    def __init__(self) -> None:
        """It starts at 1,000 s."""
        self.now = 1000.0

    def __call__(self) -> float:
        """The time."""
        return self.now


class ProgressTest(TestCase):
    """What is said, and when."""

    def test_log(self) -> None:
        """No terminal: a line every 30 s, also if no run ends meanwhile, and the time left at the rate so far."""
        clock, out = Clock(), io.StringIO()
        with redirect_stderr(out), RunProgress(150, 29, clock) as progress:
            for second in range(1, 91):
                clock.now = 1000.0 + second
                progress.tick()
                if second in (29, 59):
                    progress.one_more()
        assert out.getvalue() == (
            "30 of 150 runs, 60 min left\n31 of 150 runs, 60 min left\n31 of 150 runs, 89 min left\n"
        )

    def test_settings_that_differ(self) -> None:
        """Two runs of a setting took 10 s each, side by side. Two of another one weigh ten times as much: 100 s."""
        clock = Clock()
        load = Load([("fast", 1.0), ("fast", 1.0), ("slow", 10.0), ("slow", 10.0)])
        progress = RunProgress(4, 0, clock, load)
        assert progress.left() is None
        clock.now = 1010.0
        progress.one_more("fast", 10.0)
        progress.one_more("fast", 10.0)
        assert progress.left() == 100.0
        clock.now = 1030.0
        progress.one_more("slow", 20.0)
        assert progress.left() == 30 * 20 / 40

    def test_settings_whose_times_are_not_known(self) -> None:
        """As with Dask: runs of five times the weight take five times as long."""
        clock = Clock()
        progress = RunProgress(3, 0, clock, Load([("a", 2.0), ("a", 2.0), ("b", 10.0)]))
        clock.now = 1006.0
        progress.one_more("a")
        assert progress.left() == 6 * 12 / 2

    def test_bar(self) -> None:
        """A terminal: one line that is written again and again, and ended once."""
        clock, out = Clock(), Terminal()
        with patch.object(sys, "stderr", out), RunProgress(4, 0, clock) as progress:
            for second in (1, 10, 20, 30):
                clock.now = 1000.0 + second
                progress.one_more()
        shown = out.getvalue().split("\r")
        assert shown[1] == "[" + "#" * 15 + "-" * 15 + "] 2 of 4 runs, 10 s left\x1b[K"
        assert shown[-1] == "[" + "#" * 30 + "] 4 of 4 runs\x1b[K\n" and out.getvalue().count("\n") == 1

    def test_short_work_is_quiet(self) -> None:
        """Less than 30 s in a log, less than two at a terminal."""
        for out, seconds in ((io.StringIO(), 29.0), (Terminal(), 1.9)):
            clock = Clock()
            with patch.object(sys, "stderr", out), RunProgress(2, 0, clock) as progress:
                clock.now += seconds
                progress.one_more()
            assert out.getvalue() == ""

    def test_time_words(self) -> None:
        """In two units at most."""
        found = [time_words(seconds) for seconds in (3, 89, 91, 5399, 5400, 7800, 180000, 187200)]
        assert found == ["3 s", "89 s", "2 min", "1 h 30 min", "1 h 30 min", "2 h 10 min", "2 d 2 h", "2 d 4 h"]


class SoFarTest(TestCase):
    """Tables and pages of a study that is not done."""

    def test_three_of_four(self) -> None:
        """The last run fails: the page is of three runs and says so. When all are done it says so no more."""
        with study_folder() as folder:
            (folder / "fail").write_text("list = 2")
            with patch.object(sys, "stderr", io.StringIO()):
                call(folder)
            drawn = tables_of(folder / "study")
            assert drawn.mark == "2 of 4 runs" and [row["seed"] for row in drawn.tables.runs] == ["1", "2"]
            assert said("report", folder / "study") == (0, "")
            page = (folder / "study" / "report.md").read_text()
            assert page.startswith("# How?\n\n**2 of 4 runs: the study is not done.**")
            (folder / "fail").write_text("nothing")
            call(folder)
            assert said("report", folder / "study") == (0, "")
            page = (folder / "study" / "report.md").read_text()
            assert tables_of(folder / "study").mark == "" and "not done" not in page
            assert page.index("\nNo plots: ") < page.index("## Made by")

    def test_more_runs_than_the_tables_have(self) -> None:
        """A third seed is added to a study that was done, and its first run fails: the tables are of four of six."""
        with study_folder() as folder:
            call(folder)
            (folder / "study.toml").write_text(STUDY.replace("[1, 2]\n[", "[1, 2, 3]\n["))
            (folder / "fail").write_text("seed = 3")
            call(folder)
            assert tables_of(folder / "study").mark == "4 of 6 runs"
            assert json.loads((folder / "study" / "manifest.json").read_text())["seeds"] == [1, 2]

    def test_nothing_is_done(self) -> None:
        """One line."""
        with study_folder() as folder:
            (folder / "fail").write_text("list = 1")
            call(folder)
            assert said("report", folder / "study") == (1, f"refused: {folder}/study: none of 4 runs is done")
