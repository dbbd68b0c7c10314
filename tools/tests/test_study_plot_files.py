"""Which plots a page links: those that are there and are of its tables."""

import json
import os
from collections.abc import Iterator
from pathlib import Path
from typing import Any
from unittest import TestCase
from unittest.mock import Mock, patch

from chordsim_tools.study.plot import write_plots
from chordsim_tools.study.plot_files import FORMS, NAME, PLOTS, is_of, origin_of, write_origins
from chordsim_tools.study.so_far import tables_of
from tests.test_study_plot import plot, python_with_packages
from tests.test_study_run import STUDY, TOP, call, said, study_folder

NONE = "No plots: `tools/study plot FOLDER` draws them."
WHOLE = [name for name in PLOTS if name != "spans"]
"""The plots of a study whose goal has no limits of spans."""
OTHER = f"No plots of these tables: those in the folder are of other ones, or older. {NONE.removeprefix('No plots: ')}"


def page_of(folder: Path) -> str:
    """The page, in one line."""
    assert said("report", folder / "study") == (0, "")
    return " ".join((folder / "study" / "report.md").read_text().split())


def linked(text: str) -> list[str]:
    """The plots that a page links, as a picture and as SVG."""
    pictures = [name for name in PLOTS if f"]({name}.png)" in text]
    assert pictures == [name for name in PLOTS if f"]({name}.svg)" in text]
    return pictures


def put_plots(folder: Path, *names: str) -> None:
    """Writes files in the place of plots."""
    for name in names:
        for form in FORMS:
            (folder / "study" / f"{name}.{form}").write_text("a plot")


def draw(folder: Path, *names: str) -> None:
    """The same, and notes which tables they are of, as `tools/study plot` does."""
    put_plots(folder, *names)
    drawn = tables_of(folder / "study")
    write_origins(folder / "study", list(names), origin_of(drawn.tables.manifest, drawn.mark))


class PlotFilesTest(TestCase):
    """Links of a page."""

    def test_no_plots(self) -> None:
        """None was drawn: a line says so, and there is no link."""
        with study_folder() as folder:
            call(folder)
            text = page_of(folder)
            assert f"## Plots {NONE} ## Made by" in text and "![" not in text

    def test_plots_of_another_study(self) -> None:
        """The study is changed and run again: the plots of before are not linked. Back again, they are."""
        with study_folder() as folder:
            call(folder)
            draw(folder, *PLOTS)
            assert linked(page_of(folder)) == WHOLE
            (folder / "study.toml").write_text(STUDY.replace("list = [1, 2]", "list = [1, 3]"))
            call(folder)
            text = page_of(folder)
            assert linked(text) == [] and OTHER in text
            draw(folder, "times", "cost")
            text = page_of(folder)
            assert linked(text) == ["times", "cost"]
            left = "Plots that are not there or are of other tables: right, network, cdf, tail."
            assert f"{left} `tools/study plot" in text
            (folder / "study.toml").write_text(STUDY)
            call(folder)
            assert linked(page_of(folder)) == ["right", "network", "cdf", "tail"]

    def test_a_file_that_is_gone(self) -> None:
        """A plot needs its picture; without its SVG the page has no link to that."""
        with study_folder() as folder:
            call(folder)
            draw(folder, *PLOTS)
            (folder / "study" / "right.png").unlink()
            (folder / "study" / "right.svg").unlink()
            assert linked(page_of(folder)) == ["times", "cost", "network", "cdf", "tail"]
            (folder / "study" / "cost.svg").unlink()
            text = page_of(folder)
            assert "](cost.png)" in text and "](cost.svg)" not in text and "](cdf.svg)" in text

    def test_plots_of_an_older_tool(self) -> None:
        """Without plots.json those count that are no older than runs.csv."""
        with study_folder() as folder:
            call(folder)
            put_plots(folder, *PLOTS)
            assert linked(page_of(folder)) == WHOLE
            time = (folder / "study" / "runs.csv").stat().st_mtime - 60
            os.utime(folder / "study" / "times.png", (time, time))
            assert linked(page_of(folder)) == WHOLE[1:]
            (folder / "study" / NAME).write_text("[]")
            assert linked(page_of(folder)) == WHOLE[1:]

    def test_study_that_is_not_done(self) -> None:
        """Plots of fewer runs of the same study are linked, and the page says of how many; not once it is done."""
        with study_folder() as folder:
            (folder / "fail").write_text("list = 2")
            call(folder)
            draw(folder, *PLOTS)
            assert "The plots were drawn of" not in page_of(folder)
            (folder / "fail").write_text("seed = 2")
            (folder / "study" / "done" / "list=1,seed=2.json").unlink()
            call(folder)
            text = page_of(folder)
            assert "**1 of 4 runs: the study is not done.**" in text and "The plots were drawn of 2 of 4 runs." in text
            assert linked(text) == WHOLE
            (folder / "fail").write_text("nothing")
            call(folder)
            assert linked(page_of(folder)) == [] and OTHER in page_of(folder)

    def test_results_that_are_gone(self) -> None:
        """Plots of all runs, of which one is gone: the page says that they are of all."""
        with study_folder() as folder:
            call(folder)
            draw(folder, *PLOTS)
            (folder / "study" / "manifest.json").unlink()
            (folder / "study" / "done" / "list=1,seed=2.json").unlink()
            text = page_of(folder)
            assert "**3 of 4 runs: the study is not done.**" in text and "The plots were drawn of all runs." in text
            assert linked(text) == WHOLE

    def test_plots_that_were_interrupted(self) -> None:
        """The first plot is of the tables that are there; the second one, which was not reached, of those of before."""

        def figures(*_: Any) -> Iterator[tuple[str, Any]]:
            """One figure, and then Ctrl-C."""
            yield "times", None
            raise KeyboardInterrupt

        with study_folder() as folder:
            call(folder)
            draw(folder, *PLOTS)
            (folder / "study.toml").write_text(STUDY.replace("list = [1, 2]", "list = [1, 3]"))
            call(folder)
            names: dict[str, Any] = {"drawing": Mock(), "all_figures": figures, "rendered": lambda *_: b"a plot"}
            with patch.multiple("chordsim_tools.study.plot", **names), self.assertRaises(KeyboardInterrupt):
                write_plots(folder / "study")
            assert linked(page_of(folder)) == ["times"]

    def test_plot_command(self) -> None:
        """It notes the plots that it draws, and leaves those of a column out of the page."""
        python = python_with_packages()
        span = '[span.late]\nfrom = "3s"\nto = "6s"\n[span.late.goal]\np50_ms_max = 900\nserved_min = 0.5\n'
        with study_folder(STUDY + span) as folder:
            call(folder)
            assert plot(python, folder) == (0, "")
            assert linked(page_of(folder)) == list(PLOTS)
            before = (folder / "study" / NAME).read_bytes()
            assert set(json.loads(before)) == set(PLOTS)
            assert plot(python, folder) == (0, "") and (folder / "study" / NAME).read_bytes() == before
            assert plot(python, folder, "--y", "us-p99") == (0, "")
            assert set(json.loads((folder / "study" / NAME).read_bytes())) == {*PLOTS, "us-p99"}
            assert linked(page_of(folder)) == list(PLOTS)

    def test_examples(self) -> None:
        """Their plots are of their tables, and all are there that the tables have the numbers for."""
        for name in ("study", "loss", "retries", "outage"):
            folder = TOP / "examples" / name
            drawn = tables_of(folder)
            origins = json.loads((folder / NAME).read_text())
            wanted = origin_of(drawn.tables.manifest, "")
            names = [plot for plot in PLOTS if is_of(plot, drawn.tables.manifest)]
            assert len(names) >= 5 and [origins[plot]["tables"] for plot in names] == [wanted.tables] * len(names)
            text = (folder / "report.md").read_text()
            assert [name for name in PLOTS if f"]({name}.png)" in text] == names
