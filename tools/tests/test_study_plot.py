"""Plots: with the two packages, where some Python here has them, and without; and what is computed for them."""

import hashlib
import io
import json
import os
import subprocess
import sys
import tempfile
from contextlib import redirect_stderr
from itertools import product
from pathlib import Path
from typing import Any
from unittest import SkipTest, TestCase
from unittest.mock import patch

from chordsim_tools.cli import Refused
from chordsim_tools.members import Members, Presence
from chordsim_tools.study.columns import Column
from chordsim_tools.study.command import main
from chordsim_tools.study.curves import Curves
from chordsim_tools.study.front import BELOW, LOST, ON, UNSURE, Plane, spots_of
from chordsim_tools.study.judged import Judged
from chordsim_tools.study.layout import layout_of
from chordsim_tools.study.looks import Axis, look_of, setting_words, value_words
from chordsim_tools.study.numbers import groups
from chordsim_tools.study.overtime import Quantity, network_of, percent, pieces, points_of
from chordsim_tools.study.served import Scope
from chordsim_tools.study.tables import Tables
from tests.support.judging import read_digest, table_of
from tests.test_study_run import TOOL, call, study_folder

PLOTS = [f"{name}.{form}" for name in ("cost", "right", "times", "network", "cdf", "tail") for form in ("png", "svg")]
VARY: dict[str, list[int]] = {"list": [2, 4, 8], "stabilize_us": [1, 5, 15, 30, 60], "loss_ppm": [0, 10000]}


def plot(python: str, folder: Path, *words: str, path: str = "") -> tuple[int, str]:
    """Status and line of `tools/study plot`, with a folder ahead of all modules."""
    told = subprocess.run(
        [python, TOOL, "plot", folder / "study", *words], env=os.environ | {"PYTHONPATH": path}, capture_output=True,
        text=True, check=False,
    )
    return told.returncode, told.stderr


def python_with_packages() -> str:
    """A Python that has matplotlib."""
    for python in (sys.executable, "/usr/bin/python3"):
        asks = "from importlib.util import find_spec as f; exit(not (f('numpy') and f('matplotlib')))"
        if Path(python).exists() and subprocess.run([python, "-c", asks], check=False).returncode == 0:
            return python
    raise SkipTest("no Python here has numpy and matplotlib")


def made(vary: dict[str, list[int]], rows: list[dict[str, str]]) -> Tables:
    """Tables of a study that varies these keys."""
    manifest = {"vary": vary, "nodes": 4, "duration_us": 1_000_000, "warmup_us": 0}
    return Tables(manifest, rows, [])


def thirty() -> Tables:
    """A study of 30 settings with a seed each."""
    rows = [dict(zip(VARY, map(str, values), strict=True)) | {"seed": "1"} for values in product(*VARY.values())]
    return made(VARY, rows)


def plane_states(*settings: tuple[list[tuple[float, float]], bool], most_lost: float = 0) -> list[str]:
    """The states of settings with a cost and a gain for each seed; of some the first seed's ring was lost."""
    rows = [
        {"list": str(number), "seed": str(seed), "c": str(x), "g": str(y),
         "lost-at-us": "5" if lost and seed == 0 else ""}
        for number, (values, lost) in enumerate(settings) for seed, (x, y) in enumerate(values)
    ]
    tables = made({"list": list(range(len(settings)))}, rows)
    by_setting = groups(rows, ["list"])
    plane = Plane(Column("c", tables), Column("g", tables))
    return [spot.state for spot in spots_of(plane, list(by_setting), by_setting, most_lost)]


class StudyPlotTest(TestCase):
    """The files."""

    def test_without_packages(self) -> None:
        """One line that names them, status 3, and no plot."""
        with study_folder() as folder, tempfile.TemporaryDirectory() as empty:
            call(folder)
            (Path(empty) / "matplotlib.py").write_text("raise ImportError\n")
            status, told = plot(sys.executable, folder, path=empty)
            assert status == 3 and told.count("\n") == 1 and "python3-numpy python3-matplotlib" in told
            assert not list((folder / "study").glob("*.png"))

    def test_same_bytes(self) -> None:
        """Twelve files, the same each time, without a date; and one of a column."""
        python = python_with_packages()
        with study_folder() as folder:
            call(folder)
            assert plot(python, folder) == (0, "")
            first = {name: (folder / "study" / name).read_bytes() for name in PLOTS}
            assert plot(python, folder) == (0, "")
            assert first == {name: (folder / "study" / name).read_bytes() for name in PLOTS}
            assert all(b"<dc:date>" not in content for content in first.values())
            assert all(content.startswith(b"\x89PNG") == name.endswith("png") for name, content in first.items())
            assert plot(python, folder, "--y", "events/lookups", "--x", "list") == (0, "")
            assert (folder / "study" / "events-of-lookups.png").exists()

    def test_mark(self) -> None:
        """A study that is not done has a mark on its plots."""
        python = python_with_packages()
        with study_folder() as folder:
            (folder / "fail").write_text("list = 2")
            call(folder)
            assert plot(python, folder) == (0, "")
            text = (folder / "study" / "right.svg").read_text()
            assert "<!-- so far 2 of 4 runs -->" in text

    def test_wishes_that_cannot_be(self) -> None:
        """A column or a key that is not there: the line lists those that are."""
        with study_folder() as folder:
            call(folder)
            for words, wanted in (
                (["--y", "rihgt"], "no column rihgt in runs.csv; there are A/B of two columns, and found-of-begun"),
                (["--x", "lst"], "the study does not vary lst; it varies list"),
            ):
                told = io.StringIO()
                with redirect_stderr(told):
                    assert main(["plot", str(folder / "study"), *words]) == 1
                assert wanted in told.getvalue()


class LooksTest(TestCase):
    """Names, axes and looks."""

    def test_words(self) -> None:
        """Times and shares have their units."""
        values = [value_words("stabilize_us", text) for text in ("60000000", "250000", "1500", "7")]
        assert values == ["60 s", "250 ms", "1.5 ms", "7 us"]
        assert setting_words(["list", "churn.life_min_us", "loss_ppm"], ("4", "30000000", "10000")) == (
            "list 4, life min 30 s, loss 1 %"
        )

    def test_looks(self) -> None:
        """Thirty values have thirty looks, and neighbours differ in colour, marker and line."""
        looks = [look_of(number) for number in range(30)]
        assert len({(look.colour, look.marker) for look in looks}) == 30
        for one, other in zip(looks, looks[1:]):
            assert one.colour != other.colour and one.marker != other.marker and one.line != other.line

    def test_axes(self) -> None:
        """More than a decade: logarithmic; with a 0 in it, or texts: side by side."""
        assert Axis("stabilize_us", ["60", "1", "5"]).is_log
        assert not Axis("list", ["2", "4", "8"]).is_log
        with_zero = Axis("loss_ppm", ["10000", "0", "100"])
        assert not with_zero.is_log and with_zero.places == {"0": 0, "100": 1, "10000": 2}
        assert Axis("latency", ["far", "near"]).places == {"far": 0, "near": 1}

    def test_layout_of_thirty(self) -> None:
        """The period along the axis, lists as lines, losses as panels; or as it is asked for."""
        layout = layout_of(thirty(), None, None, None)
        assert (layout.x, layout.by, layout.panels) == ("stabilize_us", ["list"], ["loss_ppm"])
        assert [len(cell) for cell in layout.cells()] == [3] * 10
        other = layout_of(thirty(), "list", ["loss_ppm"], None)
        assert (other.x, other.by, other.panels) == ("list", ["loss_ppm", "stabilize_us"], [])
        try:
            layout_of(thirty(), "lists", None, None)
        except Refused as stop:
            assert "does not vary lists; it varies list, stabilize_us, loss_ppm" in stop.text
        else:
            raise AssertionError("lists")

    def test_worlds_of_the_study_file(self) -> None:
        """Its `world` says which keys are panels."""
        tables = thirty()
        tables.manifest["world"] = ["list"]
        assert layout_of(tables, None, None, None).panels == ["list"]


class FrontTest(TestCase):
    """Who is on the front."""

    def test_equal_settings_are_both_on_it(self) -> None:
        """Neither beats the other."""
        same = [(1.0, 5.0)] * 5
        assert plane_states((same, False), (same, False)) == [ON, ON]

    def test_dominated_or_not_told_apart(self) -> None:
        """Surely worse in both: dominated. Worse by chance, or in one number alone: not surely. Lost: not in it."""
        best = [(1.0 + seed / 100, 5.0 + seed / 50) for seed in range(5)]
        worse = [(x + 1 + seed / 1000, y + 1 - seed / 1000) for seed, (x, y) in enumerate(best)]
        noise = (3.0, -2.0, 2.0, -2.5, 1.0)
        unsure = [(x + 1, y + other) for (x, y), other in zip(best, noise)]
        cheap_and_dead = [(0.1, 0.1)] * 5
        states = plane_states((best, False), (worse, False), (unsure, False), (cheap_and_dead, True))
        assert states == [ON, BELOW, UNSURE, LOST]

    def test_rings_that_may_be_lost(self) -> None:
        """A limit of one seed in five lets the setting in, and one below it does not."""
        settings = ([(1.0, 1.0)] * 5, True), ([(2.0, 2.0)] * 5, False)
        assert plane_states(*settings, most_lost=0.2) == [ON, BELOW]
        assert plane_states(*settings, most_lost=0.19) == [LOST, ON]

    def test_steps(self) -> None:
        """What lies above a line between two is on the front too, as no ring runs two settings."""
        assert plane_states(*(([point] * 5, False) for point in ((1.0, 10.0), (2.0, 9.0), (3.0, 1.0)))) == [ON, ON, ON]


class OverTimeTest(TestCase):
    """Lines, bands and gaps."""

    def lines(self, *counts: int) -> list[dict[str, str]]:
        """In each step so many seeds have found something."""
        return [
            {"from_us": str(step * 1_000_000), "found": "10" if seed < count else "0", "right": str(9 + seed % 2)}
            for step, count in enumerate(counts) for seed in range(6)
        ]

    def test_steps_with_few_seeds(self) -> None:
        """A step with one or two seeds is dashed, and has no interval; the band is cut at 100%."""
        points = points_of(self.lines(6, 6, 2, 1, 0, 6), Quantity("right, %", percent("right", "found"), 100), {})
        assert [point[4] for point in points] == [6, 6, 2, 1, 6]
        found: list[tuple[bool, list[float]]] = [(few, [point[0] for point in part]) for few, part in pieces(points)]
        assert found == [(False, [0, 1]), (True, [1, 2, 3, 5]), (False, [5])]
        assert points[0][2] < points[0][1] < points[0][3] == 100
        assert all(point[2] == point[1] == point[3] for point in points[2:4])

    def test_digests_of_the_curves(self) -> None:
        """The manifest has them, and a changed one is refused."""
        with study_folder() as folder:
            call(folder)
            sums: dict[str, Any] = json.loads((folder / "study" / "manifest.json").read_text())["sha256"]
            for name in ("cdf.csv", "steps.csv"):
                content = (folder / "study" / name).read_bytes()
                assert sums[name] == hashlib.sha256(content).hexdigest()
                assert content.startswith(b"list,seed,")
            (folder / "study" / "cdf.csv").write_text("list\n")
            with patch.object(sys, "stderr", io.StringIO()) as told:
                assert main(["plot", str(folder / "study")]) == 1
            assert "cdf.csv is not the one that manifest.json names" in told.getvalue()


class CurvesTest(TestCase):
    """What plots take from a trace beside the tables."""

    def test_lines(self) -> None:
        """Lookups of the judged span, and timeouts and losses of all steps; a node may be called as a word is."""
        scope, members, curves = Scope(100, 30, 20, 30), Members({"b": 1}, ["b"]), Curves(100, 30)
        lines = (
            "10 a lookup 5", "20 a lookup 6", "25 a found 5 b hops=9 timeouts=0 us=15", "29 timeout timeout b",
            "30 a found 6 b hops=2 timeouts=1 us=10", "31 a lose step b", "69 found lookup 7", "70 found lookup 8",
            "70 a again step b", "75 again again step b",
            "80 a ignored lookup", "90 found found 7 b hops=1 timeouts=0 us=21",
            "95 found found 8 b hops=3 timeouts=0 us=25",
            "100 audit members=2 dead=0 ring=2 ordered=yes principals=2 sufficient=yes",
        )
        read_digest(lines, scope, curves)
        judged = Judged(scope)
        judged.take(table_of(lines, members), Presence(members))
        numbers = curves.numbers(judged)
        assert (numbers["begun"], numbers["found"], numbers["hops"]) == (2, 2, [0, 1, 1])
        assert numbers["us"][0] == 10 and numbers["us"][-1] == 21
        assert (numbers["timeouts"], numbers["losses"]) == ([1, 0, 0, 0], [0, 1, 0, 0])
        assert numbers["again"] == [0, 0, 2, 0]

    def test_what_of_the_network_is_drawn(self) -> None:
        """Timeouts always, losses and requests sent again where there are some; older tables have no `again`."""
        def told(*steps: dict[str, str]) -> tuple[str, list[str]]:
            """The title and the labels."""
            title, quantities = network_of(list(steps))
            return title, [quantity.label.split("\n")[0] for quantity in quantities]

        quiet, lossy = {"timeouts": "0", "losses": "0"}, {"timeouts": "1", "losses": "2"}
        assert told(quiet) == ("Timeouts over time (no message is lost)", ["timeouts"])
        assert told(quiet, lossy) == ("Timeouts and lost messages over time", ["timeouts", "messages lost"])
        all_three = ["timeouts", "messages lost", "sent again"]
        title = "Timeouts, lost messages and requests sent again over time"
        assert told(quiet | {"again": "0"}, lossy | {"again": "3"}) == (title, all_three)
        title = "Timeouts and requests sent again over time (no message is lost)"
        assert told(quiet | {"again": "3"}) == (title, [all_three[0], all_three[2]])
