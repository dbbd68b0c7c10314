"""The tables of a page: which columns each has, and the notes below it. What is wanted is by docs/studies.md."""

import re
from typing import Any
from unittest import TestCase
from unittest.mock import patch

from chordsim_tools.study.answer import chosen
from chordsim_tools.study.compare import settings_of
from chordsim_tools.study.goal import NUMBERS
from chordsim_tools.study.names import NAMES, difference_header, in_words
from chordsim_tools.study.numbers import summaries
from chordsim_tools.study.page import page
from chordsim_tools.study.settings_tables import differences
from chordsim_tools.study.wrap import WIDTH, note, wrapped
from tests.support.studies import row, table_of, tables_of, unwrapped

PLAIN = ["setting", "rings kept", "served, %", "right of begun, %", "p50, ms", "p99, ms", "messages /member/s"]
REST = [
    "p90, ms", "rings lost an hour", "defensible, %", "given up, %", "cut off, %", "members, %", "upkeep /member/s",
    "events /member/s",
]
COUNTS = ("timeouts", "timeouts-of-members", "removed-members", "again", "stranded", "join-failed")


def goal(*limits: str, least: str = "messages", lost_max: float | None = None) -> dict[str, Any]:
    """A goal with limits of these numbers, which no setting reaches."""
    told = [{"number": number, "is_least": True, "value": 10_000.0} for number in limits]
    return {"limits": told, "lost_max": lost_max, "least": least}


def text_of(**changes: Any) -> str:
    """The page of two settings of six seeds, of which the second has lost one ring."""
    rows = [{"list": size, "seed": seed, "right": 900 + seed} for size in (4, 2) for seed in range(1, 7)]
    rows[-1] |= {"ringless": 1, "lost-at-us": 50_000_000, "right": 0}
    counts = {f"cost-{name}": "9" for name in COUNTS}
    return page(tables_of([row(**one) | counts for one in rows], **{"vary": {"list": [4, 2]}, **changes}))


def headers(text: str, heading: str) -> list[str]:
    """The headers of the table below a heading."""
    return list(next(iter(table_of(text, heading).values())))


def others(text: str) -> list[str]:
    """The headers of the tables below the first one that have numbers."""
    return [name for heading in ("Lookups", "More numbers") for name in headers(text, heading) if name != "setting"]


def notes(text: str, heading: str) -> list[str]:
    """What the notes below a heading are about."""
    lines = unwrapped(text).split(f"## {heading}\n", 1)[1].split("\n## ", 1)[0].splitlines()
    names = [re.match(r"- \*\*(.*?)\*\*", line) for line in lines]
    return [name for found in names if found for name in found.group(1).split(", ")]


class StudyTablesTest(TestCase):
    """The columns of both tables of settings, their notes, and their lines."""

    def test_best_setting_is_sought_once(self) -> None:
        """Once in each of two worlds, however many settings these have."""
        vary = {"latency_us": [1, 2], "list": [1, 2, 3, 4]}
        rows = [row(latency_us=time, list=size, seed=1) for time in (1, 2) for size in range(1, 5)]
        tables = tables_of(rows, vary=vary)
        with patch("chordsim_tools.study.settings_tables.chosen", wraps=chosen) as sought:
            differences(tables, summaries(tables))
        assert sought.call_count == 2

    def test_columns(self) -> None:
        """Without a goal, and with one that names what is in the first table anyway."""
        for wanted in (None, goal("right_of_begun")):
            text = text_of(goal=wanted)
            assert headers(text, "Settings") == [*PLAIN, "served less best, points"]
            assert others(text) == REST

    def test_numbers_that_the_study_names(self) -> None:
        """They are in the first table. What nobody named gives way: first p50, then p99, then messages."""
        precision: dict[str, Any] = {"number": "events", "half": 1.0, "least_seeds": 5, "most_seeds": 9}
        for wanted, new, old in (
            ({"goal": goal("right_of_begun", lost_max=1.0)}, {"rings lost an hour"}, {"p50, ms"}),
            ({"goal": goal("p50_ms", "defensible")}, {"defensible, %"}, {"p99, ms"}),
            ({"goal": goal("given_up", least="upkeep")}, {"given up, %", "upkeep /member/s"}, {"p50, ms", "p99, ms"}),
            ({"precision": precision}, {"events /member/s"}, {"p50, ms"}),
            ({"goal": goal("members", "p99_ms", least="p50_ms"), "precision": precision},
             {"members, %", "events /member/s"}, {"right of begun, %", "messages /member/s"}),
        ):
            text = text_of(**wanted)
            first, more = headers(text, "Settings"), others(text)
            assert set(first[:-1]) == {*PLAIN, *new} - old and len(first) == 8, (wanted, first)
            assert set(more) == {*REST, *old} - new, (wanted, more)

    def test_a_goal_that_names_many_numbers(self) -> None:
        """None of them is left out, and served is there too."""
        text = text_of(goal=goal("right_of_begun", "defensible", "given_up", "p99_ms", lost_max=1.0))
        assert headers(text, "Settings") == [
            "setting", "rings kept", "rings lost an hour", "served, %", "right of begun, %", "defensible, %",
            "given up, %", "p99, ms", "messages /member/s", "served less best, points",
        ]

    def test_one_setting(self) -> None:
        """It is compared with no other one."""
        text = page(tables_of([row(list=4, seed=seed) for seed in range(1, 7)], vary={"list": [4]}))
        assert headers(text, "Settings") == PLAIN and "less best" not in text

    def test_a_goal_that_is_reached(self) -> None:
        """The difference is that of what is to be least, and the table has it."""
        reached = {"limits": [], "lost_max": 1000.0}
        for least, header, column in (
            ("messages", "messages less best", "messages /member/s"), ("p99_ms", "p99 less best, ms", "p99, ms"),
            ("given_up", "given up less best, points", "given up, %"),
        ):
            found = headers(text_of(goal={**reached, "least": least}), "Settings")
            assert found[-1] == header and column in found

    def test_no_loss_is_hidden(self) -> None:
        """Each mean but served says how many rings are in it, in all three tables."""
        text = text_of()
        for heading in ("Settings", "Lookups", "More numbers", "Who was taken for dead"):
            cells = table_of(text, heading)["list=2"]
            rest = {name for name in cells if not name.startswith(("setting", "rings ", "served"))}
            assert rest and all("(5 of 6)" in cells[name] for name in rest), cells
        first = table_of(text, "Settings")["list=2"]
        assert first["rings kept"].startswith("5 of 6 ") and first["served, %"] == "75.25 (16.4..93)"

    def test_each_column_has_one_note(self) -> None:
        """It stands below the table of the column."""
        sizes = {name.removeprefix("sent-"): 1 for name in row(seed=1) if name.startswith("sent-")}
        for wanted in (None, goal("right_of_begun", lost_max=1.0), goal("p50_ms", "members", least="upkeep")):
            text = text_of(goal=wanted, sizes=sizes)
            found = []
            for heading in ("Settings", "Lookups", "More numbers", "Who was taken for dead"):
                names = {re.sub(r"(, | /).*", "", name) for name in headers(text, heading)} - {"setting"}
                here = {re.sub(r" less best.*", " less best", name) for name in notes(text, heading)}
                assert names <= here and here - names <= {"±", "(m of n)", "/member/s", "points", "none (< 26 %)"}
                found += notes(text, heading)
            assert len(found) == len(set(found)), found

    def test_percentiles_in_two_tables(self) -> None:
        """What p50 is follows from the note of p99."""
        together, apart = (unwrapped(text_of(goal=goal(lost_max=most))) for most in (None, 1.0))
        assert "- **p50, p99**: 50 % and 99 % of all lookups take at most so long, by the curve" in together
        assert "- **p99**: 99 % of all lookups take at most so long, by the curve" in apart
        assert "- **p50, p90**: 50 % and 90 % of all lookups take at most so long, computed as p99." in apart

    def test_names(self) -> None:
        """A number has the name of its key, in headers and in sentences."""
        words = {"p999_ms": "p99.9", "mean_ms": "mean time", "hops": "hops a lookup", "timeouts": "timeouts a lookup"}
        for number in NUMBERS:
            assert NAMES[number] == words.get(number, number.removesuffix("_ms").replace("_", " "))
        assert in_words("upkeep") == "upkeep per member and second" and in_words("p99_ms") == "p99"
        assert difference_header("events") == "events less best"

    def test_worlds_that_are_varied_last(self) -> None:
        """The settings of a world follow each other, and have the numbers by which two are compared."""
        rows = [row(list=size, loss_ppm=loss, seed=seed) for size in (2, 4) for loss in (0, 9) for seed in range(1, 6)]
        tables = tables_of(rows, vary={"list": [2, 4], "loss_ppm": [0, 9]})
        text = page(tables)
        wanted = ["loss_ppm=0: list=2", "loss_ppm=0: list=4", "loss_ppm=9: list=2", "loss_ppm=9: list=4"]
        assert list(table_of(text, "Settings")) == list(table_of(text, "More numbers")) == wanted
        assert [one.label for one in settings_of(tables)] == [
            f"list={size}, loss_ppm={loss}" for loss in (0, 9) for size in (2, 4)
        ]

    def test_worlds_without_a_choice(self) -> None:
        """If worlds alone are varied, each is a line."""
        rows = [row(loss_ppm=loss, seed=seed) for loss in (0, 9) for seed in range(1, 6)]
        text = page(tables_of(rows, vary={"loss_ppm": [0, 9]}))
        assert list(table_of(text, "Settings")) == ["loss_ppm=0", "loss_ppm=9"]

    def test_width(self) -> None:
        """No line is wider than 100 columns but in tables and blocks of code."""
        text = text_of(goal=goal("right_of_begun", lost_max=1.0), commands={"crash": 5, "join": 6}, latency="king.csv")
        lines = text.split("```")[0].splitlines() + text.split("```")[2].splitlines()
        assert all(len(line) <= WIDTH for line in lines if not line.startswith("|"))

    def test_wrapped(self) -> None:
        """Neither code, a number nor a label is broken, nor does a line begin as a list or a heading would."""
        word = "w" * (WIDTH - 8)
        for rest in ("91.5 ± 1.4 %", "list=4, stabilize_us=1s", "list=4, generate.--nodes=9"):
            assert wrapped(f"{word} {rest} x").splitlines() == [word, f"{rest} x"]
        for rest in ("`a b c d e`", "x +\ny", "x - y", "x 1. y", "x 1) y", "x # y"):
            lines = wrapped(f"{word} z {rest}").splitlines()
            assert [re.match(r"[-+*#>]|\d+[.)]", line) for line in lines] == [None] * len(lines), lines
            assert all(line.count("`") != 1 for line in lines)
        assert note(f"{word} and more") == f"- {word} and\n  more\n"
