"""The winner with fresh seeds, and answer.json."""

import json
from dataclasses import replace
from typing import Any
from unittest import TestCase

from chordsim_tools.study.confirm import fresh_of, fresh_seeds, winners, winning_settings
from chordsim_tools.study.keys import BEYOND
from chordsim_tools.study.layout import is_world
from chordsim_tools.study.outcome import outcome
from chordsim_tools.study.page import page
from chordsim_tools.study.plan import read_study
from chordsim_tools.study.tables import Tables, read_tables
from tests.support.programs import program
from tests.support.studies import tables_of, unwrapped
from tests.test_study_page import GOAL, LIMIT, setting
from tests.test_study_run import STUDY, call, said, study_folder

GOAL_TEXT = '[goal]\nright_of_begun_min = 0.01\nlost_max = 1000000.0\n'
WITH_GOAL = STUDY.replace("seeds = [1, 2]", "seeds = 6").replace("list = [1, 2]", "list = [3, 4]") + GOAL_TEXT


def made(fresh: list[dict[str, str]], **changes: Any) -> Tables:
    """A study whose answer is list=2, and its fresh runs."""
    rows = [*setting(4, 900, 5000), *setting(2, 900, 4000), *setting(1, 850, 3000)]
    return replace(tables_of(rows, vary={"list": [4, 2, 1]}, **{"goal": GOAL, **changes}), fresh=fresh)


def first(tables: Tables) -> str:
    """The answer of the page."""
    return unwrapped(page(tables)).splitlines()[2]


class ConfirmTest(TestCase):
    """Which setting is run again, and what the page says."""

    def test_winners(self) -> None:
        """The one of the answer; none without a goal, without an answer or without a choice."""
        assert [one.label for one in winners(made([]))] == ["list=2"]
        high = {**GOAL, "limits": [{**LIMIT, "value": 0.99}]}
        assert winners(made([], goal=high)) == winners(made([], goal=None)) == []
        assert winners(tables_of(setting(2, 900, 4000), vary={"list": [2]}, goal=GOAL)) == []

    def test_numbers_of_the_answer(self) -> None:
        """They are those of the fresh seeds: (881 to 886) / 950 right, 93 %, and 4.545 messages."""
        text = first(made(setting(2, 880, 4500)))
        assert "**list=2** is the setting with the least messages per member and second, 4.54" in text, text
        assert ": right of begun 93.00 ± 0.21 %, rings kept 6 of 6 (54..100 %)." in text
        assert "These numbers are of 6 fresh seeds, which had no part in the choice. They reach the goal by" in text
        assert "so they are a little too good" in first(made([]))

    def test_fresh_seeds_that_do_not_reach_the_goal(self) -> None:
        """89.42 %, with the limit 90 %: said in bold, with the bound, 89.42 - 3.534 * 0.0804."""
        text = first(made(setting(2, 846, 4500)))
        assert "**They do not reach the goal by themselves**: right of begun, shown to be at least 89.13 %" in text

    def test_study(self) -> None:
        """Six fresh seeds of the winner in a table of their own; no other table has them, and a second run has none."""
        with study_folder(WITH_GOAL) as folder:
            assert call(folder, chordsim=program())[0] == 0
            study, tables = read_study(folder / "study.toml"), read_tables(folder / "study")
            assert fresh_seeds(study) == [BEYOND + seed for seed in range(1, 7)]
            [winner] = winning_settings(study, tables)
            assert [cells["seed"] for cells in tables.fresh] == [str(seed) for seed in fresh_seeds(study)]
            assert {cells["list"] for cells in tables.fresh} == {str(dict(winner)["list"])}
            assert len(tables.runs) == 12 and list(fresh_of(tables)) == [f"list={dict(winner)['list']}"]
            assert all(int(cells["seed"]) < BEYOND for cells in tables.runs)
            before = {path.name: path.stat().st_mtime_ns for path in (folder / "study" / "done").iterdir()}
            assert len([name for name in before if name.endswith(".json")]) == 18
            assert call(folder, chordsim=program())[0] == 0 and said("report", folder / "study")[0] == 0
            assert before == {path.name: path.stat().st_mtime_ns for path in (folder / "study" / "done").iterdir()}
            assert "These numbers are of 6 fresh seeds" in unwrapped((folder / "study" / "report.md").read_text())

    def test_without_confirmation(self) -> None:
        """`confirm = false` runs the study alone; another value is refused."""
        with study_folder("confirm = false\n" + WITH_GOAL) as folder:
            assert call(folder, chordsim=program())[0] == 0
            assert not (folder / "study" / "confirm.csv").exists() and read_tables(folder / "study").fresh == []
        with study_folder('confirm = "no"\n' + WITH_GOAL) as folder:
            assert call(folder) == (1, f"refused: {folder / 'study.toml'}: confirm has to be true or false")


class OutcomeTest(TestCase):
    """answer.json."""

    def test_answer(self) -> None:
        """Each setting and limit has its verdict: list=1 has (851 to 856) / 950 right, between both bounds of 90 %."""
        told = json.loads(outcome(made(setting(2, 880, 4500))))
        [world] = told["worlds"]
        assert (told["done"], told["goal"], world["world"], world["answer"]) == (True, GOAL, "", "list=2")
        assert (world["nearest"], world["same_runs"], world["not_told_apart"]) == (None, [], [])
        assert {one["setting"]: one["verdict"] for one in world["settings"]} == {
            "list=4": "reached", "list=2": "reached", "list=1": "open"}
        limit, losses = world["settings"][1]["limits"]
        words = [limit[word] for word in ("number", "at", "limit", "verdict")]
        assert words == ["right_of_begun", "least", 0.9, "reached"]
        # t of five degrees is 4.655 at 1 - 0.05 / 3 / 6.
        assert abs(limit["mean"] - 0.951053) < 1e-6 and abs(limit["shown"] - (0.951053 - 4.655 * 0.000804)) < 1e-5
        assert (losses["number"], losses["limit"], losses["verdict"]) == ("rings_lost", 0, "reached")
        assert world["fresh"]["setting"] == "list=2" and abs(world["fresh"]["limits"][0]["mean"] - 0.93) < 1e-6
        cost = world["settings"][1]["cost"]
        assert cost["number"] == "messages" and cost["low"] < cost["mean"] < cost["high"]

    def test_missed_and_nearest(self) -> None:
        """No setting reaches 99.9 %: all are shown to miss it, and the nearest one is named."""
        high = {**GOAL, "limits": [{**LIMIT, "value": 0.999}]}
        [world] = json.loads(outcome(made([], goal=high), "3 of 18 runs"))["worlds"]
        assert world["answer"] is world["fresh"] is None and world["nearest"] in ("list=4", "list=2")
        assert {one["verdict"] for one in world["settings"]} == {"missed"}

    def test_numbers_that_are_not_there(self) -> None:
        """What is infinite or missing is null, and few seeds are open."""
        rows = [one | {"all-us-p99": ""} for size in (1, 2) for one in setting(size, 900, 5000, seeds=3)]
        goal = {**GOAL, "limits": [{"number": "p99_ms", "is_least": False, "value": 9.0}]}
        told = json.loads(outcome(tables_of(rows, vary={"list": [1, 2]}, goal=goal)))
        one = told["worlds"][0]["settings"][0]
        limit = one["limits"][0]
        assert one["verdict"] == "open" and limit["shown"] is limit["mean"] is one["cost"]["low"] is None

    def test_report_writes_it(self) -> None:
        """Beside the page, also without a goal."""
        with study_folder() as folder:
            assert call(folder) == (0, "") and said("report", folder / "study")[0] == 0
            told = json.loads((folder / "study" / "answer.json").read_bytes())
            assert told["worlds"] == [] and told["goal"] is None and told["question"] == "How?"


class WorldOptionsTest(TestCase):
    """Options of tools/generate that nobody chooses."""

    def test_worlds_and_choices(self) -> None:
        """Lives, lookups, loss and nodes are the world's; lists, timers and retries are the protocol's."""
        for option in ("lifetime", "down", "nodes", "loss", "lookups", "churn-uniform", "stay", "coordinates", "group"):
            assert is_world(f"generate.--{option}", None), option
        own = ("list", "stabilize", "retries", "timeout", "bits", "join-pause")
        for option in (*own, "lookup-timeouts", "no-goes-on", "finger-jitter"):
            assert not is_world(f"generate.--{option}", None), option
        assert is_world("generate.--list", ["generate.--list"]) and not is_world("generate.--down", [])
