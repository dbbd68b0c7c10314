"""What a page says of a goal that is reached, missed or not decided, and of rings that are all lost."""

from random import Random
from typing import Any
from unittest import TestCase

from chordsim_tools.study.bounds import level_of, misses, missing_level, reaches
from chordsim_tools.study.goal import Goal, Limit
from chordsim_tools.study.goal_words import goal_told
from chordsim_tools.study.interval import outward
from chordsim_tools.study.numbers import Summary, summaries
from chordsim_tools.study.page import page
from chordsim_tools.study.survival import NEVER
from tests.support.studies import table_of, tables_of, unwrapped
from tests.test_study_compare import rights, settings
from tests.test_study_page import GOAL, LIMIT, less_best, setting, told

FEW = "too few seeds with these numbers for a bound."
TELL = "More seeds may decide: the bounds hold at each look."
OPEN = "(shown neither to reach the goal nor to miss it)"


def goal(value: float, **changes: Any) -> dict[str, Any]:
    """A goal with this limit of right of begun."""
    return {**GOAL, "limits": [{**LIMIT, "value": value}], **changes}


def dead(size: int, messages: int = 5000, seeds: int = 6) -> list[dict[str, str]]:
    """The rows of a setting that lost its ring in all seeds and served nothing."""
    rows = setting(size, 900, messages, seeds, dead=seeds)
    return [one | {"right-1": "0", "right-2": "0", "judged-found": "0"} for one in rows]


def summary_of(rows: list[dict[str, str]]) -> Summary:
    """The setting of these rows."""
    [one] = summaries(tables_of(rows, vary={"list": [1]}))
    return one


class MissedGoalTest(TestCase):
    """Why no setting reaches a goal. Six seeds have (901 to 906) / 950 right: 95.105 %, standard error 0.0804 %."""

    def test_bound_that_misses(self) -> None:
        """t of five degrees is 3.534 at 1 - 0.05 / 6, one-sided: 95.105 - 0.284 = 94.821 %, rounded down."""
        text = told(setting(4, 900, 5000), goal=goal(0.99))
        assert "missed: right of begun, shown to be at least 94.82 % (limit 99 %)." in text
        assert "Each setting is shown to miss it." in text and "Not decided" not in text

    def test_rate_of_losses_that_misses(self) -> None:
        """Six rings of 100 s, none lost: ln 120 / 0.1667 hours = 28.72 an hour, rounded up."""
        text = told(setting(4, 900, 5000), goal=goal(0.9, lost_max=17.0))
        assert "missed: rings lost, shown to be below 29 an hour (limit 17)." in text
        assert f"Not decided {OPEN}: list=4 (rings lost, shown to be below 29 an hour (limit 17))." in text

    def test_ring_that_was_lost(self) -> None:
        """If none may be lost, one that was lost shows that the goal is missed."""
        text = told(setting(4, 900, 5000, dead=1), goal=goal(0.5))
        assert "missed: rings lost, 1 of 6 (limit: none)." in text and "Each setting is shown to miss it." in text

    def test_not_decided(self) -> None:
        """The limit lies between both bounds, 94.821 and 95.389 %."""
        text = told(setting(4, 900, 5000), goal=goal(0.951))
        assert f"Not decided {OPEN}: list=4 (right of begun 95.11 ± 0.21 %). {TELL}" in text
        assert "is shown to miss it" not in text

    def test_two_limits_share_the_risk_of_missing(self) -> None:
        """With one limit the bound is 95.389 %. With two, at half the risk each, it is 95.105 + 4.219 * 0.0804."""
        one, both = (told(setting(4, 900, 5000), goal=goal(0.9542, lost_max=most)) for most in (None, 1000.0))
        assert "Each setting is shown to miss it." in one and f"Not decided {OPEN}: list=4 (" in both

    def test_settings_without_a_bound(self) -> None:
        """Four of six rings lost: two have numbers. The answer counts such settings and does not say that they miss."""
        rows = setting(4, 850, 5000), setting(2, 900, 4000, dead=4)
        text = told(*rows, goal=goal(0.99, lost_max=1000.0))
        assert f"1 of 2 settings has {FEW} All others are shown to miss it." in text

    def test_nearest_without_a_bound(self) -> None:
        """It is counted too. Without any other setting nothing is said of others."""
        few = setting(2, 900, 4000, dead=4)
        text = told(few, goal=goal(0.99, lost_max=1000.0))
        assert "the nearest is list=2" in text and f"1 of 1 setting has {FEW}" in text and "to miss it" not in text
        text = told(few, setting(4, 900, 5000, dead=4), goal=goal(0.99, lost_max=1000.0))
        assert f"2 of 2 settings have {FEW}" in text and "to miss it" not in text
        # Six rings of 30 s, all lost: at 1 - 0.05 / 4 / 6 more than 25.6 an hour.
        text = told(setting(2, 900, 4000, dead=2), dead(1), goal=goal(0.9, lost_max=25.0))
        assert "the nearest is list=2" in text and f"1 of 2 settings has {FEW} All others are shown to miss it." in text

    def test_what_is_shown_holds_together(self) -> None:
        """The true means lie on both limits. In at most one study of twenty anything is shown wrongly, either way."""
        draws = Random(11)
        limits = Limit("right_of_begun", True, 900 / 950), Limit("served", True, 0.9)
        wanted = Goal(limits, None, "messages")
        missed = reached = 0
        for _ in range(200):
            found = settings(*(rights(*(900 + round(draws.gauss(0, 9)) for _ in range(6))) for _ in range(5)))
            missed += any(misses(one, wanted, missing_level(found, wanted)) for one in found)
            reached += any(reaches(one, wanted, level_of(found)) for one in found)
        assert missed <= 10 and reached <= 10 and missed + reached > 0, (missed, reached)

    def test_upper_bound_of_served(self) -> None:
        """All six rings lost, nothing served: the mirror image of six that served all, 1 - 0.5512 = 0.4488."""
        one = summary_of(dead(1))
        for value, wanted in ((0.449, True), (0.4487, False)):
            assert misses(one, Goal((Limit("served", True, value),), 1000.0, "messages"), 0.95) == wanted

    def test_units(self) -> None:
        """Times in ms and shares in %: 10 of 950 are given up. `never` and `-` have no unit."""
        rows = setting(4, 900, 5000)
        slowest = {"number": "p99_ms", "is_least": False, "value": 3000}
        for least, value in (("p99_ms", "p99, 2000 ms"), ("p50_ms", "p50, 500 ms"), ("given_up", "given up, 1.053 %")):
            text = told(rows, goal=goal(0.9, least=least, limits=[LIMIT, slowest]))
            assert f"the least {value}, of those" in text and "): right of begun 95.11 ± 0.21 %, p99 2000 ms," in text
        for value, wanted in ((NEVER, "p99 never, rings kept"), ("", "p99 -, rings kept")):
            text = told([one | {"all-us-p99": value} for one in rows], goal=goal(0.9, limits=[slowest]))
            assert f": {wanted} 6 of 6" in text

    def test_rounded_outward(self) -> None:
        """A bound that is written still holds."""
        for value, digits, sign, wanted in (
            (98.996, 4, -1, 98.99), (98.996, 4, 1, 99.0), (7.31, 2, 1, 7.4), (94.94, 4, -1, 94.94), (0.0, 4, -1, 0.0),
            (12345.0, 4, 1, 12350.0), (12345.0, 4, -1, 12340.0), (100.0, 4, 1, 100.0),
        ):
            assert outward(value, digits, sign) == wanted, (value, sign)

    def test_words(self) -> None:
        """Limits, and one ring or several."""
        limits = Limit("right_of_begun", True, 0.99), Limit("p99_ms", False, 300.0)
        wanted = "at least 99 % right of begun and at most 300 ms p99, with "
        for most, rings in ((None, "no ring lost"), (1.0, "less than 1 ring lost per hour"),
                            (0.5, "less than 0.5 rings lost per hour")):
            assert goal_told(Goal(limits, most, "messages")) == wanted + rings


class CheaperTest(TestCase):
    """What is not decided beside an answer."""

    def test_cheaper_and_not_decided(self) -> None:
        """90.05 % with a bound of 89.85 %, at (5.0455 - 4.0455) / 5.0455 = 20 % fewer messages."""
        text = told(setting(4, 900, 5000), setting(2, 852, 4000), goal=goal(0.9))
        assert "**list=4** is the setting with the least messages" in text
        head = f"Not decided, with a lower mean of messages per member and second {OPEN}: list=2 (4.04"
        assert head in text and f", 20 % less; right of begun 90.05 ± 0.21 %). {TELL}" in text

    def test_what_is_not_named(self) -> None:
        """A cheaper one that misses the goal; one that is not decided and costs more; one whose rings are all lost."""
        rows = setting(4, 900, 5000), setting(2, 800, 4000), setting(8, 852, 6000), dead(1, 3000)
        assert "Not decided" not in told(*rows, goal=goal(0.9, lost_max=1000.0))

    def test_of_each_world(self) -> None:
        """Each answer is followed by its own."""
        good, near = (setting(2, right, 3000) for right in (900, 852))
        worlds = {0: [*near, *setting(4, 900, 4000)], 9: [*good, *setting(4, 900, 3500)]}
        rows = [{**one, "loss_ppm": str(loss)} for loss, rows in worlds.items() for one in rows]
        lines = unwrapped(page(tables_of(rows, vary={"loss_ppm": [0, 9], "list": [2, 4]}, goal=GOAL))).splitlines()
        assert lines[2].startswith("With loss_ppm=0: **loss_ppm=0, list=4**")
        assert lines[4].startswith("Not decided, with")
        assert lines[6].startswith("With loss_ppm=9: **loss_ppm=9, list=2**") and "Not decided" not in lines[8]


class DeadRingsTest(TestCase):
    """Settings that kept no ring."""

    def test_one_of_two_settings(self) -> None:
        """It has no messages to compare. What it serves less is compared: 90.35 points, in all six seeds."""
        text = told(setting(4, 900, 5000), dead(1), goal=GOAL)
        assert less_best(text, "list=4") == "**best**" and less_best(text, "list=1") == "all rings lost"
        assert "`all rings lost`: the setting has no ring to compare" in text
        assert "No seed is left out: rings that were lost count with what they served." in text
        less = less_best(told(setting(4, 900, 5000), dead(1)), "list=1")
        assert less.startswith("-90.35 (-") and "apart" not in less
        mixed = told(setting(4, 900, 5000, dead=1), dead(1))
        assert less_best(mixed, "list=4") == "**best**" and less_best(mixed, "list=1").startswith("-75.33 (-")

    def test_all_settings(self) -> None:
        """The page says so first, has no best setting, and does not call dead rings steady."""
        for wanted in (None, GOAL):
            text = told(dead(4), dead(1), goal=wanted)
            assert text.splitlines()[2] == "**Every ring was lost in every setting.**"
            assert "**best**" not in text and "No drift seen" not in text and "the nearest is" not in text
            assert [less_best(text, f"list={size}") for size in (4, 1)] == ["all rings lost"] * 2
            assert "Whether the judged span is steady cannot be said" in text
        assert "together): every ring was lost." in told(dead(4), dead(1), goal=GOAL)
        assert told(dead(4)).splitlines()[2] == "**Every ring was lost.**"
        assert "very ring was lost" not in told(setting(4, 900, 5000), dead(1))

    def test_all_settings_of_a_world(self) -> None:
        """That world alone is named."""
        worlds = {"0": setting(4, 900, 5000), "9": dead(4)}
        rows = [one | {"loss_ppm": loss} for loss, rows in worlds.items() for one in rows]
        more = [one | {"list": "2"} for one in rows]
        text = page(tables_of(rows + more, vary={"loss_ppm": [0, 9], "list": [4, 2]}))
        assert text.splitlines()[2] == "With loss_ppm=9: **every ring was lost in every setting.**"
        assert list(table_of(text, "Settings").values())[2]["served less best, points"] == "all rings lost"

    def test_precision(self) -> None:
        """A setting whose rings were lost did not reach it."""
        wanted: dict[str, Any] = {"number": "served", "half": 0.01, "least_seeds": 5, "most_seeds": 9}
        text = told(dead(4), precision=wanted)
        assert "Stopped at 6 seeds: [precision] wants served to ± 1 points, but every setting has lost rings." in text
