"""What a page says first, its table and its warnings."""

from typing import Any
from unittest import TestCase

from chordsim_tools.members import Members
from chordsim_tools.study.page import page
from chordsim_tools.study.served import Scope
from chordsim_tools.study.trace import TraceReader
from tests.support.judging import read_trace
from tests.support.studies import row, table_of, tables_of, unwrapped

LIMIT: dict[str, Any] = {"number": "right_of_begun", "is_least": True, "value": 0.9}
GOAL: dict[str, Any] = {"limits": [LIMIT], "lost_max": None, "least": "messages"}


def setting(size: int, right: int, messages: int, seeds: int = 6, dead: int = 0) -> list[dict[str, str]]:
    """The rows of a setting, whose numbers differ a little from seed to seed."""
    rows: list[dict[str, Any]] = [
        {"list": size, "seed": seed, "right": right + seed, "messages": messages + 3 * seed**2}
        for seed in range(1, seeds + 1)
    ]
    for one in rows[:dead]:
        one |= {"right": 0, "ringless": 2, "lost-at-us": 30_000_000}
    return [row(**one) for one in rows]


def told(*settings: list[dict[str, str]], **changes: Any) -> str:
    """The page of these settings, a paragraph a line."""
    rows = [one for rows in settings for one in rows]
    sizes = list(dict.fromkeys(int(one["list"]) for one in rows))
    return unwrapped(page(tables_of(rows, vary={"list": sizes}, **changes)))


def cells_of(text: str, label: str) -> dict[str, str]:
    """The cells of a setting by their headers."""
    return {name: cell for heading in ("Settings", "Lookups", "More numbers")
            for name, cell in table_of(text, heading)[label].items()}


def less_best(text: str, label: str) -> str:
    """A setting's difference from the best one."""
    [name] = [name for name in cells_of(text, label) if " less best" in name]
    return cells_of(text, label)[name]


class StudyPageTest(TestCase):
    """The page."""

    def test_nine_of_ten_nodes_strand(self) -> None:
        """They begin no lookups, and the tenth has right answers alone: 10% is served."""
        idents = {f"n{number}": number for number in range(10)}
        reader = TraceReader(Members(idents, idents), Scope(1000, 1000, 100, 0, 10))
        lines = [f"101 n{number} stranded n0" for number in range(1, 10)]
        for time in range(105, 1000, 10):
            lines += [f"{time} n0 lookup 5", f"{time} n0 found 5 n0 hops=0 timeouts=0 us=0"]
        read_trace(lines, reader)
        numbers = {word: "" if value is None else str(value) for word, value in reader.numbers().items()}
        rows = [{**row(list=1, seed=seed), **numbers} for seed in range(1, 6)]
        cells = cells_of(told(rows), "list=1")
        assert cells["served, %"].startswith("10.01 (") and cells["right of begun, %"].startswith("100 (")
        assert cells["right of begun, %"].endswith("..100)")

    def test_dead_rings_are_told(self) -> None:
        """Kept of all with an interval; means say how many rings are in them; served has all seeds."""
        cells = cells_of(told(setting(2, 900, 5000), setting(1, 900, 4000, dead=1)), "list=1")
        assert cells["rings kept"] == "5 of 6 (36..100 %)" and cells["rings lost an hour"] == "6.8 (0.17..38)"
        assert cells["served, %"] == "75.33 (16.5..93.1)" and cells["right of begun, %"].endswith(" (5 of 6)")
        kept = cells_of(told(setting(2, 900, 5000)), "list=2")
        assert kept["rings kept"] == "6 of 6 (54..100 %)" and kept["rings lost an hour"] == "below 22"

    def test_answer(self) -> None:
        """The cheapest one that reaches the goal; one that lost a ring is none, however cheap."""
        text = told(setting(4, 900, 5000), setting(2, 900, 4000), setting(1, 900, 3000, dead=1), goal=GOAL)
        first = "**list=2** is the setting with the least messages per member and second"
        assert text.splitlines()[2].startswith(first)
        assert "reach at least 90 % right of begun, with no ring lost" in text and "rings kept 6 of 6" in text
        assert less_best(text, "list=2") == "**best**" and less_best(text, "list=4") == "1"

    def test_an_answer_for_each_world(self) -> None:
        """Nobody chooses how many messages are lost: each world has its answer and its best setting."""
        worlds = {
            0: [*setting(2, 900, 5000), *setting(4, 900, 4000)],
            9: [*setting(2, 900, 3000), *setting(4, 900, 3500)],
        }
        rows = [{**one, "loss_ppm": str(loss)} for loss, rows in worlds.items() for one in rows]
        text = unwrapped(page(tables_of(rows, vary={"loss_ppm": [0, 9], "list": [2, 4]}, goal=GOAL)))
        lines = text.splitlines()
        assert lines[2].startswith("With loss_ppm=0: **loss_ppm=0, list=4** is the setting with the least messages")
        assert lines[4].startswith("With loss_ppm=9: **loss_ppm=9, list=2** is the setting with the least messages")
        labels = [f"loss_ppm={loss}: list={size}" for loss in worlds for size in (2, 4)]
        assert list(table_of(text, "Settings")) == list(table_of(text, "More numbers")) == labels
        best = [label for label in labels if less_best(text, label) == "**best**"]
        assert best == ["loss_ppm=0: list=4", "loss_ppm=9: list=2"]
        assert "this setting less the best one with the same loss_ppm, seed by seed" in text
        whole = unwrapped(page(tables_of(rows, vary={"loss_ppm": [0, 9], "list": [2, 4]}, goal=GOAL, world=[])))
        assert list(table_of(whole, "Settings")) == [label.replace(":", ",") for label in labels]
        assert "this setting less the best one, seed by seed" in whole
        assert whole.splitlines()[2].startswith("**loss_ppm=9, list=2** is the setting")

    def test_note(self) -> None:
        """What the author of a study says follows the answer."""
        text = told(setting(4, 900, 5000), setting(2, 900, 4000), goal=GOAL, note="\nWhy this is so.\n")
        assert text.splitlines()[4] == "Why this is so."

    def test_no_answer(self) -> None:
        """A goal that nothing reaches: the nearest one. Few seeds: none."""
        high = {**GOAL, "limits": [{**LIMIT, "value": 0.99}]}
        text = told(setting(4, 900, 5000), setting(2, 850, 4000), setting(1, 930, 3000, dead=1), goal=high)
        assert text.splitlines()[2].startswith("No setting reaches at least 99 % right of begun, with no ring lost")
        assert "the nearest is list=4: right of begun 95.11 ± 0.21 %" in text, text
        assert "No answer: fewer than 5 seeds." in told(setting(4, 900, 5000, seeds=4), goal=GOAL)

    def test_bound_and_not_the_mean_decides(self) -> None:
        """A mean just above the limit, with a bound below it."""
        near = {**GOAL, "limits": [{**LIMIT, "value": 0.95}]}
        assert "No setting reaches" in told(setting(4, 900, 5000), goal=near)
        assert "**list=4** is" in told(setting(4, 904, 5000), goal=near)

    def test_served_with_rings_lost(self) -> None:
        """The bound by betting at 5 %: 0.1962 if one ring of six served nothing, 0.4980 if none was lost."""
        limit: dict[str, Any] = {"number": "served", "is_least": True}
        for dead, least, word in (
            (1, 0.196, "**list=1** is"), (1, 0.197, "No setting reaches"), (0, 0.498, "**list=1** is"),
            (0, 0.499, "No setting reaches"),
        ):
            goal: dict[str, Any] = {"limits": [{**limit, "value": least}], "lost_max": 100.0, "least": "messages"}
            assert word in told(setting(1, 900, 3000, dead=dead), goal=goal), (dead, least)

    def test_rate_of_losses(self) -> None:
        """Six rings of 100 s without a loss: fewer than ln(6 / 0.05) / 0.1667 = 28.7 an hour, at each look."""
        for most, word in ((28.0, "No setting reaches"), (29.0, "**list=4** is")):
            assert word in told(setting(4, 900, 5000), goal={**GOAL, "lost_max": most})

    def test_equal_settings_are_not_told_apart(self) -> None:
        """Equal rows are said to be so; nearly equal ones are not told apart; different ones are."""
        text = told(setting(8, 900, 5000), setting(4, 900, 5000), setting(2, 880, 5000))
        assert less_best(text, "list=8") == "**best**"
        assert less_best(text, "list=4") == "**best** too: the same run in 6 of 6 seeds"
        # Six of six serve less: 2 / 2 ** 6 = 0.031 is above 0.05 / 3, and six seeds bound no mean of such differences.
        assert less_best(text, "list=2").startswith("-2 (-") and less_best(text, "list=2").endswith(", not told apart")
        ten = told(setting(8, 900, 5000, seeds=10), setting(2, 880, 5000, seeds=10))
        assert less_best(ten, "list=2").startswith("-2 (-") and "apart" not in less_best(ten, "list=2")

    def test_equal_settings_are_named_together(self) -> None:
        """Those with the runs of the best one are no worse, and a longer list may be safer. Others are left alone."""
        rows = setting(2, 900, 5000), setting(4, 900, 5000), setting(8, 900, 9000)
        text = told(*rows, goal=GOAL)
        assert "**list=2** is the setting with the least" in text
        assert " **list=4** has the same runs in all seeds, so take the one with the most reserve" in text
        assert less_best(text, "list=4") == "**best** too: the same run in 6 of 6 seeds" and "**list=8**" not in text

    def test_one_favourite(self) -> None:
        """Without an answer the nearest setting is the one that the others are compared with."""
        high = {**GOAL, "limits": [{**LIMIT, "value": 0.999}]}
        rows = setting(2, 940, 4000), setting(4, 900, 5000)
        rows = ([one | {"right": str(int(one["right"]) - 20), "wanted": "900"} for one in rows[0]], rows[1])
        text = told(*rows, goal=high)
        assert "the nearest is list=2:" in text and less_best(text, "list=2") == "**best**"

    def test_worlds_and_warnings(self) -> None:
        """What is the same in all seeds, by the manifest; commands of a base; few seeds; the end's cut."""
        text = told(setting(4, 900, 5000, seeds=3), commands={"crash": 559, "join": 546}, latency="king.csv")
        same = "base.toml with its commands (559 crash, 546 join), identifiers, latencies (king.csv)"
        assert f"The same in all: {same}" in text
        assert "(559 crash, 546 join) are the same in all seeds" in text and "Fewer than 5 seeds: no intervals." in text
        made = told(setting(4, 900, 5000), generate=["--nodes", "4"], latency_arguments=["--plane", "1s"], base=None)
        assert "New in each: timers and random keys, identifiers, latencies." in made and "The same in all" not in made
        assert "- `tools/generate --nodes 4`, for each seed" in made
        assert "Rings count as kept" not in made
        hollow = [one | {"right": "499"} for one in setting(2, 900, 5000, seeds=5)]
        assert (
            "of the wanted lookups. Audits still find a ring there, if only of a few members: list=2 (2 of 5 seeds)."
            in " ".join(told(hollow[:2] + setting(2, 900, 5000, seeds=5)[2:]).split())
        )
        cut = told([row(list=4, seed=1, **{"cut-by-end": 9})])
        assert "The end cut off 0.9 % of the judged lookups, which are left out: set cooldown_us." in cut

    def test_sizes(self) -> None:
        """Bytes by the table of sizes: ten messages of each kind in 1,000 s of members."""
        kinds = ("step", "get-state", "get-list", "ping", "notify", "step-reply", "state-reply", "list-reply", "pong")
        text = told(setting(1, 900, 5000), sizes=dict.fromkeys(kinds, 100))
        assert table_of(text, "More numbers")["list=1"]["bytes /member/s"] == "9"

    def test_precision(self) -> None:
        """Whether it was reached."""
        wanted: dict[str, Any] = {"number": "right_of_begun", "half": 0.01, "least_seeds": 5, "most_seeds": 9}
        reached = told(setting(1, 900, 5000), precision=wanted)
        assert "Stopped at 6 seeds by [precision]: right_of_begun to ± 1 points" in reached
        for key, value in (("half", 0.0001), ("number", "served")):
            assert "Stopped at most_seeds, 6" in told(setting(1, 900, 5000), precision={**wanted, key: value})

    def test_precision_of_a_number_that_no_run_has(self) -> None:
        """A number without an interval is not narrow."""
        wanted: dict[str, Any] = {"number": "p99_ms", "half": 1, "least_seeds": 5, "most_seeds": 6}
        rows = [one | {"all-us-p99": ""} for one in setting(1, 900, 5000)]
        assert "Stopped at most_seeds, 6: [precision] wants p99_ms to ± 1, which" in told(rows, precision=wanted)

    def test_rest(self) -> None:
        """The question, the commands and the digests."""
        text = told(setting(2, 900, 5000))
        assert text.startswith("# How?\n")
        assert "chordsim run --scenario FOLDER/done/list=2,seed=1.toml --serial" in text
        assert "| study.toml | `bad` |" in text and "| the program | `f00` |" in text
        later = "This page may have been written by a later `tools/study`."
        assert f"The tables were made by `tools/study` of commit `abc`. {later}" in text
        made: dict[str, Any] = {"tool": {"commit": "abc+"}, "program": {"sha256": "f00", "commit": "def"}}
        text = told(setting(2, 900, 5000), **made)
        both = "`tools/study` of commit `abc+` and by the program of commit `def`"
        assert f"The tables were made by {both}. `+` means: with changes since that commit. {later}" in text
        made = {name: {**one, "commit": None} for name, one in made.items()}
        assert "The tables were made by" not in told(setting(2, 900, 5000), **made)
