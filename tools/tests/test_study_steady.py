"""Whether a judged span is steady: trends and waves of made series, by hand and by many random studies."""

from collections.abc import Callable
from random import Random
from typing import Any
from unittest import TestCase

from chordsim_tools.members import Members, Presence
from chordsim_tools.messages import MESSAGES
from chordsim_tools.study.judged import Judged
from chordsim_tools.study.numbers import summaries
from chordsim_tools.study.page import page
from chordsim_tools.study.pieces import Pieces
from chordsim_tools.study.plan import read_study
from chordsim_tools.study.served import Scope
from chordsim_tools.study.starts import churn_trap, longest_round, round_traps, seeds_traps
from chordsim_tools.study.steady import look
from chordsim_tools.study.tables import Tables
from tests.support.judging import table_of
from tests.support.studies import row, tables_of, unwrapped
from tests.test_study_run import BASE, STUDY, called, said, study_folder

STEPS = 12
NODES = 1_000_000
Shares = Callable[[int, int, int], float]
"""The share of members for a list, a seed and a step."""


def study_of(members: Shares, sizes: int = 1, seeds: int = 6, lost: int = 0, **changes: Any) -> Tables:
    """A study of 120 s with steps of 10 s and a million nodes, in which only the members change."""
    runs, series = [], []
    for size in range(1, sizes + 1):
        for seed in range(1, seeds + 1):
            cells: dict[str, Any] = {"ringless": 1, "lost-at-us": 5} if seed <= lost else {}
            runs.append(row(**{"list": size, "seed": seed, "duration-us": 120_000_000, **cells}))
            for step in range(STEPS):
                series.append({
                    "list": str(size), "seed": str(seed), "from_us": str(10_000_000 * step), "lookups": "100",
                    "found": "100", "right": "99", "members": str(round(NODES * members(size, seed, step))),
                    "ended": "100", "right-of-ended": "99", "wanted": "110",
                })
    tables = tables_of(runs, vary={"list": list(range(1, sizes + 1))}, **{"nodes": NODES, **changes})
    return Tables(tables.manifest, runs, series)


def sentence(tables: Tables) -> str:
    """What the page says of it."""
    lines = unwrapped(page(tables)).splitlines()
    [found] = [line for line in lines if "steady" in line.lower() or line.startswith("No drift")]
    return found


class SteadyTest(TestCase):
    """Six pieces of two steps each."""

    def test_trend(self) -> None:
        """A straight line from 90.5 to 85.5 %, in seeds that differ by a tenth of a point: it falls by five points."""
        tables = study_of(lambda _, seed, step: 0.9 + 0.001 * seed * (step % 4 == 3) - 0.01 * (step // 2))
        [change] = [one for one in look(tables, summaries(tables)).changes if one.piece is None]
        # Seeds add s / 2000 to the second, fourth and sixth piece: their contrast is 5 / 17.5 * (-1.5 + 0.5 + 2.5).
        extra = 0.0005 * 3.5 * 5 / 17.5 * 1.5
        assert change.number == "members" and abs((change.found.mean or 0) + 0.05 - extra) < 1e-9, change
        assert "**Not steady** in the judged span: members -4." in sentence(tables)

    def test_wave(self) -> None:
        """The halves agree, and the third and fourth steps do not: they have six points more than the rest."""
        tables = study_of(lambda _, seed, step: 0.8 + 0.002 * (seed % 3) + (0.06 if step in (2, 3, 8, 9) else 0.0))
        told = [(one.piece, round(one.found.mean or 0, 3)) for one in look(tables, summaries(tables)).changes]
        assert ((20_000_000, 40_000_000), 0.048) in told and not [piece for piece, _ in told if piece is None], told
        assert "members +4.8" in sentence(tables) and "from 20s to 40s, against the rest (list=1)" in sentence(tables)

    def test_eleven_steps(self) -> None:
        """The pieces have one step and five times two, so that a change in the last two is seen."""
        tables = study_of(
            lambda _, seed, step: 0.8 + 0.002 * (seed % 3) + (0.06 if step > 8 else 0.0), cooldown_us=10_000_000,
        )
        told = [(one.piece, round(one.found.mean or 0, 3)) for one in look(tables, summaries(tables)).changes]
        assert ((90_000_000, 110_000_000), 0.06) in told, told

    def test_pieces_of_lookups(self) -> None:
        """Numbers of lookups are of six equal pieces: the last one of 110 s begins at 550 / 6 s."""
        goal = {"limits": [{"number": "hops", "is_least": False, "value": 9.0}], "lost_max": None, "least": "messages"}
        tables = study_of(lambda *_: 0.9, goal=goal, cooldown_us=10_000_000)
        for cells in tables.runs:
            found = {"ended-hops": "20 20 20 20 20 26", "judged-found": "9 9 9 9 9 9", "judged-lost": "1 1 1 1 1 1"}
            cells.update({f"pieces-{word}": values for word, values in found.items()})
        pieces = [one for one in look(tables, summaries(tables), {"hops"}).changes if one.piece is not None]
        assert max(pieces, key=lambda one: one.found.mean or 0.0).piece == (91_666_667, 110_000_000)

    def test_steady(self) -> None:
        """The page says how far each number may have moved, and which number of the goal it did not look at."""
        limits = [{"number": "p99_ms", "is_least": False, "value": 3000.0}]
        goal = {"limits": limits, "lost_max": None, "least": "messages"}
        draws = Random(5)
        text = sentence(study_of(lambda *_: 0.9 + draws.gauss(0, 0.01), goal=goal))
        assert text.startswith("No drift and no waves seen in the judged span."), text
        assert "From its begin to its end: served 0 points, right of begun 0 points, members " in text
        told = "messages (known for the whole run alone); p99 (too few lookups in each piece)"
        assert text.endswith(f"Not looked at: {told}.")

    def test_false_alarms(self) -> None:
        """Of steady studies of four settings about one in twenty, or fewer, is said not to be steady."""
        draws = Random(9)
        worlds = {seed: draws.gauss(0.8, 0.03) for seed in range(1, 9)}
        alarms = []
        for _ in range(120):
            tables = study_of(lambda _, seed, step: worlds[seed] + draws.gauss(0, 0.01), 4, 8)
            alarms.append(bool(look(tables, summaries(tables)).changes))
        assert sum(alarms) <= 12, sum(alarms)

    def test_a_common_drift_is_seen_in_the_mean_of_the_settings(self) -> None:
        """A drift of three points that no setting shows by itself."""
        draws = Random(2)
        tables = study_of(lambda _, seed, step: 0.9 - 0.0025 * step + draws.gauss(0, 0.035), 8, 8)
        assert {one.where for one in look(tables, summaries(tables)).changes} == {"all settings"}

    def test_lost_rings_and_few_steps(self) -> None:
        """Settings with fewer than five rings kept are left out; one step says nothing."""
        drifting = study_of(lambda _, seed, step: 0.9 - 0.01 * step + 0.0001 * seed * step, lost=2)
        assert look(drifting, summaries(drifting)).left == 1
        assert sentence(drifting).startswith("Whether the judged span is steady cannot be said")
        short = study_of(lambda _, seed, step: 0.9 - 0.01 * step, cooldown_us=105_000_000)
        assert sentence(short).startswith("Whether the judged span is steady cannot be said")

    def test_older_series(self) -> None:
        """Without what was wanted the right answers of the found ones and the members are left."""
        tables = study_of(lambda *_: 0.9)
        for line in tables.series:
            for word in ("ended", "right-of-ended", "wanted"):
                del line[word]
        assert sentence(tables).startswith("No drift and no waves seen") and "right of begun" in sentence(tables)
        assert "served" not in sentence(tables)

    def test_times_of_the_goal(self) -> None:
        """If the goal names p99 it is looked at: 2,000 ms in the first piece, and 50 ms more in each of the next."""
        limits = [{"number": "p99_ms", "is_least": False, "value": 3000.0}]
        tables = study_of(lambda *_: 0.9, goal={"limits": limits, "lost_max": None, "least": "messages"})
        for cells in tables.runs:
            times = [2_000_000 + 50_000 * place + 1000 * int(cells["seed"]) * (place % 2) for place in range(6)]
            cells["pieces-us-p99"] = " ".join(map(str, times))
        text = sentence(tables)
        # Seeds add s ms to every second piece: s * 5 / 17.5 * (-1.5 + 0.5 + 2.5), on average 1.5 ms.
        assert "**Not steady** in the judged span: p99 +251.5" in text, text
        assert "Not looked at: messages (known" in text, text

    def test_messages_of_the_goal(self) -> None:
        """Two members for 10 s a piece: 40 messages, 10 of them of lookups, and two pings more in each piece."""
        goal = {"limits": [{"number": "hops", "is_least": False, "value": 9.0}], "lost_max": None}
        for least, told in (("messages", "+0.518"), ("upkeep", "+0.518"), ("bytes", "+5.18")):
            tables = study_of(lambda *_: 0.9, goal={**goal, "least": least})
            tables.manifest["sizes"] = dict.fromkeys(MESSAGES, 10)
            for cells in tables.runs:
                pings = [2 * place + int(cells["seed"]) % 2 * (place == 5) for place in range(6)]
                columns = {"sent-step": [40] * 6, "sent-ping": pings, "messages": [40 + ping for ping in pings],
                           "messages-lookups": [10] * 6, "cost-member-us": [20_000_000] * 6,
                           "ended-hops": [20, 20, 20, 20, 20, 26], "judged-found": [9] * 6, "judged-lost": [1] * 6}
                columns |= {f"sent-{kind}": [0] * 6 for kind in MESSAGES if f"sent-{kind}" not in columns}
                cells.update({f"pieces-{word}": " ".join(map(str, values)) for word, values in columns.items()})
            text = sentence(tables)
            # Ten pings more in 20 s are 0.5 a second. Half of the seeds add one to the last piece: 2.5 * 5 / 17.5 / 40.
            assert f"{least} {told}" in text and "/member/s from its begin to its end" in text, text
            assert "hops a lookup +0.4286 from" in text and "Not looked at" not in text, text


class PiecesTest(TestCase):
    """Times of lookups in the six pieces of the judged span."""

    def test_percentiles(self) -> None:
        """Ten lookups in each piece of 100 us from 100 on; in the second one five have no answer, in the third six."""
        columns = []
        for lost in ({1: 5, 2: 6}, {1: 5, 2: 5}):
            members, lines = Members({"n0": 3, "n1": 4}, ["n1"]), []
            for place in range(-1, 7):
                for number in range(10):
                    begin, taken = 100 + 100 * place + number, 20 + 10 * place + number
                    end = "lost 5" if number >= 10 - lost.get(place, 0) else "found 5 n1"
                    lines.append(f"{begin + taken} n0 {end} hops=1 timeouts=0 us={taken}")
            scope = Scope(800, 100, 100, 100)
            judged = Judged(scope)
            judged.take(table_of(lines, members), Presence(members))
            columns.append(Pieces(scope, members).numbers(judged))
        # By nearest rank the fifth of ten, which the third piece does not have, and does with one answer more.
        assert [columns[0][f"pieces-us-p{share}"] for share in ("50", "90", "99", "99.9")] == [None] * 4
        assert columns[1]["pieces-us-p50"] == "24 34 44 54 64 74"
        assert columns[0]["pieces-judged-lost"] == "0 5 6 0 0 0"


class StartTest(TestCase):
    """What does not last."""

    def test_churn(self) -> None:
        """Lives of tools/generate need --stationary, in the arguments or in [vary]."""
        life = ["--nodes", "8", "--lifetime", "exp:40s"]
        told = churn_trap(life, {})
        first = "--lifetime without --stationary: all nodes are new at the start, so that crashes come"
        assert len(told) == 1 and told[0].startswith(first)
        assert "set --lifetime with --stationary" in churn_trap(["--churn-uniform", "1s..2s", "1s..2s"], {})[0]
        assert churn_trap(["--nodes=8"], {"generate.--lifetime": ["exp:4s"]})
        for quiet in ([*life, "--stationary"], ["--nodes", "8"], None):
            assert churn_trap(quiet, {}) == []

    def test_rounds(self) -> None:
        """16 bits and 250 ms: 15 fingers in 3.75 s. A jitter of 50 ms and 32 bits: 31 times 275 ms, 8.525 s."""
        with study_folder(STUDY) as folder:
            assert longest_round(read_study(folder / "study.toml")) == 3_750_000
            (folder / "base.toml").write_text(BASE.replace("bits = 16", "bits = 32\njitter_us = 50000"))
            assert longest_round(read_study(folder / "study.toml")) == 8_525_000
            varied = 'question = "How?"\ngenerate = ["--nodes", "8"]\nseeds = 2\n[vary]\n'
            varied += '"generate.--finger" = ["1s", "2s"]\n"generate.--bits" = [8, 16]\n'
            (folder / "study.toml").write_text(varied)
            assert longest_round(read_study(folder / "study.toml")) == 15 * 2_025_000

    def test_rounds_of_fingers_that_are_not_near(self) -> None:
        """Of 8 nodes profile 4 refreshes four fingers, and five of 16; without skip_near 31. Fingers have a jitter."""
        generate = 'question = "How?"\ngenerate = ["--profile", "4", "--finger", "1s", "--jitter", "100ms", '
        generate += '"--nodes", "8"'
        for more, wanted in (
            ("]", 4 * 1_050_000), (', "--no-skip-near"]', 31 * 1_050_000), (', "--finger-jitter", "0"]', 4_000_000),
            (']\n[vary]\n"generate.--nodes" = [8, 16]', 5 * 1_050_000),
            (']\n[vary]\nskip_near = [true, false]', 31 * 1_050_000),
            (']\n[vary]\n"generate.--finger-jitter" = ["0s", "200ms"]', 4 * 1_100_000),
        ):
            vary = more.replace("]\n", "]\nseeds = 2\n", 1) if "\n" in more else f"{more}\nseeds = 2\n"
            with self.subTest(more), study_folder(generate + vary + "\n") as folder:
                assert longest_round(read_study(folder / "study.toml")) == wanted

    def test_short_rounds(self) -> None:
        """A warm-up and a judged span of 20 s, and rounds of 20 and 21 s."""
        facts = {"duration_us": 45_000_000, "warmup_us": 20_000_000, "cooldown_us": 5_000_000}
        told = round_traps({**facts, "finger_round_us": 21_000_000})
        first = "warmup_us (20s) and the judged span (20s) are below one round of fingers, 21s, in which"
        assert len(told) == 1 and told[0].startswith(first)
        assert round_traps({**facts, "finger_round_us": 20_000_000}) == round_traps(facts) == []

    def test_limits_that_seeds_cannot_show(self) -> None:
        """Ten worlds show 0.025 ** 0.1 = 69.1 % served at most, and 90 % takes ln 40 / -ln 0.9 = 35.01 of them."""
        for limit, wanted in ((0.69, 0), (0.7, 1), (0.9, 1)):
            text = STUDY.replace("seeds = [1, 2]", "seeds = 10") + f"[goal]\nserved_min = {limit}\n"
            with study_folder(text) as folder:
                told = seeds_traps(read_study(folder / "study.toml"))
                assert len(told) == wanted, (limit, told)
        assert told[0].startswith("[goal] served_min = 0.9 cannot be shown by 10 seeds: it takes 36 or more")

    def test_before_the_first_run(self) -> None:
        """Both are told on standard error, and on the page. The round is 15 times 275 ms."""
        text = 'question = "How?"\nseeds = 2\nwarmup_us = "4s"\ngenerate = ["--nodes", "16", "--bits", "16", '
        text += '"--duration", "20s", '
        with study_folder(text + '"--lifetime", "exp:40s", "--stay", "2"]\n') as folder:
            status, _, told = called(folder)
            assert status == 0 and "warning: --lifetime without --stationary" in told, told
            assert "warning: warmup_us (4s) is below one round of fingers, 4125ms" in told, told
            assert said("report", folder / "study")[0] == 0
            page_text = unwrapped((folder / "study" / "report.md").read_text())
            assert "Warning: --lifetime without" in page_text and "Warning: warmup_us (4s) is below" in page_text
