"""A small form of examples/published: lookups just after a failure, under churn, after repair, and in new rings.

The settings are those of failure.toml, churn.toml, repair.toml, length.toml, load.toml, stretch.toml and sites.toml,
with two seeds and fewer lookups.
"""

import hashlib
import importlib.util
import io
import json
import math
import tomllib
from contextlib import redirect_stdout
from functools import cache
from pathlib import Path
from tempfile import TemporaryDirectory
from typing import Any, NamedTuple
from unittest import TestCase

from chordsim_tools.study.task import Task, result_of
from chordsim_tools.study.worlds import text_of
from tests.support.programs import program

FOLDER = Path(__file__).resolve().parents[2] / "examples" / "published"
SEEDS, SECOND = (1, 2), 1_000_000
LOOKUPS = {0.0: "0.0022", 0.2: "0.00275", 0.4: "0.0037"}
"""The rate of lookups for each share that fails: about 2,000 of them in 900 seconds."""
PUBLISHED = {0.0: (3.84, 0.0), 0.2: (4.22, 1.17), 0.4: (4.69, 3.23)}
"""The published mean hops and timeouts, by the share that fails."""
NOT_LEARNT = ("--no-drop-silent", "--lookup-timeouts", "64")
"""The setting of the published table: no lookup learns from another one, and none reaches a limit."""
AS_BEFORE = ("--no-list-routes", "--no-goes-on", "--no-ask-owner")
CHURN = {0.2: (3.81, 0.23, 5), 0.4: (4.06, 0.46, 15)}
"""The published mean hops and timeouts, and failures of 10,000 lookups, by the rate of joins."""
SHORT = ("--bits", "24")
"""Where skip_near leaves about eleven fingers in the rotation of 1,000 nodes."""
LONG = ("--bits", "20", "--no-skip-near")
"""Nineteen fingers in the rotation."""


class Counted(NamedTuple):
    """What became of the lookups of some runs."""

    ended: int
    hops: float
    timeouts: float
    lost: int
    wrong: int


def arguments(study: str, *more: str) -> list[str]:
    """The arguments of tools/generate of a study in the folder, and more, which take the place of the study's."""
    words: list[str] = tomllib.loads((FOLDER / study).read_text(encoding="utf-8"))["generate"]
    for word in more:
        if word.startswith("--") and word in words:
            place = words.index(word)
            del words[place : place + 2]
    return [*words, *more]


def rows_of(words: list[str], warmup: int = SECOND) -> list[dict[str, Any]]:
    """What a row of runs.csv has of each seed, of lookups that begin after the warm-up, by the program."""
    runs, rows = program(), []
    for seed in SEEDS:
        text = text_of("a test", (*words, "--seed", str(seed)))
        with TemporaryDirectory() as folder:
            path = Path(folder) / "scenario.toml"
            path.write_text(text, encoding="utf-8")
            task = Task("", text, None, 100 * SECOND, warmup, 20 * SECOND, "")
            rows.append(result_of(task, runs, path, None)["numbers"])
    return rows


def counted(words: list[str], warmup: int = SECOND) -> Counted:
    """The lookups of all seeds that begin after the warm-up."""
    ended = hops = timeouts = lost = wrong = 0
    for numbers in rows_of(words, warmup):
        ended += numbers["judged-found"] + numbers["judged-lost"]
        hops += numbers["ended-hops"]
        timeouts += numbers["ended-timeouts"]
        lost += numbers["judged-lost"]
        wrong += numbers["wrong"]
    return Counted(ended, hops / ended, timeouts / ended, lost, wrong)


@cache
def after_failure(share: float, *more: str) -> Counted:
    """Lookups after a share of the nodes has failed. Without more arguments drop_silent is true."""
    crash = f"{max(100 * share, 0.01):g}%@1s"
    return counted(arguments("failure.toml", "--crash", crash, "--lookups", LOOKUPS[share], *more))


@cache
def under_churn(rate: float, *more: str) -> Counted:
    """Lookups of half an hour while nodes join and crash at this rate, after ten minutes of it."""
    words = ("--arrivals", f"{rate}/s", "--lifetime", f"exp:{996 / rate:.0f}s", "--duration", "2430s")
    return counted(arguments("churn.toml", *words, *more), 600 * SECOND)


class PublishedTablesTest(TestCase):
    """Means near the published ones, and right answers; neither without the rules."""

    def test_near_the_published(self) -> None:
        """Hops within 0.15, and timeouts within 0.6."""
        for share, (hops, timeouts) in PUBLISHED.items():
            with self.subTest(share=share):
                found = after_failure(share, *NOT_LEARNT)
                assert abs(found.hops - hops) < 0.15, found
                assert abs(found.timeouts - timeouts) < 0.6, found

    def test_answers_after_a_failure(self) -> None:
        """None is lost, and all are right. Timeouts come only of nodes that have failed."""
        for share in PUBLISHED:
            with self.subTest(share=share):
                found = after_failure(share, *NOT_LEARNT)
                assert found.ended > 3_500, found
                assert (found.lost, found.wrong) == (0, 0), found
                assert (found.timeouts > 0) == (share > 0), found

    def test_learning_saves_timeouts(self) -> None:
        """With drop_silent a node asks nobody again whom its lookups have found silent. The hops are the same."""
        found, other = after_failure(0.4), after_failure(0.4, *NOT_LEARNT)
        assert (found.lost, found.wrong) == (0, 0), found
        assert found.timeouts < other.timeouts - 0.2, (found, other)
        assert abs(found.hops - other.hops) < 0.02, (found, other)

    def test_without_the_rules(self) -> None:
        """Without the three rules lookups are longer, and some are lost or name a node that has failed."""
        found, other = after_failure(0.4, *NOT_LEARNT, *AS_BEFORE), after_failure(0.4, *NOT_LEARNT)
        assert found.lost + found.wrong > found.ended // 10, found
        assert found.hops > 1.5 * other.hops, (found, other)

    def test_churn(self) -> None:
        """Hops within 0.2 of the published, no more failures, and fewer timeouts by a shorter rotation."""
        for rate, (hops, timeouts, failures) in CHURN.items():
            with self.subTest(rate=rate):
                found = under_churn(rate, *SHORT)
                assert found.ended > 3_300, found
                assert abs(found.hops - hops) < 0.2, found
                assert (found.lost + found.wrong) * 10_000 <= failures * found.ended, found
                assert timeouts / 3 < found.timeouts < timeouts, found

    def test_load(self) -> None:
        """The keys of 1,000 nodes: the 99th percentile near 4.6 times the mean, the first one near none."""
        for numbers in rows_of(arguments("load.toml", "--nodes", "1000", "--lookup-gap", "800ms..2400ms"), 0):
            keys = numbers["judged-found"] / 1000
            assert 40 < keys < 60 and numbers["judged-lost"] + numbers["wrong"] == 0, numbers
            assert numbers["owned-p1"] < 0.1 * keys and 3.6 < numbers["owned-p99"] / keys < 5.6, numbers
            assert numbers["owned-p99"] < numbers["owned-most"] < 12 * keys, numbers

    def test_stretch(self) -> None:
        """In a ring of 4,096 nodes, with lists of 1: a lookup has six hops, and so six round trips of usual length."""
        words = arguments("stretch.toml", "--nodes", "4096", "--lookup-gap", "1s..40s")
        asked, unasked = (rows_of([*words, "--list", "1", *more], 0) for more in ((), ("--no-ask-owner",)))
        for one, other in zip(asked, unasked, strict=True):
            found = [float(other[f"stretch-p{share}"]) for share in (10, 50, 90)]
            assert found[0] < 6 < found[2] and abs(found[1] - 6) < 0.5, found
            assert all(abs(float(one[f"stretch-p{share}"]) - number - 1) < 0.01
                       for share, number in zip((10, 50, 90), found, strict=True)), (one, other)

    def test_sites(self) -> None:
        """On ten sites 180 nodes have five round trips, and a median near 285 ms, not twice that of ten nodes."""
        found = []
        for nodes, lookups in ((10, "0.11"), (180, "0.0063")):
            words = ("--nodes", str(nodes), "--lookups", lookups, "--list", "1")
            found.append(rows_of(arguments("sites.toml", *words, "--coordinates", f"file:{FOLDER / 'sites.csv'}"), 0))
        for few, many in zip(*found, strict=True):
            assert many["judged-found"] > 800 and many["judged-lost"] + many["wrong"] == 0, many
            assert abs(many["ended-hops"] / many["judged-found"] + 1 - 5) < 0.7, many
            assert 0.7 * 285_000 < many["us-p50"] < 285_000, many
            assert 1.3 < many["us-p50"] / few["us-p50"] < 2.1, (few, many)

    def test_rotation(self) -> None:
        """With nineteen fingers in the rotation timeouts are the published ones, within a fifth of them."""
        hops, timeouts, failures = CHURN[0.4]
        found = under_churn(0.4, *LONG)
        assert abs(found.hops - hops) < 0.3 and abs(found.timeouts - timeouts) < timeouts / 5, found
        assert (found.lost + found.wrong) * 10_000 <= failures * found.ended, found

    def test_churn_without_the_rules(self) -> None:
        """If owners are not asked, and newcomers do not ask successors, there are more failures than published."""
        found = under_churn(0.4, *SHORT, "--no-ask-owner", "--no-join-asks")
        assert (found.lost + found.wrong) * 10_000 > CHURN[0.4][2] * found.ended, found

    def test_repair(self) -> None:
        """Ten minutes after 40 % of the nodes have failed none is lost, all are right, and none meets a silent node."""
        words = ("--list", "20", "--crash", "40%@60s", "--lookups", "0.01", "--duration", "980s", "--audit", "60s")
        found = counted(arguments("repair.toml", *words), 660 * SECOND)
        assert found.ended > 3_300, found
        assert (found.timeouts, found.lost, found.wrong) == (0, 0, 0), found

    def test_path_length(self) -> None:
        """In rings that are just built, fingers alone need half of log2 N hops, less about a seventh of one."""
        for nodes, lookups in ((64, "0.03"), (512, "0.004")):
            with self.subTest(nodes=nodes):
                words = ("--nodes", str(nodes), "--list", "1", "--lookups", lookups)
                found = counted(arguments("length.toml", *words))
                assert abs(found.hops - math.log2(nodes) / 2 + 0.14) < 0.12, found
                assert (found.timeouts, found.lost, found.wrong) == (0, 0, 0), found


class PublishedPageTest(TestCase):
    """docs/published.md and the results that it is made of."""

    def test_tables(self) -> None:
        """The page has each line of the tables that draw.py makes of the results."""
        spec = importlib.util.spec_from_file_location("draw", FOLDER / "draw.py")
        assert spec is not None and spec.loader is not None
        draw = importlib.util.module_from_spec(spec)
        spec.loader.exec_module(draw)
        told = io.StringIO()
        with redirect_stdout(told):
            draw.print_tables()
        page = set((FOLDER.parents[1] / "docs" / "published.md").read_text(encoding="utf-8").splitlines())
        lines = [line for line in told.getvalue().splitlines() if line]
        assert len(lines) > 40
        assert [line for line in lines if line not in page] == []

    def test_results(self) -> None:
        """They are those of their manifests, which name the study files as they are."""
        studies = sorted(FOLDER.glob("*.toml"))
        assert len(studies) > 10
        for study in studies:
            results = FOLDER / study.stem
            digests = json.loads((results / "manifest.json").read_text(encoding="utf-8"))["sha256"]
            for file in (study, results / "runs.csv"):
                assert hashlib.sha256(file.read_bytes()).hexdigest() == digests[file.name], file
