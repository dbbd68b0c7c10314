"""`tools/study search`: which settings are tried next, on costs that are made up, and a search by the program."""

import tempfile
from collections.abc import Callable
from pathlib import Path
from unittest import TestCase

from chordsim_tools.study.command import main
from chordsim_tools.study.search import Axis, Search
from chordsim_tools.study.tables import read_tables
from tests.support.programs import ended, program
from tests.test_study_plan import HEAD, MADE, in_folder

TIMES = Axis("stabilize_us", 250_000, 8_000_000, False)
COUNTS = Axis("list", 2, 16, True)
GOAL = "[goal]\nright_of_begun_min = 0.1\n"
SEARCH = HEAD + "seeds = 5\n" + GOAL + "[search]\n"
RING = """question = "Which period?"
generate = ["--nodes", "8", "--duration", "20s", "--window", "5ms", "--latency", "20ms", "--timeout", "100ms",
    "--finger", "1s", "--audit", "5s", "--lookup-gap", "500ms..1s", "--list", "3"]
seeds = 5
"""


def searched(search: Search, cost: Callable[[dict[str, int]], float]) -> tuple[dict[str, int], int]:
    """The best setting by a made-up cost, and how many rounds the search had."""
    new, rounds = search.first(), 0
    best = new[0]
    while new and rounds < search.most_rounds:
        rounds += 1
        best = min(search.tried, key=lambda setting: cost({key: int(value) for key, value in setting}))
        new = search.next(best)
    return {key: int(value) for key, value in best}, rounds


class StudySearchTest(TestCase):
    """Rounds of settings."""

    def test_first_round(self) -> None:
        """Both ends and the middle: of times by equal ratios (sqrt(0.25 * 8) = 1.414), of counts by equal steps."""
        assert [dict(one)["stabilize_us"] for one in Search([TIMES], 9).first()] == [250_000, 1_410_000, 8_000_000]
        both = [tuple(value for _, value in one) for one in Search([COUNTS, TIMES], 9).first()]
        assert both == [(size, period) for size in (2, 9, 16) for period in (250_000, 1_410_000, 8_000_000)]

    def test_next_rounds(self) -> None:
        """Half a step to each side of the best: 32 to the powers 1/4 and 3/4 above 250 ms. At an end one side alone."""
        search = Search([TIMES], 9)
        first = search.first()
        assert [dict(one)["stabilize_us"] for one in search.next(first[1])] == [595_000, 3_360_000]
        again = Search([TIMES], 9)
        assert [dict(one)["stabilize_us"] for one in again.next(again.first()[0])] == [595_000]

    def test_one_key(self) -> None:
        """The least cost is at 2 s: the search comes within a tenth, and tries two settings a round at most."""
        search = Search([TIMES], 10)
        best, rounds = searched(search, lambda one: abs(one["stabilize_us"] - 2_000_000))
        assert 1_900_000 < best["stabilize_us"] < 2_100_000 and rounds <= 7
        assert len(search.tried) <= 3 + 2 * (rounds - 1) <= search.most_settings()

    def test_two_keys(self) -> None:
        """A valley that runs across both keys: each round goes on from the best one."""
        search = Search([COUNTS, TIMES], 30)
        best, rounds = searched(
            search, lambda one: (one["list"] - 5) ** 2 + (one["stabilize_us"] / 1e6 - 3) ** 2 + one["list"] / 100
        )
        assert best["list"] == 5 and 2_850_000 < best["stabilize_us"] < 3_150_000 and rounds < 12

    def test_rounds_are_bounded(self) -> None:
        """However the costs are."""
        assert searched(Search([COUNTS, TIMES], 4), lambda one: -one["stabilize_us"] * one["list"])[1] <= 4
        assert Search([TIMES], 4).most_settings() == 9 and Search([COUNTS], 50).most_settings() == 17

    def test_study_file(self) -> None:
        """Keys, options and the bound on the rounds."""
        study = in_folder(SEARCH + 'stabilize_us = "1s..4s"\nlist = "1..2"\nmost_rounds = 3\n')
        assert study.search.most_rounds == 3 and len(study.settings()) == 6
        made = in_folder(MADE + "seeds = 5\n" + GOAL + '[search]\n"--stabilize" = "1s..4s"\n')
        assert [setting[0] for setting in made.settings()] == [
            ("generate.--stabilize", time) for time in ("1s", "2s", "4s")
        ]

    def test_faults(self) -> None:
        """Each is refused with the key and what is wanted."""
        for text, wanted in (
            (SEARCH, "[search] has one or two keys, not 0"),
            (SEARCH + 'list = "1..2"\njitter_us = "1ms..2ms"\nfinger_us = "1s..2s"\n', "one or two keys, not 3"),
            (SEARCH + "list = [1, 2]\n", '[search] list has to be a range, as "2..16"'),
            (SEARCH + 'stabilize_us = "1..2"\n', 'or of times with units, as "250ms..8s"'),
            (SEARCH + 'stabilize_us = "4s..1s"\n', "has to go up, and times from above 0"),
            (SEARCH + 'stabilize_us = "0..1s"\n', "has to go up, and times from above 0"),
            (SEARCH + 'lists = "1..2"\n', "[search] lists is no key of a scenario that can be varied: did you mean"),
            (SEARCH + 'join_forever = "0..1"\n', "[search] join_forever is true or false: vary it"),
            (SEARCH + 'list = "1..2"\nmost_rounds = 0\n', "most_rounds has to be an integer, 1 to 50"),
            (SEARCH + 'list = "1..2"\n[vary]\nbits = [4]\n', "[search] and [vary] exclude each other"),
            (HEAD + 'seeds = 5\n[search]\nlist = "1..2"\n', "[search] needs [goal]"),
        ):
            with self.subTest(study=text):
                answer = in_folder(text)
                assert isinstance(answer, str) and wanted in answer, answer

    def search(self, name: str, goal: str) -> tuple[Path, str]:
        """A search by the program in this folder: where it wrote, and what it printed."""
        program()
        study, out = Path(name) / "s.toml", Path(name) / "out"
        study.write_text(RING + goal + '[search]\nstabilize_us = "500ms..4s"\nmost_rounds = 2\n')
        status, text, _ = ended(main, "search", str(study), "-o", str(out), "--jobs", "2")
        assert status == 0
        return out, text

    def test_search_by_the_program(self) -> None:
        """Slower repair costs less, but 2 messages of upkeep are wanted: a request, a reply and a notify a period make
        3.6 of 841 ms, and 0.75 of 4 s."""
        with tempfile.TemporaryDirectory() as name:
            goal = "[goal]\nupkeep_min = 2.0\n"
            out, text = self.search(name, goal)
            assert "round 1: stabilize_us=4s misses the goal" in text
            assert "round 1: best so far stabilize_us=500ms (the least messages" in text
            assert "round 2: stabilize_us=841ms reaches the goal" in text
            assert text.endswith(f"done after 2 rounds: that is most_rounds; page: {out}/report.md\n")
            periods = list(dict.fromkeys(row["stabilize_us"] for row in read_tables(out).runs))
            assert periods == ["500000", "841000", "1410000", "4000000"]
            page = (out / "report.md").read_text()
            assert "**stabilize_us=841ms** is the setting with the least messages" in page
            assert "5 worlds a setting, the same seeds for all (a search adds none)." in page
            assert self.search(name, goal)[1] == text
            text = self.search(name, "[goal]\nupkeep_min = 1000.0\n")[1]
            assert text.endswith(
                "no setting is shown to reach the goal by 5 seeds, and a search adds none: set more `seeds` and search "
                "again, the runs that are done are kept\n"
            )

    def test_search_that_is_decided(self) -> None:
        """All answers are right without churn, so the longest period is the best one after the first round."""
        with tempfile.TemporaryDirectory() as name:
            out, text = self.search(name, GOAL)
            assert text.endswith(
                f"done after 1 round: nothing beside the best one costs less; page: {out}/report.md\n"
                "stabilize_us is best at the end of its range: beyond it there may be a better one\n"
            )
            for command, wanted in (("run", "has [search]: `tools/study search` does this study"),
                                    ("merge", "has [search], which has no parts")):
                words = [str(Path(name) / "s.toml")] if command == "run" else [str(out)]
                status, _, told = ended(main, command, *words, "-o", str(Path(name) / "other"))
                assert status == 1 and wanted in told
