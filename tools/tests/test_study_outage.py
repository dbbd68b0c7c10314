"""Studies of outages, groups and arrivals: each seed has its own, the same for all settings."""

import tempfile
import tomllib
from pathlib import Path
from typing import Any
from unittest import TestCase

from chordsim_tools.cli import Refused
from chordsim_tools.files import sum_of
from chordsim_tools.study.head import worlds as worlds_told
from chordsim_tools.study.network import input_sums
from chordsim_tools.study.plan import Study, read_study
from chordsim_tools.study.worlds import latency_of, scenario_of
from tests.support.studies import MANIFEST

OUTAGE = """\
question = "Which list?"
generate = [
    "--profile", "4", "--group", "eu:12", "--group", "us:12:arrivals=6/m", "--lifetime", "exp:30s", "--down", "exp:5s",
    "--stay", "0", "--crash", "25%@20s", "--crash", "us@40s", "--back", "10s", "--duration", "60s",
    "--coordinates", "regions:regions.csv",
]
seeds = 3

[vary]
list = [2, 4]
"""
ROWS = """\
question = "Which list?"
generate = ["--group", "eu:3", "--group", "us:3", "--window", "1ms"]
latency = ["--regions", "regions.csv"]
seeds = 2

[vary]
list = [2, 4]
"""
REGIONS = "one-way,eu,us\neu,1ms,30ms\nus,30ms,1ms\n"


def study_of(folder: str, text: str) -> Study:
    """A study in a folder, with a file of regions beside it."""
    (Path(folder) / "regions.csv").write_text(REGIONS)
    path = Path(folder) / "study.toml"
    path.write_text(text)
    return read_study(path)


def crashed(top: dict[str, Any], time: int) -> list[str]:
    """The nodes that crash at a time."""
    return [item["node"] for item in top["command"] if item["do"] == "crash" and item["at_us"] == time]


class StudyOutageTest(TestCase):
    """What is new in each seed, and files beside the study file."""

    def test_each_seed_has_its_outage(self) -> None:
        """Other nodes crash in each seed and other ones arrive; two settings of a seed have the same commands."""
        with tempfile.TemporaryDirectory() as folder:
            study = study_of(folder, OUTAGE)
            first, second = study.settings()
            worlds = [tomllib.loads(scenario_of(study, first, seed)) for seed in (1, 2, 3)]
            again = tomllib.loads(scenario_of(study, second, 1))
        shares = [crashed(top, 20_000_000) for top in worlds]
        assert all(4 <= len(names) <= 7 for names in shares) and len({" ".join(names) for names in shares}) == 3
        regions = [crashed(top, 40_000_000) for top in worlds]
        assert all(names and all(name.startswith("us-") for name in names) for names in regions)
        assert len({len(top["node"]) for top in worlds} | {0}) > 2
        assert len({top["node"][0]["id"] for top in worlds}) == 3
        assert (again["command"], again["list"]) == (worlds[0]["command"], 4)
        places = {(node["x_us"], node["y_us"], node["height_us"]) for node in again["node"] if node["name"][0] == "e"}
        assert places == {(worlds[0]["node"][0]["x_us"], worlds[0]["node"][0]["y_us"], 500)}

    def test_rows_between_regions(self) -> None:
        """A file of latencies between regions is beside the study file, and the names are those of the scenario."""
        with tempfile.TemporaryDirectory() as folder:
            study = study_of(folder, ROWS)
            rows = latency_of(study, study.settings()[0], 1)
        assert rows is not None
        assert rows.decode().splitlines()[:3] == ["eu-0,eu-1,1000", "eu-0,eu-2,1000", "eu-0,us-0,30000"]

    def test_identifiers_by_names(self) -> None:
        """They are the same in all seeds if the study asks for it."""
        with tempfile.TemporaryDirectory() as folder:
            study = study_of(folder, OUTAGE.replace('"--stay"', '"--ids", "names", "--stay"'))
            worlds = [tomllib.loads(scenario_of(study, study.settings()[0], seed)) for seed in (1, 2)]
        assert all("id" not in node for top in worlds for node in top["node"])

    def test_missing_file(self) -> None:
        """The refusal names the study and the file."""
        with tempfile.TemporaryDirectory() as folder:
            study = study_of(folder, OUTAGE)
            (Path(folder) / "regions.csv").unlink()
            with self.assertRaisesRegex(Refused, "generate: cannot read .*regions.csv"):
                scenario_of(study, study.settings()[0], 1)

    def test_digests(self) -> None:
        """Files of regions and churn traces have a digest."""
        with tempfile.TemporaryDirectory() as folder:
            assert input_sums(study_of(folder, OUTAGE)) == {"regions.csv": sum_of(REGIONS)}
            assert input_sums(study_of(folder, ROWS)) == {"regions.csv": sum_of(REGIONS)}
            (Path(folder) / "up.csv").write_text("a,0,30\nb,0,30\nc,0,\n")
            traced = study_of(folder, ROWS.replace('"--group", "eu:3", "--group", "us:3"', '"--churn-trace", "up.csv"'))
            assert input_sums(traced).keys() == {"up.csv", "regions.csv"}
            assert len(tomllib.loads(scenario_of(traced, traced.settings()[0], 1))["node"]) == 3

    def test_page_says_what_is_the_same(self) -> None:
        """Identifiers by names, measured churn and latencies between regions are the same in all seeds."""
        words = ["--churn-trace", "up.csv", "--ids", "names", "--coordinates", "regions:r.csv"]
        told = worlds_told({**MANIFEST, "base": None, "generate": words, "commands": {"crash": 2}})
        assert "New in each: timers and random keys, the nodes that others join through. **The same in all: " in told
        assert "identifiers, lives (up.csv), latencies (by the coordinates in r.csv).**" in told
        rows = worlds_told({**MANIFEST, "base": None, "generate": [], "latency_arguments": ["--regions", "r.csv"]})
        assert "New in each: timers and random keys, identifiers. **The same in all: " in rows
        assert "latencies (between the regions of r.csv).**" in rows
