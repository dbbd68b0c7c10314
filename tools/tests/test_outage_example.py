"""examples/outage: its files are those of its manifest, and members take fingers if a whole list is in the region."""

import csv
import hashlib
import json
import tomllib
from pathlib import Path
from unittest import TestCase

from chordsim_tools.study.plan import Study, read_study
from chordsim_tools.study.worlds import scenario_of

FOLDER = Path(__file__).resolve().parents[2] / "examples" / "outage"
LOSS = 180_000_000
SEEDS = (1, 2, 5)


def longest_run(study: Study, seed: int) -> int:
    """The most neighbours on the circle, of the nodes that are up at the loss, that are in the lost region."""
    top = tomllib.loads(scenario_of(study, study.settings()[0], seed))
    up = {node["name"] for node in top["node"] if node.get("initial")}
    for command in top["command"]:
        if command["at_us"] < LOSS and command["do"] == "crash":
            up.remove(command["node"])
        elif command["at_us"] < LOSS and command["do"] == "join":
            up.add(command["node"])
    idents = {node["name"]: int(str(node["id"]), 16 if isinstance(node["id"], str) else 10) for node in top["node"]}
    ordered = sorted(up, key=lambda name: idents[name])
    circle = "".join("x" if name.startswith("us-") else " " for name in ordered)
    return max(map(len, (circle + circle).split()))


class OutageExampleTest(TestCase):
    """The study of the loss of a region."""

    def test_files(self) -> None:
        """The manifest has the digests of all: 12 settings by ten seeds."""
        manifest = json.loads((FOLDER / "manifest.json").read_text())
        files = {"study.toml", "regions.csv", "runs.csv", "series.csv", "steps.csv", "cdf.csv"}
        assert files <= set(manifest["sha256"])
        for file, digest in manifest["sha256"].items():
            assert hashlib.sha256((FOLDER / file).read_bytes()).hexdigest() == digest, file
        assert len((FOLDER / "runs.csv").read_text().splitlines()) == 1 + 120

    def test_kept_rings(self) -> None:
        """None is lost. With a retry, members take fingers if the longest run is as long as lists, and only then."""
        study = read_study(FOLDER / "study.toml")
        runs = {seed: longest_run(study, seed) for seed in SEEDS}
        assert runs == {1: 4, 2: 3, 5: 5}
        with open(FOLDER / "runs.csv", encoding="ascii", newline="") as file:
            rows = [row for row in csv.DictReader(file) if int(row["seed"]) in SEEDS]
        assert len(rows) == 12 * len(SEEDS) and {row["lost-at-us"] for row in rows} == {""}
        for row in (row for row in rows if row["retries"] == "1"):
            assert (row["rescues"] != "0") == (int(row["list"]) <= runs[int(row["seed"])]), row["seed"]
