"""Results that were changed, files of runs that were changed, and what `tools/study run` warns of."""

import json
from pathlib import Path
from typing import Any
from unittest import TestCase

from chordsim_tools.study.lookups import HEADING
from tests.test_study_parts import merged, run_share
from tests.test_study_run import STUDY, call, called, runs_called, said, study_folder

RESULT = "list=1,seed=2.json"


def change(path: Path, **numbers: Any) -> None:
    """Writes other numbers into a result, as an editor does."""
    result = json.loads(path.read_text())
    result["numbers"] |= numbers
    path.write_text(json.dumps(result))


class ResultsTest(TestCase):
    """Results and files of runs."""

    def test_edited_result_is_run_again(self) -> None:
        """One line names it; the tables are those of before."""
        with study_folder() as folder:
            call(folder)
            done, runs = folder / "study" / "done", folder / "study" / "runs.csv"
            before = runs.read_bytes()
            change(done / RESULT, right=7)
            status, told = call(folder)
            changed = "was changed since it was written: its run is done again"
            assert (status, told) == (0, f"warning: {done / RESULT} {changed}")
            assert runs_called(folder) == 5 and runs.read_bytes() == before
            for path in done.glob("*.json"):
                change(path, right=7)
            assert call(folder)[1].endswith(f"/list=1,seed=1.json {changed}, and so are those of 3 more")
            assert runs_called(folder) == 9 and call(folder) == (0, "") and runs_called(folder) == 9

    def test_result_of_an_older_tool(self) -> None:
        """It has no digest, and is not run again."""
        with study_folder() as folder:
            call(folder)
            path = folder / "study" / "done" / RESULT
            result = json.loads(path.read_text())
            assert len(result.pop("sha256")) == 64
            path.write_text(json.dumps(result) + "\n")
            assert call(folder) == (0, "") and runs_called(folder) == 4

    def test_edited_result_is_on_no_page(self) -> None:
        """The page of a study that is not done leaves it out."""
        with study_folder() as folder:
            (folder / "fail").write_text("list = 2")
            call(folder)
            change(folder / "study" / "done" / RESULT, right=7)
            assert said("report", folder / "study") == (0, "")
            assert "**1 of 4 runs: the study is not done.**" in (folder / "study" / "report.md").read_text()

    def test_edited_result_is_not_merged(self) -> None:
        """Its run is missing."""
        with study_folder() as folder:
            run_share(folder, "1/1", "part1")
            (folder / "part1" / "manifest.json").unlink()
            change(folder / "part1" / "done" / RESULT, right=7)
            status, told = merged(folder / "part1", "-o", folder / "all")
            wanted = "1 of 4 runs are in no folder, or were changed there, the first of them list=1, seed=2"
            assert (status, told) == (1, f"refused: {wanted}")

    def test_edited_scenario_is_written_again(self) -> None:
        """Of a run that is done too, and nothing is run. One that is gone is there again."""
        with study_folder() as folder:
            call(folder)
            scenario, other = (folder / "study" / "done" / f"list=1,seed={seed}.toml" for seed in (1, 2))
            before = scenario.read_text(), other.read_text()
            scenario.write_text(before[0].replace("list = 1", "list = 9"))
            other.unlink()
            assert call(folder) == (0, "") and runs_called(folder) == 4
            assert (scenario.read_text(), other.read_text()) == before
            run_share(folder, "1/2", "part")
            path = folder / "part" / "done" / "list=1,seed=1.toml"
            path.write_text("")
            run_share(folder, "2/2", "part")
            assert path.read_text() == ""
            assert merged(folder / "part", "-o", folder / "part") == (0, "") and path.read_text() == before[0]

    def test_edited_latencies_are_written_again(self) -> None:
        """As the scenario is."""
        study = STUDY.replace("seeds", 'latency = ["--plane", "10ms", "--nodes", "16"]\nseeds')
        with study_folder(study) as folder:
            call(folder)
            path = folder / "study" / "done" / "list=1,seed=1.csv"
            before = path.read_text()
            path.write_text("n0,n1,5\n")
            assert call(folder) == (0, "") and runs_called(folder) == 4 and path.read_text() == before

    def test_program_that_is_none(self) -> None:
        """It ends well and writes nothing, no table, or no report."""
        with study_folder() as folder:
            idents = '[ "$1" != ids ] || for i in $(seq 0 15); do echo "n$i $i"; done'
            table = f'{idents}; [ "$1" != judge ] || {{ echo {HEADING}; : > "$5"; }}'
            for text, command in (("exit 0", "ids"), (idents, "judge"), (table, "run")):
                path = folder / "none"
                path.write_text(f"#!/bin/sh\n{text}\n")
                path.chmod(0o755)
                status, told = call(folder, chordsim=path)
                assert status == 3 and told.endswith(f"/none {command}: the output is not that of chordsim"), told


class WarningsTest(TestCase):
    """What is told at the start of a run."""

    def test_goal_with_few_seeds(self) -> None:
        """It comes also if all runs are done, and not with five seeds."""
        # Five worlds show 0.025 ** 0.2 = 47.8 % served at most.
        goal = "[goal]\nserved_min = 0.4\n"
        with study_folder(STUDY + goal) as folder:
            wanted = "warning: [goal] will have no answer: it needs 5 seeds or more, and seeds has 2"
            assert call(folder) == (0, wanted) and call(folder) == (0, wanted)
            (folder / "study.toml").write_text(STUDY.replace("[1, 2]\n[", "5\n[") + goal)
            assert call(folder) == (0, "")

    def test_times_without_a_unit(self) -> None:
        """A warning of tools/generate, once for two settings and two seeds."""
        words = '["--nodes", "16", "--bits", "16", "--lifetime", "exp:30", "--down", "exp:5s"]'
        with study_folder(STUDY.replace('base = "base.toml"', f"generate = {words}")) as folder:
            status, _, told = called(folder)
            assert status == 0 and told.count("warning: generate: --lifetime exp:30: 30 without a unit") == 1
