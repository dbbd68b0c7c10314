"""Studies from Python."""

import csv
import io
import json
import tempfile
from collections.abc import Callable
from contextlib import redirect_stderr, redirect_stdout
from pathlib import Path
from unittest import TestCase

from chordsim import ChordsimError, Refused, Study, StudyResult
from chordsim.study import cell_of
from chordsim_tools.study.command import main
from tests.support.programs import ended, program
from tests.support.worlds import EXAMPLES
from tests.test_study_confirm import WITH_GOAL
from tests.test_study_run import study_folder
from tests.test_study_search import RING

STUDY = """\
question = "How?"
generate = ["--nodes", "8", "--profile", "4", "--duration", "10s", "--lifetime", "exp:5s", "--stationary"]
seeds = 2
window_us = "5s"

[vary]
list = [1, 2]
"--lookups" = ["0.50"]

[goal]
right_of_begun_min = 0.5
least = "messages"
"""


class StudyTest(TestCase):
    """A study is that of tools/study."""

    def setUp(self) -> None:
        """A study file in a folder."""
        folder = tempfile.TemporaryDirectory()
        self.addCleanup(folder.cleanup)
        self.folder = Path(folder.name)
        self.file = self.folder / "one.toml"
        self.file.write_text(STUDY)

    def test_file(self) -> None:
        """What the file says."""
        study = Study.read(self.file)
        self.assertEqual((study.path, study.question, study.seeds), (self.file, "How?", (1, 2)))
        settings = tuple({"list": length, "generate.--lookups": "0.50"} for length in (1, 2))
        self.assertEqual(study.settings(), settings)

    def test_runs(self) -> None:
        """Rows and answer are those in the files of tools/study; a varied text is no number, empty cells are None."""
        program()
        with redirect_stderr(io.StringIO()):
            done = Study.read(self.file).run(jobs=2)
        self.assertEqual(done.folder, self.folder / "one")
        self.assertEqual(ended(main, "report", str(done.folder))[0], 0)
        with open(done.folder / "runs.csv", encoding="utf-8", newline="") as file:
            names, *lines = csv.reader(file)
        rows = done.rows()
        self.assertEqual(list(rows.names), names)
        self.assertEqual([row["list"] for row in rows], [1, 1, 2, 2])
        self.assertEqual([list(row)[:3] for row in rows], [["list", "generate.--lookups", "seed"]] * 4)
        for row, line in zip(rows, lines, strict=True):
            self.assertEqual(row["generate.--lookups"], "0.50")
            self.assertIsInstance(row["events"], int)
            self.assertIsInstance(row["mean-members"], float)
            for cell, text in zip(row.values(), line, strict=True):
                told = "" if cell is None else str(cell)
                self.assertTrue(told == text or (isinstance(cell, float) and cell == float(text)), (cell, text))
        self.assertEqual(done.answer(), json.loads((done.folder / "answer.json").read_text()))

    def test_cells(self) -> None:
        """Numbers are numbers, but for those of pieces, of which a cell has mostly several."""
        cells = (("lost", "12", 12), ("wanted", "-1.50", -1.5), ("lost-at-us", "", None), ("pieces-lost", "12", "12"),
                 ("pieces-lost", "1 2", "1 2"), ("pieces-lost", "", None), ("x", "007", "007"))
        for name, text, wanted in cells:
            cell = cell_of(name, text)
            self.assertEqual((cell, type(cell)), (wanted, type(wanted)))

    def test_fresh_seeds(self) -> None:
        """The setting of an answer is run again with six fresh seeds, which are in no row."""
        program()
        with study_folder(WITH_GOAL) as folder, redirect_stderr(io.StringIO()):
            done = Study.read(folder / "study.toml").run(folder / "out", jobs=2)
            [world] = done.answer()["worlds"]
            self.assertEqual((world["fresh"]["setting"], world["fresh"]["seeds"]), (world["answer"], 6))
            self.assertEqual(sorted({row["seed"] for row in done.rows()}, key=str), [1, 2, 3, 4, 5, 6])

    def test_search(self) -> None:
        """Upkeep of 2 messages takes 841 ms, which the second round has; the page has fresh seeds. The study stays."""
        program()
        ends = '[goal]\nupkeep_min = 2.0\n[search]\nstabilize_us = "500ms..4s"\nmost_rounds = 2\n'
        self.file.write_text(RING + ends)
        study = Study.read(self.file)
        begun = study.settings()
        with redirect_stderr(io.StringIO()), redirect_stdout(io.StringIO()):
            done = study.run(jobs=2)
        self.assertEqual([world["answer"] for world in done.answer()["worlds"]], ["stabilize_us=841ms"])
        self.assertIn("fresh seeds", (done.folder / "report.md").read_text())
        self.assertEqual(study.settings(), begun)
        self.assertEqual(begun, tuple({"stabilize_us": period} for period in (500_000, 1_410_000, 4_000_000)))

    def test_kept_study(self) -> None:
        """A folder that is there: 240 runs, as README says, and the answer that is kept beside them."""
        kept = StudyResult.read(EXAMPLES / "study")
        self.assertEqual(len(kept.rows()), 240)
        worlds = json.loads((EXAMPLES / "study" / "answer.json").read_text())["worlds"]
        self.assertEqual(
            [one["answer"] for one in kept.answer()["worlds"]], [one["answer"] for one in worlds]
        )

    def test_refused(self) -> None:
        """Files that are no studies, folders without runs, and numbers of jobs that nobody has."""
        calls: list[tuple[Callable[[], object], str]] = [
            (lambda: Study.read(self.folder / "two.toml"), f"cannot read {self.folder}/two.toml"),
            (lambda: Study.read(EXAMPLES / "ring.toml"), "no key of a study: profile"),
            (lambda: StudyResult.read(self.folder), f"{self.folder} has no manifest.json"),
            (lambda: Study.read(self.file).run(jobs=0), "jobs: 1 to 1024, not 0"),
            (lambda: Study.read(""), "path: '' is no name of a file"),
        ]
        for call, text in calls:
            with self.subTest(text=text):
                with self.assertRaises(ChordsimError) as fault:
                    call()
                self.assertIsInstance(fault.exception, Refused)
                self.assertIn(text, fault.exception.text)
