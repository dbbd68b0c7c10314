"""Studies with [precision] of which results are missing: they are not done, however few seeds have all results."""

from pathlib import Path
from unittest import TestCase

from chordsim_tools.study.command import main
from chordsim_tools.study.sizes import NEEDED
from tests.support.programs import ended
from tests.support.studies import unwrapped
from tests.test_study_parts import merged, same_tables
from tests.test_study_run import FAKE, call, said, study_folder, table

# Every odd seed has a wrong answer, so that no interval is narrow. There are 5 seeds, then two more, then most_seeds.
STUDY = """\
question = "How?"
base = "base.toml"
[vary]
list = [1, 2]
[precision]
right_of_begun = 0.0001
least_seeds = 5
most_seeds = 8
"""
ODD = FAKE.replace(
    "    printf '10 n0", "    name=n1; if grep -qx 'seed = [13579]' \"$3\"; then name=n2; fi\n    printf '10 n0"
).replace("found 11 n1", "found 11 '$name'")


def page_of(folder: Path) -> str:
    """The page of the study, a paragraph a line."""
    assert said("report", folder / "study") == (0, "")
    return unwrapped((folder / "study" / "report.md").read_text())


class PrecisionTest(TestCase):
    """A study that ran to its end, of which results are taken away."""

    def run_whole(self, folder: Path) -> dict[str, str]:
        """Runs all 16 runs and takes the manifest away. Returns the results."""
        (folder / "fake").write_text(ODD)
        assert call(folder) == (0, "")
        assert "Stopped at most_seeds, 8: [precision] wants right_of_begun" in page_of(folder)
        (folder / "study" / "manifest.json").unlink()
        return {path.name: path.read_text() for path in (folder / "study" / "done").glob("*.json")}

    def test_bytes(self) -> None:
        """Every run has them, by [sizes], so that no line says that none has."""
        sizes = "".join(f"{kind} = 40\n" for kind in NEEDED)
        study = STUDY.replace("right_of_begun = 0.0001", "bytes = 1000000.0").replace("= 8", "= 5")
        with study_folder(f"{study}[sizes]\n{sizes}") as folder:
            assert call(folder) == (0, "")
            assert all(int(row["bytes"]) > 0 for row in table(folder, "runs.csv"))

    def test_page(self) -> None:
        """It counts the runs that the results so far ask for, and does not say that the study has stopped."""
        with study_folder(STUDY) as folder:
            results = self.run_whole(folder)
            assert len(results) == 16
            for seeds, taken, mark in (
                ("12345", None, "10 of 14"), ("123456", "list=2,seed=5.json", "9 of 10"), ("1234567", None, "14 of 16"),
            ):
                for name, text in results.items():
                    path = folder / "study" / "done" / name
                    path.write_text(text)
                    if name == taken or name[len("list=1,seed=")] not in seeds:
                        path.unlink()
                with self.subTest(mark=mark):
                    text = page_of(folder)
                    assert f"**{mark} runs: the study is not done.**" in text and "Stopped at" not in text

    def test_compare(self) -> None:
        """It is refused until all runs are done."""
        with study_folder(STUDY) as folder:
            results = self.run_whole(folder)
            missing = folder / "study" / "done" / "list=2,seed=8.json"
            missing.unlink()
            words = ("compare", str(folder / "study"), "list=1", "list=2")
            status, out, told = ended(main, *words)
            assert (status, out) == (1, "") and told.startswith(f"refused: {folder}/study: 15 of 16 runs are done;")
            missing.write_text(results[missing.name])
            assert ended(main, *words)[0] == 0
            assert "Stopped at most_seeds, 8: [precision] wants right_of_begun" in page_of(folder)

    def test_merge(self) -> None:
        """It takes all seeds that the results ask for, and fails if one of them is in no folder."""
        with study_folder(STUDY) as folder:
            results = self.run_whole(folder)
            missing = folder / "study" / "done" / "list=2,seed=7.json"
            missing.unlink()
            told = "1 of 14 runs are in no folder, or were changed there, the first of them list=2, seed=7"
            assert merged(folder / "study", "-o", folder / "all") == (1, f"refused: {told}")
            missing.write_text(results[missing.name])
            assert merged(folder / "study", "-o", folder / "all") == (0, "")
            assert call(folder) == (0, "") and same_tables(folder / "study", folder / "all")
