"""Shares of a study, and folders that are put together."""

import io
import os
import shutil
import subprocess
import sys
from contextlib import redirect_stderr
from pathlib import Path
from unittest import SkipTest, TestCase

from chordsim_tools.study.command import main
from tests.support.programs import ended
from tests.test_study_run import BASE, STUDY, TOOL, call, runs_called, study_folder

TABLES = ("runs.csv", "series.csv", "cdf.csv", "steps.csv", "manifest.json")


def merged(*words: Path | str) -> tuple[int, str]:
    """Status and line of `tools/study merge`."""
    status, _, told = ended(main, "merge", *map(str, words))
    return status, told.strip()


def run_share(folder: Path, share: str, out: str) -> None:
    """Runs a share into a folder."""
    assert call(folder, "--part", share, "-o", str(folder / out)) == (0, "")


def same_tables(one: Path, other: Path) -> bool:
    """Whether two folders have the same three tables."""
    return all((one / name).read_bytes() == (other / name).read_bytes() for name in TABLES)


class PartsTest(TestCase):
    """The same bytes as by one run, or a line that says why not."""

    def test_shares_make_the_same_bytes(self) -> None:
        """Three shares in three folders: each run is done once, no share has tables, together they have the same."""
        with study_folder() as folder:
            call(folder)
            for number in (1, 2, 3):
                run_share(folder, f"{number}/3", f"part{number}")
                assert not (folder / f"part{number}" / "runs.csv").exists()
            assert runs_called(folder) == 8
            done = [len(list((folder / f"part{number}" / "done").glob("*.json"))) for number in (1, 2, 3)]
            assert done == [2, 1, 1]
            parts = [folder / f"part{number}" for number in (1, 2, 3)]
            assert merged(*parts, "-o", folder / "all") == (0, "")
            assert same_tables(folder / "study", folder / "all")

    def test_shares_of_one_folder(self) -> None:
        """Machines with a common disk need no merge: the whole study then finds all runs done."""
        with study_folder() as folder:
            for share in ("1/2", "2/2"):
                run_share(folder, share, "study")
            assert call(folder) == (0, "") and runs_called(folder) == 4
            assert (folder / "study" / "manifest.json").exists()

    def test_missing_runs(self) -> None:
        """How many are missing, and the first of them. What is there is kept, and can be plotted."""
        with study_folder() as folder:
            run_share(folder, "1/2", "part1")
            told = "refused: 2 of 4 runs are in no folder, or were changed there, the first of them list=1, seed=2"
            assert merged(folder / "part1", "-o", folder / "all") == (1, told)
            assert len(list((folder / "all" / "done").glob("*.json"))) == 2

    def test_folders_that_do_not_go_together(self) -> None:
        """Another study, another base, another program: the line names both folders and what differs."""
        for name, text, what in (
            ("study.toml", STUDY.replace("How?", "Why?"), "the study file"),
            ("base.toml", BASE.replace("bits = 16", "bits = 17"), "base.toml"),
            ("fake", None, "the program"),
        ):
            with self.subTest(changed=name), study_folder() as folder:
                run_share(folder, "1/2", "part1")
                path = folder / name
                path.write_text(path.read_text() + "# more\n" if text is None else text)
                run_share(folder, "2/2", "part2")
                status, told = merged(folder / "part1", folder / "part2", "-o", folder / "all")
                assert status == 1 and f"{folder}/part1 and {folder}/part2 do not go together: {what} (" in told, told
                assert not (folder / "all").exists()

    def test_study_file_elsewhere(self) -> None:
        """The study has moved: the line says how to name it, and by its name it is found. Another one is refused."""
        with study_folder() as folder:
            run_share(folder, "1/1", "part1")
            (folder / "part1" / "manifest.json").unlink()
            (folder / "there").mkdir()
            for name in ("study.toml", "base.toml"):
                shutil.move(folder / name, folder / "there" / name)
            status, told = merged(folder / "part1", "-o", folder / "all")
            assert status == 1 and "(name it with --study)" in told and str(folder / "study.toml") in told
            there = folder / "there" / "study.toml"
            assert merged(folder / "part1", "-o", folder / "all", "--study", there) == (0, "")
            there.write_text(STUDY.replace("How?", "Why?"))
            assert merged(folder / "part1", "-o", folder / "other", "--study", there)[0] == 1

    def test_shares_that_are_none(self) -> None:
        """Status 2."""
        for share in ("0/2", "3/2", "2", "a/b"):
            told = io.StringIO()
            with self.subTest(share=share), redirect_stderr(told):
                try:
                    main(["run", "study.toml", "--part", share])
                except SystemExit as end:
                    assert end.code == 2 and "--part: K/N is wanted" in told.getvalue()
                else:
                    raise AssertionError(share)

    def test_gnu_parallel(self) -> None:
        """The line of docs/clusters.md."""
        if shutil.which("parallel") is None:
            raise SkipTest("there is no GNU parallel: apt-get install parallel")
        with study_folder() as folder:
            call(folder)
            line = f"parallel {sys.executable} {TOOL} run study.toml --part {{}}/3 --jobs 1 -o part{{}} ::: 1 2 3"
            environment = os.environ | {"CHORDSIM": str(folder / "fake"), "HOME": str(folder)}
            subprocess.run(line, shell=True, cwd=folder, env=environment, check=True, capture_output=True)
            parts = [folder / f"part{number}" for number in (1, 2, 3)]
            assert merged(*parts, "-o", folder / "all") == (0, "")
            assert same_tables(folder / "study", folder / "all")
