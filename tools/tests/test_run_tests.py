"""tools/run_tests.sh, on a repository of two tests, with a stand-in for apt-get that installs nothing."""

import os
import shutil
import subprocess
import tempfile
from pathlib import Path
from unittest import TestCase

TOOLS = Path(__file__).resolve().parents[1]
COPIED = ("run_tests.sh", "tests/__init__.py", "tests/__main__.py")
TESTS = '''\
"""Two tests."""

from unittest import TestCase, skip


class Few(TestCase):
    """One test that is done, and one that is not."""

    def test_done(self) -> None:
        """It passes."""

    @skip("the moon is not full")
    def test_skipped(self) -> None:
        """It is left out."""
'''
SKIPPED = "skipped, since the moon is not full:\n  tests.test_few.Few.test_skipped\n"
INSTALLING = "tools: installing python3-numpy python3-matplotlib by apt-get, since the tests of plots need them\n"
NOT_INSTALLED = "tools: they cannot be installed: plots are not tested\n"


class RunTestsTest(TestCase):
    """What the script prints, and what it installs."""

    def setUp(self) -> None:
        """The repository, and a folder ahead of all of PATH and of all modules."""
        self.folder = Path(self.enterContext(tempfile.TemporaryDirectory()))
        for name in COPIED:
            (self.folder / "tools" / name).parent.mkdir(parents=True, exist_ok=True)
            shutil.copy(TOOLS / name, self.folder / "tools" / name)
        (self.folder / "tools" / "tests" / "test_few.py").write_text(TESTS, encoding="utf-8")
        self.first = self.folder / "first"
        self.first.mkdir()
        (self.first / "apt-get").write_text('#!/bin/sh\necho "$*" >> "$0.calls"\nexit 100\n', encoding="utf-8")
        (self.first / "apt-get").chmod(0o755)
        for name in ("numpy", "matplotlib"):
            (self.first / f"{name}.py").touch()

    def called(self, *arguments: str) -> tuple[int, str]:
        """The status of the script, and what it prints. A program is named, so that none is looked for."""
        more = {"PATH": f"{self.first}:{os.environ['PATH']}", "PYTHONPATH": str(self.first), "CHORDSIM": "sh"}
        command = [str(self.folder / "tools" / "run_tests.sh"), *arguments]
        done = subprocess.run(command, env=os.environ | more, capture_output=True, text=True, check=False)
        return done.returncode, done.stdout + done.stderr

    def test_skipped(self) -> None:
        """What was skipped is listed at the end, with the reason. Nothing is installed."""
        status, text = self.called()
        self.assertEqual((status, text.partition("\nOK (skipped=1)\n")[2]), (0, SKIPPED))
        self.assertNotIn("test_done", text)
        self.assertFalse((self.first / "apt-get.calls").exists())

    def test_arguments(self) -> None:
        """Further arguments are those of unittest: names and a total, and one test alone."""
        status, text = self.called("-v")
        self.assertIn("test_done (tests.test_few.Few.test_done)", text)
        self.assertIn("\nRan 2 tests in ", text)
        status, text = self.called("-k", "done", "tests.test_few")
        self.assertEqual((status, text[-3:], "\nRan 1 test in " in text), (0, "OK\n", True))

    def test_failure(self) -> None:
        """A test that fails gives a status that is not 0."""
        failing = TESTS.replace('"""It passes."""', "raise OSError")
        (self.folder / "tools" / "tests" / "test_few.py").write_text(failing, encoding="utf-8")
        status, text = self.called()
        self.assertEqual((status, text.endswith(SKIPPED)), (1, True))

    def test_packages(self) -> None:
        """What plots need is installed if it is not there, and is named before."""
        (self.first / "numpy.py").write_text("raise ImportError\n", encoding="utf-8")
        status, text = self.called()
        self.assertEqual((status, text[:len(INSTALLING + NOT_INSTALLED)]), (0, INSTALLING + NOT_INSTALLED))
        calls = (self.first / "apt-get.calls").read_text(encoding="utf-8")
        self.assertEqual(calls, "update\n")
        (self.first / "apt-get").write_text('#!/bin/sh\necho "$*" >> "$0.calls"\n', encoding="utf-8")
        self.assertEqual(self.called()[1].partition("\n")[0] + "\n", INSTALLING)
        calls = (self.first / "apt-get.calls").read_text(encoding="utf-8").removeprefix("update\nupdate\n")
        self.assertEqual(calls, "install --yes --no-install-recommends python3-numpy python3-matplotlib\n")
