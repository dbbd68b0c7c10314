"""Standard streams that are closed: no file takes the place of one, and nothing is written where it does not belong.

A closed output is a failed write. Without it, a run writes its trace and its report as ever.
"""

import subprocess
import tempfile
import unittest
from pathlib import Path

from tests.support.programs import program
from tests.test_commands import ENGINES, FAILED, REFUSED, REPORT, RING, TRACE

STREAMS = ("<&-", ">&-", "2>&-", "<&- >&-", "<&- 2>&-", ">&- 2>&-", "<&- >&- 2>&-")


class ClosedStreams(unittest.TestCase):
    """A ring of three nodes with one lookup, run with some of the three standard streams closed."""

    def setUp(self) -> None:
        """The scenario in a folder of its own."""
        folder = tempfile.TemporaryDirectory()
        self.addCleanup(folder.cleanup)
        self.folder = Path(folder.name)
        (self.folder / "ring.toml").write_text(RING, encoding="utf-8")

    def ended(self, line: str, closed: str) -> tuple[int, str, str]:
        """The status of a command whose streams a shell has closed, and what it printed on the others."""
        done = subprocess.run(
            ["sh", "-c", f'exec "$0" {line} {closed}', str(program())],
            cwd=self.folder, capture_output=True, text=True, check=False, timeout=60,
        )
        self.assertEqual((self.folder / "ring.toml").read_text(encoding="utf-8"), RING)
        return done.returncode, done.stdout, done.stderr

    def test_traces_in_a_file(self) -> None:
        """The file has the trace and no more. A closed output fails the report."""
        for closed in STREAMS:
            for engine in ENGINES:
                with self.subTest(closed=closed, engine=engine):
                    line = f"run --scenario ring.toml --trace out --engine {engine} --workers 2"
                    status, output, error = self.ended(line, closed)
                    self.assertEqual((self.folder / "out").read_text(encoding="utf-8"), TRACE)
                    if ">&-" in closed.split():
                        told = "" if "2>&-" in closed else "failed: 4 Write\n"
                        self.assertEqual((status, output, error), (FAILED, "", told))
                    else:
                        self.assertEqual((status, output, error), (0, REPORT, ""))

    def test_output_that_is_closed(self) -> None:
        """Each command fails."""
        runs = [f"run --engine {engine} --workers 2" for engine in ENGINES]
        for closed in (">&-", "<&- >&-", "<&- >&- 2>&-"):
            for line in ("check", "ids", "run", *runs):
                with self.subTest(closed=closed, line=line):
                    error = "" if "2>&-" in closed else "failed: 4 Write\n"
                    self.assertEqual(self.ended(f"{line} --scenario ring.toml", closed), (FAILED, "", error))

    def test_refusals(self) -> None:
        """A refusal that cannot be shown has its status, and reaches no file."""
        for closed in ("2>&-", "<&- 2>&-", "<&- >&- 2>&-"):
            with self.subTest(closed):
                line = "run --scenario ring.toml --latency none --trace out"
                self.assertEqual(self.ended(line, closed), (REFUSED, "", ""))
                self.assertFalse((self.folder / "out").exists())


if __name__ == "__main__":
    unittest.main()
