"""`chordsim judge` writes the rows of the table of lookups that tools/trace makes by other means.

tools/trace puts the rows of the program into the order of its own, of which Python reads all lines."""

import re
import subprocess
import tempfile
import unittest
from collections import Counter
from pathlib import Path

from chordsim_tools.generate.command import main as generate
from tests.support.programs import ended, program
from tests.support.tables import table_by_python, table_of

EXAMPLES = Path(__file__).resolve().parents[2] / "examples"
CHEAP = ("ring.toml", "churn64.toml", "lossy64.toml", "detail16.toml", "slow_repair.toml", "half_crash.toml")
RANDOM = range(1, 21)


def judged(scenario: Path, lines: Path, *arguments: str) -> list[str]:
    """The lines of the program's table, from the trace in a file."""
    command = [str(program()), "judge", "--scenario", str(scenario), "--trace", str(lines), *arguments]
    return subprocess.run(command, capture_output=True, text=True, check=True).stdout.splitlines()


def traced(scenario: Path, lines: Path, *arguments: str) -> None:
    """Runs a scenario, with its trace in a file. It may end early, with more events than are allowed."""
    command = [str(program()), "run", "--serial", "--scenario", str(scenario), "--trace", str(lines), *arguments]
    done = subprocess.run(command, capture_output=True, text=True, check=False)
    assert done.returncode == 0 or done.stderr == "failed: 3 TooManyEvents\n", done.stderr


def crowded(text: str) -> str:
    """A scenario with all commands at few times."""
    return re.sub(r"\bat_us = (\d+)", lambda found: f"at_us = {int(found[1]) // 1500 * 1500}", text)


class Judge(unittest.TestCase):
    """The program's table and that of the tool."""

    def setUp(self) -> None:
        """A folder. The tests are skipped if there is no program."""
        program()
        folder = tempfile.TemporaryDirectory()
        self.addCleanup(folder.cleanup)
        self.folder = Path(folder.name)

    def compare(self, scenario: Path, *arguments: str) -> int:
        """Both tables have one heading, and the same rows in any order; the tool has those of the program in the order
        of its own. Returns how many rows begin at the time of another one."""
        lines = self.folder / "trace.txt"
        traced(scenario, lines, *arguments)
        table, error = table_by_python(lines, scenario, *arguments)
        self.assertEqual(table_of(lines, scenario, program(), *arguments), (table, error))
        mine, theirs = judged(scenario, lines, *arguments), table.decode().splitlines()
        self.assertEqual(mine[0], theirs[0])
        self.assertEqual(sorted(mine[1:]), sorted(theirs[1:]))
        times = Counter(row.split(",")[2] for row in theirs[1:])
        return sum(count for count in times.values() if count > 1)

    def test_examples(self) -> None:
        """The cheap examples."""
        for name in CHEAP:
            with self.subTest(name):
                self.compare(EXAMPLES / name)

    def test_random(self) -> None:
        """Random scenarios of all profiles, with latency files, and the same with many commands at one time."""
        scenario, links = self.folder / "a.toml", self.folder / "a.csv"
        together = 0
        for seed in RANDOM:
            with self.subTest(seed):
                links.unlink(missing_ok=True)
                made = ended(generate, "--random", str(seed), "-o", str(scenario), "--links", str(links))
                self.assertEqual(made[0], 0)
                arguments = ["--latency", str(links)]
                self.compare(scenario, *arguments)
                scenario.write_text(crowded(scenario.read_text()))
                together += self.compare(scenario, *arguments)
        self.assertGreater(together, 100)

    def test_bad_line(self) -> None:
        """A line that ends no lookup is refused, with its number."""
        lines = self.folder / "trace.txt"
        lines.write_text("0 n0 lookup 1\n5 n0 found 2 n1 hops=0 timeouts=0 us=5\n")
        command = [str(program()), "judge", "--scenario", str(EXAMPLES / "ring.toml"), "--trace", str(lines)]
        done = subprocess.run(command, capture_output=True, text=True, check=False)
        told = f"refused: line 2 of {lines} is of no run of the scenario\n"
        self.assertEqual((done.returncode, done.stderr), (1, told))


if __name__ == "__main__":
    unittest.main()
