"""Classes of nodes, by the program: what it refuses and accepts, and runs that are those of single nodes."""

import csv
import os
import tempfile
import tomllib
from pathlib import Path
from unittest.mock import patch

from chordsim_tools.reference.report import Report
from chordsim_tools.reference.simulation import Simulation
from chordsim_tools.scenario.classes import expanded
from chordsim_tools.scenario.reading import read_scenario
from chordsim_tools.study.command import main as study
from chordsim_tools.study.document import toml_text
from tests.support.programs import ended
from tests.support.rings import Left, ProgramTest
from tests.support.tables import table_by_judge, table_by_python
from tests.test_classes import ACCEPTED, FAULTS, LOW, PAIR, TOP, WORLDS, a_class, beside


class ClassesProgram(ProgramTest):
    """Texts with classes."""

    def test_faults(self) -> None:
        """Each text has its first fault."""
        for text, wanted in FAULTS:
            with self.subTest(wanted=wanted, text=text[len(TOP) :]):
                self.has_answer(text, "", wanted)

    def test_accepted(self) -> None:
        """Each text has as many nodes and commands as the tools count."""
        for text in ACCEPTED:
            with self.subTest(text=text[len(TOP) :]):
                scenario = read_scenario(text.encode(), b"")
                self.has_answer(text, "", f"ok nodes={len(scenario.nodes)} commands={len(scenario.commands)}")

    def test_rows(self) -> None:
        """Rows of the latency file name nodes of classes."""
        self.has_answer(beside(PAIR), "a1,n0,20\n", "ok nodes=5 commands=1")
        self.has_answer(beside(PAIR), "a2,n0,20\n", "S9 UnknownNode row 1")
        placed = TOP + a_class(further=LOW)
        self.has_answer(placed, "a0,a1,20\n", "S16 RowsAndCoordinates")

    def test_identifiers(self) -> None:
        """`ids` lists the nodes in the order of their numbers, with the identifiers of their names."""
        text = beside(a_class(12, "b"), a_class())
        nodes = read_scenario(text.encode(), b"").nodes
        listed = "".join(f"{node.name} {node.ident}\n" for node in nodes)
        self.assertEqual(self.ended("ids", text.encode(), b""), (0, listed, ""))

    def test_runs(self) -> None:
        """By each engine a run is that of the reference simulator, and of the same nodes with tables of their own."""
        for text in WORLDS:
            simulation, report = Simulation(read_scenario(text.encode(), b"")), Report(4)
            lines = list(simulation.lines())
            for line in lines:
                report.read(line)
            wanted = Left("".join(f"{line}\n" for line in lines), report.text(simulation.events))
            self.all_leave(text, *wanted)
            self.all_leave(written_out(text), *wanted)

    def test_judge(self) -> None:
        """The table of lookups is that of tools/trace."""
        for text in WORLDS:
            self.left(text)
            lines, scenario = self.folder / "trace", self.folder / "scenario.toml"
            table = table_by_python(lines, scenario)
            self.assertEqual(table_by_judge(lines, scenario), table)
            status, rows, _ = self.ended("judge", text.encode(), b"", "--trace", str(lines))
            self.assertEqual((status, sorted(rows.splitlines())), (0, sorted(table[0].decode().splitlines())))

    def test_study(self) -> None:
        """A study has the same numbers of both, and more nodes of a class are those of another base.

        Places that are drawn are those of each seed, so that each has nodes of its own."""
        for text in WORLDS:
            rows = []
            for seed in (1, 2):
                alone = written_out(text.replace("\nseed = 1\n", f"\nseed = {seed}\n"))
                rows += self.runs_of(alone, "list = [1, 3]", seed)
            self.assertEqual(sorted(self.runs_of(text, "list = [1, 3]", 1, 2)), sorted(rows))
        first, *_ = WORLDS
        varied = self.runs_of(first, '"nodes.count" = [5, 12]', 1, 2)
        for count, rows in ((5, varied[:2]), (12, varied[2:])):
            nodes = written_out(first.replace("count = 9", f"count = {count}"))
            self.assertEqual([row[1:] for row in rows], [row[1:] for row in self.runs_of(nodes, "list = [2]", 1, 2)])

    def runs_of(self, base: str, vary: str, *seeds: int) -> list[list[str]]:
        """The rows of `runs.csv` of a study of these seeds."""
        with tempfile.TemporaryDirectory() as name:
            folder = Path(name)
            (folder / "base.toml").write_text(base, encoding="utf-8")
            head = f'question = "How?"\nbase = "base.toml"\nseeds = {list(seeds)}\n'
            (folder / "study.toml").write_text(f"{head}[vary]\n{vary}\n", encoding="utf-8")
            with patch.dict(os.environ, CHORDSIM=self.program):
                files = str(folder / "study.toml"), "-o", str(folder / "out")
                status, _, told = ended(study, "run", *files, "--jobs", "1")
            self.assertEqual(status, 0, told)
            return list(csv.reader((folder / "out" / "runs.csv").read_text().splitlines()))[1:]


def written_out(text: str) -> str:
    """The scenario whose nodes all have tables of their own."""
    return toml_text(expanded(tomllib.loads(text)))
