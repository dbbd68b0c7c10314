"""The table of lookups of tools/trace by `chordsim judge`: its order, what is refused, and when Python makes it.

test_judge compares both ways on examples and random scenarios."""

import os
import tempfile
from pathlib import Path
from unittest import TestCase
from unittest.mock import patch

from chordsim_tools.scenario.reading import read_scenario
from chordsim_tools.trace.command import main
from chordsim_tools.trace.judge import shows_order
from chordsim_tools.trace.lookups import COLUMNS
from tests.support.programs import called, ended, program
from tests.support.rings import FOUR, SETTINGS, TOP, of_profile
from tests.support.tables import table_by_judge, table_by_python
from tests.test_judge import traced
from tests.test_trace import SCENARIO, audit
from tests.test_trace_lookups import LINES

TOOL = Path(__file__).resolve().parents[1] / "trace"


def command(node: str, key: int | None, time: int = 100, more: str = 'do = "lookup"') -> str:
    """A command, by default a lookup."""
    asked = "" if key is None else f"key = {key}\n"
    return f'[[command]]\nat_us = {time}\n{more}\nnode = "{node}"\n{asked}'


RENAMED = SCENARIO.replace('name = "a"', 'name = "z"')
"""The nodes are z, b, c and d, in this order."""
CROWD = RENAMED.replace("[[node]]", "[lookups]\ngap_min_us = 1\ngap_max_us = 900\n[[node]]", 1) + "".join((
    command("c", 5), command("d", 5), command("z", 7), command("b", 2), command("c", 5), command("z", 3, 90),
))
TIES = (
    "90 z lookup 3", "100 c lookup 5", "100 d ignored lookup", "100 z lookup 7", "100 b busy 2", "100 c lookup 5",
    "100 z lookup 7", "100 b lookup 9", "100 c lookup 1", "100 b found 9 z hops=0 timeouts=0 us=0",
    "101 z lookup 4", "120 c found 5 z hops=1 timeouts=0 us=20", "130 z lost 7 hops=2 timeouts=9 us=30",
    "140 c lost 5 hops=0 timeouts=9 us=40", "150 z found 7 b hops=1 timeouts=0 us=50", "160 c crash",
    "170 z found 3 z hops=2 timeouts=1 us=80", audit(500, 2), audit(1000, 2),
)
"""Six lookups begin at 100. Three of them are of commands; z has also a generated one, of the same key."""
TIES_TABLE = [
    "z,3,90,170,80,2,1,z,z,right,right",
    "c,5,100,120,20,1,0,z,z,right,right",
    "z,7,100,130,30,2,9,,,lost,lost",
    "c,5,100,140,40,0,9,,,lost,lost",
    "z,7,100,150,50,1,0,b,z,wrong,wrong",
    "b,9,100,100,0,0,0,z,z,right,right",
    "c,1,100,160,60,,,,,cut-by-crash,cut-by-crash",
    "z,4,101,,,,,,,cut-by-end,cut-by-end",
]


class TraceJudgeTest(TestCase):
    """The tool, with files in a folder."""

    def setUp(self) -> None:
        """The trace and the scenario of test_trace_lookups."""
        program()
        folder = tempfile.TemporaryDirectory()
        self.addCleanup(folder.cleanup)
        self.folder = Path(folder.name)
        self.lines, self.scenario, self.table = (self.folder / name for name in ("a.trace", "a.toml", "a.csv"))
        self.write(SCENARIO, *LINES)

    def write(self, scenario: str, *lines: str) -> None:
        """Another trace and scenario."""
        self.scenario.write_text(scenario, encoding="ascii")
        self.lines.write_text("".join(f"{line}\n" for line in lines), encoding="ascii")

    def ended(self, *options: str) -> tuple[int, str, str]:
        """The status of the tool, and what it printed."""
        return ended(main, str(self.lines), str(self.scenario), "--lookups", str(self.table), *options)

    def test_ties(self) -> None:
        """At one time those of commands come first, in the order of the file, and then the nodes in their order."""
        self.write(CROWD, *TIES)
        text = "".join(f"{row}\n" for row in (",".join(COLUMNS), *TIES_TABLE))
        assert table_by_judge(self.lines, self.scenario)[0].decode() == text
        assert table_by_python(self.lines, self.scenario)[0].decode() == text

    def test_node_that_comes_up_between_two_commands(self) -> None:
        """The first lookup of n6 is ignored, and the second one begins after that of n0. Python sees that."""
        join = command("n6", None, more='do = "join"\nvia = "n6"')
        asks = [command("n6", 1), command("n0", 1), join, command("n6", 1)]
        for commands, is_shown in ((asks, False), (asks[1:], True), (asks[:3], True)):
            self.write(of_profile("profile = 4", TOP + SETTINGS + FOUR + "".join(commands)))
            traced(self.scenario, self.lines)
            assert shows_order(read_scenario(self.scenario.read_bytes(), b"")) == is_shown
            assert self.ended() == (0, "", "")
            assert self.table.read_bytes() == table_by_python(self.lines, self.scenario)[0]
            rows = self.table.read_text(encoding="ascii").splitlines()[1:]
            assert [row.split(",")[0] for row in rows] == ["n0", "n6"][:len(rows)] and rows

    def test_refused(self) -> None:
        """A trace that the judge refuses leaves the file of the table as it was."""
        self.write(SCENARIO, "10 a lookup 15", "20 a found 16 b hops=1 timeouts=0 us=10")
        told = f"refused: the program says: refused: line 2 of {self.lines} is of no run of the scenario\n"
        assert self.ended() == (1, "", told)
        assert sorted(file.name for file in self.folder.iterdir()) == ["a.toml", "a.trace"]
        self.table.write_text("kept")
        assert self.ended() == (1, "", told)
        assert self.table.read_text() == "kept"
        self.lines.unlink()
        assert self.ended() == (1, "", f"refused: cannot read {self.lines}: No such file or directory\n")

    def test_refused_by_python_alone(self) -> None:
        """The judge does not notice times that go back. Any other option does."""
        self.write(SCENARIO, "10 a lookup 15", "9 b lookup 15", audit(1000, 3))
        assert self.ended() == (0, "", "")
        status, _, error = self.ended("--per-node")
        assert status == 1 and "its time is below that of the line before" in error

    def test_no_program(self) -> None:
        """Python makes the table, and nothing is said."""
        wanted = table_by_judge(self.lines, self.scenario)
        for name in ("/nowhere/chordsim", ""):
            with patch("chordsim_tools.program.LAUNCHER", self.folder / "none"), patch.dict(os.environ, CHORDSIM=name):
                assert self.ended() == (0, "", "")
            assert (self.table.read_bytes(), "") == wanted
            self.table.unlink()

    def test_other_options(self) -> None:
        """With any of them Python reads the trace; the latency file is none of them."""
        wanted, links = table_by_judge(self.lines, self.scenario), self.folder / "links.csv"
        links.write_text("a,b,20\n", encoding="ascii")
        assert table_by_judge(self.lines, self.scenario, "--latency", str(links)) == wanted
        report = self.folder / "report"
        report.write_text("lookups 6\n", encoding="ascii")
        options = ("--json", "--per-node", "--over-time=1ms", "--worst=1", "--node=a", "--lookup=1", "--join=d",
                   f"--report={report}")
        with patch("chordsim_tools.trace.command.judged_table", side_effect=AssertionError):
            for option in options:
                with self.subTest(option):
                    self.table.unlink(missing_ok=True)
                    assert self.ended(option)[0] == 0
                    assert self.table.read_bytes() == wanted[0]

    def test_doubts(self) -> None:
        """Most answers are wrong, and most audits find a ring in order: the warning is that of Python.

        In the third case the answers name b, which was the right owner before. A half line is no audit."""
        answer, torn = "100 a found 15 {} hops=0 timeouts=0 us=100", "dead=0 ring=3 ordered=no"
        cases: tuple[tuple[str, list[str], list[str], bool], ...] = (
            ("c", [], [audit(500, 3), audit(1000, 3)], True), ("c", [], [audit(1000, 3, torn)], False),
            ("b", ["50 b crash"], [audit(500, 2)], True), ("b", [], [audit(500, 3)], False),
        )
        for owner, crash, audits, is_doubted in cases:
            with self.subTest(owner=owner, audits=audits):
                lines = ["0 a lookup 15"] * 20 + crash + [answer.format(owner)] * 20
                self.write(SCENARIO, *lines, *audits)
                with self.lines.open("a", encoding="ascii") as file:
                    file.write(audit(1000, 3, torn)[:-1])
                told = table_by_python(self.lines, self.scenario)
                assert table_by_judge(self.lines, self.scenario) == told
                assert told[1].startswith("warning: 100.00 % of the audits") == is_doubted

    def test_streams(self) -> None:
        """The trace may be standard input, a pipe or a file that the shell has opened. A scenario of a pipe cannot be
        read twice, so that Python reads the trace."""
        wanted = table_by_python(self.lines, self.scenario)[0]
        script = self.folder / "program"
        script.write_text(f'#!/bin/sh\necho "$@" > "$0.called"\nexec {program()} "$@"\n', encoding="utf-8")
        script.chmod(0o755)
        calls = (
            ('cat a.trace | "$0" /dev/stdin a.toml', ""), ('"$0" /dev/stdin a.toml < a.trace', ""),
            ('cat a.trace | "$0" /dev/fd/3 a.toml 3<&0 < /dev/null', ""), ('"$0" /dev/fd/3 a.toml 3< a.trace', ""),
            ('mkfifo pipe; cat a.trace > pipe & "$0" pipe a.toml', ""), ('cp a.trace -; "$0" - a.toml', ""),
            ('"$0" a.trace a.toml', " --trace a.trace"), ('cat a.toml | "$0" a.trace /dev/stdin', None),
        )
        for call, option in calls:
            with self.subTest(call):
                shell = ("sh", "-c", f"cd {self.folder}; {call} --lookups a.csv", str(TOOL))
                assert called(*shell, CHORDSIM=str(script)) == (0, "", "") and self.table.read_bytes() == wanted
                self.table.unlink()
                told = self.folder / "program.called"
                assert told.exists() == (option is not None)
                if option is not None:
                    assert told.read_text(encoding="utf-8") == f"judge --scenario {self.scenario}{option}\n"
                    told.unlink()
