"""The table of lookups and the digest of a trace: as a study reads them, and as the program makes them."""

import io
import subprocess
import tempfile
import tomllib
from itertools import groupby
from pathlib import Path
from unittest import TestCase
from unittest.mock import patch

from chordsim_tools.generate.breaking_scenario import breaking_scenario
from chordsim_tools.members import Members, Presence
from chordsim_tools.scenario.classes import expanded
from chordsim_tools.study import lookups
from chordsim_tools.study.lookups import HEADING, Lookups, Table, read_table
from chordsim_tools.study.program import Program
from tests.support.judging import judged
from tests.support.programs import program
from tests.support.worlds import EXAMPLES, with_detail

ROWS = (
    "a,5,10,30,20,2,0,b,b,right,right",
    "b,6,5,40,35,3,1,c,a,wrong,right",
    "c,7,20,40,20,0,2,,,lost,lost",
    "a,8,12,50,38,,,,,cut-by-crash,cut-by-crash",
    "b,9,11,60,49,,,,,cut-by-leave,cut-by-leave",
    "c,10,1,70,69,200,0,d,,wrong,wrong",
    "d,11,15,,,,,,,cut-by-end,cut-by-end",
)
EXACT = ("deployed64", "lossy64", "detail16", "churn64", "coordinates64", "ring", "slow_repair", "join_stuck")


def table_of(*rows: str) -> Table:
    """The table with these rows."""
    return read_table(io.BytesIO("".join(f"{row}\n" for row in (HEADING, *rows)).encode()))


class TableTest(TestCase):
    """Columns, by hand."""

    def test_kinds(self) -> None:
        """Each kind of end has the columns that its rows have, in the order of the rows."""
        table = table_of(*ROWS)
        assert table.answered == Lookups(
            [10, 5, 1], [30, 40, 70], [20, 35, 69], [2, 3, 200], [0, 1, 0], ["a", "b", "c"], ["b", "c", "d"],
            [True, False, False], [True, True, False],
        )
        assert table.lost == Lookups([20], [40], [20], [0], [2])
        assert table.cut == Lookups([12, 11], [50, 60], [38, 49]) and table.unfinished == Lookups([15])
        assert len(table) == 7 and table.sum_of("hops") == 205
        assert [table.answered.ended_before(time) for time in (30, 31, 99)] == [0, 1, 3]

    def test_begins(self) -> None:
        """The same in the order of begins, and those of a span."""
        begins = table_of(*ROWS).by_begins
        assert begins.answered.begun == [1, 5, 10] and begins.answered.named == ["d", "c", "b"]
        assert begins.cut == Lookups([11, 12], [60, 50], [49, 38])
        assert [len(piece) for piece in begins.pieces([0, 5, 5, 11, 15, 20])] == [1, 0, 2, 2, 1]
        assert begins.between(5, 11).answered.us == [35, 20] and begins.lost.begun_before(20) == 0

    def test_parts(self) -> None:
        """A table that is read by parts of any size is the same."""
        whole = table_of(*ROWS)
        for size in (1, 7, 60, 200):
            with patch.object(lookups, "PART", size):
                assert table_of(*ROWS) == whole

    def test_empty(self) -> None:
        """A run without lookups."""
        assert table_of() == Table() and len(Table().by_begins) == 0

    def test_other_tables(self) -> None:
        """Another heading, other words, too many cells, no number, and an end within a line."""
        for text in (
            "", "asker\n", f"{HEADING},more\n", HEADING, f"{HEADING}\n{ROWS[0]}", f"{HEADING}\n{ROWS[0]},\n",
            f"{HEADING}\n{ROWS[0].replace('right', 'good')}\n", f"{HEADING}\n{ROWS[0].replace('20', 'x')}\n",
            f"{HEADING}\n{ROWS[0]}\n\n",
        ):
            with self.subTest(text=text), self.assertRaises((ValueError, LookupError)):
                read_table(io.BytesIO(text.encode()))

    def test_presence(self) -> None:
        """a is a member from the start until 10, and from 20 on; b comes and goes at 30."""
        members = Members({"a": 5, "b": 7}, ["a"])
        members.remove("a", 10)
        members.add("a", 20)
        members.add("b", 30)
        members.remove("b", 30)
        presence = Presence(members)
        assert [presence.was_member("a", time) for time in (0, 9, 10, 19, 20)] == [True, True, False, False, True]
        assert not any(presence.was_member("b", time) for time in (29, 30, 31))


class ProgramTest(TestCase):
    """What the program makes of real traces, and what the tests make of them by other means."""

    def compare(self, path: Path, edges: list[int]) -> None:
        """Table and digest of a scenario. The counts of one span may come in any order."""
        top = expanded(tomllib.loads(path.read_text()))
        names = [node["name"] for node in top["node"]]
        members = Members(Program(program(), path, None).idents(names), [
            node["name"] for node in top["node"] if node.get("initial") is True
        ])
        trace = subprocess.run([program(), "run", "--serial", "--scenario", path], stdout=subprocess.PIPE, check=True)
        digest = path.with_name("digest")
        words = ["judge", "--scenario", str(path), "--digest", str(digest), "--edges", ",".join(map(str, edges))]
        made = subprocess.run([str(program()), *words], input=trace.stdout, stdout=subprocess.PIPE, check=True)
        table, mine = judged(trace.stdout.decode().splitlines(), members, edges)
        self.assertEqual(made.stdout.decode().splitlines(), table.splitlines())
        self.assertEqual(in_order(digest.read_text()), in_order(mine))

    def test_examples(self) -> None:
        """As they are, and with detail; spans of all lengths, one of them empty and one beyond the end."""
        for name in EXACT:
            text = (EXAMPLES / f"{name}.toml").read_text()
            profile = tomllib.loads(text)["profile"]
            detailed = with_detail(text.replace(f"profile = {profile}", "profile = 4", 1))
            for detail, one in enumerate((text, detailed)):
                with self.subTest(name=name, detail=detail), tempfile.TemporaryDirectory() as folder:
                    (Path(folder) / "scenario.toml").write_text(one)
                    end = tomllib.loads(one)["duration_us"]
                    edges = [end // 7, end // 2, end // 2 + 1, end // 2 + 2, end, 2 * end]
                    self.compare(Path(folder) / "scenario.toml", edges)

    def test_breaking_rings(self) -> None:
        """Rings that break; in the last two a node begins lookups of one key at one time."""
        for seed in (1, 2, 3, 37, 117):
            with self.subTest(seed=seed), tempfile.TemporaryDirectory() as folder:
                text = breaking_scenario(seed).replace("detail = false\n", "")
                (Path(folder) / "scenario.toml").write_text(with_detail(text))
                self.compare(Path(folder) / "scenario.toml", [500, 505, 600, 10_000])


def in_order(digest: str) -> list[str]:
    """The lines of a digest, those of counts that stand together in order."""
    ordered: list[str] = []
    for is_count, lines in groupby(digest.splitlines(), key=lambda line: " messages " in line):
        ordered += sorted(lines) if is_count else lines
    return ordered
