"""The table of lookups, and how long lookups take over time, by hand: nodes a to d as in test_trace."""

import csv
import tempfile
from pathlib import Path
from unittest import TestCase

from chordsim_tools.trace.command import main
from chordsim_tools.trace.lookups import COLUMNS, lookups_text
from chordsim_tools.trace.tables import step_rows, step_table
from tests.support.programs import ended
from tests.test_trace import SCENARIO, audit, run_of

LINES = (
    "5 d join a", "10 a lookup 15", "20 b lookup 35", "30 a found 15 b hops=1 timeouts=0 us=20", "40 d member c",
    "60 b found 35 a hops=2 timeouts=1 us=40", "100 c lookup 15", "110 b lookup 5", "120 c crash",
    "150 b lost 5 hops=0 timeouts=9 us=40", "200 a lookup 35", "210 a found 35 b hops=3 timeouts=0 us=10",
    audit(500, 3), "900 a lookup 7", audit(1000, 3),
)
"""Right; wrong but defensible, since d became a member; cut off by a crash; lost; wrong; cut off by the end."""
ROWS = [
    "a,15,10,30,20,1,0,b,b,right,right",
    "b,35,20,60,40,2,1,a,d,wrong,right",
    "c,15,100,120,20,,,,,cut-by-crash,cut-by-crash",
    "b,5,110,150,40,0,9,,,lost,lost",
    "a,35,200,210,10,3,0,b,d,wrong,wrong",
    "a,7,900,,,,,,,cut-by-end,cut-by-end",
]


def answers(begin: int, count: int, micros: int) -> list[str]:
    """Lookups that begin together and take so long each."""
    begins = [f"{begin} a lookup {key % 64}" for key in range(count)]
    return begins + [f"{begin + micros} a found {key % 64} a hops=0 timeouts=0 us={micros}" for key in range(count)]


class TraceLookupsTest(TestCase):
    """A row for each lookup, and percentiles by steps."""

    def test_rows(self) -> None:
        """All outcomes, with strict and defensible verdicts."""
        assert lookups_text(run_of(*LINES)).splitlines() == [",".join(COLUMNS), *ROWS]

    def test_file(self) -> None:
        """The tool writes it and says nothing else; it writes over no input."""
        with tempfile.TemporaryDirectory() as folder:
            trace, scenario, table = (str(Path(folder) / name) for name in ("a.trace", "a.toml", "a.csv"))
            Path(trace).write_text("".join(line + "\n" for line in LINES), encoding="ascii")
            Path(scenario).write_text(SCENARIO)
            assert ended(main, trace, scenario, "--lookups", table) == (0, "", "")
            with open(table, encoding="ascii", newline="") as file:
                rows = list(csv.DictReader(file))
            assert [row["strict"] for row in rows] == [row.split(",")[9] for row in ROWS]
            assert "lookups begun" in ended(main, trace, scenario, "--lookups", table, "--over-time", "1ms")[1]
            status, _, err = ended(main, trace, scenario, "--lookups", trace)
            assert status == 2 and f"--lookups: {trace} is a file that is read" in err
            status, _, err = ended(main, trace, scenario, "--lookups", table, "--html", table)
            assert status == 2 and "--lookups: " in err and "is the file of --html" in err

    def test_files_in_the_wrong_order(self) -> None:
        """The message names the file that is no scenario, and says to swap the two if the other one is."""
        with tempfile.TemporaryDirectory() as folder:
            trace, scenario, rows = (str(Path(folder) / name) for name in ("a.trace", "a.toml", "a.csv"))
            Path(trace).write_text("".join(line + "\n" for line in LINES), encoding="ascii")
            Path(scenario).write_text(SCENARIO)
            Path(rows).write_text("a,b\n")
            told = f"{scenario} is a scenario: swap the two, as tools/trace TRACE SCENARIO\n"
            assert ended(main, scenario, trace) == (1, "", f"refused: {trace}: S1 NotToml; {told}")
            line = f"refused: {trace}: S1 NotToml; tools/explain says more\n"
            assert ended(main, trace, trace) == (1, "", line)
            line = f"refused: {rows}: S12 BadLatencyRow row 1; tools/explain says more\n"
            assert ended(main, trace, scenario, "--latency", rows) == (1, "", line)

    def test_times_over_time(self) -> None:
        """By the step in which a lookup begins: of 10, 20 and 40 us the middle one; never, if most are lost."""
        lines = ["0 a lookup 1", "0 a lookup 2", "390 a lookup 3", "10 a found 1 b hops=0 timeouts=0 us=10",
                 "20 a found 2 b hops=0 timeouts=0 us=20", "430 a found 3 b hops=0 timeouts=0 us=40",
                 "500 a lookup 4", "520 a lost 4 hops=0 timeouts=9 us=20", audit(1000, 3)]
        lines.sort(key=lambda line: int(line.split()[0]))
        rows = step_rows(run_of(*lines), 400)
        assert [row["p50_us"] for row in rows] == [20, "never", None]
        assert [row["p99_us"] for row in rows] == [None, None, None]

    def test_enough_lookups(self) -> None:
        """p99 is of 100 or more, p99.9 of 1,000 or more; of a hundred of 10 us and two of 30 us p99 is 30."""
        few, many = run_of(*answers(0, 99, 10), audit(1000, 3)), run_of(*answers(0, 1000, 10), audit(1000, 3))
        assert [row["p99_us"] for row in step_rows(few, 1000)] == [None]
        [row] = step_rows(many, 1000)
        assert (row["p50_us"], row["p99_us"], row["p999_us"]) == (10, 10, 10)
        lines = answers(0, 100, 10) + [f"{50 + at} a lookup {at}" for at in range(2)]
        lines += [f"{80 + at} a found {at} a hops=0 timeouts=0 us=30" for at in range(2)]
        [row] = step_rows(run_of(*lines, audit(1000, 3)), 1000)
        assert (row["p50_us"], row["p99_us"], row["p999_us"]) == (10, 30, None)
        assert step_table([row])[-1].endswith("  0.00001 s  0.00003 s      -")
