"""Churn traces that tools/generate reads, and latencies between regions."""

import csv
import io
import os
import tempfile
from collections.abc import Callable
from contextlib import redirect_stdout
from pathlib import Path
from unittest import TestCase

from chordsim_tools.cli import Refused
from chordsim_tools.generate.command import main
from chordsim_tools.generate.sessions import read_sessions
from chordsim_tools.latency.command import main as latency
from chordsim_tools.places import read_places
from chordsim_tools.regions import placed, read_regions
from chordsim_tools.scenario.reading import Scenario, read_scenario
from chordsim_tools.trace.page.groups import read_groups
from tests.support.programs import ended

TRACE = """host,up,down
# a comment

a,0,30
x-0,0,
b, 0 , 2m
a,45s,60.5
x-1,10,20
"""
WRONG = [
    ("a,0,30\nb,0\n", "line 2 is not HOST,UP,DOWN"),
    ("a,0,30\nb c,0,3\n", "line 2 is not HOST,UP,DOWN"),
    ("a,0,30\naudit,0,3\n", "line 2 is not HOST,UP,DOWN"),
    ("a,0,30\nb,-1,3\n", "line 2 is not HOST,UP,DOWN: a name"),
    ("a,0,30\nb,0,3w\n", "in seconds or with a unit as 90s or 2h"),
    ("a,0,30\nb,5,5\n", "line 2: b is down at 5, which is not after 5"),
    ("a,0,30\na,20,40\nb,0,\n", "line 2: a is up until 30s, and so cannot come up at 20s"),
    ("a,0,\na,20,40\nb,0,\n", "line 2: a is up until the end, and so cannot come up at 20s"),
    ("a,0,30\n", "1 hosts, and a scenario has 2 or more"),
]
LONG = "b" * 131_073
"""One character more than Python takes for a field by itself."""
READERS: list[tuple[Callable[[str], object], str, str]] = [
    (read_sessions, f"a,0,30\n{LONG},0,3\n", "line 2 is not HOST,UP,DOWN"),
    (read_regions, f"one-way,{LONG}\n{LONG},2\n", "a time with a unit is wanted"),
    (read_places, f"a,0,0,1\nb,0,{LONG},1\n", "row 2 is not NAME,X,Y,HEIGHT"),
    (lambda file: read_groups(file, ["a"]), f"a,x\n\n{LONG},y\n", "line 3: the scenario has no node 'b{120}'"),
]
"""What reads rows, a file with a long field, and how that is refused."""
SQUARE = "round-trip,eu,us,asia\neu,2ms,60ms,80ms\nus,,2ms,100ms\nasia,80ms,104ms,2ms\n"
"""One-way: 1 ms within; 30, 40 and 51 ms between."""
RIGHT = "one-way,eu,us,asia\neu,2ms,32ms,42ms\nus,32ms,2ms,52ms\nasia,42ms,52ms,2ms\n"
"""Less the heights of 1 ms each these are sides of 30, 40 and 50 ms: a right angle."""
MATRICES = [
    ("eu,us\neu,1ms,2ms\n", "its first field has to be round-trip or one-way"),
    ("one-way,eu,eu\neu,1ms,2ms\neu,1ms,2ms\n", "has to name 1 to 64 different regions"),
    ("one-way,eu,us\nus,1ms,2ms\neu,1ms,2ms\n", "a line for each region is wanted, in the order of the first line"),
    ("one-way,eu,us\neu,1ms,2ms\nus,1ms\n", "a line for each region is wanted"),
    ("one-way,eu,us\neu,1ms,2\nus,2ms,1ms\n", "eu to us: a time with a unit is wanted, as 40ms, of at most 100s, not"),
    ("one-way,eu,us\neu,0ms,2ms\nus,2ms,1ms\n", "eu to eu: a time with a unit is wanted"),
]


def written(folder: str, text: str, name: str = "x.csv") -> str:
    """A file with this text."""
    path = Path(folder) / name
    path.write_text(text)
    return str(path)


def made(*arguments: str) -> Scenario:
    """The scenario of these arguments."""
    status, out, _ = ended(main, *arguments)
    assert status == 0
    return read_scenario(out.encode(), b"")


class ChurnTraceTest(TestCase):
    """Who is up when, by a file."""

    def test_commands(self) -> None:
        """Sessions from 0 are initial nodes; the end of the run is the last time of the file."""
        with tempfile.TemporaryDirectory() as folder:
            file = written(folder, TRACE)
            ring = made("--churn-trace", file, "--via", "first")
            cut = made("--churn-trace", file, "--duration", "40s")
        nodes = [(node.name, node.initial) for node in ring.nodes]
        assert nodes == [("a", True), ("x-0", True), ("b", True), ("x-1", False)]
        assert ring.duration_us == 120_000_000
        assert [(c.at_us, c.do, c.node, c.via) for c in ring.commands] == [
            (10_000_000, "join", 3, 0), (20_000_000, "crash", 3, None), (30_000_000, "crash", 0, None),
            (45_000_000, "join", 0, 1), (60_500_000, "crash", 0, None),
        ]
        assert [(c.at_us, c.do) for c in cut.commands] == [
            (10_000_000, "join"), (20_000_000, "crash"), (30_000_000, "crash"),
        ]

    def test_outage_of_hosts(self) -> None:
        """What is before the last hyphen of a host's name is its group."""
        with tempfile.TemporaryDirectory() as folder:
            ring = made("--churn-trace", written(folder, TRACE), "--crash", "x@15s", "--back", "40s")
        moves = [(c.at_us, c.do, ring.nodes[c.node].name) for c in ring.commands if ring.nodes[c.node].name[0] == "x"]
        assert moves == [(10_000_000, "join", "x-1"), (15_000_000, "crash", "x-0"), (15_000_000, "crash", "x-1"),
                         (55_000_000, "join", "x-0")]

    def test_refused(self) -> None:
        """The file, the line and what is wrong; status 1, and 2 for what does not go with it."""
        with tempfile.TemporaryDirectory() as folder:
            for text, wanted in WRONG:
                with self.subTest(text=text):
                    file = written(folder, text)
                    status, out, err = ended(main, "--churn-trace", file)
                    assert (status, out) == (1, "") and err.startswith(f"refused: {file}: ") and wanted in err, err
            file = written(folder, TRACE)
            for words in ("--nodes 4", "--lifetime exp:1s", "--group a:3", "--arrivals 1/s", "--initial 3"):
                status, _, err = ended(main, "--churn-trace", file, *words.split())
                assert status == 2 and "not with --churn-trace, which says who is up when" in err, err
            late = written(folder, "a,0,30\nb,5,30\n")
            status, _, err = ended(main, "--churn-trace", late)
            assert status == 2 and "1 of the hosts of" in err
            assert "are up at 0s, and a ring begins with 2 or more" in err
            status, _, err = ended(main, "--churn-trace", file, "-o", file)
            assert status == 2 and "is a file that is read" in err

    def test_name_that_is_no_text(self) -> None:
        """Of a file whose name is no UTF-8 the comment of the scenario has an escape, in a file and on the output."""
        out = io.TextIOWrapper(io.BytesIO(), "utf-8", "strict")
        with tempfile.TemporaryDirectory() as folder, redirect_stdout(out):
            words = ["--churn-trace", written(folder, TRACE, os.fsdecode(b"x\xff.csv"))]
            assert main(words) == 0
            assert main([*words, "-o", f"{folder}/x.toml"]) == 0
            text = Path(f"{folder}/x.toml").read_text("utf-8")
        assert f"{folder}/x\\udcff.csv" in text
        out.seek(0)
        assert out.read() == text


class ReadersTest(TestCase):
    """All that read rows."""

    def test_long_fields(self) -> None:
        """A field of any length is refused as another one."""
        self.addCleanup(csv.field_size_limit, csv.field_size_limit())
        for read, text, told in READERS:
            with self.subTest(told=told), tempfile.TemporaryDirectory() as folder:
                csv.field_size_limit(131_072)
                self.assertRaisesRegex(Refused, told, read, written(folder, text))


class RegionsTest(TestCase):
    """Latencies between regions."""

    def test_rows(self) -> None:
        """Halves of round trips, the mean of two directions, rounded up; names decide the region."""
        with tempfile.TemporaryDirectory() as folder:
            file = written(folder, SQUARE)
            ring = written(folder, ended(main, *"--group asia:2 --group us:1 --group eu:1".split())[1], "ring.toml")
            status, out, err = ended(latency, "--regions", file, "--names", ring)
        assert status == 0 and "least 1000 us" in err
        assert out.splitlines() == [
            "asia-0,asia-1,1000", "asia-0,us-0,51000", "asia-0,eu-0,40000", "asia-1,us-0,51000", "asia-1,eu-0,40000",
            "us-0,eu-0,30000",
        ]

    def test_coordinates(self) -> None:
        """Regions that fit in a plane have exactly the latencies of the file, up to a microsecond of rounding."""
        with tempfile.TemporaryDirectory() as folder:
            file = written(folder, RIGHT)
            words = ["--profile", "4", "--group", "eu:2", "--group", "us:1", "--group", "asia:2"]
            ring = made(*words, "--coordinates", f"regions:{file}")
            err = ended(main, *words, "--coordinates", f"regions:{file}")[2]
            head = ended(main, *words, "--coordinates", f"regions:{file}")[1].partition("\n\n")[0]
            regions = read_regions(file)
        assert f"# {err}" in head + "\n"
        pairs = {(0, 1): 2000, (3, 4): 2000, (0, 2): 32_000, (0, 3): 42_000, (2, 3): 52_000, (1, 4): 42_000}
        assert all(abs(ring.latency(a, b) - micros) <= 1 for (a, b), micros in pairs.items())
        assert ring.latency(0, 1) == ring.latency(3, 4) == 2000 and ring.window_us == 2000
        assert err.startswith("Coordinates of 3 regions: latencies between them are off by 0") and err.count("\n") == 1
        assert regions.latency("eu", "asia") == 42_000

    def test_error_is_told(self) -> None:
        """Four regions that are equally far from each other fit in no plane: the best square is off by a sixth.

        Of a square with the side s the diagonals are s * 1.4142. The least squares of four sides s - 1 and two
        diagonals 1.4142 s - 1 are at s = (4 + 2.8284) / (4 + 4) = 0.8536: sides 14.6 % short, diagonals 20.7 % long."""
        names = ["a", "b", "c", "d"]
        lines = [f"{one}," + ",".join("2us" if one == two else "100002us" for two in names) for one in names]
        with tempfile.TemporaryDirectory() as folder:
            regions = read_regions(written(folder, "\n".join(["one-way," + ",".join(names), *lines])))
        told = placed(regions).told
        assert "off by 21 % at most" in told and told.endswith(", 100002 us in the file)")

    def test_refused(self) -> None:
        """What is wrong with a matrix; and nodes that are in no region."""
        with tempfile.TemporaryDirectory() as folder:
            for text, wanted in MATRICES:
                with self.subTest(text=text):
                    file = written(folder, text)
                    status, out, err = ended(latency, "--regions", file, "--nodes", "2")
                    assert (status, out) == (1, "") and wanted in err and err.count("\n") == 1, err
            file = written(folder, RIGHT)
            status, _, err = ended(latency, "--regions", file, "--nodes", "2")
            assert status == 1 and "n0 is in none of its regions (eu, us, asia)" in err
            status, _, err = ended(main, "--profile", "4", "--coordinates", f"regions:{folder}/none")
            assert status == 1 and "cannot read" in err
            assert ended(latency, "--regions", file, "--floor", "1ms")[0] == 2
