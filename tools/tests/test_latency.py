"""The latency files of tools/latency."""

import os
import subprocess
import tempfile
from collections.abc import Iterator
from contextlib import contextmanager
from pathlib import Path
from unittest import TestCase, mock
from random import Random

from chordsim_tools.draws import Draws
from chordsim_tools.latency.command import main, plane
from chordsim_tools.latency.measured import choose
from chordsim_tools.scenario.reading import read_scenario
from tests.support.programs import checked, ended, program
from tests.support.worlds import EXAMPLES

MATRIX = """\
0 10 20 30
14 0 -1 50
20 0 0 7
31 -1 8 0
"""
ROWS = "n0,n1,6\nn0,n2,10\nn0,n3,16\nn1,n2,5\nn1,n3,25\nn2,n3,4\n"
"""By hand. n0 n1: (10 + 14) / 2 / 2 = 6; n0 n2: 20 / 2; n0 n3: 30.5 / 2 = 15.25; n1 n3: 50 / 2, one direction alone;
n2 n3: 7.5 / 2 = 3.75. n1 n2 is the gap: n1 has the round trips 12 and 50, n2 has 20 and 7.5, the lower ones of the two
in the middle are 12 and 7.5, their mean 9.75, and half of that 4.875."""


@contextmanager
def file_of(text: str) -> Iterator[str]:
    """A file with this text."""
    with tempfile.TemporaryDirectory() as folder:
        name = Path(folder) / "trips"
        name.write_text(text)
        yield str(name)


def written(text: str, *words: str) -> tuple[int, str, str]:
    """What the tool does with measured round trips of this text; the file is called FILE in what it says."""
    with file_of(text) as name:
        status, out, err = ended(main, name, *words)
        return status, out, err.replace(name, "FILE")


class LatencyTest(TestCase):
    """What is written, and what is refused."""

    def test_matrix_by_hand(self) -> None:
        """Four hosts and one gap, by blanks or by commas; the facts at the end."""
        facts = "hosts 4, gaps filled 1, least 4 us, median 6 us, greatest 25 us; window_us may be at most 4\n"
        assert written(MATRIX, "--nodes", "4", "--unit", "us") == (0, ROWS, facts)
        commas = "\ufeff# King\n,10,20,30\n\n14,, -1 ,50\n20,0,,7.0\n31,-1.0,8e0,\n"
        assert written(commas, "--nodes", "4", "--unit", "us") == (0, ROWS, facts)

    def test_lines_by_hand(self) -> None:
        """The same round trips in lines: hosts are taken in the order of their numbers."""
        lines = "2 30 8\n7 30 31\n30 7 30\n7 8 10\n8 7 14\n7 2 20\n2 7 20\n8 30 50\n30 2 7\n"
        lines += "2 8 -1\n"
        # The numbers 2, 7, 8, 30 are the hosts 3, 1, 2, 4 of the matrix.
        status, out, _ = written(lines, "--form", "lines", "--nodes", "4")
        assert status == 0
        assert out == "n0,n1,10\nn0,n2,5\nn0,n3,4\nn1,n2,6\nn1,n3,16\nn2,n3,25\n"

    def test_units(self) -> None:
        """Half a round trip in milliseconds and seconds, rounded up; never below 1."""
        assert written("0 1.5\n-1 0\n", "--nodes", "2", "--unit", "ms")[1] == "n0,n1,750\n"
        assert written("0 0.0000001\n0 0\n", "--nodes", "2", "--unit", "s")[1] == "n0,n1,1\n"
        assert written("0 1.000000000000000000e+00\n0 0\n", "--nodes", "2")[1] == "n0,n1,1\n"
        assert written("0 2000\n2000 0\n", "--nodes", "2", "--unit", "s")[1] == "n0,n1,1000000000\n"
        assert written("0 2001\n0 0\n", "--nodes", "2")[1] == "n0,n1,1001\n"

    def test_gaps_are_refused(self) -> None:
        """With --gaps refuse, status 1; without a gap it changes nothing."""
        refusal = "refused: FILE: gaps among the chosen hosts: 1, the first between the hosts 2 and 3\n"
        assert written(MATRIX, "--nodes", "4", "--gaps", "refuse") == (1, "", refusal)
        whole = MATRIX.replace("14 0 -1", "14 0 1")
        assert written(whole, "--nodes", "4", "--gaps", "refuse")[0] == 0

    def test_host_without_round_trips(self) -> None:
        """There is no median to fill its gaps with."""
        lonely = "0 5 0\n5 0 0\n0 0 0\n"
        refusal = "refused: FILE: host 3 has no round trip with a chosen host\n"
        assert written(lonely, "--nodes", "3") == (1, "", refusal)
        assert written(lonely, "--nodes", "2")[:2] == (0, "n0,n1,3\n")

    def test_hosts_with_the_fewest_gaps(self) -> None:
        """Two hosts of at most one gap are needed and three are there: each seed draws two of these, in their order."""
        gaps = [3, 0, 1, 2, 1]
        drawn = {tuple(choose(gaps, 2, Draws(seed))) for seed in range(40)}
        assert drawn == {(1, 2), (1, 4), (2, 4)}
        assert choose(gaps, 5, Draws(1)) == [0, 1, 2, 3, 4]
        assert choose(gaps, 3, Draws(1)) == [1, 2, 4]
        # In the matrix the hosts 1 and 4 have no gap, and 2 and 3 have one.
        assert {written(MATRIX, "--nodes", "2", "--seed", str(seed))[1] for seed in range(5)} == {"n0,n1,16\n"}

    def test_names_of_a_scenario(self) -> None:
        """The names stand in the order of the scenario, which accepts the rows."""
        name = str(EXAMPLES / "ring.toml")
        three = "0 100 200\n100 0 300\n200 300 0\n"
        status, rows, _ = written(three, "--names", name)
        assert (status, rows) == (0, "n0,n1,50\nn0,n3,100\nn1,n3,150\n")
        assert written(three, "--names", name, "--nodes", "3")[1] == rows
        assert written(three, "--names", name, "--nodes", "4")[0] == 2
        assert read_scenario(Path(name).read_bytes(), rows.encode()).latencies[(1, 2)] == 150
        with file_of('node = [{name = "a"}, {name = "a"}]') as twice:
            refusal = f"refused: {twice}: node 2 has no name of its own\n"
            assert ended(main, "--plane", "1s", "--names", twice) == (1, "", refusal)
        with file_of("node = [") as broken:
            assert ended(main, "--plane", "1s", "--names", broken) == (1, "", f"refused: {broken}: S1 NotToml\n")

    def test_plane_by_hand(self) -> None:
        """Hosts at (0, 0), (3, 4), (1, 1) and again (0, 0), floor 10: ways 5, 1.41.., 0, 3.60.., 5, 1.41.."""
        draws = Draws(1)
        places = iter((0, 0, 3, 4, 1, 1, 0, 0))
        with mock.patch.object(draws, "between", lambda least, greatest: next(places)):
            assert plane(4, 10, 4, draws).micros == [
                (0, 1, 15), (0, 2, 12), (0, 3, 10), (1, 2, 14), (1, 3, 15), (2, 3, 12),
            ]

    def test_plane(self) -> None:
        """All pairs, none below the floor or beyond the diagonal; ways keep the triangle; their mean is 0.521 sides."""
        status, out, err = ended(main, "--plane", "100ms", "--floor", "5ms", "--nodes", "100")
        rows = [row.split(",") for row in out.splitlines()]
        micros = {(int(a[1:]), int(b[1:])): int(us) for a, b, us in rows}
        assert status == 0 and list(micros) == [(a, b) for a in range(100) for b in range(a + 1, 100)]
        assert all(5_000 <= us <= 146_422 for us in micros.values())
        assert all(micros[0, b] <= micros[0, 1] + micros[1, b] for b in range(2, 100))
        assert abs(sum(micros.values()) / len(micros) - 5_000 - 52_140) < 4_000
        assert f"least {min(micros.values())} us" in err and "gaps filled 0" in err
        more = ended(main, "--plane", "100ms", "--floor", "5ms", "--nodes", "101")[1]
        assert set(out.splitlines()) < set(more.splitlines())

    def test_same_words_same_bytes(self) -> None:
        """In another process with other hashes; another seed chooses other hosts and places."""
        random = Random(3)
        matrix = "".join(" ".join(str(random.randint(1, 900)) for _ in range(30)) + "\n" for _ in range(30))
        tool = Path(__file__).resolve().parents[1] / "latency"
        with file_of(matrix) as name:
            for words in ([name, "--nodes", "9"], ["--plane", "1s", "--nodes", "9"]):
                here = ended(main, *words)
                there = subprocess.run(
                    [tool, *words], env=os.environ | {"PYTHONHASHSEED": "5"}, capture_output=True, text=True, check=True
                )
                assert (there.stdout, there.stderr) == here[1:]
                assert ended(main, *words, "--seed", "2")[1] != here[1]

    def test_refused_files(self) -> None:
        """One line with the file's name, the line and the reason; status 1."""
        for text, form, reason in [
            ("1 2\n3\n", "matrix", "FILE: line 2: 1 values, where the first row has 2"),
            ("1 2 3\n1 2 3\n", "matrix", "FILE: no square matrix: 3 values in a row, and not as many rows"),
            ("1 2\n1 2\n1 2\n", "matrix", "FILE: no square matrix: 2 values in a row, and not as many rows"),
            ("", "matrix", "FILE: there is no round trip"),
            ("# none\n\n", "lines", "FILE: there is no round trip"),
            ("1 x\n1 2\n", "matrix", "FILE: line 1: 'x' is no number"),
            ("1 nan\n1 2\n", "matrix", "FILE: line 1: 'nan' is no number"),
            ("1 2\n-2 2\n", "matrix", "FILE: line 2: -2 is no round trip of at most 2000 seconds, and no gap"),
            ("1 2\n2e9 3e9\n", "matrix", "FILE: line 2: 3e9 is no round trip of at most 2000 seconds, and no gap"),
            ("1 2\n2 1\n", "matrix", "FILE: 2 hosts, fewer than the 3 nodes"),
            (" ".join(["1"] * 5001), "matrix", "FILE: more than 5000 hosts"),
            ("1 2\n", "lines", "FILE: line 1: not two numbers of hosts and a round trip"),
            ("a b 1\n", "lines", "FILE: line 1: not two numbers of hosts and a round trip"),
            ("1 2 3\n\n1 2 3\n", "lines", "FILE: line 3: the round trip from 1 to 2 stands there twice"),
        ]:
            with self.subTest(text=text[:20], form=form):
                assert written(text, "--form", form, "--nodes", "3") == (1, "", f"refused: {reason}\n")
        assert ended(main, "/nowhere/x") == (1, "", "refused: cannot read /nowhere/x: No such file or directory\n")

    def test_hosts_that_are_taken(self) -> None:
        """Without --nodes 64 of more hosts are taken, and it says so; fewer hosts are refused with the remedy."""
        for hosts, words, told in (
            (65, (), "hosts 64 of 65 (give --nodes for more), gaps filled 0, "), (64, (), "hosts 64, gaps filled 0, "),
            (65, ("--nodes", "64"), "hosts 64, gaps filled 0, "),
            (65, ("--names", str(EXAMPLES / "ring.toml")), "hosts 3, gaps filled 0, "),
        ):
            with self.subTest(hosts=hosts, words=words):
                status, _, err = written(f"{'1 ' * hosts}\n" * hosts, "--unit", "ms", *words)
                assert status == 0 and err.startswith(told), err
        assert written(MATRIX) == (1, "", "refused: FILE: 4 hosts, fewer than the 64 nodes: give --nodes 4\n")
        assert written("7\n") == (1, "", "refused: FILE: 1 host, fewer than the 64 nodes\n")

    def test_refused_words(self) -> None:
        """One line that names the option and its range; status 2."""
        for words, text in [
            ("", "give exactly one of MEASURED, --plane, --regions, --fit and --king"),
            ("king --plane 1s", "give exactly one of MEASURED, --plane, --regions, --fit and --king"),
            ("--king --plane 1s", "give exactly one of MEASURED, --plane, --regions, --fit and --king"),
            ("--king --fit rows", "give exactly one of MEASURED, --plane, --regions, --fit and --king"),
            ("king --floor 1ms", "--floor: only with --plane, --fit or --king"),
            ("--fit rows --nodes 3", "--nodes: only with a file MEASURED, --plane or --king"),
            ("--king --unit ms", "--unit: only with a file MEASURED"),
            ("--king --nodes 65537", "--nodes: 2 to 65536"),
            ("--king --nodes -5", "--nodes: 2 to 65536, not '-5'"),
            (f"--king --nodes 5 --names {EXAMPLES}/ring.toml", "--nodes: 3, as --names has, not '5'"),
            ("--plane 1h", "--plane: a time of 1us to 600s (us, ms, s, m, h or d), not '1h'"),
            ("--plane 1s --gaps fill", "--gaps: only with a file MEASURED"),
            ("--plane 0", "--plane: a time of 1us to 600s"),
            ("--plane 601s", "--plane: a time of 1us to 600s"),
            ("--plane 1s --floor 101s", "--floor: a time of 1us to 100s"),
            ("--plane 1s --nodes 65537", "--nodes: 2 to 65536"),
            ("--plane 1s --nodes 4096", "--nodes: rows for all pairs of 4096 nodes have more than 16777216 bytes"),
            ("--plane 1s --seed -1", "--seed: 0 to 9223372036854775807"),
            ("king --unit ns", "--unit: us or ms or s"),
            ("king --form square", "--form: matrix or lines"),
            ("king --gaps keep", "--gaps: fill or refuse"),
            ("king queen", "unrecognized arguments: queen"),
        ]:
            with self.subTest(arguments=words):
                status, out, err = ended(main, *words.split())
                assert (status, out) == (2, "")
                assert err.startswith("tools/latency: ") and text in err and err.count("\n") == 1, err

    def test_size_of_the_file(self) -> None:
        """A file of just as many bytes as chordsim reads is written; one byte more is refused."""
        size = len(ended(main, "--plane", "1s", "--nodes", "20")[1])
        for greatest, status in ((size, 0), (size - 1, 2)):
            with self.subTest(greatest=greatest), mock.patch("chordsim_tools.latency.command.GREATEST_SIZE", greatest):
                assert ended(main, "--plane", "1s", "--nodes", "20")[0] == status

    def test_files_that_cannot_be_written(self) -> None:
        """Status 3, one line, nothing is left, and what stood there before stands there still."""
        with tempfile.TemporaryDirectory() as folder:
            for name in (f"{folder}/none/x.csv", "/dev/full"):
                status, _, err = ended(main, "--plane", "1s", "--nodes", "3", "-o", name)
                assert status == 3 and err.startswith(f"failed: {name}: ") and err.count("\n") == 1
            kept = Path(folder) / "kept.csv"
            kept.write_text("old")
            with file_of(MATRIX) as name:
                assert ended(main, name, "--nodes", "5", "-o", str(kept))[0] == 1
                assert kept.read_text() == "old"
                assert ended(main, name, "--nodes", "4", "-o", str(kept))[0] == 0
            assert kept.read_text() == ROWS
            assert list(Path(folder).iterdir()) == [kept]

    def test_files_that_are_read(self) -> None:
        """None of them is written over, by another path or a link either; status 2, and each is as it was."""
        with tempfile.TemporaryDirectory() as name:
            folder = Path(name)
            texts = {"m3": "0 1 2\n1 0 3\n2 3 0\n", "ring.toml": (EXAMPLES / "ring.toml").read_text(), "rows": ROWS}
            for file, text in texts.items():
                (folder / file).write_text(text)
            (folder / "link").symlink_to("ring.toml")
            for words, target in (
                (("m3", "--nodes", "3"), "m3"), (("m3", "--names", "ring.toml"), "link"),
                (("--plane", "60ms", "--names", "ring.toml"), "../" + folder.name + "/ring.toml"),
                (("--king", "--names", "link"), "ring.toml"), (("--fit", "rows"), "rows"),
            ):
                with self.subTest(words=words):
                    files = [str(folder / word) if (folder / word).exists() else word for word in words]
                    status, out, err = ended(main, *files, "-o", str(folder / target))
                    line = f"tools/latency: -o: {folder / target} is a file that is read (see tools/latency --help)\n"
                    assert (status, out, err) == (2, "", line)
            assert {file: (folder / file).read_text() for file in texts} == texts

    def test_output_that_is_cut(self) -> None:
        """Only 512 or 1024 bytes fit into standard output: status 3, whether Python buffers it or not."""
        tool = Path(__file__).resolve().parents[1] / "latency"
        for value in ("", "1"):
            with self.subTest(PYTHONUNBUFFERED=value), tempfile.TemporaryDirectory() as folder:
                line = f"ulimit -f 1; exec {tool} --plane 60ms --nodes 64 > {folder}/x.csv"
                environment = os.environ | {"PYTHONUNBUFFERED": value}
                done = subprocess.run(
                    ["sh", "-c", line], env=environment, stderr=subprocess.PIPE, text=True, check=False
                )
                assert (done.returncode, done.stderr) == (3, "failed: standard output: File too large\n")
                assert (Path(folder) / "x.csv").stat().st_size <= 1024

    def test_program_accepts(self) -> None:
        """The rows are accepted with the greatest window that the tool says, and not with one more."""
        program()
        scenario = (EXAMPLES / "ring.toml").read_text().replace("latency_us = 10", "latency_us = 1000")
        names = str(EXAMPLES / "ring.toml")
        with tempfile.TemporaryDirectory() as folder:
            toml, rows = Path(folder) / "x.toml", Path(folder) / "x.csv"
            err = ended(main, "--plane", "300us", "--floor", "20us", "--names", names, "-o", str(rows))[2]
            window = int(err.splitlines()[0].split()[-1])
            toml.write_text(scenario.replace("window_us = 10", f"window_us = {window}"))
            assert checked(toml, rows) == "ok nodes=3 commands=1\n"
            toml.write_text(scenario.replace("window_us = 10", f"window_us = {window + 1}"))
            assert checked(toml, rows).startswith("refused: S15 LatencyBelowWindow")
