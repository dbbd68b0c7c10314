"""Coordinates of tools/latency, fitted by Vivaldi or made; and what tools/generate and studies make of their file."""

import tempfile
from math import log
from pathlib import Path
from statistics import median, stdev
from unittest import TestCase
from unittest.mock import patch

from chordsim_tools.cli import Refused
from chordsim_tools.draws import WORD, Draws
from chordsim_tools.generate.command import main as generate
from chordsim_tools.latency.command import main
from chordsim_tools.latency.fit import Spring, errors_of, whole
from chordsim_tools.places import King, Square, nearly_normal, places_of
from chordsim_tools.scenario.coordinates import Coordinates
from chordsim_tools.scenario.reading import read_scenario
from chordsim_tools.study.plan import read_study
from chordsim_tools.study.worlds import generated, latency_of
from tests.support.programs import ended
from tests.support.worlds import RING


def names(count: int) -> list[str]:
    """The names of the first nodes, this many."""
    return [f"n{i}" for i in range(count)]


def rows_of(places: tuple[Coordinates, ...]) -> str:
    """A latency file that has the latencies of all pairs."""
    pairs = ((a, b) for a in range(len(places)) for b in range(a))
    return "".join(f"n{a},n{b},{places[a].latency_to(places[b])}\n" for a, b in pairs)


class Folder(TestCase):
    """Tests with files."""

    def setUp(self) -> None:
        """An empty folder."""
        folder = tempfile.TemporaryDirectory()
        self.addCleanup(folder.cleanup)
        self.folder = Path(folder.name)

    def file(self, name: str, text: str) -> str:
        """Writes a file, and returns its path."""
        (self.folder / name).write_text(text)
        return str(self.folder / name)


class FitTest(Folder):
    """Vivaldi by hand, and on latencies that coordinates have made."""

    def test_look_by_hand(self) -> None:
        """A way of 5 by 3 and 4, and heights of 1 and 4: a distance of 10. Both errors are 1, so the weight is 1/2.

        If 20 were measured, the error of the look is 10 / 20, and its part 1/4 of 1/2: 1/2 * 1/8 + 7/8. The push is
        1/4 of 1/2 of 10 / 10. The place moves by that of (-3, -4), and the height by that of 5. If 5 were measured the
        push is -1/16, and the height would be 0.6875, below the least one.
        """
        one = Spring(0.0, 0.0, 1.0)
        one.look(Spring(3.0, 4.0, 4.0), 20, 0.25, 1.0)
        assert one == Spring(-0.375, -0.5, 1.625, 0.9375)
        one = Spring(0.0, 0.0, 1.0)
        one.look(Spring(3.0, 4.0, 4.0), 5, 0.25, 1.0)
        assert one == Spring(0.1875, 0.25, 1.0, 1.0)

    def test_surer_node_moves_less(self) -> None:
        """An error of 1 beside one of 3: the weight is 1/4, and the push 1/16 of 10 / 10."""
        one = Spring(0.0, 0.0, 1.0)
        one.look(Spring(3.0, 4.0, 4.0, 3.0), 20, 0.25, 1.0)
        assert (one.x, one.height) == (-3 / 16, 1 + 5 / 16)

    def test_whole_places(self) -> None:
        """The least of each axis becomes 0."""
        assert whole([Spring(-1.5, 7.0, 2.4), Spring(3.2, 5.0, 1e9)]) == [
            Coordinates(0, 2, 2), Coordinates(5, 0, 100_000_000),
        ]

    def test_errors_by_hand(self) -> None:
        """The latency by coordinates is 15. Beside 12 it is off by 25 %, beside 14 by 7.142.. and beside 16 by 6.25."""
        places = [Coordinates(0, 0, 5), Coordinates(3, 4, 5)]
        assert errors_of([(0, 1, 12), (1, 0, 14), (0, 1, 16), (0, 1, 15)], places) == [2500, 714, 625, 0]

    def test_latencies_of_coordinates(self) -> None:
        """If coordinates have made the latencies, half of the pairs are met within 1 %, and nearly all within 3 %.

        A third of the pairs is not in the file. Half of those of n0 are met within 1 %, there or not.
        """
        places = places_of(King(), 5, names(60))
        rows = [row for number, row in enumerate(rows_of(places).splitlines()) if number % 3]
        arguments = ("--fit", self.file("links.csv", "\n".join(rows)), "--floor", "1us")
        status, out, err = ended(main, *arguments)
        assert status == 0 and err.startswith("nodes 60, pairs 1180, relative error: median 0."), err
        assert float(err.partition("90th percentile ")[2].partition(" %")[0]) < 3
        found = {name: Coordinates(*map(int, rest)) for name, *rest in (line.split(",") for line in out.splitlines())}
        far = [abs(found["n0"].latency_to(found[f"n{i}"]) / places[0].latency_to(places[i]) - 1) for i in range(1, 60)]
        assert median(far) < 0.01
        assert ended(main, *arguments) == (status, out, err)
        assert ended(main, *arguments, "--seed", "2")[1] != out

    def test_window(self) -> None:
        """The least latency of the file, or --floor, is kept: the two least heights together are not below it."""
        links = self.file("links.csv", "b,a,1001\na,c,3000\nb,c,2500\n")
        for arguments, least in (((), 1002), (("--floor", "2ms"), 2000)):
            status, out, err = ended(main, "--fit", links, *arguments)
            assert status == 0 and [line.split(",")[0] for line in out.splitlines()] == ["b", "a", "c"]
            heights = sorted(int(line.split(",")[3]) for line in out.splitlines())
            window = int(err.rpartition(" ")[2])
            assert window == sum(heights[:2]) >= least and heights[0] >= least // 2

    def test_names(self) -> None:
        """With --names the nodes of a scenario, in its order; each needs a row; its timeout is looked at."""
        links = self.file("links.csv", "n1,n0,21\nn3,n1,21\nx,n0,21\n")
        ring = self.file("ring.toml", RING)
        status, out, err = ended(main, "--fit", links, "--names", ring)
        assert status == 0 and [line.split(",")[0] for line in out.splitlines()] == ["n0", "n1", "n3"]
        assert "warning: timeout_us = 40 (40us) is below the greatest round trip, " in err
        assert err.startswith("nodes 3, pairs 3, ")
        few = self.file("few.csv", "n1,n0,21\n")
        assert ended(main, "--fit", few, "--names", ring) == (1, "", f"refused: {few}: no row names n3\n")

    def test_refused_files(self) -> None:
        """The faults of latency files, and a file without a row."""
        for text, reason in (
            ("", "there is no row"), ("a,b\n", "S12 BadLatencyRow row 1"), ("a,b,5\na,a,5\n", "S13 SelfLink row 2"),
            ("a,b,5\nb,a,5\n", "S14 SameLinkTwice row 2"),
        ):
            name = self.file("links.csv", text)
            assert ended(main, "--fit", name) == (1, "", f"refused: {name}: {reason}\n")
        refused = "refused: cannot read /nowhere/x: No such file or directory\n"
        assert ended(main, "--fit", "/nowhere/x") == (1, "", refused)


class KingTest(Folder):
    """Coordinates that are made, against what docs/tools.md says of them."""

    def test_nearly_normal(self) -> None:
        """Twelve words of 0 give -6, the greatest ones nearly 6, and the middle ones 0. Of 3000 the deviation is 1."""
        draws = Draws(1)
        for word, wanted in ((0, -6 * WORD), (WORD - 1, 6 * WORD - 12), (WORD // 2, 0)):
            with patch.object(draws, "word", lambda word=word: word):
                assert nearly_normal(draws) == wanted
        drawn = [nearly_normal(draws) / WORD for _ in range(3000)]
        assert abs(sum(drawn) / 3000) < 0.06 and abs(stdev(drawn) - 1) < 0.05

    def test_distribution(self) -> None:
        """Shares and places of the clusters, the law of the heights, and the round trips."""
        places = places_of(King(), 1, names(3000))
        # The clusters are far enough from each other to be told apart by these lines.
        parts = [
            [place for place in places if place.x_us < 90_000 and place.y_us > 80_000],
            [place for place in places if place.x_us > 139_000],
        ]
        for part, share, x, y, spread in ((parts[0], 0.2, 65, 116, 12), (parts[1], 0.35, 160, 60, 7)):
            assert abs(len(part) / 3000 - share) < 0.03
            for values, centre in (([place.x_us for place in part], x), ([place.y_us for place in part], y)):
                assert abs(median(values) / 1000 - centre) < 1.5 and abs(stdev(values) / 1000 - spread) < 1.5
        heights = [log(place.height_us) for place in places]
        assert abs(median(heights) - log(12_000)) < 0.05 and abs(stdev(heights) - 0.7) < 0.04
        trips = sorted(2 * a.latency_to(b) for at, a in enumerate(places[:600]) for b in places[:at])
        for share, millis in ((0.1, 69), (0.5, 149), (0.9, 274)):
            assert abs(trips[int(share * len(trips))] / 1000 / millis - 1) < 0.1, share

    def test_command(self) -> None:
        """A row for each node; more nodes leave the first ones; the floor, and what is told."""
        status, out, err = ended(main, "--king", "--nodes", "40", "--floor", "30ms")
        rows = [line.split(",") for line in out.splitlines()]
        assert (status, [row[0] for row in rows]) == (0, names(40))
        assert min(int(row[3]) for row in rows) == 15_000
        assert err.startswith("nodes 40, greatest latency ") and err.endswith("; window_us may be at most 30000\n")
        assert ended(main, "--king", "--nodes", "41", "--floor", "30ms")[1].startswith(out)
        assert ended(main, "--king", "--nodes", "40", "--seed", "2", "--floor", "30ms")[1] != out
        ring = self.file("ring.toml", RING)
        named = ended(main, "--king", "--names", ring)[1].splitlines()
        assert [line.split(",")[0] for line in named] == ["n0", "n1", "n3"]

    def test_generate(self) -> None:
        """The law of tools/generate is the same, and so is a file of the tool."""
        places = self.file("places.csv", ended(main, "--king", "--nodes", "20", "--seed", "3")[1])
        arguments = ("--profile", "4", "--nodes", "20", "--seed", "3", "--timeout", "1s", "--coordinates")
        made = [ended(generate, *arguments, law) for law in ("king", f"file:{places}")]
        for status, text, err in made:
            assert (status, err) == (0, "")
            nodes = read_scenario(text.encode(), b"").nodes
            assert tuple(node.coordinates for node in nodes) == places_of(King(), 3, names(20))


class PlacesFileTest(Folder):
    """Files of coordinates, as tools/generate and studies read them."""

    def generated(self, text: str) -> tuple[int, str]:
        """The status of tools/generate for two nodes with such a file, and what it says."""
        name = self.file("places.csv", text)
        arguments = f"--profile 4 --nodes 2 --list 1 --latency 9s --coordinates file:{name}".split()
        status, _, err = ended(generate, *arguments)
        # Nodes that are so far from each other have too short a timeout.
        return status, "" if err.startswith("warning: timeout_us") else err.replace(name, "FILE")

    def test_files(self) -> None:
        """A row of its own for each node; other rows are left alone."""
        assert self.generated("n1,1,2,3\nx,0,0,0\n\nn0,500000000,0,100000000\n") == (0, "")
        assert self.generated("n1,1,2,3\n") == (1, "refused: FILE: there is no row for n0\n")
        assert self.generated("n0,1,2,3\nn0,1,2,3\n") == (1, "refused: FILE: row 2 names n0 again\n")
        reason = (
            "refused: FILE: row 2 is not NAME,X,Y,HEIGHT in whole microseconds (X and Y at most 500000000, HEIGHT at "
            "most 100000000)\n"
        )
        wrong = ("n1,1,2", "n1,1,2,3,4", "n1,1,2,-3", "n1,500000001,2,3", "n1,1,2,100000001", "n1,1,2,3.5")
        for row in wrong:
            assert self.generated(f"n0,1,2,3\n{row}\n") == (1, reason), row

    def test_study(self) -> None:
        """A study names the file relative to its own. Coordinates are no latency file."""
        self.file("places.csv", "n0,1,2,3\nn1,4,5,6\n")
        arguments = "--profile 4 --nodes 2 --list 1 --coordinates file:places.csv --duration 1s".split()
        text = f'question = "?"\nseeds = 1\ngenerate = {arguments}\n'
        study = read_study(Path(self.file("study.toml", text)))
        nodes = read_scenario(generated(study, (), 1).encode(), b"").nodes
        assert [node.coordinates for node in nodes] == [Coordinates(1, 2, 3), Coordinates(4, 5, 6)]
        wrong = read_study(Path(self.file("wrong.toml", text + 'latency = ["--king"]\n')))
        self.assertRaisesRegex(Refused, "latency has --king, which makes coordinates", latency_of, wrong, (), 1)

    def test_square(self) -> None:
        """A law beside the file: its draws are those of each node's own stream."""
        law = Square(9, 3, 7)
        assert places_of(law, 1, names(30))[:20] == places_of(law, 1, names(20))
