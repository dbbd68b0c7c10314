"""Classes of nodes: what is read, refused and explained, and that they are as nodes with tables of their own."""

import tempfile
import tomllib
import unittest
from pathlib import Path
from unittest import TestCase

from chordsim import Scenario
from chordsim_tools.explain.command import explanations
from chordsim_tools.explain.files import Explanation
from chordsim_tools.explain.traps import greatest_latency, traps_of
from chordsim_tools.latency.command import main as latency
from chordsim_tools.reference.simulation import Simulation
from chordsim_tools.scenario.classes import expanded, node_count
from chordsim_tools.scenario.coordinates import Coordinates
from chordsim_tools.scenario.reading import read_scenario
from chordsim_tools.study.document import toml_text
from chordsim_tools.trace.command import main as trace
from tests.support.programs import ended
from tests.support.worlds import RING, fault

EXTENDED = RING.replace("profile = 1", "profile = 4").replace("bits = 3", "bits = 64")
NODES, _, COMMAND = EXTENDED.partition("[[command]]")
TOP = NODES[: NODES.index("[[node]]")]
PAIR = '[[nodes]]\ncount = 2\nprefix = "a"\n'
LIVES = "[churn]\nlife_min_us = 30\nlife_max_us = 90\ndown_min_us = 20\ndown_max_us = 40\n"
LOOKUPS = "[lookups]\ngap_min_us = 20\ngap_max_us = 70\n"
RUN = TOP.replace("duration_us = 200", "duration_us = 900") + "loss_ppm = 20000\ndetail = true\n"
HERE = "x_us = 0\ny_us = 0\n"
LOW = HERE + "height_us = 5\n"
"""The lines of nodes whose latencies are just long enough."""


def beside(*classes: str) -> str:
    """The ring of three in profile 4 with 64 bits, and these classes."""
    return NODES + "".join(classes) + "[[command]]" + COMMAND


def a_class(count: int | str = 2, prefix: str = "a", further: str = "") -> str:
    """A table of a class."""
    return f'[[nodes]]\ncount = {count}\nprefix = "{prefix}"\n{further}'


FAULTS = (
    (beside(PAIR).replace("profile = 4", "profile = 2"), "S2 UnknownKey top"),
    (beside(PAIR + "id = 5\n"), "S2 UnknownKey nodes 1"),
    (beside(PAIR, PAIR + 'name = "x"\n'), "S2 UnknownKey nodes 2"),
    (TOP, "S3 MissingKey top node"),
    (TOP.replace("list = 2\n", "") + PAIR, "S3 MissingKey top list"),
    (beside("[[nodes]]\ncount = 5\n"), "S3 MissingKey nodes 1 prefix"),
    (beside("[[nodes]]\n"), "S3 MissingKey nodes 1 count"),
    (beside(PAIR + "churn = true\n"), "S3 MissingKey top churn"),
    (beside(PAIR + "height_us = 9\n"), "S3 MissingKey node 1 x_us"),
    (TOP + PAIR + "height_us = 9\n", "S3 MissingKey nodes 1 x_us"),
    (TOP + a_class(further=HERE) + a_class(prefix="b"), "S3 MissingKey nodes 2 x_us"),
    ("side_us = 9\n" + TOP + PAIR, "S2 UnknownKey top"),
    (NODES + "side_us = 9\n", "S2 UnknownKey node 3"),
    (beside(PAIR + "side_us = 9\n"), "S3 MissingKey node 1 x_us"),
    (TOP + PAIR + "side_us = 0\n", "S3 MissingKey nodes 1 x_us"),
    (TOP + PAIR + "x_us = 0\nside_us = 9\n", "S3 MissingKey nodes 1 y_us"),
    (TOP + PAIR + 'side_us = "9"\n', "S3 MissingKey nodes 1 x_us"),
    (TOP + PAIR + LOW + a_class(prefix="b", further="side_us = 9\n"), "S3 MissingKey nodes 2 x_us"),
    ("nodes = 3\n" + EXTENDED, "S4 WrongType top nodes"),
    ("nodes = [1]\n" + EXTENDED, "S4 WrongType top nodes"),
    (beside(a_class('"2"')), "S4 WrongType nodes 1 count"),
    (beside('[[nodes]]\ncount = 2\nprefix = 2\n'), "S4 WrongType nodes 1 prefix"),
    (beside(PAIR + "initial = 1\n"), "S4 WrongType nodes 1 initial"),
    (TOP + PAIR + LOW + "side_us = 9.0\n", "S4 WrongType nodes 1 side_us"),
    (TOP + PAIR + LOW + "side_us = true\n", "S4 WrongType nodes 1 side_us"),
    (TOP + PAIR + HERE + "side_us = [9]\nheight_us = []\n", "S4 WrongType nodes 1 height_us"),
    ("nodes = []\n" + EXTENDED, "S5 OutOfRange top nodes"),
    (TOP + "".join(a_class(prefix="abcdefghijklmnopq"[i]) for i in range(17)), "S5 OutOfRange top nodes"),
    (beside(a_class(1)), "S5 OutOfRange nodes 1 count"),
    (beside(a_class(1_048_577)), "S5 OutOfRange nodes 1 count"),
    (beside(PAIR, a_class(0, "b")), "S5 OutOfRange nodes 2 count"),
    (TOP + PAIR + "x_us = 500000001\ny_us = 0\n", "S5 OutOfRange nodes 1 x_us"),
    (TOP + PAIR + LOW + "side_us = -1\n", "S5 OutOfRange nodes 1 side_us"),
    (TOP + PAIR + LOW + "side_us = 500_000_001\n", "S5 OutOfRange nodes 1 side_us"),
    (TOP + PAIR + HERE + "side_us = -1\nheight_us = -1\n", "S5 OutOfRange nodes 1 height_us"),
    ("node = []\n" + TOP + PAIR, "S5 OutOfRange top node"),
    (beside(a_class(prefix="")), "S6 BadName nodes 1"),
    (beside(a_class(prefix="a b")), "S6 BadName nodes 1"),
    (beside(a_class(prefix="a" * 26)), "S6 BadName nodes 1"),
    (beside(a_class(prefix="a b")).replace('"n3"', '"n 3"'), "S6 BadName node 3"),
    (beside(a_class(4, "n")), "S7 SameName node 1 node 4"),
    (beside(PAIR, a_class(3, "c"), a_class(9, "c")), "S7 SameName node 6 node 9"),
    (beside(a_class(2, "x1"), a_class(12, "x")), "S7 SameName node 4 node 16"),
    (beside(a_class(40)).replace("bits = 64", "bits = 6"), "S8 SameId n3 a5"),
    ((TOP + a_class(10)).replace("bits = 64", "bits = 6"), "S8 SameId a6 a8"),
    (beside(PAIR).replace('node = "n0"', 'node = "a2"'), "S9 UnknownNode command 1"),
    (TOP + a_class(further=HERE + "height_us = 4\n"), "S15 LatencyBelowWindow a0 a1"),
    (TOP + a_class(further=HERE + "height_us = 4\nside_us = 500_000_000\n"), "S15 LatencyBelowWindow a0 a1"),
)
"""Scenarios, each with its first fault."""
ACCEPTED = (
    beside(PAIR), beside(a_class(prefix="audit")), beside(a_class(prefix="A.z_-9" + 19 * "x")),
    beside(a_class(70_000, "m")), TOP + PAIR, TOP + PAIR + "initial = false\n",
    beside(PAIR).replace('node = "n0"', 'node = "a1"'), TOP + a_class(further=LOW),
    TOP + a_class(further=LOW + "side_us = 0\n"), TOP + a_class(further=LOW + "side_us = 500_000_000\n"),
    TOP + "".join(a_class(prefix="abcdefghijklmnop"[i]) for i in range(16)),
)


MOVES = """\
[[command]]
at_us = 20
do = "crash"
node = "a1"
[[command]]
at_us = 90
do = "join"
node = "a1"
via = "b0"
"""
WORLDS = (
    RUN + LIVES + LOOKUPS + a_class(9, "a", "initial = true\nchurn = true\n"),
    RUN + LOOKUPS + '[[node]]\nname = "x"\ninitial = true\n[[node]]\nname = "y"\nid = 7\n'
    + a_class(5, "a", "initial = true\n") + a_class(4, "b", "initial = true\nbootstrap = true\n") + MOVES,
    RUN + LIVES + LOOKUPS + a_class(4, "a", f"initial = true\n{LOW}")
    + a_class(6, "b", "initial = true\nchurn = true\nx_us = 9\ny_us = 4\nheight_us = 6\n"),
    RUN + LIVES + LOOKUPS + f'[[node]]\nname = "x"\ninitial = true\n{LOW}[[node]]\nname = "y"\nid = 7\n{LOW}'
    + a_class(3, "a", f"initial = true\n{LOW}") + a_class(5, "b", f"initial = true\n{LOW}side_us = 12\n") + MOVES,
    RUN + LIVES + LOOKUPS
    + a_class(5, "a", "initial = true\nx_us = 499_999_995\ny_us = 0\nheight_us = 5\nside_us = 9\n")
    + a_class(6, "b", "initial = true\nchurn = true\nx_us = 499_999_990\ny_us = 4\nheight_us = 6\nside_us = 30\n"),
)
"""Scenarios that run."""


def first_hint(text: str) -> tuple[str, list[str]]:
    """The first fault of a scenario in words: its fault, and what was likely meant."""
    first = next(iter(explanations(text.encode(), b"", ("world.toml", "links.csv"))[1]))
    return first.fault, first.hints


def run_of(text: str) -> list[str]:
    """The trace of the reference simulator."""
    return list(Simulation(read_scenario(text.encode(), b"")).lines())


class ClassesTest(TestCase):
    """Classes of nodes."""

    def test_faults(self) -> None:
        """Each fault of a class is at its place, in the order of the kinds and of the places."""
        for text, wanted in FAULTS:
            with self.subTest(wanted=wanted, text=text[len(TOP) :]):
                self.assertEqual(fault(text), wanted)

    def test_accepted(self) -> None:
        """The least and the most of each, and a prefix that would be no name."""
        for text in ACCEPTED:
            with self.subTest(text=text[len(TOP) :]):
                self.assertEqual(fault(text), "accepted")

    def test_rows(self) -> None:
        """A row may name nodes of classes, and no row goes with coordinates of a class."""
        text = beside(PAIR)
        found = read_scenario(text.encode(), b"a1,n0,20\n")
        self.assertEqual((found.latency(0, 4), found.latency(4, 0), found.latency(3, 4)), (20, 20, 10))
        self.assertEqual(fault(text, "a2,n0,20"), "S9 UnknownNode row 1")
        self.assertEqual(fault(TOP + a_class(further=LOW), "a0,a1,20"), "S16 RowsAndCoordinates")

    def test_nodes(self) -> None:
        """Nodes come before classes; those of a class have its values, and identifiers of their names."""
        text = beside(a_class(12, "b", "bootstrap = true\n"), a_class(2, "a", "initial = true\n"))
        scenario = read_scenario(text.encode(), b"")
        names = [node.name for node in scenario.nodes]
        self.assertEqual(names, ["n0", "n1", "n3", *(f"b{i}" for i in range(12)), "a0", "a1"])
        self.assertEqual([node.bootstrap for node in scenario.nodes], [False] * 3 + [True] * 12 + [False] * 2)
        self.assertEqual([node.initial for node in scenario.nodes][3:], [False] * 12 + [True] * 2)
        # The beginning of `printf b11 | sha1sum`.
        self.assertEqual(scenario.nodes[14].ident, 0xE18E0521AED5762B)

    def test_one_place(self) -> None:
        """All nodes of a class are at one place, and two of them are the sum of their heights apart."""
        first = a_class(3, "a", HERE + "height_us = 7\n")
        second = a_class(2, "b", "x_us = 3\ny_us = 4\nheight_us = 5\n")
        scenario = read_scenario((TOP + first + second).encode(), b"")
        self.assertEqual(scenario.nodes[4].coordinates, Coordinates(3, 4, 5))
        self.assertEqual([scenario.latency(0, 2), scenario.latency(0, 3), scenario.latency(3, 4)], [14, 17, 10])
        self.assertEqual(greatest_latency(tomllib.loads(TOP + first + second), b""), 17)
        self.assertEqual(greatest_latency(tomllib.loads(TOP + first), b""), 14)

    def test_written_out(self) -> None:
        """A run is that of the same nodes with tables of their own, with nodes and commands beside and without."""
        for text in WORLDS:
            with self.subTest(text=text):
                top = tomllib.loads(text)
                alone = expanded(top)
                self.assertNotIn("nodes", alone)
                self.assertEqual((node_count(top), node_count(alone)), (len(alone["node"]), len(alone["node"])))
                lines = run_of(text)
                self.assertEqual(lines, run_of(toml_text(alone)))
                self.assertGreater(len(lines), 100)

    def test_no_classes(self) -> None:
        """A scenario without classes is expanded to itself."""
        top = tomllib.loads(RING)
        self.assertIs(expanded(top), top)
        self.assertEqual(node_count(top), 3)


class ExplainTest(TestCase):
    """How faults of classes are explained."""

    def test_misspelled_heading(self) -> None:
        """What was meant by [[nodes]] in another profile: single nodes, or classes."""
        first = beside(PAIR).replace("profile = 4", "profile = 2")
        hint = "profile 4 has `nodes`: write profile = 4"
        self.assertEqual(first_hint(first), ("S2 UnknownKey top", [hint]))
        misspelled = first.replace(PAIR, '[[nodes]]\nname = "x"\n')
        self.assertEqual(first_hint(misspelled), ("S2 UnknownKey top", ["did you mean [[node]]?"]))

    def test_no_nodes(self) -> None:
        """In profile 4 a class is enough."""
        hints = ["a class of nodes, [[nodes]], is enough too"]
        self.assertEqual(first_hint(TOP), ("S3 MissingKey top node", hints))

    def test_number_of_tables(self) -> None:
        """Many single nodes can be a class, and one alone beside classes can be left out."""
        many = TOP + "".join(f'[[node]]\nname = "x{i}"\n' for i in range(65_537))
        told = ["nodes that are alike can be one class, [[nodes]]"]
        self.assertEqual(self.hints_of(many, "S5 OutOfRange top node"), told)
        one = TOP + '[[node]]\nname = "x"\n' + PAIR
        told = ["there are classes, so that there need not be any [[node]]"]
        self.assertEqual(self.hints_of(one, "S5 OutOfRange top node"), told)

    def hints_of(self, text: str, fault_text: str) -> list[str]:
        """What was likely meant by a fault of a scenario."""
        found = explanations(text.encode(), b"", ("world.toml", "links.csv"))[1]
        return next(one.hints for one in found if one.fault == fault_text)

    def test_prefix(self) -> None:
        """Characters and lengths of a prefix."""
        hints = ["not allowed in a name: ' '", '"a-b" is allowed']
        self.assertEqual(first_hint(beside(a_class(prefix="a b"))), ("S6 BadName nodes 1", hints))
        self.assertEqual(first_hint(beside(a_class(prefix="a" * 26))), ("S6 BadName nodes 1", ["it has 26 bytes"]))
        self.assertEqual(first_hint(beside(a_class(prefix=""))), ("S6 BadName nodes 1", ["the prefix is empty"]))

    def test_same_names(self) -> None:
        """Nodes of a class with one fault each are one fault, which says where the first is and how many there are."""
        (found,) = self.faults(beside(a_class(5, "n")))
        self.assertEqual((found.fault, found.place, found.key), ("S7 SameName node 1 node 4", "nodes 1", "prefix"))
        self.assertEqual(found.what, "node 1 has this name already, at line 26; so it is with 2 more of nodes 1")
        self.assertEqual((found.line, found.column, found.found), (39, 10, '"n0", by prefix = "n"'))

    def test_same_identifiers(self) -> None:
        """Both nodes are told with their names."""
        (found,) = self.faults((TOP + a_class(10)).replace("bits = 64", "bits = 6"))
        self.assertEqual((found.fault, found.place), ("S8 SameId a6 a8", "nodes 1"))
        told = 'node 7 ("a6" of nodes 1) has this identifier already, at line 27; so it is with 1 more of nodes 1'
        self.assertEqual(found.what, told)
        self.assertEqual(found.found, "identifier 45 (in hexadecimal 2d)")
        self.assertEqual((len(found.hints), found.hints[-1]), (3, "take more bits, or another prefix"))

    def test_counted(self) -> None:
        """What only follows from a number or prefix that is wrong is left out."""
        text = beside(a_class(1)).replace('node = "n0"', 'node = "a0"')
        self.assertEqual([one.fault for one in self.faults(text)], ["S5 OutOfRange nodes 1 count"])
        text = beside(a_class(1_048_577))
        self.assertEqual([one.fault for one in self.faults(text)], ["S5 OutOfRange nodes 1 count"])

    def faults(self, text: str) -> list[Explanation]:
        """All faults of a scenario in words."""
        return list(explanations(text.encode(), b"", ("world.toml", "links.csv"))[1])


class ToolsTest(TestCase):
    """The other tools that read a scenario's nodes."""

    def test_traps(self) -> None:
        """The nodes of a class are up, churn and are named in commands."""
        top = tomllib.loads(TOP + LIVES + a_class(2, "a", "initial = true\nchurn = true\nbootstrap = true\n"))
        told = [trap.partition(":")[0] for trap in traps_of(top, 10)]
        self.assertIn("churn = true of all 2 initial nodes", told)
        self.assertIn("churn = true of all 2 bootstrap nodes", told)
        told = [trap.partition(",")[0] for trap in traps_of(tomllib.loads(TOP + PAIR), 10)]
        self.assertIn("no node is initial", told)

    def test_trace(self) -> None:
        """tools/trace tells the same of a run by both scenarios, and the story of a node of a class."""
        text = WORLDS[0]
        with tempfile.TemporaryDirectory() as folder:
            lines, scenario = Path(folder) / "trace", Path(folder) / "scenario.toml"
            lines.write_text("".join(f"{line}\n" for line in run_of(text)), encoding="utf-8")
            told = []
            for written in (text, toml_text(expanded(tomllib.loads(text)))):
                scenario.write_text(written, encoding="utf-8")
                for options in (["--per-node"], ["--node", "a3"], ["--worst", "9"]):
                    told.append(ended(trace, str(lines), str(scenario), *options))
            self.assertEqual(told[:3], told[3:])
            self.assertEqual([(status, error) for status, _, error in told], [(0, "")] * 6)

    def test_latency(self) -> None:
        """tools/latency writes a row for each pair of nodes, also of classes."""
        with tempfile.TemporaryDirectory() as folder:
            file = Path(folder) / "world.toml"
            file.write_text(beside(PAIR), encoding="utf-8")
            status, rows, _ = ended(latency, "--plane", "1ms", "--names", str(file))
        pairs = [row.split(",")[:2] for row in rows.splitlines()]
        self.assertEqual((status, len(pairs), pairs[-1]), (0, 10, ["a0", "a1"]))

    def test_python(self) -> None:
        """A scenario of Python has the names of all nodes, and a class as a value that can be replaced."""
        scenario = Scenario.of_text(beside(PAIR))
        self.assertEqual(scenario.nodes, ("n0", "n1", "n3", "a0", "a1"))
        self.assertEqual(repr(scenario), "<Scenario nodes=5 commands=1>")
        crash = scenario.crash("a1", at=5)
        self.assertEqual(tomllib.loads(crash.text)["nodes"], [{"count": 2, "prefix": "a"}])
        more = scenario.with_(node=None, nodes=[{"count": 3, "prefix": "b-"}])
        self.assertEqual(more.nodes, ("b-0", "b-1", "b-2"))
        self.assertEqual(tomllib.loads(more.crash("b", at=5).text)["command"][-1]["node"], "b-2")


if __name__ == "__main__":
    unittest.main()
