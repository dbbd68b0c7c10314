"""Scenarios with classes of nodes that tools/generate makes."""

import tempfile
import tomllib
from pathlib import Path
from typing import Any
from unittest import TestCase

from chordsim import Scenario
from chordsim_tools.explain.traps import greatest_latency
from chordsim_tools.generate.command import main
from chordsim_tools.known import known
from chordsim_tools.scenario.classes import node_places
from chordsim_tools.scenario.reading import read_scenario
from tests.support.programs import ended

MATRIX = "round-trip,eu,us\neu,1ms,80ms\nus,80ms,1ms\n"
REFUSED = (
    ("--nodes 70000 --bits 20", "--bits: the names of two of the 70000 nodes have the same identifier of 20 bits"),
    ("--nodes 12 --classes --bits 4", "of 4 bits; more bits, or another --seed"),
    ("--nodes 12 --classes --bits 4 --ids names", "of 4 bits; more bits (see"),
    ("--classes --coordinates king", "--coordinates: with --classes, and above 65536 nodes, regions:NAME or square:"),
    ("--classes --coordinates file:a.csv", "regions:NAME or square:SIDE:HEIGHT, since a class has one height"),
    ("--classes --coordinates square:9ms:1us..2us", "square:SIDE:HEIGHT, since a class has one height"),
    ("--classes --coordinates square:9ms:1ms --window 2001us", "--window: a time of 1us to 2ms (the sum of the two"),
    ("--classes " + " ".join(f"--group g{i}:2" for i in range(17)), "--nodes: the nodes are of 17 kinds, and a"),
    (f"--classes --group {'a' * 24}:2", "--group: names of a class begin with at most 25 characters, and "),
    (f"--classes --group {'a' * 24}:9 --ids names --initial 5", f"and {'a' * 24}-b has 26; take a shorter"),
)
"""Arguments, and a part of what they are refused for."""


def text_of(arguments: str) -> str:
    """What the tool writes."""
    status, out, _ = ended(main, "--profile", "4", *arguments.split())
    assert status == 0, arguments
    return out


def made(arguments: str) -> dict[str, Any]:
    """The tables of a scenario, which is accepted."""
    text = text_of(arguments)
    read_scenario(text.encode(), b"")
    return tomllib.loads(text)


class GenerateClassesTest(TestCase):
    """Nodes that are alike have one table."""

    def test_above_the_tables(self) -> None:
        """65,536 nodes have tables of their own, one more is a class, with names of the seed and 64 bits."""
        text = text_of("--nodes 65537 --seed 3")
        self.assertIn("# Classes: n3. 65537.\n", text)
        top = tomllib.loads(text)
        self.assertEqual(top["nodes"], [{"count": 65537, "prefix": "n3.", "initial": True}])
        self.assertEqual((top["bits"], "node" in top), (64, False))
        self.assertEqual(text_of("--nodes 65536").count("[[node]]"), 65536)

    def test_kinds(self) -> None:
        """Nodes that stay, bootstrap nodes and those that join later are kinds of their own; one alone is a node."""
        churn = "--churn-uniform 20s..60s 5s..15s --stay 3 --bootstrap 1 --bits 64"
        top = made(f"--nodes 20 --classes {churn} --ids names")
        # Where one node is alone, another one is too.
        self.assertEqual(top["node"], [
            {"name": "n0", "initial": True, "bootstrap": True}, {"name": "nc16", "initial": True, "churn": True},
        ])
        self.assertEqual(top["nodes"], [
            {"count": 2, "prefix": "nb", "initial": True},
            {"count": 16, "prefix": "nc", "initial": True, "churn": True},
        ])
        few = made("--nodes 3 --classes --bootstrap 1 --ids names --bits 64")
        self.assertEqual(([one["name"] for one in few["node"]], "nodes" in few), (["n0", "nb0", "nb1"], False))
        later = made("--nodes 9 --classes --initial 4 --duration 10s --bits 64")
        self.assertEqual([(one["count"], one["prefix"]) for one in later["nodes"]], [(4, "n1."), (5, "nb1.")])
        joins = [(one["do"], one["node"][:4], one["via"][:3]) for one in later["command"]]
        self.assertEqual(joins, [("join", "nb1.", "n1.")] * 5)

    def test_groups(self) -> None:
        """Each group has its classes, also those of its nodes that arrive, and regions give each its place."""
        with tempfile.TemporaryDirectory() as folder:
            file = Path(folder) / "regions.csv"
            file.write_text(MATRIX, encoding="utf-8")
            groups = f"--group eu:6 --group us:5:arrivals=1/s --coordinates regions:{file}"
            top = made(f"--classes {groups} --bits 64 --duration 9s")
            alone = made(f"{groups} --bits 64 --duration 9s")
        self.assertEqual([one["prefix"] for one in top["nodes"]], ["eu-1.", "us-1.", "us-b1."])
        self.assertEqual([one["count"] for one in top["nodes"]], [6, 5, len(alone["node"]) - 11])
        places = {one["name"][:2]: (one["x_us"], one["y_us"], one["height_us"]) for one in alone["node"]}
        for one in top["nodes"]:
            self.assertEqual((one["x_us"], one["y_us"], one["height_us"]), places[one["prefix"][:2]])

    def test_square(self) -> None:
        """The nodes of a class are in a square whose side is in its table, and the window is two heights.

        The first numbers of seed 1 are those that tests.test_class_places has by hand."""
        top = made("--nodes 20 --classes --coordinates square:100ms:5ms")
        whole = {"count": 20, "prefix": "n1.", "initial": True, "x_us": 0, "y_us": 0, "height_us": 5000}
        self.assertEqual((top["nodes"], top["window_us"]), ([whole | {"side_us": 100_000}], 10_000))
        self.assertEqual(places_of(top)[:3], [(2147, 49522), (53424, 4884), (34259, 30146)])
        other = made("--nodes 20 --classes --coordinates square:100ms:5ms --seed 2")
        self.assertEqual(places_of(other)[:3], [(95015, 59846), (43491, 88140), (18427, 41339)])
        same = made("--nodes 20 --classes --coordinates square:100ms:5ms..5ms")
        self.assertEqual(same["nodes"], top["nodes"])
        one_place = made("--nodes 20 --classes --coordinates square:0:5ms")
        self.assertEqual(one_place["nodes"], [whole])

    def test_square_of_single_nodes(self) -> None:
        """A node that is like no other has the place that it has without classes; the classes are in one square."""
        arguments = "--nodes 20 --coordinates square:100ms:5ms --bootstrap 1 --initial 12 --bits 64 --ids names"
        top, alone = made(f"{arguments} --classes"), places_of(made(arguments))
        self.assertEqual([one["name"] for one in top["node"]], ["n0", "nb10"])
        self.assertEqual([(one["x_us"], one["y_us"]) for one in top["node"]], [alone[0], alone[11]])
        self.assertEqual([one["side_us"] for one in top["nodes"]], [100_000] * 2)
        places = places_of(top)
        self.assertEqual(len(set(places)), 20)
        self.assertEqual(places[2:4] + places[12:14], [(2147, 49522), (53424, 4884), (95962, 18671), (22459, 42585)])

    def test_greatest_latency(self) -> None:
        """What is said of the timeout knows where all nodes are."""
        for arguments in ("", "--bootstrap 1 --initial 12", "--group eu:7 --group us:6"):
            words = f"--nodes 20 --classes --bits 64 --coordinates square:100ms:5ms --timeout 1ms {arguments}".split()
            status, text, told = ended(main, "--profile", "4", *words)
            trip = 2 * greatest_latency(tomllib.loads(text), b"")
            self.assertEqual(status, 0)
            self.assertIn(f"is below the greatest round trip, {trip} ", told)

    def test_many_in_a_square(self) -> None:
        """Above 65,536 nodes they are a class, also in a square."""
        (one,) = tomllib.loads(text_of("--nodes 65537 --coordinates square:1ms:5ms --ids names"))["nodes"]
        self.assertEqual((one["count"], one["side_us"], one["height_us"]), (65537, 1000, 5000))

    def test_same_world(self) -> None:
        """Classes change names and identifiers alone: lives, joins and lookups are those of single nodes."""
        arguments = "--nodes 30 --bits 64 --lifetime exp:20s --down exp:5s --lookups 0.1 --duration 1m --leaves 300000"
        classes, alone = made(f"{arguments} --classes --ids names"), made(arguments)
        names = {name: f"n{name[2:]}" if name.startswith("nb") else name for name in named(classes)}
        self.assertEqual(names, {name: name for name in named(alone)})
        self.assertEqual(classes["command"], alone["command"])

    def test_seeds(self) -> None:
        """Another seed gives other names, and so other identifiers; with --ids names it does not."""
        first, second = (read_scenario(text_of(f"--nodes 9 --classes --seed {seed}").encode(), b"") for seed in (1, 2))
        self.assertFalse({node.ident for node in first.nodes} & {node.ident for node in second.nodes})
        one, other = (made(f"--nodes 9 --classes --ids names --seed {seed}") for seed in (1, 2))
        self.assertEqual(one["nodes"], other["nodes"])

    def test_refused(self) -> None:
        """What classes cannot say is refused with status 2."""
        for arguments, told in REFUSED:
            with self.subTest(arguments=arguments):
                status, out, error = ended(main, "--profile", "4", *arguments.split())
                self.assertEqual((status, out), (2, ""))
                self.assertIn(told, error)

    def test_churn_trace(self) -> None:
        """The hosts of a churn trace have names of their own."""
        told = "--churn-trace: not with --classes, whose nodes have names of their classes"
        with tempfile.TemporaryDirectory() as folder:
            file = Path(folder) / "hosts.csv"
            file.write_text("a,0,\nb,0,\n", encoding="utf-8")
            status, _, error = ended(main, "--profile", "4", "--classes", "--churn-trace", str(file))
        self.assertEqual((status, told in error), (2, True))

    def test_python(self) -> None:
        """The Python package has the option too."""
        scenario = Scenario.generate(profile=4, nodes=5, classes=True, ids="names")
        self.assertEqual(scenario.nodes, ("n0", "n1", "n2", "n3", "n4"))


def places_of(top: dict[str, Any]) -> list[tuple[int, int]]:
    """The places of all nodes of a scenario, as its reader draws them."""
    return [(known(place).x_us, known(place).y_us) for place in node_places(top)]


def named(top: dict[str, Any]) -> list[str]:
    """The names of all nodes of a scenario."""
    return [node.name for node in read_scenario(Scenario.of_text("").with_(**top).text.encode(), b"").nodes]
