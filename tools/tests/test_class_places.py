"""Nodes of a class at places that are drawn: the places by hand, and what follows from them in the tools.

The words of the draws are from a ChaCha8 that was written in C for this, apart from the tools. What node k of the class
c draws is in the words 4c to 4c + 3 of the stream k + 11 2^32. With the seed 1 they are for a0, a1 and a2, of class 0,
    057fa595 40b3283c 7ec6ef94 d594284d, 88c411f7 001cd8f4 0c80d464 c5c5df82, 57b4353e 31e501aa 4d2cc8ba 9660dd5f
and for b0 and b1, of class 1,
    f5a936d8 0958e785 2fcc929e 3ff9fb60, 397f26b0 9be17e64 6d0446b8 85f8a3c4.
With a side of 100000 the first number of a0 is 0x057fa59540b3283c * 100001 / 2^64 = 2147.9.., and the second one
0x7ec6ef94d594284d * 100001 / 2^64 = 49522.2..
"""

import tomllib
from itertools import islice
from random import Random
from unittest import TestCase

from chordsim import Scenario
from chordsim_tools.explain.traps import greatest_latency, traps_of
from chordsim_tools.flat import flat_form
from chordsim_tools.reference.chacha import Stream, groups, scaled
from chordsim_tools.scenario.classes import expanded, node_places
from chordsim_tools.scenario.coordinates import Coordinates
from chordsim_tools.scenario.reading import read_scenario
from chordsim_tools.study.latencies import Latencies
from tests.support.rings import PLANS, ProgramTest
from tests.test_classes import HERE, LOOKUPS, LOW, PAIR, RUN, TOP, a_class, beside, run_of
from tests.test_explain import faults

ASKED = '[[command]]\nat_us = 100\ndo = "lookup"\nnode = "a0"\nkey = "f29bc91bbdab169f"\n'
"""A lookup of the identifier of a1, the beginning of `printf a1 | sha1sum`, by the node before it."""
FOUND = "{time} a0 found 17481787499552118431 a1 hops=0 timeouts=0 us={micros}"
"""Its end: a0 knows that a1 is the owner, and asks it."""


def in_square(side: int, count: int = 2, prefix: str = "a", corner: str = LOW) -> str:
    """A class whose nodes are in a square of this side."""
    return a_class(count, prefix, f"initial = true\n{corner}side_us = {side}\n")


def random_world(seed: int) -> str:
    """A ring of up to six classes near one place, mostly at the edge of the plane, each with a side of its own."""
    dice = Random(seed)
    x, y = dice.choice([(0, 0), (250_000_000, 7), (499_999_960, 0), (499_999_970, 499_999_930)])
    text = (RUN + LOOKUPS).replace("seed = 1", f"seed = {dice.choice([0, 2**63 - 1, dice.getrandbits(63)])}")
    for prefix in "abcdef"[: dice.randint(1, 6)]:
        corner = f"x_us = {x + dice.randint(0, 30)}\ny_us = {y + dice.randint(0, 30)}\n"
        height = f"height_us = {dice.randint(5, 9)}\n"
        text += in_square(dice.choice([0, 1, 9, 60, 99]), dice.randint(2, 6), prefix, corner + height)
    return text


def places_of(text: str) -> list[tuple[int, int]]:
    """The places of the nodes of a scenario, as the reference simulator has them."""
    nodes = read_scenario(text.encode(), b"").nodes
    return [(node.coordinates.x_us, node.coordinates.y_us) for node in nodes if node.coordinates is not None]


class PlacesTest(TestCase):
    """Where nodes are."""

    def test_worked(self) -> None:
        """The corner and the two numbers of each node, one class after the other."""
        corner = "x_us = 7\ny_us = 50\nheight_us = 5\n"
        text = TOP + in_square(100_000, 3, "a", corner) + in_square(100_000, 2, "b", corner)
        places = [(2147, 49522), (53424, 4884), (34259, 30146), (95962, 18671), (22459, 42585)]
        self.assertEqual(places_of(text), [(7 + x, 50 + y) for x, y in places])
        self.assertEqual({node.coordinates.height_us for node in read_scenario(text.encode(), b"").nodes
                          if node.coordinates is not None}, {5})

    def test_number_in_the_class(self) -> None:
        """The number of a node is that within its class, and the number of a class that among classes alone.

        Nodes of tables and of a class at one place come before."""
        single = "".join(f'[[node]]\nname = "{name}"\n{LOW}' for name in "xyz")
        text = TOP + single + a_class(4, "a", LOW) + in_square(100_000, 2, "b")
        self.assertEqual(places_of(text)[:7], [(0, 0)] * 7)
        self.assertEqual(places_of(text)[7:], [(95962, 18671), (22459, 42585)])
        # Tables of classes that come first in the file are the same classes.
        after = TOP + a_class(4, "a", LOW) + in_square(100_000, 2, "b") + single
        self.assertEqual(places_of(after), places_of(text))

    def test_later_block(self) -> None:
        """Class 4 draws from the second block, 295680ca 18678cf3 0e221c09 afdff4aa for its first node."""
        text = TOP + "".join(in_square(100_000, 2, prefix) for prefix in "abcde")
        self.assertEqual(places_of(text)[8:], [(16147, 5520), (47673, 70570)])

    def test_seeds(self) -> None:
        """Seed 2 has f33ca170 8bb4ecde 9934de85 db660f4a for a0, and other places for all."""
        text = TOP.replace("seed = 1", "seed = 2") + in_square(100_000, 3)
        self.assertEqual(places_of(text), [(95015, 59846), (43491, 88140), (18427, 41339)])

    def test_more_nodes(self) -> None:
        """More nodes leave the places of the others, and so do other classes after them."""
        few, many = TOP + in_square(100_000, 2), TOP + in_square(100_000, 5000) + in_square(5, 9, "b")
        self.assertEqual(places_of(few), places_of(many)[:2])

    def test_many(self) -> None:
        """Nodes whose places are drawn together are as those that are drawn alone."""
        text = TOP + in_square(100_000, 4098)
        self.assertEqual(places_of(text)[4095:], [(33404, 74955), (81070, 64038), (16779, 57960)])

    def test_edge(self) -> None:
        """The numbers of a1 and a2 in the whole plane are 267120897, 24420392 and 171296753, 150732300.

        Beyond 500,000,000 there is no place: each coordinate ends there, whatever the other one is."""
        for x, y, wanted in (
            (0, 0, [(267_120_897, 24_420_392), (171_296_753, 150_732_300)]),
            (232_879_103, 349_267_700, [(500_000_000, 373_688_092), (404_175_856, 500_000_000)]),
            (232_879_104, 349_267_701, [(500_000_000, 373_688_093), (404_175_857, 500_000_000)]),
            (500_000_000, 0, [(500_000_000, 24_420_392), (500_000_000, 150_732_300)]),
            (500_000_000, 500_000_000, [(500_000_000, 500_000_000)] * 2),
        ):
            with self.subTest(x=x, y=y):
                corner = f"x_us = {x}\ny_us = {y}\nheight_us = 5\n"
                self.assertEqual(places_of(TOP + in_square(500_000_000, 3, "a", corner))[1:], wanted)

    def test_least_and_greatest_numbers(self) -> None:
        """Words of zeros make 0, and words of ones the side, also that of the whole plane."""
        for bound in (1, 2, 100_001, 500_000_001):
            self.assertEqual(scaled([0] * 4, bound, bound), (0, 0))
            self.assertEqual(scaled([2**32 - 1] * 4, bound, bound), (bound - 1, bound - 1))

    def test_no_side(self) -> None:
        """With a side of 0 all nodes are at the corner, as without the key."""
        corner = "x_us = 3\ny_us = 4\nheight_us = 5\n"
        self.assertEqual(places_of(TOP + in_square(0, 2, "a", corner)), [(3, 4)] * 2)
        self.assertEqual(places_of(TOP + a_class(2, "a", corner)), [(3, 4)] * 2)

    def test_lazy(self) -> None:
        """The first places of a class of a million nodes take no time, and no seed is asked for if none is drawn."""
        one = {"count": 1_048_576, "prefix": "a", "x_us": 0, "y_us": 0}
        self.assertEqual(list(islice(node_places({"seed": 1, "nodes": [{**one, "side_us": 100_000}]}), 2)),
                         [Coordinates(2147, 49522), Coordinates(53424, 4884)])
        self.assertEqual(len(list(node_places({"seed": 1, "nodes": [one]}, alike=2))), 2)


class WordsTest(TestCase):
    """The words of many streams at once."""

    def test_groups(self) -> None:
        """They are those of each stream alone, whatever the others are, and of each of its blocks."""
        streams = [0, 1, 2**32 - 1, 11 * 2**32, 11 * 2**32 + 4095, 2**64 - 1]
        for seed in (0, 1, 2**63 - 1):
            for number in (0, 1, 3, 4, 15, 2**34 + 1):
                alone = [tuple(Stream(seed, stream).word(4 * number + i) for i in range(4)) for stream in streams]
                with self.subTest(seed=seed, number=number):
                    self.assertEqual(list(groups(seed, streams, number)), alone)
                    self.assertEqual(list(groups(seed, streams[-1:], number)), alone[-1:])


class FollowingTest(TestCase):
    """What tools make of the places. With a side of 9 and the seed 1, a0 to a2 are at (0, 4), (5, 0) and (3, 3)."""

    def test_latencies(self) -> None:
        """The squares of the distances are 41, 10 and 13, and each height is 5."""
        text = TOP + in_square(9, 3)
        scenario = read_scenario(text.encode(), b"")
        study = Latencies(expanded(tomllib.loads(text)), b"")
        for pair, micros in (((0, 1), 16), ((0, 2), 13), ((1, 2), 13)):
            self.assertEqual((scenario.latency(*pair), scenario.latency(*reversed(pair))), (micros, micros))
            self.assertEqual(study.between(*(f"a{node}" for node in pair)), micros)

    def test_written_out(self) -> None:
        """As tables of their own the nodes have their places, and the key is gone."""
        tables = expanded(tomllib.loads(TOP + in_square(9) + in_square(0, 2, "b")))["node"]
        alike = {"initial": True, "height_us": 5}
        self.assertEqual(tables, [
            {"name": "a0", "x_us": 0, "y_us": 4, **alike}, {"name": "a1", "x_us": 5, "y_us": 0, **alike},
            {"name": "b0", "x_us": 0, "y_us": 0, **alike}, {"name": "b1", "x_us": 0, "y_us": 0, **alike},
        ])
        undrawn = expanded(tomllib.loads(TOP + in_square(9)), is_drawn=False)["node"]
        self.assertEqual(undrawn, [{"name": name, "x_us": 0, "y_us": 0, **alike} for name in ("a0", "a1")])

    def test_greatest_latency(self) -> None:
        """The farthest two nodes are those of the drawn places, not those of the square."""
        self.assertEqual(greatest_latency(tomllib.loads(TOP + in_square(9, 3)), b""), 16)
        self.assertEqual(greatest_latency(tomllib.loads(TOP + in_square(0, 3)), b""), 10)
        far = TOP + in_square(9, 3) + a_class(2, "b", "x_us = 8\ny_us = 4\nheight_us = 7\n")
        # Two at (8, 4) are 14 apart, and a0 is 5 + 7 + 8 away.
        self.assertEqual(greatest_latency(tomllib.loads(far), b""), 20)

    def test_flat_form(self) -> None:
        """The plain program reads the places as they are drawn."""
        flat = flat_form(read_scenario((TOP + in_square(9, 3)).encode(), b""))
        self.assertIn("\n0\n1\n0 4 5\n5 0 5\n3 3 5\n0\n", flat)

    def test_lookup(self) -> None:
        """A lookup takes 16 on the way to a1 and 16 back. If both are at the corner these are 10 and 10."""
        for side, micros in ((9, 32), (0, 20)):
            lines = run_of(TOP + in_square(side) + ASKED)
            self.assertIn(FOUND.format(time=100 + micros, micros=micros), lines)

    def test_python(self) -> None:
        """A side may have a unit in Python."""
        one = {"count": 2, "prefix": "a", "x_us": 0, "y_us": 0, "height_us": "1ms", "side_us": "100ms"}
        scenario = Scenario.of_text(TOP).with_(nodes=[one])
        self.assertEqual(places_of(scenario.text), [(2147, 49522), (53424, 4884)])


class ExplainTest(TestCase):
    """How faults of the key are explained."""

    def test_other_tables(self) -> None:
        """The key is one of classes, in profile 4."""
        (found,) = faults(TOP.replace("seed = 1", "seed = 1\nside_us = 5") + PAIR)
        self.assertEqual((found.fault, found.hints), ("S2 UnknownKey top", ["`side_us` is a key of [[nodes]]"]))
        (found,) = faults(beside().replace('"n1"', '"n1"\nside_us = 5'))
        self.assertEqual((found.fault, found.hints), ("S2 UnknownKey node 2", ["`side_us` is a key of [[nodes]]"]))
        for profile in (1, 2):
            text = beside().replace('"n1"', '"n1"\nside_us = 5').replace("profile = 4", f"profile = {profile}")
            (found,) = faults(text.replace("bits = 64", "bits = 3"))
            hint = "profile 4 has `side_us`: write profile = 4, and put it below a heading [[nodes]]"
            self.assertEqual((found.fault, found.hints), ("S2 UnknownKey node 2", [hint]))

    def test_misspelled(self) -> None:
        """A key that is like it."""
        (found,) = faults(TOP + a_class(further=f"{LOW}sides_us = 9\n"))
        self.assertEqual((found.fault, found.key, found.hints),
                         ("S2 UnknownKey nodes 1", "sides_us", ["did you mean `side_us`?"]))

    def test_missing_corner(self) -> None:
        """Each table of nodes that has no place is named, at its heading."""
        found = faults(TOP + a_class(further=LOW) + a_class(prefix="b", further="height_us = 5\nside_us = 9\n"))
        self.assertEqual([one.fault for one in found], ["S3 MissingKey nodes 2 x_us", "S3 MissingKey nodes 2 y_us"])
        hint = "if one table of nodes has `x_us`, `y_us`, `height_us` or `side_us`, each has `x_us` and `y_us`"
        self.assertEqual([one.hints for one in found], [[hint]] * 2)

    def test_ranges(self) -> None:
        """The line and the column of a value that is out of range, or of another type."""
        for value, fault, hints in (
            ("500_000_001", "S5 OutOfRange nodes 1 side_us", []),
            ('"100ms"', "S4 WrongType nodes 1 side_us", ["in microseconds: 100000"]),
        ):
            text = TOP + a_class(further=f"{LOW}side_us = {value}\n")
            (found,) = faults(text)
            self.assertEqual((found.fault, found.place, found.key), (fault, "nodes 1", "side_us"))
            line = text[: text.index("side_us")].count("\n") + 1
            self.assertEqual((found.line, found.column, found.allowed),
                             (line, 11, "an integer from 0 to 500000000"))
            self.assertEqual(found.hints, hints)

    def test_rows(self) -> None:
        """A row of the latency file does not go with it, and the first table with a key of coordinates is named."""
        first = next(one for one in faults(beside(PAIR + "side_us = 9\n"), "a0,a1,20\n") if one.fault.startswith("S16"))
        self.assertIn("take the coordinates away, from nodes 1 on", first.hints[0])

    def test_timeout(self) -> None:
        """The round trip of a0 and a1 is 32."""
        for timeout, wanted in ((31, ["timeout_us = 31 (31us) is below the greatest round trip"]), (32, [])):
            top = tomllib.loads(TOP.replace("timeout_us = 40", f"timeout_us = {timeout}") + in_square(9))
            told = [trap.partition(",")[0] for trap in traps_of(top, greatest_latency(top, b""))]
            self.assertEqual([one for one in told if one.startswith("timeout_us")], wanted)


class PlacesProgram(ProgramTest):
    """Places, by the program."""

    def test_lookup(self) -> None:
        """By each engine a lookup takes 16 on the way to a1 and 16 back, or 10 and 10 if both are at the corner."""
        for side, micros in ((9, 32), (0, 20)):
            for plan in PLANS:
                with self.subTest(side=side, plan=plan):
                    lines = self.left(TOP + in_square(side) + ASKED, plan=plan).trace.splitlines()
                    self.assertIn(FOUND.format(time=100 + micros, micros=micros), lines)

    def test_random(self) -> None:
        """Traces are those of the reference simulator, whose nodes are at the same places."""
        for seed in range(12):
            text = random_world(seed)
            with self.subTest(text=text):
                self.assertEqual(self.left(text).trace.splitlines(), run_of(text))

    def test_far(self) -> None:
        """In the last corner of the plane all nodes are at one place, whatever the side is."""
        corner = "x_us = 500_000_000\ny_us = 500_000_000\nheight_us = 5\n"
        text = TOP + in_square(500_000_000, 2, "a", corner) + ASKED
        self.assertIn(FOUND.format(time=120, micros=20), self.left(text).trace.splitlines())

    def test_rows(self) -> None:
        """No row goes with a square."""
        self.has_answer(TOP + in_square(9), "a0,a1,20\n", "S16 RowsAndCoordinates")
        low = HERE + "height_us = 4\n"
        self.has_answer(TOP + in_square(500_000_000, corner=low), "", "S15 LatencyBelowWindow a0 a1")
