"""Coordinates of nodes by hand: latencies of them, and the faults of the two files that they bring."""

from unittest import TestCase

from chordsim_tools.reference.turn import World
from chordsim_tools.scenario.coordinates import Coordinates, greatest_latency, least_latency
from chordsim_tools.scenario.reading import read_scenario
from tests.support.worlds import SWITCHED_OFF, fault
from tests.test_second_profile import AUDIT, ran
from tests.test_extended_profile import extended

NODES = ("n0", "n1", "n3")


def placed(*keys: str, of_profile: int = 4, window: int = 1) -> str:
    """The ring, with these lines for each of its three nodes."""
    text = extended().replace("profile = 4", f"profile = {of_profile}")
    text = text.replace("window_us = 10", f"window_us = {window}")
    for name, lines in zip(NODES, keys, strict=True):
        text = text.replace(f'name = "{name}"', f'name = "{name}"\n{lines}', 1)
    return text


def at(x: int, y: int, height: int | None = None) -> str:
    """The lines of a node's coordinates."""
    return f"x_us = {x}\ny_us = {y}\n" + ("" if height is None else f"height_us = {height}\n")


def high(*heights: int) -> list[str]:
    """Three nodes at one place, with these heights."""
    return [at(5, 5, height) for height in heights]


class LatencyTest(TestCase):
    """The latency of two nodes."""

    def test_latency(self) -> None:
        """n0 and n1 are 5 apart, by 3 and 4. n0 and n3 are 7 apart, by 5 and 5: 50 is between 49 and 64.

        n1 and n3 are 2 apart, by 2 and 1: 5 is between 4 and 9. The heights of both nodes are added.
        """
        world = World(read_scenario(placed(at(0, 0, 3), at(3, 4, 2), at(5, 5, 10)).encode(), b""))
        for pair, latency in (((0, 1), 5 + 5), ((0, 2), 7 + 13), ((1, 2), 2 + 12)):
            assert world.latency(*pair) == world.latency(*reversed(pair)) == latency
        assert [world.latency(a, a) for a in range(3)] == [1, 1, 1]

    def test_greatest_latency(self) -> None:
        """n0 and n1 are at opposite corners: 2 (5 10^8)^2 = 5 10^17, whose root is 707106781.18... n3 has no height."""
        corner = 500_000_000
        world = World(read_scenario(placed(at(0, 0, 10**8), at(corner, corner, 10**8), at(0, corner)).encode(), b""))
        assert world.latency(0, 1) == 707_106_781 + 200_000_000
        assert world.latency(0, 2) == corner + 10**8

    def test_least_and_greatest_of_many(self) -> None:
        """The least by heights alone. The greatest: of two at one place, of a row, and of more than are compared."""
        twins = [Coordinates(0, 0, 9), Coordinates(0, 0, 9), Coordinates(1, 0, 2)]
        assert (least_latency(twins), greatest_latency(twins)) == (11, 18)
        row = [Coordinates(x, 0, 1) for x in range(2000)]
        assert (least_latency(row), greatest_latency(row)) == (2, 2001)
        assert greatest_latency([*row, Coordinates(1000, 0, 5000)]) == 5000 + 1 + 1000

    def test_root_is_exact(self) -> None:
        """20000^2 + (2 10^8)^2 is (2 10^8 + 1)^2 - 1, whose root in floating point is 2 10^8 + 1."""
        world = World(read_scenario(placed(at(0, 0, 1), at(20_000, 200_000_000, 1), at(1, 0, 1)).encode(), b""))
        assert world.latency(0, 1) == 200_000_000 + 2

    def test_run(self) -> None:
        """n3 looks up key 1 at 100. Its step is 20 on the way to n0, and the reply 20 back. latency_us has no effect.

        The timeout is at 140 too. The reply is before it, since n0's events have the origin 2, and n3's have 4.
        """
        for latency in (10, 13):
            text = placed(at(0, 0, 3), at(3, 4, 2), at(5, 5, 10)).replace("latency_us = 10", f"latency_us = {latency}")
            lines, numbers = ran(text)
            assert lines == ["100 n3 lookup 1", "140 n3 found 1 n1 hops=1 timeouts=0 us=40", AUDIT]
            assert numbers["events"] == 4


class FaultsTest(TestCase):
    """The refusals."""

    def test_accepted(self) -> None:
        """All nodes have coordinates, with or without heights, and there are no rows; or none has."""
        assert fault(placed(at(0, 0, 5), at(0, 0, 5), at(0, 0, 5), window=10)) == "accepted"
        assert fault(placed(at(0, 0), at(0, 0, 1), at(0, 0, 1), window=1)) == "accepted"
        assert fault(placed("", "", "")) == "accepted"
        assert fault(placed(*high(1, 1, 1)), "\n\n") == "accepted"

    def test_other_profiles(self) -> None:
        """They have no such keys, and nothing follows from them."""
        for profile in (1, 2):
            text = placed("", "y_us = 1", "", of_profile=profile)
            assert fault(text.replace("jitter_us = 0\n", "", 1).replace(SWITCHED_OFF, "")) == "S2 UnknownKey node 2"

    def test_missing_keys(self) -> None:
        """If a node has one of the three keys, each has x_us and y_us."""
        for lines in ("x_us = 1\ny_us = 1", "x_us = 1", "y_us = 1", "height_us = 1"):
            assert fault(placed("", lines, "")) == "S3 MissingKey node 1 x_us"
        assert fault(placed("x_us = 1", at(0, 0), at(0, 0))) == "S3 MissingKey node 1 y_us"
        assert fault(placed(at(0, 0), at(0, 0), "height_us = 1")) == "S3 MissingKey node 3 x_us"
        assert fault(placed(at(0, 0), at(0, 0), "")) == "S3 MissingKey node 3 x_us"

    def test_types_and_ranges(self) -> None:
        """0 to 500,000,000 and 0 to 100,000,000. The type is looked at first, and the keys in their order."""
        for key, most in (("x_us", 500_000_000), ("y_us", 500_000_000), ("height_us", 100_000_000)):
            def with_value(value: object, name: str = key) -> str:
                """The ring, whose second node has this value."""
                keys = {"x_us": 0, "y_us": 0, "height_us": 0, name: value}
                lines = "\n".join(f"{word} = {number}" for word, number in keys.items())
                return placed(at(0, 0, 9), lines, at(0, 0, 9))

            assert fault(with_value(most)) == "accepted"
            assert fault(with_value(most + 1)) == fault(with_value(-1)) == f"S5 OutOfRange node 2 {key}"
            assert fault(with_value("1.0")) == fault(with_value('"1"')) == f"S4 WrongType node 2 {key}"

    def test_heights_below_the_window(self) -> None:
        """The two least heights count. The first node of the least one is named, then the first one of the other."""
        assert fault(placed(*high(5, 3, 3), window=7)) == "S15 LatencyBelowWindow n1 n3"
        assert fault(placed(*high(5, 3, 3), window=6)) == "accepted"
        assert fault(placed(*high(5, 9, 3), window=9)) == "S15 LatencyBelowWindow n3 n0"
        assert fault(placed(*high(4, 4, 4), window=9)) == "S15 LatencyBelowWindow n0 n1"
        # The nodes are so far apart that no latency is below the window; the heights alone are asked.
        assert fault(placed(at(0, 0), at(100, 0), at(0, 100), window=1)) == "S15 LatencyBelowWindow n0 n1"

    def test_rows(self) -> None:
        """S16 is the last fault: what a row does wrong comes first, and S15 too."""
        assert fault(placed(*high(5, 5, 5), window=10), "n0,n1,1\n") == "S16 RowsAndCoordinates"
        assert fault(placed(*high(5, 5, 4), window=10), "n0,n1,1\n") == "S15 LatencyBelowWindow n3 n0"
        assert fault(placed(*high(5, 5, 5), window=10), "n0,n9,1\n") == "S9 UnknownNode row 1"
        assert fault(placed(*high(5, 5, 5), window=10), "n0,n1\n") == "S12 BadLatencyRow row 1"
