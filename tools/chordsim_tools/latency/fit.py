"""Coordinates that are fitted to latencies by Vivaldi (Dabek, Cox, Kaashoek, Morris, SIGCOMM 2004).

Each node has a place in a plane, a height and an estimate of its error. It looks at another one, and moves as if a
spring between them had the measured latency as its length at rest: the more, the less sure it is of its own place
beside the other's. The height is a third direction, whose lengths are added and not subtracted. Of floating point only
what IEEE 754 rounds exactly is used, so that no machine gives another result."""

from collections.abc import Sequence
from dataclasses import dataclass
from math import sqrt
from statistics import median_low

from chordsim_tools.cli import Progress
from chordsim_tools.draws import Draws
from chordsim_tools.places import GREATEST_HEIGHT
from chordsim_tools.scenario.coordinates import Coordinates

Pair = tuple[int, int, int]
"""Two nodes by number, and their latency in microseconds."""
LOOKS = 2000
"""How often each node looks at another one."""
TUNING = 0.25
"""The constants c_e and c_c of the paper. The second one falls to 0 in the second half, so that the places settle."""
LEAST_ERROR = 1e-6


@dataclass
class Spring:
    """A node: its place, its height, and its estimate of its relative error."""

    x: float
    y: float
    height: float
    error: float = 1.0

    def look(self, other: "Spring", micros: int, pace: float, least: float) -> None:
        """Moves, after a look at a node to which this latency was measured. The height stays at the least or above."""
        dx, dy, heights = self.x - other.x, self.y - other.y, self.height + other.height
        distance = sqrt(dx * dx + dy * dy) + heights
        weight = self.error / (self.error + other.error)
        error = abs(distance - micros) / micros
        self.error = max(LEAST_ERROR, error * TUNING * weight + self.error * (1 - TUNING * weight))
        push = pace * weight * (micros - distance) / distance
        self.x += push * dx
        self.y += push * dy
        self.height = max(least, self.height + push * heights)


def fitted(pairs: Sequence[Pair], count: int, least: int, draws: Draws) -> list[Coordinates]:
    """Coordinates of the nodes below `count`, each of which is in a pair. No height is below the least one."""
    others = others_of(pairs, count)
    # All begin at nearly one place, since a spring of no length has no direction; and with some height, since a push
    # changes a height in proportion to it.
    height = max(float(least), median_low(micros for *_, micros in pairs) / 4)
    nodes = [Spring(float(draws.below(1000)), float(draws.below(1000)), height) for _ in range(count)]
    with Progress(f"looks of {count} nodes", LOOKS) as progress:
        for turn in range(LOOKS):
            pace = TUNING * min(1.0, 2 * (LOOKS - turn) / LOOKS)
            look_once(nodes, others, pace, least, draws)
            progress.one_more()
    return whole(nodes)


def others_of(pairs: Sequence[Pair], count: int) -> list[list[tuple[int, int]]]:
    """Of each node the others that it is in a pair with, and how far off they are."""
    others: list[list[tuple[int, int]]] = [[] for _ in range(count)]
    for a, b, micros in pairs:
        others[a].append((b, micros))
        others[b].append((a, micros))
    return others


def look_once(
    nodes: list[Spring], others: list[list[tuple[int, int]]], pace: float, least: int, draws: Draws
) -> None:
    """Each node looks at another one, which is drawn."""
    for node, seen in zip(nodes, others, strict=True):
        other, micros = seen[draws.below(len(seen))]
        node.look(nodes[other], micros, pace, least)


def whole(nodes: list[Spring]) -> list[Coordinates]:
    """The places in whole microseconds, moved so that none is below 0."""
    left, low = min(node.x for node in nodes), min(node.y for node in nodes)
    heights = [min(GREATEST_HEIGHT, round(node.height)) for node in nodes]
    places = [(round(node.x - left), round(node.y - low)) for node in nodes]
    return [Coordinates(x, y, height) for (x, y), height in zip(places, heights, strict=True)]


def errors_of(pairs: Sequence[Pair], places: Sequence[Coordinates]) -> list[int]:
    """The relative error of each pair's latency by the coordinates, in hundredths of a per cent, rounded."""
    found = ((abs(places[a].latency_to(places[b]) - micros), micros) for a, b, micros in pairs)
    return [(20_000 * off + micros) // (2 * micros) for off, micros in found]
