"""Coordinates of nodes (docs/rules.md, section 3) and the latencies that follow from them."""

import heapq
from collections.abc import Iterable, Sequence
from dataclasses import dataclass
from itertools import combinations
from math import isqrt
from typing import Any

from chordsim_tools.scenario.tables import EDGE

MOST_COMPARED = 500


@dataclass(frozen=True, slots=True)
class Coordinates:
    """The place of a node in the plane, and the height of its own link above it."""

    x_us: int
    y_us: int
    height_us: int = 0

    def latency_to(self, other: "Coordinates") -> int:
        """The latency to another node: both heights, and the distance in the plane, rounded down."""
        return self.height_us + other.height_us + isqrt((self.x_us - other.x_us) ** 2 + (self.y_us - other.y_us) ** 2)

    def moved(self, x: int, y: int) -> "Coordinates":
        """The same height above a place that is so far away on both axes, or at the edge of the plane."""
        return Coordinates(min(self.x_us + x, EDGE), min(self.y_us + y, EDGE), self.height_us)


def coordinates_of(table: dict[str, Any]) -> Coordinates | None:
    """The coordinates of a node's table, if it has them."""
    return Coordinates(table["x_us"], table["y_us"], table.get("height_us", 0)) if "x_us" in table else None


def least_latency(nodes: Iterable[Coordinates]) -> int:
    """The sum of the two least heights, which no latency is below."""
    return sum(sorted(node.height_us for node in nodes)[:2])


def greatest_latency(nodes: Sequence[Coordinates]) -> int:
    """The greatest latency of two nodes, or of many nodes that of the 500 which are farthest out with their heights."""
    xs, ys = [node.x_us for node in nodes], [node.y_us for node in nodes]
    middle = Coordinates((min(xs) + max(xs)) // 2, (min(ys) + max(ys)) // 2)
    outer = heapq.nlargest(MOST_COMPARED, nodes, key=middle.latency_to)
    return max(a.latency_to(b) for a, b in combinations(outer, 2))
