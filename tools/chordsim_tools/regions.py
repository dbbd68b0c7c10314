"""Latencies between regions: the file that has them, and the coordinates that come nearest to them."""

from collections.abc import Sequence
from dataclasses import dataclass
from functools import lru_cache
from itertools import combinations
from math import sqrt

from chordsim_tools.cli import Refused
from chordsim_tools.draws import Draws
from chordsim_tools.files import read_input
from chordsim_tools.place import tool
from chordsim_tools.quantities import time_of, time_text
from chordsim_tools.scenario.coordinates import Coordinates
from chordsim_tools.scenario.tables import GREATEST_SIZE, rows_of

HALVES = {"round-trip": 2, "one-way": 1}
"""What the first field of the file says of its times, and how many latencies such a time has."""
GREATEST = 100_000_000
MOST = 64
STARTS = 12
ROUNDS = 300
Point = tuple[float, float]


@dataclass(frozen=True)
class Regions:
    """Regions, and the latencies from each to each in microseconds, one-way; of one region those within it."""

    file: str
    names: tuple[str, ...]
    micros: tuple[tuple[int, ...], ...]

    def latency(self, a: str, b: str) -> int:
        """The latency between nodes of two regions, or within one."""
        return self.micros[self.names.index(a)][self.names.index(b)]

    def of_nodes(self, names: Sequence[str]) -> list[int]:
        """The region of each node by its name: what is before the last hyphen."""
        places = {name: place for place, name in enumerate(self.names)}
        found = [places.get(name.rpartition("-")[0], -1) for name in names]
        if -1 in found:
            node = names[found.index(-1)]
            raise Refused(f"{self.file}: {node} is in none of its regions ({', '.join(self.names)}): a node is named "
                          f"REGION-NUMBER, as {self.names[0]}-0 ({tool('generate')} --group {self.names[0]}:COUNT)")
        return found


def read_regions(file: str) -> Regions:
    """A matrix: its first line has `round-trip` or `one-way` and the regions, each other one a region and its times."""
    found = rows_of(read_input(file, GREATEST_SIZE))
    rows = [[field.strip() for field in row.fields] for row in found if any(row.fields)]
    if not rows or rows[0][0] not in HALVES:
        raise Refused(f"{file}: its first field has to be round-trip or one-way, and then the regions follow")
    names = rows[0][1:]
    if not 1 <= len(names) <= MOST or len(set(names)) < len(names) or "" in names:
        raise Refused(f"{file}: the first line has to name 1 to {MOST} different regions")
    if [row[0] for row in rows[1:]] != names or any(len(row) != len(rows[0]) for row in rows):
        told = f"in the order of the first line, with {len(names)} times"
        raise Refused(f"{file}: a line for each region is wanted, {told}")
    times = [[time_in(file, names, a, b, rows) for b in range(len(names))] for a in range(len(names))]
    halves = 2 * HALVES[rows[0][0]]
    places = range(len(names))
    micros = tuple(tuple(-(-(times[a][b] + times[b][a]) // halves) for b in places) for a in places)
    return Regions(file, tuple(names), micros)


def time_in(file: str, names: list[str], a: int, b: int, rows: list[list[str]]) -> int:
    """The time from one region to another; an empty one is that of the way back."""
    text = rows[1 + a][1 + b] or rows[1 + b][1 + a]
    time = None if text.isdecimal() else time_of(text)
    if time is None or not 1 <= time <= GREATEST:
        raise Refused(f"{file}: {names[a]} to {names[b]}: a time with a unit is wanted, as 40ms, of at most "
                      f"{time_text(GREATEST)}, not {text[:120]!r}")
    return time


@dataclass(frozen=True)
class Placed:
    """Coordinates for the nodes of each region, and how far the latencies that follow are from those of the file."""

    places: tuple[Coordinates, ...]
    told: str


@lru_cache(maxsize=8)
def placed(regions: Regions) -> Placed:
    """The places of regions in the plane whose relative errors have the least squares, and half the latencies within.

    Of floating point only what IEEE 754 rounds exactly is used, so that no machine gives another result."""
    count = len(regions.names)
    heights = [-(-regions.micros[place][place] // 2) for place in range(count)]
    wanted = [[max(0.0, regions.micros[a][b] - heights[a] - heights[b]) for b in range(count)] for a in range(count)]
    draws, side = Draws(1), max(max(row) for row in regions.micros)
    starts = [[(float(draws.below(side)), float(draws.below(side))) for _ in range(count)] for _ in range(STARTS)]
    tried = [settled(points, wanted, regions.micros) for points in starts]
    points = min(tried, key=lambda one: stress(one, wanted, regions.micros))
    left, low = min(x for x, _ in points), min(y for _, y in points)
    pairs = zip(points, heights, strict=True)
    places = [Coordinates(round(x - left), round(y - low), height) for (x, y), height in pairs]
    return Placed(tuple(places), error_told(regions, places))


def settled(points: list[Point], wanted: list[list[float]], micros: Sequence[Sequence[int]]) -> list[Point]:
    """Places after each has been moved again and again to where it fits best beside the others (Guttman, 1968)."""
    points = list(points)
    for turn in range(ROUNDS * len(points)):
        place = turn % len(points)
        points[place] = moved(place, points, wanted[place], micros[place])
    return points


def moved(place: int, points: list[Point], wanted: Sequence[float], micros: Sequence[int]) -> Point:
    """The mean of the points at the wanted distances from the others, each weighed by 1 / latency^2."""
    x, y = points[place]
    sums = [0.0, 0.0, 0.0]
    for other, (ox, oy) in enumerate(points):
        if other == place:
            continue
        weight = 1.0 / (micros[other] * micros[other])
        far = sqrt((x - ox) * (x - ox) + (y - oy) * (y - oy))
        ratio = wanted[other] / far if far > 0 else 0.0
        sums[0] += weight * (ox + ratio * (x - ox))
        sums[1] += weight * (oy + ratio * (y - oy))
        sums[2] += weight
    return (sums[0] / sums[2], sums[1] / sums[2]) if sums[2] > 0 else (x, y)


def stress(points: Sequence[Point], wanted: list[list[float]], micros: Sequence[Sequence[int]]) -> float:
    """The sum of the squares of the relative errors."""
    total = 0.0
    for a, b in combinations(range(len(points)), 2):
        dx, dy = points[a][0] - points[b][0], points[a][1] - points[b][1]
        off = (sqrt(dx * dx + dy * dy) - wanted[a][b]) / micros[a][b]
        total += off * off
    return total


def error_told(regions: Regions, places: Sequence[Coordinates]) -> str:
    """The greatest relative error of the latencies that follow from coordinates, and of which regions it is."""
    pairs = list(combinations(range(len(places)), 2))
    if not pairs:
        return "Coordinates of 1 region, exact"
    errors = [abs(places[a].latency_to(places[b]) - regions.micros[a][b]) / regions.micros[a][b] for a, b in pairs]
    worst = max(range(len(pairs)), key=errors.__getitem__)
    a, b = pairs[worst]
    made, asked = places[a].latency_to(places[b]), regions.micros[a][b]
    most = f"{100 * errors[worst]:.2g} % at most"
    text = f"Coordinates of {len(places)} regions: latencies between them are off by {most}"
    return f"{text} ({regions.names[a]} to {regions.names[b]}: {made} us one-way, {asked} us in the file)"
