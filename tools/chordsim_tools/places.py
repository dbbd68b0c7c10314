"""Coordinates of nodes that are drawn by a law or read from a file, and the form of that file."""

import csv
import io
from collections.abc import Iterable
from dataclasses import dataclass
from decimal import Decimal

from chordsim_tools.cli import Refused
from chordsim_tools.draws import TWENTY_DIGITS, WORD, Draws, Split
from chordsim_tools.files import read_input
from chordsim_tools.quantities import span_of, time_of, whole_of
from chordsim_tools.regions import placed, read_regions
from chordsim_tools.scenario.coordinates import Coordinates
from chordsim_tools.scenario.tables import COORDINATES, GREATEST_SIZE, rows_of

GREATEST_SIDE, _, GREATEST_HEIGHT = (key.greatest for key in COORDINATES)
LAWS = (
    "square:SIDE:MIN..MAX or square:SIDE:HEIGHT (SIDE 0us to 500s, heights 1us to 100s), king, file:NAME or "
    "regions:NAME"
)
STREAM = 7
"""Which stream of a seed the coordinates are drawn from. The earlier ones are those of the commands of a scenario."""


@dataclass(frozen=True)
class Square:
    """Places that are equally likely in a square of this side, and heights that are equally likely in a span."""

    side: int
    least: int
    greatest: int

    def draw(self, draws: Draws) -> Coordinates:
        """The coordinates of a node."""
        x, y = draws.between(0, self.side), draws.between(0, self.side)
        return Coordinates(x, y, draws.between(self.least, self.greatest))

    @property
    def has_one_height(self) -> bool:
        """Whether all heights are the same, as those of a class."""
        return self.least == self.greatest


@dataclass(frozen=True)
class Cluster:
    """A part of the nodes, in per cent, around a place, and how far they are spread along each axis."""

    share: int
    x_us: int
    y_us: int
    spread_us: int


CLUSTERS = (
    Cluster(45, 115_000, 60_000, 10_000),
    Cluster(35, 160_000, 60_000, 7_000),
    Cluster(20, 65_000, 116_000, 12_000),
)
MEDIAN_HEIGHT = 12_000
SIGMA = Decimal("0.7")


@dataclass(frozen=True)
class King:
    """Places in three clusters, and heights that are nearly log-normal. Made in the manner of the King data set."""

    least: int = 500

    def draw(self, draws: Draws) -> Coordinates:
        """The coordinates of a node."""
        cluster = cluster_of(draws.below(100))
        x, y = (nearly_normal(draws) * cluster.spread_us // WORD for _ in range(2))
        power = TWENTY_DIGITS.multiply(SIGMA, TWENTY_DIGITS.divide(Decimal(nearly_normal(draws)), Decimal(WORD)))
        height = int(TWENTY_DIGITS.multiply(Decimal(MEDIAN_HEIGHT), TWENTY_DIGITS.exp(power)))
        return Coordinates(cluster.x_us + x, cluster.y_us + y, max(self.least, height))


def cluster_of(number: int) -> Cluster:
    """The cluster that a number below 100 stands for."""
    for cluster in CLUSTERS[:-1]:
        if number < cluster.share:
            return cluster
        number -= cluster.share
    return CLUSTERS[-1]


def nearly_normal(draws: Draws) -> int:
    """2^53 times a nearly normal number: the sum of twelve uniform ones, less 6, whose standard deviation is 1."""
    return sum(draws.word() for _ in range(12)) - 6 * WORD


@dataclass(frozen=True)
class PlacesFile:
    """Coordinates of a file."""

    name: str


@dataclass(frozen=True)
class RegionsFile:
    """Coordinates that come nearest to the latencies between the regions of a file."""

    name: str


Law = Square | King | PlacesFile | RegionsFile


def law_of_places(text: str) -> Law | None:
    """One of LAWS, or nothing."""
    name, _, rest = text.partition(":")
    match name:
        case "square":
            return square_of(rest)
        case "king":
            return None if rest else King()
        case "file":
            return PlacesFile(rest) if rest else None
        case "regions":
            return RegionsFile(rest) if rest else None
    return None


def square_of(text: str) -> Square | None:
    """SIDE:MIN..MAX or SIDE:HEIGHT, or nothing."""
    first, _, rest = text.partition(":")
    side, heights = time_of(first), span_of(rest if ".." in rest else f"{rest}..{rest}")
    if side is None or heights is None or side > GREATEST_SIDE or heights[0] < 1 or heights[1] > GREATEST_HEIGHT:
        return None
    return Square(side, *heights)


def places_of(law: Law, seed: int, names: list[str]) -> tuple[Coordinates, ...]:
    """The coordinates of all nodes. Each node has a stream of its own: more nodes leave those of the others."""
    if isinstance(law, PlacesFile):
        return places_in(law.name, names)
    if isinstance(law, RegionsFile):
        regions = read_regions(law.name)
        places = placed(regions).places
        return tuple(places[region] for region in regions.of_nodes(names))
    streams = streams_of(seed, len(names))
    return tuple(law.draw(streams[place]) for place in range(len(names)))


def streams_of(seed: int, count: int) -> Split:
    """The stream of each of so many nodes."""
    return Split(Draws(seed).split(STREAM)[-1], count)


def places_in(file: str, names: list[str]) -> tuple[Coordinates, ...]:
    """The coordinates that a file has for these nodes."""
    places = read_places(file)
    missing = next((name for name in names if name not in places), None)
    if missing is not None:
        raise Refused(f"{file}: there is no row for {missing}")
    return tuple(places[name] for name in names)


def read_places(file: str) -> dict[str, Coordinates]:
    """The rows NAME,X,Y,HEIGHT of a file."""
    places: dict[str, Coordinates] = {}
    for row in rows_of(read_input(file, GREATEST_SIZE)):
        name, *fields = row.fields
        place = place_in(fields)
        if place is None:
            raise Refused(f"{file}: row {row.number} is not NAME,X,Y,HEIGHT in whole microseconds (X and Y at most "
                          f"{GREATEST_SIDE}, HEIGHT at most {GREATEST_HEIGHT})")
        if name in places:
            raise Refused(f"{file}: row {row.number} names {name} again")
        places[name] = place
    return places


def place_in(fields: list[str]) -> Coordinates | None:
    """The coordinates that are the fields X, Y and HEIGHT, or nothing."""
    values = [whole_of(field) for field in fields]
    pairs = zip(values, COORDINATES, strict=False)
    good = [value for value, key in pairs if value is not None and value <= key.greatest]
    return Coordinates(*good) if len(good) == len(fields) == len(COORDINATES) else None


def places_text(names: Iterable[str], places: Iterable[Coordinates]) -> str:
    """The rows of such a file."""
    text = io.StringIO()
    rows = ((name, place.x_us, place.y_us, place.height_us) for name, place in zip(names, places, strict=True))
    csv.writer(text, lineterminator="\n").writerows(rows)
    return text.getvalue()
