"""Classes of nodes: the tables [[nodes]], each of which is many nodes that are alike (docs/formats.md, section 2)."""

from collections.abc import Iterator, Mapping
from itertools import islice, repeat
from typing import Any

from chordsim_tools.reference.chacha import groups, scaled
from chordsim_tools.reference.state import Drawn
from chordsim_tools.scenario.coordinates import Coordinates, coordinates_of
from chordsim_tools.scenario.tables import MOST_OF_CLASS

Table = dict[str, Any]
AT_ONCE = 1024
"""The places of so many nodes are drawn together."""


def class_names(table: Mapping[str, Any]) -> Iterator[str]:
    """The names of the nodes of a class."""
    return (f"{table['prefix']}{number}" for number in range(table["count"]))


def node_sections(top: Table) -> list[Table]:
    """The tables of nodes and of classes, in their order."""
    return [*top.get("node", []), *top.get("nodes", [])]


def node_count(top: Table) -> int:
    """How many nodes a scenario has. A class whose number is none counts for nothing."""
    counts = (table.get("count") for table in top.get("nodes", []))
    return len(top.get("node", [])) + sum(count for count in counts if isinstance(count, int))


def node_places(top: Table, alike: int = MOST_OF_CLASS) -> Iterator[Coordinates | None]:
    """The coordinates of each node of a scenario that is accepted, in their order. All nodes have them, or none has.

    Of a class whose nodes are all at one place it is at most so many nodes that are alike."""
    yield from map(coordinates_of, top.get("node", []))
    for number, table in enumerate(top.get("nodes", [])):
        places = class_places(top["seed"], number, table)
        yield from places if table.get("side_us") else islice(places, alike)


def class_places(seed: int, number: int, table: Table) -> Iterator[Coordinates | None]:
    """The coordinates of the nodes of a class, which has this number among the classes (docs/rules.md, section 3)."""
    corner, bound = coordinates_of(table), 1 + table.get("side_us", 0)
    if corner is None or bound == 1:
        return repeat(corner, table["count"])
    return (corner.moved(*scaled(words, bound, bound)) for words in words_of_class(seed, number, table["count"]))


def words_of_class(seed: int, number: int, count: int) -> Iterator[tuple[int, ...]]:
    """The four words from which the place of each node of a class is drawn."""
    for first in range(0, count, AT_ONCE):
        streams = [Drawn.PLACE.stream(node) for node in range(first, min(first + AT_ONCE, count))]
        yield from groups(seed, streams, number)


def expanded(top: Table, is_drawn: bool = True) -> Table:
    """A scenario that is accepted, with all its nodes as tables [[node]]. Without classes it is the same one.

    If places are not drawn, since nobody asks for them, the nodes of a class are at the corner of its square."""
    if "nodes" not in top:
        return top
    tables = list(top.get("node", []))
    for number, table in enumerate(top["nodes"]):
        alike = {key: value for key, value in table.items() if key not in ("count", "prefix", "side_us")}
        places = class_places(top["seed"], number, table if is_drawn else {**table, "side_us": 0})
        tables += ({"name": name, **alike, **plane_keys(place)} for name, place in zip(class_names(table), places))
    return {**{key: value for key, value in top.items() if key != "nodes"}, "node": tables}


def plane_keys(place: Coordinates | None) -> Table:
    """The keys of a place in the plane."""
    return {} if place is None else {"x_us": place.x_us, "y_us": place.y_us}
