"""The faults of the scenario and latency files (docs/formats.md, section 4): all of them, in the order of S1 to S16."""

import heapq
import re
from collections.abc import Iterable, Iterator
from dataclasses import dataclass
from functools import cached_property
from itertools import combinations, count
from typing import Any

from chordsim_tools.known import known
from chordsim_tools.reference.circle import Circle
from chordsim_tools.scenario.classes import class_names
from chordsim_tools.scenario.tables import (
    BILLION, COORDINATES, EXTENDED, MOST_OF_PREFIX, SIDE, Key, Place, Row, has_type, is_in_own_range, places_of,
    profile_of, value_of_id,
)

PLACED = [*COORDINATES, SIDE]
"""The keys of coordinates."""
AUDIT = ("name", "audit")
"""The only name that no node may have. A prefix may be this, since a number follows it."""


@dataclass(slots=True)
class Node:
    """A node: its name if that is a text, and its own table, or that of its class and its number among all nodes."""

    name: str | None
    place: Place
    number: int = 0

    @property
    def told(self) -> str:
        """The node as the program prints it."""
        return f"node {self.number}" if self.is_of_class else self.place.name

    @property
    def is_of_class(self) -> bool:
        """Whether it is one of a class."""
        return self.place.kind == "nodes"

    @property
    def naming(self) -> str:
        """The key that its name comes from."""
        return "prefix" if self.is_of_class else "name"


@dataclass
class Fault:
    """A fault: its kind, the place as the program prints it, and the table or row and the key or field where it is.

    `nodes` are the two nodes that it is of, if it is of two: the earlier one first."""

    kind: str
    answer: str
    place: str
    key: str = ""
    other: str = ""
    count: int = 1
    nodes: tuple[Node, Node] | None = None

    @property
    def text(self) -> str:
        """The text of formats.md, section 4."""
        return f"{self.kind} {self.answer}".rstrip()


class Document:
    """The two files, read as far as they can be. Nothing is known of a scenario that is no TOML (`top` is nothing)."""

    def __init__(self, top: dict[str, Any] | None, rows: list[Row]) -> None:
        """The tables and the rows."""
        self.is_toml = top is not None
        self.profile = profile_of(top or {})
        self.top = Place("top", top or {}, self.profile.tables["top"])
        self.places = places_of(self.top.table) if self.is_toml else []
        self.sections = [place for place in self.places if place.kind in ("node", "nodes")]
        self.nodes = list(self.each_node())
        self.commands = [place for place in self.places if place.kind == "command"]
        self.rows = rows

    def each_node(self) -> Iterator[Node]:
        """The nodes of tables, and then those of classes: of these as far as they can be counted and named."""
        tables = self.top.table.get("node")
        numbers = count(1 + (len(tables) if isinstance(tables, list) else 0))
        for place in self.sections:
            if place.kind == "node":
                yield Node(place.usable("name"), place)
            elif self.is_counted(place):
                yield from (Node(name, place, next(numbers)) for name in class_names(place.table))

    def is_counted(self, section: Place) -> bool:
        """Whether one can say which nodes a class has."""
        return None not in (self.top.usable("nodes"), section.usable("count"), section.usable("prefix"))

    def each_key(self) -> Iterator[tuple[Place, Key]]:
        """Each table with each of the keys that are listed for it."""
        return ((place, key) for place in self.places for key in place.keys)

    def present_keys(self) -> Iterator[tuple[Place, Key]]:
        """Each table with each of its keys that are listed for it."""
        return ((place, key) for place, key in self.each_key() if key.name in place.table)

    def whole_rows(self) -> list[Row]:
        """The rows that have three fields."""
        return [row for row in self.rows if len(row.fields) == 3]

    @cached_property
    def numbers(self) -> dict[str, int]:
        """Of each name of a node, which of `nodes` is the first to have it."""
        numbers: dict[str, int] = {}
        for i, node in enumerate(self.nodes):
            if node.name is not None:
                numbers.setdefault(node.name, i)
        return numbers

    @cached_property
    def has_coordinates(self) -> bool:
        """Whether a node or a class has a key of coordinates, in a profile that has these keys."""
        return any(self.is_placed(section) for section in self.sections)

    def is_placed(self, section: Place) -> bool:
        """Whether a node or a class has a key of coordinates that is listed for it."""
        return any(key in section.keys for key in PLACED if key.name in section.table)

    @cached_property
    def has_churn(self) -> bool:
        """Whether a node or a class has churn."""
        return any(section.table.get("churn") is True for section in self.sections)

    @property
    def has_nodes(self) -> bool:
        """Whether there are nodes, and all are known, so that one can say which names are no node's."""
        listed = {key.name for key in self.top.keys} & self.top.table.keys()
        given = [self.top.table[name] for name in ("node", "nodes") if name in listed]
        classes = [section for section in self.sections if section.kind == "nodes"]
        return bool(given) and all(has_type(one, "tables") for one in given) and all(map(self.is_counted, classes))

    @cached_property
    def idents(self) -> list[int | None]:
        """The identifier of each of `nodes`, if it has one."""
        bits = self.top.usable("bits")
        circle = None if bits is None else Circle(bits)
        return [None if circle is None else ident_of(node, circle) for node in self.nodes]


def ident_of(node: Node, circle: Circle) -> int | None:
    """The identifier of a node on a circle, if it has one."""
    if not node.is_of_class and "id" in node.place.table:
        value = node.place.usable("id")
        ident = None if value is None else value_of_id(value)
        return ident if ident is not None and ident < 2**circle.bits else None
    return None if node.name is None else circle.identifier_of_name(node.name)


def faults_of(document: Document) -> Iterator[Fault]:
    """All faults of S2 to S16, first the one that chordsim prints. What follows from an earlier fault is left out."""
    yield from unknown_keys(document)
    yield from missing_keys(document)
    yield from wrong_types(document)
    yield from out_of_range(document)
    yield from bad_names(document)
    yield from same_names(document)
    yield from same_ids(document)
    yield from unknown_nodes(document)
    yield from too_few_initial(document)
    yield from times_after_end(document)
    yield from bad_rows(document)
    yield from self_links(document)
    yield from same_links(document)
    yield from low_heights(document) if document.has_coordinates else below_window(document)
    yield from rows_and_coordinates(document)


def key_fault(kind: str, place: Place, key: Key) -> Fault:
    """A fault of a key of a table."""
    return Fault(kind, f"{place.name} {key.name}", place.name, key.name)


def command_fault(kind: str, command: Place, key: str) -> Fault:
    """A fault of a value of a command."""
    return Fault(kind, command.name, command.name, key)


def row_fault(kind: str, row: Row, key: str, other: str = "") -> Fault:
    """A fault of a row, or of a field of it."""
    return Fault(kind, f"row {row.number}", f"row {row.number}", key, other)


def unknown_keys(document: Document) -> Iterator[Fault]:
    """S2."""
    for place in document.places:
        listed = {key.name for key in place.keys}
        unknown = (name for name in place.table if name not in listed)
        yield from (Fault("S2 UnknownKey", place.name, place.name, name) for name in unknown)


def missing_keys(document: Document) -> Iterator[Fault]:
    """S3."""
    for place, key in document.each_key():
        if key.name not in place.table and is_wanted(document, place, key):
            yield key_fault("S3 MissingKey", place, key)


def is_wanted(document: Document, place: Place, key: Key) -> bool:
    """Whether a table has to have a key."""
    do = place.table.get("do") if place.kind == "command" else None
    return bool(
        (key.required and not (key.unless and key.unless in place.table))
        or (key.name == "churn" and place.kind == "top" and document.has_churn)
        or (key.name == "via" and do == "join")
        or (key.name == "key" and do == "lookup")
        or (key.name in ("x_us", "y_us") and document.has_coordinates)
    )


def wrong_types(document: Document) -> Iterator[Fault]:
    """S4."""
    for place, key in document.present_keys():
        if not has_type(place.table[key.name], key.kind):
            yield key_fault("S4 WrongType", place, key)


def out_of_range(document: Document) -> Iterator[Fault]:
    """S5."""
    for place, key in document.present_keys():
        if has_type(place.table[key.name], key.kind) and not is_in_range(document, place, key):
            yield key_fault("S5 OutOfRange", place, key)


def is_in_range(document: Document, place: Place, key: Key) -> bool:
    """Whether a value of the key's type is in its range, also by what other values say that are themselves right."""
    value = place.table[key.name]
    if not is_in_own_range(value, key):
        return False
    if key.kind == "id":
        bits = document.top.usable("bits")
        return bits is None or value_of_id(value) < 2**bits
    if key.name.endswith("_max_us"):
        least = place.usable(key.name.replace("_max_", "_min_"))
        return least is None or value >= least
    if key.name == "audit_us":
        duration = place.usable("duration_us")
        return duration is None or duration <= 1_000_000 * value
    return True


def bad_names(document: Document) -> Iterator[Fault]:
    """S6."""
    for section in document.sections:
        key, most = ("name", 32) if section.kind == "node" else ("prefix", MOST_OF_PREFIX)
        name = section.usable(key)
        if name is not None and (not re.fullmatch(rf"[A-Za-z0-9._-]{{1,{most}}}", name) or (key, name) == AUDIT):
            yield Fault("S6 BadName", section.name, section.name, key)


def same_names(document: Document) -> Iterator[Fault]:
    """S7."""
    yield from together(each_same_name(document))


def each_same_name(document: Document) -> Iterator[Fault]:
    """S7 of each node that repeats a name."""
    for i, node in enumerate(document.nodes):
        first = i if node.name is None else document.numbers[node.name]
        if first != i:
            other = document.nodes[first]
            answer = f"{other.told} {node.told}"
            yield Fault("S7 SameName", answer, node.place.name, node.naming, other.place.name, nodes=(other, node))


def same_ids(document: Document) -> Iterator[Fault]:
    """S8. Two nodes of one name that have no `id` have one fault alone, S7."""
    yield from together(each_same_id(document))


def each_same_id(document: Document) -> Iterator[Fault]:
    """S8 of each node that repeats an identifier."""
    first_of: dict[int, Node] = {}
    for node, ident in zip(document.nodes, document.idents, strict=True):
        if ident is None or node.name is None:
            continue
        first = first_of.setdefault(ident, node)
        same_name = first.name == node.name and "id" not in first.place.table and "id" not in node.place.table
        if first is not node and not same_name:
            answer, key = f"{first.name} {node.name}", "prefix" if node.is_of_class else "id"
            yield Fault("S8 SameId", answer, node.place.name, key, first.place.name, nodes=(first, node))


def together(faults: Iterable[Fault]) -> list[Fault]:
    """These faults, but of each class only that of its first node, with the number of its nodes that have one."""
    kept: list[Fault] = []
    first_of: dict[str, Fault] = {}
    for fault in faults:
        is_of_class = fault.place.startswith("nodes ")
        first = first_of.setdefault(fault.place, fault) if is_of_class else fault
        if first is fault:
            kept.append(fault)
        else:
            first.count += 1
    return kept


def unknown_nodes(document: Document) -> Iterator[Fault]:
    """S9."""
    if document.has_nodes:
        yield from unknown_in_commands(document)
        yield from unknown_in_rows(document)


def unknown_in_commands(document: Document) -> Iterator[Fault]:
    """S9 of commands."""
    for command in document.commands:
        named = ((key, command.usable(key)) for key in ("node", "via"))
        unknown = (key for key, name in named if name is not None and name not in document.numbers)
        yield from (command_fault("S9 UnknownNode", command, key) for key in unknown)


def unknown_in_rows(document: Document) -> Iterator[Fault]:
    """S9 of rows."""
    for row in document.whole_rows():
        unknown = (i for i, name in enumerate(row.fields[:2], start=1) if name not in document.numbers)
        yield from (row_fault("S9 UnknownNode", row, f"field {i}") for i in unknown)


def too_few_initial(document: Document) -> Iterator[Fault]:
    """S10. In the extended profile a ring may begin with any number of nodes, or with none."""
    if document.profile is EXTENDED:
        return
    entries = document.top.usable("list")
    certain = all(has_type(node.table.get("initial", False), "boolean") for node in document.sections)
    if document.has_nodes and entries is not None and certain:
        if len([node for node in document.sections if node.table.get("initial")]) < entries + 1:
            yield Fault("S10 TooFewInitial", "", "top", "list")


def times_after_end(document: Document) -> Iterator[Fault]:
    """S11."""
    duration = document.top.usable("duration_us")
    for command in document.commands:
        time = command.usable("at_us")
        if time is not None and duration is not None and time >= duration:
            yield command_fault("S11 TimeAfterEnd", command, "at_us")


def micros_of(row: Row) -> int | None:
    """The latency of a row, if it has three fields and the third is as it has to be."""
    if len(row.fields) != 3 or not re.fullmatch(r"[0-9]{1,10}", row.fields[2]):
        return None
    micros = int(row.fields[2])
    return micros if 1 <= micros <= BILLION else None


def bad_rows(document: Document) -> Iterator[Fault]:
    """S12."""
    for row in document.rows:
        if micros_of(row) is None:
            yield row_fault("S12 BadLatencyRow", row, "field 3" if len(row.fields) == 3 else "")


def self_links(document: Document) -> Iterator[Fault]:
    """S13. In the extended profile a node may join through itself."""
    if document.profile is not EXTENDED:
        own = (command for command in document.commands if joins_itself(command))
        yield from (command_fault("S13 SelfLink", command, "via") for command in own)
    rows = (row for row in document.whole_rows() if row.fields[0] == row.fields[1])
    yield from (row_fault("S13 SelfLink", row, "field 2") for row in rows)


def joins_itself(command: Place) -> bool:
    """Whether a node is to join through itself."""
    via = command.usable("via")
    return bool(command.table.get("do") == "join" and via is not None and via == command.usable("node"))


def same_links(document: Document) -> Iterator[Fault]:
    """S14. Rows of one node twice have S13 alone."""
    first_of: dict[frozenset[str], Row] = {}
    for row in document.whole_rows():
        first = first_of.setdefault(frozenset(row.fields[:2]), row)
        if row.fields[0] != row.fields[1] and first is not row:
            yield row_fault("S14 SameLinkTwice", row, "", f"row {first.number}")


def below_window(document: Document) -> Iterator[Fault]:
    """S15, once for each row and once for `latency_us`, with the first pair and how many pairs there are."""
    window = document.top.usable("window_us")
    default = document.top.usable("latency_us")
    if window is None:
        return
    names = list(document.numbers)
    rows = rows_of_pairs(document.rows, names)
    faults: dict[tuple[int, int], Fault] = {}
    for pair, row in rows.items():
        micros = micros_of(row)
        if micros is not None and micros < window:
            faults[pair] = window_fault(pair, names, f"row {row.number}", "field 3")
    others = len(names) * (len(names) - 1) // 2 - len(rows)
    if default is not None and default < window and others > 0:
        pair = known(next((pair for pair in combinations(range(len(names)), 2) if pair not in rows), None))
        faults[pair] = window_fault(pair, names, "top", "latency_us")
        faults[pair].count = others
    yield from (faults[pair] for pair in sorted(faults))


def rows_of_pairs(rows: list[Row], names: list[str]) -> dict[tuple[int, int], Row]:
    """Of each pair of different nodes that rows name, the last such row. Nodes are by their places among the names."""
    places = {name: place for place, name in enumerate(names)}
    named: dict[tuple[int, int], Row] = {}
    for row in rows:
        found = sorted(places[name] for name in row.fields[:2] if name in places)
        if len(row.fields) == 3 and len(set(found)) == 2:
            named[found[0], found[1]] = row
    return named


def window_fault(pair: tuple[int, int], names: list[str], place: str, key: str) -> Fault:
    """S15 of a pair, given by the places of its nodes among the names."""
    return Fault("S15 LatencyBelowWindow", f"{names[pair[0]]} {names[pair[1]]}", place, key)


def low_heights(document: Document) -> Iterator[Fault]:
    """S15 of coordinates: the first node of the least height, and the first other one of the least of the others."""
    window = document.top.usable("window_us")
    heights = {id(section): height_of(section) for section in document.sections}
    named = ((heights[id(node.place)], node) for node in document.nodes if node.name is not None)
    # Of equal heights the earlier node is taken first.
    least = heapq.nsmallest(2, ((height, node) for height, node in named if height is not None), lambda one: one[0])
    if window is None or len(least) < 2 or least[0][0] + least[1][0] >= window:
        return
    first, second = (node for _, node in least)
    answer = f"{first.name} {second.name}"
    places = first.place.name, second.place.name
    yield Fault("S15 LatencyBelowWindow", answer, places[0], "height_us", places[1], nodes=(first, second))


def height_of(section: Place) -> int | None:
    """The height of a node, or of the nodes of a class, if it is usable."""
    height: int | None = section.usable("height_us") if "height_us" in section.table else 0
    return height


def rows_and_coordinates(document: Document) -> Iterator[Fault]:
    """S16."""
    if document.has_coordinates and document.rows:
        yield Fault("S16 RowsAndCoordinates", "", "row 1")
