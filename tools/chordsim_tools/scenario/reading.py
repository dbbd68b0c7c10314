"""The scenario that the two files say (docs/formats.md, sections 2 to 4)."""

from dataclasses import dataclass, fields, replace
from typing import Any

from chordsim_tools.cli import Refused
from chordsim_tools.known import known
from chordsim_tools.scenario.classes import node_places
from chordsim_tools.scenario.coordinates import Coordinates
from chordsim_tools.scenario.defaults import check_us, is_extended, join_pause_us, joins_forever
from chordsim_tools.scenario.faults import Document, faults_of
from chordsim_tools.scenario.tables import parse_toml, rows_of, value_of_id


@dataclass(slots=True)
class NodeSpec:
    """A node of the scenario. All nodes have coordinates, or none has."""

    name: str
    ident: int
    initial: bool
    churn: bool
    bootstrap: bool
    coordinates: Coordinates | None


@dataclass
class Command:
    """A command of the scenario."""

    at_us: int
    do: str
    node: int
    via: int | None
    key: int | None


@dataclass
class Churn:
    """The table [churn]."""

    life_min_us: int
    life_max_us: int
    down_min_us: int
    down_max_us: int
    leave_ppm: int = 0


@dataclass(frozen=True)
class Jitters:
    """The jitter of each timer."""

    stabilize_us: int
    finger_us: int
    check_us: int


@dataclass
class Lookups:
    """The table [lookups]."""

    gap_min_us: int
    gap_max_us: int


@dataclass(frozen=True)
class Ways:
    """The rules of Chord as published. These values switch each of them off, as in the first and second profile."""

    list_routes: bool = False
    goes_on: bool = False
    ask_owner: bool = False
    lookup_timeouts: int = 8
    drop_silent: bool = False
    skip_near: bool = False
    random_start: bool = False
    clean_lists: bool = False
    join_asks: bool = False
    create_alone: bool = False


PUBLISHED = Ways(
    list_routes=True, goes_on=True, ask_owner=True, lookup_timeouts=32, drop_silent=True, skip_near=True,
    random_start=True, clean_lists=True, join_asks=True,
)
"""What the keys are in the extended profile if they are not given."""


# The field `list` of a scenario hides the type within its class.
Nodes = list[NodeSpec]
Commands = list[Command]


@dataclass
class Scenario:
    """All that the two files say. `latencies` has each pair that a row names, in both orders."""

    profile: int
    bits: int
    list: int
    seed: int
    duration_us: int
    window_us: int
    latency_us: int
    timeout_us: int
    audit_us: int
    stabilize_us: int
    finger_us: int
    jitters: Jitters
    max_events: int
    loss_ppm: int
    spread_us: int
    retries: int
    join_pause_us: int
    join_forever: bool
    check_us: int
    detail: bool
    ways: Ways
    churn: Churn | None
    lookups: Lookups | None
    nodes: Nodes
    commands: Commands
    latencies: dict[tuple[int, int], int]

    def latency(self, a: int, b: int) -> int:
        """How long a message from node a to node b takes, without the spread."""
        if a == b:
            return 1
        here, there = self.nodes[a].coordinates, self.nodes[b].coordinates
        if here is None or there is None:
            return self.latencies.get((a, b), self.latency_us)
        return here.latency_to(there)


def read_scenario(scenario_file: bytes, latency_file: bytes) -> Scenario:
    """Reads a scenario from the bytes of its two files, or raises Refused with the first fault of S1 to S16."""
    document = Document(parse_toml(scenario_file), rows_of(latency_file))
    for fault in faults_of(document):
        raise Refused(fault.text)
    return whole_scenario(document)


def whole_scenario(document: Document) -> Scenario:
    """The scenario, from tables that have no fault."""
    top = document.top.table
    alike = {id(section): alike_of(section.table) for section in document.sections}
    nodes = [
        NodeSpec(known(node.name), known(ident), *alike[id(node.place)], place)
        for node, ident, place in zip(document.nodes, document.idents, node_places(top), strict=True)
    ]
    commands = [command_of(place.table, document.numbers) for place in document.commands]
    plain = {key.name: top[key.name] for key in document.top.keys if key.kind == "integer" and key.required}
    return Scenario(
        **plain,
        jitters=jitters_of(top),
        max_events=top.get("max_events", 50_000_000),
        loss_ppm=top.get("loss_ppm", 0),
        spread_us=top.get("spread_us", 0),
        retries=top.get("retries", 0),
        join_pause_us=join_pause_us(top),
        join_forever=joins_forever(top),
        check_us=check_us(top),
        detail=top.get("detail", False),
        ways=ways_of(top),
        churn=Churn(**top["churn"]) if "churn" in top else None,
        lookups=Lookups(**top["lookups"]) if "lookups" in top else None,
        nodes=nodes,
        commands=commands,
        latencies=latencies_of(document),
    )


def jitters_of(top: dict[str, Any]) -> Jitters:
    """The jitters: that of all timers, if a timer has none of its own."""
    every = top.get("jitter_us", 0)
    return Jitters(*(top.get(f"{word}_jitter_us", every) for word in ("stabilize", "finger", "check")))


def ways_of(top: dict[str, Any]) -> Ways:
    """The rules of Chord as published: all of them in the extended profile but those that its keys switch off."""
    if not is_extended(top):
        return Ways()
    return replace(PUBLISHED, **{key.name: top[key.name] for key in fields(Ways) if key.name in top})


def alike_of(table: dict[str, Any]) -> tuple[bool, bool, bool]:
    """What the nodes of a table are alike in: all but their names, identifiers and places."""
    initial, churn, bootstrap = (table.get(word, False) for word in ("initial", "churn", "bootstrap"))
    return initial, churn, bootstrap


def command_of(table: dict[str, Any], numbers: dict[str, int]) -> Command:
    """A command, with nodes by their numbers."""
    via = numbers[table["via"]] if "via" in table else None
    key = value_of_id(table["key"]) if "key" in table else None
    return Command(table["at_us"], table["do"], numbers[table["node"]], via, key)


def latencies_of(document: Document) -> dict[tuple[int, int], int]:
    """The latency of each pair that a row names, in both directions."""
    latencies = {}
    for row in document.rows:
        first, second, micros = row.fields
        a, b = document.numbers[first], document.numbers[second]
        latencies[(a, b)] = latencies[(b, a)] = int(micros)
    return latencies
