"""Scenarios for tests."""

from pathlib import Path

from chordsim_tools.cli import Refused
from chordsim_tools.reference.state import Node, Status
from chordsim_tools.reference.turn import World
from chordsim_tools.scenario.reading import Scenario, read_scenario

EXAMPLES = Path(__file__).resolve().parents[3] / "examples"
RING = (EXAMPLES / "ring.toml").read_text()
OFF = {
    "list_routes": "false", "goes_on": "false", "ask_owner": "false", "lookup_timeouts": "8", "drop_silent": "false",
    "skip_near": "false", "random_start": "false", "clean_lists": "false", "join_asks": "false",
}
"""The keys of the rules of Chord as published, each with the value that switches its rule off."""
OFF_WITH_TIMES = OFF | {"join_pause_us": "0", "join_forever": "false", "check_us": "0"}
"""These, and the keys without which joins pause and go on and predecessors are checked."""
JOIN_RULES = ("clean_lists", "join_asks")
"""Those of them that are of joins."""


def of_joins() -> dict[str, str]:
    """The keys that switch off the rules of joins, and the pauses, the joins without an end and the checks."""
    return {key: value for key, value in OFF_WITH_TIMES.items() if key not in OFF or key in JOIN_RULES}


SWITCHED_OFF = "".join(f"{key} = {value}\n" for key, value in OFF_WITH_TIMES.items())
"""These as lines."""
LATER = ("losses", "again", "forgotten", "leaves", "rescues", "creates", "timeouts-sum")
"""The numbers of the report that the extended profile has after the first 24."""


def switched_off(*lines: str) -> list[str]:
    """The lines that switch off the rules of Chord as published whose keys these lines do not have.

    So do pauses between joins, joins without an end, and checks.
    """
    given = {line.split(" = ")[0] for line in lines}
    return [f"{key} = {value}" for key, value in OFF_WITH_TIMES.items() if key not in given]


def ring(*changes: tuple[str, str], rows: str = "") -> Scenario:
    """The scenario examples/ring.toml, with texts in it replaced by others."""
    text = RING
    for old, new in changes:
        assert old in text, old
        text = text.replace(old, new, 1)
    return read_scenario(text.encode(), rows.encode())


def fault(text: str, rows: str = "") -> str:
    """What the two files are refused for."""
    try:
        read_scenario(text.encode(), rows.encode())
    except Refused as refused:
        return str(refused)
    return "accepted"


def with_detail(toml: str, value: str = "true") -> str:
    """A scenario of the extended profile, with this value of `detail`."""
    return f"detail = {value}\n" + toml.replace("detail = true\n", "")


def five_nodes() -> World:
    """A circle of 8 places with the nodes 0 to 4 at 0, 2, 4, 6 and 7, and lists of two entries."""
    head, _, _ = RING.partition("[[node]]")
    places = (0, 2, 4, 6, 7)
    nodes = "".join(f'[[node]]\nname = "n{i}"\nid = {place}\ninitial = true\n' for i, place in enumerate(places))
    return World(read_scenario((head + nodes).encode(), b""))


def members(lists: dict[int, list[int]]) -> list[Node]:
    """The states of five nodes, of which these are members with these successor lists; the others are down."""
    nodes = [Node(i) for i in range(5)]
    for i, succ in lists.items():
        nodes[i].status = Status.MEMBER
        nodes[i].succ = succ
    return nodes
