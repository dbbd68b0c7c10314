"""The nodes of a scenario that is to be made: groups with churn of their own, and nodes that arrive during the run."""

import re
from collections.abc import Iterator, Sequence
from dataclasses import dataclass
from decimal import Decimal
from heapq import merge
from itertools import repeat, takewhile
from typing import NamedTuple

from chordsim_tools.draws import TWENTY_DIGITS, Distribution, Draws, Exponential, distribution_of
from chordsim_tools.quantities import UNITS, decimal_of

DEFAULT_DOWN = Exponential(10_000_000)
STREAM = 8
"""Which stream of a seed arrivals are drawn from. The earlier ones are those of commands and coordinates."""
RATES = "NUMBER/s, /m, /h or /d, as 0.2/s, the number above 0 with at most nine digits after the point"
GROUPS = (
    "NAME:NODES, or NAME:NODES:KEY=VALUE,.. with the keys lifetime (a LAW or none), down (a LAW) and arrivals (a "
    "RATE); NAME has at most 24 letters, digits, dots and underscores"
)
Span = tuple[int, int]


class Host(NamedTuple):
    """A node: its name and its group, the laws of its lives and down times, and when it arrives if it does.

    The host of a churn trace has its sessions."""

    name: str
    group: str = ""
    lifetime: Distribution | None = None
    down: Distribution = DEFAULT_DOWN
    arrives: int | None = None
    sessions: tuple[Span, ...] | None = None


@dataclass(frozen=True)
class Group:
    """Nodes with a name of their own. Without a law of its own a group has that of all nodes.

    Its arrivals are the mean time between two of them, in microseconds."""

    name: str
    nodes: int
    lifetime: Distribution | None = None
    is_lasting: bool = False
    down: Distribution | None = None
    arrivals: Decimal | None = None

    def host(self, number: int, common: "Group", arrives: int | None = None) -> Host:
        """One of its nodes. What the group does not say, the group of all nodes says."""
        lifetime = None if self.is_lasting else self.lifetime or common.lifetime
        name = f"{self.name}-{number}" if self.name else f"n{number}"
        return Host(name, self.name, lifetime, self.down or common.down or DEFAULT_DOWN, arrives)


def gap_of_rate(text: str) -> Decimal | None:
    """The mean time between two arrivals, in microseconds, of a rate such as 0.2/s, or nothing."""
    number, _, unit = text.partition("/")
    rate = decimal_of(number)
    if rate is None or rate == 0 or unit not in ("s", "m", "h", "d"):
        return None
    return TWENTY_DIGITS.divide(Decimal(UNITS[unit]), rate)


def group_of(text: str) -> Group | None:
    """NAME:NODES or NAME:NODES:KEY=VALUE,.. or nothing."""
    match = re.fullmatch(r"([A-Za-z0-9._]{1,24}):([0-9]{1,7})(?::(.+))?", text)
    if match is None:
        return None
    pairs = [item.partition("=") for item in (match[3] or "").split(",") if match[3]]
    keys = {key: value for key, _, value in pairs}
    if len(keys) < len(pairs) or not keys.keys() <= {"lifetime", "down", "arrivals"}:
        return None
    is_lasting = keys.get("lifetime") == "none"
    lifetime, down = (distribution_of(keys.get(key, "")) for key in ("lifetime", "down"))
    arrivals = gap_of_rate(keys.get("arrivals", ""))
    read = {"lifetime": lifetime or is_lasting, "down": down, "arrivals": arrivals}
    if any(not read[key] for key in keys):
        return None
    return Group(match[1], int(match[2]), lifetime, is_lasting, down, arrivals)


def name_of_group(node: str) -> str:
    """The group of a node by its name: what is before the last hyphen, or nothing."""
    return node.rpartition("-")[0]


def hosts_of(common: Group, groups: Sequence[Group]) -> list[Host]:
    """The nodes that the scenario begins with: those of no group first, then each group's."""
    return [group.host(number, common) for group in (common, *groups) for number in range(group.nodes)]


def arriving(common: Group, groups: Sequence[Group], seed: int, duration: int) -> Iterator[Host]:
    """The nodes that arrive, in the order of their times. Each group has a stream of its own.

    A time is drawn when its node is asked for: there may be far more of them than a scenario has room for."""
    kinds = (common, *groups)
    streams = Draws(seed).split(STREAM)[-1].split(len(kinds))
    times = [
        zip(times_of(group.arrivals, duration, draws), repeat(place))
        for place, (group, draws) in enumerate(zip(kinds, streams, strict=True)) if group.arrivals is not None
    ]
    numbers = [group.nodes for group in kinds]
    for time, place in merge(*times):
        yield kinds[place].host(numbers[place], common, time)
        numbers[place] += 1


def times_of(gap: Decimal, duration: int, draws: Draws) -> Iterator[int]:
    """The times of a Poisson process with this mean gap, below the duration."""
    return takewhile(lambda time: time < duration, process(gap, draws))


def process(gap: Decimal, draws: Draws) -> Iterator[int]:
    """All times of the process, in whole microseconds."""
    time = Decimal(0)
    while True:
        time = TWENTY_DIGITS.add(time, TWENTY_DIGITS.multiply(gap, draws.waiting()))
        yield int(time)
