"""Outages: nodes that crash together at a time, and are back later if they are back at all."""

import re
from collections.abc import Sequence
from dataclasses import dataclass
from decimal import Decimal
from typing import NamedTuple

from chordsim_tools.draws import Draws
from chordsim_tools.generate.hosts import Host, Span
from chordsim_tools.quantities import decimal_of, span_of, time_of, time_text

STREAM = 9
"""Which stream of a seed outages are drawn from."""
OUTAGES = "SHARE%@TIME, GROUP@TIME or GROUP:SHARE%@TIME, as 25%@360s or eu@6m, SHARE above 0 and at most 100"
BACKS = "a time or a span MIN..MAX, above 0us"


class Life(NamedTuple):
    """A time from which on a node is up, and the time at which it is up no longer: it leaves or crashes then."""

    begin: int
    end: int
    leaves: bool = False


@dataclass(frozen=True)
class Outage:
    """Which nodes crash: a share of those that are up, or all of a group, or such a share of a group; and when."""

    text: str
    group: str | None
    share: Decimal | None
    at_us: int


def outage_of(text: str) -> Outage | None:
    """One of OUTAGES, or nothing."""
    who, _, when = text.partition("@")
    time = time_of(when)
    match = re.fullmatch(r"(?:([A-Za-z0-9._-]{1,31}):)?([0-9.]+)%|([A-Za-z0-9._-]{1,31})", who)
    if match is None or time is None:
        return None
    if match[2] is None:
        return Outage(text, match[3], None, time)
    share = decimal_of(match[2])
    return Outage(text, match[1], share, time) if share is not None and 0 < share <= 100 else None


def back_of(text: str) -> Span | None:
    """How much later nodes are back: a time or a span, or nothing."""
    time = time_of(text)
    ends = span_of(text) if time is None else (time, time)
    return ends if ends is not None and ends[0] > 0 else None


def struck(
    hosts: Sequence[Host], lives: list[list[Life]], outages: Sequence[Outage], back: Span | None, seed: int
) -> list[str]:
    """Cuts outages out of the lives of nodes, and returns a line for each of what it did."""
    streams = Draws(seed).split(STREAM)[-1].split(len(outages))
    ordered = sorted(zip(outages, streams, strict=True), key=lambda pair: pair[0].at_us)
    return [strike(hosts, lives, outage, back, draws) for outage, draws in ordered]


def strike(
    hosts: Sequence[Host], lives: list[list[Life]], outage: Outage, back: Span | None, draws: Draws
) -> str:
    """One outage: no life of its nodes is within it."""
    nodes = [node for node, host in enumerate(hosts) if outage.group in (None, host.group)]
    up = [node for node in nodes if is_up(lives[node], outage.at_us)]
    if outage.share is not None:
        nodes = up = chosen(up, outage.share, draws)
    returned = 0
    for node in nodes:
        end = None if back is None else outage.at_us + draws.between(*back)
        lives[node] = without(lives[node], outage.at_us, end)
        returned += end is not None and any(life.begin == end for life in lives[node])
    told = f"--crash {outage.text}: {len(up)} nodes crash at {time_text(outage.at_us)}"
    if back is None:
        return f"{told}, for good."
    when = " to ".join(time_text(outage.at_us + end) for end in dict.fromkeys(back))
    return f"{told}, and {returned} join at {when}."


def is_up(lives: Sequence[Life], time: int) -> bool:
    """Whether a node is up just before a time."""
    return any(life.begin < time <= life.end for life in lives)


def chosen(nodes: list[int], share: Decimal, draws: Draws) -> list[int]:
    """A share of the nodes, rounded, in their order. Each choice is equally likely."""
    return draws.choose(nodes, int((share * len(nodes) + 50) // 100))


def without(lives: list[Life], begin: int, end: int | None) -> list[Life]:
    """The lives of a node that crashes and is down in a span. A life that began before or in it goes on behind it."""
    before = [life if life.end < begin else Life(life.begin, begin) for life in lives if life.begin < begin]
    if end is None:
        return before
    return before + [life._replace(begin=max(life.begin, end)) for life in lives if life.end > end]
