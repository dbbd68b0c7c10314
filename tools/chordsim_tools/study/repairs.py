"""How many stabilizations members begin, by the round trips to their successors: for profiles without lines of detail.

A timer comes once a period. A member whose last stabilization still waits for a reply lets it pass, so a round trip of
two and a half periods costs two turns."""

import math
from bisect import bisect_left, insort
from collections import Counter
from dataclasses import dataclass
from statistics import NormalDist
from typing import Any

from chordsim_tools.members import Members
from chordsim_tools.study.latencies import Latencies

PARTS = 9
"""A spread of latencies is taken as so many values that are equally likely."""


def spreads(most: int) -> list[float]:
    """What the spreads of a request and its reply add, as values that are equally likely."""
    if most == 0:
        return [0.0]
    shares = [(part + 0.5) / PARTS for part in range(PARTS)]
    return [
        most * math.sqrt(2 * share) if share <= 0.5 else most * (2 - math.sqrt(2 - 2 * share)) for share in shares
    ]


def below(limit: float, count: int, width: int) -> float:
    """The probability that so many numbers, each alike between 0 and the width, have a sum below a limit."""
    if limit <= 0 or limit >= count * width:
        return float(limit > 0)
    if count == 1:
        return limit / width
    if count == 2:
        share = limit / width
        return share * share / 2 if share <= 1 else 1 - (2 - share) ** 2 / 2
    return NormalDist(count * width / 2, width * math.sqrt(count / 12)).cdf(limit)


@dataclass(frozen=True)
class Period:
    """The delay of a timer: of `least` to `least` plus `jitter`."""

    least: int
    jitter: int

    def mean(self) -> float:
        """The mean delay."""
        return self.least + self.jitter / 2

    def passed(self, wait: float, is_first: bool) -> float:
        """How many times the timer comes during a wait that begins as it comes; at its end too, if it comes first."""
        turns = range(1, int(wait // self.least) + 1)
        at_the_end = is_first and self.jitter == 0 and wait >= self.least and wait % self.least == 0
        return at_the_end + math.fsum(below(wait - turn * self.least, turn, self.jitter) for turn in turns)


class Repairs:
    """The stabilizations of a run without messages that are lost or dropped."""

    def __init__(self, top: dict[str, Any], latencies: Latencies) -> None:
        """Those of a scenario with these latencies."""
        self.period = Period(int(top["stabilize_us"]), int(top.get("jitter_us", 0)))
        self.latencies = latencies
        self.spreads = spreads(int(top.get("spread_us", 0)))
        self.timeout = int(top["timeout_us"])
        self.places = {node["name"]: place for place, node in enumerate(top["node"])}
        self.known: dict[tuple[int, bool], float] = {}
        self.seen: Counter[tuple[int, bool]] = Counter()

    def rate(self, first: str, second: str) -> float:
        """How many a member begins in a microsecond that has this successor.

        Of two events of one time the one comes first that was made by the node that is listed first."""
        kind = 2 * self.latencies.between(first, second), self.places[first] < self.places[second]
        self.seen[kind] += 1
        if kind not in self.known:
            self.known[kind] = 1 / (self.period.mean() * (1 + self.passed(*kind)))
        return self.known[kind]

    def passed(self, trip: int, is_first: bool) -> float:
        """How many turns pass while a call is out, on average over the spreads."""
        return math.fsum(self.period.passed(trip + more, is_first) for more in self.spreads) / len(self.spreads)

    def skipped(self) -> tuple[float, float]:
        """How many turns a stabilization skips more if a call of it has no reply and the next one has, and if it asks
        for a list too: on average over the round trips that were seen."""
        without, with_list = 0.0, 0.0
        for (trip, is_first), count in self.seen.items():
            usual = self.passed(trip, is_first)
            without += count * (self.passed(self.timeout + trip, is_first) - usual)
            with_list += count * (self.passed(2 * trip, is_first) - usual)
        seen = max(1, self.seen.total())
        return without / seen, with_list / seen

    def around(self, members: Members, ring: list[int], place: int) -> float:
        """The rates of the member at a place and of the one before it; if there is none at the place, of this alone."""
        if not ring:
            return 0.0
        at = bisect_left(ring, place) % len(ring)
        numbers = {at - 1, at} if ring[at] == place and len(ring) > 1 else {at - 1}
        return math.fsum(
            self.rate(members.names[ring[number]], members.names[ring[(number + 1) % len(ring)]]) for number in numbers
        )

    def begun(self, members: Members, begin: int, end: int) -> float:
        """How many all members begin from one time to another."""
        ring: list[int] = []
        starts = [(0, (place, 1)) for place in members.marks[0][1]]
        total, rates, since = 0.0, 0.0, begin
        for time, (place, sign) in [*starts, *zip(members.times, members.changes, strict=True), (end, (0, 0))]:
            total += rates * max(0, min(time, end) - since)
            since = max(since, time)
            before = self.around(members, ring, place)
            if sign > 0:
                insort(ring, place)
            elif sign < 0:
                ring.remove(place)
            rates += self.around(members, ring, place) - before if sign else 0.0
        return total
