"""Measured round trips: their files, the hosts that are chosen, and the latencies that come of them."""

import math
import re
from array import array
from collections.abc import Iterator
from dataclasses import dataclass
from decimal import Decimal
from itertools import combinations
from statistics import median_low

from chordsim_tools.cli import Progress, Refused
from chordsim_tools.draws import Draws
from chordsim_tools.files import reason

GREATEST_HOSTS = 5000
GREATEST_TRIP = 2_000_000_000_000
"""The longest round trip in nanoseconds: half of it is the greatest latency of a latency file."""
UNITS = {"us": 1000, "ms": 1_000_000, "s": 1_000_000_000}
"""The units of round trips, in nanoseconds."""
VALUE = re.compile(r"-?[0-9]{1,20}(\.[0-9]{1,30})?([eE][+-]?[0-9]{1,2})?")


@dataclass
class RoundTrips:
    """Round trips in nanoseconds, a row for each host; 0 is a gap. Hosts are called as in the file."""

    file: str
    hosts: list[str]
    rows: list["array[int]"]

    def doubled(self, a: int, b: int) -> int:
        """The sum of both directions, twice the one that is there, or 0."""
        there, back = self.rows[a][b], self.rows[b][a]
        return there + back if there and back else 2 * (there + back)


def lines_of(file: str) -> Iterator[tuple[int, list[str]]]:
    """The numbers of the lines and their values. Empty lines, and those that begin with #, are skipped."""
    try:
        with open(file, encoding="utf-8-sig") as lines:
            for number, line in enumerate(lines, start=1):
                if line.strip() and not line.startswith("#"):
                    yield number, [value.strip() for value in line.split(",")] if "," in line else line.split()
    except OSError as fault:
        raise Refused(f"cannot read {file}: {reason(fault)}") from None
    except UnicodeDecodeError:
        raise Refused(f"{file}: no UTF-8 text") from None


def trips_of(texts: list[str], unit: int, place: str) -> "array[int]":
    """Round trips in nanoseconds, rounded up; 0 for each gap."""
    try:
        return array("q", [0 if text in ("", "-1", "0") else trip_of(text, unit) for text in texts])
    except Refused as fault:
        raise Refused(f"{place}: {fault}") from None


def trip_of(text: str, unit: int) -> int:
    """A round trip in nanoseconds, rounded up; 0 for a gap that is written with a point."""
    if not VALUE.fullmatch(text):
        raise Refused(f"{text!r} is no number")
    value = Decimal(text)
    if not (value == -1 or 0 <= value * unit <= GREATEST_TRIP):
        raise Refused(f"{text} is no round trip of at most 2000 seconds, and no gap")
    return max(0, math.ceil(value * unit))


def read_matrix(file: str, unit: int) -> RoundTrips:
    """A square matrix, one row a line. Hosts are called by their rows, from 1."""
    rows: list["array[int]"] = []
    with Progress(f"rows of {file}") as progress:
        for number, values in lines_of(file):
            width = len(rows[0]) if rows else len(values)
            if len(values) != width:
                raise Refused(f"{file}: line {number}: {len(values)} values, where the first row has {width}")
            check_hosts(file, width)
            rows.append(trips_of(values, unit, f"{file}: line {number}"))
            progress.total = width
            progress.one_more()
            if len(rows) > width:
                break
    if not rows:
        raise Refused(f"{file}: there is no round trip")
    if len(rows) != len(rows[0]):
        raise Refused(f"{file}: no square matrix: {len(rows[0])} values in a row, and not as many rows")
    return RoundTrips(file, [str(i + 1) for i in range(len(rows))], rows)


def check_hosts(file: str, count: int) -> None:
    """Refuses more hosts than there is room for."""
    if count > GREATEST_HOSTS:
        raise Refused(f"{file}: more than {GREATEST_HOSTS} hosts")


def read_lines(file: str, unit: int) -> RoundTrips:
    """Lines `i j us`. Hosts are called by their numbers, in the order of these."""
    trips = trips_of_lines(file, unit)
    if not trips:
        raise Refused(f"{file}: there is no round trip")
    hosts = sorted({host for pair in trips for host in pair})
    check_hosts(file, len(hosts))
    places = {host: place for place, host in enumerate(hosts)}
    rows = [array("q", [0]) * len(hosts) for _ in hosts]
    for (a, b), trip in trips.items():
        rows[places[a]][places[b]] = trip
    return RoundTrips(file, [str(host) for host in hosts], rows)


def trips_of_lines(file: str, unit: int) -> dict[tuple[int, int], int]:
    """The round trips of lines `i j us`, by the numbers of their hosts."""
    trips: dict[tuple[int, int], int] = {}
    for number, values in lines_of(file):
        place = f"{file}: line {number}"
        if len(values) != 3 or not all(re.fullmatch(r"[0-9]{1,9}", host) for host in values[:2]):
            raise Refused(f"{place}: not two numbers of hosts and a round trip")
        pair = int(values[0]), int(values[1])
        if pair in trips:
            raise Refused(f"{place}: the round trip from {pair[0]} to {pair[1]} stands there twice")
        trips[pair] = trips_of(values[2:], unit, place)[0]
    return trips


def gaps_of(trips: RoundTrips) -> list[int]:
    """For each host the number of others with which no round trip was measured in either direction."""
    count, rows = len(trips.hosts), trips.rows
    gaps = [0] * count
    for a, b in combinations(range(count), 2):
        if not rows[a][b] and not rows[b][a]:
            gaps[a] += 1
            gaps[b] += 1
    return gaps


def choose(gaps: list[int], count: int, draws: Draws) -> list[int]:
    """`count` hosts, drawn among those that have at most g gaps, for the least g by which they are enough."""
    limit = sorted(gaps)[count - 1]
    return draws.choose((host for host, number in enumerate(gaps) if number <= limit), count)


@dataclass
class Latencies:
    """The latencies a, b, microseconds of all nodes a below b, in this order; and how many of them were filled in.

    If they were measured, also how many hosts the file has."""

    micros: list[tuple[int, int, int]]
    filled: int
    hosts: int = 0


def latencies_of(trips: RoundTrips, count: int, fill: bool, draws: Draws) -> Latencies:
    """Half the mean of the two directions, rounded up; for a gap half the mean of the two hosts' medians."""
    if len(trips.hosts) < count:
        told = "1 host" if len(trips.hosts) == 1 else f"{len(trips.hosts)} hosts"
        raise Refused(f"{trips.file}: {told}, fewer than the {count} nodes")
    hosts = choose(gaps_of(trips), count, draws)
    sums = [[trips.doubled(a, b) for b in hosts] for a in hosts]
    gaps = [(a, b) for a, b in combinations(range(count), 2) if sums[a][b] == 0]
    if gaps and not fill:
        a, b = gaps[0]
        names = f"{trips.hosts[hosts[a]]} and {trips.hosts[hosts[b]]}"
        raise Refused(f"{trips.file}: gaps among the chosen hosts: {len(gaps)}, the first between the hosts {names}")
    measured = [[sums[a][b] for b in range(count) if b != a and sums[a][b]] for a in range(count)]
    medians = [median_low(known or [0]) for known in measured]
    lone = next((host for pair in gaps for host in pair if medians[host] == 0), None)
    if lone is not None:
        raise Refused(f"{trips.file}: host {trips.hosts[hosts[lone]]} has no round trip with a chosen host")
    micros = [
        (a, b, -(-sums[a][b] // 4000) or -(-(medians[a] + medians[b]) // 8000))
        for a, b in combinations(range(count), 2)
    ]
    return Latencies(micros, len(gaps), len(trips.hosts))
