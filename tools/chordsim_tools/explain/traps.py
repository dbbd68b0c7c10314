"""Traps: what the program accepts and a user hardly means. A trap is told in one line, and changes no status."""

import math
import subprocess
import tempfile
from dataclasses import dataclass
from pathlib import Path
from typing import Any

from chordsim_tools.cli import say
from chordsim_tools.explain.world_traps import world_traps
from chordsim_tools.known import known
from chordsim_tools.program import environment
from chordsim_tools.quantities import time_text
from chordsim_tools.scenario import coordinates
from chordsim_tools.scenario.classes import expanded, node_count, node_places, node_sections
from chordsim_tools.scenario.defaults import check_us, is_extended
from chordsim_tools.scenario.reading import jitters_of
from chordsim_tools.scenario.tables import EXTENDED, PROFILES, rows_of
from chordsim_tools.study.document import toml_text

MOST_EVENTS = 50_000_000
LEAST_SPAN = 6_000_000
"""A run that is cut short for an estimate has at least this much of simulated time, in microseconds."""
ENOUGH_PERIODS = 4
PATIENCE = 20
"""How many seconds a run that is cut short may take."""
MARGIN = 5
"""By how much the timers alone may be off: where they say less than a fifth of `max_events`, no program is run."""
PERIODS = (
    ("stabilize_us", "no node stabilizes"), ("finger_us", "no finger is refreshed"), ("audit_us", "there is no audit"),
    ("check_us", "no predecessor is checked"), ("join_pause_us", "no join is tried again"),
)
WAITS = (("churn", "life_min_us", "no life ends"), ("lookups", "gap_min_us", "no node looks up a random key"))
"""Tables and their keys: how long it takes at least until something happens for the first time."""
DRAWN = {
    "stabilize_us": "some nodes never stabilize", "finger_us": "some nodes refresh no finger",
    "check_us": "some nodes never check their predecessor", "gap_min_us": "some nodes look up no random key",
}
"""What is so instead if the first timers of nodes come at any time of their period."""


def warn(traps: list[str]) -> None:
    """A line for each trap on standard error."""
    for trap in traps:
        say(f"warning: {trap}\n")


def greatest_latency(top: dict[str, Any], latency: bytes) -> int:
    """The greatest latency of two nodes, with the spread."""
    if "x_us" in node_sections(top)[0]:
        nodes = [known(place) for place in node_places(top, alike=2)]
        return coordinates.greatest_latency(nodes) + int(top.get("spread_us", 0))
    rows = rows_of(latency)
    count = node_count(top)
    default = top["latency_us"] if len(rows) < count * (count - 1) // 2 else 0
    return int(max([default, *(int(row.fields[2]) for row in rows)]) + top.get("spread_us", 0))


def traps_of(top: dict[str, Any], greatest: int) -> list[str]:
    """The traps of a scenario that is accepted, with this greatest latency."""
    of_timeouts = timeout_trap(top["timeout_us"], greatest, top.get("retries", 0))
    return [*of_timeouts, *duration_traps(top), *world_traps(expanded(top, is_drawn=False))]


def timeout_trap(timeout: int, greatest: int, retries: int = 0) -> list[str]:
    """A timeout that is below a round trip. With retries a call may last for several timeouts."""
    trip = 2 * greatest
    if timeout >= trip:
        return []
    is_late = timeout * (1 + retries) < trip
    return [
        f"timeout_us = {timeout} ({time_text(timeout)}) is below the greatest round trip, {trip} ({time_text(trip)}): "
        + ("calls between such nodes always time out" if is_late else "calls between such nodes are always sent again")
    ]


def duration_traps(top: dict[str, Any]) -> list[str]:
    """A duration that is below the periods, or below the least lives and gaps."""
    duration = top["duration_us"]
    drawn = DRAWN if is_extended(top) and top.get("random_start") is not False else {}
    periods = [(key, key, top.get(key, 0), what) for key, what in PERIODS]
    waits = [(f"{table}.{key}", key, top.get(table, {}).get(key, 0), what) for table, key, what in WAITS]
    short = [
        f"{name} = {value} ({drawn.get(key, what)})"
        for name, key, value, what in (*periods, *waits) if duration < value
    ]
    if not short:
        return []
    said = ", ".join(short)
    return [f"duration_us = {duration} ({time_text(duration)}) is below {said}; all times are in microseconds"]


def timer_events(top: dict[str, Any]) -> float:
    """How many events the timers of the nodes make, roughly, with the messages that follow from them."""
    lookups = top.get("lookups") or {}
    gap = (lookups.get("gap_min_us", 0) + lookups.get("gap_max_us", 0)) / 2
    nodes = node_count(top)
    way = 2 + 2 * math.log2(nodes)
    jitters = jitters_of(top)
    rate = 8 / (top["stabilize_us"] + jitters.stabilize_us / 2) + way / (top["finger_us"] + jitters.finger_us / 2)
    rate += way / gap if gap else 0
    rate += 4 / (check_us(top) + jitters.check_us / 2) if check_us(top) else 0
    return float(nodes * top["duration_us"] * rate + (way + 4) * len(top.get("command", [])))


def most_events(top: dict[str, Any]) -> int:
    """How many events a run may have."""
    return int(top.get("max_events", MOST_EVENTS))


@dataclass(frozen=True)
class Need:
    """About how many events a run needs, and how that is known."""

    events: int
    told: str


def events_needed(program: Path, top: dict[str, Any], latency: bytes) -> Need | None:
    """What a run needs, by two runs of its first seconds, or by its timers if these take too long.

    Nothing if the timers alone come nowhere near to the limit, or if the run itself is not longer than such a run."""
    duration, jitters = int(top["duration_us"]), jitters_of(top)
    longest = max(top["stabilize_us"] + jitters.stabilize_us, top["finger_us"] + jitters.finger_us)
    span = max(LEAST_SPAN, ENOUGH_PERIODS * longest)
    if MARGIN * timer_events(top) < most_events(top) or span >= duration:
        return None
    # A run begins quietly, so that the second half of what is tried stands for the rest.
    try:
        half, whole = (events_until(program, top, latency, time) for time in (span // 2, span))
    except subprocess.TimeoutExpired:
        return Need(round(timer_events(top)), f"by its timers alone: its first {time_text(span)} take too long to try")
    if half is None or whole is None:
        return None
    told = f"tried: its first {time_text(span // 2)} have {half} and its first {time_text(span)} {whole}, and so on"
    return Need(half + (whole - half) * (duration - span // 2) // (span - span // 2), told)


def events_trap(program: Path, top: dict[str, Any], latency: bytes) -> list[str]:
    """A `max_events` below what the run is likely to need."""
    need = events_needed(program, top, latency)
    return [] if need is None or need.events <= most_events(top) else [events_told(top, need)]


def events_told(top: dict[str, Any], need: Need) -> str:
    """That a run is likely to need more events than it may have, and that profile 4 allows more, if it alone does."""
    greatest = EXTENDED.greatest("max_events")
    is_beyond = PROFILES[top["profile"]].greatest("max_events") < need.events <= greatest
    return (
        f"max_events = {most_events(top)}, and the run is likely to need about {rounded(need.events)} ({need.told}): "
        "it would end with `3 TooManyEvents`, without a report"
        + (f"; profile 4 allows up to {greatest}" if is_beyond else "")
    )


def rounded(count: int) -> str:
    """A number with two digits."""
    return f"{float(f'{count:.1e}'):,.0f}"


def events_until(program: Path, top: dict[str, Any], latency: bytes, span: int) -> int | None:
    """The events of a run that ends at this time, if it does not fail. TimeoutExpired if it takes too long."""
    commands = [command for command in top.get("command", []) if command["at_us"] < span]
    most = PROFILES[top["profile"]].greatest("max_events")
    cut = {**top, "duration_us": span, "audit_us": max(top["audit_us"], span // 10), "max_events": most}
    if "command" in top:
        cut["command"] = commands
    with tempfile.TemporaryDirectory() as folder:
        scenario, rows = Path(folder) / "cut.toml", Path(folder) / "latency.csv"
        scenario.write_text(toml_text(cut), encoding="utf-8")
        rows.write_bytes(latency)
        words = [str(program), "run", "--serial", "--scenario", str(scenario), "--latency", str(rows)]
        return counted([*words, "--trace", "/dev/null"])


def counted(command: list[str]) -> int | None:
    """The number of events that a run reports."""
    try:
        done = subprocess.run(
            command, env=environment(), capture_output=True, text=True, timeout=PATIENCE, check=False
        )
    except OSError:
        return None
    found = dict(line.split(" ", 1) for line in done.stdout.splitlines() if " " in line)
    return int(found["events"]) if done.returncode == 0 and found.get("events", "").isdecimal() else None
