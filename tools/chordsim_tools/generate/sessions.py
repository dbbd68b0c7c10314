"""A churn trace: a file that says when each host was up."""

import re
from collections.abc import Iterable

from chordsim_tools.cli import Refused
from chordsim_tools.files import read_input
from chordsim_tools.generate.hosts import Host, Span, name_of_group
from chordsim_tools.quantities import decimal_of, time_of, time_text
from chordsim_tools.scenario.tables import GREATEST_SIZE, rows_of

SECOND = 1_000_000
HEADING = ("host", "up", "down")
WANTED = (
    'HOST,UP,DOWN: a name of at most 32 letters, digits, ".", "_" or "-" (not audit), and times of at most 1000000s'
)
FOREVER = 1 << 62
"""The end of a session that does not end."""
MOST = 10**12


def read_sessions(file: str) -> list[Host]:
    """The hosts of a churn trace, in the order in which it first names them, each with its sessions in order."""
    sessions: dict[str, list[tuple[Span, int]]] = {}
    for row in rows_of(read_input(file, GREATEST_SIZE)):
        fields = [field.strip() for field in row.fields]
        if not any(fields) or fields[0].startswith("#") or (row.line == 1 and tuple(fields) == HEADING):
            continue
        sessions.setdefault(fields[0], []).append((session_of(file, row.line, fields), row.line))
    if len(sessions) < 2:
        raise Refused(f"{file}: {len(sessions)} hosts, and a scenario has 2 or more")
    return [host_of(file, name, found) for name, found in sessions.items()]


def session_of(file: str, number: int, fields: list[str]) -> Span:
    """A row: a host, since when it is up, and when it is down; an empty last field is a session that does not end."""
    place = f"{file}: line {number}"
    if len(fields) != 3 or not re.fullmatch(r"[A-Za-z0-9._-]{1,32}", fields[0]) or fields[0] == "audit":
        raise Refused(f"{place} is not {WANTED}")
    up, down = moment_of(fields[1]), moment_of(fields[2]) if fields[2] else FOREVER
    if up is None or down is None:
        raise Refused(f"{place} is not {WANTED}, in seconds or with a unit as 90s or 2h")
    if up >= down:
        raise Refused(f"{place}: {fields[0]} is down at {fields[2]}, which is not after {fields[1]}")
    return up, down


def moment_of(text: str) -> int | None:
    """A time in microseconds. A number without a unit is one of seconds. Nothing if it is none, or too late."""
    plain = decimal_of(text)
    micros = time_of(text) if plain is None else int(plain * SECOND)
    return micros if micros is not None and micros <= MOST else None


def host_of(file: str, name: str, found: list[tuple[Span, int]]) -> Host:
    """A host with its sessions, none of which begins before the one before has ended."""
    found.sort()
    for (earlier, _), (later, number) in zip(found, found[1:]):
        if later[0] <= earlier[1]:
            until = "the end" if earlier[1] == FOREVER else time_text(earlier[1])
            raise Refused(f"{file}: line {number}: {name} is up until {until}, and so cannot come up at "
                          f"{time_text(later[0])}")
    return Host(name, name_of_group(name), sessions=tuple(span for span, _ in found))


def last_time(hosts: Iterable[Host]) -> int:
    """The last time that a churn trace names."""
    times = (time for host in hosts for session in host.sessions or () for time in session if time != FOREVER)
    return max(times)
