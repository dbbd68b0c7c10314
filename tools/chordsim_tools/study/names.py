"""What pages call the numbers of a setting: each has one name, and its unit. One of a span is as `outage.p99_ms`."""

from chordsim_tools.study.goal import SHARES

NAMES = {
    "rings_lost": "rings lost an hour", "served": "served", "right_of_begun": "right of begun",
    "defensible": "defensible", "given_up": "given up", "cut_off": "cut off", "p50_ms": "p50", "p90_ms": "p90",
    "p99_ms": "p99", "p999_ms": "p99.9", "mean_ms": "mean time", "hops": "hops a lookup",
    "timeouts": "timeouts a lookup", "members": "members", "messages": "messages", "upkeep": "upkeep",
    "events": "events", "bytes": "bytes",
}
"""The names, in the order of the columns of a page."""
PERCENT = (*SHARES, "cut_off", "members")
WILD = ("served", "members")
"""Shares that few worlds can move far: a world whose ring dies, or half dies, has 30 % where the others have 99 %."""
TIMES = ("p50_ms", "p90_ms", "p99_ms", "p999_ms")
MILLISECONDS = (*TIMES, "mean_ms")
RATES = ("messages", "upkeep", "events", "bytes")
COUNTS = ("hops", "timeouts")
"""Numbers that have no unit."""
RATE = "/member/s"
"""The unit of rates in headers."""


def base_of(number: str) -> str:
    """A number without the span that it is of."""
    return number.rpartition(".")[2]


def span_of(number: str) -> str:
    """The span that a number is of; none if it is of the span from the warm-up to the cool-down."""
    return number.rpartition(".")[0]


def name_of(number: str) -> str:
    """The name of a number, with its span."""
    span = span_of(number)
    return NAMES[base_of(number)] + (f" in {span}" if span else "")


def is_wild(number: str) -> bool:
    """Whether few worlds can move the mean of a number far."""
    return base_of(number) in WILD


def is_percent(number: str) -> bool:
    """Whether a number is written in percent."""
    return base_of(number) in PERCENT


def in_words(number: str) -> str:
    """A number as sentences name it: rates with their unit."""
    return name_of(number) + (" per member and second" if number in RATES else "")


def header(number: str) -> str:
    """The header of a number's column: its name and its unit. A column of a span is in a table of the span."""
    base = base_of(number)
    if base in RATES:
        return f"{NAMES[base]} {RATE}"
    units = {**dict.fromkeys(PERCENT, ", %"), **dict.fromkeys(MILLISECONDS, ", ms")}
    return NAMES[base] + units.get(base, "")


def difference_header(number: str) -> str:
    """The header of the differences from the best setting. Those of rates have the unit of the rate's own column."""
    base = base_of(number)
    units = {**dict.fromkeys(PERCENT, ", points"), **dict.fromkeys(MILLISECONDS, ", ms")}
    return f"{name_of(number)} less best" + units.get(base, "")
