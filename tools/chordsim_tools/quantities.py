"""How numbers, times and spans are written in the arguments of commands."""

import re
from decimal import Decimal

UNITS = {"us": 1, "ms": 1000, "s": 1_000_000, "m": 60_000_000, "h": 3_600_000_000, "d": 86_400_000_000}
"""The units of times, in microseconds."""
UNIT_NAMES = "us, ms, s, m, h or d"
BILLION = 1_000_000_000


def whole_of(text: str) -> int | None:
    """A whole number of at most 19 decimal digits, or nothing."""
    return int(text) if re.fullmatch(r"[0-9]{1,19}", text) else None


def integer_of(text: str) -> int | None:
    """A whole number, which may be negative or of thousands of digits, or nothing."""
    return int(text) if re.fullmatch(r"-?[0-9]{1,4000}", text) else None


def decimal_of(text: str) -> Decimal | None:
    """A number of at most nine digits before and after its point, or nothing."""
    return Decimal(text) if re.fullmatch(r"[0-9]{1,9}(\.[0-9]{1,9})?", text) else None


def time_of(text: str) -> int | None:
    """A time in microseconds: 250us, 20ms, 1.5s, 10m, 2h, 1d or plain ones; nothing if that is no whole number."""
    match = re.fullmatch(r"([0-9]{1,15})(?:\.([0-9]{1,9}))?(us|ms|s|m|h|d)?", text)
    if match is None:
        return None
    whole, part, unit = match.groups(default="")
    micros, rest = divmod(int(whole + part) * UNITS[unit or "us"], 10 ** len(part))
    return micros if rest == 0 else None


def span_of(text: str) -> tuple[int, int] | None:
    """A span MIN..MAX of two times, or nothing if it is none or goes down."""
    # A point stands before a digit in a time, so that two points side by side are the sign of a span.
    ends = [time_of(end) for end in text.split("..")]
    if len(ends) != 2 or ends[0] is None or ends[1] is None or ends[0] > ends[1]:
        return None
    return ends[0], ends[1]


def time_text(micros: int) -> str:
    """A time in the greatest unit up to seconds that makes it a whole number."""
    for unit in ("s", "ms"):
        if micros != 0 and micros % UNITS[unit] == 0:
            return f"{micros // UNITS[unit]}{unit}"
    return f"{micros}us"
