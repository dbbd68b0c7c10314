"""What a study is for: [goal] names what a setting has to reach, [precision] how narrow an interval has to be."""

import math
from dataclasses import dataclass
from pathlib import Path
from typing import Any

from chordsim_tools.cli import Refused
from chordsim_tools.explain.hints import close_to
from chordsim_tools.quantities import UNIT_NAMES, time_of

SHARES = ("served", "right_of_begun", "defensible", "given_up")
OF_SPANS = (*SHARES, "members", "p50_ms", "p90_ms", "p99_ms", "p999_ms", "mean_ms", "hops", "timeouts")
"""The numbers of a setting that a goal of a span may name."""
NUMBERS = (*OF_SPANS, "messages", "upkeep", "events", "bytes")
"""The numbers of a setting that a goal or a comparison may name."""
NEEDS_SIZES = "needs [sizes]: the bytes of a message of each kind"


@dataclass(frozen=True)
class Limit:
    """A number that has to be at least, or at most, so much."""

    number: str
    is_least: bool
    value: float


@dataclass(frozen=True)
class Goal:
    """The limits, the greatest rate of rings lost an hour, and the number that is to be least."""

    limits: tuple[Limit, ...]
    lost_max: float | None
    least: str


@dataclass(frozen=True)
class Precision:
    """Seeds are run until the interval of a number is at most this wide to each side."""

    number: str
    half: float
    least_seeds: int
    most_seeds: int


def is_number(value: Any) -> bool:
    """Whether a value is a number. `nan` and `inf`, which TOML has too, are none."""
    return isinstance(value, int | float) and not isinstance(value, bool) and math.isfinite(value)


def goal_of(path: Path, table: Any, has_sizes: bool = False) -> Goal | None:
    """The table [goal]: NUMBER_min or NUMBER_max for any number, lost_max and least."""
    if table is None:
        return None
    if not isinstance(table, dict):
        raise Refused(f"{path}: goal has to be a table")
    keys = [key for key in table if key not in ("least", "lost_max")]
    limits = tuple(limit_of(f"{path}: [goal]", key, table[key]) for key in keys)
    least, lost = table.get("least", "messages"), table.get("lost_max")
    if least not in NUMBERS:
        raise Refused(f"{path}: [goal] least has to be one of {', '.join(NUMBERS)}")
    if "bytes" in (least, *(limit.number for limit in limits)) and not has_sizes:
        raise Refused(f"{path}: [goal] bytes {NEEDS_SIZES}")
    if lost is not None and (not is_number(lost) or lost <= 0):
        raise Refused(f"{path}: [goal] lost_max has to be a number of rings lost an hour, above 0")
    return Goal(limits, lost, least)


def goal_again(table: dict[str, Any] | None) -> Goal | None:
    """The goal as a manifest keeps it."""
    if table is None:
        return None
    return Goal(tuple(Limit(**limit) for limit in table["limits"]), table["lost_max"], table["least"])


def limit_of(place: str, key: str, value: Any, numbers: tuple[str, ...] = NUMBERS) -> Limit:
    """A limit of a goal. The place is the file and the table, as messages name them."""
    number, _, end = key.rpartition("_")
    if number not in numbers or end not in ("min", "max"):
        meant = meant_by(key, numbers)
        hint = "" if meant is None else f"; did you mean `{meant}`?"
        raise Refused(f"{place} {key}: NUMBER_min or NUMBER_max and a number, of {', '.join(numbers)}{hint}")
    if is_number(value) and value < 0:
        raise Refused(f"{place} {key} has to be 0 or more, not {value!r}")
    if number.endswith("_ms"):
        return Limit(number, end == "min", milliseconds_of(place, key, value))
    if not is_number(value):
        raise Refused(f"{place} {key} has to be a number, not {value!r}")
    if number in (*SHARES, "members") and not 0 <= value <= 1:
        hint = f": {value / 100:g} for {value:g} %" if 1 < value <= 100 else ""
        raise Refused(f"{place} {key} has to be a share, 0 to 1{hint}")
    return Limit(number, end == "min", float(value))


def meant_by(key: str, numbers: tuple[str, ...]) -> str | None:
    """The limit that was likely meant by a key that is none."""
    number, _, end = key.rpartition("_")
    if f"{number}_ms" in numbers:
        return f"{number}_ms_{end}"
    if key == "p99":
        # The key p99.9_ms_max of TOML is a table p99 with the key 9_ms_max.
        return "p999_ms_max"
    return close_to(key, [f"{one}_{end}" for one in numbers for end in ("min", "max")])


def milliseconds_of(place: str, key: str, value: Any) -> float:
    """A limit of a time: a number of milliseconds, or a time with a unit."""
    if is_number(value):
        return float(value)
    micros = time_of(value) if isinstance(value, str) and not value[-1:].isdecimal() else None
    if micros is None:
        raise Refused(f'{place} {key} has to be a number of milliseconds, or a time such as "800ms" ({UNIT_NAMES})')
    return micros / 1000


def precision_of(path: Path, table: Any, has_sizes: bool = False) -> Precision | None:
    """The table [precision]: one number and its half width, least_seeds and most_seeds."""
    if table is None:
        return None
    if not isinstance(table, dict):
        raise Refused(f"{path}: precision has to be a table")
    least, most = table.get("least_seeds", 10), table.get("most_seeds", 200)
    rest = {key: value for key, value in table.items() if key not in ("least_seeds", "most_seeds")}
    are_above_0 = all(is_number(half) and half > 0 for half in rest.values())
    if len(rest) != 1 or not set(rest) <= set(NUMBERS) or not are_above_0:
        raise Refused(f"{path}: [precision] has to name one number and half the width of its interval, above 0")
    if "bytes" in rest and not has_sizes:
        raise Refused(f"{path}: [precision] bytes {NEEDS_SIZES}")
    if not all(isinstance(count, int) for count in (least, most)) or not 5 <= least <= most <= 10_000:
        raise Refused(f"{path}: [precision] least_seeds and most_seeds have to be integers, 5 or more")
    [(number, half)] = rest.items()
    return Precision(number, float(half), least, most)


def precision_again(table: dict[str, Any] | None) -> Precision | None:
    """The precision as a manifest keeps it."""
    return None if table is None else Precision(**table)
