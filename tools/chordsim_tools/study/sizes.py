"""The table [sizes]: the bytes of a message of each kind, as numbers or as formulas of the scenario's keys."""

import math
from collections.abc import Mapping
from pathlib import Path
from typing import Any

from chordsim_tools.cli import Refused
from chordsim_tools.messages import MESSAGES
from chordsim_tools.study.estimates import most_off
from chordsim_tools.study.formula import ALLOWED, BadFormula, value_of

Sizes = dict[str, int | str]
LEAVE = "leave"
NEEDED = tuple(kind for kind in MESSAGES if kind != LEAVE)
"""The kinds that need a size in each study. A study in which no node leaves may do without that of a leave."""
LEAST_KEYS = {"list": 1, "bits": 3}
"""The least values of the keys that formulas name. They are as good as any to read a formula with."""


def sizes_of(path: Path, table: Any) -> Sizes:
    """The table of a study file: empty, or a size of each kind; `check_leaves` sees to that of a leave."""
    if not isinstance(table, dict) or (table and set(table) - {LEAVE} != set(NEEDED)):
        told = f"{', '.join(NEEDED)}, and {LEAVE} if nodes leave"
        raise Refused(f"{path}: [sizes] has to give the bytes of a message of each kind: {told}")
    for kind, size in table.items():
        check_size(path, kind, size)
    return dict(table)


def check_size(path: Path, kind: str, size: Any) -> None:
    """Fails if a size is none, and says what is allowed."""
    if isinstance(size, bool) or not isinstance(size, int | str) or (isinstance(size, int) and size < 0):
        wanted = 'a number of bytes, 0 or more, or a formula as "40 + 20 * list"'
        raise Refused(f"{path}: [sizes] {kind} has to be {wanted}")
    if isinstance(size, str):
        try:
            value_of(size, LEAST_KEYS)
        except BadFormula as fault:
            raise Refused(f"{path}: [sizes] {kind} = {size!r}: {fault}; allowed are {ALLOWED}") from None


def size_of(size: int | str, values: Mapping[str, int]) -> int:
    """A size in a run with these keys."""
    return size if isinstance(size, int) else value_of(size, values)


def check_not_negative(path: Path, sizes: Sizes, top: Mapping[str, Any]) -> None:
    """Fails if a size is below 0 in a scenario."""
    values = {key: int(top[key]) for key in LEAST_KEYS}
    for kind, size in sizes.items():
        if size_of(size, values) < 0:
            where = " and ".join(f"{key} = {value}" for key, value in values.items())
            raise Refused(f"{path}: [sizes] {kind} = {size!r} is below 0 with {where}")


def check_leaves(path: Path, sizes: Sizes, top: Mapping[str, Any]) -> None:
    """Fails if nodes of a scenario leave, and sizes have none of a leave."""
    by_command = any(one["do"] == "leave" for one in top.get("command", []))
    by_itself = top.get("churn", {}).get("leave_ppm", 0) > 0
    if sizes and LEAVE not in sizes and (by_command or by_itself):
        raise Refused(f"{path}: [sizes] {LEAVE} is required: the bytes of a message of this kind, since nodes leave")


def sizes_in(sizes: Sizes, numbers: Mapping[str, Any]) -> dict[str, int]:
    """The sizes in a run with these numbers."""
    # Older tables do not have these two, and their sizes are numbers.
    values = {key: int(numbers.get(f"scenario-{key}", 0)) for key in LEAST_KEYS}
    return {kind: size_of(size, values) for kind, size in sizes.items()}


def bytes_of(sizes: Sizes, numbers: Mapping[str, Any]) -> int:
    """The bytes of a run with these numbers."""
    # Older tables do not have the leaves, of which their runs have none.
    return sum(size * int(numbers.get(f"sent-{kind}", 0)) for kind, size in sizes_in(sizes, numbers).items())


def bytes_error(sizes: Sizes, numbers: Mapping[str, Any]) -> int:
    """How far the bytes of a run are off at most whose messages are estimated."""
    return math.ceil(int(numbers["messages"]) * most_off(sizes_in(sizes, numbers)))
