"""The values of a study file, read and refused key by key."""

import re
from pathlib import Path
from typing import Any

from chordsim_tools.cli import Refused
from chordsim_tools.explain.hints import close_to, shown
from chordsim_tools.generate.arguments import OPTIONS
from chordsim_tools.place import tool
from chordsim_tools.quantities import UNITS, time_of
from chordsim_tools.scenario.tables import EXTENDED, GREATEST_INTEGER, Key, NotToml, parse_toml

Value = int | str
"""A value that is varied: an integer, or a text: of an option of tools/generate, or `true` or `false`."""
BOOLEANS = {key.name for key in EXTENDED.tables["top"] if key.kind == "boolean"}
"""The keys of a scenario that can be varied and are booleans."""
MOST_SEEDS = 10_000
BEYOND = 1_000_000_000
"""Fresh seeds are the study's own and this number. A study has only seeds below it, so that none is there twice."""
OF_GENERATE = "generate."
COUNT = "nodes.count"
"""The key of [vary] that is how many nodes the only class of a base has."""


def varied_keys() -> set[str]:
    """The keys of a scenario that can be varied, in any profile."""

    def names(keys: list[Key]) -> list[str]:
        """The integers among these keys."""
        return [key.name for key in keys if key.kind == "integer"]

    tables = {f"{table}.{name}" for table in ("churn", "lookups") for name in names(EXTENDED.tables[table])}
    return (set(names(EXTENDED.tables["top"])) | tables | BOOLEANS | {COUNT}) - {"seed"}


def parsed(path: Path, content: bytes) -> dict[str, Any]:
    """The document of a TOML file."""
    try:
        return parse_toml(content)
    except NotToml as fault:
        literal = f": {shown(fault.literal)}" if fault.literal else ""
        raise Refused(f"{path}: no TOML 1.0: {' '.join(fault.reason.split())}{literal}") from None


def is_integer(value: Any) -> bool:
    """Whether a value is an integer (a boolean is none)."""
    return isinstance(value, int) and not isinstance(value, bool)


def text_of(path: Path, top: dict[str, Any], key: str) -> str:
    """A text of the study file that has to be there."""
    value = top.get(key)
    if value is None:
        raise Refused(f"{path}: {key} is required: a text")
    if not isinstance(value, str) or not value.strip():
        raise Refused(f"{path}: {key} has to be a text")
    return value


def micros_of(key: str, value: Any) -> Any:
    """A time with a unit in microseconds; any other value as it is."""
    if not key.endswith("_us") or not isinstance(value, str) or value[-1:].isdecimal():
        return value
    return time_of(value)


def number_of(path: Path, top: dict[str, Any], key: str, least: int, default: Any) -> int:
    """A number of the study file, or what stands for it. Times may be texts with units."""
    value = micros_of(key, top.get(key, default))
    if not is_integer(value) or not least <= value <= GREATEST_INTEGER:
        or_time = f', or a time such as "20s" ({", ".join(UNITS)})' if key.endswith("_us") else ""
        raise Refused(f"{path}: {key} has to be an integer, {least} or more{or_time}")
    return int(value)


def boolean_of(path: Path, top: dict[str, Any], key: str, default: bool) -> bool:
    """A key of the study file that is true or false."""
    value = top.get(key, default)
    if not isinstance(value, bool):
        raise Refused(f"{path}: {key} has to be true or false")
    return value


def arguments_of(path: Path, top: dict[str, Any], key: str) -> list[str]:
    """A list of arguments. The seed and the file are set by the study."""
    value = top[key]
    if not isinstance(value, list) or not all(isinstance(one, str) for one in value):
        raise Refused(f"{path}: {key} has to be a list of arguments, each a text")
    for word in value:
        if word.startswith("--") and " " in word.partition("=")[0]:
            parts = ", ".join(f'"{part}"' for part in word.split())
            raise Refused(f'{path}: {key} has "{word}" as one argument: write {parts}')
        if word.partition("=")[0] in ("--seed", "-o", "--random", "--links"):
            raise Refused(f"{path}: {key} has {word}, which the study sets for each seed or which makes another world")
    return list(value)


def seeds_of(path: Path, value: Any, is_precise: bool = False) -> list[int]:
    """The seeds: a list, a number of them, or a text as "1-10"; a study with [precision] needs none."""
    if is_precise and value is None:
        return [1]
    if value is None:
        raise Refused(f"{path}: seeds or [precision] is required: how many worlds are tried")
    if is_integer(value) and value > 0:
        value = range(1, value + 1)
    if isinstance(value, str) and (match := re.fullmatch(r"([0-9]{1,9})-([0-9]{1,9})", value)):
        value = range(int(match[1]), int(match[2]) + 1)
    if isinstance(value, list | range) and len(value) > MOST_SEEDS:
        raise Refused(f"{path}: seeds has {len(value)} of them, and a study has at most {MOST_SEEDS}")
    well = isinstance(value, list | range) and all(is_integer(seed) and seed >= 0 for seed in value)
    if not well or not value or len(set(value)) < len(value):
        wanted = 'a list of different integers, 0 or more, or a text as "1-10", or a number of seeds'
        raise Refused(f"{path}: seeds has to be {wanted}")
    if max(value) >= BEYOND:
        raise Refused(f"{path}: seeds has {max(value)}: a seed is below {BEYOND}, where fresh seeds begin")
    if is_precise:
        raise Refused(f"{path}: seeds and [precision] exclude each other")
    return list(value)


def varied_options() -> set[str]:
    """The options of tools/generate that can be varied, as [vary] names them."""
    return {f"{OF_GENERATE}--{name}" for name, *_ in OPTIONS} - {f"{OF_GENERATE}--seed"}


def unknown_told(key: str, is_generated: bool) -> str:
    """Why a key cannot be varied, and which one was likely meant."""
    if key.startswith(OF_GENERATE) and not is_generated:
        return f"{key} is of a study with `generate`, and this one has a base"
    if key == f"{OF_GENERATE}--seed":
        return f"{key}: `seeds` sets it"
    head = f"{OF_GENERATE}--"
    if key.startswith(OF_GENERATE):
        meant = close_to(key.removeprefix(head), sorted(name.removeprefix(head) for name in varied_options()))
        hint = "" if meant is None else f": did you mean `{head}{meant}`?"
        return f"{key}: {tool('generate')} has no {key.removeprefix(OF_GENERATE)}{hint}"
    meant = head + key if is_generated and head + key in varied_options() else close_to(key, sorted(varied_keys()))
    return f"{key} is no key of a scenario that can be varied" + ("" if meant is None else f": did you mean `{meant}`?")


def booleans_of(path: Path, key: str, values: Any) -> list[Value]:
    """The values of a varied key that is a boolean, as texts."""
    well = isinstance(values, list) and values and all(isinstance(value, bool) for value in values)
    if not well or len(set(values)) < len(values):
        raise Refused(f"{path}: [vary] {key} has to be a list of different booleans")
    return [str(value).lower() for value in values]


def world_of(path: Path, value: Any, vary: dict[str, list[Value]]) -> list[str] | None:
    """The varied keys that make the world, which nobody chooses, if the study names them."""
    if value is None:
        return None
    if not isinstance(value, list) or not all(isinstance(key, str) and key in vary for key in value):
        raise Refused(f"{path}: world has to be a list of keys of [vary]")
    return value
