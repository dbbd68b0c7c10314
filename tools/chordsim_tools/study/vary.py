"""The table [vary]: lists of values, values that belong together, and ranges."""

import re
from pathlib import Path
from typing import Any

from chordsim_tools.cli import Refused
from chordsim_tools.quantities import UNIT_NAMES, time_of, time_text
from chordsim_tools.study.keys import (
    BOOLEANS, OF_GENERATE, Value, booleans_of, is_integer, micros_of, unknown_told, varied_keys, varied_options,
)

Group = tuple[tuple[str, ...], list[tuple[Value, ...]]]
"""Keys that change together, mostly one, and the values that they have in turn."""
RANGE = re.compile(r"\s*([0-9][0-9.]*?[a-z]*)\.\.([0-9][0-9.]*[a-z]*)(?:\s+step\s+([0-9][0-9.]*[a-z]*))?\s*")
MOST_VALUES = 1000
"""So many values a range may have."""


def vary_of(path: Path, table: Any, is_generated: bool) -> list[Group]:
    """The groups of [vary], in its order; `churn.life_min_us` may stand in quotes or not."""
    if not isinstance(table, dict):
        raise Refused(f"{path}: vary has to be a table")
    flat: dict[str, Any] = {}
    for key, value in table.items():
        inner = {f"{key}.{name}": item for name, item in value.items()} if isinstance(value, dict) else {key: value}
        check_once(path, [*flat, *inner])
        flat.update(inner)
    groups = [group_of(path, key, values, is_generated) for key, values in flat.items()]
    check_once(path, [key for group, _ in groups for key in group])
    return groups


def check_once(path: Path, keys: list[str]) -> None:
    """Fails if a key is there twice."""
    twice = next((key for key in keys if keys.count(key) > 1), None)
    if twice is not None:
        raise Refused(f"{path}: [vary] {twice} is there twice")


def flat_of(groups: list[Group]) -> dict[str, list[Value]]:
    """The different values of each key."""
    columns = {key: [values[place] for values in lines] for keys, lines in groups for place, key in enumerate(keys)}
    return {key: list(dict.fromkeys(values)) for key, values in columns.items()}


def group_of(path: Path, names: str, values: Any, is_generated: bool) -> Group:
    """One line of [vary]: a key and its values, or keys with commas between them and lists of values."""
    keys = tuple(whole_key(name.strip()) for name in names.split(","))
    for key in keys:
        if key not in varied_keys() and not (is_generated and key in varied_options()):
            raise Refused(f"{path}: [vary] {unknown_told(key, is_generated)}")
    if len(keys) == 1:
        return keys, [(value,) for value in values_of(path, keys[0], values)]
    return keys, tied_values(path, names, keys, values)


def whole_key(name: str) -> str:
    """A key as tables have it: an option of tools/generate may be written without `generate.`."""
    return OF_GENERATE + name if name.startswith("--") else name


def tied_values(path: Path, names: str, keys: tuple[str, ...], values: Any) -> list[tuple[Value, ...]]:
    """The lists of values of keys that change together, each list different from the others."""
    is_list = isinstance(values, list) and all(isinstance(line, list) and len(line) == len(keys) for line in values)
    if not is_list or not values:
        raise Refused(f'{path}: [vary] "{names}" has to be a list of lists of {len(keys)} values each')
    lines = [tuple(checked(path, key, value) for key, value in zip(keys, line, strict=True)) for line in values]
    if len(set(lines)) < len(lines):
        raise Refused(f'{path}: [vary] "{names}" has the same values twice')
    return lines


def checked(path: Path, key: str, value: Any) -> Value:
    """One value of a key."""
    if key in BOOLEANS:
        return booleans_of(path, key, [value])[0]
    found = micros_of(key, value)
    if not is_integer(found) and not (key.startswith(OF_GENERATE) and isinstance(found, str)):
        wanted = 'an integer is wanted (times may have units, as "1s")'
        raise Refused(f"{path}: [vary] {key} cannot be {value!r}: {wanted}")
    return int(found) if is_integer(found) else str(found)


def values_of(path: Path, key: str, values: Any) -> list[Value]:
    """The values of a varied key: a list or a range."""
    if key in BOOLEANS:
        return booleans_of(path, key, values)
    if isinstance(values, str):
        return range_of(path, key, values)
    found = [micros_of(key, value) for value in values] if isinstance(values, list) else []
    is_option = key.startswith(OF_GENERATE)
    well = found and all(is_integer(value) or (is_option and isinstance(value, str)) for value in found)
    if not well or len(set(found)) < len(found):
        wanted = 'a list of different integers (times may have units, as "1s"), or a range as "1s..4s step 1s"'
        raise Refused(f"{path}: [vary] {key} has to be {wanted}")
    return found


def range_of(path: Path, key: str, text: str) -> list[Value]:
    """The values of a range: from its first end in steps, up to its second end. Counts go up by 1 without a step."""
    place = f"{path}: [vary] {key} = \"{text}\""
    match = RANGE.fullmatch(text)
    if match is None:
        raise Refused(f'{place}: a range is as "2..8 step 2" or "1s..4s step 1s"; other values are a list')
    are_counts = all(part is None or part.isdecimal() for part in match.groups())
    if match[3] is None and not are_counts:
        raise Refused(f'{place}: a range of times needs a step, as "{text} step {match[1]}"')
    low, high, step = (number_in(place, part or "1", are_counts) for part in match.groups())
    if step == 0 or low > high:
        raise Refused(f"{place}: a range goes up, in steps above 0")
    if (high - low) // step >= MOST_VALUES:
        raise Refused(f"{place}: a range has at most {MOST_VALUES} values")
    return [as_value(key, number, are_counts) for number in range(low, high + 1, step)]


def number_in(place: str, part: str, are_counts: bool) -> int:
    """A part of a range: a count, or a time with its unit in microseconds."""
    time = None if not are_counts and part.isdecimal() and part != "0" else time_of(part)
    if time is None:
        raise Refused(f"{place}: {part} is no time with a unit ({UNIT_NAMES})")
    return time


def as_value(key: str, number: int, is_count: bool) -> Value:
    """A value of a range: options of tools/generate take times as texts."""
    return time_text(number) if key.startswith(OF_GENERATE) and not is_count else number
