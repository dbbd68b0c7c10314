"""What a key, a name, a value or a row that is refused was likely meant to be."""

import math
import re
from collections.abc import Iterable
from difflib import get_close_matches
from typing import Any

from chordsim_tools.quantities import time_of
from chordsim_tools.scenario.tables import (
    BILLION, PROFILES, Key, Profile, Row, has_type, is_hexadecimal, is_in_own_range,
)

HEADINGS = {
    "top": "the top", "churn": "[churn]", "lookups": "[lookups]", "node": "[[node]]", "nodes": "[[nodes]]",
    "command": "[[command]]",
}
SEPARATORS = {";": "semicolons", "\t": "tabs", "|": "bars", ":": "colons", " ": "blanks"}


def heading_of(place: str) -> str:
    """The heading of a table's kind."""
    return HEADINGS[place.split()[0]]


def shown(text: str, most: int = 60) -> str:
    """A text that a terminal can show, cut if it is long."""
    cut = text if len(text) <= most else text[: most - 3] + "..."
    return "".join(c if c.isprintable() else c.encode("unicode_escape").decode() for c in cut)


def close_to(word: str, words: Iterable[str]) -> str | None:
    """The word that is most like this one, if one is like it."""
    words = list(words)
    same = [other for other in words if other.lower() == word.strip().lower() and other != word]
    if same:
        return same[0]
    return next((other for other in get_close_matches(word.strip(), words, 1, 0.7) if other != word), None)


def of_unknown_key(name: str, place: str, table: dict[str, Any], profile: Profile) -> list[str]:
    """A key that is like it, or the table or the profile that has it."""
    kind = place.split()[0]
    later = later_keys(profile)
    if name in later and not (name == "nodes" and are_nodes(table[name])):
        return [of_later_key(name, *later[name], kind)]
    headings = HEADINGS if kind == "top" else {}
    keys = profile.tables[kind]
    meant = close_to(name, (key.name for key in keys if key.name not in table or key.name in headings))
    if meant is not None:
        return [f"did you mean {headings.get(meant, f'`{meant}`')}?"]
    owners = [other for other, keys in profile.tables.items() if other != kind and name in {key.name for key in keys}]
    if owners:
        return [of_other_table(name, owners)]
    present = close_to(name, (key.name for key in keys))
    if present is not None:
        return [f"`{present}` is there already: take `{name}` away"]
    meant = close_to(name, (other for other, (_, owner) in later.items() if owner == kind))
    return [] if meant is None else [f"did you mean `{meant}`? {of_later_key(meant, *later[meant], kind)}"]


def are_nodes(value: Any) -> bool:
    """Whether what is under the heading of classes are tables of single nodes."""
    return has_type(value, "tables") and not any({"count", "prefix"} & table.keys() for table in value)


def of_other_table(name: str, owners: list[str]) -> str:
    """That tables of these kinds have this key."""
    if "top" in owners:
        return f"`{name}` is a key of the top: put it above the first heading"
    return f"`{name}` is a key of " + " and of ".join(HEADINGS[owner] for owner in owners)


def later_keys(profile: Profile) -> dict[str, tuple[int, str]]:
    """The keys that this profile does not have: the number of the first one that has them, and their table's kind."""
    present = {kind: {key.name for key in keys} for kind, keys in profile.tables.items()}
    of_all = (
        (number, kind, key.name)
        for number, other in PROFILES.items() for kind, keys in other.tables.items() for key in keys
    )
    later: dict[str, tuple[int, str]] = {}
    for number, kind, name in of_all:
        # A class has mostly keys of a node.
        if name not in present.get(kind, present["node"]):
            later.setdefault(name, (number, kind))
    return later


def of_later_key(name: str, number: int, owner: str, kind: str) -> str:
    """That the profile of this number has this key, and in which table if it is not the table where it is now."""
    hint = f"profile {number} has `{name}`: write profile = {number}"
    place = "above the first heading" if owner == "top" else f"below a heading {HEADINGS[owner]}"
    return hint if owner == kind else f"{hint}, and put it {place}"


def of_missing_key(key: str, place: str, table: dict[str, Any], profile: Profile) -> list[str]:
    """An unknown key in the table that is like it, or that it is required by another value."""
    listed = {other.name for other in profile.tables[place.split()[0]]}
    meant = close_to(key, (name for name in table if name not in listed))
    hints = [] if meant is None else [f"`{meant}` stands there and is no key: did you mean `{key}` by it?"]
    if key in ("via", "key"):
        hints.append(f"a {table.get('do')} needs `{key}`")
    if key == "churn":
        hints.append("a node has `churn = true`: write the table [churn], or take that away")
    if key == "node" and "nodes" in listed:
        hints.append("a class of nodes, [[nodes]], is enough too")
    if key in ("x_us", "y_us"):
        keys = "`x_us`, `y_us`, `height_us` or `side_us`"
        hints.append(f"if one table of nodes has {keys}, each has `x_us` and `y_us`")
    return hints


def of_wrong_type(value: Any, key: Key, raw: str | None) -> list[str]:
    """The value that was likely meant."""
    if key.kind in ("table", "tables"):
        return of_wrong_table(value, key)
    if isinstance(value, list) and len(value) == 1 and has_type(value[0], key.kind):
        return ["take the brackets away"]
    if key.kind in ("integer", "id") and isinstance(value, float):
        return of_float(value, raw)
    if key.kind == "integer" and isinstance(value, str):
        micros = of_measure(value, key)
        if re.fullmatch(r"\s*[0-9_]+\s*", value):
            return [f"without quotes: {key.name} = {value.strip()}"]
        return micros
    if key.kind == "boolean":
        word = str(value).strip().lower()
        meant = {"1": "true", "yes": "true", "true": "true", "0": "false", "no": "false", "false": "false"}.get(word)
        return [] if meant is None else [f"{key.name} = {meant}"]
    if key.kind == "text" and isinstance(value, int | float):
        return [f'a text stands in quotes: {key.name} = "{raw if raw is not None else value}"']
    return []


def of_wrong_table(value: Any, key: Key) -> list[str]:
    """The heading that was likely meant."""
    if key.kind == "tables" and isinstance(value, dict):
        return [f"[{key.name}] is one table: begin each with the heading [[{key.name}]]"]
    if key.kind == "table" and has_type(value, "tables"):
        return [f"[[{key.name}]] is an array of tables: write [{key.name}]"]
    if key.kind == "tables":
        return [f"begin each with the heading [[{key.name}]]"]
    return [f"write the heading [{key.name}] and its keys below it"]


def of_float(value: float, raw: str | None) -> list[str]:
    """The whole number of a float."""
    if math.isnan(value) or abs(value) > 2**53:
        return ["an integer has no point and no exponent"]
    written = str(value) if raw is None else raw
    if value == int(value):
        return [f"an integer has no point and no exponent: {int(value)} for {written}"]
    return [f"an integer has no point: {int(value)} or {int(value) + 1} for {written}"]


def of_measure(text: str, key: Key | None = None) -> list[str]:
    """The microseconds of a text such as 10ms."""
    word = re.sub("[ _]", "", text.lower()).replace("µs", "us")
    micros = time_of(word) if word[-1:] in ("s", "m") else None
    if micros is None or (key is not None and not key.name.endswith("_us")):
        return []
    return [f"in microseconds: {micros}"]


def of_id(value: int | str, bits: int | None, digits: int) -> list[str]:
    """An identifier that does not have this number of hexadecimal digits, or that is too great."""
    if isinstance(value, str):
        return of_digits(value, bits, digits)
    if bits is not None and value >= 2**bits:
        return [f"it has {value.bit_length()} bits, and bits = {bits}"]
    return []


def of_digits(text: str, bits: int | None, digits: int) -> list[str]:
    """A text that is no identifier."""
    word = text.strip().lower().replace("_", "").replace(":", "").removeprefix("0x")
    if word != text and is_hexadecimal(word, digits) and (bits is None or int(word, 16) < 2**bits):
        return [f'did you mean "{word}"?']
    if len(text) > digits and re.fullmatch(f"0+[0-9a-f]{{1,{digits}}}", text):
        return [f'{digits} digits at most: "{text.lstrip("0") or "0"}"']
    if is_hexadecimal(text, digits):
        return [f"it is {int(text, 16)} in decimal, and bits = {bits}"]
    return ["write small letters"] if is_hexadecimal(text.lower(), digits) else []


def of_profile_number(number: Any) -> list[str]:
    """That a number of a profile is not in use, and which profile was likely meant."""
    return ["the number 3 is not in use: the profile after 2 is 4, so write profile = 4"] if number == 3 else []


def of_profile(value: Any, key: Key, place: str) -> list[str]:
    """The first later profile that allows a value that this one does not."""
    if is_in_own_range(value, key):
        return []
    if key.name == "profile":
        return of_profile_number(value)
    # Each profile has all keys of the earlier ones, with ranges that are no narrower.
    for number, other in PROFILES.items():
        wider = next((one for one in other.tables.get(place.split()[0], []) if one.name == key.name), key)
        if is_in_own_range(value, wider):
            unit = {"tables": " tables", "id": " hexadecimal digits, and 128 bits"}.get(key.kind, "")
            return [f"profile {number} allows up to {wider.greatest}{unit}: write profile = {number}"]
    return []


def of_classes(value: list[Any], key: Key, table: dict[str, Any]) -> list[str]:
    """That many nodes can be a class, and that a class needs no single node."""
    if key.name != "node":
        return []
    if len(value) > key.greatest:
        return ["nodes that are alike can be one class, [[nodes]]"]
    return ["there are classes, so that there need not be any [[node]]"] if "nodes" in table else []


def of_word(value: str, key: Key, place: str) -> list[str]:
    """The word that is most like one that is not allowed, or the profile that allows this one."""
    for number, other in PROFILES.items():
        wider = next(one for one in other.tables[place.split()[0]] if one.name == key.name)
        if value in wider.among:
            return [f'profile {number} has "{value}": write profile = {number}']
    meant = close_to(value, key.among)
    return [] if meant is None else [f'did you mean "{meant}"?']


def of_range(value: int, key: Key) -> list[str]:
    """A number that is out of its key's range."""
    if value > key.greatest == BILLION:
        return [f"{value} us are {value / 1_000_000:g} s; at most 1000 s are allowed"]
    return []


def of_name(name: str, most: int, is_prefix: bool = False) -> list[str]:
    """What is wrong with a node's name, or with the prefix of names, of at most so many bytes."""
    if name == "":
        return [f"the {'prefix' if is_prefix else 'name'} is empty"]
    if name == "audit":
        return ["`audit` begins the audit lines of a trace: choose another name"]
    bad = sorted({shown(c) for c in name if not re.fullmatch(r"[A-Za-z0-9._-]", c)})
    hints = []
    if bad:
        hints.append("not allowed in a name: " + " ".join(f"'{c}'" for c in bad))
        allowed = re.sub(r"[^A-Za-z0-9._-]+", "-", name.strip())[:most]
        if re.search(r"[A-Za-z0-9]", allowed):
            hints.append(f'"{allowed}" is allowed')
    if len(name.encode()) > most:
        hints.append(f"it has {len(name.encode())} bytes")
    return hints


def of_unknown_name(name: str, names: Iterable[str]) -> list[str]:
    """A node whose name is like this one."""
    names = list(names)
    if name != name.strip() and name.strip() in names:
        return [f'without the blanks: "{shown(name.strip())}"']
    meant = close_to(name, names)
    return [] if meant is None else [f'did you mean "{shown(meant)}"?']


def is_heading(row: Row, names: Iterable[str]) -> bool:
    """Whether a row is likely a heading: the first one, without a node's name in it, and no number at its end."""
    if row.number != 1:
        return False
    known = set(names)
    parts = re.split(r"[,;|\t]", ",".join(row.fields))
    digits = re.search("[0-9]", parts[-1] if known else "".join(parts))
    return len(parts) > 1 and digits is None and not any(part.strip() in known for part in parts)


def of_bad_row(row: Row, names: Iterable[str]) -> list[str]:
    """What a row that is no row was meant to be."""
    if is_heading(row, names):
        return ["this looks like a heading: take it away, the file has none"]
    if len(row.fields) == 3:
        return of_bad_number(row.fields[2])
    if row.fields[0].lstrip().startswith("#"):
        return ["this looks like a comment: the file has none"]
    text = ",".join(row.fields)
    for separator, word in SEPARATORS.items():
        parts = text.split() if separator == " " else text.split(separator)
        if len(row.fields) == 1 and len(parts) == 3:
            better = ",".join(part.strip() for part in parts)
            return [f"the fields are parted by {word}, not by commas: write {shown(better)}"]
    if len(row.fields) == 4 and row.fields[3].strip() == "":
        return ["take the last comma away"]
    if len(row.fields) == 4 and (row.fields[2] + row.fields[3]).isdigit():
        return [f"a number has no comma: {row.fields[2]}{row.fields[3]}, or {row.fields[2]} for whole microseconds"]
    if "\n" in text:
        return ["a quote is opened here and closed on a later line, or never"]
    return []


def of_bad_number(field: str) -> list[str]:
    """What a third field was meant to be."""
    word = field.strip()
    if re.fullmatch(r"[0-9]{1,10}", word) and word != field:
        return [f"without the blanks: {word}"]
    if re.fullmatch(r"\+[0-9]{1,10}", word):
        return [f"without the sign: {word[1:]}"]
    if re.fullmatch(r"[0-9]{0,12}\.[0-9]{1,12}", word):
        return [f"whole microseconds, without a point: {max(1, round(float(word)))}"]
    if re.fullmatch(r"[0-9]{1,3}([_' ][0-9]{3})+", word):
        return [f"digits alone: {re.sub('[^0-9]', '', word)}"]
    if re.fullmatch(r"0+", word):
        return ["the least latency is 1"]
    if re.fullmatch(r"[0-9]{11,}", word) and int(word.lstrip("0")[:11] or 0) <= BILLION:
        return [f"ten digits at most: {word.lstrip('0')}"]
    return of_measure(word)
