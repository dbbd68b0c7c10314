"""Documents: TOML files that are read, and scenarios that are written as TOML."""

import json
import re
import tomllib
from typing import Any

VALUE = r'true|false|0|[1-9][0-9]*|"[^"=\\\x00-\x1f]*"'
"""A boolean, an integer, or a text without escapes and signs of equality, as both JSON and TOML have them."""
PLAIN = re.compile(rf"(?:[A-Za-z0-9_-]+ = (?:{VALUE})\n|\n\[[a-z]+\]\n|\n\[\[[a-z]+\]\]\n)*")
HEAD = re.compile(r"\n(\[+)([a-z]+)\]+\n")
BARE = re.compile(r"[A-Za-z0-9_-]+")


def document_of(text: str) -> dict[str, Any]:
    """A document as `toml_text` writes it, or any other one. The first kind is read by JSON, in a tenth of the time.

    The text has to be TOML: keys and tables that are there twice are not noticed."""
    if PLAIN.fullmatch(text) is None:
        return tomllib.loads(text)
    first, *rest = HEAD.split(text)
    top: dict[str, Any]
    top, *tables = json.loads(f"[{','.join(map(json_of, [first, *rest[2::3]]))}]")
    for brackets, key, table in zip(rest[::3], rest[1::3], tables, strict=True):
        if brackets == "[":
            top[key] = table
        else:
            top.setdefault(key, []).append(table)
    return top


def json_of(pairs: str) -> str:
    """The plain keys of a table as JSON."""
    words = pairs.replace(" = ", '":').replace("\n", ',"')
    return f'{{"{words[:-2]}}}' if words else "{}"


def toml_text(top: dict[str, Any]) -> str:
    """A document of scalars, tables of scalars and arrays of such tables. TypeError if it has anything else."""
    plain, tables = [], []
    for key, value in top.items():
        if isinstance(value, dict):
            tables.append(table_text(f"[{toml_key(key)}]", value))
        elif isinstance(value, list) and value:
            tables += [table_text(f"[[{toml_key(key)}]]", item) for item in value]
        else:
            plain.append(f"{toml_key(key)} = {toml_value(key, value)}\n")
    return "".join(plain) + "".join(tables)


def table_text(head: str, table: Any) -> str:
    """A table under its head."""
    if not isinstance(table, dict):
        raise TypeError(f"{head} has an item that is no table")
    return f"\n{head}\n" + "".join(f"{toml_key(key)} = {toml_value(key, value)}\n" for key, value in table.items())


def toml_key(key: str) -> str:
    """A key, in quotes if it needs them."""
    return key if BARE.fullmatch(key) else toml_value(key, key)


def toml_value(key: str, value: Any) -> str:
    """A boolean, an integer, a text or an empty list."""
    if isinstance(value, bool):
        return "true" if value else "false"
    if isinstance(value, int):
        return str(value)
    if isinstance(value, str):
        if BARE.fullmatch(value):
            return f'"{value}"'
        # A text of JSON is one of TOML, but for one control character that JSON allows.
        return json.dumps(value, ensure_ascii=False).replace("\x7f", "\\u007f")
    if value == []:
        return "[]"
    raise TypeError(f"{key} has a value that no scenario has")
