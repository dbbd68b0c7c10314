"""What an explanation has, and the two files that it is of."""

from dataclasses import dataclass, field
from functools import cached_property
from typing import Any

from chordsim_tools.explain.hints import of_unknown_name, shown
from chordsim_tools.explain.positions import Path, Position, Positions
from chordsim_tools.scenario.faults import Document
from chordsim_tools.scenario.tables import GREATEST_INTEGER, MOST_OF_PREFIX, Key, Place, Row


@dataclass
class Explanation:
    """A fault in words. `fault` is as the program would print it; `near` says that the line is not sure."""

    fault: str
    file: str
    line: int | None
    column: int | None
    near: bool
    place: str
    key: str
    what: str
    found: str
    allowed: str
    hints: list[str] = field(default_factory=list)


@dataclass
class Files:
    """The two files: their names, what they say, and where."""

    scenario: str
    latency: str
    document: Document
    positions: Positions
    meant: dict[str, list[str]] = field(default_factory=dict)
    """Of names of no node, what each was likely meant to be."""

    @cached_property
    def places(self) -> dict[str, Place]:
        """All tables by their names."""
        return {place.name: place for place in self.document.places}

    def place(self, name: str) -> Place:
        """The table of this name."""
        return self.places[name]

    def meant_by(self, name: str) -> list[str]:
        """What a name of no node was likely meant to be. It is looked for once, since there can be many nodes."""
        if name not in self.meant:
            self.meant[name] = of_unknown_name(name, self.document.numbers)
        return self.meant[name]

    def row(self, name: str) -> Row:
        """The row of this name."""
        return self.document.rows[int(name.removeprefix("row ")) - 1]

    def line(self, place: str, key: str | None = None) -> str:
        """The line of a row, of a table or of one of its keys, in words."""
        if place.startswith("row "):
            return f"line {self.row(place).line}"
        path = path_of(place) if key is None else (*path_of(place), key)
        return line_words(self.positions.of_key(path))


def line_words(position: Position) -> str:
    """A line in words."""
    return f"{'near line' if position.near else 'line'} {position.line}"


def path_of(place: str) -> Path:
    """The path of a table in the text."""
    kind, _, number = place.partition(" ")
    if kind == "top":
        return ()
    if number:
        return (kind, int(number))
    return (kind,)


def in_words(value: Any) -> str:
    """A value of TOML in words."""
    if isinstance(value, bool):
        return str(value).lower()
    if isinstance(value, str):
        return f'"{shown(value)}"'
    if isinstance(value, dict):
        return "a table"
    if isinstance(value, list):
        return "an array of tables" if value and all(isinstance(item, dict) for item in value) else "an array"
    return str(value)


def integers(least: int, greatest: int) -> str:
    """A range of integers in words."""
    return f"the integer {least}" if least == greatest else f"an integer from {least} to {greatest}"


def integers_at(key: Key) -> str:
    """The integers that are allowed at a key, in words: one by one if the range has gaps."""
    if not key.missing:
        return integers(key.least, key.greatest)
    *others, last = (str(number) for number in range(key.least, key.greatest + 1) if number not in key.missing)
    return f"the integers {', '.join(others)} and {last}"


def allowed_at(key: Key, bits: int | None) -> str:
    """What is allowed at a key."""
    if key.among:
        return "one of " + ", ".join(f'"{word}"' for word in key.among)
    if key.name == "name":
        return "a text of 1 to 32 letters, digits, `.`, `_` and `-`, but not \"audit\""
    if key.name == "prefix":
        return f"a text of 1 to {MOST_OF_PREFIX} letters, digits, `.`, `_` and `-`"
    if key.kind == "integer":
        return integers_at(key)
    if key.kind == "id":
        greatest = GREATEST_INTEGER if bits is None else 2**bits - 1
        least = f"an integer from 0 to {min(greatest, GREATEST_INTEGER)}"
        digits = f"of at most {greatest:x}" if bits is not None else "of a value below 2^bits"
        return f"{least}, or a text of 1 to {key.greatest} hexadecimal digits 0 to 9 and a to f {digits}"
    if key.kind == "tables":
        return f"{key.least} to {key.greatest} tables, each with the heading [[{key.name}]]"
    if key.kind == "table":
        return f"one table, with the heading [{key.name}]"
    return "true or false" if key.kind == "boolean" else "a text: the name of a node"
