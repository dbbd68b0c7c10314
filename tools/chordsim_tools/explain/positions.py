"""Where the tables and keys of a TOML text stand. tomllib says no lines; this scanner trusts that the text is TOML."""

import re
import tomllib
from bisect import bisect_right
from dataclasses import dataclass

from chordsim_tools.scenario.tables import literal_of

Path = tuple[str | int, ...]

BLANK = re.compile(r"[ \t]*")
GAP = re.compile(r"(?:[ \t\r\n]|#[^\n]*)*")
STRING = re.compile(
    r'"""(?:\\.|[^\\])*?"{3,5}' r"|'''.*?'{3,5}" r'|"(?:\\.|[^"\\\n])*"' r"|'[^'\n]*'", re.DOTALL
)
BARE = re.compile(r"[A-Za-z0-9_-]+")
SCALAR = re.compile(r"[^,\]}#\n]+")


class Lost(Exception):
    """The scanner does not know what stands here."""


@dataclass
class Position:
    """A place in a text, counted from 1. If it is not sure, only the line is given, and may be some lines off."""

    line: int
    column: int | None = None
    near: bool = False


class Positions:
    """Where tables, keys and values of a text begin, by path: ("node", 3, "id") is the key id of the third node."""

    def __init__(self, text: str) -> None:
        """Scans the text as far as it can."""
        self.text = text.removeprefix("\ufeff")
        self.keys: dict[Path, int] = {(): 0}
        self.values: dict[Path, tuple[int, int]] = {}
        self.counts: dict[Path, int] = {}
        self.twice: list[tuple[Path, int, int]] = []
        self.first_heading: int | None = None
        self.at = 0
        self.starts = [0, *(match.end() for match in re.finditer("\n", self.text))]
        try:
            self.document()
        except (Lost, RecursionError):
            pass

    def position(self, offset: int) -> Position:
        """The line and column of an offset."""
        line = bisect_right(self.starts, offset)
        return Position(line, offset - self.starts[line - 1] + 1)

    def of_key(self, path: Path) -> Position:
        """Where a key or the heading of a table stands; if that is not known, about where its table is."""
        if path in self.keys:
            return self.position(self.keys[path])
        while path not in self.keys:
            path = path[:-1]
        return Position(self.position(self.keys[path]).line, near=True)

    def of_value(self, path: Path) -> Position:
        """Where a value stands, else where its key does."""
        return self.position(self.values[path][0]) if path in self.values else self.of_key(path)

    def raw(self, path: Path) -> str | None:
        """The value as it is written."""
        return self.text[slice(*self.values[path])].strip() if path in self.values else None

    def of_literal(self, literal: str) -> Path | None:
        """The first value that is this integer or float, however it is written."""
        for path, (begin, end) in self.values.items():
            written = self.text[begin:end].strip()
            try:
                if written == literal or literal_of(int(written, 0)) == literal:
                    return path
            except ValueError:
                continue
        return None

    def match(self, pattern: re.Pattern[str]) -> str:
        """Skips what has this pattern."""
        found = pattern.match(self.text, self.at)
        if found is None:
            raise Lost
        self.at = found.end()
        return found.group()

    def sees(self, text: str) -> bool:
        """Whether a text is here."""
        return self.text.startswith(text, self.at)

    def take(self, text: str) -> None:
        """Skips a text that must be here."""
        if not self.sees(text):
            raise Lost
        self.at += len(text)

    def document(self) -> None:
        """The whole text."""
        table: Path = ()
        self.match(GAP)
        while self.at < len(self.text):
            begin = self.at
            if self.sees("["):
                table = self.heading(begin)
            else:
                self.pair(table)
            self.match(GAP)

    def heading(self, begin: int) -> Path:
        """A heading. Gives the path of its table."""
        if self.first_heading is None:
            self.first_heading = begin
        brackets = 2 if self.sees("[[") else 1
        self.take("[" * brackets)
        names = self.names()
        self.take("]" * brackets)
        path = self.table_of((), names[:-1]) + (names[-1],)
        self.keys.setdefault(path, begin)
        if brackets == 2:
            self.counts[path] = self.counts.get(path, 0) + 1
        elif path not in self.counts and path in self.values:
            self.twice.append((path, self.keys[path], begin))
        if path in self.counts:
            path += (self.counts[path],)
        self.keys.setdefault(path, begin)
        return path

    def table_of(self, path: Path, names: list[str]) -> Path:
        """The table that names lead to; of an array of tables the last."""
        for name in names:
            path += (name,)
            if path in self.counts:
                path += (self.counts[path],)
        return path

    def names(self) -> list[str]:
        """The names of a key, parted by dots."""
        names = []
        while True:
            self.match(BLANK)
            if self.sees('"') or self.sees("'"):
                names.append(self.unquoted(self.match(STRING)))
            else:
                names.append(self.match(BARE))
            self.match(BLANK)
            if not self.sees("."):
                return names
            self.take(".")

    @staticmethod
    def unquoted(text: str) -> str:
        """A key without its quotes."""
        try:
            return str(tomllib.loads(f"x = {text}")["x"])
        except tomllib.TOMLDecodeError:
            raise Lost from None

    def pair(self, table: Path) -> None:
        """A key and its value."""
        begin = self.at
        path = table
        for name in self.names():
            path += (name,)
            if path in self.values or path in self.counts:
                self.twice.append((path, self.keys[path], begin))
            self.keys.setdefault(path, begin)
        self.take("=")
        self.match(BLANK)
        self.value(path)

    def value(self, path: Path) -> None:
        """A value: a text, an array, an inline table or something of one piece."""
        begin = self.at
        if self.sees('"') or self.sees("'"):
            self.match(STRING)
        elif self.sees("["):
            self.array(path)
        elif self.sees("{"):
            self.inline(path)
        else:
            self.match(SCALAR)
        self.values.setdefault(path, (begin, self.at))

    def array(self, path: Path) -> None:
        """An array. Its items are counted from 1, as nodes are."""
        self.take("[")
        count = 0
        self.match(GAP)
        while not self.sees("]"):
            count += 1
            self.keys.setdefault((*path, count), self.at)
            self.value((*path, count))
            self.match(GAP)
            if not self.sees("]"):
                self.take(",")
                self.match(GAP)
        self.take("]")

    def inline(self, path: Path) -> None:
        """An inline table. It may have line feeds, as TOML 1.1 allows."""
        self.take("{")
        self.match(GAP)
        while not self.sees("}"):
            self.pair(path)
            self.match(GAP)
            if not self.sees("}"):
                self.take(",")
                self.match(GAP)
        self.take("}")
