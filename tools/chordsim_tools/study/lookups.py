"""The lookups of a run as columns, read from the table that `chordsim judge` writes in the order of their ends."""

from bisect import bisect_left
from collections.abc import Callable, Mapping, Sequence
from dataclasses import dataclass, field, fields
from functools import cached_property
from itertools import pairwise
from operator import add
from typing import IO, Any, TypeVar

T = TypeVar("T")
HEADING = "asker,key,begun_us,ended_us,us,hops,timeouts,named,right_owner,strict,defensible"
WIDTH = HEADING.count(",") + 1
READ = ASKER, BEGUN, US, HOPS, TIMEOUTS, NAMED, STRICT, DEFENSIBLE = 0, 2, 4, 5, 6, 7, 9, 10
"""The places of the columns that are read."""
IS_RIGHT = {"right": True, "wrong": False}
"""What the last two columns say of a lookup that was answered."""
PART = 1 << 16
"""So many bytes of the table are read at once: their cells fit into a processor's cache."""

Columns = dict[int, list[str]]
"""The cells of columns, by their places."""


class Known(dict[str, T]):
    """What texts stand for, which is made of each text once."""

    def __init__(self, make: Callable[[str], T]) -> None:
        """How it is made."""
        super().__init__()
        self.make = make

    def __missing__(self, text: str) -> T:
        """A text that is new."""
        self[text] = made = self.make(text)
        return made


@dataclass
class Lookups:
    """Lookups with one kind of end, a column for each number. One that such lookups do not have is empty."""

    begun: list[int] = field(default_factory=list)
    ended: list[int] = field(default_factory=list)
    us: list[int] = field(default_factory=list)
    hops: list[int] = field(default_factory=list)
    timeouts: list[int] = field(default_factory=list)
    askers: list[str] = field(default_factory=list)
    named: list[str] = field(default_factory=list)
    is_right: list[bool] = field(default_factory=list)
    is_defensible: list[bool] = field(default_factory=list)

    def __len__(self) -> int:
        """How many lookups there are."""
        return len(self.begun)

    def sum_of(self, word: str) -> int:
        """The sum of the column of this name."""
        column: list[int] = getattr(self, word)
        return sum(column)

    def columns(self) -> list[list[Any]]:
        """All columns."""
        return [getattr(self, one.name) for one in fields(self)]

    def by_begins(self) -> "Lookups":
        """The same in the order in which they began."""
        order = sorted(range(len(self)), key=self.begun.__getitem__)
        return Lookups(*([column[place] for place in order] if column else [] for column in self.columns()))

    def between(self, first: int, end: int) -> "Lookups":
        """Those that began from one time on and before another. They are in the order of their begins."""
        begin, stop = bisect_left(self.begun, first), bisect_left(self.begun, end)
        return Lookups(*(column[begin:stop] for column in self.columns()))

    def begun_before(self, time: int) -> int:
        """How many began before a time. They are in the order of their begins."""
        return bisect_left(self.begun, time)

    def ended_before(self, time: int) -> int:
        """How many ended before a time. They are in the order of their ends."""
        return bisect_left(self.ended, time)


@dataclass
class Table:
    """The lookups of a run by their kinds of ends: answered, lost, cut off by their askers' going, and by the end."""

    answered: Lookups = field(default_factory=Lookups)
    lost: Lookups = field(default_factory=Lookups)
    cut: Lookups = field(default_factory=Lookups)
    unfinished: Lookups = field(default_factory=Lookups)

    def kinds(self) -> tuple[Lookups, ...]:
        """All of them, in this order."""
        return self.answered, self.lost, self.cut, self.unfinished

    def __len__(self) -> int:
        """How many lookups there are."""
        return sum(map(len, self.kinds()))

    def without_answer(self, word: str) -> Lookups:
        """The kind of lookups without an answer that this word of the table means."""
        return {
            "lost": self.lost, "cut-by-crash": self.cut, "cut-by-leave": self.cut, "cut-by-end": self.unfinished,
        }[word]

    @cached_property
    def by_begins(self) -> "Table":
        """The same in the order in which they began. All that began in a span of time are side by side."""
        return Table(*(kind.by_begins() for kind in self.kinds()))

    def between(self, first: int, end: int) -> "Table":
        """Those that began from one time on and before another. They are in the order of their begins."""
        return Table(*(kind.between(first, end) for kind in self.kinds()))

    def sum_of(self, word: str) -> int:
        """The sum of a column of those that came to an end."""
        return self.answered.sum_of(word) + self.lost.sum_of(word)

    def pieces(self, edges: Sequence[int]) -> list["Table"]:
        """Those that began from each of these times to the next one. They are in the order of their begins."""
        return [self.between(first, end) for first, end in pairwise(edges)]


class TableReader:
    """Makes columns of the lines of the table. What they have often, as names of nodes, is made once."""

    def __init__(self) -> None:
        """No lines yet."""
        self.table = Table()
        self.names = Known(str)
        self.numbers = Known(int)

    def add(self, text: str) -> None:
        """Further lines."""
        cells = text.replace("\n", ",").split(",")
        cells.pop()
        if len(cells) % WIDTH:
            raise ValueError("this is not the table of lookups")
        columns = {place: cells[place::WIDTH] for place in READ}
        others = [place for place, word in enumerate(columns[STRICT]) if word not in IS_RIGHT]
        rows = [{name: column.pop(place) for name, column in columns.items()} for place in reversed(others)]
        self.add_answered(columns)
        for row in reversed(rows):
            add_row(self.table.without_answer(row[STRICT]), row)

    def add_answered(self, columns: Columns) -> None:
        """Takes lookups that were answered."""
        kind = self.table.answered
        begun, us = (list(map(int, columns[place])) for place in (BEGUN, US))
        kind.begun += begun
        kind.us += us
        kind.ended += map(add, begun, us)
        kind.hops += map(self.numbers.__getitem__, columns[HOPS])
        kind.timeouts += map(self.numbers.__getitem__, columns[TIMEOUTS])
        kind.askers += map(self.names.__getitem__, columns[ASKER])
        kind.named += map(self.names.__getitem__, columns[NAMED])
        kind.is_right += map(IS_RIGHT.__getitem__, columns[STRICT])
        kind.is_defensible += map(IS_RIGHT.__getitem__, columns[DEFENSIBLE])


def add_row(kind: Lookups, row: Mapping[int, str]) -> None:
    """Takes one of the few lookups without an answer. Numbers that it does not have are empty cells."""
    begun = int(row[BEGUN])
    kind.begun.append(begun)
    if row[US]:
        kind.us.append(int(row[US]))
        kind.ended.append(begun + kind.us[-1])
    if row[HOPS]:
        kind.hops.append(int(row[HOPS]))
        kind.timeouts.append(int(row[TIMEOUTS]))


def read_table(output: IO[bytes]) -> Table:
    """The table, from a stream. ValueError or LookupError if it has another one."""
    reader = TableReader()
    if output.readline() != f"{HEADING}\n".encode():
        raise ValueError("this is not the table of lookups")
    rest = b""
    while part := output.read(PART):
        whole, end, rest = (rest + part).rpartition(b"\n")
        reader.add((whole + end).decode())
    if rest:
        raise ValueError("the table ends within a line")
    return reader.table
