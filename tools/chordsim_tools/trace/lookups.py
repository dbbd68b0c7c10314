"""The lookups of a run as a table: a row for each, also for those that were lost or cut off."""

import csv
import io
from typing import NamedTuple

from chordsim_tools.files import write_whole
from chordsim_tools.trace.lines import NOBODY, Lookup
from chordsim_tools.trace.reading import Run

ENDS = {"lost": "lost", "crash": "cut-by-crash", "leave": "cut-by-leave", "end": "cut-by-end"}


class LookupRow(NamedTuple):
    """A lookup, by the columns of the table. What is not there is None: an empty cell of the file."""

    asker: str
    key: int
    begun_us: int
    ended_us: int | None
    us: int | None
    hops: int | None
    timeouts: int | None
    named: str | None
    right_owner: str | None
    strict: str
    defensible: str


COLUMNS = LookupRow._fields


def lookups_text(run: Run) -> str:
    """The table as CSV, in the order of the lookups' begins."""
    text = io.StringIO()
    rows = csv.writer(text, lineterminator="\n")
    rows.writerow(COLUMNS)
    rows.writerows(lookup_rows(run))
    return text.getvalue()


def lookup_rows(run: Run) -> list[LookupRow]:
    """The rows of the table, in the same order."""
    return [row_of(run.history.names, one) for one in run.history.lines.lookups]


def row_of(names: list[str], one: Lookup) -> LookupRow:
    """The row of a lookup. One that was cut off has no hops and timeouts, and one that the end cut off has no end."""
    is_cut = one.outcome in ("crash", "leave", "end")
    ended = (None, None) if one.end is None else (one.end, one.taken(0))
    counts = (None, None) if is_cut else (one.hops, one.timeouts)
    named, right_owner = (None if node == NOBODY else names[node] for node in (one.owner, one.true_owner))
    strict, defensible = (verdict_of(one, fits) for fits in (one.is_right, one.is_defensible))
    return LookupRow(names[one.node], one.key, one.begin, *ended, *counts, named, right_owner, strict, defensible)


def verdict_of(one: Lookup, fits: bool) -> str:
    """right or wrong, or why there is no answer."""
    return ENDS.get(one.outcome) or ("right" if fits else "wrong")


def write_lookups(name: str, run: Run) -> None:
    """Writes the table to a file."""
    write_whole(name, lookups_text(run))
