"""The table of who was taken for dead, and what came of it."""

from collections.abc import Callable
from functools import partial

from chordsim_tools.study.interval import LEAST_SEEDS, outward
from chordsim_tools.study.notes import AGAIN
from chordsim_tools.study.numbers import Cells, Summary, is_kept
from chordsim_tools.study.settings_tables import Column, table_text
from chordsim_tools.study.tables import Tables
from chordsim_tools.study.unravel import lost_told
from chordsim_tools.study.wrap import note, paragraph

COLUMNS = (
    ("timeouts", "cost-timeouts"),
    ("members taken for dead", "cost-timeouts-of-members"),
    ("removed as successors", "cost-removed-members"),
    ("requests sent again", "cost-again"),
    ("members stranded", "cost-stranded"),
    ("joins failed", "cost-join-failed"),
)
OF_LOST_RINGS = ("cost-stranded", "cost-join-failed")
"""What a ring was lost by. These are told of the rings lost too, for each run, since few of their nodes are members."""
UNIT = "All numbers are for each member and hour, from the warm-up to the end."
NOTES = (
    AGAIN,
    "**none (< 26 %)**: no seed has any. So at most 26 % of worlds have any (95 %, exact: 1 - 0.05 ^ (1 / seeds)). "
    "`in 2 seeds`: so few have any that the mean has no interval.",
    "**timeouts**: calls that had no reply in time, to any of their sendings.",
    "**members taken for dead**: timeouts of calls to a node that was a member at that time. A message was lost, or "
    "the node had only just joined.",
    "**removed as successors**: of these, stabilizations whose last request or its reply was lost. The nearest "
    "successor left the list though it was a member. In all other cases a lookup, a join or a ping went on without the "
    "node. With `drop_silent` of profile 4 the node left list and fingers there too, if it was among them; no line "
    "says so.",
    "**requests sent again**: each time that a request was sent again (`retries`).",
    "**members stranded**: members whose successor list ran empty. With `drop_silent` a finger takes its place, if "
    "there is one. Of rings that were lost it is the mean for each run, with the least and the greatest.",
    "**joins failed**: times that a join had failed eight times, of rings that were lost as members stranded.",
)


def an_hour(word: str) -> Callable[[Cells], float | None]:
    """A count for each member and hour."""

    def take(cells: Cells) -> float | None:
        """That of a run."""
        hours = int(cells["cost-member-us"]) / 3.6e9
        return int(cells[word]) / hours if hours else None

    return take


def cell_of(one: Summary, word: str) -> str:
    """The cell of a count in a setting's line."""
    if word not in OF_LOST_RINGS or one.kept == one.seeds:
        return kept_told(one, word)
    kept = f"{kept_told(one, word)}; " if one.kept else ""
    return f"{kept}lost rings: {lost_told(one, word)} a run"


def kept_told(one: Summary, word: str) -> str:
    """A count of the rings kept. If no seed has any, it is said how many worlds may have some."""
    found = one.of(an_hour(word))
    some = sum(int(cells[word]) > 0 for cells in one.rows if is_kept(cells))
    if found.mean is None or found.count < LEAST_SEEDS or some >= LEAST_SEEDS:
        return found.told()
    text = f"none (< {outward(100 * (1 - 0.05 ** (1 / found.count)), 2, 1):g} %)"
    if some:
        text = f"{found.mean:.2g}, in {some} seed{'' if some == 1 else 's'}"
    return text + (f" ({found.count} of {found.of})" if found.count < found.of else "")


def taken_table(tables: Tables, found: list[Summary]) -> str:
    """The table with its heading; nothing for tables of an older tools/study."""
    if not all(word in one.rows[0] for _, word in COLUMNS for one in found):
        return ""
    columns: list[Column] = [(name, partial(cell_of, word=word)) for name, word in COLUMNS]
    table, notes = table_text(tables, found, columns), "".join(map(note, NOTES))
    return f"## Who was taken for dead\n\n{paragraph(UNIT)}{table}\n{notes}\n"
