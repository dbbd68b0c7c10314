"""The page's two tables of all settings: what a decision rests on, and all other numbers."""

from collections.abc import Callable
from functools import partial
from itertools import count
from typing import Any

from chordsim_tools.quantities import time_text
from chordsim_tools.study.answer import chosen, those_that_reach
from chordsim_tools.study.compare import Pair, guarded_level, scale_of
from chordsim_tools.study.goal import Goal, goal_again, precision_again
from chordsim_tools.study.layout import Worlds, choice_label, of_each_world, worlds_of
from chordsim_tools.study.names import (
    COUNTS, MILLISECONDS, NAMES, base_of, difference_header, header, is_percent, span_of,
)
from chordsim_tools.study.notes import AGAIN, FIRST, difference_note, notes_of
from chordsim_tools.study.numbers import Cells, Summary, has_number, ratio
from chordsim_tools.study.tables import Tables
from chordsim_tools.study.wrap import note

FILL = ("served", "right_of_begun", "messages", "p99_ms", "p50_ms")
"""What the first table has, in this order, besides the numbers that the study names."""
MOST = 5
"""So many numbers it has, unless the study names more: with setting, rings kept and difference it has 8 columns."""
OF_LOOKUPS = (*MILLISECONDS, *COUNTS)
"""What the second table has, unless it is in the first one."""
OF_A_SPAN = ("served", "right_of_begun", "given_up", "p50_ms", "p99_ms", "members")
"""What the table of a span has, besides the numbers that the goal names."""
ALL_LOST = "all rings lost"
Column = tuple[str, Callable[[Summary], str]]
"""A column of a table: its header, and its cell for a setting."""
Part = tuple[str, list[Column], list[str]]
"""A table of the page: its heading, its columns and its notes."""


def named_numbers(manifest: dict[str, Any]) -> set[str]:
    """The numbers that the goal and the precision of a study name. Those of spans have tables of their own."""
    goal, precision = goal_again(manifest["goal"]), precision_again(manifest["precision"])
    named = set() if precision is None else {precision.number}
    if goal is not None:
        named |= {goal.least, *(limit.number for limit in goal.limits if not span_of(limit.number))}
        named |= set() if goal.lost_max is None else {"rings_lost"}
    return named


def first_numbers(manifest: dict[str, Any]) -> list[str]:
    """The numbers of the first table. Served is always there: all others leave the rings lost out."""
    numbers = {"served", *named_numbers(manifest)}
    for number in FILL:
        if len(numbers) < MOST:
            numbers.add(number)
    return [number for number in NAMES if number in numbers]


def other_numbers(tables: Tables, cells: Cells) -> tuple[list[str], list[str]]:
    """The numbers that are not among those that decide: all others that the tables have."""
    first = first_numbers(tables.manifest)
    rest = [number for number in NAMES if number not in first and has_number(number, cells)]
    lookups = [number for number in rest if number in OF_LOOKUPS]
    return lookups, [number for number in rest if number not in lookups]


def span_numbers(tables: Tables, span: str) -> list[str]:
    """The numbers of a span's table."""
    goal = goal_again(tables.manifest["goal"])
    named = [limit.number for limit in goal.limits] if goal is not None else []
    wanted = {*OF_A_SPAN, *(base_of(number) for number in named if span_of(number) == span)}
    return [f"{span}.{number}" for number in NAMES if number in wanted]


def cut_off(cells: Cells) -> float | None:
    """The share of a run's lookups that were cut off by a crash or a leave."""
    return ratio(cells, "cut-by-crash", "judged-lookups")


def cell_of(one: Summary, number: str) -> str:
    """The cell of a number in a setting's line."""
    if number == "rings_lost":
        return one.rate_told()
    found = one.of(cut_off, number) if number == "cut_off" else one.numbers[number]
    return found.told(100 if is_percent(number) else 1)


def compared_number(worlds: Worlds, goal: Goal | None) -> str:
    """The number by which settings are compared in the table: the cost if the goal is reached in every world."""
    is_reached = goal is not None and all(those_that_reach(settings, goal) for settings in worlds.values())
    return goal.least if goal is not None and is_reached else "served"


def from_best(one: Summary, best: Summary | None, number: str, level: float) -> str:
    """The difference from the best setting, and whether the two can be told apart."""
    if best is None or one is best:
        return "**best**" if best is one else ALL_LOST if one.kept == 0 else "-"
    pair = Pair(one, best, level)
    found = pair.difference(number)
    if one.kept == 0 and found.mean is None:
        return ALL_LOST
    if pair.equal() == len(pair.seeds()):
        return f"**best** too: the same run in {pair.equal()} of {len(pair.seeds())} seeds"
    verdict = pair.verdict(number)
    return found.told(scale_of(number)[1]) + (verdict and f", {verdict}")


def table_text(tables: Tables, found: list[Summary], columns: list[Column]) -> str:
    """A line a setting, with its number. If each of several worlds has a choice, its name is above its settings."""
    worlds = of_each_world(tables, found)
    is_divided = 1 < len(worlds) < len(found)
    lines = [["no.", "setting", *(name for name, _ in columns)], ["---"] * (2 + len(columns))]
    numbers = count(1)
    for world, settings in worlds.items():
        lines += [["", f"**{world}**", *[""] * len(columns)]] if is_divided else []
        labels = [choice_label(tables, one) if is_divided else one.label for one in settings]
        lines += [
            [str(next(numbers)), label, *(cell(one) for _, cell in columns)]
            for one, label in zip(settings, labels, strict=True)
        ]
    return "".join("| " + " | ".join(cells) + " |\n" for cells in lines)


def columns_of(numbers: list[str]) -> list[Column]:
    """The columns of these numbers."""
    return [(header(number), partial(cell_of, number=number)) for number in numbers]


def differences(tables: Tables, found: list[Summary]) -> tuple[list[Column], list[str]]:
    """The column of differences from the best settings, and its note; none if there is one setting."""
    if len(found) == 1:
        return [], []
    goal = goal_again(tables.manifest["goal"])
    worlds = of_each_world(tables, found)
    number = compared_number(worlds, goal)
    sizes = [len(settings) for settings in worlds.values()]
    level = guarded_level(*sizes)
    of_worlds = [(settings, chosen(settings, goal)) for settings in worlds.values()]
    bests = {one.label: best for settings, best in of_worlds for one in settings}

    def cell(one: Summary) -> str:
        """The cell of a setting."""
        return from_best(one, bests[one.label], number, level)

    keys = worlds_of(tables) if len(worlds) > 1 else []
    return [(difference_header(number), cell)], [difference_note(number, sizes, keys)]


def settings_tables(tables: Tables, found: list[Summary]) -> str:
    """The tables with their headings and notes: what a decision rests on, spans, lookups, and all else."""
    first, (lookups, more) = first_numbers(tables.manifest), other_numbers(tables, found[0].rows[0])
    last, last_note = differences(tables, found)
    columns = [("rings kept", Summary.kept_told), *columns_of(first), *last]
    parts = [("Settings", columns, [*FIRST, *notes_of(first, []), *last_note]), *span_tables(tables, found)]
    if lookups:
        parts.append(("Lookups", columns_of(lookups), [AGAIN, *notes_of(lookups, first)]))
    parts.append(("More numbers", columns_of(more), [AGAIN, *notes_of(more, [*first, *lookups])]))
    return "".join(
        f"## {heading}\n\n{table_text(tables, found, shown)}\n{''.join(map(note, notes))}\n"
        for heading, shown, notes in parts
    )


def span_tables(tables: Tables, found: list[Summary]) -> list[Part]:
    """A table for each span. Its note says how many lookups a run has there, as few of them have no percentiles."""
    parts: list[Part] = []
    for span, (begin, end) in (tables.manifest.get("spans") or {}).items():
        counts = [int(cells[f"{span}.judged-lookups"]) for one in found for cells in one.rows]
        told = f"Of the lookups that began from {time_text(begin)} to {time_text(end)}, {min(counts)} to {max(counts)} "
        told += "in a run. The columns are as in the other tables."
        parts.append((f"Span {span}", columns_of(span_numbers(tables, span)), [told, AGAIN]))
    return parts
