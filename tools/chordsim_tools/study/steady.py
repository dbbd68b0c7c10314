"""Whether the judged span is steady: served, right answers, members and the numbers of the goal in six pieces of it,
seed by seed.

Two questions are asked of each number, by contrasts of the pieces (multiple contrast tests: Bretz, Genz and Hothorn,
Biometrical Journal 43, 2001): does it rise or fall over the span, and is a piece other than the rest, as in a wave?
They are asked of the mean of all settings, which have the same seeds, and of each setting. All of them share a risk of
5 % (Bonferroni), so of twenty steady studies about one is said not to be."""

from collections.abc import Set
from dataclasses import dataclass
from itertools import pairwise
from statistics import fmean
from typing import Any

from chordsim_tools.quantities import time_text
from chordsim_tools.study.compare import scale_of
from chordsim_tools.study.interval import LEAST_SEEDS, Interval, interval
from chordsim_tools.study.names import name_of, span_of
from chordsim_tools.study.numbers import OF_MESSAGES, TAKES, Cells, Summary, groups, is_kept
from chordsim_tools.study.pieces import COLUMN
from chordsim_tools.study.served import PIECES, Scope
from chordsim_tools.study.sizes import bytes_of
from chordsim_tools.study.tables import Tables

PARTS = {"served": ("right-of-ended", "wanted"), "right_of_begun": ("right-of-ended", "ended")}
"""The columns of series.csv whose sums' quotient a number is in a piece."""
SHARES = ("served", "right_of_begun", "members")
"""The numbers that are always looked at."""
TIMES = {"p50_ms": "us-p50", "p90_ms": "us-p90", "p99_ms": "us-p99", "p999_ms": "us-p99.9"}
"""The percentiles, and the columns of runs.csv that have them for each piece."""
NAMED = {
    **TIMES, "given_up": "judged-lost", "defensible": "right-defensible", "mean_ms": "ended-us", "hops": "ended-hops",
    "timeouts": "ended-timeouts", "messages": "messages", "upkeep": "messages-lookups", "bytes": "messages",
}
"""The numbers that are looked at if a goal names them, and a column of each that runs.csv has to have for pieces."""
OLDER = {"right_of_begun": ("right", "found")}
"""The same for tables of an older tools/study."""
MOST_TOLD = 5
DIGITS = 12
"""So many digits after the point count: what floating numbers add is no change."""
Values = list[list[float]]
"""A number in each piece, for each seed."""


@dataclass(frozen=True)
class Change:
    """How a number changes over the span, or in a piece of it."""

    number: str
    where: str
    piece: tuple[int, int] | None
    found: Interval

    def told(self) -> str:
        """As `served -4.7 ± 1.9 points from its begin to its end (list=4)`."""
        mean = self.found.mean or 0.0
        unit, scale = scale_of(self.number)
        size = Interval(abs(mean), self.found.half, self.found.count, self.found.count).told(scale)
        head = f"{name_of(self.number)} {'+' if mean > 0 else '-'}{size} {unit}".rstrip()
        if self.piece is None:
            return f"{head} from its begin to its end ({self.where})"
        begin, end = map(time_text, self.piece)
        return f"{head} from {begin} to {end}, against the rest ({self.where})"


def steps_of(tables: Tables, cells: Cells, lines: list[Cells]) -> list[list[Cells]]:
    """The steps of a run that lie in the judged span, in pieces of nearly as many steps; none if there are too few."""
    begin = int(tables.manifest["warmup_us"])
    end = int(cells["duration-us"]) - int(tables.manifest["cooldown_us"])
    window = int(tables.manifest["window_us"])
    steps = [line for line in lines if begin <= int(line["from_us"]) and int(line["from_us"]) + window <= end]
    count = min(PIECES, len(steps))
    edges = [len(steps) * place // count for place in range(count + 1)] if count > 1 else []
    return [steps[first:end] for first, end in pairwise(edges)]


def number_in(number: str, piece: list[Cells], nodes: int) -> float | None:
    """A number in a piece of a run."""
    if number == "members":
        return fmean(int(step["members"]) for step in piece) / nodes
    above, below = PARTS[number] if PARTS[number][0] in piece[0] else OLDER.get(number, ("", ""))
    wanted = sum(float(step[below]) for step in piece) if below else 0.0
    return sum(float(step[above]) for step in piece) / wanted if wanted else None


def cells_in(cells: Cells, sizes: dict[str, Any]) -> list[Cells]:
    """The cells of each piece of a run, under the names that those of the whole span have."""
    parts = {word.removeprefix(COLUMN): cell.split() for word, cell in cells.items() if word.startswith(COLUMN)}
    whole = {word: cell for word, cell in cells.items() if word.startswith("scenario-")}
    found: list[Cells] = []
    for place in range(PIECES):
        piece = whole | {word: part[place] for word, part in parts.items() if len(part) == PIECES}
        if sizes and "messages" in piece:
            piece["bytes"] = str(bytes_of(sizes, piece))
        found.append(piece)
    return found


def named_in(number: str, cells: Cells, sizes: dict[str, Any]) -> list[float]:
    """A number of the goal in the pieces of a run; none if one of them does not have it."""
    if not cells.get(COLUMN + NAMED[number]):
        return []
    if number in TIMES:
        return [float(word) / 1000 for word in cells[COLUMN + NAMED[number]].split()]
    values = [TAKES[number](piece) for piece in cells_in(cells, sizes)]
    there = [value for value in values if value is not None]
    return there if len(there) == len(values) else []


class Pieces:
    """The pieces of all runs of a study whose rings were kept."""

    def __init__(self, tables: Tables) -> None:
        """Those of the tables."""
        keys = [*tables.manifest["vary"], "seed"]
        lines = groups(tables.series, keys)
        self.rows = rows = {tuple(cells[key] for key in keys): cells for cells in tables.runs}
        self.nodes = int(tables.manifest["nodes"])
        self.sizes = tables.manifest.get("sizes") or {}
        self.window, self.warmup, self.cooldown = (
            int(tables.manifest[key]) for key in ("window_us", "warmup_us", "cooldown_us")
        )
        self.runs = {run: steps_of(tables, cells, lines.get(run, [])) for run, cells in rows.items() if is_kept(cells)}

    def values(self, one: Summary, number: str) -> dict[str, list[float]]:
        """A number of a setting in the pieces of each seed that has it in all of them."""
        found = {seed: self.in_run((*one.values, seed), number) for seed in one.by_seed}
        return {seed: values for seed, values in found.items() if len(values) > 1}

    def in_run(self, run: tuple[str, ...], number: str) -> list[float]:
        """A number in the pieces of a run; none if one of them does not have it."""
        if number in NAMED:
            return named_in(number, self.rows[run], self.sizes) if run in self.runs else []
        values = [number_in(number, piece, self.nodes) for piece in self.runs.get(run, [])]
        there = [value for value in values if value is not None]
        return there if len(there) == len(values) else []

    def spans(self, one: Summary, number: str) -> list[tuple[int, int]]:
        """The begin and the end of each piece. Only the numbers that are always looked at are made of steps."""
        run = next(run for seed in one.by_seed if (run := (*one.values, seed)) in self.runs)
        if number in NAMED:
            scope = Scope(int(self.rows[run]["duration-us"]), self.window, self.warmup, self.cooldown)
            return list(pairwise(scope.edges()))
        return [(int(piece[0]["from_us"]), int(piece[-1]["from_us"]) + self.window) for piece in self.runs[run]]


def trend(values: Values, level: float) -> Interval:
    """How far a straight line through the pieces goes from the first to the last one."""
    last = len(values[0]) - 1
    weights = [place - last / 2 for place in range(last + 1)]
    factor = last / sum(weight * weight for weight in weights)
    sums = (sum(w * v for w, v in zip(weights, seed, strict=True)) for seed in values)
    return interval([round(factor * one, DIGITS) for one in sums], level)


def apart(values: Values, place: int, level: float) -> Interval:
    """A piece less the mean of all others."""
    rests = ([*seed[:place], *seed[place + 1 :]] for seed in values)
    return interval([round(seed[place] - fmean(rest), DIGITS) for seed, rest in zip(values, rests, strict=True)], level)


def changes(values: Values, risk: float) -> list[tuple[int | None, Interval]]:
    """The trend, and each piece against the rest; the trend has half of the risk."""
    if len(values) < LEAST_SEEDS:
        return []
    count = len(values[0])
    pieces: list[tuple[int | None, Interval]] = [
        (place, apart(values, place, 1 - risk / 2 / count)) for place in range(count) if count > 2
    ]
    return [(None, trend(values, 1 - risk / 2)), *pieces]


def mean_values(each: list[dict[str, list[float]]]) -> Values:
    """The mean of all settings, in the seeds that all of them have."""
    seeds = [seed for seed in each[0] if all(seed in values for values in each)] if each else []
    return [[fmean(parts) for parts in zip(*(values[seed] for values in each))] for seed in seeds]


@dataclass(frozen=True)
class Looked:
    """What was found: changes, the trend of each number over all settings, and how many settings were left out."""

    changes: list[Change]
    trends: dict[str, Interval]
    left: int


def looked_at(named: Set[str], found: list[Summary]) -> list[str]:
    """The three shares, and those of the named numbers that a run has for each piece."""
    there = {word for one in found for cells in one.rows for word, cell in cells.items() if cell}
    return [*SHARES, *(number for number, column in NAMED.items() if number in named and COLUMN + column in there)]


def look(tables: Tables, found: list[Summary], named: Set[str] = frozenset()) -> Looked:
    """Looks at all settings that kept their rings in five seeds or more."""
    pieces, numbers = Pieces(tables), looked_at(named, found)
    values = {(one.label, number): pieces.values(one, number) for one in found for number in numbers}
    whole = [one for one in found if len(values[one.label, "members"]) >= LEAST_SEEDS]
    risk = 0.05 / len(numbers) / (2 if len(whole) > 1 else 1)
    told: list[Change] = []
    trends: dict[str, Interval] = {}
    for number in numbers:
        of_all = mean_values([values[one.label, number] for one in whole if one.kept == one.seeds])
        tests = [("all settings", changes(of_all, risk), whole[0])] if len(whole) > 1 else []
        each = risk / max(1, len(whole))
        tests += [(one.label, changes(list(values[one.label, number].values()), each), one) for one in whole]
        if tests and tests[0][1]:
            trends[number] = tests[0][1][0][1]
        told += [
            Change(number, where, None if place is None else pieces.spans(one, number)[place], change)
            for where, tested, one in tests for place, change in tested if change.excludes(0.0)
        ]
    return Looked(told, trends, len(found) - len(whole))


def strongest(told: list[Change]) -> list[Change]:
    """Of each number and place the trend, or else the piece that is farthest from the rest."""

    def size(one: Change) -> tuple[bool, float]:
        """The order of changes."""
        return one.piece is None, abs(one.found.mean or 0.0)

    places: dict[tuple[str, str], list[Change]] = {}
    for one in told:
        places.setdefault((one.number, one.where), []).append(one)
    return [max(there, key=size) for there in places.values()]


def steadiness(tables: Tables, found: list[Summary], named: set[str]) -> str:
    """What a page says of it; `named` are the numbers of the goal."""
    looked = look(tables, found, named)
    blind = blind_told(named - {*looked_at(named, found), "rings_lost"})
    verb = "is" if looked.left == 1 else "are"
    count = f"{looked.left} of {len(found)} settings"
    left = f" {count} {verb} left out: too few seeds kept the ring." if looked.left else ""
    if not looked.trends:
        return f"Whether the judged span is steady cannot be said: too few seeds with a ring, or too few steps.{blind}"
    strong = strongest(looked.changes)
    if strong:
        more = f"; and {len(strong) - MOST_TOLD} more" if len(strong) > MOST_TOLD else ""
        listed = "; ".join(one.told() for one in strong[:MOST_TOLD])
        return f"**Not steady** in the judged span: {listed}{more}.{blind}{left}"
    units = {number: scale_of(number) for number in looked.trends}
    told = ", ".join(
        f"{name_of(number)} {one.told(units[number][1])} {units[number][0]}".rstrip()
        for number, one in looked.trends.items()
    )
    return f"No drift and no waves seen in the judged span. From its begin to its end: {told}.{blind}{left}"


def blind_told(rest: Set[str]) -> str:
    """The numbers that were not looked at, and why."""
    reasons: dict[str, list[str]] = {}
    for number in sorted(rest):
        reasons.setdefault(why_not(number), []).append(name_of(number))
    listed = "; ".join(f"{', '.join(names)} ({why})" for why, names in reasons.items())
    return f" Not looked at: {listed}." if listed else ""


def why_not(number: str) -> str:
    """Why a number was not looked at."""
    if span_of(number):
        return "of a span by itself, steady or not"
    if number in OF_MESSAGES or number == "events":
        return "known for the whole run alone"
    return "too few lookups in each piece" if number in TIMES else "the tables are older"


def manifest_numbers(manifest: dict[str, Any]) -> set[str]:
    """The numbers that the goal of a study names."""
    goal = manifest["goal"]
    return set() if goal is None else {goal["least"], *(limit["number"] for limit in goal["limits"])}
