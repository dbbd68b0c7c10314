"""The settings of a study over their seeds: rings kept and lost, shares, times and costs."""

import csv
import io
import math
from collections.abc import Callable, Iterable
from dataclasses import dataclass, field
from typing import Any

from chordsim_tools.cli import Refused
from chordsim_tools.place import tool
from chordsim_tools.study.bounded import bounded, share_mean
from chordsim_tools.study.estimates import MOST_ERROR, OLDER_ERROR
from chordsim_tools.study.exact import count_interval, share_interval
from chordsim_tools.study.goal import OF_SPANS
from chordsim_tools.study.interval import Interval, interval
from chordsim_tools.study.names import base_of, is_percent, is_wild, span_of
from chordsim_tools.study.plan import Study, told
from chordsim_tools.study.sizes import bytes_error, bytes_of
from chordsim_tools.study.survival import NEVER
from chordsim_tools.study.tables import Row, Tables, runs_text

Cells = dict[str, str]
LEAST_FOR_P99 = 1000
"""Of fewer lookups of a run the 99th percentile is nearly the greatest one."""
LEAST_LOOKUPS = {50: 0, 90: 100, 99: LEAST_FOR_P99, 99.9: 10_000}
"""How many judged lookups a run needs to have a percentile."""
HOUR = 3_600_000_000


def ratio(cells: Cells, above: str, below: str) -> float | None:
    """The quotient of two cells, if there is one."""
    return float(cells[above]) / float(cells[below]) if cells[below] and float(cells[below]) else None


def of_ended(above: str) -> Callable[[Cells], float | None]:
    """A share of the judged lookups that came to an end, their asker being up."""

    def take(cells: Cells) -> float | None:
        """The share in a run."""
        ended = int(cells["judged-found"]) + int(cells["judged-lost"])
        return int(cells[above]) / ended if ended else None

    return take


def each_ended(above: str, scale: float = 1.0) -> Callable[[Cells], float | None]:
    """The mean of a sum over the judged lookups that came to an end. Older tables have no such sums."""

    def take(cells: Cells) -> float | None:
        """The mean in a run."""
        ended = int(cells["judged-found"]) + int(cells["judged-lost"])
        return int(cells[above]) * scale / ended if ended and cells.get(above) else None

    return take


def time_of(share: float) -> Callable[[Cells], float | None]:
    """A percentile of all lookups in milliseconds; infinite if it is never reached."""

    def take(cells: Cells) -> float | None:
        """The percentile of a run."""
        cell = cells.get(f"all-us-p{share}")
        if not cell or int(cells["judged-lookups"]) < LEAST_LOOKUPS[share]:
            return None
        return math.inf if cell == NEVER else int(cell) / 1000

    return take


def a_second(*words: str) -> Callable[[Cells], float | None]:
    """The sum of the first cell less the others, for each member and second."""

    def take(cells: Cells) -> float | None:
        """The cost of a run."""
        seconds = int(cells["cost-member-us"]) / 1e6
        if words[0] not in cells:
            return None
        return (int(cells[words[0]]) - sum(int(cells[word]) for word in words[1:])) / seconds if seconds else None

    return take


TAKES: dict[str, Callable[[Cells], float | None]] = {
    "served": lambda cells: ratio(cells, "right", "wanted"),
    "right_of_begun": of_ended("right"),
    "defensible": of_ended("right-defensible"),
    "given_up": of_ended("judged-lost"),
    "members": lambda cells: ratio(cells, "member-us", "up-us"),
    "p50_ms": time_of(50),
    "p90_ms": time_of(90),
    "p99_ms": time_of(99),
    "p999_ms": time_of(99.9),
    "mean_ms": each_ended("ended-us", 0.001),
    "hops": each_ended("ended-hops"),
    "timeouts": each_ended("ended-timeouts"),
    "messages": a_second("messages"),
    "upkeep": a_second("messages", "messages-lookups"),
    "events": a_second("cost-events"),
    "bytes": a_second("bytes"),
}
"""What each number of a setting is in one run. All but the first are averaged over the runs that kept their ring."""
OF_MESSAGES = ("messages", "upkeep", "bytes")
"""The numbers that are made of messages, which profiles 1 and 2 estimate."""


def mean_of(number: str, values: list[float | None], level: float = 0.95) -> Interval:
    """The mean of a number over the runs, with the interval that fits its kind."""
    if is_wild(number):
        return bounded(values, level)
    return share_mean(values, level) if is_percent(number) else interval(values, level)


COLUMNS = {
    "p90_ms": "all-us-p90", "p999_ms": "all-us-p99.9", "mean_ms": "ended-us", "hops": "ended-hops",
    "timeouts": "ended-timeouts", "bytes": "bytes",
}
"""Columns that older tables, or those of a study without sizes, do not have, and the numbers that are made of them."""


def has_number(number: str, cells: Cells) -> bool:
    """Whether the tables of this row have what a number is made of."""
    column = COLUMNS.get(base_of(number))
    head = number.removesuffix(base_of(number))
    return column is None or f"{head}{column}" in cells


def take_of(number: str) -> Callable[[Cells], float | None]:
    """What a number is in one run, also one of a span: its columns have the name of the span before theirs."""
    take, span = TAKES[base_of(number)], span_of(number)
    if not span:
        return take

    def of_span(cells: Cells) -> float | None:
        """The number of the span."""
        head = f"{span}."
        return take({word.removeprefix(head): cell for word, cell in cells.items() if word.startswith(head)})

    return of_span


def is_kept(cells: Cells) -> bool:
    """Whether a run has kept its ring to the end."""
    return not cells["lost-at-us"]


def are_counted(rows: list[Cells]) -> bool:
    """Whether the messages of these runs were counted. Older tables do not say so."""
    return all(cells.get("messages-counted") == "1" for cells in rows)


def error_share(rows: list[Cells]) -> float:
    """How far the messages of these runs may be off, as a share of them."""
    return 0.0 if are_counted(rows) else MOST_ERROR if all(map(is_new, rows)) else OLDER_ERROR


def is_new(cells: Cells) -> bool:
    """Whether a row is of a tools/study that knew all turns that a stabilization skips."""
    return "pieces-messages" in cells


def estimate_error(number: str, rows: list[Cells]) -> float:
    """How far the mean of a number over these runs may be off because messages are estimated."""
    if base_of(number) not in OF_MESSAGES or are_counted(rows):
        return 0.0
    word = "bytes-error" if number == "bytes" else "messages"
    mean = interval(a_second(word)(cells) if is_kept(cells) else None for cells in rows).mean
    return math.inf if mean is None else mean if number == "bytes" else error_share(rows) * mean


@dataclass
class Summary:
    """A setting over its seeds."""

    label: str
    values: tuple[str, ...]
    rows: list[Cells]
    numbers: dict[str, Interval]
    hours: float
    by_seed: dict[str, Cells] = field(default_factory=dict)

    @property
    def seeds(self) -> int:
        """How many seeds there are."""
        return len(self.rows)

    @property
    def kept(self) -> int:
        """How many of them kept their ring."""
        return sum(map(is_kept, self.rows))

    def of(self, take: Callable[[Cells], float | None], number: str = "") -> Interval:
        """The mean and the interval of a number among the rings kept."""
        return mean_of(number, [take(cells) if is_kept(cells) else None for cells in self.rows])

    @property
    def is_counted(self) -> bool:
        """Whether the messages of all runs were counted."""
        return are_counted(self.rows)

    def error(self, number: str) -> float:
        """How far the mean of a number may be off because messages are estimated. Infinite: there is no bound."""
        return estimate_error(number, self.rows)

    def kept_told(self) -> str:
        """Rings kept as `9 of 10 (55..100 %)`."""
        low, high = share_interval(self.kept, self.seeds)
        return f"{self.kept} of {self.seeds} ({low * 100:.0f}..{high * 100:.0f} %)"

    def rate_told(self) -> str:
        """Rings lost for each hour that a ring lives, as `1.0 (0.2..2.9)`, or `below 1.2` if none was lost."""
        low, high = (bound / self.hours for bound in count_interval(self.seeds - self.kept))
        if self.kept == self.seeds:
            return f"below {two_digits(high)}"
        return f"{two_digits((self.seeds - self.kept) / self.hours)} ({two_digits(low)}..{two_digits(high)})"


def two_digits(value: float) -> str:
    """A number with two significant digits."""
    return f"{float(f'{value:.2g}'):g}"


def groups(lines: list[Cells], keys: list[str]) -> dict[tuple[str, ...], list[Cells]]:
    """The lines by these cells, in the order of the first ones."""
    found: dict[tuple[str, ...], list[Cells]] = {}
    for line in lines:
        found.setdefault(tuple(line[key] for key in keys), []).append(line)
    return found


def setting_label(keys: list[str], values: tuple[str, ...]) -> str:
    """A setting as pages name it."""
    return ", ".join(told(key, value) for key, value in zip(keys, values, strict=True)) or "base"


def summaries(tables: Tables) -> list[Summary]:
    """All settings, in the order of runs.csv."""
    if tables.runs and "wanted" not in tables.runs[0]:
        raise Refused(f"runs.csv is of an older {tool('study')}: run the study again")
    keys = list(tables.manifest["vary"])
    spans, sizes = list(tables.manifest.get("spans") or {}), tables.manifest.get("sizes") or {}
    runs = [with_bytes(cells, sizes) if sizes else cells for cells in tables.runs]
    return [summary(keys, values, rows, spans) for values, rows in groups(runs, keys).items()]


def summaries_of(study: Study, rows: list[Row]) -> list[Summary]:
    """All settings of a study that has these results so far."""
    table = list(csv.DictReader(io.StringIO(runs_text(rows, study.sizes))))
    return summaries(Tables({"vary": study.vary, "spans": study.spans, "sizes": study.sizes}, table, []))


def with_bytes(cells: Cells, sizes: dict[str, Any]) -> Cells:
    """A row with its bytes, and how far they may be off."""
    errors = {"bytes-error": str(bytes_error(sizes, cells))} if is_new(cells) else {}
    return {"bytes": str(bytes_of(sizes, cells)), **cells, **errors}


def summary(keys: list[str], values: tuple[str, ...], rows: list[Cells], spans: Iterable[str] = ()) -> Summary:
    """One setting over its seeds."""
    hours = sum(int(cells["lost-at-us"] or cells["duration-us"]) for cells in rows) / HOUR
    found = Summary(setting_label(keys, values), values, rows, {}, hours)
    found.by_seed = {cells["seed"]: cells for cells in rows}
    of_spans = (f"{span}.{number}" for span in spans for number in OF_SPANS)
    found.numbers = {number: found.of(take_of(number), number) for number in (*TAKES, *of_spans)}
    for number in ("served", *(f"{span}.served" for span in spans)):
        found.numbers[number] = mean_of(number, list(map(take_of(number), rows)))
    return found
