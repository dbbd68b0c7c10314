"""The numbers that plots draw: any column of runs.csv, quotients of two, and a few with names."""

from math import isfinite

from chordsim_tools.cli import Refused
from chordsim_tools.study.interval import Interval, interval
from chordsim_tools.study.names import base_of, header, is_percent, name_of
from chordsim_tools.study.numbers import TAKES, Cells, error_share, estimate_error, mean_of, take_of
from chordsim_tools.study.tables import Tables

NAMED = {
    "right-of-begun": ("right", "judged-lookups", "right, of lookups that ended"),
    "right-of-found": ("right", "judged-found", "right answers, of all answers"),
    "found-of-begun": ("judged-found", "judged-lookups", "answers, of lookups begun"),
    "served": ("right", "wanted", "right answers, of lookups wanted"),
    "whole-of-audits": ("whole-rings", "judged-audits", "audits with a whole ring"),
}
"""Quotients with names: the two columns, and what the quotient is."""
AS_ON_PAGES = {
    "right-of-begun": ("right_of_begun", 1.0), "all-us-p50": ("p50_ms", 1000.0), "all-us-p90": ("p90_ms", 1000.0),
    "all-us-p99": ("p99_ms", 1000.0), "all-us-p99.9": ("p999_ms", 1000.0),
}
"""Columns whose numbers are those of the page: which number, and what it is multiplied with."""
COST = "cost"
GREATER_IS_BETTER = {"right-of-begun", "right-of-found", "found-of-begun", "served", "whole-of-audits", "right"}
WORDS = {f"all-us-p{share}": f"lookup time, p{share}" for share in ("50", "90", "99", "99.9")}
WORDS |= {f"us-p{share}": f"time of the found ones, p{share}" for share in ("50", "90", "99")}
WORDS |= {f"stretch-p{share}": f"stretch of a lookup, p{share}" for share in ("10", "50", "90")}


class Column:
    """A number of each run: its name, how its values are scaled, and its label."""

    def __init__(self, name: str, tables: Tables) -> None:
        """The column of this name, or a refusal that lists all."""
        self.name = name
        self.nodes = int(tables.manifest["nodes"])
        self.duration = tables.manifest.get("duration_us")
        self.there = set(tables.runs[0]) if tables.runs else set()
        self.error_share = error_share(tables.runs) if "messages" in self.there else 0.0
        self.parts = self.parts_of()
        if name != COST and self.parts is None and name not in self.there:
            listed = ", ".join([*sorted(NAMED), COST, *sorted(self.there)])
            raise Refused(f"no column {name} in runs.csv; there are A/B of two columns, and {listed}")

    def parts_of(self) -> tuple[str, str] | None:
        """The two columns of a quotient."""
        if self.name in self.there:
            return None
        above, slash, below = self.name.partition("/")
        parts = (above, below) if slash else NAMED.get(self.name, ("", ""))[:2]
        return parts if all(part in self.there for part in parts) else None

    @property
    def is_time(self) -> bool:
        """Whether it is in microseconds."""
        is_named = self.name.startswith(("us-", "all-us-")) or self.name.endswith(("-us", "_us"))
        return self.parts is None and is_named

    @property
    def is_share(self) -> bool:
        """Whether it is a share of 0 to 1, which is drawn in percent."""
        return self.parts is not None and self.name in NAMED

    @property
    def greater_is_better(self) -> bool:
        """Which way is better."""
        return self.name in GREATER_IS_BETTER

    def averaged(self, rows: list[Cells]) -> list[float | None]:
        """The numbers that a mean is of: those of the rings kept. `served` has those of all rings."""
        return [self.of(cells) for cells in rows if base_of(self.name) == "served" or not ring_lost([cells])]

    def mean(self, rows: list[Cells]) -> Interval:
        """The mean of these runs with its interval, which is that of the page if the page has the number."""
        number = "served" if self.name == "served" else AS_ON_PAGES.get(self.name, ("", 0.0))[0]
        return mean_of(number, self.averaged(rows)) if number else interval(self.averaged(rows))

    def values(self, rows: list[Cells]) -> list[float]:
        """The numbers of the runs that have it. A time that is never reached is none."""
        return [value for cells in rows if (value := self.of(cells)) is not None and isfinite(value)]

    def is_wide(self, values: list[float]) -> bool:
        """Whether these are times that span more than two decades."""
        positive = [value for value in values if value > 0]
        return self.is_time and bool(positive) and max(positive) / min(positive) > 100

    def of(self, cells: Cells) -> float | None:
        """The number of a run, if it has it; infinite if it is never reached."""
        if self.name == COST:
            return self.cost(cells)
        if self.name in AS_ON_PAGES:
            number, scale = AS_ON_PAGES[self.name]
            value = TAKES[number](cells)
            return None if value is None else scale * value
        if self.parts is None:
            return plain(cells[self.name])
        above, below = (plain(cells[part]) for part in self.parts)
        return None if above is None or not below else above / below

    def cost(self, cells: Cells) -> float | None:
        """Messages per member and second where the table has them, else events per node and second."""
        if {"messages", "cost-member-us"} <= self.there:
            messages, time = plain(cells["messages"]), plain(cells["cost-member-us"])
            return None if messages is None or not time else messages / time * 1e6
        events, duration = plain(cells["events"]), plain(cells.get("duration_us") or str(self.duration or ""))
        return None if events is None or not duration else events / self.nodes / duration * 1e6

    def error(self, rows: list[Cells]) -> float:
        """How far the mean of these runs may be off because messages are estimated."""
        return estimate_error("messages", rows) if self.name == COST and self.error_share else 0.0

    def scale(self, greatest: float) -> tuple[float, str]:
        """What values up to this one are multiplied by, and the label with the unit."""
        if self.name == COST:
            return 1, self.cost_label()
        label = NAMED[self.name][2] if self.name in NAMED else WORDS.get(self.name, self.name)
        if self.is_share:
            return 100, f"{label}, %"
        if self.is_time:
            return (1e-6, f"{label}, s") if greatest >= 1e7 else (1e-3, f"{label}, ms")
        return 1, label

    def cost_label(self) -> str:
        """The label of the cost, which says if it is estimated."""
        if not {"messages", "cost-member-us"} <= self.there:
            return "events per node of the file and second"
        estimated = f"\n(estimated, to within {100 * self.error_share:g} %)" if self.error_share else ""
        return f"messages per member and second{estimated}"


class SpanColumn(Column):
    """A number of a span, as the page has it: `outage.p99_ms`. Times are in milliseconds."""

    def parts_of(self) -> tuple[str, str]:
        """It is no column of the table by itself."""
        return "", ""

    @property
    def is_time(self) -> bool:
        """Whether it is a time."""
        return self.name.endswith("_ms")

    @property
    def is_share(self) -> bool:
        """Whether it is a share of 0 to 1, which is drawn in percent."""
        return is_percent(self.name)

    def of(self, cells: Cells) -> float | None:
        """The number of a run, if it has it; infinite if it is never reached."""
        return take_of(self.name)(cells)

    def mean(self, rows: list[Cells]) -> Interval:
        """The mean of these runs with the interval of the page."""
        return mean_of(self.name, self.averaged(rows))

    def scale(self, greatest: float) -> tuple[float, str]:
        """What values up to this one are multiplied by, and the label with the unit."""
        if self.is_time and greatest >= 1e4:
            return 1e-3, f"{name_of(self.name)}, s"
        unit = header(self.name).removeprefix(name_of(base_of(self.name)))
        return 100 if self.is_share else 1, f"{name_of(self.name)}{unit}"


def plain(cell: str) -> float | None:
    """The number of a cell. An empty one has none, and neither has a word such as `never`."""
    try:
        return float(cell)
    except ValueError:
        return None


def ring_lost(rows: list[Cells]) -> bool:
    """Whether a run of these has lost its ring."""
    return any(cells.get("lost-at-us") for cells in rows)
