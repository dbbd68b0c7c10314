"""Numbers over time: small plots for each value of a key, with a line for each value of others."""

from collections.abc import Callable, Iterable, Sequence
from dataclasses import dataclass
from itertools import groupby
from typing import Any

from chordsim_tools.study.columns import ring_lost
from chordsim_tools.study.figures import Plotter, ends_of, set_ends
from chordsim_tools.study.interval import LEAST_SEEDS, interval
from chordsim_tools.study.limits import draw_across, draw_in_spans, handle, limits_of, span_limits
from chordsim_tools.study.looks import FEW, Layout, Look, Values
from chordsim_tools.study.numbers import Cells, groups
from chordsim_tools.study.small_plots import SmallPlot, small_plots
from chordsim_tools.study.so_far import Drawn

LEAST_SOLID = 3
"""Below this many seeds in a step the line is dashed."""
NODES = -1.0
"""Stands for the number of nodes, which bands of members are cut at."""
Take = Callable[[Cells], float | None]
SERVED = "wanted"
"""The column of series.csv that older tables do not have."""


@dataclass(frozen=True)
class Quantity:
    """A label, the number of a line, and the greatest value that it may have. `column` names its limits.

    Some are of the rings kept alone, some are at the end of a step, and some are of the lookups that begin in it. Some
    have no interval that says much of so few seeds: their bands are from the least to the greatest seed."""

    label: str
    take: Take
    most: float = float("inf")
    column: str = ""
    is_of_kept: bool = False
    is_at_end: bool = False
    is_by_begin: bool = False
    is_range: bool = False

    def greatest(self, manifest: dict[str, Any]) -> float:
        """The greatest value that it may have in a study."""
        return float(manifest["nodes"]) if self.most == NODES else self.most

    def later(self, manifest: dict[str, Any]) -> int:
        """How much later than the begin of its step it is drawn, in us. What is at the end of a step is drawn there."""
        return int(manifest["window_us"]) if self.is_at_end else 0


Point = tuple[float, float, float, float, int]
"""A place, the mean, the ends of its band, and how many seeds have the number."""


def percent(above: str, below: str) -> Take:
    """A column of another one in percent, if that is not 0."""

    def take(cells: Cells) -> float | None:
        """The share of a step."""
        return 100 * float(cells[above]) / float(cells[below]) if cells[below] and float(cells[below]) else None

    return take


def count_of(name: str) -> Take:
    """The number of a column."""
    return lambda cells: float(cells[name])


MEMBERS = Quantity("members", count_of("members"), NODES, is_at_end=True, is_range=True)
RIGHT = (
    Quantity("served, %", percent("right-of-ended", SERVED), 100.0, "served", is_by_begin=True, is_range=True),
    Quantity(
        "right of begun, %", percent("right-of-ended", "ended"), 100.0, "right-of-begun", is_of_kept=True,
        is_by_begin=True,
    ),
    MEMBERS,
)
OF_FOUND = Quantity("right answers,\n% of all found", percent("right", "found"), 100.0, is_of_kept=True)
"""In place of the first two in tables of an older tools/study."""
NETWORK = (
    ("timeouts", "timeouts", "timeouts\nin a step"),
    ("losses", "lost messages", "messages lost\nin a step"),
    ("again", "requests sent again", "sent again\nin a step"),
)
"""Columns of steps.csv: what they count, in a title, and their labels."""


def right_of(lines: list[Cells]) -> tuple[str, tuple[Quantity, ...]]:
    """The title, and what there is of answers over time."""
    if lines and SERVED not in lines[0]:
        return "Right answers and members over time", (OF_FOUND, MEMBERS)
    return "Served, right answers and members over time", RIGHT


def network_of(lines: list[Cells]) -> tuple[str, list[Quantity]]:
    """The title, and the counts to draw: timeouts, and what else is not 0 in all steps."""
    drawn = [one for one in NETWORK if one is NETWORK[0] or any(line.get(one[0], "0") != "0" for line in lines)]
    *words, last = [words for _, words, _ in drawn]
    title = f"{', '.join(words)} and {last}".capitalize() if words else "Timeouts"
    title += " over time" if any(one[0] == "losses" for one in drawn) else " over time (no message is lost)"
    return title, [Quantity(label, count_of(name)) for name, _, label in drawn]


def points_of(
    lines: list[Cells], quantity: Quantity, manifest: dict[str, Any], has_bands: bool = True
) -> list[Point]:
    """The points of a quantity over time. Bands are cut at 0 and at its greatest value."""
    most, later = quantity.greatest(manifest), quantity.later(manifest)
    points = []
    for (place,), cells in groups(lines, ["from_us"]).items():
        found = interval([quantity.take(one) for one in cells])
        if found.mean is not None:
            ends = (found.low, found.high) if quantity.is_range else found.ends()
            low, high = ends if has_bands and ends is not None else (found.mean, found.mean)
            band = max(0.0, low), min(most, high)
            points.append(((int(place) + later) / 1e6, found.mean, *band, found.count))
    return sorted(points)


def draw_points(axes: Any, points: list[Point], look: Look, turn: int) -> None:
    """A line with the band of its intervals; dashed and without a band where fewer than three seeds have the number."""
    for few, part in pieces(points):
        places = [point[0] for point in part]
        style = {"color": look.colour, "linestyle": FEW if few else "-", "linewidth": 0.9 if few else 1.3}
        axes.plot(places, [point[1] for point in part], **style)
        if not few:
            low, high = [point[2] for point in part], [point[3] for point in part]
            wide = [bottom < top for bottom, top in zip(low, high, strict=True)]
            axes.fill_between(places, low, high, where=wide, alpha=0.2, linewidth=0, color=look.colour)
    step = max(1, len(points) // 6)
    marked = points[turn * step // 3 % step :: step]
    axes.plot(
        [point[0] for point in marked], [point[1] for point in marked], linestyle="none", marker=look.marker,
        markersize=3.5, color=look.colour,
    )


def pieces(points: list[Point]) -> Iterable[tuple[bool, list[Point]]]:
    """The line in pieces of few and of enough seeds; a piece of few begins and ends at the next points."""
    for few, group in groupby(range(len(points)), key=lambda place: points[place][4] < LEAST_SOLID):
        places = list(group)
        start, end = places[0], places[-1] + 1
        # The way to a point with few seeds, and from it, is dashed.
        yield few, points[max(0, start - 1) : end + 1] if few else points[start:end]


def time_figure(plotter: Plotter, quantities: Sequence[Quantity], lines: list[Cells], title: str) -> Any:
    """The quantities over time, one below the other, for each panel and value of the axis."""
    drawn, layout = plotter.drawn, plotter.layout
    by_setting = lines_of(drawn, lines, layout.keys)
    figure, plots = small_plots(plotter.pyplot, layout, len(quantities))
    for plot in plots:
        draw_cell(plot, by_setting, layout, quantities)
    limit_rows(plots, quantities)
    handles = plotter.line_handles("-")
    if any(has_limits(drawn.tables.manifest, quantity.column) for quantity in quantities):
        handles.append(handle(plotter.pyplot))
    return plotter.finish(figure, title, note_of(drawn, quantities), handles)


def has_limits(manifest: dict[str, Any], column: str) -> bool:
    """Whether the goal has limits of a column, or of a span's."""
    return bool(limits_of(manifest, column) or span_limits(manifest, column))


def note_of(drawn: Drawn, quantities: Sequence[Quantity]) -> str:
    """How to read the figure."""
    seeds = len({cells["seed"] for cells in drawn.tables.runs})
    note = f"means over those of {seeds} seeds that have the number; bands: pointwise 95% intervals, from "
    note += f"{LEAST_SEEDS} seeds on; dashed: fewer than three seeds"
    ranges = " and ".join(quantity.label.partition(",")[0] for quantity in quantities if quantity.is_range)
    note += f"; bands of {ranges}: from the least to the greatest seed" if ranges else ""
    if any(ring_lost([cells]) for cells in drawn.tables.runs):
        kept = [quantity.label.partition(",")[0] for quantity in quantities if quantity.is_of_kept]
        note += "; no band: rings were lost in some seeds" + (f"; {kept[0]}: of rings kept" if kept else "")
    return note + ("; dotted: warm-up" if drawn.tables.manifest["warmup_us"] else "")


@dataclass(frozen=True)
class Lines:
    """The lines of a setting: of all seeds, and of those whose rings were kept."""

    every: list[Cells]
    kept: list[Cells]

    @property
    def is_mixed(self) -> bool:
        """Whether some rings were lost and some kept. Over both kinds no interval holds."""
        return 0 < len(self.kept) < len(self.every)


OfSettings = dict[Values, Lines]


def lines_of(drawn: Drawn, lines: list[Cells], keys: list[str]) -> OfSettings:
    """The lines of each setting."""
    kept = groups(kept_lines(drawn, lines, keys), keys)
    return {setting: Lines(group, kept.get(setting, [])) for setting, group in groups(lines, keys).items()}


def kept_lines(drawn: Drawn, lines: list[Cells], keys: list[str]) -> list[Cells]:
    """The lines whose run kept its ring."""
    names = [*keys, "seed"]
    lost = {tuple(cells[name] for name in names) for cells in drawn.tables.runs if ring_lost([cells])}
    return [line for line in lines if tuple(line[name] for name in names) not in lost]


def draw_cell(plot: SmallPlot, by_setting: OfSettings, layout: Layout, quantities: Sequence[Quantity]) -> None:
    """The plots of one cell, from top to bottom."""
    manifest = layout.manifest
    for axes, quantity in zip(plot.axes, quantities, strict=True):
        draw_quantity(axes, quantity, {one: by_setting.get(one, Lines([], [])) for one in plot.settings}, layout)
        draw_across(axes, limits_of(manifest, quantity.column), 100.0)
        draw_in_spans(axes, span_limits(manifest, quantity.column), 100.0)
        if manifest["warmup_us"]:
            axes.axvline(manifest["warmup_us"] / 1e6, color="0.5", linestyle=":", linewidth=1)
        if plot.is_first:
            axes.set_ylabel(quantity.label)
    plot.axes[-1].set_xlabel("time, s")


def draw_quantity(axes: Any, quantity: Quantity, of_settings: OfSettings, layout: Layout) -> None:
    """The lines of a quantity in one plot."""
    for turn, (one, lines) in enumerate(of_settings.items()):
        draw_points(axes, quantity_points(lines, quantity, layout.manifest), layout.look(one), turn)


def quantity_points(lines: Lines, quantity: Quantity, manifest: dict[str, Any]) -> list[Point]:
    """The points of a quantity in a setting."""
    shown = lines.kept if quantity.is_of_kept else lines.every
    if quantity.is_by_begin:
        # Lookups that begin in the cool-down may be cut off by the end.
        end = max((int(line["from_us"]) for line in shown), default=0) + int(manifest["window_us"])
        last = end - int(manifest["cooldown_us"])
        shown = [line for line in shown if int(line["from_us"]) + int(manifest["window_us"]) <= last]
    return points_of(shown, quantity, manifest, quantity.is_of_kept or not lines.is_mixed)


def limit_rows(plots: list[SmallPlot], quantities: Sequence[Quantity]) -> None:
    """The same scale for a quantity in all cells."""
    for row, quantity in enumerate(quantities):
        row_limits([plot.axes[row] for plot in plots if plot.is_first], quantity.most)


def row_limits(rows: list[Any], most: float) -> None:
    """The same scale for a quantity in all rows, from 0; shares keep to where they are, up to 100%."""
    low, high = ends_of(rows)
    low, high = (max(0.0, low), 100.0) if most == 100 else (0.0, high)
    set_ends(rows, low, max(high, low + 1))
