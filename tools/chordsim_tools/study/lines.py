"""A column of the table against a varied key: a line for each value of others, a panel for each world."""

from dataclasses import dataclass
from functools import cached_property
from math import isfinite, isinf
from typing import Any

from chordsim_tools.known import known
from chordsim_tools.study.columns import Column, ring_lost
from chordsim_tools.study.figures import Plotter, ends_of, grid, hide, set_ends
from chordsim_tools.study.interval import LEAST_SEEDS, Interval
from chordsim_tools.study.limits import draw_across, handle, limits_of
from chordsim_tools.study.looks import Axis, Layout, Look, Values, setting_words
from chordsim_tools.study.numbers import Cells

MOST_ACROSS = 4
MOST_COLUMNS = 3
"""So many columns of a single panel are side by side."""
Rows = dict[Values, list[Cells]]


def lines_figure(plotter: Plotter, columns: list[Column], rows: Rows, title: str) -> Any:
    """A row of panels for each column; the columns of a single panel are side by side, up to three."""
    layout, runs = plotter.layout, plotter.drawn.tables.runs
    panels = len(layout.parts(layout.panels))
    across = min(panels, MOST_ACROSS)
    figure, blocks = blocks_of(plotter.pyplot, len(columns), panels, across, 6.5 if layout.x else 3.5)
    for block, column in zip(blocks, columns, strict=True):
        ColumnLines(layout, column, rows, column.values(runs)).draw(block, across)
    note = note_of(rows) + never_told(columns, rows)
    return plotter.finish(figure, title, note, handles_of(plotter, columns, rows))


def handles_of(plotter: Plotter, columns: list[Column], rows: Rows) -> list[Any]:
    """The entries of the legend: the lines, hollow markers if there are some, and limits if the goal has some."""
    layout, pyplot = plotter.layout, plotter.pyplot
    handles = plotter.line_handles(None if layout.x else "none")
    if any(ring_lost(group) for group in rows.values()):
        style = {"color": "0.3", "marker": "o", "linestyle": "none", "markerfacecolor": "white", "markersize": 5}
        handles.append(pyplot.Line2D([], [], label="rings were lost\n(mean of so many seeds)", **style))
    if any(limits_of(layout.manifest, column.name) for column in columns):
        handles.append(handle(pyplot))
    return handles


def never_told(columns: list[Column], rows: Rows) -> str:
    """That settings have no point, if that is because a run never gets there."""
    means = (column.mean(group).mean for column in columns for group in rows.values())
    return "; no point: some seed never gets there" if any(mean is not None and isinf(mean) for mean in means) else ""


def blocks_of(pyplot: Any, columns: int, panels: int, across: int, widest: float) -> tuple[Any, list[Any]]:
    """The figure, and the axes of each column's panels."""
    if panels == 1:
        size = (min(widest, 4.2) if columns > 1 else widest, 3.4)
        figure, axes = grid(pyplot, -(-columns // MOST_COLUMNS), min(columns, MOST_COLUMNS), size)
        places = axes.flatten()
        hide(places[columns:])
        return figure, [places[number : number + 1] for number in range(columns)]
    down = -(-panels // across)
    size = (min(widest, max(3.2, 9 / across)), 2.9 if columns > 1 else 3.4)
    figure, axes = grid(pyplot, down * columns, across, size)
    blocks = [axes[number * down : (number + 1) * down].flatten() for number in range(columns)]
    hide(axes for block in blocks for axes in block[panels:])
    return figure, [block[:panels] for block in blocks]


def note_of(rows: Rows) -> str:
    """What points and bars are."""
    counts = sorted({len(group) for group in rows.values()})
    seeds = " to ".join(map(str, dict.fromkeys((counts[0], counts[-1]))))
    if counts[-1] < LEAST_SEEDS:
        return f"means over {seeds} seeds; below {LEAST_SEEDS} there are no intervals"
    return f"means over {seeds} seeds, bars are 95% intervals as on the page, from {LEAST_SEEDS} seeds on"


@dataclass(frozen=True)
class Point:
    """A mean as it is drawn, how far its bar goes below and above it, whether a seed lost its ring, and how many seeds
    the mean is of."""

    mean: float
    below: float
    above: float
    is_hollow: bool
    told: str


@dataclass(frozen=True)
class ColumnLines:
    """A column that is drawn as lines: the layout, the runs of each setting, and the numbers of all runs."""

    layout: Layout
    column: Column
    rows: Rows
    values: list[float]

    @cached_property
    def scale(self) -> tuple[float, str]:
        """What the numbers are multiplied by, and the label with the unit."""
        return self.column.scale(max(self.values, default=0))

    def draw(self, block: Any, across: int) -> None:
        """The panels of the column, so many of which are side by side."""
        limits = limits_of(self.layout.manifest, self.column.name)
        for place, panel in enumerate(self.layout.parts(self.layout.panels)):
            self.draw_panel(block[place], panel, place % across == 0)
            draw_across(block[place], limits, self.scale[0])
        same_limits(block, self.column, self.values)

    def draw_panel(self, axes: Any, panel: Values, is_first: bool) -> None:
        """One panel: a line for each value of the keys that lines are by."""
        layout = self.layout
        lines = layout.grouped(layout.of_panel(panel), layout.by)
        axis = Axis(layout.x, [value for part in layout.parts(layout.x_keys) for value in part] or [""])
        parts = layout.parts(layout.by)
        for number, part in enumerate(parts):
            self.draw_line(axes, axis, lines.get(part, []), number - (len(parts) - 1) / 2)
        axis.dress(axes)
        axes.set_ylabel(self.scale[1] if is_first else "")
        if layout.panels:
            axes.set_title(setting_words(layout.panels, panel))

    def draw_line(self, axes: Any, axis: Axis, line: list[Values], shift: float) -> None:
        """A line with its bars."""
        points = {one: point_of(self.column, self.rows[one], self.scale[0]) for one in line}
        drawn = [
            (axis.place(place_of(self.layout, one), shift), point) for one, point in points.items() if point is not None
        ]
        if not drawn:
            return
        drawn.sort(key=lambda pair: pair[0])
        look = self.layout.look(line[0])
        places, means = [place for place, _ in drawn], [point.mean for _, point in drawn]
        axes.plot(places, means, color=look.colour, linestyle=look.line, linewidth=1.4, zorder=2)
        bars = [[point.below for _, point in drawn], [point.above for _, point in drawn]]
        axes.errorbar(places, means, yerr=bars, fmt="none", ecolor=look.colour, elinewidth=1, capsize=2, zorder=1)
        for place, point in drawn:
            draw_marker(axes, place, point, look)


def draw_marker(axes: Any, place: float, point: Point, look: Look) -> None:
    """The marker of a point. It is hollow if a seed lost its ring."""
    face = "white" if point.is_hollow else look.colour
    axes.plot(
        [place], [point.mean], marker=look.marker, color=look.colour, markerfacecolor=face, markersize=5, zorder=3,
        clip_on=False,
    )
    if point.is_hollow:
        axes.annotate(point.told, (place, point.mean), (4, 4), textcoords="offset points", fontsize=6, color="0.25")


def point_of(column: Column, runs: list[Cells], scale: float) -> Point | None:
    """The point of a setting with these runs, if they have a mean."""
    found = column.mean(runs)
    if found.mean is None or not isfinite(found.mean):
        return None
    below, above = bar_of(found, column, scale)
    return Point(scale * found.mean, below, above, ring_lost(runs), f"{found.count} of {len(runs)}")


def bar_of(found: Interval, column: Column, scale: float) -> tuple[float, float]:
    """How far the bar of an interval goes below and above the mean, cut at 0 and, of shares, at 100%."""
    mean, ends = known(found.mean), found.ends()
    if ends is None:
        return 0.0, 0.0
    most = 1.0 if column.is_share else float("inf")
    return scale * max(0.0, mean - max(0.0, ends[0])), scale * max(0.0, min(most, ends[1]) - mean)


def place_of(layout: Layout, one: Values) -> str:
    """The value of the axis' key in a setting."""
    return layout.part(one, layout.x_keys)[0] if layout.x else ""


def same_limits(block: Any, column: Column, values: list[float]) -> None:
    """The panels of a column have one scale: logarithmic for times of more than two decades, else from 0 if that fits.

    A share that is near 100% or near 0 keeps to where its values are."""
    if column.is_wide(values):
        for axes in block:
            axes.set_yscale("log")
    low, high = ends_of(block)
    if column.is_share:
        low, high = max(low, 0), min(high, 100)
    elif block[0].get_yscale() != "log":
        low, high = 0, high * 1.04
    set_ends(block, low, high)
