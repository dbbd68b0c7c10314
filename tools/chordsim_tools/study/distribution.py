"""How lookups' times and hops are distributed: the share found within each value, and the slowest lookups."""

from typing import Any

from chordsim_tools.study.figures import Plotter
from chordsim_tools.study.interval import interval
from chordsim_tools.study.limits import STYLE, handle, time_limits
from chordsim_tools.study.looks import Layout, Look, Values, time_words
from chordsim_tools.study.numbers import Cells, groups
from chordsim_tools.study.overtime import kept_lines
from chordsim_tools.study.small_plots import SmallPlot, small_plots

CDF_NOTE = (
    "thin: each seed; a line that ends below 100% has lookups that found nothing or were cut off by their asker's end"
)
TAIL_NOTE = (
    "means over the seeds that kept their ring, bands: pointwise 95% intervals; as p99 on the page: a lookup that was "
    "given up never ends, one that was cut off is censored; a line ends if fewer than ten lookups of a run are beyond"
)


def cdf_figure(plotter: Plotter) -> Any:
    """The share of lookups begun that had found an owner within a time, and within so many hops."""
    lines, layout = plotter.drawn.cdf, plotter.layout
    figure, plots = small_plots(plotter.pyplot, layout, 2, "row")
    times = [float(line["value"]) for line in lines if line["number"] == "us"]
    least, greatest = min((time for time in times if time > 0), default=1), max(times, default=1)
    by_setting = groups(lines, ["number", *layout.keys])
    for plot in plots:
        draw_cell(plot, by_setting, layout)
        time_axis(plot.axes[0], least, greatest)
    return plotter.finish(figure, "How long lookups take", CDF_NOTE, plotter.line_handles("-"))


def draw_cell(plot: SmallPlot, by_setting: dict[Values, list[Cells]], layout: Layout) -> None:
    """The plots of one cell: of times and, below it, of hops."""
    for axes, word in zip(plot.axes, ("us", "hops"), strict=True):
        draw_curves(axes, {one: by_setting.get((word, *one), []) for one in plot.settings}, layout, word == "hops")
        axes.set_ylim(0, 100)
        axes.set_xlabel("lookup time" if word == "us" else "hops")
        if plot.is_first:
            axes.set_ylabel("found, %\nof lookups begun")


def draw_curves(axes: Any, of_settings: dict[Values, list[Cells]], layout: Layout, steps: bool) -> None:
    """The curves of the settings in one plot."""
    for one, lines in of_settings.items():
        draw_cdf(axes, lines, layout.look(one), steps)


def time_axis(axes: Any, least: float, greatest: float) -> None:
    """An axis of times with units: logarithmic if they span more than two decades."""
    if greatest / least > 100:
        axes.set_xscale("log")
        axes.set_xticks([], minor=True)
        axes.set_xlim(least, greatest)
    else:
        axes.set_xlim(0, greatest)
        axes.locator_params(axis="x", nbins=4)
    axes.xaxis.set_major_formatter(lambda value, _: time_words(value) if value else "0")


def draw_cdf(axes: Any, lines: list[Cells], look: Look, steps: bool) -> None:
    """A line for each seed, the paler the more they are; the first five have two markers, at places of their own."""
    seeds = list(groups(lines, ["seed"]).values())
    pale = 0.7 * max(0.25, min(1, 8 / max(1, len(seeds))))
    for number, seed in enumerate(seeds):
        xs, ys = [float(line["value"]) for line in seed], [100 * float(line["share"]) for line in seed]
        style = {"drawstyle": "steps-post"} if steps else {}
        axes.plot(xs, ys, color=look.colour, linewidth=0.8, alpha=pale, **style)
        places = [len(xs) * ((7 * number + 5 + turn) % 23) // 23 for turn in (0, 11)] if number < 5 else []
        axes.plot(
            [xs[place] for place in places], [ys[place] for place in places], linestyle="none", marker=look.marker,
            markersize=3.5, color=look.colour,
        )


def tail_figure(plotter: Plotter) -> Any:
    """The share of lookups that take longer than a time, on a logarithmic axis."""
    drawn, layout = plotter.drawn, plotter.layout
    limits = time_limits(drawn.tables.manifest)
    figure, plots = small_plots(plotter.pyplot, layout, 1)
    by_setting = groups(kept_lines(drawn, drawn.tail, layout.keys), layout.keys)
    times = [float(line["us"]) for lines in by_setting.values() for line in lines] + [time for _, time in limits]
    least, greatest = min((time for time in times if time > 0), default=1), 1.05 * max(times, default=1)
    for plot in plots:
        axes = plot.axes[0]
        draw_tails(axes, {one: by_setting.get(one, []) for one in plot.settings}, layout)
        draw_limits(axes, limits)
        axes.set_yscale("log")
        axes.yaxis.set_major_formatter(lambda value, _: f"{value:g}")
        axes.set_xlabel("lookup time")
        if plot.is_first:
            axes.set_ylabel("lookups that take\nlonger, %")
        time_axis(axes, least, greatest)
    handles = plotter.line_handles("-") + ([handle(plotter.pyplot)] if limits else [])
    return plotter.finish(figure, "The slowest lookups", TAIL_NOTE, handles)


def tail_points(lines: list[Cells]) -> list[tuple[float, float, float, float]]:
    """The share that takes longer in percent, the mean time and the ends of its interval, if all seeds have it."""
    points = []
    by_share = groups(lines, ["percent"])
    seeds = max((len(group) for group in by_share.values()), default=0)
    for (percent,), group in by_share.items():
        found = interval(float(line["us"]) for line in group)
        if found.mean is not None and len(group) == seeds:
            half = found.half or 0.0
            points.append((100 - float(percent), found.mean, found.mean - half, found.mean + half))
    return sorted(points, reverse=True)


def draw_tails(axes: Any, of_settings: dict[Values, list[Cells]], layout: Layout) -> None:
    """The lines of the settings in one plot."""
    for one, lines in of_settings.items():
        draw_tail(axes, lines, layout.look(one))


def draw_tail(axes: Any, lines: list[Cells], look: Look) -> None:
    """The line of a setting with its band."""
    points = tail_points(lines)
    left = [point[0] for point in points]
    axes.plot([point[1] for point in points], left, color=look.colour, marker=look.marker, markersize=3, linewidth=1.2)
    axes.fill_betweenx(
        left, [max(0.0, point[2]) for point in points], [point[3] for point in points], alpha=0.2, linewidth=0,
        color=look.colour,
    )


def draw_limits(axes: Any, limits: list[tuple[float, float]]) -> None:
    """The limits of percentiles: lines have to be below and to the left of each corner."""
    for share, time in limits:
        left = 100 * (1 - share)
        axes.plot([0, time, time], [left, left, left / 10], **STYLE)
