"""`tools/study plot`: plots of a study that was run, or of what is done of it so far."""

from collections.abc import Iterator
from dataclasses import dataclass
from pathlib import Path
from typing import Any

from chordsim_tools.cli import Progress
from chordsim_tools.explain.traps import warn
from chordsim_tools.files import write_whole
from chordsim_tools.place import tool
from chordsim_tools.study.columns import COST, Column, SpanColumn
from chordsim_tools.study.figures import Plotter, drawing, rendered
from chordsim_tools.study.front import Plane, front_figure
from chordsim_tools.study.layout import layout_of
from chordsim_tools.study.limits import span_numbers
from chordsim_tools.study.lines import Rows, lines_figure
from chordsim_tools.study.numbers import groups
from chordsim_tools.study.curves import TAIL
from chordsim_tools.study.distribution import cdf_figure, tail_figure
from chordsim_tools.study.overtime import SERVED, network_of, right_of, time_figure
from chordsim_tools.study.plot_files import FORMS, origin_of, write_origins
from chordsim_tools.study.so_far import Drawn, tables_of

TIMES = ("all-us-p50", "all-us-p99")
GAIN = "right-of-begun"


@dataclass
class Wish:
    """What is asked for: keys of the study, and columns of its table. What is left open gets a default."""

    x: str | None = None
    by: list[str] | None = None
    panels: list[str] | None = None
    y: list[str] | None = None
    most_lost: float = 0.0


Figures = Iterator[tuple[str, Any]]


def write_plots(folder: Path, named: Path | None = None, wish: Wish | None = None) -> None:
    """Writes the plots that are asked for, else all, each as PNG and SVG."""
    drawn = tables_of(folder, named)
    wish = wish or Wish()
    layout = layout_of(drawn.tables, wish.x, wish.by, wish.panels)
    columns = [Column(name, drawn.tables) for name in wish.y or []]
    plotter = Plotter(drawing(), drawn, layout)
    figures = asked(plotter, columns) if columns else all_figures(plotter, wish.most_lost)
    if not columns:
        warn(left_out(drawn))
    origin = origin_of(drawn.tables.manifest, drawn.mark)
    with Progress("plots", stays=True) as progress:
        for name, figure in figures:
            # Both are drawn first, so that there is little time to interrupt between a file and its origin.
            contents = {form: rendered(figure, form) for form in FORMS}
            plotter.pyplot.close(figure)
            write_forms(folder, name, contents, progress)
            write_origins(folder, [name], origin)


def write_forms(folder: Path, name: str, contents: dict[str, bytes], progress: Progress) -> None:
    """Writes the files of a plot."""
    for form, content in contents.items():
        write_whole(folder / f"{name}.{form}", content)
        progress.one_more()


def left_out(drawn: Drawn) -> list[str]:
    """What the tables of an older tools/study do not have, so that no plot draws it."""
    told = []
    if drawn.tables.series and SERVED not in drawn.tables.series[0]:
        told.append(f"right: no served, and right answers of those found; series.csv is of an older {tool('study')}")
    if TAIL not in drawn.tables.manifest["sha256"]:
        told.append(f"tail: not drawn, since an older {tool('study')} wrote no tail.csv")
    return told


def rows_of(plotter: Plotter) -> Rows:
    """The runs of each setting."""
    return groups(plotter.drawn.tables.runs, plotter.layout.keys)


def asked(plotter: Plotter, columns: list[Column]) -> Figures:
    """One plot of the columns that were named: its name is theirs."""
    name = "_".join(column.name.replace("/", "-of-") for column in columns)
    title = ", ".join(column.name for column in columns)
    yield name, lines_figure(plotter, columns, rows_of(plotter), title)


def all_figures(plotter: Plotter, most_lost: float) -> Figures:
    """All plots that the study has the numbers for."""
    drawn, rows = plotter.drawn, rows_of(plotter)
    times = [Column(name, drawn.tables) for name in TIMES]
    cost, gain = Column(COST, drawn.tables), Column(GAIN, drawn.tables)
    yield "times", lines_figure(plotter, [gain, *times], rows, "Right answers, and lookup time")
    spans: list[Column] = [SpanColumn(number, drawn.tables) for number in span_numbers(drawn.tables.manifest)]
    if spans:
        yield "spans", lines_figure(plotter, spans, rows, "The goal's numbers of spans")
    title, quantities = right_of(drawn.tables.series)
    yield "right", time_figure(plotter, quantities, drawn.tables.series, title)
    yield "cost", front_figure(plotter, [Plane(cost, gain), Plane(cost, times[1])], rows, most_lost)
    if drawn.steps:
        title, counts = network_of(drawn.steps)
        yield "network", time_figure(plotter, counts, drawn.steps, title)
    if drawn.cdf:
        yield "cdf", cdf_figure(plotter)
    if TAIL in drawn.tables.manifest["sha256"]:
        yield "tail", tail_figure(plotter)
