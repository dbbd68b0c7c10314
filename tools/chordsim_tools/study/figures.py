"""What all figures share: how they are begun, titled, and given a legend outside of their axes."""

import io
import textwrap
from collections.abc import Iterable, Sequence
from dataclasses import dataclass
from typing import Any

from chordsim_tools.cli import Failure
from chordsim_tools.place import remedy
from chordsim_tools.study.looks import Layout, Values, key_words, value_words
from chordsim_tools.study.so_far import Drawn

MISSING = (
    f"plots need numpy and matplotlib: {remedy('python3-numpy python3-matplotlib', 'numpy matplotlib', 'plot')}"
)


def drawing() -> Any:
    """matplotlib, set up so that the same data give the same bytes."""
    # Only plots need these packages, so that they are imported here. Without numpy matplotlib fails later on.
    # pylint: disable=import-outside-toplevel,unused-import
    try:
        import matplotlib
        import numpy

        matplotlib.use("Agg")
        from matplotlib import pyplot
    except ImportError:
        raise Failure(3, MISSING) from None
    matplotlib.rcdefaults()
    pyplot.rcParams.update({
        "svg.hashsalt": "chordsim", "font.size": 9, "axes.grid": True, "grid.alpha": 0.3, "axes.titlesize": 9,
        "axes.spines.top": False, "axes.spines.right": False, "legend.frameon": False, "legend.fontsize": 8,
    })
    return pyplot


def rendered(figure: Any, form: str) -> bytes:
    """The bytes of a figure, without a date and the name of a program."""
    file = io.BytesIO()
    metadata = {"Software": None} if form == "png" else {"Date": None}
    figure.savefig(file, format=form, dpi=120, metadata=metadata, bbox_inches="tight")
    return file.getvalue()


def grid(pyplot: Any, rows: int, columns: int, size: tuple[float, float], **shared: Any) -> tuple[Any, Any]:
    """A figure of rows and columns of axes, each of this size in inches."""
    figure, axes = pyplot.subplots(
        rows, columns, figsize=(columns * size[0], rows * size[1]), squeeze=False, layout="constrained", **shared
    )
    return figure, axes


def hide(places: Iterable[Any]) -> None:
    """Hides axes that nothing is drawn in."""
    for axes in places:
        axes.set_axis_off()


def ends_of(places: Sequence[Any]) -> tuple[float, float]:
    """The lowest and the highest end of some axes."""
    return min(axes.get_ylim()[0] for axes in places), max(axes.get_ylim()[1] for axes in places)


def set_ends(places: Sequence[Any], low: float, high: float) -> None:
    """Gives some axes the same ends."""
    for axes in places:
        axes.set_ylim(low, high)


@dataclass(frozen=True)
class Plotter:
    """What all figures of a study are drawn with: matplotlib, the tables, and the layout."""

    pyplot: Any
    drawn: Drawn
    layout: Layout

    def finish(self, figure: Any, title: str, note: str, handles: list[Any]) -> Any:
        """The title and, below it, how to read the figure; the legend to the right; the mark of what is not done."""
        width, height = figure.get_size_inches()
        lines = textwrap.wrap(note, int(max(width, 5) * 16))
        top = 1 + (0.1 + 0.14 * len(lines)) / height
        figure.text(0.01, top + 0.04 / height, title, fontsize=11, weight="bold", va="bottom")
        figure.text(0.01, 1 + 0.06 / height, "\n".join(lines), fontsize=8, color="0.3", va="bottom")
        mark = self.drawn.mark
        if mark:
            style = {"boxstyle": "round", "facecolor": "#FFF3CD", "edgecolor": "#D55E00"}
            figure.text(1, top + 0.06 / height, f"so far {mark}", fontsize=9, ha="right", va="bottom", bbox=style)
        if handles:
            where = {"loc": "upper left", "bbox_to_anchor": (1 + 0.1 / width, 1)}
            columns = 1 if len(handles) <= 24 else 2
            head = legend_head(self.layout.by)
            figure.legend(handles=handles, title=head or None, alignment="left", ncols=columns, **where)
        return figure

    def line_handles(self, line: str | None) -> list[Any]:
        """The entries of the legend: one for each value that lines are by; with its own line if none is given."""
        if not self.layout.by:
            return []
        handles = []
        for part, look in self.layout.looks.items():
            style = {"color": look.colour, "marker": look.marker, "markersize": 5, "linewidth": 1.4}
            own = look.line if line is None else line
            handles += [self.pyplot.Line2D([], [], linestyle=own, label=legend_words(self.layout.by, part), **style)]
        return handles


def legend_head(keys: list[str]) -> str:
    """The head of a legend: the keys, whose values alone are in its entries."""
    return ", ".join(map(key_words, keys))


def legend_words(keys: list[str], part: Values) -> str:
    """An entry: the values of the keys."""
    return ", ".join(value_words(key, value) for key, value in zip(keys, part, strict=True))
