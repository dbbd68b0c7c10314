"""Small plots side by side: for each panel and value of the axis a cell, with plots one below the other."""

from dataclasses import dataclass
from typing import Any

from chordsim_tools.study.figures import grid, hide
from chordsim_tools.study.looks import Layout, Values, setting_words

MOST_ACROSS = 6


@dataclass(frozen=True)
class SmallPlot:
    """A cell: its settings, its axes from top to bottom, and whether it is the first of its row."""

    settings: list[Values]
    axes: list[Any]
    is_first: bool


def small_plots(pyplot: Any, layout: Layout, high: int, sharex: str = "all") -> tuple[Any, list[SmallPlot]]:
    """The figure, and its cells with their titles, each with so many axes one below the other."""
    cells = layout.cells()
    across = len(layout.parts(layout.x_keys))
    across = min(len(cells), MOST_ACROSS if not 1 < across <= MOST_ACROSS else across)
    down = -(-len(cells) // across)
    width = max(2.0, min(6.5, 11 / across))
    height = 2.4 if down == 1 else 1.6
    figure, axes = grid(pyplot, down * high, across, (width, height), sharex=sharex, sharey="row")
    places = [list(axes[row * high : row * high + high, column]) for row in range(down) for column in range(across)]
    hide(spare for place in places[len(cells) :] for spare in place)
    plots = []
    for number, cell in enumerate(cells):
        plots.append(SmallPlot(cell, places[number], number % across == 0))
        places[number][0].set_title(cell_words(layout, cell[0]))
    return figure, plots


def cell_words(layout: Layout, one: Values) -> str:
    """What a small plot is of: in two lines if there are two things to say."""
    across = setting_words(layout.x_keys, layout.part(one, layout.x_keys))
    panel = setting_words(layout.panels, layout.part(one, layout.panels))
    return "\n".join(text for text in (panel, across) if text)
