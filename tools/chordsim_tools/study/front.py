"""What a setting costs and what it gives: the Pareto front of each world."""

from dataclasses import dataclass
from functools import cached_property
from math import isfinite
from typing import Any, NamedTuple

from chordsim_tools.known import known
from chordsim_tools.study.columns import Column, ring_lost
from chordsim_tools.study.exact import student
from chordsim_tools.study.figures import Plotter
from chordsim_tools.study.interval import LEAST_SEEDS, Interval
from chordsim_tools.study.limits import draw_across, handle, limits_of
from chordsim_tools.study.lines import Rows, bar_of, blocks_of
from chordsim_tools.study.looks import Layout, Values, setting_words
from chordsim_tools.study.numbers import Cells

MOST_LABELS = 10
ON, UNSURE, BELOW, LOST = "on the front", "not surely dominated", "dominated", "rings were lost"
EDGE = "at an edge: beyond it"
LEVEL = 0.05
TITLE = "Cost, and what it gives"
NOTE = (
    "steps: the best of each cost; dominated: costs more and gives less than one on the front, both by paired "
    "differences of the same seeds (t, 5% shared by all settings); bars are 95% intervals"
)


Label = tuple[str, float, float]
"""The words of a point, and where it is."""
Box = tuple[float, float, float, float]
"""The left, lower, right and upper end of a label, in pixels."""


@dataclass
class Spot:
    """A setting in the plane: its two means, scaled, and where it stands."""

    setting: Values
    x: Interval
    y: Interval
    rows: list[Cells]
    state: str


@dataclass
class Plane:
    """The two columns, of which less of the first is better, and the better way of the second."""

    cost: Column
    gain: Column

    @property
    def sign(self) -> int:
        """What the second one is multiplied by, so that less is better."""
        return -1 if self.gain.greater_is_better else 1

    def point(self, spot: Spot) -> tuple[float, float]:
        """The means, so that less is better."""
        return known(spot.x.mean), self.sign * known(spot.y.mean)


def spots_of(plane: Plane, settings: list[Values], rows: Rows, most_lost: float = 0.0) -> list[Spot]:
    """The settings of a world that have both numbers, and which of them are on the front."""
    found = (spot_of(plane, setting, rows[setting], most_lost) for setting in settings)
    spots = [spot for spot in found if spot is not None]
    kept = [spot for spot in spots if spot.state != LOST]
    front = [spot for spot in kept if not any(beats(plane.point(other), plane.point(spot)) for other in kept)]
    for spot in kept:
        spot.state = ON if spot in front else state_of(plane, spot, front, len(kept) - len(front))
    return spots


def spot_of(plane: Plane, setting: Values, runs: list[Cells], most_lost: float) -> Spot | None:
    """A setting that has both numbers. It is lost if more than this share of its runs lost their rings."""
    x, y = (column.mean(runs) for column in (plane.cost, plane.gain))
    if x.mean is None or y.mean is None or not isfinite(x.mean) or not isfinite(y.mean):
        return None
    lost = sum(ring_lost([cells]) for cells in runs) / len(runs)
    return Spot(setting, x, y, runs, LOST if lost > most_lost else BELOW)


def beats(one: tuple[float, float], other: tuple[float, float]) -> bool:
    """Whether a point is no worse in both numbers, and better in one. Equal points do not beat each other."""
    return one != other and one[0] <= other[0] and one[1] <= other[1]


def state_of(plane: Plane, spot: Spot, front: list[Spot], tests: int) -> str:
    """Whether a setting off the front is surely worse in both numbers than one on it."""
    return BELOW if any(surely_beats(plane, other, spot, tests) for other in front) else UNSURE


def surely_beats(plane: Plane, one: Spot, other: Spot, tests: int) -> bool:
    """Whether both differences, of runs of the same seed, are surely below 0; `tests` settings share the level."""
    theirs = {cells["seed"]: cells for cells in other.rows}
    pairs = [(cells, theirs[cells["seed"]]) for cells in one.rows if cells["seed"] in theirs]
    for column, sign in ((plane.cost, 1), (plane.gain, plane.sign)):
        both = [(column.of(mine), column.of(other_cells)) for mine, other_cells in pairs]
        differences = [sign * (a - b) for a, b in both if a is not None and b is not None and isfinite(a + b)]
        if not is_below_zero(differences, LEVEL / tests, column.error(one.rows) + column.error(other.rows)):
            return False
    return True


def is_below_zero(values: list[float], level: float, error: float = 0.0) -> bool:
    """Whether the mean of these is below 0 by more than the error, by Student's t at this level, two-sided."""
    if len(values) < LEAST_SEEDS:
        return False
    count = len(values)
    mean = sum(values) / count
    deviation = (sum((value - mean) ** 2 for value in values) / (count - 1)) ** 0.5
    return bool(mean + student(count - 1, 1 - level) * deviation / count**0.5 < -error)


def front_figure(plotter: Plotter, planes: list[Plane], rows: Rows, most_lost: float) -> Any:
    """A row for each plane, a column for each world."""
    layout, pyplot = plotter.layout, plotter.pyplot
    panels = len(layout.parts(layout.panels))
    figure, blocks = blocks_of(pyplot, len(planes), panels, min(panels, 3), 5)
    fronts = [
        front for block, plane in zip(blocks, planes, strict=True)
        for front in fronts_of(plotter, plane, block, rows, most_lost)
    ]
    labels = [front.draw() for front in fronts]
    figure.draw_without_rendering()
    for front, written in zip(fronts, labels, strict=True):
        write_labels(front.axes, written)
    states = {spot.state for front in fronts for spot in front.spots}
    handles = plotter.line_handles("none") + state_handles(pyplot, states)
    if any(limits_of(layout.manifest, plane.gain.name) for plane in planes):
        handles.append(handle(pyplot))
    return plotter.finish(figure, TITLE, note_of(most_lost), handles)


def note_of(most_lost: float) -> str:
    """How to read the figure."""
    return NOTE + (f"; a ring may be lost in {most_lost:.3g} of the seeds" if most_lost else "")


@dataclass(frozen=True)
class Front:
    """One plot: its axes, the plane, the settings of a world in it, and the second number of all runs."""

    axes: Any
    layout: Layout
    plane: Plane
    spots: list[Spot]
    gains: list[float]

    @cached_property
    def scale(self) -> tuple[float, str]:
        """What the second number is multiplied by, and its label with the unit."""
        return self.plane.gain.scale(max(self.gains, default=0))

    def place(self, spot: Spot) -> tuple[float, float]:
        """Where a setting is drawn."""
        return known(spot.x.mean), self.scale[0] * known(spot.y.mean)

    def on_front(self) -> list[Spot]:
        """The settings on the front, from the least cost on."""
        return sorted((spot for spot in self.spots if spot.state == ON), key=self.plane.point)

    def draw(self) -> list[Label]:
        """The settings of a world, and their front. Returns the labels, which are written when all else has its
        place."""
        axes, plane = self.axes, self.plane
        self.draw_steps()
        kept = [spot for spot in self.spots if spot.state != LOST]
        for spot in kept if len(kept) > 1 else self.spots:
            self.draw_spot(spot)
        axes.margins(0.12)
        if plane.gain.is_share:
            axes.set_ylim(top=min(100.0, axes.get_ylim()[1]))
        self.draw_lost()
        axes.set_xlabel(plane.cost.scale(0)[1])
        axes.set_ylabel(self.scale[1])
        draw_across(axes, limits_of(self.layout.manifest, plane.gain.name), self.scale[0])
        if plane.gain.is_wide(self.gains):
            axes.set_yscale("log")
        return self.labels()

    def draw_steps(self) -> None:
        """The front: the best of each cost."""
        places = [self.place(spot) for spot in self.on_front()]
        self.axes.step([x for x, _ in places], [y for _, y in places], where="post", color="0.35", linewidth=1.2,
                       zorder=1)

    def draw_spot(self, spot: Spot) -> None:
        """A setting: full on the front, pale if not surely dominated, hollow if dominated, crossed if lost."""
        look = self.layout.look(spot.setting)
        x, y = self.place(spot)
        faces = {ON: look.colour, UNSURE: paler(look.colour), BELOW: "white", LOST: "white"}
        faded = 1.0 if spot.state in (ON, UNSURE) else 0.55
        numbers = ((spot.x, self.plane.cost, 1), (spot.y, self.plane.gain, self.scale[0]))
        bars = [[[part] for part in bar_of(*one)] for one in numbers]
        self.axes.errorbar([x], [y], xerr=bars[0], yerr=bars[1], fmt="none", ecolor=look.colour, elinewidth=0.7,
                           alpha=0.5 * faded, zorder=1)
        self.axes.plot([x], [y], marker=look.marker, color=look.colour, markerfacecolor=faces[spot.state], alpha=faded,
                       markersize=7 if spot.state == ON else 6, linestyle="none", zorder=4 if spot.state == ON else 3)

    def draw_lost(self) -> None:
        """The settings whose rings were lost: crossed; at the edge if they are beyond, so that the others keep their
        scale."""
        limits = (self.axes.get_xlim(), self.axes.get_ylim())
        style = {"linestyle": "none", "clip_on": False, "zorder": 2}
        for spot in (one for one in self.spots if one.state == LOST):
            x, y = (min(max(value, low), high) for value, (low, high) in zip(self.place(spot), limits, strict=True))
            look = self.layout.look(spot.setting)
            self.axes.plot([x], [y], marker=look.marker, color=look.colour, markerfacecolor="white", markersize=7,
                           **style)
            self.axes.plot([x], [y], marker="x", color="black", markersize=5, **style)
            self.axes.set_xlim(limits[0])
            self.axes.set_ylim(limits[1])

    def labels(self) -> list[Label]:
        """The labels of all settings, or of those on the front if there are many."""
        labelled = self.spots if len(self.spots) <= MOST_LABELS else self.on_front()
        return [(label_of(self.layout, spot), *self.place(spot)) for spot in sorted(labelled, key=self.plane.point)]


def fronts_of(plotter: Plotter, plane: Plane, block: Any, rows: Rows, most_lost: float) -> list[Front]:
    """The plots of a plane: one for each world."""
    layout = plotter.layout
    gains = plane.gain.values(plotter.drawn.tables.runs)
    fronts = []
    for axes, panel in zip(block, layout.parts(layout.panels), strict=True):
        spots = spots_of(plane, layout.of_panel(panel), rows, most_lost)
        fronts.append(Front(axes, layout, plane, spots, gains))
        if layout.panels:
            axes.set_title(setting_words(layout.panels, panel))
    return fronts


def label_of(layout: Layout, spot: Spot) -> str:
    """The value of the axis' key, and how many seeds lost their rings."""
    words = setting_words(layout.x_keys, layout.part(spot.setting, layout.x_keys))
    lost = sum(ring_lost([cells]) for cells in spot.rows)
    return words + (f" ({lost} of {len(spot.rows)} lost)" if lost else "")


def write_labels(axes: Any, labels: list[Label]) -> None:
    """Writes the labels beside their points, where none is over another; what has no place is left out."""
    taken: list[Box] = []
    named: list[Label] = []
    frame, size = axes.get_window_extent(), 7 * axes.figure.dpi / 72
    for words, x, y in dict.fromkeys(labels):
        here = tuple(map(float, axes.transData.transform((x, y))))
        if any(same == words and abs(a - here[0]) + abs(b - here[1]) < 4 * size for same, a, b in named):
            continue
        places = (place for place in label_places(words, here, size) if is_inside(place.box, frame, size))
        free = next((place for place in places if not any(overlap(place.box, other) for other in taken)), None)
        if free is not None:
            taken.append(free.box)
            named.append((words, here[0], here[1]))
            axes.annotate(
                words, (x, y), (free.right * 7, free.up * 7), fontsize=7, textcoords="offset points", color="0.25"
            ).set_in_layout(False)


class LabelPlace(NamedTuple):
    """How far to the right of its point and above it a label is, in sizes of its letters; and its box."""

    right: float
    up: float
    box: Box


def label_places(words: str, here: tuple[float, ...], size: float) -> list[LabelPlace]:
    """Where a label may be beside a point, the best place first."""
    width = 0.55 * size * len(words)
    left = -0.8 - width / size
    places = []
    for right, up in ((0.8, 0.6), (0.8, -1.5), (left, 0.6), (left, -1.5), (1.2, -0.4)):
        x, y = here[0] + right * size, here[1] + up * size
        places.append(LabelPlace(right, up, (x, y, x + width, y + size)))
    return places


def is_inside(box: Box, frame: Any, size: float) -> bool:
    """Whether a box is in the frame; to the right it may be a little beyond."""
    return bool(frame.x0 <= box[0] and box[2] <= frame.x1 + 2 * size and frame.y0 < box[1] and box[3] < frame.y1)


def overlap(one: Box, other: Box) -> bool:
    """Whether two boxes have a place in common."""
    return one[0] < other[2] and other[0] < one[2] and one[1] < other[3] and other[1] < one[3]


def paler(colour: str) -> str:
    """A colour, mixed with white."""
    parts = (int(colour[place : place + 2], 16) for place in (1, 3, 5))
    return "#" + "".join(f"{255 - (255 - part) * 2 // 5:02x}" for part in parts)


def state_handles(pyplot: Any, states: set[str]) -> list[Any]:
    """The entries of the legend that say what full, pale, hollow and crossed markers are, as far as there are such."""
    style = {"color": "0.35", "marker": "o", "linestyle": "none", "markersize": 6}
    handles = [
        pyplot.Line2D([], [], label=text, markerfacecolor=face, **style)
        for text, face in ((ON, "0.35"), (UNSURE, "0.8"), (BELOW, "white")) if text in states
    ]
    if LOST in states:
        style |= {"color": "black", "marker": "x"}
        handles.append(pyplot.Line2D([], [], label=f"{LOST}\n{EDGE}", **style))
    return handles
