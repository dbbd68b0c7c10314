"""Rings that unravel: a member whose successor list runs empty strands and joins again, and so may its predecessor."""

from statistics import fmean

from chordsim_tools.study.interval import significant
from chordsim_tools.study.numbers import Cells, Summary, is_kept
from chordsim_tools.study.wrap import paragraph

MOST_NAMED = 5
"""So many settings are named on a page; of more their number is told."""
TEXT = (
    "**Rings that unravelled**: a member whose successor list runs empty is stranded and joins again as a new node. "
    "Its predecessor may then run out of successors too. "
)


def lost_rows(one: Summary) -> list[Cells]:
    """The runs of a setting that lost their rings."""
    return [cells for cells in one.rows if not is_kept(cells)]


def lost_told(one: Summary, word: str) -> str:
    """A count of the rings lost, for each run, as `745 (699..801)`."""
    counts = [int(cells[word]) for cells in lost_rows(one)]
    return f"{significant(fmean(counts), 3)} ({min(counts)}..{max(counts)})"


def unravelled(found: list[Summary]) -> str:
    """In which settings members were stranded before the ring was lost, how many, and from when on."""
    told = [text for one in found if (text := setting_told(one))]
    if not told:
        return ""
    more = len(told) - MOST_NAMED
    rest = f"; and {more} more setting{'' if more == 1 else 's'}" if more > 0 else ""
    return paragraph(f"{TEXT}{'; '.join(told[:MOST_NAMED])}{rest}.")


def setting_told(one: Summary) -> str:
    """What is told of a setting; nothing if no lost ring had stranded members, or if the tables do not say so."""
    rows = [cells for cells in lost_rows(one) if is_before_the_loss(cells)]
    if not rows:
        return ""
    times = sorted(int(cells["stranded-at-us"]) for cells in rows)
    when = time_words(times[0]) + (f" to {time_words(times[-1])}" if times[-1] > times[0] else "")
    told = f"{one.label}: {len(rows)} of {one.seeds} rings, from {when} on"
    # The count begins behind the warm-up, by which a ring may be lost.
    count = fmean(int(cells["cost-stranded"]) for cells in rows)
    return f"{told}, {significant(count, 3)} times a run" if count else told


def is_before_the_loss(cells: Cells) -> bool:
    """Whether a member was stranded before the ring was lost."""
    return bool(cells.get("stranded-at-us")) and int(cells["stranded-at-us"]) <= int(cells["lost-at-us"])


def time_words(micros: int) -> str:
    """A time to a tenth of a second, or to a millisecond if it is below a second."""
    return f"{micros / 1e6:.1f} s" if micros >= 1_000_000 else f"{micros / 1e3:.0f} ms"
