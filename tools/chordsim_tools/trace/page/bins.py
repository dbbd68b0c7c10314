"""Counts over time for a page: of all lines of the run, embedded or not."""

from array import array
from collections.abc import Iterable
from itertools import accumulate
from typing import Any

from chordsim_tools.study.survival import Times
from chordsim_tools.trace.lines import COMES_IN, CRASH, GOES, JOIN_FAILED, LEAVE, STRANDED, TIMEOUT
from chordsim_tools.trace.reading import Run
from chordsim_tools.trace.tables import step_times

COUNT = 1000
"""How many bins there are at most."""
STEPS = 250
"""How many steps have percentiles of lookup times at most."""
LEAST = {50: 1, 99: 100}
"""The percentiles, and of how many lookups each is one."""


def bins(run: Run) -> dict[str, Any]:
    """For each end of a bin how much there was at its time or before. Bin 0 ends at time 0."""
    end = max(run.history.scenario.duration_us if run.is_whole else run.reached, 1)
    width = -(-end // COUNT)
    count = -(-end // width) + 1

    def until(times: Iterable[int]) -> list[int]:
        """How many of these times are at the end of each bin or before."""
        at = array("q", bytes(8 * count))
        for time in times:
            at[-(-time // width)] += 1
        return list(accumulate(at))

    lines, lookups = run.history.lines, run.history.lines.lookups
    found = [one for one in lookups if one.outcome == "found"]
    alone = {"timeouts": TIMEOUT, "crashes": CRASH, "leaves": LEAVE, "joinsFailed": JOIN_FAILED, "stranded": STRANDED}
    kinds = {"joined": COMES_IN} | {word: frozenset((kind,)) for word, kind in alone.items()}
    members = run.history.members
    return {
        "width": width, "end": end, "count": count,
        "begun": until(one.begin for one in lookups),
        "found": until(one.end or 0 for one in found),
        "right": until(one.end or 0 for one in found if one.is_right),
        "defensible": until(one.end or 0 for one in found if one.is_defensible),
        "lost": until(one.end or 0 for one in lookups if one.outcome == "lost"),
        "cut": until(one.end or 0 for one in lookups if one.outcome in GOES),
        "members": [members.count_before(at * width + 1) for at in range(count)],
        **{word: until(lines.of_kind(*codes)) for word, codes in kinds.items()},
    }


def lookup_times(run: Run) -> dict[str, Any]:
    """Percentiles of the times of the lookups that begin in each step; none of too few or mostly lost ones."""
    end = max(run.history.scenario.duration_us if run.is_whole else run.reached + 1, 1)
    width = -(-end // STEPS)
    steps = step_times(run, width, -(-end // width))
    return {"step": width, **{f"p{share}": [known_time(one, share) for one in steps] for share in LEAST}}


def known_time(one: Times, share: int) -> int | None:
    """A percentile that is a time."""
    found = one.percentile(share) if one.count() >= LEAST[share] else None
    return found if isinstance(found, int) else None
