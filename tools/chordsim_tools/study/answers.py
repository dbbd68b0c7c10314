"""The answers of a run: how many name each node, and how long they take beside a round trip to the node they name."""

from collections import Counter
from itertools import compress
from operator import ne

from chordsim_tools.members import Members
from chordsim_tools.study.latencies import Latencies
from chordsim_tools.study.lookups import Lookups
from chordsim_tools.study.survival import percentile, ranked

SHARES = (1, 50, 99)
"""The percentiles of how many answers name a member."""
STRETCHES = (10, 50, 90)
"""Those of the stretch, as articles on routing give it."""


def stretches(answered: Lookups, latencies: Latencies) -> list[int]:
    """The thousandths of the stretch of each answer that names another node, in ascending order."""
    is_other = list(map(ne, answered.askers, answered.named))
    askers, named = (list(compress(names, is_other)) for names in (answered.askers, answered.named))
    ways = zip(compress(answered.us, is_other), latencies.of_all(askers, named), strict=True)
    # A round trip is twice the way there.
    return sorted(500 * us // away for us, away in ways)


def answer_numbers(answered: Lookups, members: Members, latencies: Latencies) -> dict[str, int | str | None]:
    """What a row of runs.csv has of the answers to the judged lookups, with the members at the end of the run."""
    named = Counter(answered.named)
    counts = [named[members.names[place]] for place in members.places]
    owned: dict[str, int | str | None] = {f"owned-p{share}": percentile(counts, share) for share in SHARES}
    owned["owned-most"] = max(counts, default=None)
    thousandths = stretches(answered, latencies)
    for share in STRETCHES:
        stretch = ranked(thousandths, share)
        owned[f"stretch-p{share}"] = None if stretch is None else f"{stretch / 1000:.3f}"
    return owned
