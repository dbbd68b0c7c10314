"""How far numbers of messages may be off that are estimated, as they are in profiles 1 and 2."""

from collections.abc import Mapping

MOST_ERROR = 0.03
"""How far off all messages together are at most, as a share, if the ring is kept for 40 timeouts and 30 periods.
docs/studies.md says how it was tried, and tests/test_study_messages.py repeats some of it."""
OLDER_ERROR = 0.06
"""The same for tables of an older tools/study, which counted fewer of the turns that a stabilization skips."""
GROUPS = {
    ("step", "step-reply"): 0.06, ("get-state", "state-reply", "notify"): 0.04, ("get-list", "list-reply"): 0.02,
    ("ping", "pong"): 0.04,
}
"""Kinds that are off together, and how far their mean is off at most, as a share of all messages. What one group has
too many, others have too few."""
WITHIN = 0.01
"""How far a kind is off more or less than the mean of its group."""


def most_off(sizes: Mapping[str, int]) -> float:
    """How far off the bytes are at most, for each message that was estimated, with these sizes of each kind.

    The errors of the groups are within their bounds, and so is their sum. The greatest sum of errors times sizes is the
    least of what `with_common` has for any size (linear programming: its dual has one variable)."""
    means = {kinds: sum(sizes[kind] for kind in kinds) / len(kinds) for kinds in GROUPS}

    def with_common(common: float) -> float:
        """What the sum bounds of sizes up to this one, and the groups bound of the rest."""
        rest = (error * len(kinds) * abs(means[kinds] - common) for kinds, error in GROUPS.items())
        return MOST_ERROR * common + sum(rest)

    within = WITHIN * sum(abs(sizes[kind] - mean) for kinds, mean in means.items() for kind in kinds)
    return min(map(with_common, {0.0, *means.values()})) + within
