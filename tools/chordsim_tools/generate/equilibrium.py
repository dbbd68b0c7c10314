"""Churn that starts in equilibrium: who is up at the start, and how long what has begun before still lasts.

In equilibrium a node is up with the probability E[L] / (E[L] + E[D]), and the time that is under way at the start is no
typical one: long times are met more often, in proportion to their length. What is left of it is an equally likely part
(Cox, Renewal Theory, chapter 5)."""

import math
from decimal import Decimal

from chordsim_tools.draws import TWENTY_DIGITS, WORD, Distribution, Draws, Exponential, Pareto

GREATEST_POWER = Decimal(100)
"""e to this is beyond all durations."""


def mean_of(law: Distribution) -> Decimal | None:
    """The mean in microseconds, if there is one."""
    if isinstance(law, Exponential):
        return Decimal(law.mean)
    if isinstance(law, Pareto):
        return law.alpha * law.least / (law.alpha - 1) if law.alpha > 1 else None
    return Decimal(law.least + law.greatest) / 2


def part(draws: Draws) -> Decimal:
    """An equally likely number above 0, up to 1."""
    return TWENTY_DIGITS.divide(Decimal(draws.word() + 1), Decimal(WORD))


def rest_of(law: Distribution, draws: Draws) -> int:
    """What is left, at the start, of a time of this law that is under way: at least 1 microsecond."""
    if isinstance(law, Exponential):
        return law.draw(draws)
    if isinstance(law, Pareto):
        # Met in proportion to its length, a time has the same law with ALPHA - 1.
        power = min(GREATEST_POWER, TWENTY_DIGITS.divide(draws.waiting(), law.alpha - 1))
        whole = TWENTY_DIGITS.multiply(TWENTY_DIGITS.exp(power), Decimal(law.least))
    else:
        least, greatest = Decimal(law.least) ** 2, Decimal(law.greatest) ** 2
        whole = TWENTY_DIGITS.sqrt(least + part(draws) * (greatest - least))
    return max(1, math.ceil(TWENTY_DIGITS.multiply(whole, part(draws))))


def is_up(lifetime: Distribution, down: Distribution, draws: Draws) -> bool:
    """Whether a node is up at the start. Both laws have a mean."""
    up, gone = mean_of(lifetime), mean_of(down)
    assert up is not None and gone is not None
    return part(draws) * (up + gone) <= up
