"""Exact intervals: of a share, of a rate, Student's t at any level, and the test of two settings on lost rings."""

import math
from collections.abc import Callable
from functools import cache


def root(rises: Callable[[float], float], low: float, high: float) -> float:
    """Where a function that rises goes through 0 between two places, by bisection."""
    for _ in range(200):
        middle = (low + high) / 2
        if middle in (low, high):
            break
        low, high = (middle, high) if rises(middle) < 0 else (low, middle)
    return (low + high) / 2


def at_least(successes: int, count: int, chance: float) -> float:
    """The probability of so many successes or more in `count` trials, each with this chance between 0 and 1."""
    first, second = math.log(chance), math.log1p(-chance)
    whole = math.lgamma(count + 1)
    return math.fsum(
        math.exp(whole - math.lgamma(k + 1) - math.lgamma(count - k + 1) + k * first + (count - k) * second)
        for k in range(successes, count + 1)
    )


def share_interval(successes: int, count: int, level: float = 0.95) -> tuple[float, float]:
    """The interval of Clopper and Pearson of a share of which `successes` of `count` were seen."""
    tail = (1 - level) / 2
    low = root(lambda p: at_least(successes, count, p) - tail, 0.0, 1.0) if successes > 0 else 0.0
    high = root(lambda p: at_least(successes + 1, count, p) - 1 + tail, 0.0, 1.0) if successes < count else 1.0
    return low, high


def below_or_at(seen: int, mean: float) -> float:
    """The probability of so many events or fewer of a Poisson law."""
    return math.fsum(math.exp(k * math.log(mean) - mean - math.lgamma(k + 1)) for k in range(seen + 1))


def count_interval(seen: int, level: float = 0.95) -> tuple[float, float]:
    """The interval of Garwood of the mean of a Poisson law that gave this count."""
    tail = (1 - level) / 2
    most = seen + 20 * math.sqrt(seen + 1) + 50
    low = root(lambda mean: 1 - below_or_at(seen - 1, mean) - tail, 0.0, most) if seen > 0 else 0.0
    return low, root(lambda mean: tail - below_or_at(seen, mean), 0.0, most)


def within(limit: float, degrees: int) -> float:
    """How much of Student's t lies within -limit to limit, by the finite sums for whole degrees of freedom."""
    angle = math.atan(limit / math.sqrt(degrees))
    square, odd = math.cos(angle) ** 2, degrees % 2
    total, term = 0.0, math.cos(angle) if odd else 1.0
    for place in range(1, (degrees - odd) // 2 + 1):
        total += term
        term *= square * (2 * place - 1 + odd) / (2 * place + odd)
    total *= math.sin(angle)
    return (angle + total) * 2 / math.pi if odd else total


@cache
def student(degrees: int, level: float = 0.95) -> float:
    """The limit within which, on both sides of 0, this much of Student's t lies."""
    most = 1.0
    while within(most, degrees) < level:
        most *= 2
    return root(lambda limit: within(limit, degrees) - level, 0.0, most)


def mcnemar(first: int, second: int) -> float:
    """The exact two-sided p-value of McNemar: so many pairs in which only the first, or only the second, failed."""
    count = first + second
    below, term = 0, 1
    for k in range(min(first, second) + 1):
        below += term
        term = term * (count - k) // (k + 1)
    # As a float the divisor would be too large from 1,024 pairs on. The quotient of two integers is not.
    return min(1.0, 2 * below / (1 << count))
