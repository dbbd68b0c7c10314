"""Random numbers and the distributions of lives, down times and keys.

Of Python's generator only `random` is used, whose sequence for a seed stays the same in all versions of Python. All
else is whole numbers and decimals with 20 digits, rounded as decimals are, so that no machine gives another result.
"""

import math
from array import array
from bisect import bisect_right
from collections.abc import Iterable
from dataclasses import dataclass
from decimal import ROUND_HALF_EVEN, Context, Decimal
from itertools import accumulate
from random import Random

from chordsim_tools.cli import Progress
from chordsim_tools.quantities import decimal_of, span_of, time_of

TWENTY_DIGITS = Context(prec=20, rounding=ROUND_HALF_EVEN)
WORD = 2**53
GREATEST_TIME = 10**12


class Draws:
    """A stream of random numbers."""

    def __init__(self, seed: int) -> None:
        """The stream of this seed."""
        self.random = Random(seed).random

    def word(self) -> int:
        """A number below 2^53."""
        return int(self.random() * WORD)

    def below(self, bound: int) -> int:
        """A number below the bound, which is at most 10^12."""
        return self.word() * bound >> 53

    def between(self, least: int, greatest: int) -> int:
        """A number of a span, both ends included."""
        return least + self.below(greatest - least + 1)

    def key(self, bits: int) -> int:
        """A number below 2^bits, from two words, or four if there are more than 64 bits."""
        wide = self.half_words(2) if bits <= 64 else self.half_words(4)
        return wide >> (-bits % 64)

    def choose(self, numbers: Iterable[int], count: int) -> list[int]:
        """So many of these numbers, in ascending order. Each choice is equally likely."""
        pool = list(numbers)
        for place in range(count):
            other = self.between(place, len(pool) - 1)
            pool[place], pool[other] = pool[other], pool[place]
        return sorted(pool[:count])

    def half_words(self, count: int) -> int:
        """The number that `count` times 32 bits write, the first ones the highest."""
        number = 0
        for _ in range(count):
            number = number << 32 | self.word() % 2**32
        return number

    def waiting(self) -> Decimal:
        """An exponential waiting time with the mean 1."""
        return -TWENTY_DIGITS.ln(TWENTY_DIGITS.divide(Decimal(self.word() + 1), Decimal(WORD)))

    def split(self, count: int) -> list["Draws"]:
        """`count` streams of their own. A greater count gives the same ones first."""
        return [Draws(self.word()) for _ in range(count)]


class Split:
    """Streams of their own, as `Draws.split` gives them. Each is made when it is asked for, and is at its beginning."""

    def __init__(self, draws: Draws, count: int) -> None:
        """The streams that this one is split into."""
        self.seeds = array("Q", (draws.word() for _ in range(count)))

    def __getitem__(self, place: int) -> Draws:
        """A stream. It takes much more room than its seed, so nobody keeps those of many nodes."""
        return Draws(self.seeds[place])


@dataclass(frozen=True)
class Exponential:
    """Times with an exponential distribution, rounded up to whole microseconds."""

    mean: int

    def draw(self, draws: Draws) -> int:
        """A time in microseconds, at least 1."""
        return max(1, math.ceil(TWENTY_DIGITS.multiply(draws.waiting(), Decimal(self.mean))))


@dataclass(frozen=True)
class Pareto:
    """Times with a Pareto distribution, rounded up: one is above x with the probability (least / x)^alpha."""

    alpha: Decimal
    least: int

    def draw(self, draws: Draws) -> int:
        """A time in microseconds, not below the least."""
        factor = TWENTY_DIGITS.exp(TWENTY_DIGITS.divide(draws.waiting(), self.alpha))
        return math.ceil(TWENTY_DIGITS.multiply(factor, Decimal(self.least)))


@dataclass(frozen=True)
class Uniform:
    """Times that are equally likely, both ends included."""

    least: int
    greatest: int

    def draw(self, draws: Draws) -> int:
        """A time in microseconds."""
        return draws.between(self.least, self.greatest)


Distribution = Exponential | Pareto | Uniform


def distribution_of(text: str) -> Distribution | None:
    """exp:MEAN, pareto:ALPHA:MIN or uniform:MIN..MAX, or nothing."""
    name, *parts = text.split(":")
    match name, parts:
        case "exp", [mean]:
            micros = time_of(mean)
            return Exponential(micros) if micros is not None and is_length(micros) else None
        case "pareto", [alpha, least]:
            number, micros = decimal_of(alpha), time_of(least)
            if number is None or micros is None or not (Decimal("0.1") <= number <= 100 and is_length(micros)):
                return None
            return Pareto(number, micros)
        case "uniform", [span]:
            ends = span_of(span)
            return Uniform(*ends) if ends is not None and is_length(ends[0]) and is_length(ends[1]) else None
    return None


def is_length(micros: int) -> bool:
    """Whether a time is one that a life can take."""
    return 1 <= micros <= GREATEST_TIME


@dataclass(frozen=True)
class Zipf:
    """Keys by Zipf's law: of `count` keys the one at place k, from 1, is drawn in proportion to 1 / k^exponent."""

    exponent: Decimal
    count: int


def zipf_of(text: str) -> Zipf | None:
    """zipf:S:COUNT, or nothing."""
    name, *parts = text.split(":")
    if name != "zipf" or len(parts) != 2:
        return None
    exponent, count = decimal_of(parts[0]), decimal_of(parts[1])
    if exponent is None or exponent > 10 or count is None or count % 1 != 0 or not 1 <= count <= 100_000:
        return None
    return Zipf(exponent, int(count))


class Keys:
    """Keys to look up: of a few that are drawn once, by Zipf's law, or of the whole circle alike."""

    def __init__(self, bits: int, law: Zipf | None, draws: Draws) -> None:
        """The keys of a circle. With a law, its keys are drawn first, all different."""
        self.bits = bits
        self.popular: list[int] = []
        self.sums: list[int] = []
        if law is None:
            return
        drawn: dict[int, None] = {}
        while len(drawn) < law.count:
            drawn[draws.key(bits)] = None
        self.popular = list(drawn)
        self.sums = list(accumulate(weights(law)))

    def draw(self, draws: Draws) -> int:
        """A key."""
        if not self.popular:
            return draws.key(self.bits)
        return self.popular[bisect_right(self.sums, draws.word() * self.sums[-1] >> 53)]


def weights(law: Zipf) -> list[int]:
    """The weights of all keys, in their order."""
    made: list[int] = []
    with Progress("keys whose shares are computed", law.count) as progress:
        for place in range(1, law.count + 1):
            made.append(weight(place, law.exponent))
            progress.one_more()
    return made


def weight(place: int, exponent: Decimal) -> int:
    """10^18 / place^exponent, rounded down, and at least 1."""
    power = TWENTY_DIGITS.exp(TWENTY_DIGITS.multiply(TWENTY_DIGITS.ln(Decimal(place)), exponent))
    return max(1, int(TWENTY_DIGITS.divide(Decimal(10**18), power)))
