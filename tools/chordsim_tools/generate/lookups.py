"""The lookups that tools/generate is asked for: by the program itself, or by commands."""

from decimal import Decimal

from chordsim_tools.draws import Zipf, zipf_of
from chordsim_tools.options import Given, Options
from chordsim_tools.quantities import BILLION, decimal_of, span_of
from chordsim_tools.scenario.reading import Lookups

LENGTHS = "MIN..MAX, each 1us to 1000s"
RATES = "0.000001 to 1000000, with at most nine digits after the point"
MOST_KEYS = 100_000
Span = tuple[int, int]


def length_span_of(text: str) -> Span | None:
    """A span of two times of 1us to 1000s, or nothing."""
    ends = span_of(text)
    return ends if ends is not None and 1 <= ends[0] and ends[1] <= BILLION else None


def gap_of(text: str) -> Span | str | None:
    """The gap of lookups: a span, or `none`."""
    return text if text == "none" else length_span_of(text)


def lookups_of(options: Options) -> Lookups | None:
    """The table [lookups]: by default there is one if no lookups are drawn."""
    default: Span | str = "none" if options.has("lookups") else (500_000, 1_500_000)
    gap = options.get("lookup-gap", default)
    return None if isinstance(gap, str) else Lookups(*gap)


def rate_of(text: str) -> Decimal | None:
    """A rate of lookups, or nothing."""
    rate = decimal_of(text)
    return rate if rate is not None and Decimal("0.000001") <= rate <= 1_000_000 else None


def law_of(text: str) -> Zipf | str | None:
    """The law of the keys to look up: Zipf's, or `uniform`."""
    return text if text == "uniform" else zipf_of(text)


def keys_wanted(greatest: int) -> str:
    """What may be given as the law of keys."""
    return f"uniform or zipf:S:COUNT, S 0 to 10, COUNT 1 to {greatest}"


def keys_of(options: Options, bits: int) -> Zipf | None:
    """The law of the keys to look up; none if all keys are alike."""
    given: Given[Zipf | str] | None = options.given("keys")
    if given is None or isinstance(given.value, str):
        return None
    if given.value.count > 2**bits:
        options.refuse("keys", f"{keys_wanted(2**bits)}, not {given.text!r}")
    return given.value
