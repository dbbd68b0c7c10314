"""The values of options: what argparse reads them with, and their ranges where these depend on other options."""

from argparse import ArgumentTypeError, Namespace
from collections.abc import Callable, Iterable
from dataclasses import dataclass
from typing import Generic, NoReturn, TypeVar

from chordsim_tools.cli import Parser
from chordsim_tools.quantities import UNIT_NAMES, integer_of, time_of, time_text, whole_of

T = TypeVar("T")
GREATEST_SEED = 2**63 - 1


@dataclass(frozen=True)
class Given(Generic[T]):
    """The value of an option that was given, and the text that it was read from."""

    text: str
    value: T


@dataclass(frozen=True)
class Reader(Generic[T]):
    """A `type=` for argparse. `read` returns nothing for a text that is not wanted."""

    read: Callable[[str], T | None]
    wanted: str
    values: tuple[str, ...] = ()
    """All values of the option, if they are few."""

    def __call__(self, text: str) -> Given[T]:
        """The value with its text."""
        result = self.read(text)
        if result is None:
            raise ArgumentTypeError(f"{self.wanted}, not {text!r}{reversed_told(text)}")
        return Given(text, result)


def value(read: Callable[[str], T | None], wanted: str) -> Reader[T]:
    """What argparse reads an option with."""
    return Reader(read, wanted)


def reversed_told(text: str) -> str:
    """That the first time of a span is above the second, if it is."""
    ends = [time_of(end) for end in text.rpartition(":")[2].split("..")]
    if len(ends) != 2 or ends[0] is None or ends[1] is None or ends[0] <= ends[1]:
        return ""
    return ", whose first time is above its second"


def whole(least: int, greatest: int) -> Reader[int]:
    """A number in a range."""
    return value(within(whole_of, least, greatest), f"{least} to {greatest}")


def count(text: str) -> int:
    """A number of 1 or more, without its text."""
    number = whole_of(text)
    if not number:
        raise ArgumentTypeError(f"{text!r} is no integer from 1 up")
    return number


def one_of(*numbers: int) -> Reader[int]:
    """One of a few numbers, in ascending order."""
    *others, last = numbers
    wanted = f"{', '.join(map(str, others))} or {last}"

    def chosen(text: str) -> int | None:
        """The number, if it is one of them."""
        number = whole_of(text)
        return number if number in numbers else None

    return Reader(chosen, wanted, tuple(map(str, numbers)))


def a_whole() -> Reader[int]:
    """A number whose range depends on other options, so that `Options.whole` looks at it."""
    return value(integer_of, "a whole number")


def duration(least: int, greatest: int) -> Reader[int]:
    """A time in a range, in microseconds."""
    wanted = f"a time of {time_text(least)} to {time_text(greatest)} ({UNIT_NAMES})"
    return value(within(time_of, least, greatest), wanted)


def a_time() -> Reader[int]:
    """A time whose range depends on other options, so that `Options.time` looks at it."""
    return value(time_of, f"a time ({UNIT_NAMES})")


def choice(*choices: str) -> Reader[str]:
    """One of a few texts."""
    return Reader(lambda text: text if text in choices else None, " or ".join(choices), choices)


def within(read: Callable[[str], int | None], least: int, greatest: int) -> Callable[[str], int | None]:
    """A reader that takes the values of a range alone."""

    def read_in_range(text: str) -> int | None:
        """The value, or nothing."""
        number = read(text)
        return number if number is not None and least <= number <= greatest else None

    return read_in_range


class Options:
    """The options that were given, for checks that look at more than one of them."""

    def __init__(self, args: Namespace, parser: Parser) -> None:
        """What a parser has made of the arguments."""
        self.args = args
        self.parser = parser

    def given(self, name: str) -> Given[T] | None:
        """An option, if it was given."""
        found: Given[T] | None = getattr(self.args, name.replace("-", "_"))
        return found

    def all(self, name: str) -> list[Given[T]]:
        """An option that may be given several times, each time that it was."""
        return getattr(self.args, name.replace("-", "_")) or []

    def has(self, name: str) -> bool:
        """Whether an option was given."""
        return self.given(name) is not None

    def get(self, name: str, default: T) -> T:
        """The value of an option, or the default."""
        given: Given[T] | None = self.given(name)
        return default if given is None else given.value

    def whole(self, name: str, default: int, least: int, greatest: int, why: str = "") -> int:
        """A number in a range that other options set."""
        return self.in_range(name, default, least, greatest, f"{least} to {greatest}{why}")

    def time(self, name: str, default: int, least: int, greatest: int, why: str = "") -> int:
        """A time in a range that other options set, in microseconds."""
        wanted = f"a time of {time_text(least)} to {time_text(greatest)}{why}"
        return self.in_range(name, default, least, greatest, wanted)

    def in_range(self, name: str, default: int, least: int, greatest: int, wanted: str) -> int:
        """The value of an option, or the default."""
        given: Given[int] | None = self.given(name)
        if given is not None and not least <= given.value <= greatest:
            self.refuse(name, f"{wanted}, not {given.text!r}")
        return default if given is None else given.value

    def only_with(self, name: str, fits: bool, others: str) -> None:
        """Refuses an option that would change nothing."""
        if self.has(name) and not fits:
            self.refuse(name, f"only with {others}")

    def all_only_with(self, names: Iterable[str], fits: bool, others: str) -> None:
        """Refuses the first of some options that was given and would change nothing."""
        for name in names:
            self.only_with(name, fits, others)

    def refuse(self, name: str, text: str) -> NoReturn:
        """Ends with status 2 and a line that names the option."""
        self.parser.error(f"--{name}: {text}")
