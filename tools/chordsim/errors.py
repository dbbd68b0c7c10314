"""What the calls of this package raise, and how a failure of the tools becomes that."""

import re
from collections.abc import Iterator
from contextlib import contextmanager

from chordsim_tools.cli import Failure
from chordsim_tools.files import reason


class ChordsimError(Exception):
    """A call did not do what it is for. `text` says why, and `remedy` what to do about it, if that is known."""

    def __init__(self, text: str, remedy: str | None = None) -> None:
        """The message has both."""
        super().__init__(text if remedy is None else f"{text}; {remedy}")
        self.text = text
        self.remedy = remedy


class Refused(ChordsimError):
    """A file, a scenario or an argument is refused.

    `place` is the table or row at fault, such as `node 3`, or the name of an argument. `key` is the key there. `line`
    and `column` are those of the scenario's text, or of its latencies if the place is a row."""

    place: str | None = None
    key: str | None = None
    line: int | None = None
    column: int | None = None


class Failed(ChordsimError):
    """The program is missing, ended otherwise, or something else failed.

    `status` is the program's own, negative if a signal ended it, and 3 if no program ended."""

    def __init__(self, text: str, remedy: str | None = None, status: int = 3) -> None:
        """The same, and the status."""
        super().__init__(text, remedy)
        self.status = status


def refused_argument(name: str, text: str, remedy: str | None = None) -> Refused:
    """The refusal of an argument of a call."""
    refusal = Refused(f"{name}: {text}", remedy)
    refusal.place = name
    return refusal


@contextmanager
def failures_raised() -> Iterator[None]:
    """What the tools raise in here becomes an error of this package."""
    try:
        yield
    except Failure as fault:
        raise error_of(fault) from None
    except OSError as fault:
        named = "" if fault.filename is None else f"{fault.filename}: "
        raise Failed(f"{named}{reason(fault)}") from None


def error_of(fault: Failure) -> ChordsimError:
    """The error of a failure. One of arguments names the argument: `--finger-jitter: ..` is of `finger_jitter`."""
    if fault.status == 2 and (match := re.fullmatch(r"(?:--)?([a-z][a-z-]*): (.+)", fault.text, re.DOTALL)):
        return refused_argument(match[1].replace("-", "_"), match[2])
    return Refused(fault.text) if fault.status in (1, 2) else Failed(fault.text, status=fault.status)
