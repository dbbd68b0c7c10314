"""Signals that stop a study: what it has begun is ended and removed first, so that nothing is left of it."""

import signal
import sys
from collections.abc import Iterator
from contextlib import contextmanager
from types import FrameType
from typing import NoReturn

STOPS = (signal.SIGHUP, signal.SIGINT, signal.SIGTERM)
"""The signals that ask a process to end."""


def stop(number: int, _frame: FrameType | None) -> NoReturn:
    """Ends this process with the status of a signal."""
    for one in STOPS:
        # A second signal must not stop what cleans up. If it were ignored, Python would complain of one that is there.
        signal.signal(one, lambda *_: None)
    sys.exit(128 + number)


def heed(*numbers: signal.Signals) -> None:
    """Ends this process so by these signals, but for those that are ignored, as SIGHUP is by nohup."""
    for number in numbers:
        if signal.getsignal(number) is not signal.SIG_IGN:
            signal.signal(number, stop)


@contextmanager
def stopped_cleanly() -> Iterator[None]:
    """Ends this process so by SIGHUP and SIGTERM. Of SIGINT Python makes an exception by itself."""
    numbers = (signal.SIGHUP, signal.SIGTERM)
    before = [(number, signal.getsignal(number)) for number in numbers]
    heed(*numbers)
    try:
        yield
    finally:
        for number, handler in before:
            signal.signal(number, handler)
