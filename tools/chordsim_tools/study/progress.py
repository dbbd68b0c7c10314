"""How far a study is: a bar on a terminal, a line now and then in a log."""

import sys
import time
from collections.abc import Callable
from types import TracebackType

from chordsim_tools.cli import say
from chordsim_tools.study.load import Load

LOG_SECONDS = 30.0
"""How often a log gets a line."""
BAR_SECONDS = 0.2
QUIET_SECONDS = 2.0
"""How long a terminal sees nothing at first, so that short work says nothing."""
WIDTH = 30


def time_words(seconds: float) -> str:
    """A time for a reader: 40 s, 5 min, 2 h 10 min, 3 d 4 h."""
    if seconds < 90:
        return f"{seconds:.0f} s"
    minutes = round(seconds / 60)
    if minutes < 90:
        return f"{minutes} min"
    hours, minutes = divmod(minutes, 60)
    if hours < 48:
        return f"{hours} h {minutes} min" if minutes else f"{hours} h"
    days, hours = divmod(hours, 24)
    return f"{days} d {hours} h" if hours else f"{days} d"


class RunProgress:
    """Runs done of all, and the time left by what the runs of each setting have taken since the start."""

    def __init__(
        self, total: int, done: int, clock: Callable[[], float] = time.monotonic, load: Load | None = None
    ) -> None:
        """Work that begins now, with some of the runs done before. Without a load all runs are alike."""
        self.total = total
        self.done = done
        self.clock = clock
        self.start = clock()
        self.load = load or Load([("", 1.0)] * (total - done))
        self.is_bar = sys.stderr is not None and sys.stderr.isatty()
        self.next = self.start + (QUIET_SECONDS if self.is_bar else LOG_SECONDS)
        self.said = False

    def one_more(self, setting: str = "", seconds: float | None = None) -> None:
        """One more run is done, of this setting and in this time, if that is known."""
        self.done += 1
        self.load.one_more(setting, seconds)
        self.tick()

    def tick(self) -> None:
        """Says how far the work is, if it is time to. Call it once a second or more often."""
        now = self.clock()
        if now < self.next:
            return
        # A clock that was stopped, as when a machine sleeps, makes no heap of lines.
        self.next = now + (BAR_SECONDS if self.is_bar else LOG_SECONDS)
        self.say()

    def say(self) -> None:
        """The bar, or the line."""
        self.said = True
        say(f"\r{self.drawn()} {self.text()}\x1b[K" if self.is_bar else f"{self.text()}\n")

    def text(self) -> str:
        """As `29 of 150 runs, 5 min left`."""
        text = f"{self.done} of {self.total} runs"
        left = self.left()
        return text if left is None else f"{text}, {time_words(left)} left"

    def left(self) -> float | None:
        """The seconds left, if a run was done since the start and there is one to do."""
        return None if self.done == self.total else self.load.seconds_left(self.clock() - self.start)

    def drawn(self) -> str:
        """The share that is done."""
        full = WIDTH * self.done // max(1, self.total)
        return f"[{'#' * full}{'-' * (WIDTH - full)}]"

    def __enter__(self) -> "RunProgress":
        """The work itself."""
        return self

    def __exit__(
        self, kind: type[BaseException] | None, fault: BaseException | None, trace: TracebackType | None
    ) -> None:
        """Ends the line of the bar, at the state that was reached."""
        if self.said and self.is_bar:
            self.say()
            say("\n")
