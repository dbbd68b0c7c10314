"""What the world wanted of a ring: nodes that are up, members among them, and the lookups that these would begin.

A node is up from the start if it is initial, or from its line `join`, until its line `crash`, `leave`, `ignored crash`
or `ignored leave`: so one whose join has failed is up until the departure that was planned for it, and its demand does
not vanish."""

from collections.abc import Iterable
from dataclasses import dataclass, replace
from functools import cached_property
from itertools import pairwise
from typing import Any

from chordsim_tools.scenario.defaults import joins_forever

PIECES = 6
"""A page looks at so many pieces of the judged span to see whether it is steady."""


@dataclass(frozen=True)
class Scope:
    """What of a run is judged: lookups begun from `warmup_us` to `duration_us` less `cooldown_us`."""

    duration_us: int
    window_us: int
    warmup_us: int = 0
    cooldown_us: int = 0
    gap_us: float | None = None
    join_forever: bool = False
    has_detail: bool = False

    def end(self) -> int:
        """The end of the span of the judged lookups."""
        return self.duration_us - self.cooldown_us

    @cached_property
    def halves(self) -> tuple[int, int, int]:
        """Where the two halves of this span begin, and its end."""
        return self.warmup_us, (self.warmup_us + self.end()) // 2, self.end()

    def bounds(self) -> list[int]:
        """The same, and the end of the run."""
        return [*self.halves, self.duration_us]

    def edges(self) -> list[int]:
        """The first time of each piece of this span, and its end."""
        first, span = self.warmup_us, self.end() - self.warmup_us
        return [first + -(-span * place // PIECES) for place in range(PIECES + 1)]

    def piece(self, time: int) -> int | None:
        """The piece of this span in which a time is."""
        first, _, end = self.halves
        return (time - first) * PIECES // (end - first) if first <= time < end else None

    def within(self, begin: int, end: int) -> "Scope":
        """The scope of another span of the same run."""
        return replace(self, warmup_us=begin, cooldown_us=self.duration_us - end)

    def half(self, begin: int) -> int | None:
        """The half in which a lookup begins, if it is judged."""
        first, second, end = self.halves
        return int(begin >= second) if first <= begin < end else None


def scope_of(top: dict[str, Any], window_us: int, warmup_us: int, cooldown_us: int) -> Scope:
    """The scope of a run of a scenario."""
    lookups = top.get("lookups")
    gap = (lookups["gap_min_us"] + lookups["gap_max_us"]) / 2 if isinstance(lookups, dict) else None
    return Scope(
        top["duration_us"], window_us, warmup_us, cooldown_us, gap, joins_forever(top), top.get("detail") is True
    )


class Integral:
    """A count over time: its sum from each of these times to the next one. None of them is before the one ahead."""

    def __init__(self, bounds: list[int], count: int) -> None:
        """The count at the start."""
        self.bounds = bounds
        self.count = count
        self.since = self.total = 0
        self.totals: list[int] = []
        """The sum from the start to each bound that is over."""

    def change(self, time: int, by: int) -> None:
        """The count goes up or down."""
        while len(self.totals) < len(self.bounds) and self.bounds[len(self.totals)] <= time:
            self.totals.append(self.total + self.count * (self.bounds[len(self.totals)] - self.since))
        self.total += self.count * (time - self.since)
        self.count += by
        self.since = time

    @property
    def sums(self) -> list[int]:
        """The sums until the last change."""
        totals = self.totals + [self.total] * (len(self.bounds) - len(self.totals))
        return [end - begin for begin, end in pairwise(totals)]


class Population:
    """The nodes that are up, those whose timers run (they join or are members), and the members, as a trace goes on."""

    def __init__(self, initial: Iterable[str], scope: Scope) -> None:
        """The nodes at the start."""
        bounds = scope.bounds()
        self.join_forever = scope.join_forever
        self.is_up = dict.fromkeys(initial, True)
        self.is_alive = dict(self.is_up)
        self.is_member = dict(self.is_up)
        self.up, self.alive, self.members = (Integral(bounds, len(self.is_up)) for _ in range(3))

    def read(self, time: int, name: str, word: str, rest: str | None) -> None:
        """Takes a line of the trace."""
        match word:
            case "join":
                set_state(self.is_up, self.up, time, name, True)
                set_state(self.is_alive, self.alive, time, name, True)
            case "member" | "create":
                # A node that makes a ring after the eighth failure has not gone.
                set_state(self.is_alive, self.alive, time, name, True)
                set_state(self.is_member, self.members, time, name, True)
            case "stranded":
                set_state(self.is_member, self.members, time, name, False)
            case "join-failed" if not self.join_forever:
                set_state(self.is_alive, self.alive, time, name, False)
            case "crash" | "leave":
                set_state(self.is_up, self.up, time, name, False)
                set_state(self.is_alive, self.alive, time, name, False)
                set_state(self.is_member, self.members, time, name, False)
            case "ignored" if rest in ("crash", "leave"):
                set_state(self.is_up, self.up, time, name, False)

    def end(self, time: int) -> None:
        """The end of the run."""
        for integral in (self.up, self.alive, self.members):
            integral.change(time, 0)


def set_state(states: dict[str, bool], integral: Integral, time: int, name: str, value: bool) -> None:
    """A node comes or goes, unless it was there or gone before."""
    if states.get(name, False) != value:
        states[name] = value
        integral.change(time, 1 if value else -1)
