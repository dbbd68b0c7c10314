"""What timeouts do: members that are taken for dead, successors that are removed, and members that strand."""

from collections import Counter
from collections.abc import Iterable
from typing import Any

from chordsim_tools.members import Members
from chordsim_tools.study.reading import LineReader, Taker

WORDS = ("again", "stranded", "join-failed")
STATES = ("get-state", "state-reply")
ASK_FIELDS = 6
"""How many fields a line `ask` has. A count of such lines has one less."""


class Trouble(LineReader):
    """Counts from `warmup_us` to the end. Each line is read here after the members have changed by it."""

    def __init__(self, members: Members, top: dict[str, Any], warmup_us: int) -> None:
        """No lines yet; the members are those of a reader of the same trace."""
        self.members = members
        self.timeout_us = int(top["timeout_us"])
        self.has_detail = top.get("detail") is True
        self.warmup_us = warmup_us
        self.lines: Counter[str] = Counter()
        self.timeouts = self.of_members = self.removed = 0
        self.states_lost: dict[tuple[str, str], int] = {}
        self.stabilized: dict[str, tuple[str, int]] = {}
        """Whom each member has asked for its state at last, and when."""

    def takers(self) -> Iterable[tuple[str, Taker]]:
        """Messages that are lost, timeouts with the stabilizations before them, and what is only counted."""
        return [
            ("lose", self.lose), ("ask", self.ask), ("timeout", self.time_out),
            *((word, self.count) for word in WORDS),
        ]

    def ask(self, time: int, fields: list[str]) -> None:
        """A member stabilizes: TIME NODE ask get-state SUCCESSOR call=C, right before the timeout of this successor."""
        if len(fields) == ASK_FIELDS:
            self.stabilized[fields[1]] = fields[4], time

    def lose(self, time: int, fields: list[str]) -> None:
        """A message is lost: TIME NODE lose KIND RECEIVER."""
        if fields[3] in STATES:
            asker, asked = (fields[1], fields[4]) if fields[3] == STATES[0] else (fields[4], fields[1])
            self.states_lost[asker, asked] = time

    def count(self, time: int, fields: list[str]) -> None:
        """A line of another word."""
        self.lines[fields[2]] += time >= self.warmup_us

    def time_out(self, time: int, fields: list[str]) -> None:
        """A node is taken for dead: TIME NODE timeout SILENT."""
        self.timeouts += time >= self.warmup_us
        if self.members.is_member(fields[3]):
            self.taken_for_dead(time, (fields[1], fields[3]))

    def taken_for_dead(self, time: int, pair: tuple[str, str]) -> None:
        """A member is taken for dead. It leaves a list if it was asked for its state and that or the reply was lost.

        With detail it is known whether it was asked as a successor, and not as the owner of a key."""
        called = time - self.timeout_us
        was_successor = not self.has_detail or self.stabilized.get(pair[0]) == (pair[1], called)
        lost_at = self.states_lost.pop(pair, None) if was_successor else None
        if time >= self.warmup_us:
            self.of_members += 1
            self.removed += lost_at is not None and lost_at >= called

    def numbers(self) -> dict[str, int | str | None]:
        """What a row of runs.csv has of it."""
        return {
            "cost-timeouts": self.timeouts,
            "cost-timeouts-of-members": self.of_members,
            "cost-removed-members": self.removed,
            "cost-again": self.lines["again"],
            "cost-stranded": self.lines["stranded"],
            "cost-join-failed": self.lines["join-failed"],
        }
