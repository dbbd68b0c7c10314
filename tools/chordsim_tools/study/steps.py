"""Numbers over time: what was begun and answered in each step of a run, and what the world wanted in it."""

from dataclasses import dataclass

from chordsim_tools.study.lookups import Table
from chordsim_tools.study.served import Population, Scope


@dataclass
class Step:
    """A step of time. `lookups` and what follows `members` count by the begin of a lookup, `found` and `right` by its
    end; the members are those at the end of the step."""

    lookups: int = 0
    found: int = 0
    right: int = 0
    members: int = 0
    ended: int = 0
    right_of_ended: int = 0
    refused: int = 0
    away_us: int = 0
    """The time that nodes were up but no members."""

    def wanted(self, gap_us: float | None) -> float:
        """The lookups begun and refused, and those that nodes missed which were up but no members."""
        return self.lookups + self.refused + (0.0 if gap_us is None else self.away_us / gap_us)


class Steps:
    """The steps of a run, which are closed as its trace goes on."""

    def __init__(self, scope: Scope, population: Population) -> None:
        """All steps; nothing has happened."""
        self.scope = scope
        self.population = population
        self.steps = [Step() for _ in range((scope.duration_us + scope.window_us - 1) // scope.window_us)]
        self.at = 0
        self.until = scope.window_us
        """When the open step is over."""
        self.since = 0

    def now(self) -> Step:
        """The step that is open."""
        return self.steps[self.at]

    def take(self, table: Table) -> None:
        """The lookups of the run."""
        edges = [number * self.scope.window_us for number in range(len(self.steps) + 1)]
        ends, begins = table.answered, table.by_begins
        right = begins.answered.is_right
        until = [ends.ended_before(time) for time in edges]
        before = [[kind.begun_before(time) for time in edges] for kind in begins.kinds()]
        for number, step in enumerate(self.steps):
            step.found = until[number + 1] - until[number]
            step.right = sum(ends.is_right[until[number] : until[number + 1]])
            begun = [counts[number + 1] - counts[number] for counts in before]
            step.lookups, step.ended = sum(begun), sum(begun[:2])
            step.right_of_ended = sum(right[before[0][number] : before[0][number + 1]])

    def go_to(self, time: int, members: int) -> None:
        """Closes the steps that end by a time; so many nodes have been members since the last line."""
        while self.until <= time and self.at < len(self.steps):
            self.add_away(self.end_of(self.at))
            self.steps[self.at].members = members
            self.at += 1
            self.until += self.scope.window_us

    def end_of(self, step: int) -> int:
        """The end of a step. The last one may be shorter."""
        return min((step + 1) * self.scope.window_us, self.scope.duration_us)

    def add_away(self, time: int) -> None:
        """Time passes in the open step: call it before a node comes or goes."""
        if self.at < len(self.steps):
            away = self.population.up.count - self.population.members.count
            self.now().away_us += away * (time - self.since)
            self.since = time

    def finish(self, members: int) -> None:
        """Closes all steps."""
        self.go_to(self.scope.duration_us, members)
        if self.at < len(self.steps):
            self.add_away(self.scope.duration_us)
            self.now().members = members
            self.at += 1

    def rows(self) -> list[list[int | float]]:
        """What a result keeps: the columns of series.csv."""
        gap = self.scope.gap_us
        return [
            [step.lookups, step.found, step.right, step.members, step.ended, step.right_of_ended,
             round(step.wanted(gap), 3)] for step in self.steps
        ]
