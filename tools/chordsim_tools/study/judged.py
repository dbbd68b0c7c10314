"""The lookups of a run that are judged: what became of each, and what the world wanted."""

from itertools import chain, compress
from operator import not_

from chordsim_tools.members import Presence
from chordsim_tools.study.lookups import Table
from chordsim_tools.study.served import PIECES, Population, Scope
from chordsim_tools.study.survival import Times


class Judged:
    """Counts the lookups that begin in the judged span, each half of it by itself."""

    def __init__(self, scope: Scope) -> None:
        """No lookups yet."""
        self.scope = scope
        self.table = Table()
        self.pieces = [Table() for _ in range(PIECES)]
        self.times_in_pieces: list[list[int]] = [[] for _ in range(PIECES)]
        """How long the answers took to the lookups of each piece of the span, in ascending order."""
        self.begun, self.refused, self.right = [0, 0], [0, 0], [0, 0]
        self.names_down = self.misses_newcomer = 0
        self.hops: list[int] = []
        self.times = Times()

    def refuse(self, time: int, name: str, population: Population) -> None:
        """A lookup of a node that is up cannot begin: too many are in progress, or a command meets no member."""
        half = self.scope.half(time)
        if half is not None and population.is_up.get(name, False):
            self.refused[half] += 1

    def take(self, table: Table, presence: Presence) -> None:
        """The lookups of the run, and when its nodes were members."""
        first, second, end = self.scope.halves
        self.table = table.by_begins.between(first, end)
        halves = [self.table.between(first, second), self.table.between(second, end)]
        self.begun = list(map(len, halves))
        self.right = [sum(half.answered.is_right) for half in halves]
        self.hops = sorted(self.table.answered.hops)
        self.pieces = self.table.pieces(self.scope.edges())
        self.times_in_pieces = [sorted(piece.answered.us) for piece in self.pieces]
        self.times.ended = sorted(chain.from_iterable(self.times_in_pieces))
        self.times.lost = len(self.table.lost)
        self.times.cut = self.table.cut.us + [self.scope.duration_us - begun for begun in self.table.unfinished.begun]
        self.take_wrong(presence)

    def take_wrong(self, presence: Presence) -> None:
        """Wrong answers name a node that was no member when they came, or miss one."""
        answered = self.table.answered
        wrong = list(map(not_, answered.is_right))
        for named, time in zip(compress(answered.named, wrong), compress(answered.ended, wrong)):
            if presence.was_member(named, time):
                self.misses_newcomer += 1
            else:
                self.names_down += 1

    def defensible(self) -> int:
        """How many answers were right at some time since the lookup began."""
        return sum(self.table.answered.is_defensible)

    def defensible_in_pieces(self) -> list[int]:
        """The same for each piece of the span."""
        return [sum(piece.answered.is_defensible) for piece in self.pieces]

    def wanted(self, population: Population) -> list[float]:
        """For each half the lookups begun and refused, and those that nodes which were up but no members missed."""
        gap = self.scope.gap_us
        missed = [0.0, 0.0]
        if gap is not None:
            missed = [(up - member) / gap for up, member in zip(population.up.sums, population.members.sums)][:2]
        return [sum(parts) for parts in zip(self.begun, self.refused, missed, strict=True)]
