"""A judged span of a run, as its trace goes on: what became of its lookups, and what the world wanted in it."""

from collections.abc import Iterable

from chordsim_tools.members import Presence
from chordsim_tools.study.judged import Judged
from chordsim_tools.study.lookups import Table
from chordsim_tools.study.served import Population, Scope
from chordsim_tools.study.survival import ranked

Numbers = dict[str, int | str | None]
PERCENTILES = (50, 90, 99)


class View:
    """Follows the nodes of one span, and takes its lookups."""

    def __init__(self, initial: Iterable[str], scope: Scope) -> None:
        """A view that has seen nothing, of a run with these members at the start."""
        self.scope = scope
        self.population = Population(initial, scope)
        self.judged = Judged(scope)

    def move(self, time: int, fields: list[str]) -> None:
        """A node comes, goes or does not do what a command says. Call it before the members change."""
        _, name, word, *rest = fields
        if word == "ignored" and rest == ["lookup"]:
            self.judged.refuse(time, name, self.population)
        self.population.read(time, name, word, rest[0] if rest else None)

    def end(self, table: Table, presence: Presence) -> None:
        """The run is over: its lookups, and when its nodes were members."""
        self.judged.take(table, presence)
        self.population.end(self.scope.duration_us)

    def judged_numbers(self) -> Numbers:
        """What became of the judged lookups."""
        judged, table = self.judged, self.judged.table
        right = sum(judged.right)
        numbers: Numbers = {
            "judged-lookups": len(table), "judged-found": len(table.answered), "judged-lost": len(table.lost),
            "right": right, "wrong": len(table.answered) - right,
        }
        numbers |= {f"us-p{share}": ranked(judged.times.ended, share) for share in PERCENTILES}
        numbers |= {f"hops-p{share}": ranked(judged.hops, share) for share in PERCENTILES}
        times = judged.times.percentiles((*PERCENTILES, 99.9))
        return numbers | {f"all-us-p{share}": time for share, time in times.items()} | {
            **{f"ended-{word}": table.sum_of(word) for word in ("us", "hops", "timeouts")},
            "right-defensible": judged.defensible(),
            "wrong-down": judged.names_down, "wrong-newcomer": judged.misses_newcomer,
            "cut-by-crash": len(table.cut), "cut-by-end": len(table.unfinished),
        }

    def wanted_numbers(self) -> Numbers:
        """What the world wanted in the span, and the nodes and members over time."""
        up, members = self.population.up.sums, self.population.members.sums
        return {
            "wanted": f"{sum(self.judged.wanted(self.population)):.3f}",
            "up-us": sum(up[:2]), "member-us": sum(members[:2]),
        }

    def half_numbers(self) -> Numbers:
        """What was wanted and right in each half of the span."""
        first, second = self.judged.wanted(self.population)
        return {
            "wanted-1": f"{first:.3f}", "wanted-2": f"{second:.3f}",
            "right-1": self.judged.right[0], "right-2": self.judged.right[1],
        }
