"""What a study takes from a trace: right and wrong answers, times, audits, members, and numbers over time."""

from collections.abc import Iterable, Mapping

from chordsim_tools.members import Members, Presence
from chordsim_tools.study.lookups import Table
from chordsim_tools.study.messages import Traffic
from chordsim_tools.study.pieces import COLUMN, cell_of
from chordsim_tools.study.reading import LineReader, Taker
from chordsim_tools.study.served import Scope
from chordsim_tools.study.steps import Steps
from chordsim_tools.study.view import Numbers, View


MOVES = ("join", "member", "create", "crash", "leave", "stranded", "join-failed", "ignored")
"""The words of lines by which a node comes, goes or does not do what a command says."""


class TraceReader(LineReader):
    """Reads the lines of nodes and messages in their order, and then takes the lookups. Those that begin outside of the
    judged spans count in the steps alone."""

    def __init__(self, members: Members, scope: Scope, spans: Mapping[str, Scope] | None = None) -> None:
        """A reader that has read nothing; the members are those at the start. Further spans have names."""
        self.members = members
        self.scope = scope
        initial = [members.names[place] for place in members.places]
        self.view = View(initial, scope)
        self.spans = {name: View(initial, one) for name, one in (spans or {}).items()}
        self.views = [self.view, *self.spans.values()]
        self.judged, self.population = self.view.judged, self.view.population
        self.traffic = Traffic(scope)
        self.over_time = Steps(scope, self.population)
        self.table = Table()
        self.audit_members: list[int] = []
        self.whole = self.torn = 0
        self.ringless_since: int | None = None
        self.stranded_at: int | None = None

    def takers(self) -> Iterable[tuple[str, Taker]]:
        """All lines that change something, and those of messages."""
        return [
            ("audit", self.audit), ("busy", self.refuse),
            *((word, self.move) for word in MOVES), *self.traffic.takers(),
        ]

    def go_to(self, time: int) -> None:
        """Closes the steps that are over. Call it before anything changes."""
        self.over_time.go_to(time, len(self.members.places))

    def take(self, table: Table) -> None:
        """The lookups of the run, after all lines."""
        presence = Presence(self.members)
        self.table = table
        self.traffic.take(table)
        self.over_time.take(table)
        for view in self.views:
            view.end(table, presence)

    def refuse(self, time: int, fields: list[str]) -> None:
        """A lookup of a node cannot begin."""
        self.go_to(time)
        name = fields[1]
        self.over_time.now().refused += self.population.is_up.get(name, False)
        for view in self.views:
            view.judged.refuse(time, name, view.population)

    def move(self, time: int, fields: list[str]) -> None:
        """A node comes, goes or does not do what a command says."""
        self.go_to(time)
        name, word = fields[1], fields[2]
        self.over_time.add_away(time)
        if fields[2:4] == ["ignored", "lookup"]:
            self.over_time.now().refused += self.population.is_up.get(name, False)
        for view in self.views:
            view.move(time, fields)
        if word in ("member", "create"):
            self.members.add(name, time)
        elif word in ("crash", "leave", "stranded"):
            self.members.remove(name, time)
        if word == "stranded" and self.stranded_at is None:
            self.stranded_at = time

    def audit(self, time: int, fields: list[str]) -> None:
        """An audit: TIME audit members=M dead=D ring=R ordered=yes|no ..."""
        self.go_to(time)
        facts = dict(word.split("=") for word in fields[2:])
        if facts["ring"] != "0":
            self.ringless_since = None
        elif self.ringless_since is None:
            self.ringless_since = time
        if time <= self.scope.warmup_us:
            return
        ordered = facts["ordered"] == "yes"
        self.audit_members.append(int(facts["members"]))
        self.whole += ordered and facts["ring"] == facts["members"] != "0"
        self.torn += not ordered or facts["ring"] == "0" or facts["dead"] != "0"

    def lost_at(self) -> int | None:
        """The first of the audits without a ring that the run ends with, if the ring is lost.

        It is lost if they go over a tenth of the run at least, and at most half of the lookups that end in that time
        are right."""
        since, latest = self.ringless_since, self.scope.duration_us - self.scope.duration_us // 10
        if since is None or since > latest:
            return None
        answered, lost = self.table.answered, self.table.lost
        right = answered.is_right[answered.ended_before(since) :]
        ended = len(right) + len(lost) - lost.ended_before(since)
        return since if 2 * sum(right) <= ended else None

    def numbers(self) -> Numbers:
        """What a row of runs.csv has beside the report. Call it once, after the lookups were taken."""
        self.over_time.finish(len(self.members.places))
        audits = len(self.audit_members)
        return {
            **self.view.judged_numbers(),
            "judged-audits": audits,
            "mean-members": f"{sum(self.audit_members) / audits:.3f}" if audits else None,
            "whole-rings": self.whole,
            "torn-rings": self.torn,
            "lost-at-us": self.lost_at(),
            "stranded-at-us": self.stranded_at,
            **self.view.wanted_numbers(),
            **self.view.half_numbers(),
            f"{COLUMN}right-defensible": cell_of(self.judged.defensible_in_pieces()),
            "duration-us": self.scope.duration_us,
            "cost-member-us": sum(self.population.members.sums),
            **self.span_numbers(),
        }

    def span_numbers(self) -> Numbers:
        """The numbers of the spans with names, which stand before theirs."""
        return {
            f"{name}.{word}": value for name, view in self.spans.items()
            for word, value in (view.judged_numbers() | view.wanted_numbers()).items()
        }
