"""A run as its trace tells it: each line is read once, in order, and what it means is kept."""

from bisect import bisect_left
from dataclasses import dataclass
from itertools import chain

from chordsim_tools.members import Members
from chordsim_tools.scenario.reading import Scenario
from chordsim_tools.scenario.tables import GREATEST_INTEGER
from chordsim_tools.trace.lines import CHANGES, CODES, GOES, NOBODY, Audit, Lines, Lookup

DOWN, JOINING, MEMBER, STRANDED = range(4)
OF_LOOKUPS = ("step", "get-state")
"""The requests that a lookup makes: the second one to the owner of its key."""


@dataclass(slots=True)
class Join:
    """A node joins, by a line `join`, or again by a line `stranded`. It is done, failed, crash, leave or open.

    If joins do not end by failures, a line `join-failed` leaves it open, and `went_on` counts these lines."""

    node: int
    begin: int
    is_again: bool
    end: int | None = None
    outcome: str = "open"
    went_on: int = 0


@dataclass(slots=True)
class Life:
    """A node is up: from the start or a line `join` until its crash or leave, or a `join-failed` that ends the join."""

    begin: int
    end: int | None = None


class History:
    """Reads the lines in their order. A line that does not fit raises LookupError or ValueError."""

    def __init__(self, scenario: Scenario) -> None:
        """The start of a run."""
        names = [node.name for node in scenario.nodes]
        self.scenario = scenario
        self.names = names
        self.numbers = {name: number for number, name in enumerate(names)}
        self.idents = {node.name: node.ident for node in scenario.nodes}
        self.members = Members(self.idents, [node.name for node in scenario.nodes if node.initial])
        self.lines = Lines(names)
        self.status = [MEMBER if node.initial else DOWN for node in scenario.nodes]
        self.lives = [[Life(0)] if node.initial else [] for node in scenario.nodes]
        self.joins: list[Join] = []
        self.joining: dict[int, Join] = {}
        # Of each node its last join, and the places of the lines that changed what it is.
        self.last_join: dict[int, Join] = {}
        self.changes: list[list[int]] = [[] for _ in names]
        self.open: list[dict[tuple[int, int], list[Lookup]]] = [{} for _ in names]
        self.at = 0

    def read(self, line: str) -> None:
        """Takes one line, without its line feed."""
        fields = line.split(" ")
        time = self.at = self.time_of(fields)
        if fields[1] == "audit":
            self.audit(time, line, fields)
            return
        node, kind = self.numbers[fields[1]], fields[2]
        match kind:
            case "lookup":
                self.lookup(time, node, fields)
            case "found" | "lost":
                self.lookup_ends(time, node, fields)
                if self.lines.text(len(self.lines.times) - 1) != line:
                    raise ValueError("it has other words than such a line")
            case "timeout" | "forget" | "rescue":
                self.lines.append(time, node, CODES[kind], self.named(fields, 4))
            case "ask" | "send" if not self.scenario.detail:
                raise ValueError("the scenario has no `detail = true`")
            case "ask":
                self.ask(time, node, fields)
            case "drop" | "late" | "lose" | "again" | "send":
                self.lines.append(time, node, CODES[f"{kind} {fields[3]}"], self.named(fields, 5))
            case "busy":
                self.lines.append(time, node, CODES[kind], len(self.lines.busy_keys))
                self.lines.busy_keys.append(self.key(fields[3]))
            case "ignored":
                check_words(fields, 4)
                self.lines.append(time, node, CODES[f"{kind} {fields[3]}"], NOBODY)
            case _:
                self.change(time, node, kind, fields)

    def time_of(self, fields: list[str]) -> int:
        """The time of a line, which is not below that of the line before. Only an audit has the time of the end."""
        time, end = whole(fields[0]), self.scenario.duration_us
        if time < self.at:
            raise ValueError("its time is below that of the line before")
        if time > end or (time == end and fields[1] != "audit"):
            raise ValueError("its time is not within the run")
        return time

    def named(self, fields: list[str], count: int) -> int:
        """The node that is named by the last of so many words."""
        check_words(fields, count)
        return self.numbers[fields[-1]]

    def ask(self, time: int, node: int, fields: list[str]) -> None:
        """A request: TIME NODE ask KIND Q call=C, and if it is one of a lookup also key=K since=T."""
        key, start = None, 0
        if len(fields) == 8 and fields[3] in OF_LOOKUPS:
            key, start = self.key(value_of("key", fields[6])), below(time + 1, value_of("since", fields[7]))
        elif len(fields) != 6:
            raise ValueError("6 words are wanted, or 8 of a step or get-state")
        call = below(GREATEST_INTEGER + 1, value_of("call", fields[5]))
        self.lines.asks.append(len(self.lines.times), call, key, start)
        self.lines.append(time, node, CODES[f"ask {fields[3]}"], self.numbers[fields[4]])

    def change(self, time: int, node: int, kind: str, fields: list[str]) -> None:
        """A line that changes what a node is."""
        if CODES[kind] not in CHANGES:
            raise ValueError(f"{kind} needs more words")
        other = NOBODY
        if kind in ("crash", "leave", "join-failed", "create"):
            check_words(fields, 3)
        else:
            other = self.named(fields, 4)
        self.changes[node].append(len(self.lines.times))
        self.lines.append(time, node, CODES[kind], other)
        name = self.names[node]
        match kind:
            case "join":
                self.lives[node].append(Life(time))
                self.begins_to_join(time, node, JOINING)
            case "member":
                self.members.add(name, time)
                self.ends_to_join(time, node, "done", MEMBER)
            case "create":
                self.members.add(name, time)
                self.creates(time, node)
            case "stranded":
                self.members.remove(name, time)
                self.begins_to_join(time, node, STRANDED)
            case "join-failed":
                self.join_failed(time, node)
            case "crash" | "leave":
                self.members.remove(name, time)
                self.ends_to_join(time, node, kind, DOWN)
                self.lives[node][-1].end = time
                self.asker_goes(time, node, kind)

    def last_change(self, node: int, before: int) -> int | None:
        """The place of the last line before this one that changed what a node is, if there is one."""
        places = self.changes[node]
        earlier = bisect_left(places, before)
        return places[earlier - 1] if earlier else None

    def begins_to_join(self, time: int, node: int, status: int) -> None:
        """A node joins, or joins again."""
        wanted = DOWN if status == JOINING else MEMBER
        if self.status[node] != wanted:
            raise ValueError("the node was not " + ("down" if status == JOINING else "a member"))
        self.status[node] = status
        self.joining[node] = self.last_join[node] = Join(node, time, status == STRANDED)
        self.joins.append(self.joining[node])

    def ends_to_join(self, time: int, node: int, outcome: str, status: int) -> None:
        """A node joins no longer, if it did."""
        before = self.status[node]
        if before == DOWN or (before == MEMBER and outcome not in GOES):
            raise ValueError(f"the node was {'down' if before == DOWN else 'a member'}")
        self.status[node] = status
        join = self.joining.pop(node, None)
        if join is not None:
            join.end, join.outcome = time, outcome

    def join_failed(self, time: int, node: int) -> None:
        """A join has failed eight times: it is over, or goes on if joins do not end by failures."""
        if self.scenario.join_forever and self.status[node] in (JOINING, STRANDED):
            self.joining[node].went_on += 1
            return
        self.ends_to_join(time, node, "failed", DOWN)
        self.lives[node][-1].end = time

    def creates(self, time: int, node: int) -> None:
        """A node makes a ring: it joins through itself, or has just failed for the eighth time, which ends no join."""
        last = self.last_join.get(node)
        if self.status[node] == DOWN and last is not None and (last.end, last.outcome) == (time, "failed"):
            self.status[node], self.joining[node] = JOINING, last
            self.lives[node][-1].end = None
        self.ends_to_join(time, node, "done", MEMBER)

    def asker_goes(self, time: int, node: int, outcome: str) -> None:
        """The lookups of a node are cut off, by a crash or a leave."""
        for one in chain.from_iterable(self.open[node].values()):
            one.end, one.outcome = time, outcome
        self.open[node].clear()

    def lookup(self, time: int, node: int, fields: list[str]) -> None:
        """A lookup begins: TIME NODE lookup KEY."""
        check_words(fields, 4)
        one = Lookup(len(self.lines.lookups), node, self.key(fields[3]), time)
        self.lines.append(time, node, CODES["lookup"], one.number)
        self.lines.lookups.append(one)
        self.open[node].setdefault((one.key, time), []).append(one)

    def lookup_ends(self, time: int, node: int, fields: list[str]) -> None:
        """A lookup ends: TIME NODE found KEY OWNER hops=H timeouts=O us=U, or lost, without an owner."""
        key, taken = whole(fields[3]), whole(fields[-1].removeprefix("us="))
        waiting = self.open[node].get((key, time - taken), [])
        if not waiting:
            raise ValueError(f"no line begins this lookup at {time - taken}")
        # Lookups of one key that a node began at one time cannot be told apart; the first one began first.
        one = waiting.pop(0)
        if not waiting:
            del self.open[node][key, time - taken]
        one.end, one.outcome = time, fields[2]
        most = self.scenario.ways.lookup_timeouts
        one.hops = below(113 + 2 * most, fields[-3].removeprefix("hops="))
        one.timeouts = below(most + 2, fields[-2].removeprefix("timeouts="))
        self.lines.append(time, node, CODES[fields[2]], one.number)
        if fields[2] == "found":
            self.judge(one, fields[4])

    def key(self, text: str) -> int:
        """A key on the circle."""
        return below(1 << self.scenario.bits, text)

    def judge(self, one: Lookup, named: str) -> None:
        """Whether an answer is right, when it arrives and at any time before."""
        assert one.end is not None
        one.owner = self.numbers[named]
        owner = self.members.owner(one.key)
        one.true_owner = NOBODY if owner is None else self.numbers[owner]
        one.is_right = owner == named
        one.names_member = self.members.is_member(named)
        if one.is_right:
            one.is_defensible = True
        else:
            one.is_defensible = self.members.was_owner(named, one.key, one.begin, one.end)
            one.missed = self.members_between(one.key, self.idents[named])

    def members_between(self, key: int, place: int) -> int:
        """How many members are at or after the key and before a place, clockwise."""
        places = self.members.places
        between = bisect_left(places, place) - bisect_left(places, key)
        return between + (len(places) if place < key else 0)

    def audit(self, time: int, line: str, fields: list[str]) -> None:
        """An audit. It must count the members that the lines before it leave."""
        one = audit_of(time, fields)
        if one is None or one.text() != line:
            raise ValueError("it is no audit line")
        if one.members != len(self.members.places):
            raise ValueError(f"the lines before it leave {len(self.members.places)} members")
        self.lines.append(time, NOBODY, CODES["audit"], len(self.lines.audits))
        self.lines.audits.append(one)


def audit_of(time: int, fields: list[str]) -> Audit | None:
    """The audit that these words tell of, or nothing."""
    try:
        facts = dict(word.split("=") for word in fields[2:])
        return Audit(
            time, whole(facts["members"]), whole(facts["dead"]), whole(facts["ring"]), facts["ordered"] == "yes",
            whole(facts["principals"]), facts["sufficient"] == "yes",
        )
    except (LookupError, ValueError):
        return None


def check_words(fields: list[str], count: int) -> None:
    """Refuses a line that has not so many words."""
    if len(fields) != count:
        raise ValueError(f"{count} words are wanted")


def value_of(name: str, word: str) -> str:
    """The value of a word NAME=VALUE."""
    if not word.startswith(f"{name}="):
        raise ValueError(f"{word!r} is no {name}=")
    return word.removeprefix(f"{name}=")


def below(limit: int, text: str) -> int:
    """A number that a line can have."""
    number = whole(text)
    if number >= limit:
        raise ValueError(f"{number} is not below {limit}")
    return number


def whole(text: str) -> int:
    """A number of a line."""
    if not text.isdecimal():
        raise ValueError(f"{text!r} is no number")
    return int(text)
