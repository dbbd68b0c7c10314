"""The messages of a run: counted in the extended profile, whose traces have lines of detail, and estimated in the
others (docs/studies.md)."""

from collections import Counter
from collections.abc import Iterable
from dataclasses import dataclass
from typing import Any

from chordsim_tools.messages import MESSAGES, REPLIES, REQUESTS, messages_made
from chordsim_tools.study.lookups import Table
from chordsim_tools.study.pieces import COLUMN, cell_of
from chordsim_tools.study.reading import LineReader, Taker
from chordsim_tools.study.served import PIECES, Population, Scope

ENDS = ("crash", "join-failed")
"""The words of lines after which a node is down, in the profiles whose messages are estimated."""
OF_LOOKUPS = "lookups all"
"""The words of the count of messages of users' lookups in a run with detail."""
COUNTED = ("ask", "send", "drop", "lookups")
"""The words of lines that are counted from one edge of the pieces to the next, TIME messages WORD KIND COUNT."""
COUNT_FIELDS = 5
"""How many fields such a line has. A line `ask` of a stabilization has one more, and its node may be `messages`."""


class Traffic(LineReader):
    """Counts the lines of a trace that say something of messages, from `warmup_us` to the end."""

    def __init__(self, scope: Scope) -> None:
        """No lines yet."""
        self.scope = scope
        self.lines: Counter[str] = Counter()
        self.hops = self.timeouts = 0
        self.pieces: list[Counter[str]] = [Counter() for _ in range(PIECES)]
        """What lines say was made in each piece of the judged span."""

    def takers(self) -> Iterable[tuple[str, Taker]]:
        """Lines of messages, and those of nodes that come and go."""
        return [
            *((word, self.count) for word in COUNTED), ("lose", self.lose),
            *((word, self.move) for word in ("join", "member", *ENDS)),
        ]

    def count(self, time: int, fields: list[str]) -> None:
        """So many lines of a kind: the edges of the pieces part them."""
        if len(fields) == COUNT_FIELDS:
            self.add(f"{fields[2]} {fields[3]}", time, int(fields[4]))

    def lose(self, time: int, fields: list[str]) -> None:
        """A message is lost."""
        self.add(f"lose {fields[3]}", time, 1)

    def move(self, time: int, fields: list[str]) -> None:
        """A node comes or goes."""
        self.add(fields[2], time, 1)

    def take(self, table: Table) -> None:
        """The lookups of the run, whose hops and timeouts count by their ends."""
        for kind in (table.answered, table.lost):
            first = kind.ended_before(self.scope.warmup_us)
            self.hops += sum(kind.hops[first:])
            self.timeouts += sum(kind.timeouts[first:])

    def add(self, word: str, time: int, count: int) -> None:
        """Counts so many more from `warmup_us` on, and in the piece of their time, if it is judged."""
        if time < self.scope.warmup_us:
            return
        self.lines[word] += count
        piece = self.scope.piece(time)
        if piece is not None:
            self.pieces[piece][word] += count

    def sum_of(self, word: str, kinds: tuple[str, ...]) -> int:
        """How many lines of a word are of these kinds."""
        return sum(self.lines[f"{word} {kind}"] for kind in kinds)

    def unanswered(self, kind: str) -> int:
        """How many requests of a kind had no reply: they were dropped, or lost, or their replies were."""
        return self.lines[f"drop {kind}"] + self.sum_of("lose", (kind, REPLIES[kind]))

    def found_again(self) -> int:
        """How often a living successor is removed. A later stabilization finds it again, and asks for its list."""
        return self.sum_of("lose", ("get-state", "state-reply", "get-list", "list-reply"))

    def lookups(self) -> int:
        """Messages of the lookups that ended, in a run without detail: two for each hop, and one for each timeout."""
        return 2 * self.hops + self.timeouts


@dataclass(frozen=True)
class Span:
    """What is known of a run from `warmup_us` to the end: its scenario, the events, nodes over time, how many
    stabilizations its members would begin if no message was lost or dropped, and how many turns one skips more for a
    call without a reply and for a list."""

    top: dict[str, Any]
    events: int
    population: Population
    repairs: float = 0.0
    skipped: tuple[float, float] = 0.0, 0.0

    def ticks(self, table: dict[str, Any], least: str, greatest: int, traffic: Traffic) -> float:
        """About how many events a timer has: one for each mean delay that a node is up, less half a one for each time
        that it comes up, and one more for each time that it goes."""
        mean = float(table[least] + greatest) / 2
        variance = float((greatest - table[least] + 1) ** 2 - 1) / 12
        fresh = traffic.lines["join"] + self.at_start(traffic)
        ends = sum(traffic.lines[word] for word in ENDS)
        first = (variance / mean**2 - 1) / 2
        return sum(self.population.alive.sums) / mean + fresh * first + ends

    def at_start(self, traffic: Traffic) -> int:
        """How many nodes come up at the start of the span: the initial ones, if it begins with the run."""
        return len([node for node in self.top["node"] if node.get("initial")]) if traffic.scope.warmup_us == 0 else 0

    def timers(self, traffic: Traffic) -> float:
        """About how many events are timers, and how many commands."""
        top, jitter = self.top, self.top.get("jitter_us", 0)
        total = sum(self.ticks(top, key, top[key] + jitter, traffic) for key in ("stabilize_us", "finger_us"))
        if "lookups" in top:
            total += self.ticks(top["lookups"], "gap_min_us", top["lookups"]["gap_max_us"], traffic)
        commands = [one["do"] for one in top.get("command", []) if one["at_us"] >= traffic.scope.warmup_us]
        by_itself = 0
        if any(node.get("churn") for node in top["node"]):
            # Each life and each down time that the program draws ends with a timer.
            moves = [do for do in commands if do != "lookup"]
            by_itself = sum(traffic.lines[word] for word in (*ENDS, "join")) - len(moves)
        return total + max(0, by_itself) + len(commands)

    def stabilizations(self, traffic: Traffic) -> float:
        """About how many stabilizations are begun: those that round trips allow, but for those that are skipped because
        calls of the one before are out, which happens if these are not answered."""
        mean = float(self.top["stabilize_us"] + self.top.get("jitter_us", 0) / 2)
        # Each stabilization takes one turn, or more if its round trip is above the period.
        turns = sum(self.population.members.sums) / mean / self.repairs if self.repairs else 1.0
        calls = traffic.unanswered("get-state") + traffic.unanswered("get-list")
        lists = traffic.lines["member"] + traffic.found_again()
        skipped = calls * self.skipped[0] + lists * self.skipped[1]
        return max(0.0, self.repairs - self.at_start(traffic) / 2 - skipped / max(1.0, turns))

    def timed_out(self, traffic: Traffic) -> float:
        """The share of calls whose timeouts come in the span. What is called before it balances what comes after."""
        span = traffic.scope.duration_us - traffic.scope.warmup_us
        before = max(0, int(self.top["timeout_us"]) - traffic.scope.warmup_us)
        return 1 - min(1.0, before / span) if span > 0 else 1.0


def estimate(traffic: Traffic, span: Span) -> dict[str, int]:
    """About how many messages of each kind were sent in the span, the lost ones with them.

    Each call makes a request, a timeout and, unless a line says otherwise, a reply. So the events that are neither
    timers nor commands say how many of these there were, once the notifies, one a stabilization, are known."""
    lost, dropped = traffic.sum_of("lose", REQUESTS), traffic.sum_of("drop", REQUESTS)
    notifies = span.stabilizations(traffic)
    rest = span.events - span.timers(traffic) - notifies + traffic.lines["lose notify"]
    lost_replies = traffic.sum_of("lose", tuple(REPLIES.values()))
    calls = (rest + 2 * lost + dropped + lost_replies) / (2 + span.timed_out(traffic))
    # Nodes of these profiles do not leave.
    requests = {"notify": notifies, "ping": float(traffic.unanswered("ping")), "leave": 0.0}
    # A new member asks for a list, and the one before it does.
    lists = 2.0 * traffic.lines["member"] + traffic.found_again()
    for kind, answered in (("get-state", notifies), ("get-list", lists)):
        requests[kind] = answered + traffic.unanswered(kind)
    requests["step"] = calls - sum(requests[kind] for kind in REQUESTS[1:])
    replies = {
        REPLIES[kind]: requests[kind] - traffic.sum_of("drop", (kind,)) - traffic.sum_of("lose", (kind,))
        for kind in REQUESTS
    }
    return {kind: max(0, round({**requests, **replies}[kind])) for kind in MESSAGES}


def exact(traffic: Traffic) -> dict[str, int]:
    """How many messages of each kind were sent in the span of a run with detail, the lost ones with them."""
    return {kind: messages_made(kind, traffic.lines) for kind in MESSAGES}


def in_pieces(traffic: Traffic) -> dict[str, list[int]]:
    """The messages of a run with detail in each piece of the judged span, by the columns of runs.csv."""
    found = {f"sent-{kind}": [messages_made(kind, piece) for piece in traffic.pieces] for kind in MESSAGES}
    totals = [sum(counts) for counts in zip(*found.values(), strict=True)]
    lookups = [piece[OF_LOOKUPS] for piece in traffic.pieces]
    return {"messages": totals, "messages-lookups": list(map(min, lookups, totals)), **found}


def message_numbers(traffic: Traffic, span: Span) -> dict[str, int | str | None]:
    """What a row of runs.csv has of cost, from `warmup_us` to the end."""
    is_counted = bool(span.top.get("detail"))
    kinds = exact(traffic) if is_counted else estimate(traffic, span)
    lookups = traffic.lines[OF_LOOKUPS] if is_counted else traffic.lookups()
    # An estimate is of the whole span: how many events there were in a piece is not known.
    pieces = {word: cell_of(counts) if is_counted else None for word, counts in in_pieces(traffic).items()}
    return {
        "cost-events": span.events,
        "messages": sum(kinds.values()),
        "messages-counted": int(is_counted),
        "messages-lookups": min(lookups, sum(kinds.values())),
        **{f"sent-{kind}": count for kind, count in kinds.items()},
        **{f"{COLUMN}{word}": cell for word, cell in pieces.items()},
    }
