"""The requests of a node, and what became of each of them: of a trace with detail."""

from bisect import bisect_left, bisect_right
from collections import Counter, defaultdict
from collections.abc import Iterator
from dataclasses import dataclass, field

from chordsim_tools.cli import Refused
from chordsim_tools.messages import REPLIES
from chordsim_tools.trace.lines import CODES, KINDS, TIMEOUT
from chordsim_tools.trace.reading import Run

FATES = {"drop": "dropped", "send": "replied", "lose": "reply lost"}
HANDLED = {
    CODES[line]: kind for kind, reply in REPLIES.items() for line in (f"drop {kind}", f"send {reply}", f"lose {reply}")
}
"""The lines of the node asked that say what it did with a request, and the kind of this request."""


@dataclass(slots=True)
class Sending:
    """A request on its way: the places of its lines, the line `ask` as the last one; and those that tell its fate.

    If there are several of these, any of them may be that of this sending."""

    places: list[int]
    time: int
    is_lost: bool
    handled: list[int] = field(default_factory=list)

    @property
    def at(self) -> int:
        """The place of its line `ask`."""
        return self.places[-1]

    def fate(self, run: Run) -> str:
        """What became of it, in a word or two."""
        if self.is_lost:
            return "lost"
        words = [FATES[KINDS[run.history.lines.kinds[at]].split(" ")[0]] for at in self.handled]
        return " or ".join(dict.fromkeys(words)) or "on the way when the trace ends"


@dataclass(slots=True)
class Call:
    """A call of a node with all its sendings, and the place of its line `timeout`, if it has one."""

    number: int
    node: int
    asked: int
    kind: str
    key: int | None
    start: int
    sendings: list[Sending] = field(default_factory=list)
    timeout: int | None = None

    def may_be_answered(self, run: Run) -> bool:
        """Whether a reply to it was sent that was not lost, as far as the lines tell it."""
        return any("replied" in one.fate(run) for one in self.sendings)

    def places(self) -> list[int]:
        """The places of the node's own lines."""
        own = [at for one in self.sendings for at in one.places]
        return own if self.timeout is None else [*own, self.timeout]


def calls_of(run: Run, node: int) -> list[Call]:
    """All calls of a node, in their order."""
    lines, asks = run.history.lines, run.history.lines.asks
    calls: dict[int, Call] = {}
    for place, number, key, start in zip(asks.lines, asks.calls, asks.keys, asks.starts, strict=True):
        if lines.nodes[place] == node:
            kind = KINDS[lines.kinds[place]].removeprefix("ask ")
            call = calls.setdefault(number, Call(number, node, lines.others[place], kind, key, start))
            call.sendings.append(sending_of(run, place, kind))
    found = list(calls.values())
    find_fates(run, node, found)
    find_timeouts(run, node, found)
    return found


def sending_of(run: Run, place: int, kind: str) -> Sending:
    """The sending that a line `ask` ends. Its lines `again` and `lose` are right before it."""
    lines = run.history.lines
    places = [place]
    for word in ("lose", "again"):
        before = places[0] - 1
        if before >= 0 and is_same(run, before, place) and lines.kinds[before] == CODES[f"{word} {kind}"]:
            places.insert(0, before)
    is_lost = any(lines.kinds[at] == CODES[f"lose {kind}"] for at in places)
    return Sending(places, lines.times[place], is_lost)


def is_same(run: Run, at: int, other: int) -> bool:
    """Whether two lines are of one node and one time, and name the same other node."""
    lines = run.history.lines
    return (lines.times[at], lines.nodes[at], lines.others[at]) == (
        lines.times[other], lines.nodes[other], lines.others[other])


def find_fates(run: Run, node: int, calls: list[Call]) -> None:
    """Finds what the nodes asked did with the requests that were not lost.

    Without a spread the time says it, and of requests of one time the order."""
    scenario = run.history.scenario
    time_of = run.history.lines.times.__getitem__
    handled = handled_for(run, node)
    taken: Counter[tuple[int, str, int]] = Counter()
    for call, sending in in_order(calls):
        spread = scenario.spread_us if call.asked != node else 0
        first = sending.time + scenario.latency(node, call.asked)
        there = handled[call.asked, call.kind]
        there = there[bisect_left(there, first, key=time_of):bisect_right(there, first + spread, key=time_of)]
        if spread == 0:
            rank = taken[call.asked, call.kind, first]
            taken[call.asked, call.kind, first] += 1
            there = there[rank:rank + 1]
        if not there and first + spread < run.reached:
            raise Refused(f"{run.name} line {sending.at + 1}: the request does not arrive when it must. Is the "
                          "scenario that of this run, and is its latency file given by --latency?")
        sending.handled = there


def handled_for(run: Run, node: int) -> dict[tuple[int, str], list[int]]:
    """The places of the lines in which others say what they did with a node's requests, by the other and the kind."""
    lines = run.history.lines
    handled: dict[tuple[int, str], list[int]] = defaultdict(list)
    for at, (kind, other) in enumerate(zip(lines.kinds, lines.others, strict=True)):
        if other == node and kind in HANDLED:
            handled[lines.nodes[at], HANDLED[kind]].append(at)
    return handled


def in_order(calls: list[Call]) -> Iterator[tuple[Call, Sending]]:
    """The sendings that are not lost, in the order in which they were made."""
    sendings = [(call, one) for call in calls for one in call.sendings if not one.is_lost]
    yield from sorted(sendings, key=lambda pair: pair[1].at)


def find_timeouts(run: Run, node: int, calls: list[Call]) -> None:
    """Finds the lines `timeout`: a timeout after the last sending. Of two calls of one time one had no reply."""
    timeouts = timeouts_of(run, node)
    for call in sorted(calls, key=lambda call: call.may_be_answered(run)):
        deadline = call.sendings[-1].time + run.history.scenario.timeout_us
        there = timeouts[deadline, call.asked]
        if there:
            call.timeout = there.pop(0)


def timeouts_of(run: Run, node: int) -> dict[tuple[int, int], list[int]]:
    """The places of a node's lines `timeout`, by their time and the node called."""
    lines = run.history.lines
    timeouts: dict[tuple[int, int], list[int]] = defaultdict(list)
    for at, (one, kind) in enumerate(zip(lines.nodes, lines.kinds, strict=True)):
        if one == node and kind == TIMEOUT:
            timeouts[lines.times[at], lines.others[at]].append(at)
    return timeouts
