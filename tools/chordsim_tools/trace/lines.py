"""The lines of a trace, kept in columns of numbers: so a trace of millions of lines fits into memory."""

from array import array
from bisect import bisect_left
from dataclasses import dataclass

from chordsim_tools.messages import MESSAGES, REQUESTS

PLAIN = (
    "join", "member", "join-failed", "crash", "stranded", "timeout", "lookup", "found", "lost", "busy",
    "ignored join", "ignored crash", "ignored lookup", "ignored leave", "audit",
)
KINDS = (
    *PLAIN,
    *(f"{word} {message}" for word in ("drop", "late", "lose") for message in MESSAGES),
    *(f"again {message}" for message in REQUESTS),
    "forget", "rescue", "create", "leave",
    *(f"ask {message}" for message in REQUESTS),
    *(f"send {message}" for message in MESSAGES[4:]),
)
"""All kinds of lines. Its place here is the code of a kind."""
CODES = {kind: code for code, kind in enumerate(KINDS)}
JOIN, MEMBER, JOIN_FAILED, CRASH, STRANDED, TIMEOUT, LOOKUP, FOUND, LOST, BUSY = range(10)
AUDIT = CODES["audit"]
ASKS = frozenset(CODES[f"ask {message}"] for message in REQUESTS)
CREATE, LEAVE = CODES["create"], CODES["leave"]
COMES_IN = frozenset((MEMBER, CREATE))
"""The kinds of lines that make a node a member."""
GOES = {"crash": CRASH, "leave": LEAVE}
"""The kinds of lines after which a node is down, whatever it was, by their words. A word is also the outcome of the
lookups and joins that such a line cuts off."""
CHANGES = frozenset((JOIN, JOIN_FAILED, STRANDED, *GOES.values())) | COMES_IN
"""The kinds of lines that change what a node is."""
NOBODY = -1


@dataclass(slots=True)
class Lookup:
    """A lookup. Nodes are numbers of the scenario. What is not there is None, or NOBODY for a node.

    The outcome is found, lost, crash (its asker crashed), leave (its asker left) or end (the trace ended)."""

    number: int
    node: int
    key: int
    begin: int
    end: int | None = None
    outcome: str = "end"
    owner: int = NOBODY
    true_owner: int = NOBODY
    hops: int = 0
    timeouts: int = 0
    is_right: bool = False
    is_defensible: bool = False
    names_member: bool = False
    missed: int = 0

    @property
    def is_wrong(self) -> bool:
        """Whether it was answered, and with another node than the right owner at that time."""
        return self.outcome == "found" and not self.is_right

    def taken(self, reached: int) -> int:
        """How long it ran, in microseconds, till its end or till the trace's."""
        return (reached if self.end is None else self.end) - self.begin


@dataclass(frozen=True)
class Audit:
    """An audit line, and the number of changes of members before it."""

    time: int
    members: int
    dead: int
    ring: int
    is_ordered: bool
    principals: int
    is_sufficient: bool

    @property
    def is_whole(self) -> bool:
        """Whether all members are on a ring that goes once around."""
        return self.is_ordered and self.ring == self.members != 0

    @property
    def is_torn(self) -> bool:
        """Whether a member has no living successor, or there is no ring, or one that is out of order."""
        return not self.is_ordered or self.ring == 0 or self.dead != 0

    def text(self) -> str:
        """The line."""
        return (
            f"{self.time} audit members={self.members} dead={self.dead} ring={self.ring} "
            f"ordered={yes_or_no(self.is_ordered)} principals={self.principals} "
            f"sufficient={yes_or_no(self.is_sufficient)}"
        )


def yes_or_no(fact: bool) -> str:
    """The word of an audit line."""
    return "yes" if fact else "no"


class Asks:
    """What the lines `ask` say of their calls: the place of the line, the call, and the key and start of its lookup."""

    def __init__(self) -> None:
        """No lines yet."""
        self.lines = array("q")
        self.calls = array("q")
        self.keys: list[int | None] = []
        self.starts = array("q")

    def append(self, line: int, call: int, key: int | None, start: int) -> None:
        """One more line. A call that is not of a lookup has no key, and no start."""
        self.lines.append(line)
        self.calls.append(call)
        self.keys.append(key)
        self.starts.append(start)

    def rest(self, line: int) -> str:
        """What the line at this place says behind the node that was asked."""
        at = bisect_left(self.lines, line)
        key = self.keys[at]
        return f" call={self.calls[at]}" + ("" if key is None else f" key={key} since={self.starts[at]}")


class Lines:
    """All lines: time, node, kind, and a number: of another node, a lookup, an audit or a key."""

    def __init__(self, names: list[str]) -> None:
        """No lines yet, of nodes with these names."""
        self.names = names
        self.times = array("q")
        self.nodes = array("i")
        self.kinds = array("B")
        self.others = array("i")
        self.lookups: list[Lookup] = []
        self.audits: list[Audit] = []
        self.busy_keys: list[int] = []
        self.asks = Asks()

    def append(self, time: int, node: int, kind: int, other: int) -> None:
        """One more line."""
        self.times.append(time)
        self.nodes.append(node)
        self.kinds.append(kind)
        self.others.append(other)

    def text(self, at: int) -> str:
        """The line as the trace has it."""
        kind, other = self.kinds[at], self.others[at]
        if kind == AUDIT:
            return self.audits[other].text()
        call = self.asks.rest(at) if kind in ASKS else ""
        return f"{self.times[at]} {self.names[self.nodes[at]]} {KINDS[kind]}{self.rest(kind, other)}{call}"

    def rest(self, kind: int, other: int) -> str:
        """What a line says after its kind."""
        if kind == BUSY:
            return f" {self.busy_keys[other]}"
        if kind in (LOOKUP, FOUND, LOST):
            one = self.lookups[other]
            owner = f" {self.names[one.owner]}" if kind == FOUND else ""
            ended = f" hops={one.hops} timeouts={one.timeouts} us={one.taken(0)}"
            return f" {one.key}{owner}" + ("" if kind == LOOKUP else ended)
        return f" {self.names[other]}" if other != NOBODY else ""

    def of_kind(self, *kinds: int) -> list[int]:
        """The times of the lines of some kinds."""
        return [time for time, kind in zip(self.times, self.kinds, strict=True) if kind in kinds]

    def names_node(self, at: int) -> int:
        """The other node that a line names, or NOBODY."""
        kind = self.kinds[at]
        if kind == FOUND:
            return self.lookups[self.others[at]].owner
        return NOBODY if kind in (LOOKUP, LOST, BUSY, AUDIT) else self.others[at]
