"""What `chordsim judge` makes of the lines of a trace, by other means: the table of lookups, and the digest."""

import re
from collections import Counter
from collections.abc import Iterable
from dataclasses import dataclass
from io import BytesIO

from chordsim_tools.members import Members
from chordsim_tools.study.lookups import Table, read_table
from chordsim_tools.study.reading import LineReader, Readers
from chordsim_tools.study.served import Scope
from chordsim_tools.study.trace import TraceReader

HEADING = "asker,key,begun_us,ended_us,us,hops,timeouts,named,right_owner,strict,defensible\n"
KEPT = frozenset((
    "join", "member", "create", "crash", "leave", "stranded", "join-failed", "ignored", "busy", "timeout", "lose",
    "again",
))
"""The words of lines of nodes that a digest has as they are."""
LINE = re.compile(
    rb"\n(\d+) ([^ \n]+) (?:ask (?:step|get-state) [^ \n]+ call=(\d+) (key=[^\n]+)"
    rb"|lookup (\d+)|(?:found|lost) (\d+)[^\n]* timeouts=(\d+) us=(\d+)|(crash|leave))(?=\n)"
)
"""A request for a step or a state that is of a lookup; begin and end of a lookup; the end of its asker's life. Each
line has the line feed before it."""


@dataclass(slots=True)
class Asked:
    """The calls of a lookup until now, and the last of them. One that is sent again is the same call."""

    calls: int = 0
    last: bytes = b""


class AskLines:
    """Counts the messages of users' lookups: the requests as they are sent and, at the end of a lookup, a reply for
    each of its calls that did not time out.

    No line says of which lookup a reply is. A refresh of a finger is a lookup too, and has no line `lookup`. Lookups of
    one key that a node began at one time cannot be told apart: requests are of the one that ends first."""

    def __init__(self) -> None:
        """No lines yet."""
        self.open: dict[bytes, dict[bytes, list[Asked]]] = {}
        """The lookups of each node that have not ended, by what lines `ask` say of them."""

    def read(self, lines: bytes) -> int:
        """Takes whole lines of a trace; gives how many messages they add."""
        count = 0
        for time, node, call, lookup, begun, ended, timeouts, taken, goes in LINE.findall(b"\n" + lines):
            if lookup:
                for one in self.open.get(node, {}).get(lookup, [])[:1]:
                    count += 1
                    one.calls += call != one.last
                    one.last = call
            elif begun:
                alike = self.open.setdefault(node, {}).setdefault(b"key=%b since=%b" % (begun, time), [])
                alike.append(Asked())
            elif ended:
                count += self.replies(node, b"key=%b since=%d" % (ended, int(time) - int(taken)), int(timeouts))
            elif goes:
                self.open.pop(node, None)
        return count

    def replies(self, node: bytes, lookup: bytes, timeouts: int) -> int:
        """A lookup ends, of whose calls so many timed out: the replies that it had."""
        alike = self.open.get(node, {}).get(lookup, [])
        return max(0, alike.pop(0).calls - timeouts) if alike else 0


class Rows:
    """Makes the table of lookups. The members are told by the lines too, and are those at the start."""

    def __init__(self, members: Members) -> None:
        """No lines yet."""
        self.members = members
        self.open: list[tuple[str, int, int]] = []
        """The lookups that have not ended: their askers, keys and begins."""
        self.rows: list[str] = []

    def read(self, line: str) -> None:
        """Takes a line of the trace or of the report."""
        begin, node, *rest = line.split(" ")
        if begin.isdigit() and node != "audit":
            self.read_node(int(begin), node, *rest)

    def read_node(self, time: int, node: str, word: str, *rest: str) -> None:
        """Takes a line of a node."""
        match word:
            case "lookup":
                self.open.append((node, int(rest[0]), time))
            case "found" | "lost":
                self.end(time, node, rest)
            case "member" | "create":
                self.members.add(node, time)
            case "stranded":
                self.members.remove(node, time)
            case "crash" | "leave":
                self.members.remove(node, time)
                self.cut_off(time, node, f"cut-by-{word}")

    def end(self, time: int, node: str, rest: tuple[str, ...]) -> None:
        """A lookup ends: found KEY OWNER hops=H timeouts=O us=U, or lost, without an owner."""
        key, begun = int(rest[0]), time - int(rest[-1].removeprefix("us="))
        # In tests by hand a line of an end may stand for its begin too.
        if (node, key, begun) in self.open:
            self.open.remove((node, key, begun))
        hops, timeouts = rest[-3].removeprefix("hops="), rest[-2].removeprefix("timeouts=")
        numbers = (time, time - begun, hops, timeouts)
        if len(rest) == 4:
            self.add(node, key, begun, *numbers, "", "", "lost", "lost")
            return
        named, owner = rest[1], self.members.owner(key)
        strict = named == owner
        defensible = strict or self.members.was_owner(named, key, begun, time)
        verdicts = ["right" if fits else "wrong" for fits in (strict, defensible)]
        self.add(node, key, begun, *numbers, named, owner or "", *verdicts)

    def cut_off(self, time: int, node: str, outcome: str) -> None:
        """The lookups of a node are over."""
        for _, key, begun in [one for one in self.open if one[0] == node]:
            self.add(node, key, begun, time, time - begun, "", "", "", "", outcome, outcome)
        self.open = [one for one in self.open if one[0] != node]

    def text(self) -> str:
        """The table at the end of the trace."""
        for node, key, begun in self.open:
            self.add(node, key, begun, *[""] * 6, "cut-by-end", "cut-by-end")
        return HEADING + "".join(self.rows)

    def add(self, *cells: int | str) -> None:
        """A row."""
        self.rows.append(",".join(map(str, cells)) + "\n")


class Digest:
    """Makes the digest: most lines of nodes as they are, and the others counted from one edge to the next."""

    def __init__(self, edges: Iterable[int]) -> None:
        """No lines yet."""
        self.edges = sorted({*edges} - {0})
        self.since = 0
        self.counts: Counter[str] = Counter()
        self.asked = AskLines()
        self.stabilized: dict[str, list[str]] = {}
        """The fields of the last request for a state of each node that is of no lookup."""
        self.lines: list[str] = []

    def read(self, line: str) -> None:
        """Takes a line of the trace or of the report."""
        fields = line.split(" ")
        if not fields[0].isdigit():
            self.lines.append(line)
            return
        while self.edges and self.edges[0] <= int(fields[0]):
            self.close()
            self.since = self.edges.pop(0)
        if fields[1] == "audit":
            self.lines.append(line)
        else:
            self.count(line, fields)

    def count(self, line: str, fields: list[str]) -> None:
        """Takes a line of a node."""
        word = fields[2]
        self.counts["lookups all"] += self.asked.read(f"{line}\n".encode())
        if word in ("ask", "send", "drop"):
            self.counts[f"{word} {fields[3]}"] += 1
        if word == "ask" and fields[3] == "get-state" and len(fields) == 6:
            self.stabilized[fields[1]] = fields
        if word == "timeout" and self.stabilized.get(fields[1], [""] * 6)[4] == fields[3]:
            self.lines.append(" ".join(self.stabilized[fields[1]]))
        if word in KEPT:
            self.lines.append(line)

    def close(self) -> None:
        """A span is over."""
        self.lines += [f"{self.since} messages {words} {count}" for words, count in self.counts.items() if count]
        self.counts.clear()

    def text(self) -> str:
        """The digest at the end of the trace."""
        self.close()
        return "".join(f"{line}\n" for line in self.lines)


def judged(lines: Iterable[str], members: Members, edges: Iterable[int]) -> tuple[str, str]:
    """The table and the digest of the lines of a trace and a report, with the members at the start."""
    rows, digest = Rows(members), Digest(edges)
    for line in lines:
        rows.read(line)
        digest.read(line)
    return rows.text(), digest.text()


def table_of(lines: Iterable[str], members: Members) -> Table:
    """The table alone, as a study reads it."""
    return read_table(BytesIO(judged(lines, members, ())[0].encode()))


def read_digest(lines: Iterable[str], scope: Scope, *readers: LineReader) -> None:
    """Tells readers what a digest has of these lines."""
    digest = Digest(scope.edges())
    for line in lines:
        digest.read(line)
    Readers(*readers).read(digest.text().splitlines())


def read_trace(lines: Iterable[str], reader: TraceReader, *others: LineReader) -> Table:
    """Tells readers what a digest has of these lines, and the first one the table too. Gives this."""
    members = reader.members
    copy = Members(members.idents, [members.names[place] for place in members.places])
    table, digest = judged(lines, copy, reader.scope.edges())
    Readers(reader, *others).read(digest.splitlines())
    lookups = read_table(BytesIO(table.encode()))
    reader.take(lookups)
    return lookups
