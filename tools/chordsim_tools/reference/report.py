"""The report (docs/rules.md, section 11): its numbers, counted from the lines of the trace."""

from collections import Counter
from collections.abc import Iterable
from statistics import median_low

LINES = (
    ("members", "member"), ("join-failed", "join-failed"), ("crashes", "crash"), ("stranded", "stranded"),
    ("drops", "drop"), ("late", "late"), ("timeouts", "timeout"), ("lookups", "lookup"), ("found", "found"),
    ("lost", "lost"), ("busy", "busy"), ("ignored", "ignored"),
)
"""The numbers that count lines of one kind, and the word of these lines."""
EXTENDED_LINES = (
    ("again", "again"), ("forgotten", "forget"), ("leaves", "leave"), ("rescues", "rescue"), ("creates", "create"),
)
"""Those that the extended profile alone has."""


class Report:
    """Reads the lines of a trace and counts. `lost_messages` counts the lines `lose` by the kind of the message."""

    def __init__(self, profile: int) -> None:
        """A report of no lines, in this profile."""
        self.profile = profile
        self.lost_messages: Counter[str] = Counter()
        self.lines: Counter[str] = Counter()
        self.audits: Counter[str] = Counter()
        self.hops: list[int] = []
        self.times: list[int] = []
        self.timeouts: list[int] = []

    def read(self, line: str) -> None:
        """Counts one line."""
        fields = line.split(" ")
        if fields[1] == "audit":
            self.audits["audits"] += 1
            self.audits["ringless"] += "ring=0" in fields
            self.audits["unordered"] += "ordered=no" in fields
            self.audits["insufficient"] += "sufficient=no" in fields
            return
        self.lines[fields[2]] += 1
        if fields[2] == "lose":
            self.lost_messages[fields[3]] += 1
        if fields[2] == "found":
            self.hops.append(int(fields[5].removeprefix("hops=")))
            self.timeouts.append(int(fields[6].removeprefix("timeouts=")))
            self.times.append(int(fields[7].removeprefix("us=")))

    def numbers(self, events: int) -> dict[str, int]:
        """The 24 numbers, in their order; in the second profile a 25th, in the extended one also the 26th to 31st."""
        numbers = {"events": events, **self.counts(LINES)}
        numbers["unfinished"] = max(0, numbers["lookups"] - numbers["found"] - numbers["lost"])
        numbers["hops-sum"] = sum(self.hops)
        numbers["hops-greatest"] = max(self.hops, default=0)
        numbers["us-sum"] = sum(self.times)
        numbers["us-least"] = min(self.times, default=0)
        numbers["us-median"] = median_low(self.times or [0])
        numbers["us-greatest"] = max(self.times, default=0)
        numbers |= {word: self.audits[word] for word in ("audits", "ringless", "unordered", "insufficient")}
        if self.profile >= 2:
            numbers["losses"] = self.lines["lose"]
        if self.profile == 4:
            numbers |= self.counts(EXTENDED_LINES)
            numbers["timeouts-sum"] = sum(self.timeouts)
        return numbers

    def counts(self, kinds: Iterable[tuple[str, str]]) -> dict[str, int]:
        """How many lines there are of each of these kinds, by the words of the report."""
        return {word: self.lines[kind] for word, kind in kinds}

    def text(self, events: int) -> str:
        """The report as it is printed."""
        return "".join(f"{word} {number}\n" for word, number in self.numbers(events).items())
