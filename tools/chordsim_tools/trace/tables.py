"""Tables of a run: by steps of time, by node, and the worst lookups."""

from collections.abc import Collection
from typing import Any

from chordsim_tools.cli import Failure
from chordsim_tools.quantities import time_text
from chordsim_tools.study.survival import Times
from chordsim_tools.trace.lines import COMES_IN, CRASH, LEAVE, NOBODY, TIMEOUT, Lookup
from chordsim_tools.trace.reading import Run
from chordsim_tools.trace.wording import counted, seconds, share, table

Rows = list[dict[str, Any]]
MOST_STEPS = 100_000
STEP_WORDS = ("begun", "found", "right", "lost", "timeouts", "members", "crashes", "joined")
"""The counts of each step that a table always has."""
KINDS_OF: dict[str, Collection[int]] = {
    "timeouts": [TIMEOUT], "crashes": [CRASH], "joined": COMES_IN, "leaves": [LEAVE],
}
"""The kinds of the lines that are counted in each step."""
CUT_OFF = {"crash": "cut off by a crash", "leave": "cut off by a leave", "end": "cut off by the end"}
PERCENTILES = {"p50_us": (50, 1), "p99_us": (99, 100), "p999_us": (99.9, 1000)}
"""The percentiles of a step, and of how many lookups each is one."""


def step_rows(run: Run, width: int) -> Rows:
    """A row for each step: what begins and ends in it, how long lookups take that begin in it, and members at its end.

    A step has its first instant."""
    end = run.history.scenario.duration_us if run.is_whole else run.reached + 1
    count = -(-end // width)
    if count > MOST_STEPS:
        raise Failure(2, f"--over-time: {count} steps of {time_text(width)}; {MOST_STEPS} at most")
    words = (*STEP_WORDS, "leaves")
    rows: Rows = [{"from_us": at * width, **dict.fromkeys(words, 0)} for at in range(count)]
    count_lookups(rows, run, width)
    count_lines(rows, run, width)
    members = run.history.members
    for row, times in zip(rows, step_times(run, width, count), strict=True):
        row["members"] = members.count_before(min(row["from_us"] + width, end))
        row |= {
            word: times.percentile(of) if times.count() >= least else None for word, (of, least) in PERCENTILES.items()
        }
    return rows


def count_lookups(rows: Rows, run: Run, width: int) -> None:
    """Counts the lookups that begin and end in each step."""
    for one in run.history.lines.lookups:
        rows[one.begin // width]["begun"] += 1
        if one.end is not None and one.outcome in ("found", "lost"):
            row = rows[one.end // width]
            row[one.outcome] += 1
            row["right"] += one.is_right


def count_lines(rows: Rows, run: Run, width: int) -> None:
    """Counts the other lines of each step."""
    lines = run.history.lines
    for word, time in ((word, time) for word, kinds in KINDS_OF.items() for time in lines.of_kind(*kinds)):
        rows[time // width][word] += 1


def step_times(run: Run, width: int, count: int) -> list[Times]:
    """How long the lookups take that begin in each step, whenever they end."""
    steps = [Times() for _ in range(count)]
    for one in run.history.lines.lookups:
        add_time(steps[one.begin // width], one, run.reached)
    return steps


def add_time(times: Times, one: Lookup, reached: int) -> None:
    """One more lookup: found, lost or cut off."""
    if one.outcome == "lost":
        times.lost += 1
    else:
        (times.ended if one.outcome == "found" else times.cut).append(one.taken(reached))


def step_table(rows: Rows) -> list[str]:
    """The same for readers. Without leaves there is no column of them."""
    words = [*STEP_WORDS, *(["leaves"] if any(row["leaves"] for row in rows) else [])]
    cells = [
        [seconds(row["from_us"]), *(counted(row[word]) for word in words), share(row["right"], row["found"]),
         *(seconds(row[word]) for word in PERCENTILES)]
        for row in rows
    ]
    head = [
        "steps of time: members are those at the end of the step, right is strict; p50, p99 and p99.9 are of the times",
        "of all lookups that begin in the step (of 100 and 1,000 or more for the last two)", "",
    ]
    return head + table(["from", *words, "right share", "p50", "p99", "p99.9"], cells)


def node_rows(run: Run) -> Rows:
    """A row for each node."""
    history = run.history
    rows: Rows = []
    for name, lives in zip(history.names, history.lives, strict=True):
        up = sum((run.reached if life.end is None else life.end) - life.begin for life in lives)
        row = dict.fromkeys(("lookups", "found", "right", "lost", "named", "timeouts_met", "timeouts_on_it"), 0)
        rows.append({"node": name, **row, "lives": len(lives), "up_us": up})
    count_lookups_of_nodes(rows, run)
    count_timeouts_of_nodes(rows, run)
    return rows


def count_lookups_of_nodes(rows: Rows, run: Run) -> None:
    """Counts the lookups of each node, and the answers that name it."""
    for one in run.history.lines.lookups:
        row = rows[one.node]
        row["lookups"] += 1
        row["found"] += one.outcome == "found"
        row["lost"] += one.outcome == "lost"
        row["right"] += one.is_right
        if one.owner != NOBODY:
            rows[one.owner]["named"] += 1


def count_timeouts_of_nodes(rows: Rows, run: Run) -> None:
    """Counts the timeouts of each node's calls, and those of calls to it."""
    lines = run.history.lines
    for node, kind, other in zip(lines.nodes, lines.kinds, lines.others, strict=True):
        if kind == TIMEOUT:
            rows[node]["timeouts_met"] += 1
            rows[other]["timeouts_on_it"] += 1


def node_table(rows: Rows) -> list[str]:
    """The same for readers."""
    words = ("lookups", "found", "right", "lost", "named", "timeouts_met", "timeouts_on_it", "lives")
    cells = [
        [row["node"], *(counted(row[word]) for word in words), seconds(row["up_us"]), share(row["right"], row["found"])]
        for row in rows
    ]
    return table(["node", *(word.replace("_", " ") for word in words), "up", "right share"], cells)


def slowest(run: Run, most: int) -> list[Lookup]:
    """The lookups that took longest till they were found or lost."""
    ended = [one for one in run.history.lines.lookups if one.outcome in ("found", "lost")]
    return sorted(ended, key=lambda one: -one.taken(0))[:most]


def most_wrong(run: Run, most: int) -> list[Lookup]:
    """Wrong answers: first those that no instant defends, then by the members that they miss, then by time."""
    wrong = [one for one in run.history.lines.lookups if one.is_wrong]
    return sorted(wrong, key=lambda one: (one.is_defensible, -one.missed, -one.taken(0)))[:most]


def lookup_row(run: Run, one: Lookup) -> dict[str, Any]:
    """A lookup, as a row of the worst ones."""
    names = [*run.history.names, None]
    return {
        "number": one.number + 1, "node": names[one.node], "key": one.key, "begin_us": one.begin, "end_us": one.end,
        "outcome": one.outcome, "us": None if one.end is None else one.taken(0), "hops": one.hops,
        "timeouts": one.timeouts, "owner": names[one.owner], "true_owner": names[one.true_owner],
        "verdict": verdict(one), "missed": one.missed,
    }


def worst_rows(run: Run, most: int) -> dict[str, Rows]:
    """The slowest and the most wrong lookups."""
    return {
        "slowest": [lookup_row(run, one) for one in slowest(run, most)],
        "most_wrong": [lookup_row(run, one) for one in most_wrong(run, most)],
    }


def worst_table(rows: dict[str, Rows]) -> list[str]:
    """The same for readers."""
    lines: list[str] = []
    for key, head in (("slowest", "slowest lookups"), ("most_wrong", "most wrong answers")):
        cells = [
            [str(row["number"]), f"{row['node']}@{seconds(row['begin_us']).replace(' ', '')}", seconds(row["us"]),
             str(row["hops"]), str(row["timeouts"]), row["owner"] or "-", row["true_owner"] or "-",
             str(row["missed"]), row["verdict"]]
            for row in rows[key]
        ]
        heading = ["lookup", "asker", "time", "hops", "timeouts", "named", "right owner", "missed", "verdict"]
        lines += ([""] if lines else []) + [head, "", *(table(heading, cells) if cells else ["none"])]
    return lines


def verdict(one: Lookup) -> str:
    """What became of a lookup, in a word or two."""
    if one.outcome != "found":
        return CUT_OFF.get(one.outcome, "lost")
    if one.is_right:
        return "right"
    kind = "misses a member" if one.names_member else "names no member"
    return ("defensible, " if one.is_defensible else "wrong, ") + kind


def name_or_nobody(run: Run, node: int) -> str:
    """The name of a node that may be none."""
    return "nobody" if node == NOBODY else run.history.names[node]
