"""Stories of a run with detail: the requests of a lookup and of a join, and why successors were removed."""

from collections.abc import Iterator, Sequence

from chordsim_tools.cli import Failure
from chordsim_tools.messages import REPLIES
from chordsim_tools.quantities import time_of
from chordsim_tools.trace.history import Join
from chordsim_tools.trace.lines import (
    CHANGES, CODES, COMES_IN, FOUND, GOES, JOIN, JOIN_FAILED, LOOKUP, LOST, STRANDED, TIMEOUT, Lookup,
)
from chordsim_tools.trace.reading import Run
from chordsim_tools.trace.requests import Call, calls_of
from chordsim_tools.trace.wording import counted, seconds, timed

JOINED = {
    "done": "is a member", "failed": "gives up", "crash": "crashes", "leave": "leaves",
    "open": "still joins when the trace ends",
}
ENDS = {"done": COMES_IN, "failed": {JOIN_FAILED}, **{word: {kind} for word, kind in GOES.items()}}
OF_JOINS = frozenset(
    CODES[f"{word} {kind}"] for word in ("again", "lose") for kind in ("step", "get-list", "get-state")
)
"""Lines of messages that a node which joins makes: these are all of its join."""
SENDS = frozenset(CODES[f"send {kind}"] for kind in REPLIES.values())


def marked_lines(run: Run, own: Sequence[int], calls: Sequence[Call]) -> Iterator[str]:
    """A node's own lines and those of its calls; with | those of nodes asked, with ? those that may be of a call."""
    marks = dict.fromkeys([*own, *(at for call in calls for at in call.places())], "  ")
    handled = (one.handled for call in calls for one in call.sendings)
    for at, mark in ((at, "| " if len(places) == 1 else "? ") for places in handled for at in places):
        marks.setdefault(at, mark)
    yield from (marks[at] + timed(run.history.lines.text(at)) for at in sorted(marks))


def call_words(run: Run, call: Call, after: int | None, otherwise: str) -> str:
    """A call and its end, if the node's next request or the end of its search comes at the time `after`."""
    begin, sent = call.sendings[0].time, len(call.sendings)
    fates = ", ".join(one.fate(run) for one in call.sendings)
    if call.timeout is not None:
        fates = fates.replace("replied", "replied too late")
        ended = f"timeout after {seconds(run.history.lines.times[call.timeout] - begin)}"
    elif after is not None and is_reply_at(run, call, after):
        ended = f"reply after {seconds(after - begin)}"
    else:
        ended = otherwise
    times = "once" if sent == 1 else f"{sent} times"
    return f"call {call.number}, {call.kind} to {run.history.names[call.asked]}, sent {times}: {fates}; {ended}"


def is_reply_at(run: Run, call: Call, time: int) -> bool:
    """Whether a reply to the call can arrive at this time."""
    lines, scenario = run.history.lines, run.history.scenario
    delay = scenario.latency(call.asked, call.node)
    spread = scenario.spread_us if call.asked != call.node else 0
    replies = [at for one in call.sendings for at in one.handled if lines.kinds[at] in SENDS]
    return any(0 <= time - lines.times[at] - delay <= spread for at in replies)


def search_story(run: Run, own: Sequence[int], calls: Sequence[Call], end: int | None, is_cut: bool) -> Iterator[str]:
    """The lines of a lookup or a join, and a line for each of its calls. The calls come one after another."""
    yield from marked_lines(run, own, calls)
    yield ""
    last = "open when the trace ends" if end is None else "cut off"
    until = run.reached if end is None else end
    for number, call in enumerate(calls, start=1):
        is_over = number < len(calls) or call.sendings[-1].time + run.history.scenario.timeout_us < until
        following = calls[number].sendings[0].time if number < len(calls) else None if is_cut else end
        yield call_words(run, call, following, "a reply" if is_over else last)
    if not calls:
        yield "no node was asked"


def lookup_requests(run: Run, one: Lookup) -> Iterator[str]:
    """The requests of a lookup. Those of lookups of one key that a node began at one time cannot be told apart."""
    begin, end = lookup_places(run, one)
    calls = [
        call for call in calls_of(run, one.node)
        if (call.key, call.start) == (one.key, one.begin) and begin < call.sendings[0].at < max(end)
    ]
    known = [begin, *(at for at in end if at < len(run.history.lines.times))]
    yield from search_story(run, known, calls, one.end, one.outcome in GOES or len(end) > 1)
    same = [other for other in run.history.lines.lookups if (other.node, other.key, other.begin) == (
        one.node, one.key, one.begin)]
    if len(same) > 1:
        yield f"(these are the requests of all {counted(len(same))} lookups of this key that it began at this time)"


def lookup_places(run: Run, one: Lookup) -> tuple[int, list[int]]:
    """The place of the line that begins a lookup, and those of its end; a place behind all lines if it has none."""
    lines, begin = run.history.lines, 0
    for at, (node, kind, other) in enumerate(zip(lines.nodes, lines.kinds, lines.others, strict=True)):
        if node != one.node or lines.times[at] < one.begin:
            continue
        if kind == LOOKUP and other == one.number:
            begin = at
        elif kind in (FOUND, LOST) and other == one.number:
            return begin, [*stranding(run, at), at]
        elif kind == GOES.get(one.outcome) and lines.times[at] == one.end:
            return begin, [at]
    return begin, [len(lines.times)]


def stranding(run: Run, at: int) -> list[int]:
    """The place of the line `stranded` that has ended the lookup whose line `lost` is here, if one has."""
    lines, before = run.history.lines, at
    while before > 0 and lines.kinds[before] == LOST:
        before -= 1
    is_same = lines.nodes[before] == lines.nodes[at] and lines.times[before] == lines.times[at]
    return [before] if lines.kinds[before] == STRANDED and is_same else []


def join_of(run: Run, spec: str) -> tuple[Join, int]:
    """The join that is meant, by its node, or by its node and its begin; and the place of its first line."""
    history = run.history
    name, _, at = spec.partition("@")
    node, time = history.numbers.get(name), time_of(at) if at else None
    if node is None:
        raise Failure(2, f"--join: the scenario has no node {name!r}")
    if at and time is None:
        raise Failure(2, f"--join: {spec!r} is neither a node nor NODE@TIME, such as n07@12.5s")
    begins = [at for at, kind in enumerate(history.lines.kinds) if kind in (JOIN, STRANDED)]
    own = [pair for pair in zip(history.joins, begins, strict=True) if pair[0].node == node]
    meant = [pair for pair in own if time in (None, pair[0].begin)]
    if len(meant) == 1:
        return meant[0]
    raise Failure(2, f"--join: {unclear_join(name, time, [join for join, _ in own])}")


def unclear_join(name: str, time: int | None, own: list[Join]) -> str:
    """Why the joins of a node are not one, or none begins at this time."""
    if not own:
        return f"{name} never joins"
    told = ", ".join(f"{name}@{join.begin}us" for join in own[:20]) + (" and more" if len(own) > 20 else "")
    if all(time not in (None, join.begin) for join in own):
        return f"{name} does not begin to join at {seconds(time)}; its joins are: {told}"
    return f"{name} joins {counted(len(own))} times; name one by its begin: {told}"


def join_story(run: Run, spec: str) -> list[str]:
    """A join, or a join again of a node that was stranded."""
    join, begin = join_of(run, spec)
    lines, name = run.history.lines, run.history.names[join.node]
    taken = "" if join.end is None else f" after {seconds(join.end - join.begin)}"
    begins = "is stranded, and joins again" if join.is_again else "joins"
    told = [f"{name} {begins} at {seconds(join.begin)}, and {JOINED[join.outcome]}{taken}", ""]
    last = len(lines.times)
    if join.end is not None:
        last = next(at for at in range(begin + 1, last)
                    if lines.nodes[at] == join.node and lines.kinds[at] in ENDS[join.outcome])
    wanted = CHANGES | OF_JOINS | {TIMEOUT}
    own = [at for at in range(begin, min(last + 1, len(lines.times)))
           if lines.nodes[at] == join.node and lines.kinds[at] in wanted]
    if not run.history.scenario.detail:
        without = "(the scenario has no `detail = true`: the trace does not say which nodes it asked)"
        return [*told, *marked_lines(run, own, []), "", without]
    calls = [call for call in calls_of(run, join.node) if begin < call.sendings[0].at < last]
    return [*told, *search_story(run, own, calls, join.end, join.outcome in GOES)]


def removal_story(run: Run, name: str) -> list[str]:
    """Each time that a node removed the head of its successor list when it had asked it for its state, and why."""
    if not run.history.scenario.detail:
        raise Failure(2, "--removed: the scenario has no `detail = true`, so that no line says what a timeout was for")
    calls = [
        call for call in calls_of(run, run.history.numbers[name]) if call.kind == "get-state" and call.key is None
    ]
    silent = [(call, call.timeout) for call in calls if call.timeout is not None and is_of_member(run, call)]
    told = [f"successors that {name} has removed because they did not send their state: {counted(len(silent))}"]
    for call, at in silent:
        asked = run.history.names[call.asked]
        told += [
            "",
            f"at {seconds(run.history.lines.times[at])}: {asked}, which was {status_then(run, call.asked, at)}",
            *marked_lines(run, what_follows(run, at), [call]),
            call_words(run, call, None, ""),
        ]
    return told


def is_of_member(run: Run, call: Call) -> bool:
    """Whether a node is a member when it makes a call. One that joins asks the first successor that it gets."""
    change = run.history.last_change(call.node, call.sendings[0].at)
    return change is None or run.history.lines.kinds[change] in COMES_IN


def what_follows(run: Run, timeout: int) -> list[int]:
    """The places of the lines that the same event made: a finger becomes the successor, another successor is asked, or
    the node is stranded."""
    lines, places = run.history.lines, []
    goes_on = {CODES["lose get-state"], CODES["rescue"]}
    wanted = goes_on | {CODES["ask get-state"], STRANDED}
    for at in range(timeout + 1, len(lines.times)):
        is_same = (lines.nodes[at], lines.times[at]) == (lines.nodes[timeout], lines.times[timeout])
        if not is_same or lines.kinds[at] not in wanted:
            break
        places.append(at)
        if lines.kinds[at] not in goes_on:
            break
    return places


def status_then(run: Run, node: int, before: int) -> str:
    """What a node was before a line, and since when."""
    lines, at = run.history.lines, run.history.last_change(node, before)
    if at is None:
        return f"{'a member' if run.history.scenario.nodes[node].initial else 'down'} then, as at the start"
    is_joining = lines.kinds[at] in (JOIN, STRANDED) or (
        lines.kinds[at] == JOIN_FAILED and run.history.scenario.join_forever)
    word = "a member" if lines.kinds[at] in COMES_IN else "joining" if is_joining else "down"
    return f"{word} then ({timed(lines.text(at)).strip()})"
