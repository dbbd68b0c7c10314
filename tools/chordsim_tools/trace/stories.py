"""The story of a node, and that of a lookup."""

import re
from bisect import bisect_right
from collections.abc import Iterator

from chordsim_tools.cli import Failure
from chordsim_tools.quantities import time_of
from chordsim_tools.trace.detail import lookup_requests
from chordsim_tools.trace.lines import CHANGES, FOUND, LOOKUP, LOST, TIMEOUT, Lookup
from chordsim_tools.trace.reading import Run
from chordsim_tools.trace.tables import name_or_nobody, verdict
from chordsim_tools.trace.wording import counted, seconds, timed


def node_story(run: Run, name: str) -> list[str]:
    """All lines of a node, and those of others that name it."""
    history, lines = run.history, run.history.lines
    node = history.numbers[name]
    spec = history.scenario.nodes[node]
    own = [at for at, one in enumerate(lines.nodes) if one == node]
    naming = [at for at, one in enumerate(lines.nodes) if one != node and lines.names_node(at) == node]
    lives = history.lives[node]
    told = [
        f"node {name}, identifier {spec.ident}, {'initial' if spec.initial else 'not initial'}, "
        f"{'churns by itself' if spec.churn else 'does not churn by itself'}",
        f"{counted(len(lives))} {'life' if len(lives) == 1 else 'lives'}: " + (", ".join(
            f"{seconds(life.begin)} to {'the end' if life.end is None else seconds(life.end)}" for life in lives
        ) or "never up"),
        f"{counted(len(own))} lines of its own; {counted(len(naming))} lines of other nodes name it, and begin with |",
        "",
    ]
    marks = {at: "  " for at in own} | {at: "| " for at in naming}
    return told + [marks[at] + timed(lines.text(at)) for at in sorted(marks)]


def lookup_of(run: Run, spec: str) -> Lookup:
    """The lookup that is meant: by its number from 1, or by its asker and the time of its begin."""
    lookups = run.history.lines.lookups
    if re.fullmatch("[0-9]{1,12}", spec):
        if not 1 <= int(spec) <= len(lookups):
            raise Failure(2, f"--lookup: {spec} is not from 1 to {len(lookups)}")
        return lookups[int(spec) - 1]
    name, _, at = spec.partition("@")
    time = time_of(at)
    if time is None:
        raise Failure(2, f"--lookup: {spec!r} is neither a number nor NODE@TIME, such as n07@12.5s")
    node = run.history.numbers.get(name)
    if node is None:
        raise Failure(2, f"--lookup: the scenario has no node {name!r}")
    own = [one for one in lookups if one.node == node]
    for one in own:
        if one.begin == time:
            return one
    near = sorted((abs(one.begin - time), one.begin) for one in own)[:3]
    told = ", ".join(f"{name}@{begin}us" for _, begin in near) or "none"
    raise Failure(2, f"--lookup: {name} begins no lookup at {seconds(time)}; the nearest ones are: {told}")


def lookup_story(run: Run, spec: str) -> list[str]:
    """A lookup, as far as the trace tells it."""
    one = lookup_of(run, spec)
    name = run.history.names[one.node]
    ran = f"at {seconds(one.begin)}, and ran for {seconds(one.taken(run.reached))}"
    return [
        f"lookup {one.number + 1}: {name} looked up the key {one.key} {ran}",
        f"verdict: {verdict(one)}",
        "",
        *(lookup_requests(run, one) if run.history.scenario.detail else lines_meanwhile(run, one)),
        "",
        *answer_story(run, one),
        *owner_story(run, one),
    ]


def lines_meanwhile(run: Run, one: Lookup) -> Iterator[str]:
    """Begin and end, and the asker's timeouts between them. The trace does not say whose these are."""
    lines, end = run.history.lines, run.reached if one.end is None else one.end
    timeouts = 0
    for at, node in enumerate(lines.nodes):
        if node != one.node or not one.begin <= lines.times[at] <= end:
            continue
        kind = lines.kinds[at]
        is_own = kind in (LOOKUP, FOUND, LOST) and lines.others[at] == one.number
        if is_own or kind == TIMEOUT or (kind in CHANGES and lines.times[at] > one.begin):
            timeouts += kind == TIMEOUT
            yield timed(lines.text(at))
    own = one.timeouts if one.outcome in ("found", "lost") else "the trace does not say"
    if timeouts:
        yield f"timeouts of the asker meanwhile: {timeouts}; of these the lookup's own: {own}"


def answer_story(run: Run, one: Lookup) -> Iterator[str]:
    """Whether the answer was right, and what the node that it names was doing."""
    if one.outcome != "found" or one.end is None:
        yield {
            "lost": f"it was lost after {one.hops} hops and {one.timeouts} timeouts",
            "crash": "its asker crashed before it ended",
            "leave": "its asker left before it ended",
            "end": "it had not ended when the trace did",
        }[one.outcome]
        return
    named, owner = run.history.names[one.owner], name_or_nobody(run, one.true_owner)
    if one.is_right:
        yield f"the answer is right: {named} was the owner of the key when it arrived"
        return
    yield f"the answer names {named}, and the owner when it arrived was {owner}"
    if one.is_defensible:
        yield f"it is defensible: {named} was the owner at some instant while the lookup ran"
    if not one.names_member:
        yield f"{named} was no member then: {last_change(run, one.owner, one.end)}"
    if one.missed:
        near = f", the nearest of them {owner}: {last_change(run, one.true_owner, one.end)}"
        members = "member" if one.missed == 1 else "members"
        yield f"{counted(one.missed)} {members} lay between the key and {named}{near}"


def last_change(run: Run, node: int, until: int) -> str:
    """The last line that changed a node, until some time."""
    lines = run.history.lines
    found = run.history.last_change(node, bisect_right(lines.times, until))
    if found is None:
        return "as it was at the start"
    return f"{timed(lines.text(found)).strip()} ({seconds(until - lines.times[found])} before)"


def owner_story(run: Run, one: Lookup) -> Iterator[str]:
    """Who owned the key, from the begin to the end."""
    end = run.reached if one.end is None else one.end
    yield ""
    yield "right owners of the key while it ran:"
    for time, name in run.history.members.owners(one.key, one.begin, end):
        yield f"  from {seconds(time)}: {name or 'nobody: there were no members'}"
