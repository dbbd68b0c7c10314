"""What a page embeds of a run: columns of numbers in base64, names once, and a limit on the lines."""

import base64
import sys
from array import array
from collections import Counter
from collections.abc import Iterable
from pathlib import Path
from typing import Any

from chordsim_tools.cli import Failure
from chordsim_tools.trace.lines import ASKS, CHANGES, FOUND, KINDS, LOOKUP, LOST, Audit, Lookup
from chordsim_tools.trace.page.bins import bins, lookup_times
from chordsim_tools.trace.page.groups import groups_by_name
from chordsim_tools.trace.reading import Run
from chordsim_tools.trace.tables import most_wrong, slowest

MOST_LINES = 200_000
MOST_CHANGES = 1_000_000
MOST_AUDITS = 2_000
WORST = 100
OUTCOMES = ("found", "lost", "crash", "end", "leave")
LOOKUPS = frozenset((LOOKUP, FOUND, LOST))
Facts = dict[str, Any]


def packed(values: Iterable[int | float], code: str) -> str:
    """Numbers as base64, the lowest byte first."""
    numbers = array(code, values)
    if sys.byteorder == "big":
        numbers.byteswap()
    return base64.b64encode(numbers.tobytes()).decode("ascii")


def page_data(run: Run, scenario: str, groups: list[str] | None = None) -> Facts:
    """All that the page is made of. Without groups they are those of the nodes' names."""
    group_of = groups_by_name(run.history.names) if groups is None else groups
    group_names = list(dict.fromkeys(group_of))
    history = run.history
    spec, lines = history.scenario, history.lines
    kinds, left_out = kept_kinds(lines.kinds)
    lookups, worst = kept_lookups(run, LOOKUP in kinds)
    if LOOKUP not in kinds:
        left_out.append(f"{len(lines.lookups) - len(lookups):,} of {len(lines.lookups):,} lookups and their lines "
                        "(the worst ones are here)")
    audits = kept_audits(lines.audits)
    if len(audits) < len(lines.audits):
        gone = len(lines.audits) - len(audits)
        left_out.append(f"{gone:,} of {len(lines.audits):,} audits (the worst ones are here)")
    return {
        "scenario": Path(scenario).name,
        "duration": spec.duration_us, "reached": run.reached, "isWhole": run.is_whole, "bits": spec.bits,
        "joinForever": spec.join_forever,
        "names": history.names,
        "idents": [str(node.ident) for node in spec.nodes],
        "initial": packed((node.initial for node in spec.nodes), "B"),
        "places": packed((node.ident / 2**spec.bits for node in spec.nodes), "d"),
        "groups": group_names,
        "group": packed(map(group_names.index, group_of), "i"),
        "kinds": KINDS,
        "bins": bins(run),
        "times": lookup_times(run),
        "audits": [list(audit_row(audit)) for audit in audits],
        "lines": line_columns(run, kinds, {one.number: at for at, one in enumerate(lookups)}),
        "lookups": lookup_columns(lookups, (spec.bits + 7) // 8, spec.bits),
        "busyKeys": [str(key) for key in lines.busy_keys],
        "asks": [lines.asks.rest(at) for at in lines.asks.lines] if ASKS <= kinds else [],
        "worst": worst,
        "leftOut": left_out,
    }


def kept_kinds(codes: Iterable[int]) -> tuple[frozenset[int], list[str]]:
    """The kinds whose lines are embedded, all of them, and what is left out: from the most to the least telling."""
    counts = Counter(codes)
    used = sum(counts[code] for code in CHANGES)
    if used > MOST_CHANGES:
        raise Failure(3, f"the trace has {used} changes of nodes, and a page holds {MOST_CHANGES} at most")
    kept, left_out = set(CHANGES), []
    words = ("busy", "ignored", "forget", "rescue", "timeout", "drop", "late", "lose", "again", "ask", "send")
    others = [[code for code, kind in enumerate(KINDS) if kind.split(" ")[0] == word] for word in words]
    for group in ([LOOKUP, FOUND, LOST], *others):
        size = sum(counts[code] for code in group)
        if used + size <= MOST_LINES:
            kept.update(group)
            used += size
        elif LOOKUP not in group:
            left_out.append(f"all {size:,} lines `{KINDS[group[0]].split(' ')[0]}`")
    return frozenset(kept), left_out


def kept_lookups(run: Run, has_all: bool) -> tuple[list[Lookup], Facts]:
    """The lookups that are embedded, and the places of the worst ones among them."""
    every = run.history.lines.lookups
    wrong, slow = most_wrong(run, WORST), slowest(run, WORST)
    lost = [one for one in every if one.outcome == "lost"][:WORST]
    chosen = {one.number for one in (*wrong, *slow, *lost)}
    kept = every if has_all else [one for one in every if one.number in chosen]
    at = {one.number: place for place, one in enumerate(kept)}
    groups = (("wrong", wrong), ("slow", slow), ("lost", lost))
    counts = {"wrong": sum(one.is_wrong for one in every), "lost": sum(one.outcome == "lost" for one in every)}
    return kept, {"counts": counts, **{word: [at[one.number] for one in ones] for word, ones in groups}}


def kept_audits(audits: list[Audit]) -> list[Audit]:
    """All audits, or the worst one of each of so many spans."""
    if len(audits) <= MOST_AUDITS:
        return audits
    width = -(-len(audits) // MOST_AUDITS)

    def badness(audit: Audit) -> tuple[bool, bool, bool]:
        """Lost is worse than torn, and torn worse than not whole."""
        return audit.ring == 0, audit.is_torn, not audit.is_whole

    return [max(audits[at:at + width], key=badness) for at in range(0, len(audits), width)]


def audit_row(audit: Audit) -> tuple[int, int, int, int, int, int, int]:
    """The facts of an audit."""
    flags = (int(audit.is_ordered), audit.principals, int(audit.is_sufficient))
    return (audit.time, audit.members, audit.dead, audit.ring, *flags)


def line_columns(run: Run, kinds: frozenset[int], lookups: dict[int, int]) -> Facts:
    """The columns of the embedded lines. A line of a lookup has the place of the lookup in the page."""
    lines = run.history.lines
    times, nodes, codes, others = array("d"), array("i"), array("B"), array("i")
    for time, node, kind, other in zip(lines.times, lines.nodes, lines.kinds, lines.others, strict=True):
        if kind in LOOKUPS:
            other = lookups.get(other, -1)
            if other < 0:
                continue
        elif kind not in kinds:
            continue
        times.append(time)
        nodes.append(node)
        codes.append(kind)
        others.append(other)
    return {
        "time": packed(times, "d"), "node": packed(nodes, "i"),
        "kind": packed(codes, "B"), "other": packed(others, "i"),
    }


def lookup_columns(lookups: list[Lookup], size: int, bits: int) -> Facts:
    """The columns of the embedded lookups. Keys are of `size` bytes each, the highest first."""
    keys = b"".join(one.key.to_bytes(size, "big") for one in lookups)
    return {
        "keySize": size,
        "key": base64.b64encode(keys).decode("ascii"),
        "place": packed((one.key / 2**bits for one in lookups), "d"),
        "number": packed((one.number + 1 for one in lookups), "i"),
        "node": packed((one.node for one in lookups), "i"),
        "owner": packed((one.owner for one in lookups), "i"),
        "trueOwner": packed((one.true_owner for one in lookups), "i"),
        "begin": packed((one.begin for one in lookups), "d"),
        "end": packed((-1 if one.end is None else one.end for one in lookups), "d"),
        "hops": packed((one.hops for one in lookups), "B"),
        "timeouts": packed((one.timeouts for one in lookups), "B"),
        "missed": packed((one.missed for one in lookups), "i"),
        "flags": packed((flags_of(one) for one in lookups), "B"),
    }


def flags_of(one: Lookup) -> int:
    """Outcome, and whether the answer was right, defensible, and named a member."""
    return OUTCOMES.index(one.outcome) + 8 * one.is_right + 16 * one.is_defensible + 32 * one.names_member
