"""The summary of a run, as numbers: what `--json` prints."""

from collections import Counter
from collections.abc import Callable, Iterable
from typing import Any

from chordsim_tools.study.survival import Times
from chordsim_tools.study.survival import percentile
from chordsim_tools.trace.history import Join
from chordsim_tools.trace.lines import Audit, Lookup
from chordsim_tools.trace.messages import message_counts
from chordsim_tools.trace.reading import Run, line_counts, report_of_lines
from chordsim_tools.trace.tables import add_time
from chordsim_tools.trace.wording import share

SHARES = (50, 90, 99)
FEWEST_ANSWERS = 20
"""Fewer answers may be wrong by chance."""
Facts = dict[str, Any]


def summary(run: Run) -> Facts:
    """All of the summary. Times are microseconds."""
    history = run.history
    lookups, lines = history.lines.lookups, line_counts(run)
    initial = sum(node.initial for node in history.scenario.nodes)
    return {
        "trace": run.name,
        "is_whole": run.is_whole,
        "half_line": run.half_line or None,
        "duration_us": history.scenario.duration_us,
        "reached_us": run.reached,
        "lines": sum(lines.values()),
        "nodes": {"all": len(history.names), "initial": initial, "members_at_end": len(history.members.places)},
        "lookups": lookup_facts(lookups, lines),
        "answers": answer_facts(lookups),
        "times_us": time_facts(lookups, run.reached),
        "hops": percentiles([one.hops for one in lookups if one.outcome == "found"]),
        "timeouts": lines["timeout"],
        "crashes": lines["crash"],
        "leaves": lines["leave"] if history.scenario.profile == 4 else None,
        "joins": join_facts([join for join in history.joins if not join.is_again]),
        "stranded": join_facts([join for join in history.joins if join.is_again]),
        "audits": audit_facts(run),
        "drops": lines["drop"],
        "late": lines["late"],
        "losses": lines["lose"] if history.scenario.profile >= 2 else None,
        "again": lines["again"] if history.scenario.profile == 4 else None,
        "forgotten": lines["forget"] if history.scenario.profile == 4 else None,
        "rescues": lines["rescue"] if history.scenario.profile == 4 else None,
        "creates": lines["create"] if history.scenario.profile == 4 else None,
        "messages": message_counts(run),
        "report": dict(run.report) or None,
        "report_of_lines": None if run.is_whole else report_of_lines(run),
    }


def doubts(run: Run) -> list[str]:
    """That trace and scenario are hardly of one run: most audits find no torn ring, but most answers are wrong."""
    answers = answer_facts(run.history.lines.lookups)
    audits = [not audit.is_torn for audit in run.history.lines.audits]
    return doubts_about(answers["wrong_strict"], answers["right_strict"], audits)


def is_mostly_wrong(wrong: int, right: int) -> bool:
    """Whether most answers are wrong, of so many that this is hardly chance."""
    return wrong + right >= FEWEST_ANSWERS and wrong > right


def doubts_about(wrong: int, right: int, audits: list[bool]) -> list[str]:
    """The same, from the numbers of answers and from whether each audit finds no torn ring."""
    sound = sum(audits)
    if not is_mostly_wrong(wrong, right) or 2 * sound <= len(audits):
        return []
    return [
        f"{share(sound, len(audits))} of the audits find no torn ring, but {share(wrong, wrong + right)} of the "
        "answers are wrong: are trace and scenario of one run?"
    ]


def percentiles(values: list[int]) -> Facts:
    """By nearest rank; none of no values."""
    return {f"p{one}": percentile(values, one) for one in SHARES}


def lookup_facts(lookups: list[Lookup], lines: Counter[str]) -> Facts:
    """What became of the lookups."""
    outcomes = Counter(one.outcome for one in lookups)
    return {
        "begun": len(lookups),
        "found": outcomes["found"],
        "lost": outcomes["lost"],
        "cut_by_crash": outcomes["crash"],
        "cut_by_leave": outcomes["leave"],
        "cut_by_end": outcomes["end"],
        "busy": lines["busy"],
        "ignored_commands": lines["ignored"],
    }


def answer_facts(lookups: list[Lookup]) -> Facts:
    """Right and wrong answers. A wrong one names no member, or it misses a member that is nearer to the key."""
    found = [one for one in lookups if one.outcome == "found"]
    wrong = [one for one in found if not one.is_right]
    return {
        "right_strict": len(found) - len(wrong),
        "right_defensible": sum(one.is_defensible for one in found),
        "wrong_strict": len(wrong),
        "wrong_names_no_member": sum(not one.names_member for one in wrong),
        "wrong_misses_a_member": sum(one.names_member for one in wrong),
    }


def time_facts(lookups: list[Lookup], reached: int) -> Facts:
    """Percentiles of times: of those that found an owner, and of all by the curve of Kaplan and Meier."""
    everything = Times()
    for one in lookups:
        add_time(everything, one, reached)
    return {
        "found": percentiles(everything.ended),
        "all": {f"p{one}": everything.percentile(one) for one in SHARES},
    }


def join_facts(joins: Iterable[Join]) -> Facts:
    """How joins ended, how often one went on after eight failures, and how long those took that were done."""
    by = Counter[str]()
    taken: list[int] = []
    went_on = 0
    for join in joins:
        by[join.outcome] += 1
        went_on += join.went_on
        if join.outcome == "done" and join.end is not None:
            taken.append(join.end - join.begin)
    return {
        "begun": sum(by.values()), "done": by["done"], "failed": by["failed"], "cut_by_crash": by["crash"],
        "cut_by_leave": by["leave"], "open_at_end": by["open"], "went_on": went_on, "times_us": percentiles(taken),
    }


def audit_facts(run: Run) -> Facts:
    """The audits: how many rings were whole, and when the first one was torn, and lost."""
    audits = run.history.lines.audits

    def first(holds: Callable[[Audit], bool]) -> Facts | None:
        """The first audit of which this holds, and the members at it."""
        found = next((audit for audit in audits if holds(audit)), None)
        if found is None:
            return None
        # An audit's line is ahead of all lines of its time.
        return {"at_us": found.time, "line": found.text(), "members": run.history.members.members_before(found.time)}

    return {
        "all": len(audits),
        "whole": sum(audit.is_whole for audit in audits),
        "partial": sum(not audit.is_whole and not audit.is_torn for audit in audits),
        "torn": sum(audit.is_torn for audit in audits),
        "lost": sum(audit.ring == 0 for audit in audits),
        "first_torn": first(lambda audit: audit.is_torn),
        "first_lost": first(lambda audit: audit.ring == 0),
    }
