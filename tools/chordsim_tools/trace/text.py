"""The summary of a run in words."""

from collections.abc import Iterator
from textwrap import wrap

from chordsim_tools.trace.summary import SHARES, Facts
from chordsim_tools.trace.wording import counted, seconds, share

WIDTH = 24
MOST_NAMES = 40
ENDS = (
    ("found", "  found"), ("lost", "  lost"), ("cut_by_crash", "  cut off by a crash"),
    ("cut_by_leave", "  cut off by a leave"), ("cut_by_end", "  cut off by the end"),
)
"""The ends of lookups."""
REFUSED = (("busy", "refused as busy"), ("ignored_commands", "commands ignored"))
"""What commands do not begin."""
RIGHT = (
    ("right_strict", "  right, strict", "names the owner at the time of the answer"),
    ("right_defensible", "  right, defensible", "names the owner of some instant of the lookup"),
)
"""The right answers, and what they are."""
WRONG = (
    ("wrong_names_no_member", "name a node that was no member"),
    ("wrong_misses_a_member", "miss a member nearer to the key"),
)
"""The kinds of wrong answers."""
JOINED = {
    "done": "done", "failed": "failed", "cut_by_crash": "cut off by a crash", "cut_by_leave": "cut off by a leave",
    "open_at_end": "open at the end",
}


def line(head: str, *told: str) -> str:
    """A line of the summary."""
    return f"{head:{WIDTH}}" + "; ".join(told)


def part_of(number: int, of: int) -> str:
    """A number, and which share of another one it is."""
    return f"{counted(number)} ({share(number, of)})"


def summary_text(facts: Facts) -> Iterator[str]:
    """The lines of the summary."""
    nodes = facts["nodes"]
    yield line("time", f"0 to {seconds(facts['reached_us'])} of {seconds(facts['duration_us'])}")
    if not facts["is_whole"]:
        yield from early_end(facts)
    yield line("lines", counted(facts["lines"]))
    if facts["report"] and "events" in facts["report"]:
        yield line("events", counted(facts["report"]["events"]))
    at_end = f"{counted(nodes['members_at_end'])} at its end"
    yield line("nodes", counted(nodes["all"]), f"members: {counted(nodes['initial'])} at the start, {at_end}")
    yield from lookup_text(facts["lookups"])
    yield from answer_text(facts["answers"], facts["lookups"]["found"])
    yield from time_text(facts)
    yield from join_text(facts)
    yield from audit_text(facts)
    if facts["report"]:
        yield from report_text("report", facts["report"])
    elif facts["report_of_lines"]:
        yield from report_text(CUT.format(seconds(facts["reached_us"])), facts["report_of_lines"])


def early_end(facts: Facts) -> Iterator[str]:
    """That the trace is no whole one."""
    half = ". Its last line is half a line, and is left out" if facts["half_line"] else ""
    yield line("THE TRACE ENDS EARLY", f"it reaches {seconds(facts['reached_us'])}, and has no audit at the end{half}")


def lookup_text(lookups: Facts) -> Iterator[str]:
    """Lookups, and what became of them."""
    ends = [(key, head) for key, head in ENDS if lookups[key] or key != "cut_by_leave"]
    yield ""
    yield line("lookups begun", counted(lookups["begun"]))
    yield from (line(head, part_of(lookups[key], lookups["begun"])) for key, head in ends)
    yield from (line(head, counted(lookups[key])) for key, head in REFUSED if lookups[key])


def answer_text(answers: Facts, found: int) -> Iterator[str]:
    """Answers, right and wrong."""
    wrong = answers["wrong_strict"]
    yield line("answers", counted(found))
    yield from (line(head, part_of(answers[key], found), meaning) for key, head, meaning in RIGHT)
    yield line("  wrong, strict", part_of(wrong, found), "of these")
    yield from (line("", f"{part_of(answers[key], wrong)} {head}") for key, head in WRONG)


def time_text(facts: Facts) -> Iterator[str]:
    """Percentiles."""
    times, hops = facts["times_us"], facts["hops"]
    yield ""
    yield line("percentiles", "".join(f"{f'p{one}':>12}" for one in SHARES))
    for name, head in (("found", "  time, found"), ("all", "  time, all")):
        yield line(head, "".join(f"{seconds(times[name][f'p{one}']):>12}" for one in SHARES))
    yield line("  hops, found", "".join(f"{'-' if hops[f'p{one}'] is None else hops[f'p{one}']:>12}" for one in SHARES))
    yield "  (all: estimated by Kaplan and Meier. A lost lookup never ends; one that is cut off counts until then)"


def join_text(facts: Facts) -> Iterator[str]:
    """Crashes, leaves, joins and strandings."""
    yield ""
    yield line("timeouts", counted(facts["timeouts"]))
    yield line("drops, late replies", f"{counted(facts['drops'])} and {counted(facts['late'])}")
    if facts["losses"] is not None:
        yield line("messages lost", counted(facts["losses"]))
    if facts["again"] is not None:
        yield line("requests sent again", counted(facts["again"]))
    if facts["forgotten"] is not None:
        yield line("predecessors forgotten", counted(facts["forgotten"]))
    if facts["rescues"]:
        yield line("rescues", counted(facts["rescues"]), "members whose list had nobody else left took a finger")
    if facts["creates"]:
        yield line("rings made", counted(facts["creates"]), "by nodes that joined through themselves or had no answer")
    yield line("crashes", counted(facts["crashes"]))
    if facts["leaves"]:
        yield line("leaves", counted(facts["leaves"]), MEANS["leaves"])
    for key, head in (("joins", "joins begun"), ("stranded", "stranded, join again")):
        joins = facts[key]
        told = [f"{counted(joins[word])} {name}" for word, name in JOINED.items() if joins[word] or word == "done"]
        yield line(head, counted(joins["begun"]), ", ".join(told)) if joins["begun"] else line(head, "0")
        if joins["went_on"]:
            yield line("  failed, went on", counted(joins["went_on"]), "after eight failures each")
        if joins["done"]:
            yield line("  time to join", ", ".join(f"p{one} {seconds(joins['times_us'][f'p{one}'])}" for one in SHARES))


def audit_text(facts: Facts) -> Iterator[str]:
    """Audits, and the ring's worst times."""
    audits = facts["audits"]
    yield ""
    yield line("audits", counted(audits["all"]))
    for key, head, *meaning in (
        ("whole", "  ring whole"),
        ("partial", "  not all on it", "the ring skips a member, such as one that has just joined"),
        ("torn", "  ring torn"),
        ("lost", "    ring lost"),
    ):
        yield line(head, part_of(audits[key], audits["all"]), *meaning)
    torn, lost = audits["first_torn"], audits["first_lost"]
    if torn is not None:
        head = "first torn, and lost" if torn == lost else "first torn"
        yield from first_text(head, torn)
    if lost is not None and lost != torn:
        yield from first_text("first lost", lost)


def first_text(head: str, first: Facts) -> Iterator[str]:
    """The first audit of a kind, and the members then."""
    yield line(head, f"at {seconds(first['at_us'])}: {first['line'].split(' ', 2)[2]}")
    names = first["members"]
    more = len(names) - MOST_NAMES
    told = (", ".join(names[:MOST_NAMES]) or "none") + (f" and {more} more (all by --json)" if more > 0 else "")
    for at, part in enumerate(wrap(told, 90)):
        yield line("  members then" if at == 0 else "", part)


MEANS = {
    "members": "joins that succeeded", "join-failed": "times that a join had failed eight times",
    "drops": "messages that were not handled", "late": "replies for which no call was out",
    "again": "requests sent again", "forgotten": "predecessors that did not reply to a check",
    "leaves": "nodes that told their neighbours before they went",
    "rescues": "members that took a finger as successor", "creates": "nodes that made a ring of their own",
    "timeouts-sum": "timeouts of found lookups",
    "hops-greatest": "most hops of a found lookup", "us-least": "least time of a found lookup",
    "us-median": "median time of found lookups", "us-greatest": "greatest time of a found lookup",
    "unordered": "audits whose ring is out of order", "ringless": "audits without a ring",
    "insufficient": "audits that are not sufficient", "unfinished": "lookups that a crash, a leave or the end cut off",
}
"""What numbers of the report are, if their words do not say it."""


CUT = "report of the lines until {}. The trace was cut, and no trace says how many events there were"
"""What is above the numbers of a trace that ends early."""


def report_text(head: str, report: dict[str, int]) -> Iterator[str]:
    """The numbers of a report with their units, and what they are shares of."""
    yield ""
    yield head
    of = {"found": "lookups", "lost": "lookups", "unfinished": "lookups", "ringless": "audits", "unordered": "audits"}
    of["insufficient"] = "audits"
    for word, number in report.items():
        told = seconds(number) if word.startswith("us-") else counted(number)
        if word in ("hops-sum", "us-sum", "timeouts-sum") and report.get("found"):
            mean = number / report["found"]
            told += f" ({mean / 1e6:.4f} s a lookup)" if word == "us-sum" else f" ({mean:.2f} a lookup)"
        if word in of and of[word] in report:
            told += f" ({share(number, report[of[word]])} of {of[word]})"
        yield f"  {word:16}{told}" + (f", {MEANS[word]}" if word in MEANS else "")
