"""Reads a trace file, to its end or as far as it goes, and the report."""

import re
from collections import Counter
from collections.abc import Iterator
from dataclasses import dataclass, field

from chordsim_tools.cli import Progress, Refused
from chordsim_tools.files import read_input, reason
from chordsim_tools.reference.report import EXTENDED_LINES, LINES, Report
from chordsim_tools.scenario.reading import Scenario
from chordsim_tools.trace.history import History
from chordsim_tools.trace.lines import KINDS

# A line of a trace has at most three names of 32 bytes and four numbers.
LONGEST = 1000


@dataclass
class Run:
    """A run that was read: its history, how far the trace goes, and the report, if there is one."""

    name: str
    history: History
    is_whole: bool
    half_line: str
    report: dict[str, int] = field(default_factory=dict)

    @property
    def reached(self) -> int:
        """The time that the trace reaches."""
        return self.history.at


def read_run(name: str, scenario: Scenario) -> Run:
    """Reads a trace. What the program writes after it to the same stream, the report, is taken too."""
    run = Run(name, History(scenario), False, "")
    with Progress("lines") as progress:
        for number, line in numbered_lines(name):
            if is_half(run, line):
                run.half_line = line
                break
            read_line(run, number, line.removesuffix("\n"))
            progress.one_more()
    audits = run.history.lines.audits
    run.is_whole = bool(audits) and audits[-1].time == scenario.duration_us and not run.half_line
    if run.report:
        check_report(name, run)
    return run


def is_half(run: Run, line: str) -> bool:
    """Whether a line was cut off: it has no line feed, and may be the beginning of a line of trace or report."""
    return not line.endswith("\n") and len(line) < LONGEST and (line[:1].isdigit() or bool(run.report))


def numbered_lines(name: str) -> Iterator[tuple[int, str]]:
    """The lines of a file, with line feeds, from 1."""
    try:
        with open(name, encoding="ascii", errors="replace", newline="\n") as file:
            number = 1
            while line := file.readline(LONGEST):
                yield number, line
                number += 1
    except OSError as fault:
        raise Refused(f"cannot read {name}: {reason(fault)}") from None


def read_line(run: Run, number: int, line: str) -> None:
    """Takes a whole line of the trace, or of the report after it."""
    try:
        if line[:1].isdigit() and not run.report:
            run.history.read(line)
        else:
            take_number(run, line)
    except (ValueError, LookupError) as fault:
        told = f"{run.name} line {number} is no line of a trace of this scenario"
        raise Refused(f"{told}: {line[:120]!r} ({why(fault, line)})") from None


def take_number(run: Run, line: str) -> None:
    """Takes a line of the report, which may be after a trace."""
    word, _, count = line.partition(" ")
    if not re.fullmatch("[0-9]{1,40}", count):
        raise ValueError("a line of the report has WORD NUMBER" if run.report else "a line has TIME NAME WORD")
    run.report[word] = int(count)


def why(fault: Exception, line: str) -> str:
    """Why a line was not taken. What was looked for in vain is a kind of line, or else a node."""
    if isinstance(fault, KeyError):
        sought = str(fault.args[0])
        is_kind = " " in sought or line.split(" ")[2:3] == [sought]
        return f"no line {sought}" if is_kind else f"no node {sought}"
    if isinstance(fault, IndexError):
        return "a line has TIME NAME WORD" if line.count(" ") < 2 else "it has too few words"
    return str(fault)


def read_report(name: str, run: Run) -> None:
    """Reads the report of a run from a file of its own."""
    lines = read_input(name, 1 << 20).decode("utf-8", "replace").splitlines()
    if not lines:
        raise Refused(f"{name} has no report")
    for number, line in enumerate(lines, start=1):
        try:
            take_number(run, line)
        except ValueError:
            raise Refused(f"{name} line {number} is no line of a report: {line[:120]!r}") from None
    check_report(name, run)


REPORT_WORDS = dict((*LINES, ("audits", "audit"), ("losses", "lose"), *EXTENDED_LINES))
"""The numbers of the report that count lines, with the first word of these."""


def line_counts(run: Run) -> Counter[str]:
    """How many lines there are, by their first word."""
    found: Counter[str] = Counter()
    for code, count in Counter(run.history.lines.kinds).items():
        found[KINDS[code].split(" ")[0]] += count
    return found


def report_of_lines(run: Run) -> dict[str, int]:
    """The numbers of the report that the lines of a trace give: all but `events`, which no trace has."""
    report = Report(run.history.scenario.profile)
    for at in range(len(run.history.lines.times)):
        report.read(run.history.lines.text(at))
    return {word: number for word, number in report.numbers(0).items() if word != "events"}


def check_report(name: str, run: Run) -> None:
    """Refuses the report of another run: what it counts must be in the trace."""
    there = line_counts(run)
    numbers = {word: there[kind] for word, kind in REPORT_WORDS.items()}
    found = [one for one in run.history.lines.lookups if one.outcome == "found"]
    numbers["hops-sum"] = sum(one.hops for one in found)
    numbers["us-sum"] = sum(one.taken(0) for one in found)
    numbers["timeouts-sum"] = sum(one.timeouts for one in found)
    for word, count in numbers.items():
        if run.report.get(word, count) != count:
            told = f"{name} has `{word} {run.report[word]}`, and the trace {count}"
            raise Refused(f"{told}: is it the report of this run?")
