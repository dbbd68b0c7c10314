"""The table of lookups as `chordsim judge` makes it, with its rows in the order of the lookups' begins.

Memory is needed for these rows and for the scenario, and for nothing else of the trace."""

import os
from collections import Counter, defaultdict, deque
from collections.abc import Iterator
from contextlib import contextmanager
from pathlib import Path
from typing import IO, NamedTuple

from chordsim_tools.cli import Failure, Progress, Refused
from chordsim_tools.files import is_stream, reason
from chordsim_tools.known import known
from chordsim_tools.program import find_program
from chordsim_tools.scenario.reading import Scenario
from chordsim_tools.study.program import Program
from chordsim_tools.trace.lookups import COLUMNS
from chordsim_tools.trace.summary import doubts_about, is_mostly_wrong

HEADING = ",".join(COLUMNS).encode() + b"\n"


class Files(NamedTuple):
    """The names of the files of a run."""

    trace: str
    scenario: str
    latency: str | None

    def are_inputs_kept(self) -> bool:
        """Whether the program can read the scenario and the latency file once more."""
        return not any(is_stream(name) for name in (self.scenario, self.latency) if name is not None)

    def is_trace_kept(self) -> bool:
        """Whether the trace is a file that the program can open, and that can be read once more."""
        return os.path.isfile(self.trace) and not is_stream(self.trace) and not self.trace.startswith("-")

    def program(self, path: Path) -> Program:
        """The program, with these inputs. No name begins with a hyphen, as options do."""
        latency = None if self.latency is None else Path(self.latency).absolute()
        return Program(path, Path(self.scenario).absolute(), latency)


def judged_table(files: Files, scenario: Scenario) -> bytes | None:
    """The table; None if Python has to read the trace, as there is no program or the table does not show the order."""
    path = program_path() if files.are_inputs_kept() and shows_order(scenario) else None
    return None if path is None else b"".join([HEADING, *ordered_rows(files.program(path), files, scenario)])


def program_path() -> Path | None:
    """The program, if there is one."""
    try:
        return find_program(build=False)
    except Failure:
        return None


def shows_order(scenario: Scenario) -> bool:
    """Whether commands that look up one key at one node at one time begin a lookup before those that begin none.

    That is not so if the node comes up between them."""
    lookups = Counter((one.at_us, one.node, one.key) for one in scenario.commands if one.do == "lookup")
    joins = {(one.at_us, one.node) for one in scenario.commands if one.do == "join"}
    return not any(count > 1 and (time, node) in joins for (time, node, _), count in lookups.items())


def ordered_rows(program: Program, files: Files, scenario: Scenario) -> list[bytes]:
    """The rows in the order of the begins, each with its line feed. Fails as the program does."""
    option = ["--trace", files.trace] if files.is_trace_kept() else []
    with opened(files.trace) as trace, program.output(["judge", *option], source=None if option else trace) as output:
        rows = rows_of(output)
        ranks = Ranks(scenario)
        places = [ranks.next(row) for row in rows]
    return [rows[number] for number in sorted(range(len(rows)), key=places.__getitem__)]


@contextmanager
def opened(name: str) -> Iterator[IO[bytes]]:
    """A file, or why it cannot be read. The program would not say why."""
    try:
        file = open(name, "rb")
    except OSError as fault:
        raise Refused(f"cannot read {name}: {reason(fault)}") from None
    with file:
        yield file


def rows_of(output: IO[bytes]) -> list[bytes]:
    """The rows that the program writes. ValueError if it writes another table."""
    if output.readline() != HEADING:
        raise ValueError("this is not the table of lookups")
    rows = []
    with Progress("lookups") as progress:
        for row in output:
            rows.append(row)
            progress.one_more()
    return rows


class Ranks:
    """The places of rows, which come in the order of the lookups' ends, in the order of their begins.

    At one time lookups of commands begin first, in the order of the file, and then each node's generated one, in the
    order of the nodes. Of lookups of one node, key and begin, the one that began first ends first: so the judge and
    the reading in Python say."""

    def __init__(self, scenario: Scenario) -> None:
        """No rows yet."""
        names = [node.name.encode() for node in scenario.nodes]
        self.nodes = {name: len(scenario.commands) + number for number, name in enumerate(names)}
        self.most = len(scenario.commands) + len(names)
        self.commands: defaultdict[tuple[bytes, ...], deque[int]] = defaultdict(deque)
        for place, one in enumerate(scenario.commands):
            if one.do == "lookup":
                self.commands[names[one.node], b"%d" % known(one.key), b"%d" % one.at_us].append(place)

    def next(self, row: bytes) -> int:
        """The place of the next row. ValueError or LookupError if it is of another table."""
        *head, _ = row.split(b",", 3)
        waiting = self.commands.get(tuple(head))
        place = waiting.popleft() if waiting else self.nodes[head[0]]
        return int(head[2]) * self.most + place


def is_torn(audit: bytes) -> bool:
    """Whether the line of an audit is of a torn ring, as `Audit.is_torn` of chordsim_tools.trace.lines has it."""
    return b" ordered=yes " not in audit or b" ring=0 " in audit or b" dead=0 " not in audit


def table_doubts(files: Files, table: bytes) -> list[str]:
    """What Python would doubt of the run. Only a trace that can be read again is looked at."""
    wrong = table.count(b",wrong,right\n") + table.count(b",wrong,wrong\n")
    right = table.count(b",right,right\n")
    if not is_mostly_wrong(wrong, right) or not files.is_trace_kept():
        return []
    with opened(files.trace) as trace:
        lines = (line for line in trace if line.split(b" ", 2)[1:2] == [b"audit"] and line.endswith(b"\n"))
        audits = [not is_torn(line) for line in lines]
    return doubts_about(wrong, right, audits)
