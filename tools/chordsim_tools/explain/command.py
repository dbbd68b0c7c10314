"""The command tools/explain."""

import json
from argparse import Namespace
from collections import Counter
from collections.abc import Iterator
from dataclasses import asdict, dataclass

from chordsim_tools.cli import Progress, ToolParser, add_files, run
from chordsim_tools.explain.files import Explanation, Files
from chordsim_tools.explain.positions import Positions
from chordsim_tools.explain.program import answer_of
from chordsim_tools.explain.toml import explained_toml
from chordsim_tools.explain.traps import events_trap, greatest_latency, traps_of
from chordsim_tools.explain.wording import explained
from chordsim_tools.explain.world_traps import round_told
from chordsim_tools.files import put, read_input
from chordsim_tools.options import count
from chordsim_tools.place import tool
from chordsim_tools.program import find_program
from chordsim_tools.scenario.faults import Document, Fault, faults_of
from chordsim_tools.scenario.tables import GREATEST_SIZE, NotToml, parse_toml, rows_of

PROG = tool("explain")
HELP = """\
Lists all faults of a scenario and its latency file: for each one the line and column, what is there, what is allowed
there and what was likely meant. The first line is that of `chordsim check`, `refused: ...`, or, for files that are
accepted, `accepted: N nodes, M commands`. The faults follow in the order of docs/formats.md, section 4, so that the
first one is the one that the program prints. What only follows from another fault is left out. A scenario that is no
TOML is not looked into: the parser's first complaint is explained, and the rows of the latency file by themselves.

The program is asked for its own line, if there is one: that of the variable CHORDSIM, else the one that came with the
tools (none is built). If it prints another fault than the first one here, its line comes first, and is called
unexplained. That can be for these reasons, since Python's tomllib reads TOML 1.0 and the program TOML 1.1:
  - the program accepts times without seconds, seconds of 60 and the year 0, the escapes \\e and \\x41, and line feeds
    and a last comma in inline tables; here they are no TOML (S1)
  - the program refuses as no TOML what is nested deeper than 80; here that is another fault, or none
Without the program the first line is that of this tool.

Of files that are accepted, the second line says how often each finger is refreshed: in (bits - 1) times (finger_us +
half of its jitter) a node refreshes each of its fingers once. In profile 4, unless skip_near = false, it looks up only
those that the first successor does not cover. Of N nodes these are about 1 + log2 N, and that many are in place of
(bits - 1). A section "accepted, but:" names traps, and the status stays 0: a timeout below the greatest round trip, a
duration below the periods, a round of fingers that takes longer than the run or a mean life, joins that go on for ever
without a pause, a time at which no node is up (no ring is ever made again), a join that makes a second ring, bootstrap
nodes that are all down at once, and a `max_events` below what the run is likely to need. This last one is estimated if
the timers alone come near to it: the program runs the scenario's first seconds (six, or four periods) and half of them,
and the events of the second half are taken for the rest of the duration. If such a run takes longer than twenty
seconds, the estimate is that of the timers alone."""
EXAMPLES = """\
examples:
  tools/explain world.toml                     all faults of a scenario
  tools/explain world.toml links.csv           ... and of its latency file
  tools/explain world.toml links.csv --most 3  at most three of each of the sixteen kinds
  tools/explain world.toml --json              for other programs: `answer`, `told`, `traps` and `faults`

status: 0 the files are accepted; 1 they are refused, or cannot be read; 2 the arguments are wrong; 3 something failed
(the program that CHORDSIM names is not there or does not end as it should, or standard output is full); 130 stopped by
Ctrl-C"""


@dataclass
class Findings:
    """What was found: the line of this tool, that of the program if it was asked, and the faults."""

    answer: str
    program_answer: str | None
    faults: list[Explanation]
    left_out: dict[str, int]
    traps: list[str]
    told: list[str]

    @property
    def first_line(self) -> str:
        """The program's own line, else the tool's."""
        return self.answer if self.program_answer is None else self.program_answer

    @property
    def agrees(self) -> bool:
        """Whether the program says the same."""
        return self.first_line == self.answer


def parser_of() -> ToolParser:
    """The parser of the arguments."""
    parser = ToolParser(PROG, HELP, EXAMPLES)
    add_files(parser)
    parser.add_argument("--json", action="store_true", help="print one JSON object, for other programs")
    parser.add_argument("--most", metavar="N", type=count, help="print at most N faults of each kind (default: all)")
    parser.add_argument("--alone", action="store_true", help="do not ask the program")
    return parser


class Limit:
    """At most so many faults of each kind are put into words. The others are counted."""

    def __init__(self, most: int | None = None) -> None:
        """All faults, if no number is given."""
        self.most = most
        self.counts: Counter[str] = Counter()

    def takes(self, fault: Fault) -> bool:
        """Whether one more fault is put into words."""
        self.counts[fault.kind] += 1
        return self.most is None or self.counts[fault.kind] <= self.most

    def left_out(self) -> dict[str, int]:
        """How many faults of each kind were not."""
        most = self.most
        return {} if most is None else {kind: found - most for kind, found in self.counts.items() if found > most}


def explanations(
    scenario: bytes, latency: bytes, names: tuple[str, str], limit: Limit | None = None
) -> tuple[Document, Iterator[Explanation]]:
    """The two files as far as they can be read, and their faults in words, in order."""
    limit = Limit() if limit is None else limit
    rows = rows_of(latency)
    try:
        document = Document(parse_toml(scenario), rows)
    except NotToml as fault:
        first = explained_toml(fault, names[0], scenario)
        document = Document(None, rows)
        files = Files(*names, document, Positions(""))
        return document, (one for part in ([first], in_words(document, files, limit)) for one in part)
    files = Files(*names, document, Positions(scenario.decode("utf-8")))
    return document, in_words(document, files, limit)


def in_words(document: Document, files: Files, limit: Limit) -> Iterator[Explanation]:
    """The faults in words. On a long list a terminal sees how far it is."""
    with Progress("faults ...") as progress:
        for fault in faults_of(document):
            if limit.takes(fault):
                yield explained(fault, files)
            progress.one_more()


def look(args: Namespace) -> Findings:
    """Reads the files, finds the faults and asks the program."""
    scenario = read_input(args.scenario, GREATEST_SIZE)
    latency = read_input(args.latency, GREATEST_SIZE) if args.latency is not None else b""
    program = None if args.alone else find_program(build=False)
    said = None if program is None else answer_of(program, scenario, latency)
    limit = Limit(args.most)
    document, found = explanations(scenario, latency, (args.scenario, args.latency or "the latency file"), limit)
    kept = list(found)
    accepted = f"accepted: {len(document.nodes)} nodes, {len(document.commands)} commands"
    answer = f"refused: {kept[0].fault}" if kept else accepted
    findings = Findings(answer, said, kept, limit.left_out(), [], [])
    if findings.agrees and not kept:
        findings.told = [round_told(document.top.table)]
        findings.traps = traps_of(document.top.table, greatest_latency(document.top.table, latency))
        if program is not None:
            findings.traps += events_trap(program, document.top.table, latency)
    return findings


def in_text(findings: Findings) -> Iterator[str]:
    """The lines for a reader."""
    yield findings.first_line
    if not findings.agrees:
        yield from unexplained(findings)
    yield from findings.told
    if findings.traps:
        yield "accepted, but:"
        yield from (f"- {trap}" for trap in findings.traps)
    total = len(findings.faults) + sum(findings.left_out.values())
    if total > 1:
        yield f"{total} faults:"
    for number, one in enumerate(findings.faults, start=1):
        yield from fault_text(number, one)
    left_out = (f"and {number} more of {kind}" for kind, number in findings.left_out.items())
    yield from (part for told in left_out for part in ("", told))


def fault_text(number: int, one: Explanation) -> Iterator[str]:
    """The lines of a fault."""
    where = "" if one.line is None else f", {'near line' if one.near else 'line'} {one.line}"
    where += "" if one.column is None else f", column {one.column}"
    yield ""
    yield f"{number}. {one.fault}"
    yield f"   {one.file}{where}: {one.what}"
    yield f"   there:   {one.found}"
    yield f"   allowed: {one.allowed}"
    yield from (f"   hint:    {hint}" for hint in one.hints)


def unexplained(findings: Findings) -> Iterator[str]:
    """That the program prints something else, and why that can be."""
    yield f"That is the program's answer, and this tool cannot explain it. Its own answer is: {findings.answer}"
    if findings.answer == "refused: S1 NotToml":
        yield "Perhaps the scenario has a form of TOML 1.1 (see --help) at the place that is named below."
    elif findings.first_line == "refused: S1 NotToml":
        yield "Perhaps the scenario has values nested deeper than 80."


def in_json(findings: Findings) -> dict[str, object]:
    """The object for other programs."""
    return {
        "answer": findings.first_line,
        "accepted": findings.first_line.startswith("accepted"),
        "faults": [{"number": number, **asdict(one)} for number, one in enumerate(findings.faults, start=1)],
        "left_out": findings.left_out,
        "traps": findings.traps,
        "told": findings.told,
        "tool_answer": findings.answer,
        "program_answer": findings.program_answer,
        "agrees": findings.agrees,
    }


def work(args: Namespace) -> int:
    """Prints what was found, and returns the status."""
    findings = look(args)
    lines = [json.dumps(in_json(findings), indent=2)] if args.json else in_text(findings)
    put("".join(line + "\n" for line in lines), None)
    return 0 if findings.first_line.startswith("accepted") else 1


def main(arguments: list[str]) -> int:
    """The command."""
    args = parser_of().parse_args(arguments)
    return run(PROG, lambda: work(args), interrupted="stopped")
