"""The command tools/reference."""

import sys
from argparse import Namespace
from collections.abc import Iterable, Iterator
from itertools import zip_longest
from typing import TextIO

from chordsim_tools.cli import Failure, Refused, ToolParser, add_files, close_quietly, run, write_out
from chordsim_tools.files import check_output, read_input
from chordsim_tools.place import tool
from chordsim_tools.reference.report import Report
from chordsim_tools.reference.simulation import Simulation
from chordsim_tools.reference.state import KINDS, Leave
from chordsim_tools.scenario.reading import Scenario, read_scenario
from chordsim_tools.scenario.tables import GREATEST_SIZE

PROG = tool("reference")
HELP = """\
Runs a scenario by the rules of docs/rules.md, one event at a time, and prints the trace and then the report: the
bytes that `chordsim run --scenario SCENARIO --serial` prints. It is slow: about 40,000 events each second."""
EXAMPLES = """\
examples:
  tools/reference examples/ring.toml                       trace and report
  tools/reference examples/churn64.toml --report           the report alone
  tools/reference world.toml links.csv --trace t           the trace to the file t, the report to standard output
  chordsim run --scenario world.toml --serial --trace t && tools/reference world.toml --compare t
                                                           says where the two traces first differ
  tools/reference examples/churn64.toml --report --messages
                                                           the report, and how many messages of each kind were made
                                                           (in profiles 2 and 4 also how many were lost)

status: 0 all was done; 1 a file is refused, or the traces differ; 2 the arguments are wrong; 3 the run failed"""


def parser_of() -> ToolParser:
    """The parser of the arguments."""
    parser = ToolParser(PROG, HELP, EXAMPLES)
    add_files(parser)
    where = parser.add_mutually_exclusive_group()
    where.add_argument("--trace", metavar="FILE", help="write the trace to this file, not to standard output")
    where.add_argument("--report", action="store_true", help="print no trace")
    where.add_argument("--compare", metavar="TRACE", help="print neither; compare the trace with that of this file")
    parser.add_argument("--messages", action="store_true", help="after the report, count the messages made by kind")
    return parser


def lines_of(name: str) -> Iterator[str]:
    """The lines of a trace file."""
    try:
        with open(name, encoding="utf-8", errors="replace", newline="\n") as file:
            yield from (line.removesuffix("\n") for line in file)
    except OSError:
        raise Refused(f"cannot read {name}") from None


def simulate(scenario: Scenario, trace: TextIO | None, messages: bool) -> None:
    """Runs the scenario: the trace to a file, if there is one, and the report to standard output."""
    simulation = Simulation(scenario)
    report = Report(scenario.profile)
    for line in simulation.lines():
        report.read(line)
        if trace is not None:
            trace.write(line + "\n")
    write_out(report.text(simulation.events) + (messages_text(simulation, report) if messages else ""))


def messages_text(simulation: Simulation, report: Report) -> str:
    """Counts the messages made by kind, the lost ones with them; after the first profile also the lost ones alone."""
    lost = report.lost_messages
    kinds = [kind for kind in KINDS.values() if kind != KINDS[Leave] or report.profile == 4]
    text = "".join(f"sent {kind} {simulation.messages[kind] + lost[kind]}\n" for kind in kinds)
    if report.profile >= 2:
        text += "".join(f"lost {kind} {lost[kind]}\n" for kind in kinds)
    return text


def compare(ours: Iterable[str], theirs: Iterable[str]) -> int:
    """Says where two traces first differ, or that they are equal."""
    count = 0
    for count, (our_line, their_line) in enumerate(zip_longest(ours, theirs), start=1):
        if our_line != their_line:
            ours_told, theirs_told = ("(the trace has ended)" if one is None else one for one in (our_line, their_line))
            write_out(f"line {count} differs\nreference: {ours_told}\nthe file:  {theirs_told}\n")
            return 1
    write_out(f"equal: {count} lines\n")
    return 0


def work(args: Namespace) -> int:
    """Does what the arguments ask for, and returns the status."""
    check_output("--trace", args.trace, (args.scenario, args.latency))
    latency = read_input(args.latency, GREATEST_SIZE, reasons=False) if args.latency is not None else b""
    scenario = read_scenario(read_input(args.scenario, GREATEST_SIZE, reasons=False), latency)
    try:
        return write(scenario, args)
    except OSError:
        if args.trace is None:
            close_quietly(1)
        # This is what chordsim answers when its writer fails.
        raise Failure(3, "4 Write") from None


def write(scenario: Scenario, args: Namespace) -> int:
    """Runs the scenario and writes what the arguments ask for. Returns the status."""
    if args.compare is not None:
        return compare(Simulation(scenario).lines(), lines_of(args.compare))
    if args.trace is not None:
        with open(args.trace, "w", encoding="utf-8") as file:
            simulate(scenario, file, args.messages)
    else:
        simulate(scenario, None if args.report else sys.stdout, args.messages)
    return 0


def main(arguments: list[str]) -> int:
    """The command."""
    args = parser_of().parse_args(arguments)
    return run(PROG, lambda: work(args))
