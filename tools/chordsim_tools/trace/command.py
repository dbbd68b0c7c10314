"""The command tools/trace."""

import json
from argparse import ArgumentTypeError, Namespace

from chordsim_tools.cli import Failure, Refused, ToolParser, run
from chordsim_tools.explain.traps import warn
from chordsim_tools.files import check_apart, check_output, read_input, write_whole
from chordsim_tools.options import count
from chordsim_tools.place import tool
from chordsim_tools.quantities import time_of
from chordsim_tools.scenario.reading import Scenario, read_scenario
from chordsim_tools.scenario.tables import GREATEST_SIZE, parse_toml
from chordsim_tools.trace.detail import join_story, removal_story
from chordsim_tools.trace.judge import Files, judged_table, table_doubts
from chordsim_tools.trace.lookups import write_lookups
from chordsim_tools.trace.messages import message_table
from chordsim_tools.trace.reading import Run, read_report, read_run
from chordsim_tools.trace.stories import lookup_story, node_story
from chordsim_tools.trace.summary import Facts, doubts, summary
from chordsim_tools.trace.tables import node_rows, node_table, step_rows, step_table, worst_rows, worst_table
from chordsim_tools.trace.text import summary_text
from chordsim_tools.trace.wording import show
from chordsim_tools.trace.page.groups import read_groups
from chordsim_tools.trace.page.writing import write_page

PROG = tool("trace")
HELP = """\
Tells what happened in one run: from its trace, which `chordsim run --trace` writes, and its scenario. Without an option
it prints a summary. docs/trace.md says what each number means.

An answer is right, strictly, if the node that it names is the first member at or after the key, clockwise, when the
answer arrives. It is defensible if the node was that at some instant while the lookup ran. Members are the initial
nodes and those with a line `member`, until their line `crash`, `leave` or `stranded`. A trace that ends early, as that
of a run that failed, is told as far as it goes, with a report of its lines: all numbers of the report but `events`. A
trace with a line that cannot be of a run of the scenario is refused, and so is a report that is empty or of another
run. If --lookups is all that is asked for, `chordsim judge` reads the trace, and refuses fewer lines (docs/trace.md).

If the scenario has `detail = true`, the summary counts the messages of each kind, and the stories name each request."""
EXAMPLES = """\
examples:
  tools/trace ring.trace ring.toml                     a summary
  tools/trace ring.trace ring.toml --over-time 10s     ... and a table by steps of ten seconds
  tools/trace ring.trace ring.toml --node n07          the story of a node
  tools/trace ring.trace ring.toml --lookup n07@12.5s  the story of the lookup that n07 began at 12.5 seconds
  tools/trace ring.trace ring.toml --join n07          the story of the join of n07, if it has one alone; else n07@12.5s
  tools/trace ring.trace ring.toml --removed n07       why n07 has removed successors (with `detail = true`)
  tools/trace ring.trace ring.toml --worst 10          the ten slowest and the ten most wrong lookups
  tools/trace ring.trace ring.toml --lookups ring.csv  a table of all lookups: asker, key, begin, end, verdicts and more
  tools/trace ring.trace ring.toml --html ring.html    a page for a browser, in one file

status: 0 all was done; 1 a file is refused, or cannot be read; 2 the arguments are wrong; 3 something failed (the disk,
or D3 is missing for --html: apt-get install node-d3); 130 stopped by Ctrl-C"""


def parser_of() -> ToolParser:
    """The parser of the arguments."""
    parser = ToolParser(PROG, HELP, EXAMPLES, strict=True)
    parser.add_argument("trace", metavar="TRACE", help="the trace, with or without the report after it")
    parser.add_argument("scenario", metavar="SCENARIO", help="the scenario file (TOML) of the run")
    parser.add_argument("--latency", metavar="FILE", help="the latency file of the run: stories with detail need it")
    parser.add_argument("--report", metavar="FILE", help="what `chordsim run --trace` printed")
    parser.add_argument("--over-time", metavar="STEP", type=step, help="a table by steps of time, such as 10s")
    parser.add_argument("--per-node", action="store_true", help="a table by node")
    parser.add_argument("--worst", metavar="N", type=count, help="the N slowest and the N most wrong lookups")
    parser.add_argument("--node", metavar="NAME", help="all lines of a node, and those that name it")
    parser.add_argument("--lookup", metavar="N|NODE@TIME", help="one lookup: the N-th, or by its asker and begin")
    parser.add_argument("--join", metavar="NODE[@TIME]", help="one join of a node; by its begin if there are more")
    parser.add_argument("--removed", metavar="NODE", help="each successor that did not send a node its state, and why")
    parser.add_argument("--lookups", metavar="FILE", help="write a table of all lookups into FILE (CSV)")
    parser.add_argument("--html", metavar="FILE", help="write a page for a browser into FILE")
    parser.add_argument("--groups", metavar="FILE", help="groups of nodes for the page: rows NODE,GROUP (by names)")
    parser.add_argument("--json", action="store_true", help="print the summary, and the tables asked for, as JSON")
    return parser


def step(text: str) -> int:
    """A step of time."""
    found = time_of(text)
    if not found:
        raise ArgumentTypeError(f"{text!r} is no time above 0, such as 10s or 500ms")
    return found


def scenario_of(args: Namespace) -> Scenario:
    """The scenario of the run."""
    latency = b"" if args.latency is None else read_input(args.latency, GREATEST_SIZE)
    content = read_input(args.scenario, GREATEST_SIZE)
    try:
        return read_scenario(content, latency)
    except Refused as fault:
        file = args.latency if " row " in fault.text else args.scenario
        raise Refused(f"{file}: {fault.text}{swapped(args, fault)}") from None


def swapped(args: Namespace, fault: Refused) -> str:
    """What else to do about a scenario that is refused: swap the two files if the first one is a scenario."""
    try:
        is_scenario = "profile" in parse_toml(read_input(args.trace, GREATEST_SIZE))
    except Refused:
        is_scenario = False
    if is_scenario and fault.text.startswith("S1 "):
        return f"; {args.trace} is a scenario: swap the two, as {PROG} TRACE SCENARIO"
    return f"; {tool('explain')} says more"


def work(args: Namespace) -> None:
    """Reads the run, and prints or writes what the arguments ask for."""
    check_files(args)
    scenario = scenario_of(args)
    if wants_lookups_alone(args) and write_judged(args, scenario):
        return
    one = read_run(args.trace, scenario)
    if args.report is not None:
        read_report(args.report, one)
    warn(doubts(one))
    check_nodes(args, one)
    if args.html is not None:
        groups = None if args.groups is None else read_groups(args.groups, one.history.names)
        write_page(args.html, one, args.scenario, groups)
    if args.lookups is not None:
        write_lookups(args.lookups, one)
    asked = any((args.over_time, args.per_node, args.worst, args.node, args.lookup, args.join, args.removed))
    if args.json:
        show([json.dumps(in_json(one, args), indent=2)])
    elif asked or (args.html is None and args.lookups is None):
        show(in_text(one, args))


def check_files(args: Namespace) -> None:
    """Refuses files to write that are read or written otherwise, and groups without a page."""
    for option, file in (("--html", args.html), ("--lookups", args.lookups)):
        check_output(option, file, (args.trace, args.scenario, args.latency, args.report, args.groups))
    check_apart("--lookups", args.lookups, "--html", args.html)
    if args.groups is not None and args.html is None:
        raise Failure(2, "--groups: only with --html")


def check_nodes(args: Namespace, one: Run) -> None:
    """Refuses nodes that the scenario does not have."""
    for option, name in (("node", args.node), ("removed", args.removed)):
        if name is not None and name not in one.history.numbers:
            raise Failure(2, f"--{option}: the scenario has no node {name!r}")


def wants_lookups_alone(args: Namespace) -> bool:
    """Whether the table of lookups is all that is asked for."""
    given = {name for name, value in vars(args).items() if value not in (None, False)}
    return "lookups" in given and given <= {"trace", "scenario", "latency", "lookups"}


def write_judged(args: Namespace, scenario: Scenario) -> bool:
    """Writes the table of lookups that the program makes. Returns False if Python has to make it."""
    files = Files(args.trace, args.scenario, args.latency)
    table = judged_table(files, scenario)
    if table is None:
        return False
    warn(table_doubts(files, table))
    write_whole(args.lookups, table)
    return True


def in_json(one: Run, args: Namespace) -> Facts:
    """The summary and the tables."""
    facts: Facts = {"scenario": args.scenario, **summary(one)}
    if args.over_time is not None:
        facts["over_time"] = step_rows(one, args.over_time)
    if args.per_node:
        facts["per_node"] = node_rows(one)
    if args.worst is not None:
        facts["worst"] = worst_rows(one, args.worst)
    return facts | stories(one, args)


def stories(one: Run, args: Namespace) -> dict[str, list[str]]:
    """The stories that are asked for, by their options."""
    tellers = {"node": node_story, "lookup": lookup_story, "join": join_story, "removed": removal_story}
    asked = {option: getattr(args, option) for option in tellers}
    return {option: tellers[option](one, spec) for option, spec in asked.items() if spec is not None}


def in_text(one: Run, args: Namespace) -> list[str]:
    """What is asked for. The summary is left out if a story is asked for."""
    parts: list[list[str]] = []
    told = stories(one, args)
    if not told:
        facts = summary(one)
        parts.append([f"run of {args.scenario}", "", *summary_text(facts)])
        parts += [message_table(facts["messages"])] if facts["messages"] else []
    if args.over_time is not None:
        parts.append(step_table(step_rows(one, args.over_time)))
    if args.per_node:
        parts.append(node_table(node_rows(one)))
    if args.worst is not None:
        parts.append(worst_table(worst_rows(one, args.worst)))
    parts += told.values()
    return [text for number, part in enumerate(parts) for text in ([""] * bool(number) + part)]


def main(arguments: list[str]) -> int:
    """The command."""
    args = parser_of().parse_args(arguments)
    return run(PROG, lambda: work(args), interrupted="stopped")
