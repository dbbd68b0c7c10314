"""The command examples/plain/flatten: the flat form of a scenario, which the plain program of examples/plain reads."""

from collections.abc import Iterator
from dataclasses import astuple

from chordsim_tools.cli import Parser, add_files, run
from chordsim_tools.files import check_output, put, read_input
from chordsim_tools.known import known
from chordsim_tools.scenario.coordinates import Coordinates
from chordsim_tools.scenario.reading import Command, NodeSpec, Scenario, read_scenario
from chordsim_tools.scenario.tables import GREATEST_SIZE

Line = list[int | str]
PROG = "examples/plain/flatten"
HELP = """\
Writes the flat form of a scenario: its values one after the other, each between blanks or line ends. The program of
examples/plain reads this form. The scenario and its latencies are checked as chordsim checks them."""
EPILOG = """\
The flat form:
  profile, loss_ppm, spread_us, retries, join_pause_us, join_forever as 1 or 0, check_us, detail as 1 or 0
  list_routes, goes_on and ask_owner as 1 or 0, lookup_timeouts, drop_silent, skip_near, random_start, clean_lists,
  join_asks and create_alone as 1 or 0 (in profiles 1 and 2 these are 0 0 0 8 0 0 0 0 0 0)
  the jitters of stabilize_us, finger_us and check_us
  bits, list, seed, duration_us, timeout_us, audit_us, stabilize_us, finger_us, max_events, latency_us
  1 and life_min_us, life_max_us, down_min_us, down_max_us, leave_ppm, or 0 if there is no [churn]
  1 and gap_min_us, gap_max_us, or 0 if there is no [lookups]
  the number of nodes; for each its name, its identifier, initial, churn and bootstrap as 1 or 0
  the number of latency rows; for each its two nodes by number and its microseconds
  1 and for each node its x_us, y_us and height_us, or 0 if nodes have no coordinates
  the number of commands; for each its time, its node by number and `join VIA`, `crash`, `leave` or `lookup KEY`
Nodes are numbered from 0. Numbers are decimal.

example:
  examples/plain/flatten examples/churn64.toml -o churn64.flat

status: 0 the file is written; 1 a file is refused; 2 the arguments are wrong; 3 the file could not be written; 130
interrupted. A file is whole or not there."""


def parser_of() -> Parser:
    """The parser of the arguments."""
    parser = Parser(PROG, HELP, EPILOG, strict=True)
    add_files(parser)
    parser.add_argument("-o", dest="file", metavar="FILE", help="write to this file, not to standard output")
    return parser


def flat_form(scenario: Scenario) -> str:
    """The flat form of a scenario."""
    return "".join(" ".join(map(str, values)) + "\n" for values in lines_of(scenario))


def lines_of(scenario: Scenario) -> Iterator[Line]:
    """The values of each line."""
    s = scenario
    yield [s.profile, s.loss_ppm, s.spread_us, s.retries, s.join_pause_us, int(s.join_forever), s.check_us,
           int(s.detail)]
    yield [int(value) for value in astuple(s.ways)]
    yield list(astuple(s.jitters))
    yield [s.bits, s.list, s.seed, s.duration_us, s.timeout_us, s.audit_us, s.stabilize_us, s.finger_us, s.max_events,
           s.latency_us]
    c = s.churn
    yield [0] if c is None else [1, c.life_min_us, c.life_max_us, c.down_min_us, c.down_max_us, c.leave_ppm]
    yield [0] if s.lookups is None else [1, s.lookups.gap_min_us, s.lookups.gap_max_us]
    yield [len(s.nodes)]
    yield from map(node_line, s.nodes)
    # Each pair is there in both orders.
    rows: list[Line] = [[a, b, micros] for (a, b), micros in s.latencies.items() if a < b]
    yield [len(rows)]
    yield from rows
    places = [node.coordinates for node in s.nodes if node.coordinates is not None]
    yield [int(bool(places))]
    yield from map(place_line, places)
    yield [len(s.commands)]
    yield from map(command_line, s.commands)


def node_line(node: NodeSpec) -> Line:
    """The values of a node, without its coordinates."""
    return [node.name, node.ident, int(node.initial), int(node.churn), int(node.bootstrap)]


def place_line(place: Coordinates) -> Line:
    """The values of a node's coordinates."""
    return [place.x_us, place.y_us, place.height_us]


def command_line(command: Command) -> Line:
    """The values of a command."""
    return [command.at_us, command.node, *action_of(command)]


def action_of(command: Command) -> Line:
    """What a command does, with the value that it needs for it."""
    match command.do:
        case "join":
            return ["join", known(command.via)]
        case "lookup":
            return ["lookup", known(command.key)]
        case _:
            return [command.do]


def write(scenario: str, latency: str | None, file: str | None) -> None:
    """Writes the flat form of the two files."""
    check_output("-o", file, (scenario, latency))
    rows = b"" if latency is None else read_input(latency, GREATEST_SIZE, reasons=False)
    put(flat_form(read_scenario(read_input(scenario, GREATEST_SIZE, reasons=False), rows)), file)


def main(arguments: list[str]) -> int:
    """The command."""
    args = parser_of().parse_args(arguments)
    return run(PROG, lambda: write(args.scenario, args.latency, args.file))
