"""The command tools/latency."""

import csv
import io
import math
import re
from argparse import Namespace
from itertools import combinations
from statistics import median_low

from chordsim_tools.cli import Failure, Parser, Refused, ToolParser, run, say
from chordsim_tools.draws import Draws
from chordsim_tools.explain.traps import timeout_trap, warn
from chordsim_tools.files import check_output, put, read_input
from chordsim_tools.generate.bare import SHORT, bare_traps
from chordsim_tools.latency.coordinates import Placed, placed_by_fit, placed_by_king
from chordsim_tools.latency.measured import UNITS, Latencies, latencies_of, read_lines, read_matrix
from chordsim_tools.options import GREATEST_SEED, Options, a_whole, choice, duration, whole
from chordsim_tools.place import tool
from chordsim_tools.places import places_text
from chordsim_tools.regions import read_regions
from chordsim_tools.scenario.coordinates import greatest_latency
from chordsim_tools.scenario.faults import Document
from chordsim_tools.scenario.tables import EXTENDED, GREATEST_SIZE, parse_toml

PROG = tool("latency")
HELP = """\
Writes a latency file for chordsim: a row a,b,microseconds for each pair of nodes, from measured round trips or of hosts
at random places of a square. Or writes coordinates, a row name,x,y,height in microseconds for each node: fitted to a
latency file, or made. The nodes are named n0, n1 and so on, as those of tools/generate are, or as --names says.
The same arguments and files make the same bytes. What is in round brackets at the end of an option's line is its
default."""
EPILOG = """\
Round trips: a matrix has one row a line, its values separated by blanks or commas (the form of the King data set); -1,
0 and nothing between two commas are gaps. With --form lines each line is `i j us`: the numbers of two hosts and the
round trip from the one to the other. Empty lines and lines that begin with # are ignored, and so is the round trip
of a host with itself. At most 5000 hosts, round trips of at most 2000 seconds.

Which hosts: a gap of a host is another one with which no round trip was measured in either direction. The hosts are
drawn among those that have at most g gaps, for the least g by which they are enough. They are named in the order of the
file, so that a matrix of just as many hosts keeps its order.

Latencies: the mean of the two directions, or the one that was measured, is halved and rounded up to whole microseconds.
A gap between two chosen hosts gets half the mean of the two hosts' medians, rounded up; a host's median is that of its
measured round trips with the other chosen hosts (the lower one of two in the middle).

--regions FILE: a row for each pair by the regions of the two nodes, which are what is before the last hyphen of their
names (tools/generate --group eu:250 names them eu-0 and so on). The file is a matrix: `round-trip,eu,us` in its first
line, or `one-way,eu,us`, and a line `eu,1ms,80ms` for each region. Round trips are halved, and the mean of the two
directions is rounded up to whole microseconds; an empty field is that of the other direction.

--plane SIDE: hosts at random places of a square. The latency of two of them is --floor and the straight way between
them, rounded up; SIDE is the way from one corner to the next.

--fit ROWS: coordinates of the nodes of a latency file ROWS, fitted by Vivaldi (Dabek, Cox, Kaashoek, Morris, SIGCOMM
2004) in a plane with heights. Vivaldi's coordinates are of round trips, these are of one-way latencies. The file may
lack pairs. Each node looks 2000 times at another one, drawn from those to which it has a latency. With --names the
nodes of that scenario are written, in its order. The line at the end has the median and the 90th percentile of the
relative errors of all rows: how far the latency by coordinates is from that of the row, as a share of the latter. No
height is below half the --floor, so that no latency is below it.

--king: coordinates that are made in the manner of the King data set, and not measured: places in three clusters, and
heights that are nearly log-normal. docs/tools.md says how they are drawn.

tools/generate --coordinates file:NAME takes such a file. It is for profile 4.

At the end a line on standard error says the number of hosts and of gaps filled, the least, the median and the greatest
latency, and the greatest window_us that a scenario with these latencies may have (which is the least latency). A spread
(spread_us, of profiles 2 and 4) only adds to these and does not count for the window.

chordsim reads at most 16,777,216 bytes of latencies, which a row for each pair of some 1,400 nodes has. A greater file
is refused; profile 1 has at most 512 nodes.

examples:
  tools/latency king.txt --nodes 128 --seed 3 -o king.csv
  tools/latency pings.txt --form lines --unit ms --gaps refuse --names base.toml -o pings.csv
  tools/latency --regions regions.csv --names ring.toml -o regions-rows.csv
  tools/latency --plane 100ms --floor 5ms --nodes 128 -o plane.csv
  tools/generate --nodes 128 --window 5ms --timeout 400ms -o ring.toml    a scenario for it: the window is at most the
                                                           least latency, the timeout above twice the greatest one
  chordsim run --scenario ring.toml --latency plane.csv --serial
  tools/latency --fit king.csv -o places.csv               coordinates in place of the rows of king.csv
  tools/latency --king --nodes 4096 -o places.csv          coordinates that are made
  tools/generate --profile 4 --nodes 128 --coordinates file:places.csv --timeout 1s -o ring.toml

status: 0 the file is written; 1 a file is refused; 2 the arguments are wrong; 3 the file could not be written; 130
interrupted. A file is whole or not there."""
UNIT_LIMIT = 1000
"""A median latency below this many microseconds is hardly one of the Internet."""
TIMES = {"plane": SHORT, "floor": SHORT}
"""The options that are times, with the microseconds below which a number without a unit is hardly meant."""
MOST_NODES = EXTENDED.greatest("node")
"""The most nodes of a scenario."""


def parser_of() -> Parser:
    """The parser of the arguments."""
    parser = ToolParser(PROG, HELP, EPILOG, strict=True)
    add = parser.add_argument
    add("measured", metavar="MEASURED", nargs="?", help="the file with the round trips")
    add("--nodes", metavar="N", type=a_whole(), help="2 to 65536 nodes (64, or as many as --names has)")
    add("--names", metavar="FILE", help="a scenario; its nodes' names are taken, in their order")
    add("--seed", metavar="N", type=whole(0, GREATEST_SEED), help="of all that is drawn: 0 to 9223372036854775807 (1)")
    add("--form", metavar="FORM", type=choice("matrix", "lines"), help="the form of MEASURED: matrix or lines (matrix)")
    add("--unit", metavar="UNIT", type=choice(*UNITS), help="the unit of its round trips: us, ms or s (us)")
    add("--gaps", metavar="WHAT", type=choice("fill", "refuse"),
        help="fill gaps among the chosen hosts, or refuse them (fill)")
    add("--plane", metavar="SIDE", type=duration(1, 600_000_000),
        help="no MEASURED; a square of this side: a time of 1us to 600s")
    add("--regions", metavar="FILE", help="no MEASURED; the latencies between the regions of this file")
    add("--fit", metavar="ROWS", help="no MEASURED; coordinates that are fitted to this latency file")
    add("--king", action="store_true", help="no MEASURED; coordinates that are made in the manner of the King data set")
    add("--floor", metavar="TIME", type=duration(1, 100_000_000),
        help="what each latency of the plane begins with, or what none by coordinates is below: 1us to 100s (1ms; with "
        "--fit the least latency of the file)")
    add("-o", dest="file", metavar="FILE", help="write to this file, not to standard output")
    return parser


def check(args: Namespace, parser: Parser) -> Options:
    """The options. If they do not fit together the parser ends with the first one that does not."""
    options = Options(args, parser)
    named = [args.measured is not None, options.has("plane"), args.regions is not None, args.fit is not None, args.king]
    if named.count(True) != 1:
        parser.error("give exactly one of MEASURED, --plane, --regions, --fit and --king")
    options.only_with("floor", args.measured is None and args.regions is None, "--plane, --fit or --king")
    options.only_with("nodes", args.fit is None, "a file MEASURED, --plane or --king")
    options.all_only_with(("form", "unit", "gaps"), args.measured is not None, "a file MEASURED")
    if args.names is None:
        options.whole("nodes", 64, 2, MOST_NODES)
    return options


def names_of(file: str) -> list[str]:
    """The names of a scenario's nodes."""
    content = read_input(file, GREATEST_SIZE)
    try:
        nodes = Document(parse_toml(content), []).nodes
    except Refused as fault:
        raise Refused(f"{file}: {fault}") from None
    names: dict[str, None] = {}
    for node in nodes:
        name = node.name
        if name is None or not re.fullmatch(r"[A-Za-z0-9._-]{1,32}", name) or name in names:
            raise Refused(f"{file}: {node.told} has no name of its own")
        names[name] = None
    if not 2 <= len(names) <= MOST_NODES:
        raise Refused(f"{file}: {len(names)} nodes, not 2 to {MOST_NODES}")
    return list(names)


def nodes_of(options: Options) -> list[str]:
    """The names of the nodes that the arguments ask for."""
    if options.args.names is None:
        return [f"n{i}" for i in range(options.get("nodes", 64))]
    names = names_of(options.args.names)
    options.in_range("nodes", len(names), len(names), len(names), f"{len(names)}, as --names has")
    return names


def plane(side: int, floor: int, count: int, draws: Draws) -> Latencies:
    """Latencies of hosts at random places of a square. More hosts leave the places of the first ones as they are."""
    places = [(draws.between(0, side), draws.between(0, side)) for _ in range(count)]
    pairs = combinations(range(count), 2)
    return Latencies([(a, b, floor + distance(places[a], places[b])) for a, b in pairs], 0)


def distance(one: tuple[int, int], other: tuple[int, int]) -> int:
    """The distance of two places, rounded up."""
    square = (one[0] - other[0]) ** 2 + (one[1] - other[1]) ** 2
    return math.isqrt(square - 1) + 1 if square else 0


def between_regions(file: str, names: list[str]) -> Latencies:
    """The latencies of nodes by their regions."""
    regions = read_regions(file)
    places = regions.of_nodes(names)
    pairs = combinations(range(len(names)), 2)
    return Latencies([(a, b, regions.micros[places[a]][places[b]]) for a, b in pairs], 0)


def latencies(options: Options, names: list[str]) -> Latencies:
    """The latencies that the arguments ask for, of these nodes."""
    draws, count = Draws(options.get("seed", 1)), len(names)
    if options.args.regions is not None:
        return between_regions(options.args.regions, names)
    measured = options.args.measured
    if measured is None:
        return plane(options.get("plane", 0), options.get("floor", 1000), count, draws)
    unit = UNITS[options.get("unit", "us")]
    trips = (read_matrix if options.get("form", "matrix") == "matrix" else read_lines)(measured, unit)
    if is_count_open(options) and 2 <= len(trips.hosts) < count:
        told = f"{len(trips.hosts)} hosts, fewer than the {count} nodes"
        raise Refused(f"{measured}: {told}: give --nodes {len(trips.hosts)}")
    return latencies_of(trips, count, options.get("gaps", "fill") == "fill", draws)


def is_count_open(options: Options) -> bool:
    """Whether no argument says how many nodes there are."""
    return not options.has("nodes") and options.args.names is None


def check_size(count: int, size: int) -> None:
    """Refuses a file of this size or more that chordsim would not read."""
    if size > GREATEST_SIZE:
        made = f"{tool('generate')} --profile 4 --coordinates (also regions:FILE)"
        more = f"coordinates have no such limit: --king, or {made}"
        raise Failure(2, f"--nodes: rows for all pairs of {count} nodes have more than {GREATEST_SIZE} bytes; {more}")


def rows_text(names: list[str], result: Latencies) -> str:
    """The rows of the file."""
    text = io.StringIO()
    rows = ((names[a], names[b], micros) for a, b, micros in result.micros)
    csv.writer(text, lineterminator="\n").writerows(rows)
    return text.getvalue()


def facts(count: int, result: Latencies, is_open: bool) -> str:
    """What is said at the end. If no argument says how many nodes there are, also how many hosts there were."""
    times = [micros for _, _, micros in result.micros]
    more = f" of {result.hosts} (give --nodes for more)" if is_open and result.hosts > count else ""
    return (
        f"hosts {count}{more}, gaps filled {result.filled}, least {min(times)} us, median {median_low(times)} us, "
        f"greatest {max(times)} us; window_us may be at most {min(times)}\n"
    )


def placed(options: Options) -> Placed:
    """The coordinates that the arguments ask for."""
    floor, seed = options.get("floor", None), options.get("seed", 1)
    if options.args.king:
        return placed_by_king(nodes_of(options), floor, seed)
    names = None if options.args.names is None else names_of(options.args.names)
    return placed_by_fit(options.args.fit, names, floor, seed)


def write_coordinates(options: Options) -> None:
    """Writes the coordinates that the arguments ask for."""
    result = placed(options)
    put(places_text(result.names, result.places), options.args.file)
    say(result.facts())
    warn([*bare_traps(options.args, TIMES), *timeout_traps(options, greatest_latency(result.places))])


def write(options: Options) -> None:
    """Writes the file that the arguments ask for."""
    args = options.args
    check_output("-o", args.file, (args.measured, args.names, args.fit, args.regions))
    if args.king or args.fit is not None:
        write_coordinates(options)
    else:
        write_rows(options)


def write_rows(options: Options) -> None:
    """Writes the latency file that the arguments ask for."""
    names = nodes_of(options)
    # Each row has two names, two commas, a digit or more and a line feed: too many nodes are refused before the work.
    check_size(len(names), (len(names) - 1) * sum(len(name) + 2 for name in names))
    result = latencies(options, names)
    text = rows_text(names, result)
    check_size(len(names), len(text))
    put(text, options.args.file)
    say(facts(len(names), result, is_count_open(options)))
    warn(traps(options, result))


def traps(options: Options, result: Latencies) -> list[str]:
    """What is hardly meant: milliseconds that were read as microseconds, and a scenario with too short a timeout."""
    times = [micros for _, _, micros in result.micros]
    found = bare_traps(options.args, TIMES)
    if options.args.measured is not None and not options.has("unit") and median_low(times) < UNIT_LIMIT:
        found.append(
            f"the median latency is {median_low(times)} us, below 1 ms: are the round trips in milliseconds "
            "(--unit ms)? --unit us says that they are not"
        )
    return found + timeout_traps(options, max(times))


def timeout_traps(options: Options, greatest: int) -> list[str]:
    """That the scenario of --names has too short a timeout for latencies up to this greatest one."""
    if options.args.names is None:
        return []
    top = parse_toml(read_input(options.args.names, GREATEST_SIZE))
    timeout, spread, retries = (top.get(key, 0) for key in ("timeout_us", "spread_us", "retries"))
    if not all(isinstance(value, int) for value in (timeout, spread, retries)) or timeout <= 0 or retries < 0:
        return []
    return timeout_trap(timeout, greatest + spread, retries)


def main(arguments: list[str]) -> int:
    """The command."""
    parser = parser_of()
    options = check(parser.parse_args(arguments), parser)
    return run(PROG, lambda: write(options))
