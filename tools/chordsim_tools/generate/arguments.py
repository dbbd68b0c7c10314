"""The options of tools/generate, and how they are read."""

from argparse import Namespace

from chordsim_tools.cli import Parser, ToolParser
from chordsim_tools.draws import distribution_of
from chordsim_tools.generate.help import EPILOG, HELP
from chordsim_tools.generate.hosts import GROUPS, gap_of_rate, group_of
from chordsim_tools.generate.hosts import RATES as RATES_OF_ARRIVALS
from chordsim_tools.generate.lookups import (
    LENGTHS, MOST_KEYS, RATES, gap_of, keys_wanted, law_of, length_span_of, rate_of,
)
from chordsim_tools.generate.outages import BACKS, OUTAGES, back_of, outage_of
from chordsim_tools.generate.plan import LIVES
from chordsim_tools.options import (
    GREATEST_SEED, Given, a_time, a_whole, choice, duration, one_of, value, whole, within,
)
from chordsim_tools.place import tool
from chordsim_tools.places import LAWS, law_of_places
from chordsim_tools.quantities import BILLION, span_of, whole_of

PROG = tool("generate")
LOSS = "messages lost per million, 0 to 1000000 (5000 is 0.5 %)"
LEAVES = "ends of lives per million that are leaves, 0 to 1000000 (500000 is half of them)"
LENGTH = duration(1, BILLION)
LIFE = value(distribution_of, LIVES)
OPTIONS = (
    ("profile", "N", one_of(1, 2, 4),
     "the set of rules: 1; 2 for a network with loss and spread, wider identifiers and more nodes; 4 for this, "
     "requests that are sent again, pauses between joins, checks of predecessors, coordinates and still more nodes "
     "(1)"),
    ("nodes", "N", a_whole(),
     "2 to 512 nodes, in profile 2 to 4096, in profile 4 to 1048576, and at most 2^BITS (64, or those of the groups)"),
    ("classes", "", None,
     "profile 4 alone: nodes that are alike have one table, [[nodes]]; it is always so above 65536 nodes"),
    ("group", "GROUP", value(group_of, GROUPS), f"a group of nodes, may be given again: {GROUPS} (none)"),
    ("ids", "WHICH", choice("random", "names"),
     "identifiers: random, new with each --seed, or names, those of the names alone (random)"),
    ("initial", "N", a_whole(),
     "how many of them, the first ones, are members at the start: 2 to NODES, in profile 4 also 1 (all)"),
    ("bits", "N", a_whole(),
     "bits of an identifier: 3 to 64, in profiles 2 and 4 to 128 (32, or 64 for more than 65536 nodes)"),
    ("list", "N", a_whole(),
     "entries of a successor list: 1 to 16 and below the initial nodes, in profile 4 to 32 (4, or as many as may be)"),
    ("duration", "TIME", duration(1, 1000 * BILLION), "1us to 1000000s (120s)"),
    ("window", "TIME", a_time(),
     "1us to 1000s, and at most the latency, or with --coordinates the sum of the two least heights (just this)"),
    ("latency", "TIME", LENGTH, "latency of nodes that no latency file names: 1us to 1000s (20ms)"),
    ("timeout", "TIME", LENGTH, "1us to 1000s (ten latencies)"),
    ("audit", "TIME", a_time(), "time between audits: 1us to 1000s, at most 1,000,000 audits (a 24th of the duration)"),
    ("stabilize", "TIME", LENGTH, "1us to 1000s (500ms)"),
    ("finger", "TIME", LENGTH, "1us to 1000s (250ms)"),
    ("jitter", "TIME", duration(0, BILLION), "0us to 1000s (50ms)"),
    ("max-events", "N", a_whole(), "1 to 50000000, in profile 4 to 100000000000 (50000000)"),
    ("loss", "N", value(within(whole_of, 0, 1_000_000), LOSS),
     "profiles 2 and 4: messages lost per million, 0 to 1000000; 5000 is 0.5 % (0)"),
    ("spread", "TIME", duration(0, BILLION),
     "profiles 2 and 4: up to this much is added to each latency, 0us to 1000s (0us)"),
    ("retries", "N", whole(0, 3),
     "profile 4 alone: how often a request is sent again before its node is taken for dead, 0 to 3 (0)"),
    ("join-pause", "TIME", duration(0, BILLION),
     "profile 4 alone: how long a node waits after a failed attempt to join, 0us to 1000s (the timeout)"),
    ("join-forever", "", None,
     "profile 4 alone: a node whose join has failed eight times begins again, after eight pauses (the default)"),
    ("no-join-forever", "", None, "profile 4 alone: a node whose join has failed eight times goes down"),
    ("check", "TIME", duration(0, BILLION),
     "profile 4 alone: time between checks of the predecessor, 0us to 1000s, 0us for none (that of --stabilize)"),
    ("detail", "", None, "profile 4 alone: the trace has lines that tell of each message"),
    ("no-list-routes", "", None,
     "profile 4 alone: only the first entry of the successor list counts in the search for the closest preceding node"),
    ("no-goes-on", "", None,
     "profile 4 alone: a lookup begins again at its own node after a timeout, not at the node that answered last"),
    ("no-ask-owner", "", None,
     "profile 4 alone: a lookup ends with the node that is named as the owner, and does not ask it"),
    ("lookup-timeouts", "N", whole(0, 64),
     "profile 4 alone: how many nodes a lookup may leave out since they are silent or dead ends, 0 to 64 (32)"),
    ("no-drop-silent", "", None,
     "profile 4 alone: a node that is taken for dead in a lookup stays among the fingers and in the successor list"),
    ("no-skip-near", "", None,
     "profile 4 alone: all fingers are looked up in turn, also those that are the first successor"),
    ("no-random-start", "", None,
     "profile 4 alone: first timers come after a whole period, and all nodes begin with the same finger"),
    ("stabilize-jitter", "TIME", duration(0, BILLION), "profile 4 alone: the jitter of --stabilize (that of --jitter)"),
    ("finger-jitter", "TIME", duration(0, BILLION), "profile 4 alone: the jitter of --finger (that of --jitter)"),
    ("check-jitter", "TIME", duration(0, BILLION), "profile 4 alone: the jitter of --check (that of --jitter)"),
    ("no-clean-lists", "", None,
     "profile 4 alone: a joining node takes its predecessor's list as it is, with itself and with silent nodes"),
    ("no-join-asks", "", None,
     "profile 4 alone: a joining node is a member before its first successor has answered"),
    ("create-alone", "", None, "profile 4 alone: a bootstrap node whose join fails without any answer makes a ring"),
    ("bootstrap", "N", a_whole(),
     "profile 4 alone: how many nodes, the first ones, are those that others try in turn to join through: 0 to NODES "
     "(0)"),
    ("coordinates", "LAW", value(law_of_places, LAWS), f"profile 4 alone: latencies by coordinates: {LAWS} (none)"),
    ("seed", "N", whole(0, GREATEST_SEED),
     "of the simulated streams, and of all that is drawn here: 0 to 9223372036854775807 (1)"),
    ("churn-uniform", "SPAN", value(length_span_of, f"two spans {LENGTHS}"),
     "lives and down times that the program draws: two spans of 1us to 1000s"),
    ("lifetime", "LAW", LIFE, f"lives drawn here: {LIVES}"),
    ("down", "LAW", LIFE, "down times drawn here, in the same forms (exp:10s)"),
    ("leaves", "N", value(within(whole_of, 0, 1_000_000), LEAVES),
     "profile 4 alone: of a million ends of these lives so many are leaves and not crashes, 0 to 1000000 (0)"),
    ("stationary", "", None,
     "start in equilibrium: who is up is drawn, and what is left of its life or down time; with --lifetime"),
    ("stay", "N", a_whole(), "how many nodes, the first ones, do not churn: 0 to NODES - 1 (2)"),
    ("arrivals", "RATE", value(gap_of_rate, RATES_OF_ARRIVALS),
     f"new nodes that join at this rate and never return: {RATES_OF_ARRIVALS} (none)"),
    ("crash", "WHO", value(outage_of, OUTAGES), f"nodes that crash together, may be given again: {OUTAGES} (none)"),
    ("back", "TIME", value(back_of, BACKS), f"how much later the nodes of --crash join again: {BACKS} (never)"),
    ("churn-trace", "FILE", value(str, "a file"), "who is up when: lines HOST,UP,DOWN of this file"),
    ("via", "WHICH", choice("random", "first"), "the node to join through: random or first (random)"),
    ("arrive", "SPAN", value(span_of, "MIN..MAX, both below --duration"),
     "when the nodes that are not initial join (the first half of the duration)"),
    ("lookup-gap", "SPAN", value(gap_of, f"none or {LENGTHS}"),
     "gaps of lookups: 1us to 1000s each, or none (500ms..1500ms, but none with --lookups)"),
    ("lookups", "RATE", value(rate_of, RATES), f"lookups by commands, for each node and second: {RATES}"),
    ("keys", "LAW", value(law_of, keys_wanted(MOST_KEYS)),
     "their keys: uniform, or zipf:S:COUNT, S 0 to 10, COUNT 1 to 100000 and at most 2^BITS (uniform)"),
)
"""The options, in the order in which the head of the file names them."""
AGAIN = ("group", "crash")
"""Those that may be given several times."""


def parser_of(made_by: type[Parser] = ToolParser) -> Parser:
    """The parser of the arguments, of this class."""
    parser = made_by(PROG, HELP, EPILOG, strict=True)
    for name, metavar, kind, told in OPTIONS:
        meaning = told.replace("%", "%%")
        if not callable(kind):
            parser.add_argument(f"--{name}", action="store_const", const=Given("", True), help=meaning)
        elif name == "churn-uniform":
            parser.add_argument(f"--{name}", nargs=2, metavar=("LIFE_SPAN", "DOWN_SPAN"), type=kind, help=meaning)
        elif name in AGAIN:
            parser.add_argument(f"--{name}", metavar=metavar, action="append", type=kind, help=meaning)
        else:
            parser.add_argument(f"--{name}", metavar=metavar, type=kind, help=meaning)
    add = parser.add_argument
    seeds = whole(0, GREATEST_SEED)
    add("--random", metavar="SEED", type=seeds, help="a small random scenario: 0 to 9223372036854775807")
    add("--links", metavar="FILE", help="with --random: write its latency file, which may be empty, to this file")
    add("-o", dest="file", metavar="FILE", help="write to this file, not to standard output")
    return parser


def arguments_again(args: Namespace) -> list[str]:
    """The arguments in the order of the options, without the file."""
    again: list[str] = []
    for name, *_ in OPTIONS:
        given: Given[object] | list[Given[object]] | None = getattr(args, name.replace("-", "_"))
        texts = [one.text for one in (given if isinstance(given, list) else [given] if given is not None else [])]
        if name in AGAIN:
            again += [word for text in texts for word in (f"--{name}", text)]
        elif texts:
            again += [f"--{name}", *filter(None, texts)]
    return again
