"""What the arguments of tools/generate ask for, with each option's range."""

from argparse import Namespace
from dataclasses import dataclass
from decimal import Decimal

from chordsim_tools.cli import Parser
from chordsim_tools.draws import Distribution, Zipf
from chordsim_tools.generate.equilibrium import mean_of
from chordsim_tools.generate.hosts import Host, Span
from chordsim_tools.generate.lookups import keys_of, lookups_of
from chordsim_tools.generate.nodes import (
    MOST_TABLES, check_trace, default_bits, default_duration, first_hosts, groups_of, has_lives, least_initial,
    newcomers, room_of,
)
from chordsim_tools.generate.outages import Outage
from chordsim_tools.generate.top import network_of, top_of
from chordsim_tools.options import Given, Options
from chordsim_tools.places import Law, RegionsFile, Square, places_of
from chordsim_tools.quantities import time_text
from chordsim_tools.regions import placed, read_regions
from chordsim_tools.scenario.coordinates import Coordinates
from chordsim_tools.scenario.reading import Churn, Lookups
from chordsim_tools.scenario.tables import PROFILES

LIVES = "exp:MEAN, pareto:ALPHA:MIN or uniform:MIN..MAX, times 1us to 1000000s, ALPHA 0.1 to 100"


@dataclass(frozen=True)
class Plan:
    """A scenario to be made: the keys of its top table, its nodes, and what happens to them.

    The nodes below `initial` begin as members, unless the start is drawn or a churn trace says it. Those below
    `bootstraps` are bootstrap nodes. Of a million lives that commands end, `leaves` end with a leave. The nodes have
    coordinates, or the list is empty. If the scenario has classes, nodes that are alike have one table. If there is a
    side, the nodes of classes are in a square of it from their coordinates on, and the program draws where.
    """

    top: dict[str, int]
    hosts: tuple[Host, ...]
    initial: int
    stay: int
    churn: Churn | None
    via: str
    arrive: Span
    lookups: Lookups | None
    rate: Decimal | None
    keys: Zipf | None
    stationary: bool = False
    places: tuple[Coordinates, ...] = ()
    outages: tuple[Outage, ...] = ()
    back: Span | None = None
    are_names: bool = False
    bootstraps: int = 0
    leaves: int = 0
    is_classed: bool = False
    side: int = 0
    notes: tuple[str, ...] = ()

    @property
    def nodes(self) -> int:
        """How many nodes there are."""
        return len(self.hosts)

    @property
    def is_traced(self) -> bool:
        """Whether the nodes are the hosts of a churn trace."""
        return self.hosts[0].sessions is not None


def check(args: Namespace, parser: Parser) -> Plan:
    """The plan of the arguments. If two of them do not fit together the parser ends with the first such option."""
    options = Options(args, parser)
    profile = options.get("profile", 1)
    most_bits = PROFILES[profile].greatest("bits")
    bits = options.whole("bits", default_bits(options, profile), 3, most_bits, f" (in profile {profile})")
    check_trace(options)
    first = first_hosts(options, profile, bits)
    up_first = sum(host.sessions is None or host.sessions[0][0] == 0 for host in first)
    initial = options.whole("initial", up_first, least_initial(profile), len(first), " (at most --nodes)")
    duration = options.get("duration", default_duration(first))
    hosts = (*first, *newcomers(options, len(first), room_of(profile, bits), duration))
    is_classed = are_classed(options, profile, len(hosts))
    options.only_with("coordinates", profile == 4, "--profile 4")
    square = square_of_classes(options) if is_classed else None
    places = coordinates_of(options, hosts) if square is None else (Coordinates(0, 0, square.least),) * len(hosts)
    top = top_of(options, profile, (bits, duration, initial, len(first)), places) | network_of(options, profile)
    check_companions(options, initial < len(first))
    return Plan(
        top=top,
        hosts=hosts,
        initial=initial,
        stay=stay_of(options, len(first)),
        churn=churn_of(args.churn_uniform, leaves_of(options, profile)),
        via=options.get("via", "random"),
        arrive=arrive_of(options, duration),
        lookups=lookups_of(options),
        rate=options.get("lookups", None),
        keys=keys_of(options, bits),
        stationary=is_stationary(options),
        places=places,
        outages=outages_of(options, hosts, duration),
        back=options.get("back", None),
        are_names=options.get("ids", "random") == "names",
        bootstraps=bootstraps_of(options, profile, len(first)),
        leaves=0 if options.has("churn-uniform") else leaves_of(options, profile),
        is_classed=is_classed,
        side=0 if square is None else square.side,
        notes=notes_of(options),
    )


def outages_of(options: Options, hosts: tuple[Host, ...], duration: int) -> tuple[Outage, ...]:
    """The outages, each within the run and of a group that there is."""
    given: list[Given[Outage]] = options.all("crash")
    options.only_with("back", bool(given), "--crash")
    if given and options.has("churn-uniform"):
        options.refuse("crash", "not with --churn-uniform, whose lives the program draws: give --lifetime and --down")
    names = {host.group for host in hosts}
    for outage in given:
        if not 0 < outage.value.at_us < duration:
            wanted = f"a time of 1us to {time_text(duration - 1)} (below --duration)"
            options.refuse("crash", f"{wanted}, not {outage.text!r}")
        if outage.value.group is not None and outage.value.group not in names:
            there = ", ".join(sorted(names - {""})) or "none: name some by --group"
            options.refuse("crash", f"no group {outage.value.group!r}; the groups are {there}")
    return tuple(outage.value for outage in given)


def bootstraps_of(options: Options, profile: int, nodes: int) -> int:
    """How many nodes are bootstrap nodes."""
    options.only_with("bootstrap", profile == 4, "--profile 4")
    count = options.whole("bootstrap", 0, 0, nodes, " (at most --nodes)")
    options.only_with("create-alone", count > 0, "--bootstrap, whose nodes alone make rings")
    return count


def are_classed(options: Options, profile: int, nodes: int) -> bool:
    """Whether nodes that are alike have one table. Then no file names them, and no law gives them heights or places.

    But they may be in a square in which the program draws their places."""
    options.only_with("classes", profile == 4, "--profile 4")
    if not options.has("classes") and nodes <= MOST_TABLES:
        return False
    if options.has("churn-trace"):
        options.refuse("churn-trace", "not with --classes, whose nodes have names of their classes")
    law: Law | None = options.get("coordinates", None)
    if law is not None and not isinstance(law, RegionsFile) and square_of_classes(options) is None:
        when = f"with --classes, and above {MOST_TABLES} nodes,"
        options.refuse("coordinates", f"{when} regions:NAME or square:SIDE:HEIGHT, since a class has one height")
    return True


def square_of_classes(options: Options) -> Square | None:
    """The square of the nodes of classes, if they are in one."""
    law: Law | None = options.get("coordinates", None)
    return law if isinstance(law, Square) and law.has_one_height else None


def notes_of(options: Options) -> tuple[str, ...]:
    """How far the coordinates of regions are from their latencies."""
    law: Law | None = options.get("coordinates", None)
    return (f"{placed(read_regions(law.name)).told}.",) if isinstance(law, RegionsFile) else ()


def is_stationary(options: Options) -> bool:
    """Whether the churn starts in equilibrium, if there is one."""
    if not options.has("stationary"):
        return False
    for name in ("initial", "arrive"):
        if options.has(name):
            options.refuse(name, "not with --stationary, which draws who is up at the start")
    check_means(options)
    return True


def check_means(options: Options) -> None:
    """Refuses laws that have no mean."""
    laws: list[tuple[str, Distribution | None]] = [(name, options.get(name, None)) for name in ("lifetime", "down")]
    laws += [("group", law) for group in groups_of(options) for law in (group.lifetime, group.down)]
    for name, law in laws:
        if law is not None and mean_of(law) is None:
            options.refuse(name, "with --stationary ALPHA is above 1: a law without a mean has no equilibrium")


def coordinates_of(options: Options, hosts: tuple[Host, ...]) -> tuple[Coordinates, ...]:
    """The coordinates of the nodes, if they have any."""
    law: Law | None = options.get("coordinates", None)
    return () if law is None else places_of(law, options.get("seed", 1), [host.name for host in hosts])


def check_companions(options: Options, some_join: bool) -> None:
    """Refuses options that exclude each other or would change nothing."""
    if options.has("churn-uniform") and has_lives(options):
        name = "lifetime" if options.has("lifetime") else "group"
        options.refuse(name, "not with --churn-uniform, which is the other form of churn")
    options.only_with("down", has_lives(options), "--lifetime")
    options.only_with("stationary", has_lives(options), "--lifetime, whose times are drawn here")
    options.only_with("stay", churns(options), "--churn-uniform or --lifetime")
    others = any(options.has(name) for name in ("crash", "arrivals", "churn-trace", "group"))
    options.only_with("via", has_lives(options) or some_join or others, "--lifetime or an --initial below --nodes")
    options.only_with("arrive", some_join, "an --initial below --nodes")
    options.only_with("keys", options.has("lookups"), "--lookups")


def churns(options: Options) -> bool:
    """Whether nodes churn, by themselves or by commands."""
    return options.has("churn-uniform") or has_lives(options)


def stay_of(options: Options, nodes: int) -> int:
    """How many nodes do not churn."""
    if not churns(options):
        return nodes
    return options.whole("stay", min(2, nodes - 1), 0, nodes - 1, " (below --nodes)")


def leaves_of(options: Options, profile: int) -> int:
    """Of a million lives how many end with a leave."""
    options.only_with("leaves", profile == 4, "--profile 4")
    is_churning = churns(options) or options.has("churn-trace")
    options.only_with("leaves", is_churning, "--churn-uniform, --lifetime or --churn-trace")
    return options.get("leaves", 0)


def churn_of(spans: list[Given[Span]] | None, leaves: int) -> Churn | None:
    """The table [churn], from two spans and a number of leaves."""
    if spans is None:
        return None
    life, down = spans
    return Churn(*life.value, *down.value, leaves)


def arrive_of(options: Options, duration: int) -> Span:
    """The span in which the nodes that are not initial join."""
    given: Given[Span] | None = options.given("arrive")
    if given is not None and given.value[1] >= duration:
        wanted = f"MIN..MAX, each 0us to {time_text(duration - 1)} (below --duration)"
        options.refuse("arrive", f"{wanted}, not {given.text!r}")
    return (0, duration // 2) if given is None else given.value
