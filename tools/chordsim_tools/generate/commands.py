"""The commands that tools/generate draws: crashes, leaves, joins and lookups."""

from bisect import bisect_left, bisect_right
from collections.abc import Iterable, Iterator
from decimal import Decimal
from itertools import islice, takewhile
from typing import NamedTuple

from chordsim_tools.cli import Failure, Progress
from chordsim_tools.draws import TWENTY_DIGITS, Draws, Keys, Split
from chordsim_tools.generate.equilibrium import is_up, rest_of
from chordsim_tools.generate.hosts import Host
from chordsim_tools.generate.outages import Life
from chordsim_tools.generate.plan import Plan

GREATEST_COUNT = 100_000
CRASH, LEAVE, JOIN, LOOKUP = range(4)
"""What commands do, in the order in which commands of one time stand in the file."""
STREAM = 10
"""Which stream of a seed says whether a life ends with a leave."""


class Command(NamedTuple):
    """A command, with its node by number, and the node to join through or the key."""

    at_us: int
    do: int
    node: int
    rest: int = 0


class Streams:
    """The streams of random numbers that a seed gives, each for one purpose: what one draws changes no other."""

    def __init__(self, seed: int, nodes: int) -> None:
        """The streams of this seed. Those of a node are the same whatever other nodes there are."""
        self.idents, arrive, churn, self.via, self.keys, lookups = Draws(seed).split(6)
        self.arrive = Split(arrive, nodes)
        self.churn = Split(churn, nodes)
        self.lookups = Split(lookups, nodes)
        self.leaves = Split(Draws(seed).split(STREAM)[-1], nodes)


def commands_of(plan: Plan, lives: list[list[Life]], streams: Streams) -> list[Command]:
    """All commands of a plan with these lives, in the order of the file."""
    check_initial(plan, lives)
    commands = moves_of(plan, lives, streams.via)
    if plan.rate is not None:
        commands += drawn_lookups(plan, plan.rate, lives, streams, GREATEST_COUNT - len(commands))
    return sorted(commands)


def lives_of(plan: Plan, streams: Streams) -> list[list[Life]]:
    """For each node the times in which it is up, as far as commands say: a node that churns by itself stays up."""
    lives: list[list[Life]] = []
    room = GREATEST_COUNT
    with Progress("nodes whose lives are drawn", plan.nodes) as progress:
        for node in range(plan.nodes):
            spans = lives_of_node(plan, node, streams, room)
            lives.append(spans if plan.leaves == 0 else with_leaves(spans, plan.leaves, streams.leaves[node]))
            room -= len(lives[-1])
            progress.one_more()
    return lives


def lives_of_node(plan: Plan, node: int, streams: Streams, most: int) -> list[Life]:
    """The lives of one node, which are at most so many."""
    host, duration = plan.hosts[node], plan.top["duration_us"]
    if host.sessions is not None:
        return [Life(begin, min(end, duration)) for begin, end in host.sessions if begin < duration]
    if host.arrives is not None:
        life = duration if host.lifetime is None else host.lifetime.draw(streams.churn[node])
        return [Life(host.arrives, min(host.arrives + life, duration))]
    if plan.stationary and host.lifetime is not None and node >= plan.stay:
        return lives_in_equilibrium(host, duration, streams.churn[node], most)
    begin = 0 if node < plan.initial else streams.arrive[node].between(*plan.arrive)
    if host.lifetime is not None and node >= plan.stay:
        return drawn_lives(host, duration, begin, streams.churn[node], most)
    return [Life(begin, duration)]


def drawn_lives(host: Host, duration: int, begin: int, draws: Draws, most: int) -> list[Life]:
    """The lives of a node that goes and comes up by commands."""
    assert host.lifetime is not None
    lives: list[Life] = []
    while begin < duration:
        if len(lives) == most:
            raise too_many("--lifetime")
        end = begin + host.lifetime.draw(draws)
        lives.append(Life(begin, min(end, duration)))
        begin = end + host.down.draw(draws)
    return lives


def lives_in_equilibrium(host: Host, duration: int, draws: Draws, most: int) -> list[Life]:
    """The same for a node whose life or down time is under way at the start. Only a life that is so begins at 0."""
    assert host.lifetime is not None
    if not is_up(host.lifetime, host.down, draws):
        return drawn_lives(host, duration, rest_of(host.down, draws), draws, most)
    end = rest_of(host.lifetime, draws)
    first = Life(0, min(end, duration))
    return [first, *drawn_lives(host, duration, end + host.down.draw(draws), draws, most)]


def with_leaves(lives: list[Life], leaves: int, draws: Draws) -> list[Life]:
    """The lives of a node, of a million of which so many end with a leave. A number is drawn for each life."""
    return [life._replace(leaves=draws.below(1_000_000) < leaves) for life in lives]


def initial_nodes(plan: Plan, lives: list[list[Life]]) -> set[int]:
    """The nodes that are members at the start."""
    if not plan.stationary and not plan.is_traced:
        return set(range(plan.initial))
    return {node for node, spans in enumerate(lives) if spans and spans[0].begin == 0}


def check_initial(plan: Plan, lives: list[list[Life]]) -> None:
    """Refuses a start with fewer members than the program takes, or with none."""
    count = len(initial_nodes(plan, lives))
    if plan.top["profile"] == 4:
        if count == 0:
            raise Failure(2, "--stationary: no node is up at the start; more --nodes, or more that --stay")
    elif count <= plan.top["list"]:
        least = plan.top["list"] + 1
        option, more = "--stationary", "more --nodes, more that --stay, or a shorter --list"
        if plan.is_traced:
            option, more = "--churn-trace", "a shorter --list needs fewer"
        raise Failure(2, f"{option}: {count} nodes are up at the start, and --list needs {least}; {more}")


def moves_of(plan: Plan, lives: list[list[Life]], draws: Draws) -> list[Command]:
    """The crashes, leaves and joins, in the order of their times."""
    moves: list[Command] = []
    initial = initial_nodes(plan, lives)
    for node, spans in enumerate(lives):
        ended = [life for life in spans if life.end < plan.top["duration_us"]]
        moves += [Command(life.end, LEAVE if life.leaves else CRASH, node) for life in ended]
        moves += [Command(life.begin, JOIN, node) for life in spans[1 if node in initial else 0 :]]
    if len(moves) > GREATEST_COUNT:
        raise too_many("--lifetime")
    doors = Doors(plan, draws, initial)
    return [doors.open(move) for move in sorted(moves)]


def too_many(option: str) -> Failure:
    """The refusal of arguments that ask for too many commands."""
    fewer = "a shorter --duration or fewer --nodes make fewer"
    return Failure(2, f"{option}: more than {GREATEST_COUNT} commands; {fewer}")


class Doors:
    """The nodes that others may join through, as time goes on.

    These are the nodes that are up by the commands; those that have been up for a timeout or from the start come
    first, since a node that is still joining itself replies to no one. Of nodes that churn by themselves nothing is
    known, so that they are no doors."""

    def __init__(self, plan: Plan, draws: Draws, initial: set[int]) -> None:
        """The doors at the start, which are among the initial nodes."""
        self.plan = plan
        self.draws = draws
        self.settled: list[int] = []
        # Numbers that rise, one for each of the settled, by which a node is found among them.
        self.serials: list[int] = []
        self.serial_of: dict[int, int] = {}
        self.admit(node for node in sorted(initial) if self.is_known(node))
        self.fresh: dict[int, int] = {}

    def is_known(self, node: int) -> bool:
        """Whether commands alone say when the node is up."""
        return self.plan.churn is None or node < self.plan.stay

    def open(self, move: Command) -> Command:
        """The command with its door, if it is a join; and what it changes of the doors."""
        self.settle(move.at_us - self.plan.top["timeout_us"])
        if move.do != JOIN:
            self.close(move.node)
            return move
        door = self.choose(move.node)
        if self.is_known(move.node):
            self.fresh[move.node] = move.at_us
        return move._replace(rest=door)

    def close(self, node: int) -> None:
        """A node that goes is no door."""
        if node in self.serial_of:
            place = bisect_left(self.serials, self.serial_of.pop(node))
            del self.settled[place], self.serials[place]
        self.fresh.pop(node, None)

    def settle(self, since: int) -> None:
        """Those that have joined by this time are taken for members."""
        old = list(takewhile(lambda node: self.fresh[node] <= since, self.fresh))
        for node in old:
            del self.fresh[node]
        self.admit(old)

    def admit(self, nodes: Iterable[int]) -> None:
        """These nodes are settled from now on."""
        for serial, node in enumerate(nodes, self.serials[-1] + 1 if self.serials else 0):
            self.settled.append(node)
            self.serials.append(serial)
            self.serial_of[node] = serial

    def choose(self, node: int) -> int:
        """The door for a node: the first other node of the file, if none is to be drawn or none is up."""
        doors = self.settled or list(self.fresh)
        if self.plan.via == "first" or not doors:
            return 0 if node != 0 else 1
        return doors[self.draws.below(len(doors))]


def drawn_lookups(
    plan: Plan, rate: Decimal, lives: list[list[Life]], streams: Streams, most: int
) -> list[Command]:
    """The lookups of all nodes, each while it is up. They are drawn for the whole run, so that churn moves none."""
    seconds = Decimal(plan.top["duration_us"]) / 1_000_000
    if rate * plan.nodes * seconds > 10 * GREATEST_COUNT:
        raise too_many("--lookups")
    keys = Keys(plan.top["bits"], plan.keys, streams.keys)
    lookups: list[Command] = []
    with Progress("nodes whose lookups are drawn", plan.nodes) as progress:
        for node, spans in enumerate(lives):
            drawn = lookups_of_node(plan, rate, keys, streams.lookups[node])
            lookups += islice(lookups_while_up(drawn, node, spans), most + 1 - len(lookups))
            if len(lookups) > most:
                raise too_many("--lookups")
            progress.one_more()
    return lookups


def lookups_while_up(drawn: Iterable[tuple[int, int]], node: int, lives: list[Life]) -> Iterator[Command]:
    """Those of the lookups that are drawn for a node that begin while it is up."""
    begins = [life.begin for life in lives]
    for at_us, key in drawn:
        place = bisect_right(begins, at_us) - 1
        if place >= 0 and at_us < lives[place].end:
            yield Command(at_us, LOOKUP, node, key)


def lookups_of_node(plan: Plan, rate: Decimal, keys: Keys, draws: Draws) -> Iterator[tuple[int, int]]:
    """Times and keys of a Poisson process."""
    gap = TWENTY_DIGITS.divide(Decimal(1_000_000), rate)
    time = TWENTY_DIGITS.multiply(gap, draws.waiting())
    while time < plan.top["duration_us"]:
        yield int(time), keys.draw(draws)
        time = TWENTY_DIGITS.add(time, TWENTY_DIGITS.multiply(gap, draws.waiting()))
