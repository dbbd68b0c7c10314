"""The run (docs/rules.md, sections 4, 7, 10 and 12)."""

import heapq
from bisect import bisect_left
from collections import Counter
from collections.abc import Iterator

from chordsim_tools.cli import Failure
from chordsim_tools.known import known
from chordsim_tools.reference.audits import audit_line, audit_times
from chordsim_tools.reference.procedures import Procedures
from chordsim_tools.reference.rules import act
from chordsim_tools.reference.state import KINDS, Body, CmdCrash, CmdJoin, CmdLeave, CmdLookup, Event, Node, Status
from chordsim_tools.reference.turn import World
from chordsim_tools.scenario.reading import Command, Scenario


class TooManyEvents(Failure):
    """The run has more than max_events events. The text is that of docs/formats.md."""

    def __init__(self) -> None:
        """Status 3."""
        super().__init__(3, "3 TooManyEvents")


class Simulation:
    """A run of a scenario. `lines` runs it; `events` and `messages` are whole when `lines` has come to its end.

    `messages` counts by kind those that were made and not lost.
    """

    def __init__(self, scenario: Scenario) -> None:
        """The start (section 7)."""
        self.scenario = scenario
        self.world = World(scenario)
        self.nodes = initial_states(self.world)
        self.pending: list[Event] = []
        self.events = 0
        self.messages: Counter[str] = Counter()
        for place, command in enumerate(scenario.commands, start=1):
            heapq.heappush(self.pending, Event(command.at_us, 1, place, command.node, body_of(command)))
        self.arm_members()

    def arm_members(self) -> None:
        """Arms the timers of the initial nodes."""
        for node in (one for one in self.nodes if one.status == Status.MEMBER):
            procedures = Procedures(self.world, node, 0)
            procedures.arm()
            procedures.draw_next_finger()
            self.add(procedures.events)

    def add(self, events: list[Event]) -> None:
        """Makes events pending."""
        for event in events:
            heapq.heappush(self.pending, event)
            if type(event.body) in KINDS:
                self.messages[KINDS[type(event.body)]] += 1

    def lines(self) -> Iterator[str]:
        """Runs to the end, and gives the lines of the trace. An audit's line stands ahead of all lines of its time."""
        for time in audit_times(self.scenario.audit_us, self.scenario.duration_us):
            yield from self.lines_before(time)
            yield audit_line(self.world, self.nodes, time)

    def lines_before(self, time: int) -> Iterator[str]:
        """Runs to a time, and gives the lines before it."""
        while self.pending and self.pending[0].time < time:
            yield from self.take(heapq.heappop(self.pending))

    def take(self, event: Event) -> list[str]:
        """Takes an event: its target acts on it. Gives its lines."""
        if self.events == self.scenario.max_events:
            raise TooManyEvents
        self.events += 1
        events, lines = act(self.world, self.nodes[event.target], event)
        self.add(events)
        return lines


def body_of(command: Command) -> Body:
    """The body of a command's event."""
    match command.do:
        case "join":
            return CmdJoin(known(command.via))
        case "crash":
            return CmdCrash()
        case "leave":
            return CmdLeave()
        case _:
            return CmdLookup(known(command.key))


def initial_states(world: World) -> list[Node]:
    """The states of all nodes at the start: initial nodes know the whole ring, all others are Down."""
    nodes = [Node(i) for i in range(len(world.names))]
    initial = [i for i, node in enumerate(world.scenario.nodes) if node.initial]
    node_at = {world.idents[i]: i for i in initial}
    places = sorted(node_at)
    doors = [*world.bootstraps, *initial]
    for i in initial:
        make_initial(world, nodes[i], node_at, places)
        nodes[i].via = next((x for x in doors if x != i), i)
    return nodes


def make_initial(world: World, node: Node, node_at: dict[int, int], places: list[int]) -> None:
    """Makes the node a Member with epoch 1 that knows the whole ring: the initial nodes at all these places."""
    circle = world.circle
    me = world.idents[node.me]
    here = bisect_left(places, me)
    node.status = Status.MEMBER
    node.epoch = 1
    node.prdc = node_at[places[here - 1]]
    others = min(world.scenario.list, max(1, len(places) - 1))
    node.succ = [node_at[places[(here + i) % len(places)]] for i in range(1, others + 1)]
    for i in range(2, circle.bits + 1):
        node.fingers[i] = node_at[circle.first_from(circle.finger_start(me, i), places)]
    node.next_finger = 2
