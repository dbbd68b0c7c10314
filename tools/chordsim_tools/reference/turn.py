"""A turn: what a node may do at an event, apart from the rules (docs/rules.md, sections 3 to 5 and 8.1 to 8.3)."""

from chordsim_tools.known import known
from chordsim_tools.reference.chacha import Stream, scaled
from chordsim_tools.reference.circle import Circle
from chordsim_tools.reference.state import (
    KINDS, REQUEST_OF, Body, Call, CheckTick, Drawn, Event, FingerTick, Leave, LifeEnd, ListReply, Lookup, Message,
    Node, Notify, Pong, Purpose, StabilizeTick, StateReply, StepReply, Timeout, TrafficTick,
)
from chordsim_tools.scenario.reading import Scenario

LOOKUP_STEPS = 112
STEPS_A_TIMEOUT = 2


class World:
    """What does not change in a run: the scenario, the circle, and the random streams of each node."""

    def __init__(self, scenario: Scenario) -> None:
        """The world of a scenario."""
        self.scenario = scenario
        self.circle = Circle(scenario.bits)
        self.idents = [node.ident for node in scenario.nodes]
        self.names = [node.name for node in scenario.nodes]
        self.streams = [Stream(scenario.seed, i) for i in range(len(scenario.nodes))]
        self.own_streams: dict[int, Stream] = {}
        self.bootstraps = [i for i, node in enumerate(scenario.nodes) if node.bootstrap]
        self.lookup_steps = LOOKUP_STEPS + STEPS_A_TIMEOUT * scenario.ways.lookup_timeouts

    def own_stream(self, node: int, what: Drawn) -> Stream:
        """The stream from which a node draws this in the extended profile."""
        number = what.stream(node)
        if number not in self.own_streams:
            self.own_streams[number] = Stream(self.scenario.seed, number)
        return self.own_streams[number]

    def latency(self, a: int, b: int) -> int:
        """How long a message from node a to node b takes, without the spread."""
        return self.scenario.latency(a, b)

    def between(self, a: int, x: int, b: int) -> bool:
        """Whether node x lies between the nodes a and b."""
        return self.circle.between(self.idents[a], self.idents[x], self.idents[b])


class Turn:
    """Node n acts at the time t: the events it makes and the lines it writes, in the order made."""

    def __init__(self, world: World, node: Node, time: int) -> None:
        """A turn of this node at this time."""
        self.world = world
        self.ways = world.scenario.ways
        self.n = node
        self.t = time
        self.events: list[Event] = []
        self.lines: list[str] = []

    # Lines, events and draws.

    def line(self, text: str) -> None:
        """A line of the trace."""
        self.lines.append(f"{self.t} {self.world.names[self.n.me]} {text}")

    def name(self, node: int) -> str:
        """The name of a node."""
        return self.world.names[node]

    def make(self, time: int, target: int, body: Body) -> None:
        """Makes an event: its number is one more than the number of events made, and messages lost, before."""
        self.n.count += 1
        self.events.append(Event(time, 2 + self.n.me, self.n.count, target, body))

    def set_timer(self, delay: int, body: Body) -> None:
        """Makes a timer: an event for the node itself."""
        self.make(self.t + delay, self.n.me, body)

    def send(self, to: int, body: Message) -> None:
        """Makes a message. After the first profile one to another node may be lost, and comes later by a spread."""
        scenario = self.world.scenario
        time = self.t + self.world.latency(self.n.me, to)
        if scenario.profile == 1 or to == self.n.me:
            self.make(time, to, body)
            return
        x, e = self.numbers_below(Drawn.MESSAGE, self.n.count + 1, 1_000_000, scenario.spread_us + 1)
        if x < scenario.loss_ppm:
            self.lose(to, body)
        else:
            self.make(time + e, to, body)

    def lose(self, to: int, body: Message) -> None:
        """A message is lost: no event is made, and the number that it would have had is used up."""
        self.n.count += 1
        self.line(f"lose {KINDS[type(body)]} {self.name(to)}")

    def words(self, what: Drawn, occasion: int, count: int) -> list[int]:
        """The words of a draw: the next ones of the node's stream; in the extended profile four of the draw's own.

        The place moves on by the count in each profile.
        """
        place = self.n.place
        self.n.place += count
        if self.world.scenario.profile == 4:
            stream = self.world.own_stream(self.n.me, what)
            return [stream.word(4 * occasion + i) for i in range(4)]
        return [self.world.streams[self.n.me].word(place + i) for i in range(count)]

    def numbers_below(self, what: Drawn, occasion: int, *bounds: int) -> list[int]:
        """A number below each bound: of one word each, modulo the bound; in the extended profile of two words each."""
        words = self.words(what, occasion, len(bounds))
        if self.world.scenario.profile == 4:
            return list(scaled(words, *bounds)[: len(bounds)])
        return [word % n for word, n in zip(words, bounds)]

    def time_from_span(self, least: int, greatest: int, what: Drawn, occasion: int) -> int:
        """A time drawn from a span: the least plus a number below (greatest - least + 1)."""
        [number] = self.numbers_below(what, occasion, greatest - least + 1)
        return least + number

    def random_key(self) -> int:
        """A random key: the m low bits of the number that as many words as m bits need write, the highest one first."""
        bits = self.world.circle.bits
        count = (bits + 31) // 32
        number = 0
        for word in self.words(Drawn.KEY, self.t, count)[:count]:
            number = number * 2**32 + word
        return number % (1 << bits)

    # 8.1 Call

    def call(self, request: type, p: int, purpose: Purpose, *rest: object) -> Call:
        """Calls a request to p for a purpose; gives the call, whose number is that of the request, lost or not."""
        number = self.n.count + 1
        self.send(p, request(number, *rest))
        self.set_timer(self.world.scenario.timeout_us, Timeout(number))
        self.n.calls[number] = Call(number, p, purpose)
        return self.n.calls[number]

    def send_again(self, call: Call) -> None:
        """Sends a call again: the request is made of what the node knows, and the call moves to the end."""
        request = REQUEST_OF[call.purpose]
        self.line(f"again {KINDS[request]} {self.name(call.asked)}")
        rest: list[object] = []
        if call.purpose == Purpose.LOOKUP:
            lookup = self.lookup_of(call)
            rest = [lookup.key, list(lookup.avoid)]
        elif call.purpose == Purpose.JOIN_STEP:
            rest = [self.world.idents[self.n.me], list(known(self.n.join).avoid)]
        self.send(call.asked, request(call.number, *rest))
        self.set_timer(self.world.scenario.timeout_us, Timeout(call.number))
        del self.n.calls[call.number]
        self.n.calls[call.number] = call
        call.again += 1

    def lookup_of(self, call: Call) -> Lookup:
        """The lookup that waits for this call."""
        return next(lookup for lookup in self.n.lookups if lookup.call == call.number)

    # 8.2 Telling of messages

    def tell(self) -> None:
        """Tells of the messages that the event made, if `detail = true`: of each request, reply, notify and leave.

        The line of a request is that of its Timeout."""
        if not self.world.scenario.detail:
            return
        for event in self.events:
            if isinstance(event.body, Timeout):
                self.tell_of_request(self.n.calls[event.body.call])
            elif isinstance(event.body, (StepReply, StateReply, ListReply, Pong, Notify, Leave)):
                self.line(f"send {KINDS[type(event.body)]} {self.name(event.target)}")

    def tell_of_request(self, call: Call) -> None:
        """The line of a request, lost or not; if a lookup waits for the call, with its key and its start."""
        rest = ""
        if call.purpose in (Purpose.LOOKUP, Purpose.OWNER):
            lookup = self.lookup_of(call)
            rest = f" key={lookup.key} since={lookup.started}"
        self.line(f"ask {KINDS[REQUEST_OF[call.purpose]]} {self.name(call.asked)} call={call.number}{rest}")

    # 8.3 Arm and re-arm

    def arm(self) -> None:
        """Sets the timers of a node, in this order."""
        is_first = self.ways.random_start
        self.arm_stabilize(is_first)
        self.arm_finger(is_first)
        if self.world.scenario.lookups is not None:
            self.arm_traffic(is_first)
        if self.is_churn():
            self.arm_life()
        if self.world.scenario.check_us > 0:
            self.arm_check(is_first)

    def arm_stabilize(self, is_first: bool = False) -> None:
        """Sets StabilizeTick, always. If `is_first`, at any time of the first period."""
        s = self.world.scenario
        least, greatest = 1 if is_first else s.stabilize_us, s.stabilize_us + s.jitters.stabilize_us
        self.set_timer(self.time_from_span(least, greatest, Drawn.STABILIZE_TICK, self.t), StabilizeTick(self.n.epoch))

    def arm_finger(self, is_first: bool = False) -> None:
        """Sets FingerTick, always."""
        s = self.world.scenario
        least, greatest = 1 if is_first else s.finger_us, s.finger_us + s.jitters.finger_us
        self.set_timer(self.time_from_span(least, greatest, Drawn.FINGER_TICK, self.t), FingerTick(self.n.epoch))

    def arm_traffic(self, is_first: bool = False) -> None:
        """Sets TrafficTick, if the scenario has [lookups]."""
        lookups = known(self.world.scenario.lookups)
        least = 1 if is_first else lookups.gap_min_us
        delay = self.time_from_span(least, lookups.gap_max_us, Drawn.TRAFFIC_TICK, self.t)
        self.set_timer(delay, TrafficTick(self.n.epoch))

    def arm_life(self) -> None:
        """Sets LifeEnd, if the node has churn = true."""
        churn = known(self.world.scenario.churn)
        delay = self.time_from_span(churn.life_min_us, churn.life_max_us, Drawn.LIFE_END, self.n.epoch)
        self.set_timer(delay, LifeEnd(self.n.epoch))

    def arm_check(self, is_first: bool = False) -> None:
        """Sets CheckTick, if check_us is above 0."""
        s = self.world.scenario
        least, greatest = 1 if is_first else s.check_us, s.check_us + s.jitters.check_us
        self.set_timer(self.time_from_span(least, greatest, Drawn.CHECK_TICK, self.t), CheckTick(self.n.epoch))

    def is_churn(self) -> bool:
        """Whether the node has churn = true."""
        return self.world.scenario.nodes[self.n.me].churn
