#!/usr/bin/python3
"""Chord by SimPy 2 (Debian's python3-simpy): a process for each message and timeout, and one for each timer.

    chord_simpy.py NODES SECONDS

Rules, draws and report are those of chord_node.hpp, which says what is not here. Times are in microseconds.
"""

import resource
import sys
import time
from bisect import bisect_left
from collections.abc import Callable, Iterator
from dataclasses import dataclass
from enum import Enum, auto
from typing import Any, NamedTuple

from SimPy.Simulation import Process, Simulation, hold

LATENCY = 10_000
TIMEOUT = 100_000
FINGERS = 32
LIST_ENTRIES = 4
MASK = 2**32 - 1
WORD_MASK = 2**64 - 1


class Timer(Enum):
    """A timer of a node. Its value is the least and the greatest time between two ticks, and a name to tell it by."""

    STABILIZE = (900_000, 1_100_000, "stabilize")
    FINGER = (900_000, 1_100_000, "finger")
    TRAFFIC = (250_000, 750_000, "traffic")


class Kind(Enum):
    """The kind of a message."""

    STEP = auto()
    STEP_REPLY = auto()
    GET_STATE = auto()
    STATE_REPLY = auto()
    GET_LIST = auto()
    LIST_REPLY = auto()
    NOTIFY = auto()


class Answer(NamedTuple):
    """The owner of a key, or the node to ask next."""

    is_owner: bool
    node: int


class Message(NamedTuple):
    """A message. `content` is the key of a Step, or what a reply says."""

    kind: Kind
    sender: int
    call: int = 0
    content: Any = None


@dataclass(slots=True)
class Lookup:
    """A lookup of a key. A user's refreshes no finger."""

    key: int
    finger: int | None = None
    hops: int = 0


@dataclass(slots=True)
class Counts:
    """What is counted over a run."""

    messages: int = 0
    timers: int = 0
    timeouts: int = 0
    found: int = 0
    hops: int = 0


class Event(Process):
    """Something that happens once."""

    def happen(self, act: Callable[[Any], None], argument: Any) -> Iterator[None]:
        """Calls a function. This is a generator that yields nothing, since SimPy takes only generators."""
        act(argument)
        yield from ()


class Ticks(Process):
    """The ticks of a timer."""

    def come(self, node: "Node", timer: Timer) -> Iterator[tuple[Any, ...]]:
        """One tick, and then all others."""
        while True:
            delay = node.delay(timer)
            node.tick(timer)
            yield hold, self, delay


def between(a: int, x: int, b: int) -> bool:
    """Whether x lies clockwise between a and b and is neither. If a is b, this is the whole circle without a."""
    return (x - a - 1) & MASK < (b - a - 1) & MASK


def in_half_open(a: int, x: int, b: int) -> bool:
    """Whether x is b or lies between a and b."""
    return x == b or between(a, x, b)


def mixed(number: int) -> int:
    """The number with its bits mixed. Different numbers give different results. (It is the end of MurmurHash3.)"""
    number = (number ^ number >> 16) * 0x85EBCA6B & MASK
    number = (number ^ number >> 13) * 0xC2B2AE35 & MASK
    return number ^ number >> 16


class Ring:
    """All nodes, what they share, and the simulation that they are in."""

    def __init__(self, nodes: int) -> None:
        """A ring whose nodes know each other."""
        self.simulation = Simulation()
        self.simulation.initialize()
        self.counts = Counts()
        self.identifiers = [mixed(node + 1) for node in range(nodes)]
        self.order = sorted(range(nodes), key=self.identifiers.__getitem__)
        self.sorted_identifiers = sorted(self.identifiers)
        self.nodes = [Node(self, node) for node in range(nodes)]

    def first_from(self, place: int) -> int:
        """The first node at or after a place on the circle."""
        return self.order[bisect_left(self.sorted_identifiers, place & MASK) % len(self.order)]

    def neighbour(self, node: int, steps: int) -> int:
        """The node that is a number of steps after this one."""
        place = bisect_left(self.sorted_identifiers, self.identifiers[node])
        return self.order[(place + steps) % len(self.order)]

    def after(self, delay: int, act: Callable[[Any], None], argument: Any) -> None:
        """Calls a function after a delay."""
        event = Event(sim=self.simulation)
        self.simulation.activate(event, event.happen(act, argument), delay=delay)

    def post(self, receiver: int, message: Message) -> None:
        """Sends a message."""
        self.after(LATENCY, self.nodes[receiver].receive, message)

    def set_timers(self) -> None:
        """Sets the timers of all nodes."""
        for node in self.nodes:
            for timer in Timer:
                ticks = Ticks(sim=self.simulation)
                self.simulation.activate(ticks, ticks.come(node, timer), delay=node.first_delay(timer))

    def run(self, duration: int) -> None:
        """Takes all events before the end of the run."""
        self.simulation.simulate(until=duration - 1)


class Node:
    """A node of the ring."""

    __slots__ = (
        "calls", "counts", "fingers", "identifier", "last_call", "me", "next_finger", "predecessor", "random", "ring",
        "successors",
    )

    def __init__(self, ring: Ring, me: int) -> None:
        """The node of this number, which knows the others."""
        self.ring = ring
        self.counts = ring.counts
        self.me = me
        self.identifier = ring.identifiers[me]
        self.random = 0x9E3779B97F4A7C15 * (me + 1) & WORD_MASK
        self.predecessor = ring.neighbour(me, -1)
        self.successors = tuple(ring.neighbour(me, 1 + entry) for entry in range(LIST_ENTRIES))
        # The first one is the first successor, and is not refreshed.
        self.fingers = [ring.first_from(self.start(finger)) for finger in range(FINGERS)]
        self.next_finger = self.drawn(1, FINGERS - 1)
        self.last_call = 0
        self.calls: dict[int, Lookup | None] = {}

    def start(self, finger: int) -> int:
        """Where a finger starts."""
        return (self.identifier + (1 << finger)) & MASK

    def word(self) -> int:
        """The next word of xorshift64."""
        self.random ^= self.random << 13 & WORD_MASK
        self.random ^= self.random >> 7
        self.random ^= self.random << 17 & WORD_MASK
        return self.random

    def drawn(self, least: int, greatest: int) -> int:
        """A number of a span, both ends included."""
        return least + self.word() % (greatest - least + 1)

    def first_delay(self, timer: Timer) -> int:
        """When the first tick comes."""
        return self.drawn(1, timer.value[1])

    def delay(self, timer: Timer) -> int:
        """The time until the next tick."""
        least, greatest, _ = timer.value
        return self.drawn(least, greatest)

    def tick(self, timer: Timer) -> None:
        """Acts on a timer."""
        self.counts.timers += 1
        if timer is Timer.STABILIZE:
            self.call(self.successors[0], Kind.GET_STATE)
        elif timer is Timer.FINGER:
            self.refresh_finger()
        else:
            self.look_up(Lookup(self.word() & MASK))

    def receive(self, message: Message) -> None:
        """Acts on a message."""
        self.counts.messages += 1
        RULES[message.kind](self, message)

    def time_out(self, call: int) -> None:
        """Acts on a timeout. The reply has come before, so there is no such call any more."""
        self.counts.timeouts += 1
        self.calls.pop(call, None)

    def call(self, receiver: int, kind: Kind, key: int | None = None, lookup: Lookup | None = None) -> None:
        """Sends a request, with its timeout. One of stabilization has no lookup."""
        self.last_call += 1
        self.calls[self.last_call] = lookup
        self.ring.post(receiver, Message(kind, self.me, self.last_call, key))
        self.ring.after(TIMEOUT, self.time_out, self.last_call)

    def reply(self, request: Message, kind: Kind, content: Any) -> None:
        """Replies to a request."""
        self.ring.post(request.sender, Message(kind, self.me, request.call, content))

    def step_answer(self, key: int) -> Answer:
        """What this node knows of the owner of a key."""
        head = self.successors[0]
        if in_half_open(self.identifier, key, self.ring.identifiers[head]):
            return Answer(True, head)
        return Answer(False, self.closest_preceding(key))

    def closest_preceding(self, key: int) -> int:
        """The last finger that precedes the key. Fingers are in order, so it is the closest."""
        identifiers = self.ring.identifiers
        for finger in reversed(self.fingers):
            if between(self.identifier, identifiers[finger], key):
                return finger
        return self.successors[0]

    def look_up(self, lookup: Lookup) -> None:
        """Begins a lookup."""
        self.follow(lookup, self.step_answer(lookup.key))

    def follow(self, lookup: Lookup, answer: Answer) -> None:
        """Goes on with a lookup as an answer says."""
        if answer.is_owner:
            self.finish(lookup, answer.node)
        else:
            self.call(answer.node, Kind.STEP, lookup.key, lookup)

    def finish(self, lookup: Lookup, owner: int) -> None:
        """Ends a lookup."""
        if lookup.finger is None:
            self.counts.found += 1
            self.counts.hops += lookup.hops
        else:
            self.fingers[lookup.finger] = owner

    def refresh_finger(self) -> None:
        """Looks up the next finger of the rotation."""
        finger = self.next_finger
        self.next_finger = finger + 1 if finger + 1 < FINGERS else 1
        self.look_up(Lookup(self.start(finger), finger))

    def reply_step(self, request: Message) -> None:
        """Acts on Step."""
        self.reply(request, Kind.STEP_REPLY, self.step_answer(request.content))

    def reply_state(self, request: Message) -> None:
        """Acts on GetState."""
        self.reply(request, Kind.STATE_REPLY, (self.predecessor, self.successors))

    def reply_list(self, request: Message) -> None:
        """Acts on GetList."""
        self.reply(request, Kind.LIST_REPLY, self.successors)

    def take_step(self, reply: Message) -> None:
        """Acts on StepReply."""
        lookup = self.calls.pop(reply.call, None)
        if lookup is not None:
            lookup.hops += 1
            self.follow(lookup, reply.content)

    def take_state(self, reply: Message) -> None:
        """Acts on StateReply."""
        if reply.call not in self.calls:
            return
        del self.calls[reply.call]
        predecessor, successors = reply.content
        self.renew_list(reply.sender, successors)
        identifiers = self.ring.identifiers
        if between(self.identifier, identifiers[predecessor], identifiers[reply.sender]):
            self.call(predecessor, Kind.GET_LIST)
        else:
            self.ring.post(self.successors[0], Message(Kind.NOTIFY, self.me))

    def take_list(self, reply: Message) -> None:
        """Acts on ListReply."""
        if reply.call not in self.calls:
            return
        del self.calls[reply.call]
        self.renew_list(reply.sender, reply.content)
        self.ring.post(self.successors[0], Message(Kind.NOTIFY, self.me))

    def renew_list(self, sender: int, successors: tuple[int, ...]) -> None:
        """Makes the list the sender and the first entries of its own list."""
        self.successors = (sender, *successors[: LIST_ENTRIES - 1])

    def take_notify(self, notify: Message) -> None:
        """Acts on Notify."""
        identifiers = self.ring.identifiers
        if between(identifiers[self.predecessor], identifiers[notify.sender], self.identifier):
            self.predecessor = notify.sender


RULES: dict[Kind, Callable[[Node, Message], None]] = {
    Kind.STEP: Node.reply_step,
    Kind.STEP_REPLY: Node.take_step,
    Kind.GET_STATE: Node.reply_state,
    Kind.STATE_REPLY: Node.take_state,
    Kind.GET_LIST: Node.reply_list,
    Kind.LIST_REPLY: Node.take_list,
    Kind.NOTIFY: Node.take_notify,
}


def report(ring: Ring, duration: int, start: float) -> str:
    """The lines of the report. `start` is what the start took, in processor seconds."""
    counts = ring.counts
    lines = {
        "nodes": len(ring.nodes),
        "simulated-seconds": f"{duration / 1e6:g}",
        "events": counts.messages + counts.timers + counts.timeouts,
        "messages": counts.messages,
        "timers": counts.timers,
        "timeouts": counts.timeouts,
        "found": counts.found,
        "mean-hops": f"{counts.hops / max(counts.found, 1):.4f}",
        "run-seconds": f"{time.process_time() - start:.3f}",
        "start-seconds": f"{start:.3f}",
        "memory-mb": f"{resource.getrusage(resource.RUSAGE_SELF).ru_maxrss / 1024:.1f}",
    }
    return "".join(f"{name} {value}\n" for name, value in lines.items())


def main() -> None:
    """Runs the ring that the arguments ask for."""
    nodes = int(sys.argv[1]) if len(sys.argv) > 1 else 512
    duration = round(float(sys.argv[2]) * 1e6) if len(sys.argv) > 2 else 20_000_000
    ring = Ring(nodes)
    ring.set_timers()
    start = time.process_time()
    ring.run(duration)
    sys.stdout.write(report(ring, duration, start))


if __name__ == "__main__":
    main()
