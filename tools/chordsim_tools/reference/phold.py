"""PHOLD, the benchmark of parallel discrete-event simulation, computed one event at a time.

It follows docs/kernel.md and shares no code with the program `phold`.
"""

import heapq
from collections.abc import Iterable, Iterator
from dataclasses import dataclass

from chordsim_tools.reference.chacha import Stream

MILLION = 1_000_000

# A time, a node and a receiver.
Hop = tuple[int, int, int]


@dataclass(frozen=True)
class Settings:
    """What a run of PHOLD is. Times are in microseconds."""

    nodes: int = 1024
    jobs: int = 1
    remote: int = 500_000
    lookahead: int = 1000
    mean: int = 9000
    seed: int = 1
    duration: int = 1_000_000


def draw(settings: Settings, node: int, number: int) -> tuple[int, int]:
    """The delay of the event of this number that a node makes, and its receiver."""
    stream = Stream(settings.seed, node)
    high, low, other_high, other_low = (stream.word(4 * number + place) for place in range(4))
    beyond = (high << 32 | low) * (2 * settings.mean + 1) >> 64
    others = settings.nodes - 1
    way = (other_high << 32 | other_low) * (MILLION * others) >> 64
    receiver = (node + 1 + way % others) % settings.nodes if way // others < settings.remote else node
    return settings.lookahead + beyond, receiver


def run(settings: Settings) -> Iterator[Hop]:
    """The hops of a run, each a time, a node and a receiver, in the order of the trace."""
    made = [settings.jobs] * settings.nodes
    pending = [
        (draw(settings, node, number)[0], 2 + node, number, node)
        for node in range(settings.nodes)
        for number in range(1, settings.jobs + 1)
    ]
    heapq.heapify(pending)
    while pending[0][0] < settings.duration:
        time, _, _, node = heapq.heappop(pending)
        made[node] += 1
        delay, receiver = draw(settings, node, made[node])
        heapq.heappush(pending, (time + delay, 2 + node, made[node], receiver))
        yield time, node, receiver


def report(hops: Iterable[Hop]) -> str:
    """The lines of the report."""
    hops = list(hops)
    remote = sum(node != receiver for _, node, receiver in hops)
    return f"events {len(hops)}\nremote {remote}\ntime-sum {sum(time for time, _, _ in hops)}\n"
