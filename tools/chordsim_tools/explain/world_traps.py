"""What a scenario means in time: how often a finger is refreshed; and traps of it, and of the churn."""

import math
from itertools import groupby
from typing import Any

from chordsim_tools.quantities import time_text
from chordsim_tools.scenario.classes import node_count
from chordsim_tools.scenario.defaults import is_extended, join_pause_us, joins_forever
from chordsim_tools.scenario.reading import jitters_of

RARE = 0.001
"""A share of the time that is no trap."""
GOES = ("crash", "leave")
"""The commands after which a node is down."""


def finger_period(top: dict[str, Any]) -> int:
    """The mean time between two refreshes of one finger, in half microseconds."""
    return 2 * int(top["finger_us"]) + jitters_of(top).finger_us


def skips_near(top: dict[str, Any]) -> bool:
    """Whether fingers that the first successor covers are not looked up."""
    return is_extended(top) and top.get("skip_near") is not False and node_count(top) > 0


def finger_count(top: dict[str, Any]) -> int:
    """How many fingers a node looks up in turn: all of them, or about those that its successor does not cover.

    Of N nodes at random places these are about one more than log2 N.
    """
    every = int(top["bits"]) - 1
    return min(every, 1 + math.ceil(math.log2(node_count(top)))) if skips_near(top) else every


def finger_round(top: dict[str, Any]) -> int:
    """The mean time in which a node refreshes each of its fingers once, in microseconds, rounded up."""
    return -(-finger_count(top) * finger_period(top) // 2)


def about(micros: int) -> str:
    """A time in seconds with three digits, or in milliseconds if it is shorter."""
    if micros >= 1_000_000:
        return f"{float(f'{micros / 1e6:.3g}'):g}s"
    return f"{float(f'{micros / 1e3:.3g}'):g}ms" if micros >= 1000 else time_text(micros)


def round_told(top: dict[str, Any]) -> str:
    """How often each finger is refreshed."""
    count = finger_count(top)
    period = about(-(-finger_period(top) // 2))
    whole = about(finger_round(top))
    told = f"Each finger is refreshed about every {whole}: {count} fingers in turn, one each {period}"
    return f"{told}." if count == int(top["bits"]) - 1 else f"{told}; the others are the first successor."


def mean_life(top: dict[str, Any]) -> float | None:
    """The mean life in microseconds: of [churn], or the time that nodes are up by the commands, for each that goes."""
    churn = top.get("churn")
    if churn and any(node.get("churn") is True for node in top["node"]):
        return float(churn["life_min_us"] + churn["life_max_us"]) / 2
    since = {node["name"]: 0 for node in top["node"] if node.get("initial") is True}
    ups, ends = 0, 0
    for command in commands_of(top):
        node, time = command["node"], int(command["at_us"])
        if command["do"] == "join":
            since.setdefault(node, time)
        elif command["do"] in GOES and node in since:
            ups += time - since.pop(node)
            ends += 1
    ups += sum(int(top["duration_us"]) - time for time in since.values())
    return ups / ends if ends else None


def round_traps(top: dict[str, Any]) -> list[str]:
    """A round of fingers that takes longer than the run, or than nodes live."""
    whole, duration, life = finger_round(top), int(top["duration_us"]), mean_life(top)
    if duration < top["finger_us"]:
        return []
    above = [f"the duration ({time_text(duration)})"] if whole > duration else []
    above += [f"the mean life of a node ({about(round(life))})"] if life is not None and whole > life else []
    if not above:
        return []
    number = f"about {finger_count(top)} fingers in turn" if skips_near(top) else f"bits = {top['bits']}"
    told = f"finger_us = {top['finger_us']} with {number}: each finger is refreshed about every "
    return [f"{told}{about(whole)}, which is longer than {' and '.join(above)}"]


def join_traps(top: dict[str, Any]) -> list[str]:
    """Joins that go on for ever without a pause."""
    if not joins_forever(top) or join_pause_us(top) > 0:
        return []
    return ["join_pause_us = 0 without join_forever = false: a node that cannot join tries again at once, for ever"]


def alone_traps(top: dict[str, Any]) -> list[str]:
    """A time at which no node is up: then there is no ring, and none is ever made again, unless a node makes one."""
    told = "then there is no ring, and no ring is ever made again"
    first = first_up(top)
    if not first and not has_lone_makers(top) and not own_joins(top):
        return ["no node is initial, and none joins through itself: there is never a ring"]
    time = empty_from(top)
    if has_lone_makers(top) or (time is not None and any(join["at_us"] >= time for join in own_joins(top))):
        return []
    if time is not None:
        return [f"commands: no node is up from {time_text(time)} on; {told}"]
    churn = top.get("churn")
    if not churn or not first or not all(node.get("churn") is True for node in top["node"]):
        return []
    down = churn["down_min_us"] + churn["down_max_us"]
    share = down / (down + churn["life_min_us"] + churn["life_max_us"])
    if len(first) * math.log10(share) < math.log10(RARE):
        return []
    return [
        f"churn = true of all {len(first)} initial nodes: all are down at once in about "
        f"{100 * share ** len(first):.2g} % of the time; {told}. Let one stay"
    ]


def commands_of(top: dict[str, Any]) -> list[dict[str, Any]]:
    """All commands, in the order of their times."""
    return sorted(top.get("command", []), key=lambda one: int(one["at_us"]))


def has_lone_makers(top: dict[str, Any]) -> bool:
    """Whether nodes that nobody answers make rings."""
    return top.get("create_alone") is True and any(node.get("bootstrap") is True for node in top["node"])


def is_own_join(command: dict[str, Any]) -> bool:
    """Whether a node joins through itself by this command."""
    return (command["do"], command.get("via")) == ("join", command["node"])


def own_joins(top: dict[str, Any]) -> list[dict[str, Any]]:
    """The commands by which nodes join through themselves, in the order of their times."""
    return [one for one in commands_of(top) if is_own_join(one)]


def second_ring_traps(top: dict[str, Any]) -> list[str]:
    """The first node that makes a ring while others are up by the commands. Commands of one time are taken together."""
    up = first_up(top)
    for time, group in groupby(commands_of(top), key=lambda one: int(one["at_us"])):
        commands = list(group)
        makers = [one["node"] for one in commands if is_own_join(one) and one["node"] not in up]
        if makers and len(up.union(makers)) > 1:
            told = f"commands: {makers[-1]} joins through itself at {time_text(time)}, while others are up"
            return [f"{told}: it makes a second ring, and two rings never meet"]
        move_all(up, commands)
    return []


def lone_maker_traps(top: dict[str, Any]) -> list[str]:
    """`create_alone` without a bootstrap node."""
    if top.get("create_alone") is not True or has_lone_makers(top):
        return []
    return ["create_alone = true, and no node has bootstrap = true: only such nodes make rings, so it changes nothing"]


def bootstrap_traps(top: dict[str, Any]) -> list[str]:
    """Bootstrap nodes that may all be down at once, and do not make rings."""
    nodes = [node for node in top["node"] if node.get("bootstrap") is True]
    if not nodes or top.get("create_alone") is True:
        return []
    told = "then no join succeeds after a failure, not even theirs, unless create_alone = true"
    if all(node.get("churn") is True for node in nodes):
        return [f"churn = true of all {len(nodes)} bootstrap nodes: all may be down at once, and {told}"]
    time = all_gone_at(top, {node["name"] for node in nodes})
    return [] if time is None else [f"commands: no bootstrap node is up from {time_text(time)} on; {told}"]


def all_gone_at(top: dict[str, Any], names: set[Any]) -> int | None:
    """When the last of these nodes goes by the commands, if none of them comes back by itself or through another node.

    Those that churn by themselves are taken to be up.
    """
    up, gone = first_up(top) & names, None
    for command in commands_of(top):
        node, via = command["node"], command.get("via")
        if command["do"] == "join" and node in names:
            up.add(node)
            gone = None if via == node or via not in names else gone
        elif command["do"] in GOES and node in up:
            up.discard(node)
            gone = gone if up else int(command["at_us"])
    return gone


def first_up(top: dict[str, Any]) -> set[Any]:
    """The nodes that are members at the start."""
    return {node["name"] for node in top["node"] if node.get("initial") is True}


def move(up: set[Any], command: dict[str, Any]) -> None:
    """Does to the nodes that are up what a command says."""
    if command["do"] in GOES:
        up.discard(command["node"])
    elif command["do"] == "join":
        up.add(command["node"])


def move_all(up: set[Any], commands: list[dict[str, Any]]) -> None:
    """Does to the nodes that are up what these commands say, one after the other."""
    for command in commands:
        move(up, command)


def empty_from(top: dict[str, Any]) -> int | None:
    """The first time at which no node is up by the commands. Nodes that churn by themselves are taken to be up."""
    up = first_up(top)
    for command in commands_of(top):
        move(up, command)
        if not up:
            return int(command["at_us"])
    return None


def leave_traps(top: dict[str, Any]) -> list[str]:
    """`leave_ppm` without a node that churns by itself."""
    ppm = top.get("churn", {}).get("leave_ppm", 0)
    if ppm == 0 or any(node.get("churn") is True for node in top["node"]):
        return []
    told = f"leave_ppm = {ppm}, and no node has churn = true"
    return [f"{told}: only such nodes leave by themselves, so it changes nothing"]


def world_traps(top: dict[str, Any]) -> list[str]:
    """All of them, of a scenario whose nodes all have tables of their own."""
    traps = [*round_traps(top), *join_traps(top), *alone_traps(top), *second_ring_traps(top)]
    return [*traps, *lone_maker_traps(top), *bootstrap_traps(top), *leave_traps(top)]
