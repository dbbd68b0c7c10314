"""The audits (docs/rules.md, section 10)."""

from collections import Counter
from itertools import pairwise

from chordsim_tools.known import known
from chordsim_tools.reference.state import Node, Status
from chordsim_tools.reference.turn import World


def members_of(nodes: list[Node]) -> set[int]:
    """The nodes with status Member."""
    return {node.me for node in nodes if node.status == Status.MEMBER}


def best_successor(node: Node, members: set[int]) -> int | None:
    """The first entry of the node's successor list that is a member."""
    return next((entry for entry in node.succ if entry in members), None)


def ring_members(best: dict[int, int | None]) -> list[int]:
    """The members that come back to themselves from best successor to best successor.

    They are those that are left if members who are nobody's best successor are taken away until there are none.
    """
    counts = Counter(best.values())
    left, going = set(best), [n for n in best if counts[n] == 0]
    while going:
        n = going.pop()
        left.remove(n)
        following = best[n]
        counts[following] -= 1
        if following is not None and counts[following] == 0:
            going.append(following)
    return sorted(left)


def passed_over(world: World, nodes: list[Node], members: set[int]) -> set[int]:
    """The identifiers of the members that lie between two neighbours of a member and its list."""
    idents = world.idents
    places = sorted(idents[n] for n in members)
    passed: set[int] = set()
    for a, b in (pair for n in members for pair in pairwise([n, *nodes[n].succ])):
        passed.update(world.circle.all_between(idents[a], idents[b], places))
    return passed


def is_ordered(world: World, ring: list[int], best: dict[int, int | None]) -> bool:
    """Whether no ring member lies between a ring member and its best successor."""
    idents = world.idents
    places = sorted(idents[n] for n in ring)
    return not any(world.circle.all_between(idents[n], idents[known(best[n])], places) for n in ring)


def audit_line(world: World, nodes: list[Node], time: int) -> str:
    """The line of the audit at this time."""
    members = members_of(nodes)
    best = {n: best_successor(nodes[n], members) for n in members}
    dead = len([n for n in members if best[n] is None])
    ring = ring_members(best)
    ordered = is_ordered(world, ring, best)
    principals = len(members) - len(passed_over(world, nodes, members))
    sufficient = principals >= world.scenario.list + 1 and dead == 0
    return (
        f"{time} audit members={len(members)} dead={dead} ring={len(ring)} ordered={yes_or_no(ordered)} "
        f"principals={principals} sufficient={yes_or_no(sufficient)}"
    )


def yes_or_no(fact: bool) -> str:
    """The word for a fact."""
    return "yes" if fact else "no"


def audit_times(audit_us: int, duration_us: int) -> list[int]:
    """Each positive multiple of audit_us below duration_us, and duration_us."""
    return [*range(audit_us, duration_us, audit_us), duration_us]
