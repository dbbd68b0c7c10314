"""The identifiers of nodes: of their names and the seed, or of their names alone."""

import hashlib
from collections.abc import Sequence
from itertools import count

from chordsim_tools.draws import Draws
from chordsim_tools.reference.circle import Circle


def seeded(names: Sequence[str], seed: int, bits: int) -> dict[int, int]:
    """For each node the leading bits of the SHA-256 digest of its name, the seed and the least number that is free."""
    taken: dict[int, int] = {}
    for node, name in enumerate(names):
        idents = (leading(f"{name} {seed} {number}", bits) for number in count())
        taken[next(ident for ident in idents if ident not in taken)] = node
    return {node: ident for ident, node in taken.items()}


def leading(text: str, bits: int) -> int:
    """The leading bits of the SHA-256 digest of a text."""
    return int.from_bytes(hashlib.sha256(text.encode()).digest(), "big") >> (256 - bits)


def of_names(names: Sequence[str], bits: int, draws: Draws) -> dict[int, int]:
    """Identifiers for the nodes whose names give one that an earlier node has; all others have that of their name."""
    circle = Circle(bits)
    drawn: dict[int, int] = {}
    taken: set[int] = set()
    for node, name in enumerate(names):
        ident = circle.identifier_of_name(name)
        if ident in taken:
            drawn[node] = ident = free_ident(taken, bits, draws)
        taken.add(ident)
    return drawn


def free_ident(taken: set[int], bits: int, draws: Draws) -> int:
    """The first identifier that is drawn and not taken."""
    while (ident := draws.key(bits)) in taken:
        pass
    return ident
