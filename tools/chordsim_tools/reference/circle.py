"""The circle of identifiers (docs/rules.md, section 2)."""

import hashlib
from bisect import bisect_left, bisect_right
from dataclasses import dataclass


@dataclass(frozen=True)
class Circle:
    """The whole numbers below 2^bits, clockwise on a circle."""

    bits: int

    def distance(self, a: int, b: int) -> int:
        """How far one goes clockwise from a to b."""
        return (b - a) % (1 << self.bits)

    def between(self, a: int, x: int, b: int) -> bool:
        """Whether x lies on the way clockwise from a to b and is neither of them."""
        if a == b:
            return x != a
        return 0 < self.distance(a, x) < self.distance(a, b)

    def in_half_open(self, a: int, x: int, b: int) -> bool:
        """Whether x is b or lies between a and b."""
        return x == b or self.between(a, x, b)

    def finger_start(self, n: int, i: int) -> int:
        """The start of finger i, from 1 to m, of a node at n."""
        return (n + (1 << (i - 1))) % (1 << self.bits)

    def all_between(self, a: int, b: int, ordered: list[int]) -> list[int]:
        """Those x of an ordered list of different places for which between(a, x, b) holds."""
        behind, before = bisect_right(ordered, a), bisect_left(ordered, b)
        if a < b:
            return ordered[behind:before]
        return ordered[behind:] + ordered[:before]

    def first_from(self, start: int, ordered: list[int]) -> int:
        """The first of an ordered list of places at or after the start, clockwise."""
        return ordered[bisect_left(ordered, start) % len(ordered)]

    def identifier_of_name(self, name: str) -> int:
        """The m leading bits of the SHA-1 digest of the name."""
        digest = int.from_bytes(hashlib.sha1(name.encode()).digest(), "big")
        return digest >> (160 - self.bits)
