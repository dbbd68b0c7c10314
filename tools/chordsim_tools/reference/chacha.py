"""The random words of a node (docs/rules.md, section 5)."""

from collections.abc import Iterator, Sequence
from struct import pack, unpack

MASK = 0xFFFFFFFF
CONSTANTS = (0x61707865, 0x3320646E, 0x79622D32, 0x6B206574)  # "expand 32-byte k"
Places = tuple[int, int, int, int]
DOUBLE_ROUND: tuple[Places, ...] = (
    (0, 4, 8, 12), (1, 5, 9, 13), (2, 6, 10, 14), (3, 7, 11, 15),
    (0, 5, 10, 15), (1, 6, 11, 12), (2, 7, 8, 13), (3, 4, 9, 14),
)
"""The words of the state that each quarter round of two rounds takes: first the columns, then the diagonals."""


def rotate(word: int, places: int, mask: int) -> int:
    """Turns a 32-bit word left by this number of places."""
    return ((word << places) | (word >> (32 - places))) & mask


def quarter_round(s: list[int], places: Places, mask: int) -> None:
    """The quarter round of ChaCha on four words of the state."""
    a, b, c, d = places
    s[a] = (s[a] + s[b]) & mask
    s[d] = rotate(s[d] ^ s[a], 16, mask)
    s[c] = (s[c] + s[d]) & mask
    s[b] = rotate(s[b] ^ s[c], 12, mask)
    s[a] = (s[a] + s[b]) & mask
    s[d] = rotate(s[d] ^ s[a], 8, mask)
    s[c] = (s[c] + s[d]) & mask
    s[b] = rotate(s[b] ^ s[c], 7, mask)


def block(start: list[int], rounds: int, mask: int = MASK) -> list[int]:
    """The sixteen words of the ChaCha block that begins with this state.

    With a mask of many lanes each number is a word of as many blocks, which are computed at once: see `groups`."""
    s = list(start)
    for places in DOUBLE_ROUND * (rounds // 2):
        quarter_round(s, places, mask)
    return [(word + first) & mask for word, first in zip(s, start)]


def key_words(seed: int) -> list[int]:
    """The eight words of the key: the 8 bytes of the seed, lowest first, and 24 zero bytes."""
    key = seed.to_bytes(8, "little") + bytes(24)
    return [int.from_bytes(key[i : i + 4], "little") for i in range(0, 32, 4)]


class Stream:
    """The random stream of one node: ChaCha8 with the stream number of the node."""

    def __init__(self, seed: int, stream: int) -> None:
        """The stream with this number for the scenario's seed."""
        self.key = key_words(seed)
        self.stream = stream
        self.counter = -1
        self.words: list[int] = []

    def word(self, place: int) -> int:
        """The word with this number, from 0: words 16k to 16k + 15 are those of the block with the counter k."""
        if place // 16 != self.counter:
            self.counter = place // 16
            counter = [self.counter & MASK, self.counter >> 32]
            stream = [self.stream & MASK, self.stream >> 32]
            self.words = block([*CONSTANTS, *self.key, *counter, *stream], 8)
        return self.words[place % 16]


def groups(seed: int, streams: Sequence[int], number: int) -> Iterator[tuple[int, ...]]:
    """The words 4k to 4k + 3, for this number k, of each of these streams of a seed.

    The streams are lanes of 64 bits in one number. A word takes the lower half of its lane. What a sum, or a word that
    is turned, has in the upper half is masked off: so no lane changes another one."""
    ones = int.from_bytes(bytes([1, 0, 0, 0, 0, 0, 0, 0]) * len(streams), "little")
    mask = MASK * ones
    numbers = int.from_bytes(pack(f"<{len(streams)}Q", *streams), "little")
    counter = number // 4
    same = [word * ones for word in (*CONSTANTS, *key_words(seed), counter & MASK, counter >> 32)]
    words = block([*same, numbers & mask, numbers >> 32 & mask], 8, mask)[number % 4 * 4 :][:4]
    return zip(*(unpack(f"<{len(streams)}Q", word.to_bytes(8 * len(streams), "little")) for word in words))


def scaled(words: Sequence[int], first: int, second: int = 1) -> tuple[int, int]:
    """Two numbers below these bounds: w n / 2^64, rounded down, of which each w is two of the four words."""
    a, b, c, d = words
    return (a << 32 | b) * first >> 64, (c << 32 | d) * second >> 64
