"""How the readers of a trace share its lines: each line is taken apart once, and told to those who want its word."""

from collections.abc import Callable, Iterable
from functools import cached_property
from itertools import chain

Taker = Callable[[int, list[str]], None]
"""Takes a line: its time and its fields."""


class LineReader:
    """Reads the lines that are left of a trace, but only those that it wants."""

    def takers(self) -> Iterable[tuple[str, Taker]]:
        """Who takes the lines of which word. Audits have the word `audit`."""
        return ()

    @cached_property
    def alone(self) -> "Readers":
        """This reader and no other."""
        return Readers(self)

    def read(self, line: str) -> None:
        """Takes one line, if no other reader does."""
        self.alone.read([line])


class Readers:
    """Readers of one trace. Each line goes to them in this order."""

    def __init__(self, *readers: LineReader) -> None:
        """What each of them wants."""
        self.takers: dict[str, list[Taker]] = {}
        for word, take in chain.from_iterable(reader.takers() for reader in readers):
            self.takers.setdefault(word, []).append(take)

    def read(self, lines: Iterable[str]) -> list[str]:
        """Takes lines; gives those that have no time."""
        rest = []
        for line in lines:
            fields = line.split(" ")
            try:
                time = int(fields[0])
            except ValueError:
                rest.append(line)
                continue
            for take in self.takers.get("audit" if fields[1] == "audit" else fields[2], ()):
                take(time, fields)
        return rest
