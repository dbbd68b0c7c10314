"""The members over time, and which of them is the right owner of a key (docs/tools.md, "Right answers")."""

from bisect import bisect_left, bisect_right, insort
from collections.abc import Iterable

LEAST_BETWEEN_MARKS = 64
"""How many changes are between two copies of the members at least."""


class Members:
    """The members by their identifiers, now and at the times before. Changes are told in the order of their times."""

    def __init__(self, idents: dict[str, int], initial: Iterable[str]) -> None:
        """The members at the start."""
        self.idents = idents
        self.names = {ident: name for name, ident in idents.items()}
        self.places = sorted({idents[name] for name in initial})
        self.times: list[int] = []
        self.changes: list[tuple[int, int]] = []
        self.counts = [len(self.places)]
        self.is_timed = True
        # Copies of the members, each with the number of changes before it: so no question goes back to the start.
        self.marks = [(0, list(self.places))]

    def add(self, name: str, time: int | None = None) -> None:
        """A node has become a member. Without the time there is no history."""
        place = self.idents[name]
        if not contains(self.places, place):
            insort(self.places, place)
            self.changed(place, 1, time)

    def remove(self, name: str, time: int | None = None) -> None:
        """A node is no member any more, if it was one. Without the time there is no history."""
        place = self.idents[name]
        if contains(self.places, place):
            del self.places[bisect_left(self.places, place)]
            self.changed(place, -1, time)

    def changed(self, place: int, sign: int, time: int | None) -> None:
        """Keeps a change, and a copy of the members if the last one is as many changes ago as there are members."""
        if time is None:
            self.is_timed = False
            return
        self.times.append(time)
        self.changes.append((place, sign))
        self.counts.append(len(self.places))
        if len(self.times) - self.marks[-1][0] >= max(len(self.places), LEAST_BETWEEN_MARKS):
            self.marks.append((len(self.times), list(self.places)))

    def is_member(self, name: str) -> bool:
        """Whether a node is a member now."""
        return contains(self.places, self.idents[name])

    def is_owner(self, name: str, key: int) -> bool:
        """Whether a node is the first member at or after the key, clockwise."""
        if not self.places:
            return False
        return self.places[bisect_left(self.places, key) % len(self.places)] == self.idents[name]

    def owner(self, key: int) -> str | None:
        """The first member at or after the key, clockwise, if there is a member."""
        return self.owner_among(self.places, key)

    def owner_among(self, places: list[int], key: int) -> str | None:
        """The same for the members at these identifiers, which are in order."""
        return self.names[places[bisect_left(places, key) % len(places)]] if places else None

    def was_owner(self, name: str, key: int, begin: int, end: int) -> bool:
        """Whether a node was the right owner at some instant from `begin` to `end`, as far as changes were told.

        At a time at which members change, the members before each of the changes count as those after it."""
        first, last = self.numbers(begin, end)
        start, places = self.nearest(first)
        way = Way(key, self.idents[name], places)
        way.change_all((place, -sign) for place, sign in reversed(self.changes[first:start]))
        way.change_all(self.changes[start:first])
        return way.leads_there() or any(way.after(change) for change in self.changes[first:last])

    def owners(self, key: int, begin: int, end: int) -> list[tuple[int, str | None]]:
        """The right owners from `begin` to `end`, each with the time from which on it was the one."""
        first, last = self.numbers(begin, end)
        places = self.members_after(first)
        found = [(begin, self.owner_among(places, key))]
        for number in range(first, last):
            apply(places, self.changes[number])
            owner = self.owner_among(places, key)
            if owner != found[-1][1]:
                found.append((self.times[number], owner))
        return found

    def members_after(self, number: int) -> list[int]:
        """The identifiers of the members after so many changes."""
        start, copied = self.marks[bisect_right(self.marks, number, key=lambda mark: mark[0]) - 1]
        places = list(copied)
        for change in self.changes[start:number]:
            apply(places, change)
        return places

    def members_before(self, time: int) -> list[str]:
        """The names of the members before the changes of a time, clockwise from 0."""
        return [self.names[place] for place in self.members_after(self.numbers(time, time)[0])]

    def count_before(self, time: int) -> int:
        """How many members there are before the changes of a time."""
        return self.counts[self.numbers(time, time)[0]]

    def numbers(self, begin: int, end: int) -> tuple[int, int]:
        """How many changes are before `begin`, and how many until `end`."""
        if not self.is_timed:
            raise ValueError("the times of changes were not told")
        return bisect_left(self.times, begin), bisect_right(self.times, end)

    def nearest(self, number: int) -> tuple[int, list[int]]:
        """The members now or those of a copy, with the number of changes before: the fewer changes from `number`."""
        mark = self.marks[bisect_right(self.marks, number, key=lambda one: one[0]) - 1]
        return mark if number - mark[0] < len(self.times) - number else (len(self.times), self.places)


class Presence:
    """When each node was a member, by all changes that were told."""

    def __init__(self, members: Members) -> None:
        """The history of these members."""
        if not members.is_timed:
            raise ValueError("the times of changes were not told")
        self.idents = members.idents
        self.turns = {place: [-1] for place in members.marks[0][1]}
        """When each node came, went and so on, by its identifier. Who was there at the start came before."""
        for time, (place, _) in zip(members.times, members.changes, strict=True):
            self.turns.setdefault(place, []).append(time)

    def was_member(self, name: str, time: int) -> bool:
        """Whether a node was a member after the changes until and with a time."""
        return bisect_right(self.turns.get(self.idents[name], ()), time) % 2 == 1


class Way:
    """The way clockwise from a key to a node: how many members are on it, and whether the node is one itself."""

    def __init__(self, key: int, place: int, places: list[int]) -> None:
        """The way at the time of these members."""
        self.key = key
        self.place = place
        self.is_there = contains(places, place)
        self.before = (bisect_left(places, place) - bisect_left(places, key)) + (len(places) if place < key else 0)

    def change(self, place: int, sign: int) -> None:
        """A member comes or goes."""
        if place == self.place:
            self.is_there = sign > 0
        elif (self.key <= place) + (place < self.place) + (self.place < self.key) == 2:
            self.before += sign

    def change_all(self, changes: Iterable[tuple[int, int]]) -> None:
        """Members come or go, one after the other."""
        for place, sign in changes:
            self.change(place, sign)

    def leads_there(self) -> bool:
        """Whether the node is the first member on the way."""
        return self.is_there and self.before == 0

    def after(self, change: tuple[int, int]) -> bool:
        """The same after a change."""
        self.change(*change)
        return self.leads_there()


def contains(places: list[int], place: int) -> bool:
    """Whether an identifier is among these, which are in order."""
    number = bisect_left(places, place)
    return number < len(places) and places[number] == place


def apply(places: list[int], change: tuple[int, int]) -> None:
    """Makes a change of members."""
    place, sign = change
    if sign > 0:
        insort(places, place)
    else:
        del places[bisect_left(places, place)]
