"""Circle arithmetic by hand, on a circle of 8 places."""

from functools import partial
from unittest import TestCase

from chordsim_tools.reference.circle import Circle

CIRCLE = Circle(3)


class CircleTest(TestCase):
    """Distances, intervals and fingers on the circle."""

    def test_distance_goes_clockwise(self) -> None:
        """From 6 to 1 one passes 7 and 0."""
        assert CIRCLE.distance(6, 1) == 3
        assert CIRCLE.distance(1, 6) == 5
        assert CIRCLE.distance(4, 4) == 0

    def test_between_has_neither_end(self) -> None:
        """Between 6 and 1 are 7 and 0."""
        assert [x for x in range(8) if CIRCLE.between(6, x, 1)] == [0, 7]
        assert [x for x in range(8) if CIRCLE.between(1, x, 2)] == []

    def test_between_of_one_place_is_the_whole_circle(self) -> None:
        """All but the place itself."""
        assert [x for x in range(8) if CIRCLE.between(3, x, 3)] == [0, 1, 2, 4, 5, 6, 7]

    def test_half_open_has_the_far_end(self) -> None:
        """The far end belongs to it, the near end only where both are one."""
        assert [x for x in range(8) if CIRCLE.in_half_open(6, x, 1)] == [0, 1, 7]
        assert all(CIRCLE.in_half_open(3, x, 3) for x in range(8))

    def test_finger_starts(self) -> None:
        """Fingers of a node at 5 start 1, 2 and 4 places on."""
        assert [CIRCLE.finger_start(5, i) for i in (1, 2, 3)] == [6, 7, 1]

    def test_all_between_is_between(self) -> None:
        """On every way, of a list of places with and without its ends."""
        lists: list[list[int]] = [[0, 1, 2, 3, 4, 5, 6, 7], [1, 4, 6], [5], []]
        for ordered in lists:
            for a in range(8):
                for b in range(8):
                    found = CIRCLE.all_between(a, b, ordered)
                    assert sorted(found) == [x for x in ordered if CIRCLE.between(a, x, b)], (a, b, ordered)
                    assert found == sorted(found, key=partial(CIRCLE.distance, a))

    def test_first_from(self) -> None:
        """The place itself, the next one, and over 0."""
        assert [CIRCLE.first_from(start, [1, 4, 6]) for start in range(8)] == [1, 1, 4, 4, 4, 6, 6, 1]

    def test_identifier_is_the_head_of_the_digest(self) -> None:
        """The SHA-1 digest of `abc` begins with a9993e36 4706816a (FIPS 180)."""
        assert Circle(32).identifier_of_name("abc") == 0xA9993E36
        assert Circle(64).identifier_of_name("abc") == 0xA9993E364706816A
        assert Circle(3).identifier_of_name("abc") == 5
