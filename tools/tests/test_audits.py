"""Audits by hand: five nodes at 0, 2, 4, 6 and 7 of a circle of 8 places, lists of two entries."""

from unittest import TestCase

from chordsim_tools.reference.audits import audit_line, audit_times
from tests.support.worlds import five_nodes, members


def facts(lists: dict[int, list[int]]) -> str:
    """What an audit says of these members."""
    return audit_line(five_nodes(), members(lists), 9).removeprefix("9 audit ")


class AuditsTest(TestCase):
    """The line of an audit, and its times."""

    def test_all_well(self) -> None:
        """Five members in a ring, and all are principals."""
        lists = {0: [1, 2], 1: [2, 3], 2: [3, 4], 3: [4, 0], 4: [0, 1]}
        assert facts(lists) == "members=5 dead=0 ring=5 ordered=yes principals=5 sufficient=yes"

    def test_new_member_that_nobody_knows(self) -> None:
        """Node 4 at 7 is no ring member, and node 3's way from 6 to 0 passes it over."""
        lists = {0: [1, 2], 1: [2, 3], 2: [3, 0], 3: [0, 1], 4: [0, 1]}
        assert facts(lists) == "members=5 dead=0 ring=4 ordered=yes principals=4 sufficient=yes"

    def test_entries_that_are_down_are_passed(self) -> None:
        """Node 2 is down: node 1's best successor is node 3. Three principals are enough for lists of two."""
        lists = {0: [1, 2], 1: [2, 3], 3: [0, 1], 4: [0, 1]}
        assert facts(lists) == "members=4 dead=0 ring=3 ordered=yes principals=3 sufficient=yes"

    def test_ring_that_goes_round_twice(self) -> None:
        """0, 4, 2 and back: each of the three is passed over by the member before it."""
        lists = {0: [2], 2: [1], 1: [0]}
        assert facts(lists) == "members=3 dead=0 ring=3 ordered=no principals=0 sufficient=no"

    def test_member_without_best_successor(self) -> None:
        """Node 3's only entry is down."""
        lists = {0: [1, 2], 1: [2, 0], 2: [0, 1], 3: [4]}
        assert facts(lists) == "members=4 dead=1 ring=3 ordered=yes principals=3 sufficient=no"

    def test_member_alone(self) -> None:
        """A member whose successor is itself comes back to itself in one step."""
        assert facts({0: [0]}) == "members=1 dead=0 ring=1 ordered=yes principals=1 sufficient=no"

    def test_no_members(self) -> None:
        """Where nobody is there, nobody is out of order."""
        assert facts({}) == "members=0 dead=0 ring=0 ordered=yes principals=0 sufficient=no"

    def test_times(self) -> None:
        """Each multiple below the duration, and the duration."""
        assert audit_times(10, 35) == [10, 20, 30, 35]
        assert audit_times(10, 30) == [10, 20, 30]
        assert audit_times(50, 30) == [30]
