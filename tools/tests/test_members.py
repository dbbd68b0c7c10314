"""The members over time, by hand: nodes a, b, c and d at 10, 20, 30 and 40 of a circle of 64 places."""

import random
from unittest import TestCase

from chordsim_tools.members import Members

IDENTS = {"a": 10, "b": 20, "c": 30, "d": 40}


def members(*changes: tuple[int, str, str]) -> Members:
    """a, b and c are members at the start. A change is a time, + or - and a name."""
    ones = Members(IDENTS, ["a", "b", "c"])
    for time, sign, name in changes:
        if sign == "+":
            ones.add(name, time)
        else:
            ones.remove(name, time)
    return ones


class MembersTest(TestCase):
    """Owners now, and at times before."""

    def test_owner(self) -> None:
        """The first member at or after the key; keys after the last one are the first one's."""
        ones = members()
        self.assertEqual([ones.owner(key) for key in (0, 10, 11, 30, 31, 63)], ["a", "a", "b", "c", "a", "a"])
        self.assertTrue(ones.is_owner("b", 15))
        self.assertFalse(ones.is_owner("c", 15))
        self.assertIsNone(Members(IDENTS, []).owner(5))
        self.assertFalse(Members(IDENTS, []).is_owner("a", 5))

    def test_add_and_remove_twice(self) -> None:
        """Who is a member stays one once; who is none is not taken away."""
        ones = members((5, "+", "a"), (6, "-", "d"), (7, "-", "b"), (8, "-", "b"))
        self.assertEqual((ones.places, ones.times), ([10, 30], [7]))
        self.assertEqual([ones.is_member(name) for name in "abcd"], [True, False, True, False])

    def test_was_owner_before_a_crash(self) -> None:
        """b owned 15 until its crash at 100, and c from then on. At 100 itself both did."""
        ones = members((100, "-", "b"))
        spans = ((0, 50), (50, 100), (100, 100), (100, 200), (101, 200))
        self.assertEqual([ones.was_owner("b", 15, *span) for span in spans], [True, True, True, True, False])
        self.assertEqual([ones.was_owner("c", 15, *span) for span in spans], [False, True, True, True, True])
        self.assertFalse(any(ones.was_owner("a", 15, *span) for span in spans))

    def test_was_owner_before_a_join(self) -> None:
        """d takes 35 from a at 100."""
        ones = members((100, "+", "d"))
        spans = ((90, 99), (99, 101), (101, 120))
        self.assertEqual([ones.was_owner("a", 35, *span) for span in spans], [True, True, False])
        self.assertEqual([ones.was_owner("d", 35, *span) for span in spans], [False, True, True])

    def test_was_owner_in_between_alone(self) -> None:
        """c owned 15 from 100 to 200 only; b came back."""
        ones = members((100, "-", "b"), (200, "+", "b"))
        self.assertTrue(ones.was_owner("c", 15, 50, 300))
        self.assertTrue(ones.was_owner("c", 15, 150, 160))
        self.assertFalse(ones.was_owner("c", 15, 0, 99))
        self.assertFalse(ones.was_owner("c", 15, 201, 300))

    def test_tie_of_times(self) -> None:
        """Two changes at one time: between them c owned 15, for an instant."""
        ones = members((100, "-", "b"), (100, "+", "b"))
        self.assertTrue(ones.was_owner("c", 15, 100, 100))
        self.assertFalse(ones.was_owner("c", 15, 0, 99))
        self.assertFalse(ones.was_owner("c", 15, 101, 200))

    def test_owner_of_its_own_place_and_wrapped(self) -> None:
        """Key 20 is b's own; key 50 wraps to a, or to b while a is away."""
        ones = members((100, "-", "a"), (200, "+", "a"))
        self.assertTrue(ones.was_owner("b", 20, 150, 150))
        self.assertTrue(ones.was_owner("b", 50, 90, 110))
        self.assertFalse(ones.was_owner("b", 50, 0, 90))
        self.assertTrue(ones.was_owner("a", 50, 150, 200))
        self.assertFalse(ones.was_owner("a", 50, 150, 199))

    def test_nobody_is_there(self) -> None:
        """Without members nobody owns a key."""
        ones = members((1, "-", "a"), (2, "-", "b"), (3, "-", "c"))
        self.assertFalse(ones.was_owner("c", 15, 4, 9))
        self.assertEqual(ones.owners(15, 0, 9), [(0, "b"), (2, "c"), (3, None)])

    def test_owners(self) -> None:
        """The owners of a span, with the times from which on they were it."""
        ones = members((100, "-", "b"), (150, "-", "c"), (200, "+", "b"))
        self.assertEqual(ones.owners(15, 50, 300), [(50, "b"), (100, "c"), (150, "a"), (200, "b")])
        self.assertEqual(ones.owners(15, 120, 140), [(120, "c")])
        self.assertEqual(ones.owners(5, 50, 300), [(50, "a")])

    def test_members_before(self) -> None:
        """The changes of the time itself come after it."""
        ones = members((100, "-", "b"), (100, "+", "d"))
        self.assertEqual(ones.members_before(100), ["a", "b", "c"])
        self.assertEqual(ones.members_before(101), ["a", "c", "d"])
        self.assertEqual([ones.count_before(time) for time in (0, 100, 101)], [3, 3, 3])
        self.assertEqual([members((5, "-", "a")).count_before(time) for time in (5, 6)], [3, 2])

    def test_without_times(self) -> None:
        """A history that was not told is not made up."""
        ones = members()
        ones.add("d")
        self.assertTrue(ones.is_owner("d", 35))
        self.assertRaises(ValueError, ones.was_owner, "d", 35, 0, 1)

    def test_against_plain_copies(self) -> None:
        """2,000 changes of 30 nodes, with ties: the same as copies of the members after each change."""
        draw = random.Random(1)
        idents = {f"n{number}": ident for number, ident in enumerate(draw.sample(range(256), 30))}
        ones = Members(idents, list(idents)[:20])
        states = [(0, set(list(idents)[:20]))]
        for step in range(2000):
            name = draw.choice(list(idents))
            (ones.remove if ones.is_member(name) else ones.add)(name, step // 3)
            states.append((step // 3, states[-1][1] ^ {name}))
        self.assertGreater(len(ones.marks), 10)
        for _ in range(2000):
            name, key, begin = draw.choice(list(idents)), draw.randrange(256), draw.randrange(700)
            end = begin + draw.choice((0, 1, 5, 40))
            before = [there for time, there in states if time < begin][-1:] or [states[0][1]]
            inside = before + [there for time, there in states[1:] if begin <= time <= end]
            nearest = [min((idents[one] - key) % 256 for one in there) for there in inside]
            owners = [ones.names[(key + far) % 256] for far in nearest]
            self.assertEqual(ones.was_owner(name, key, begin, end), name in owners)
            self.assertEqual({owner for _, owner in ones.owners(key, begin, end)}, set(owners))
