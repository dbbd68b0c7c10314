"""Joins with clean lists, and joins that ask the first successor, by hand: n0 joins the ring of examples/ring.toml.

n0, n1 and n3 are the nodes 0, 1 and 2 and are at 0, 1 and 3. n0 has joined through n3 at 100. n3 has said that it comes
before n0, and is asked for its list by the call 5.
"""

from unittest import TestCase

from chordsim_tools.reference.state import (
    Attempt, CmdCrash, GetList, GetState, ListReply, Node, Notify, Owner, Purpose, Rejoin, StateReply, Status,
    StepReply, Timeout,
)
from chordsim_tools.reference.turn import World
from chordsim_tools.scenario.reading import Scenario, read_scenario
from tests.support.worlds import RING
from tests.test_join_pauses import joining
from tests.test_second_profile import happen

PAUSE = "join_pause_us = 70"


def placed(*keys: str) -> tuple[World, Node]:
    """n0 in front of n3, whose list it has asked for. Of the rules of Chord as published those of these keys hold."""
    world, node = joining(PAUSE, *keys)
    made = happen(world, node, StepReply(3, Owner(0)), 4)[1]
    assert made == [(110, 5, 2, GetList(5)), (140, 6, 0, Timeout(5))]
    return world, node


class CleanListsTest(TestCase):
    """What a joining node takes of the list that it gets."""

    def joined(self, entries: list[int], *avoid: int, rule: str = "true") -> list[int]:
        """The list that n0 has as a member, after this list from n3; nothing if the attempt fails."""
        world, node = placed(f"clean_lists = {rule}")
        assert node.join is not None
        node.join.avoid += avoid
        lines, made = happen(world, node, ListReply(5, entries), 4)
        if node.status == Status.MEMBER:
            assert (lines, made, node.prdc, node.fingers) == (["member n3"], [], 2, {2: node.succ[0], 3: node.succ[0]})
        else:
            assert (lines, made) == ([], [(170, 7, 0, Rejoin(2))])
            assert node.join == Attempt(1, avoid=list(avoid), is_answered=True)
        return node.succ

    def test_itself(self) -> None:
        """It leaves the list, at all its places. If nothing is left, n3 is its successor too."""
        assert self.joined([0, 1, 0, 2]) == [1, 2]
        assert self.joined([1, 0]) == [1]
        assert self.joined([0, 0]) == self.joined([0]) == [2]

    def test_nodes_to_avoid(self) -> None:
        """They leave it too, also if it is n3 alone by then. If nothing is left, the attempt fails."""
        assert self.joined([1, 2], 1) == [2]
        assert self.joined([0, 1], 1) == self.joined([1], 1, 2) == self.joined([0], 2) == []

    def test_without_the_rule(self) -> None:
        """n0 is not between n3 and itself. Nodes to avoid stay."""
        assert self.joined([0, 1], rule="false") == []
        assert self.joined([1, 2], 1, rule="false") == [1, 2]
        assert self.joined([1, 0], rule="false") == [1, 0]


class JoinAsksTest(TestCase):
    """The request to the first successor."""

    def asked(self, *keys: str, head: int = 1) -> tuple[World, Node]:
        """n0 has got a list from n3, and asks the first entry of it for its state, by the call 7."""
        world, node = placed("join_asks = true", *keys)
        assert happen(world, node, ListReply(5, [head, 2]), 4) == (
            [], [(110, 7, head, GetState(7)), (140, 8, 0, Timeout(7))]
        )
        assert (node.status, node.succ, node.prdc) == (Status.JOINING, [], None)
        assert [(call.purpose, call.behind) for call in node.calls.values()] == [(Purpose.JOIN_HEAD, 2)]
        return world, node

    def test_reply(self) -> None:
        """n0 is a member behind n3, takes the list of n1, and notifies it."""
        world, node = self.asked()
        assert happen(world, node, StateReply(7, 2, [2, 0]), 3) == (["member n3"], [(110, 9, 1, Notify())])
        assert (node.status, node.join, node.calls) == (Status.MEMBER, None, {})
        assert (node.prdc, node.succ, node.fingers) == (2, [1, 2], {2: 1, 3: 1})

    def test_no_predecessor(self) -> None:
        """n1 may have none: it is notified all the same."""
        world, node = self.asked()
        assert happen(world, node, StateReply(7, None, [0]), 3) == (["member n3"], [(110, 9, 1, Notify())])
        assert node.succ == [1, 0]

    def test_nearer_node(self) -> None:
        """n3 is the first entry of its own list, and names n1, which is between n0 and n3: n1 is asked for its list."""
        world, node = self.asked(head=2)
        lines, made = happen(world, node, StateReply(7, 1, [0, 1]), 4)
        assert (lines, made) == (["member n3"], [(110, 9, 1, GetList(9)), (140, 10, 0, Timeout(9))])
        assert (node.prdc, node.succ, node.fingers) == (2, [2, 0], {2: 2, 3: 2})
        assert happen(world, node, ListReply(9, [2]), 3) == ([], [(110, 11, 1, Notify())])
        assert node.succ == [1, 2]

    def test_silent(self) -> None:
        """n1 is to be avoided then, and the attempt has failed. n3, through which n0 joins, would not be avoided."""
        cases: list[tuple[int, list[int]]] = [(1, [1]), (2, [])]
        for head, avoid in cases:
            world, node = self.asked(head=head)
            lines, made = happen(world, node, Timeout(7), 2)
            assert (lines, made) == ([f"timeout {world.names[head]}"], [(170, 9, 0, Rejoin(2))])
            assert (node.status, node.join) == (Status.JOINING, Attempt(1, avoid=avoid, is_answered=True))

    def test_sent_again(self) -> None:
        """The same request comes again, and the call still knows that n3 will be the predecessor."""
        world, node = self.asked("retries = 1")
        lines, made = happen(world, node, Timeout(7), 2)
        assert (lines, made) == (["again get-state n1"], [(110, 9, 1, GetState(7)), (140, 10, 0, Timeout(7))])
        assert happen(world, node, StateReply(7, None, [2]), 3)[0] == ["member n3"]

    def test_late(self) -> None:
        """The reply comes after a crash, or after the timeout, when a step is out."""
        world, node = self.asked()
        happen(world, node, CmdCrash(), 1)
        assert happen(world, node, StateReply(7, 2, [2]), 3) == (["drop state-reply n1"], [])
        world, node = self.asked()
        happen(world, node, Timeout(7), 2)
        happen(world, node, Rejoin(2), 2)
        assert happen(world, node, StateReply(7, 2, [2]), 3) == (["late state-reply n1"], [])
        assert (node.status, [call.purpose for call in node.calls.values()]) == (Status.JOINING, [Purpose.JOIN_STEP])

    def test_out_of_place(self) -> None:
        """n0 is not between n3 and the first entry, or there is none: nobody is asked."""
        lists: list[list[int]] = [[0, 1], []]
        for entries in lists:
            world, node = placed("join_asks = true")
            assert happen(world, node, ListReply(5, entries), 4) == ([], [(170, 7, 0, Rejoin(2))])
            assert (node.status, node.join, node.calls) == (Status.JOINING, Attempt(1, is_answered=True), {})


class DefaultsTest(TestCase):
    """Pauses, joins without an end, and checks, if no key says otherwise."""

    def times(self, lines: str) -> tuple[int, bool, int]:
        """The pause, whether joins go on, and the period of checks, in the ring with these lines as its profile."""
        scenario: Scenario = read_scenario(RING.replace("profile = 1", lines).encode(), b"")
        return scenario.join_pause_us, scenario.join_forever, scenario.check_us

    def test_defaults(self) -> None:
        """In profile 4 these are the timeout, 40, and the period of stabilization, 1000. Others have no such things."""
        assert self.times("profile = 1") == self.times("profile = 2") == (0, False, 0)
        assert self.times("profile = 4") == (40, True, 1000)

    def test_given(self) -> None:
        """Each key has its own value, also if that is 0."""
        assert self.times("profile = 4\njoin_pause_us = 0") == (0, True, 1000)
        assert self.times("profile = 4\njoin_forever = false") == (40, False, 1000)
        assert self.times("profile = 4\ncheck_us = 0") == (40, True, 0)
        assert self.times("profile = 4\njoin_pause_us = 7\njoin_forever = true\ncheck_us = 9") == (7, True, 9)
