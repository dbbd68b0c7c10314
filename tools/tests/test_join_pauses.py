"""Pauses between attempts to join, and joins that do not end, by hand: n0 joins the ring of examples/ring.toml."""

from unittest import TestCase

from chordsim_tools.reference.state import (
    Attempt, CmdCrash, CmdJoin, Next, Node, Rejoin, Rise, Status, Step, StepReply, Stuck, Timeout,
)
from chordsim_tools.reference.turn import World
from tests.test_second_profile import happen, ran
from tests.test_extended_profile import SPANS, extended, world_of

QUIET = (
    ("duration_us = 200", "duration_us = 3000"), ("audit_us = 200", "audit_us = 3000"),
    ("stabilize_us = 1000", "stabilize_us = 9000"), ("finger_us = 1000", "finger_us = 9000"),
)
COMMANDS = """\
[[command]]
at_us = 0
do = "crash"
node = "n1"
[[command]]
at_us = 0
do = "crash"
node = "n0"
[[command]]
at_us = 0
do = "join"
node = "n0"
via = "n1"
"""


def joining(*keys: str, changes: tuple[tuple[str, str], ...] = ()) -> tuple[World, Node]:
    """n0 has crashed, and has joined again through n3 at 100: its epoch is 2, and call 3 is out for JoinStep."""
    world, node = world_of(*keys, changes=changes)
    happen(world, node, CmdCrash(), 1)
    happen(world, node, CmdJoin(2), 1)
    return world, node


def fail(world: World, node: Node, times: int) -> None:
    """This number of attempts end Stuck, each after its pause."""
    for _ in range(times):
        happen(world, node, StepReply(next(iter(node.calls)), Stuck()), 4)
        happen(world, node, Rejoin(2), 2)


class JoinPausesTest(TestCase):
    """Join failure, Pause, Try again and Rejoin."""

    def test_pause(self) -> None:
        """The first attempt used the numbers 3 and 4. Rejoin is event 5, and then comes the step, which is event 6."""
        world, node = joining("join_pause_us = 70")
        assert happen(world, node, StepReply(3, Stuck()), 4) == ([], [(170, 5, 0, Rejoin(2))])
        assert (node.status, node.join, node.calls) == (Status.JOINING, Attempt(failures=1, is_answered=True), {})
        made = happen(world, node, Rejoin(2), 2)[1]
        assert made == [(110, 6, 2, Step(6, 0, [])), (140, 7, 0, Timeout(6))]
        # There is a call now, so that another Rejoin would be nothing.
        assert happen(world, node, Rejoin(2), 2) == ([], [])

    def test_no_pause(self) -> None:
        """The next attempt begins at once."""
        for keys in ((), ("join_pause_us = 0",)):
            world, node = joining(*keys)
            assert happen(world, node, StepReply(3, Stuck()), 4)[1][0] == (110, 5, 2, Step(5, 0, []))

    def test_nodes_to_avoid_are_kept_and_steps_are_not(self) -> None:
        """n1 has not replied: after the pause n0 asks n3 for another node than n1."""
        world, node = joining("join_pause_us = 70")
        happen(world, node, StepReply(3, Next(1)), 4)
        assert node.join == Attempt(steps=1, is_answered=True)
        assert happen(world, node, Timeout(5), 2) == (["timeout n1"], [(170, 7, 0, Rejoin(2))])
        assert node.join == Attempt(failures=1, avoid=[1], is_answered=True)
        assert happen(world, node, Rejoin(2), 2)[1][0] == (110, 8, 2, Step(8, 0, [1]))

    def test_rejoin_of_another_life(self) -> None:
        """n0 crashes in its pause. The Rejoin of the epoch 2 is nothing then, and nothing after n0 has joined again."""
        world, node = joining("join_pause_us = 70")
        happen(world, node, StepReply(3, Stuck()), 4)
        happen(world, node, CmdCrash(), 1)
        assert happen(world, node, Rejoin(2), 2) == ([], [])
        happen(world, node, CmdJoin(1), 1)
        node.calls.clear()
        assert happen(world, node, Rejoin(2), 2) == ([], [])
        assert happen(world, node, Rejoin(3), 2)[1][0][2:] == (1, Step(node.count - 1, 0, []))

    def test_rejoin_of_a_member(self) -> None:
        """A member does not join."""
        world, node = world_of("join_pause_us = 70")
        assert happen(world, node, Rejoin(1), 2) == ([], [])

    def test_eighth_failure(self) -> None:
        """The join is over: n0 is down, and sets no Rejoin. If it churns it sets Rise."""
        world, node = joining("join_pause_us = 70")
        fail(world, node, 7)
        assert happen(world, node, StepReply(next(iter(node.calls)), Stuck()), 4) == (["join-failed"], [])
        assert (node.status, node.join) == (Status.DOWN, None)
        world, node = joining("join_pause_us = 70", "join_forever = false", changes=SPANS)
        fail(world, node, 7)
        lines, made = happen(world, node, StepReply(next(iter(node.calls)), Stuck()), 4)
        assert (lines, [body for *_, body in made]) == (["join-failed"], [Rise(2)])

    def test_join_forever(self) -> None:
        """After the eighth failure come eight pauses, and a fresh attempt with nobody to avoid. A Rise is not set."""
        for changes in ((), SPANS):
            world, node = joining("join_pause_us = 70", "join_forever = true", changes=changes)
            fail(world, node, 7)
            assert node.join == Attempt(failures=7, is_answered=True)
            node.join.avoid.append(1)
            lines, made = happen(world, node, StepReply(next(iter(node.calls)), Stuck()), 4)
            assert (lines, [(made[0][0], made[0][3])]) == (["join-failed"], [(660, Rejoin(2))]) and len(made) == 1
            assert (node.status, node.epoch, node.join, node.calls) == (Status.JOINING, 2, Attempt(), {})
            assert happen(world, node, Rejoin(2), 2)[1][0][2:] == (2, Step(node.count - 1, 0, []))

    def test_join_forever_without_pauses(self) -> None:
        """The ninth attempt begins at once, behind the line."""
        world, node = joining("join_forever = true")
        for _ in range(7):
            happen(world, node, StepReply(next(iter(node.calls)), Stuck()), 4)
        lines, made = happen(world, node, StepReply(next(iter(node.calls)), Stuck()), 4)
        assert lines == ["join-failed"] and made[0][:1] + made[0][2:] == (110, 2, Step(node.count - 1, 0, []))
        assert node.join == Attempt()

    def test_times_of_a_join(self) -> None:
        """n0 joins through n1, which is down, by a timeout of 40 and pauses of 100.

        The first attempt begins at 0 and fails at 40. The others follow 140 apart, so that the eighth one fails at
        40 + 7 times 140 = 1020. The ninth begins 800 later, at 1820, and the sixteenth fails at 1860 + 980 = 2840. The
        pause after it, of 800 again, is not over when the run ends.
        """
        text = extended("join_pause_us = 100", "join_forever = true", changes=QUIET)
        text = text.partition("[[command]]")[0] + COMMANDS
        lines, numbers = ran(text)
        begins = [140 * k for k in range(8)] + [1820 + 140 * k for k in range(8)]
        assert [line for line in lines if "timeout" in line] == [f"{time + 40} n0 timeout n1" for time in begins]
        assert [line for line in lines if "drop" in line] == [f"{time + 10} n1 drop step n0" for time in begins]
        assert [line for line in lines if "failed" in line] == ["1020 n0 join-failed", "2840 n0 join-failed"]
        assert (numbers["join-failed"], numbers["timeouts"], numbers["members"]) == (2, 16, 0)
        # Three commands, and for each attempt a step, a timeout and a Rejoin, of which the last one is too late.
        assert numbers["events"] == 3 + 3 * 16 - 1
