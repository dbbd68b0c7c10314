"""Checks of the predecessor by hand, at n0, n1 and n3 of examples/ring.toml in the extended profile.

The seed of the ring is 1. The stream (node, kind) of n0's CheckTick is (n0, 8). Its first two words on two occasions k:

  k=0:   37921f05 4096c6f9   0x37921f05 / 2^32 = 0.217.., times 100 gives 21
  k=100: a1cb0649 ec7388b7   0xa1cb0649 / 2^32 = 0.632.., times 100 gives 63
"""

from unittest import TestCase

from chordsim_tools.reference.procedures import Procedures
from chordsim_tools.reference.state import (
    CheckTick, CmdCrash, CmdJoin, FingerTick, GetState, LifeEnd, Node, Notify, Ping, Pong, Purpose, StabilizeTick,
    StateReply, Status, Timeout, TrafficTick,
)
from chordsim_tools.reference.turn import World
from tests.support.worlds import EXAMPLES, LATER
from tests.test_second_profile import CRASH, happen, ran
from tests.test_extended_profile import LONGER, SPANS, numbers_of, extended, world_of


def quiet(*keys: str) -> str:
    """The ring with these keys and without its lookup, for 400 us."""
    return extended(*keys, changes=LONGER).partition("[[command]]")[0]


def checking(*keys: str) -> tuple[World, Node]:
    """A world with a check each 100 us, and n0 at its start: its predecessor is n3, its successor n1."""
    return world_of("check_us = 100", *keys)


class ChecksTest(TestCase):
    """CheckTick, the timeout of its call, and what a node without a predecessor does."""

    def test_silent_predecessor(self) -> None:
        """n0 is down from 50 on. All check at 100: n1 pings n0 at 110, and forgets it at 140. n3 pings n1.

        From 200 on n1 has no predecessor to check. The events: the command; three ticks, two pings, a pong and two
        timeouts from 100 to 140; and from 200 and from 300 on two ticks, a ping, a pong and a timeout each.
        """
        text = quiet("check_us = 100") + CRASH
        assert ran(text)[0] == [
            "50 n0 crash",
            "110 n0 drop ping n1",
            "140 n1 timeout n0",
            "140 n1 forget n0",
            "400 audit members=2 dead=0 ring=2 ordered=yes principals=2 sufficient=no",
        ]
        ones = ("crashes", "drops", "timeouts", "audits", "insufficient", "forgotten")
        assert numbers_of(text) == {"events": 19} | dict.fromkeys(ones, 1)

    def test_no_checks(self) -> None:
        """Without the key, and with check_us = 0, nobody checks. `forgotten` is the 27th number nevertheless."""
        for keys in ((), ("check_us = 0",)):
            lines, numbers = ran(quiet(*keys) + CRASH)
            assert len(lines) == 2 and numbers["events"] == 1
            assert list(numbers)[24:] == list(LATER) and numbers["forgotten"] == 0

    def test_example(self) -> None:
        """The trace of examples/check_predecessor.toml is that of its head, and so is the one without checks."""
        text = (EXAMPLES / "check_predecessor.toml").read_text()
        begin = ["10 n2 crash"]
        middle = ["110 n2 drop get-state n0", "140 n0 timeout n2"]
        facts = "audit members=3 dead=0 ring=3 ordered=yes principals=3 sufficient=yes"
        audits = [f"150 {facts}", f"300 {facts}"]
        check = ["70 n2 drop ping n4", "100 n4 timeout n2", "100 n4 forget n2"]
        assert ran(text)[0] == begin + check + middle + audits
        late = ["170 n2 drop get-list n0", "200 n0 timeout n2", "220 n2 drop ping n4", "250 n4 timeout n2"]
        assert ran(text.replace("check_us = 60", "check_us = 0"))[0] == begin + middle + audits[:1] + late + audits[1:]

    def test_check(self) -> None:
        """The timer is set again first, as event 1. Then comes the ping, and its timeout. A pong ends the call."""
        world, node = checking()
        lines, made = happen(world, node, CheckTick(1), 2)
        assert (lines, made) == ([], [(200, 1, 0, CheckTick(1)), (110, 2, 2, Ping(2)), (140, 3, 0, Timeout(2))])
        assert [call.purpose for call in node.calls.values()] == [Purpose.CHECK]
        assert happen(world, node, Pong(2), 4) == ([], []) and not node.calls and node.prdc == 2
        assert happen(world, node, Timeout(2), 2) == ([], []) and node.prdc == 2

    def test_one_ping_at_a_time(self) -> None:
        """While a check is out, no tick and no notify makes a ping. While a ping is out, a tick makes no check."""
        world, node = checking()
        happen(world, node, CheckTick(1), 2)
        assert happen(world, node, CheckTick(1), 2) == ([], [(200, 4, 0, CheckTick(1))])
        assert happen(world, node, Notify(), 3) == ([], [])
        world, node = checking()
        assert happen(world, node, Notify(), 3)[1][0][3] == Ping(1)
        assert happen(world, node, CheckTick(1), 2) == ([], [(200, 3, 0, CheckTick(1))])

    def test_ticks_without_a_check(self) -> None:
        """A tick of another epoch or at a node that is down is nothing. A joining node sets it again."""
        world, node = checking()
        assert happen(world, node, CheckTick(0), 2) == ([], [])
        happen(world, node, CmdCrash(), 1)
        assert happen(world, node, CheckTick(1), 2) == ([], [])
        happen(world, node, CmdJoin(2), 1)
        assert node.status == Status.JOINING
        assert [made[3] for made in happen(world, node, CheckTick(2), 2)[1]] == [CheckTick(2)]

    def test_node_without_a_predecessor(self) -> None:
        """It says that it has none, does not check, and takes the next node that notifies without a ping."""
        world, node = checking()
        happen(world, node, CheckTick(1), 2)
        assert happen(world, node, Timeout(2), 2) == (["timeout n3", "forget n3"], []) and node.prdc is None
        assert happen(world, node, GetState(9), 3)[1] == [(110, 4, 1, StateReply(9, None, [1, 2]))]
        assert happen(world, node, CheckTick(1), 2) == ([], [(200, 5, 0, CheckTick(1))])
        assert happen(world, node, Notify(), 3) == ([], []) and node.prdc == 1

    def test_reply_without_a_predecessor(self) -> None:
        """The successor n1 has none: nobody is between, and n1 is notified."""
        world, node = checking()
        happen(world, node, StabilizeTick(1), 2)
        assert happen(world, node, StateReply(2, None, [2, 0]), 3) == ([], [(110, 4, 1, Notify())])
        assert node.succ == [1, 2]

    def test_other_predecessor_since(self) -> None:
        """n1 is checked. Then n3, which lies between n1 and n0, notifies. The timeout of n1 forgets nobody."""
        world, node = checking()
        node.prdc = 1
        assert happen(world, node, CheckTick(1), 2)[1][1] == (110, 2, 1, Ping(2))
        assert happen(world, node, Notify(), 4) == ([], []) and node.prdc == 2
        assert happen(world, node, Timeout(2), 2) == (["timeout n1"], []) and node.prdc == 2

    def test_check_is_sent_again(self) -> None:
        """With one retry the ping goes out twice, and both have the number 2. A second timeout forgets."""
        world, node = checking("retries = 1")
        happen(world, node, CheckTick(1), 2)
        lines, made = happen(world, node, Timeout(2), 2)
        assert (lines, made) == (["again ping n3"], [(110, 4, 2, Ping(2)), (140, 5, 0, Timeout(2))])
        assert happen(world, node, Timeout(2), 2) == (["timeout n3", "forget n3"], [])

    def test_timers(self) -> None:
        """CheckTick is set last. It comes after 100 + 21 from 0 on, and after 100 + 63 from 100 on."""
        world, node = world_of("check_us = 100", changes=SPANS)
        procedures = Procedures(world, node, 0)
        procedures.arm()
        kinds = [type(event.body) for event in procedures.events]
        assert kinds == [StabilizeTick, FingerTick, TrafficTick, LifeEnd, CheckTick]
        assert procedures.events[4].time == 121 and (node.place, node.count) == (5, 5)
        assert happen(world, node, CheckTick(1), 2)[1][0] == (263, 6, 0, CheckTick(1))
