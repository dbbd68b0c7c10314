"""Leaves by hand: rules at n0 in the ring of examples/ring.toml, and whole runs.

n0, n1 and n3 are the nodes 0, 1 and 2 and are at 0, 1 and 3. At the start n0 has the list n1, n3, the predecessor n3,
and the fingers 2:n3 and 3:n0. Latencies are 10, the timeout is 40, and the seed is 1.
"""

from unittest import TestCase

from chordsim_tools.reference.chacha import Stream
from chordsim_tools.reference.report import Report
from chordsim_tools.reference.state import (
    Body, CmdCrash, CmdJoin, CmdLeave, CmdLookup, GetState, Leave, LifeEnd, Node, Owner, Pong, Purpose, Rise,
    StabilizeTick, Status, Step, StepReply, Timeout,
)
from tests.support.rings import ProgramTest
from tests.support.worlds import RING, fault
from tests.test_extended_profile import SPANS, world_of
from tests.test_published import TOP, command, ended, ring
from tests.test_second_profile import happen

RULES = ("drop_silent = false", "drop_silent = true")
"""A leave does the same with each of them."""
Made = list[tuple[int, int, int, Body]]


class LeaveTest(TestCase):
    """What a node does that leaves."""

    def left(self, prdc: int | None, succ: list[int]) -> Made:
        """What n0 makes when it leaves with this predecessor and this list. It is down then."""
        world, node = world_of()
        node.prdc, node.succ = prdc, succ
        lines, made = happen(world, node, CmdLeave(), 1)
        assert lines == ["leave"]
        assert (node.status, node.epoch, node.via, node.prdc) == (Status.DOWN, 1, 1, None)
        assert (node.succ, node.fingers, node.calls, node.lookups) == ([], {}, {}, [])
        return made

    def test_two_messages(self) -> None:
        """The predecessor is told, and then the head, of both and of the whole list."""
        leave = Leave(2, [1, 2])
        assert self.left(2, [1, 2]) == [(110, 1, 2, leave), (110, 2, 1, leave)]

    def test_one_message(self) -> None:
        """Of a ring of two, or if there is no predecessor, or if one of the two is n0 itself."""
        assert self.left(1, [1]) == [(110, 1, 1, Leave(1, [1]))]
        assert self.left(None, [1, 2]) == [(110, 1, 1, Leave(None, [1, 2]))]
        assert self.left(0, [1]) == [(110, 1, 1, Leave(0, [1]))]
        assert self.left(2, [0, 1]) == [(110, 1, 2, Leave(2, [0, 1]))]

    def test_alone(self) -> None:
        """A ring of one has nobody to tell, whether the node is its own predecessor or has none."""
        assert self.left(0, [0]) == self.left(None, [0, 0]) == []

    def test_joining(self) -> None:
        """A node that joins tells nobody. It has no attempt any more, and its call is over."""
        world, node = world_of("join_pause_us = 70")
        happen(world, node, CmdCrash(), 1)
        happen(world, node, CmdJoin(2), 1)
        assert happen(world, node, CmdLeave(), 1) == (["leave"], [])
        assert (node.status, node.join, node.calls, node.via, node.epoch) == (Status.DOWN, None, {}, 2, 2)

    def test_down(self) -> None:
        """The command is ignored."""
        world, node = world_of()
        happen(world, node, CmdLeave(), 1)
        assert happen(world, node, CmdLeave(), 1) == (["ignored leave"], [])

    def test_own_ring(self) -> None:
        """A node that has made its ring joins the others of it when it comes up again, as after a crash."""
        world, node = world_of()
        happen(world, node, CmdCrash(), 1)
        happen(world, node, CmdJoin(0), 1)
        node.succ = [0, 2]
        happen(world, node, CmdLeave(), 1)
        assert (node.status, node.via) == (Status.DOWN, 2)

    def test_calls_in_hand(self) -> None:
        """A lookup and a check are over: replies are dropped, and the timeout finds no call."""
        world, node = world_of("check_us = 400")
        lines, made = happen(world, node, CmdLookup(2), 1)
        assert (lines, made) == (["lookup 2"], [(110, 1, 1, Step(1, 2, [])), (140, 2, 0, Timeout(1))])
        node.count = 3  # One more event, so that the numbers of the messages are not those of a call.
        assert [number for _, number, *_ in happen(world, node, CmdLeave(), 1)[1]] == [4, 5]
        assert happen(world, node, StepReply(1, Owner(2)), 3) == (["drop step-reply n1"], [])
        assert happen(world, node, Pong(9), 4) == (["drop pong n3"], [])
        assert happen(world, node, Timeout(1), 2) == ([], [])


class NeighbourTest(TestCase):
    """What a node does that is told of a leave."""

    def told(
        self, q: int, body: Leave, prdc: int | None = 2, succ: tuple[int, ...] = (1, 2), far: int = 2, most: int = 2
    ) -> tuple[list[str], int | None, list[int], dict[int, int]]:
        """The lines of n0 when q leaves, and its predecessor, list and fingers then. `drop_silent` changes nothing.

        n0 has this predecessor and this list before, of at most so many entries, and this second finger."""
        found = []
        for rule in RULES:
            world, node = world_of(rule, changes=(("list = 2", f"list = {most}"),))
            node.prdc, node.succ, node.fingers = prdc, list(succ), {2: far, 3: 0}
            lines, made = happen(world, node, body, 2 + q)
            assert (made, node.status) == ([], Status.MEMBER)
            found.append((lines, node.prdc, node.succ, node.fingers))
        assert found[0] == found[1]
        return found[0]

    def test_first_successor(self) -> None:
        """n1 leaves the list, and n3 is the head. Of the list of n1 n0 itself follows."""
        assert self.told(1, Leave(0, [2, 0])) == ([], 2, [2, 0], {2: 2, 3: 0})

    def test_predecessor(self) -> None:
        """n3 is also the second successor. n1 takes its place as predecessor and finger, and n0 itself in the list."""
        assert self.told(2, Leave(1, [0, 1])) == ([], 1, [1, 0], {2: 1, 3: 0})

    def test_no_other_predecessor(self) -> None:
        """n3 had none, or had itself: n0 has none then. If n3 is not the predecessor, that of n0 stays."""
        assert self.told(2, Leave(None, [0]))[1] is None
        assert self.told(2, Leave(2, [0]))[1] is None
        assert self.told(2, Leave(0, [1]), prdc=1)[1] == 1
        assert self.told(2, Leave(0, [1]), prdc=None)[1] is None

    def test_neither_successor_nor_predecessor(self) -> None:
        """Its list is not taken. It leaves the fingers."""
        assert self.told(2, Leave(0, [0, 2]), prdc=1, succ=(1,)) == ([], 1, [1], {2: 1, 3: 0})

    def test_doubles(self) -> None:
        """It leaves the list at all its places. What its own list has twice comes twice, and what is there does not."""
        assert self.told(2, Leave(1, [1, 2, 1]), succ=(2, 2))[2] == [1, 1]
        assert self.told(2, Leave(1, [0, 0]), succ=(2, 1, 2), most=4)[2] == [1, 0, 0]
        assert self.told(2, Leave(1, [1, 0, 1]), succ=(2, 1, 2), most=4)[2] == [1, 0]

    def test_full_list(self) -> None:
        """The list is cut: of two that follow one has room. If that is n0 itself, a finger takes its place."""
        assert self.told(1, Leave(0, [2, 0]), succ=(1,), most=1)[2] == [2]
        assert self.told(1, Leave(0, [0, 2]), succ=(1,), most=1, far=0) == ([], 2, [0], {2: 0, 3: 0})
        assert self.told(1, Leave(0, [0, 2]), succ=(1,), most=1) == (["rescue n3"], 2, [2], {2: 2, 3: 0})
        assert self.told(1, Leave(0, [2, 0, 2]), succ=(1,), most=2)[2] == [2, 0]

    def test_ring_of_two(self) -> None:
        """Nobody else is left: n0 is a ring of one, and its own predecessor."""
        assert self.told(1, Leave(0, [0]), prdc=1, succ=(1,), far=1) == ([], 0, [0], {2: 0, 3: 0})

    def test_rescue(self) -> None:
        """The list of n1 names nobody but n0 or n1: n0 takes its finger n3."""
        assert self.told(1, Leave(0, [0]), succ=(1,)) == (["rescue n3"], 2, [2, 0], {2: 2, 3: 0})
        assert self.told(1, Leave(0, [1]), succ=(1,)) == (["rescue n3"], 2, [2], {2: 2, 3: 0})

    def test_stranding(self) -> None:
        """The list of n1 is n1 alone, and n0 has no other finger: it joins again, through n1. Its lookup is lost."""
        for rule in RULES:
            world, node = world_of(rule)
            node.succ, node.fingers = [1], {2: 1, 3: 0}
            happen(world, node, CmdLookup(2), 1)
            lines, made = happen(world, node, Leave(0, [1]), 3)
            assert lines == ["stranded n1", "lost 2 hops=0 timeouts=0 us=0"]
            assert made == [(110, 3, 1, Step(3, 0, [])), (140, 4, 0, Timeout(3))]
            assert (node.status, node.prdc, node.succ, node.fingers) == (Status.JOINING, None, [], {})

    def test_no_member(self) -> None:
        """A node that joins, or is down, drops the message."""
        world, node = world_of()
        happen(world, node, CmdCrash(), 1)
        assert happen(world, node, Leave(0, [2]), 3) == (["drop leave n1"], [])
        happen(world, node, CmdJoin(2), 1)
        assert happen(world, node, Leave(0, [2]), 3) == (["drop leave n1"], [])
        assert node.succ == []

    def test_question_to_the_leaver(self) -> None:
        """n1 was asked for its state, and leaves: at the timeout it is in the list no more, and n3 is asked."""
        for rule in RULES:
            world, node = world_of(rule)
            made = happen(world, node, StabilizeTick(1), 2)[1]
            assert made[1:] == [(110, 2, 1, GetState(2)), (140, 3, 0, Timeout(2))]
            assert happen(world, node, Leave(0, [2, 0]), 3) == ([], [])
            assert [call.purpose for call in node.calls.values()] == [Purpose.STATE]
            lines, made = happen(world, node, Timeout(2), 2)
            assert (lines, made) == (["timeout n1"], [(110, 4, 2, GetState(4)), (140, 5, 0, Timeout(4))])
            assert node.succ == [2, 0]


class LifeEndTest(TestCase):
    """Leaves at ends of lives."""

    def ended(self, ppm: str, *keys: str) -> tuple[list[str], Made, Node]:
        """The end of the first life of n0, with this line of `leave_ppm`."""
        changes = (*SPANS, ("down_max_us = 100\n", f"down_max_us = 100\n{ppm}"))
        world, node = world_of(*keys, changes=changes)
        place = node.place
        lines, made = happen(world, node, LifeEnd(1), 2)
        node.place -= place
        return lines, made, node

    def test_draw(self) -> None:
        """The number is the first two words of kind 10 for the epoch: 2^64 parts of a million. The Rise is the same."""
        own = Stream(1, 10 * 2**32)
        number = (own.word(4) * 2**32 + own.word(5)) * 1_000_000 // 2**64
        assert 0 < number < 999_999
        lines, made, node = self.ended(f"leave_ppm = {number}\n")
        rise = made[0]
        assert (lines, made, node.place) == (["crash"], [(rise[0], 1, 0, Rise(1))], 2)
        lines, made, node = self.ended(f"leave_ppm = {number + 1}\n")
        assert (lines, node.status) == (["leave"], Status.DOWN)
        assert made[2] == (rise[0], 3, 0, Rise(1))
        assert [(target, body) for _, _, target, body in made[:2]] == [(2, Leave(2, [1, 2])), (1, Leave(2, [1, 2]))]

    def test_nothing_is_drawn(self) -> None:
        """Without the key, and with 0: the Rise is the only draw. So it is at other nodes and in other lives."""
        for ppm in ("", "leave_ppm = 0\n"):
            lines, made, node = self.ended(ppm)
            assert (lines, len(made), node.place) == (["crash"], 1, 1)
        changes = (*SPANS, ("down_max_us = 100\n", "down_max_us = 100\nleave_ppm = 1000000\n"))
        world, node = world_of(changes=changes)
        place = node.place
        assert happen(world, node, LifeEnd(2), 2) == happen(world, node, LifeEnd(0), 2) == ([], [])
        assert (node.status, node.place) == (Status.MEMBER, place)

    def test_all(self) -> None:
        """Of a million all are leaves, also that of a node that joins, which tells nobody."""
        assert self.ended("leave_ppm = 1000000\n")[0] == ["leave"]
        changes = (*SPANS, ("down_max_us = 100\n", "down_max_us = 100\nleave_ppm = 1000000\n"))
        world, node = world_of(changes=changes)
        happen(world, node, CmdCrash(), 1)
        happen(world, node, CmdJoin(2), 1)
        lines, made = happen(world, node, LifeEnd(2), 2)
        assert (lines, [body for *_, body in made]) == (["leave"], [Rise(2)])


KEYS = {"check_us": "0", "random_start": "false", "duration_us": "300", "audit_us": "300"}
CHURN = "[churn]\nlife_min_us = 300\nlife_max_us = 300\ndown_min_us = 200\ndown_max_us = 200\nleave_ppm = 1000000\n"


def text(nodes: str, commands: str, **keys: str) -> str:
    """A scenario with these nodes and commands."""
    return "".join(f"{key} = {value}\n" for key, value in (TOP | KEYS | keys).items()) + nodes + commands


FIVE = ring(0, 40, 50, 60, 200)
BY_COMMAND = text(
    FIVE, command(100, "leave", "n50") + command(200, "lookup", "n0", "key = 45"), duration_us="2000", audit_us="1000"
)
"""n50 leaves: n40 and n60 know it at 110, and the list of n40 is n60, n200. It names n60 as the owner of 45."""
BY_COMMAND_TRACE = """\
100 n50 leave
100 n50 send leave n40
100 n50 send leave n60
200 n0 lookup 45
200 n0 ask step n40 call=3 key=45 since=200
210 n40 send step-reply n0
220 n0 ask get-state n60 call=5 key=45 since=200
230 n60 send state-reply n0
240 n0 found 45 n60 hops=1 timeouts=0 us=40
1000 audit members=4 dead=0 ring=4 ordered=yes principals=4 sufficient=yes
2000 audit members=4 dead=0 ring=4 ordered=yes principals=4 sufficient=yes
"""
BY_COMMAND_REPORT = (
    "events 10\nmembers 0\njoin-failed 0\ncrashes 0\nstranded 0\ndrops 0\nlate 0\ntimeouts 0\nlookups 1\nfound 1\n"
    "lost 0\nbusy 0\nignored 0\nunfinished 0\nhops-sum 1\nhops-greatest 1\nus-sum 40\nus-least 40\nus-median 40\n"
    "us-greatest 40\naudits 2\nringless 0\nunordered 0\ninsufficient 0\nlosses 0\nagain 0\nforgotten 0\nleaves 1\n"
    "rescues 0\ncreates 0\ntimeouts-sum 0\n"
)
"""Two commands, two leaves, a step and a get-state with their replies and their timeouts."""
CRASH_TRACE = """\
100 n50 crash
200 n0 lookup 45
200 n0 ask step n40 call=3 key=45 since=200
210 n40 send step-reply n0
220 n0 ask get-state n50 call=5 key=45 since=200
230 n50 drop get-state n0
270 n0 timeout n50
270 n0 ask step n40 call=7 key=45 since=200
280 n40 send step-reply n0
290 n0 ask get-state n60 call=9 key=45 since=200
300 n60 send state-reply n0
310 n0 found 45 n60 hops=1 timeouts=1 us=110
1000 audit members=4 dead=0 ring=4 ordered=yes principals=4 sufficient=yes
2000 audit members=4 dead=0 ring=4 ordered=yes principals=4 sufficient=yes
"""
"""The same if n50 crashes: n0 finds that out by a timeout."""
RING_OF_TWO = text(ring(0, 100), command(100, "leave", "n100") + command(200, "lookup", "n0", "key = 50"))
"""n100 tells n0 once, which then is a ring of one, and the owner of each key."""
RING_OF_TWO_TRACE = """\
100 n100 leave
100 n100 send leave n0
200 n0 lookup 50
200 n0 ask get-state n0 call=3 key=50 since=200
201 n0 send state-reply n0
202 n0 found 50 n0 hops=0 timeouts=0 us=2
300 audit members=1 dead=0 ring=1 ordered=yes principals=1 sufficient=no
"""
AT_THE_END_OF_A_LIFE = text(CHURN + ring(0, 40, 60) + "churn = true\n", "", duration_us="1000", audit_us="1000")
"""n60 lives for 300 and is down for 200, and all its lives end with a leave. It joins through n0, the first other node.

When it is back the list of n40 is n0, n40, and n40 is the predecessor of n0. So n60 joins between them."""
AT_THE_END_OF_A_LIFE_TRACE = """\
300 n60 leave
300 n60 send leave n40
300 n60 send leave n0
500 n60 join n0
500 n60 ask step n0 call=10
510 n0 send step-reply n60
520 n60 ask step n40 call=12
530 n40 send step-reply n60
540 n60 ask get-list n40 call=14
550 n40 send list-reply n60
560 n60 ask get-state n0 call=16
570 n0 send state-reply n60
580 n60 member n40
580 n60 send notify n0
800 n60 leave
800 n60 send leave n40
800 n60 send leave n0
1000 audit members=2 dead=0 ring=2 ordered=yes principals=2 sufficient=no
"""
IN_HAND = text(
    FIVE, command(95, "lookup", "n50", "key = 205") + command(100, "leave", "n50"), check_us="92", duration_us="150",
    audit_us="150",
)
"""n50 checks its predecessor at 92, as all do, and looks up a key at 95. Both are out when it leaves.

n60 has checked it then, and has the predecessor n40 at 110: so at the timeout at 142 it forgets nobody."""
IN_HAND_TRACE = """\
92 n0 ask ping n200 call=5
92 n40 ask ping n0 call=5
92 n50 ask ping n40 call=5
92 n60 ask ping n50 call=5
92 n200 ask ping n60 call=5
95 n50 lookup 205
95 n50 ask step n200 call=7 key=205 since=95
100 n50 leave
100 n50 send leave n40
100 n50 send leave n60
102 n200 send pong n0
102 n0 send pong n40
102 n40 send pong n50
102 n50 drop ping n60
102 n60 send pong n200
105 n200 send step-reply n50
112 n50 drop pong n40
115 n50 drop step-reply n200
142 n60 timeout n50
150 audit members=4 dead=0 ring=4 ordered=yes principals=4 sufficient=yes
"""
LOST = text(FIVE, command(100, "leave", "n50"), loss_ppm="1000000")
"""Both messages are lost. Nobody knows of the leave, as after a crash."""
LOST_TRACE = """\
100 n50 leave
100 n50 lose leave n40
100 n50 lose leave n60
300 audit members=4 dead=0 ring=4 ordered=yes principals=4 sufficient=yes
"""
WHILE_JOINING = text(
    ring(0, 100) + '[[node]]\nname = "n70"\nid = 70\n',
    command(100, "join", "n70", 'via = "n0"') + command(105, "leave", "n70") + command(106, "leave", "n70"),
)
"""n70 leaves before it is a member, and tells nobody. It is down at the second command, and when the reply comes."""
WHILE_JOINING_TRACE = """\
100 n70 join n0
100 n70 ask step n0 call=3
105 n70 leave
106 n70 ignored leave
110 n0 send step-reply n70
120 n70 drop step-reply n0
300 audit members=2 dead=0 ring=2 ordered=yes principals=2 sufficient=no
"""
TO_A_SILENT_NODE = text(ring(0, 40, 200), command(100, "crash", "n200") + command(110, "leave", "n40"), list="1")
"""The list of n40 is n200 alone, which is down and drops the message. n0 takes n200, since it cannot know that."""
TO_A_SILENT_NODE_TRACE = """\
100 n200 crash
110 n40 leave
110 n40 send leave n0
110 n40 send leave n200
120 n200 drop leave n40
300 audit members=1 dead=1 ring=0 ordered=yes principals=1 sufficient=no
"""
RESCUED = text(
    ring(0, 100, 140), command(100, "crash", "n140") + command(255, "leave", "n100"), list="1", stabilize_us="200",
    duration_us="455", audit_us="455",
)
"""n100 finds n140 silent and takes its finger n0, so that its list is n0 alone when it leaves.

n0 has nobody in its list then, and takes its finger n140. That is silent too, which n0 finds out at 450."""
RESCUED_TRACE = """\
100 n140 crash
200 n0 ask get-state n100 call=4
200 n100 ask get-state n140 call=4
210 n100 send state-reply n0
210 n140 drop get-state n100
220 n0 send notify n100
250 n100 timeout n140
250 n100 rescue n0
250 n100 ask get-state n0 call=7
255 n100 leave
255 n100 send leave n0
260 n0 send state-reply n100
265 n0 rescue n140
270 n100 drop state-reply n0
400 n0 ask get-state n140 call=9
410 n140 drop get-state n0
450 n0 timeout n140
450 n0 stranded n100
450 n0 ask step n100 call=11
455 audit members=0 dead=0 ring=0 ordered=yes principals=0 sufficient=no
"""
ASKED = text(ring(0, 100, 200), command(205, "leave", "n100"), stabilize_us="200", drop_silent="false")
"""n0 has asked n100 for its state when that leaves. At the timeout n100 is in its list no more, and n200 is the head.

n200 has n100 in its list again at 220, by a reply of n0 from before."""
ASKED_TRACE = """\
200 n0 ask get-state n100 call=4
200 n100 ask get-state n200 call=4
200 n200 ask get-state n0 call=4
205 n100 leave
205 n100 send leave n0
205 n100 send leave n200
210 n100 drop get-state n0
210 n200 send state-reply n100
210 n0 send state-reply n200
220 n200 send notify n0
220 n100 drop state-reply n200
250 n0 timeout n100
250 n0 ask get-state n200 call=7
260 n200 send state-reply n0
270 n0 send notify n200
300 audit members=2 dead=0 ring=2 ordered=yes principals=2 sufficient=no
"""
STRANDED = text(
    '[[node]]\nname = "n0"\nid = 0\n[[node]]\nname = "n100"\nid = 100\n',
    command(100, "join", "n100", 'via = "n100"') + command(200, "join", "n0", 'via = "n100"')
    + command(275, "leave", "n100"),
)
"""n100 has made a ring, and n0 has joined it. n100 leaves before it stabilizes: its list is still itself alone.

Both entries of the list of n0 are n100, so nobody is left in it."""
STRANDED_TRACE = """\
100 n100 join n100
100 n100 create
200 n0 join n100
200 n0 ask step n100 call=3
210 n100 send step-reply n0
220 n0 ask get-list n100 call=5
230 n100 send list-reply n0
240 n0 ask get-state n100 call=7
250 n100 send state-reply n0
260 n0 member n100
260 n0 send notify n100
275 n100 leave
275 n100 send leave n0
285 n0 stranded n100
285 n0 ask step n100 call=10
295 n100 drop step n0
300 audit members=0 dead=0 ring=0 ordered=yes principals=0 sufficient=no
"""
WORKED = (
    (BY_COMMAND, BY_COMMAND_TRACE), (BY_COMMAND.replace('"leave"', '"crash"'), CRASH_TRACE),
    (RING_OF_TWO, RING_OF_TWO_TRACE), (AT_THE_END_OF_A_LIFE, AT_THE_END_OF_A_LIFE_TRACE), (IN_HAND, IN_HAND_TRACE),
    (LOST, LOST_TRACE), (WHILE_JOINING, WHILE_JOINING_TRACE), (TO_A_SILENT_NODE, TO_A_SILENT_NODE_TRACE),
    (RESCUED, RESCUED_TRACE), (STRANDED, STRANDED_TRACE), (ASKED, ASKED_TRACE),
    (ASKED.replace("drop_silent = false", "drop_silent = true"), ASKED_TRACE),
)


class WorkedTest(TestCase):
    """Whole runs by the reference."""

    def test_traces(self) -> None:
        """Each scenario has its trace."""
        for toml, trace in WORKED:
            self.assertEqual(ended(toml)[0], trace)

    def numbers(self, toml: str) -> dict[str, int]:
        """The numbers of a report that are not 0."""
        return {word: number for word, number in ended(toml)[1].items() if number != 0}

    def test_numbers(self) -> None:
        """A leave is no crash. Ignored ones are counted with the other commands."""
        assert "".join(f"{word} {number}\n" for word, number in ended(BY_COMMAND)[1].items()) == BY_COMMAND_REPORT
        assert self.numbers(LOST) == {"events": 1, "audits": 1, "losses": 2, "leaves": 1}
        assert self.numbers(WHILE_JOINING) == {
            "events": 6, "drops": 1, "ignored": 1, "audits": 1, "insufficient": 1, "leaves": 1,
        }
        # Two ends of lives, four leaves, a rise, four requests with their replies and timeouts, and a notify.
        assert self.numbers(AT_THE_END_OF_A_LIFE) == {
            "events": 20, "members": 1, "audits": 1, "insufficient": 1, "leaves": 2,
        }
        numbers = self.numbers(IN_HAND)
        assert (numbers["lookups"], numbers["unfinished"], numbers["leaves"]) == (1, 1, 1)
        assert not {"found", "lost", "forgotten", "crashes"} & set(numbers)

    def test_place(self) -> None:
        """The number is the 28th, in profile 4 alone."""
        assert list(Report(4).numbers(0))[27] == "leaves"
        assert "leaves" not in Report(1).numbers(0) | Report(2).numbers(0)

    def test_messages_are_counted(self) -> None:
        """Two leaves are made, and lost ones are none of those."""
        assert BY_COMMAND.count("detail = true") == 1
        quiet = BY_COMMAND.replace("detail = true", "detail = false")
        lines = [line for line in BY_COMMAND_TRACE.splitlines(True) if " send " not in line and " ask " not in line]
        assert ended(quiet) == ("".join(lines), ended(BY_COMMAND)[1])


class LeavesProgram(ProgramTest):
    """The same by the program, with each engine."""

    def test_traces(self) -> None:
        """Each scenario has its trace."""
        for toml, trace in WORKED:
            self.all_write(toml, trace)

    def test_report(self) -> None:
        """The whole report of the first one."""
        self.all_leave(BY_COMMAND, BY_COMMAND_TRACE, BY_COMMAND_REPORT)

    def test_refusals(self) -> None:
        """Those of the reference."""
        for toml, answer in refusals():
            self.has_answer(toml, "", "ok nodes=3 commands=1" if answer == "accepted" else answer)


def churning(profile: int, *lines: str, table: str = "") -> str:
    """The ring of three with a table [churn] of all its keys and these lines, and further tables."""
    keys = "life_min_us = 1\nlife_max_us = 2\ndown_min_us = 3\ndown_max_us = 4\n"
    made = f"[churn]\n{keys}" + "".join(f"{line}\n" for line in lines) + table
    return RING.replace("profile = 1", f"profile = {profile}").replace("[[node]]", f"{made}[[node]]", 1)


def refusals() -> list[tuple[str, str]]:
    """Scenarios, and what they are refused for, if they are."""
    leaving = RING.replace('"lookup"', '"leave"')
    found = [
        (leaving, "S5 OutOfRange command 1 do"),
        (leaving.replace("profile = 1", "profile = 2"), "S5 OutOfRange command 1 do"),
        (leaving.replace("profile = 1", "profile = 4"), "accepted"),
        (leaving.replace("profile = 1", "profile = 4").replace("key = 1\n", ""), "accepted"),
        (leaving.replace("profile = 1", "profile = 4").replace('"leave"', '"Leave"'), "S5 OutOfRange command 1 do"),
        (churning(1, "leave_ppm = 0"), "S2 UnknownKey churn"),
        (churning(2, "leave_ppm = 0"), "S2 UnknownKey churn"),
        (churning(4, "leave_ppm = 0"), "accepted"),
        (churning(4, "leave_ppm = 1_000_000"), "accepted"),
        (churning(4, "leave_ppm = 1_000_001"), "S5 OutOfRange churn leave_ppm"),
        (churning(4, "leave_ppm = -1"), "S5 OutOfRange churn leave_ppm"),
        (churning(4, "leave_ppm = true"), "S4 WrongType churn leave_ppm"),
        (churning(4, "leave_ppm = 0.5"), "S4 WrongType churn leave_ppm"),
        (churning(4).replace("profile = 4", "profile = 4\nleave_ppm = 0"), "S2 UnknownKey top"),
    ]
    # The order of the keys of [churn]: `leave_ppm` comes last, so that another key is named.
    late = churning(4, "leave_ppm = 1_000_001").replace("down_max_us = 4", "down_max_us = 0")
    return [*found, (late, "S5 OutOfRange churn down_max_us")]


class RefusalsTest(TestCase):
    """What is refused, by the reference."""

    def test_refusals(self) -> None:
        """The command and the key are those of profile 4 alone."""
        for toml, answer in refusals():
            with self.subTest(toml=toml):
                assert fault(toml) == answer
