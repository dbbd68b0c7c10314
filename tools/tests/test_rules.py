"""Rules by hand, at nodes n0, n1 and n3 of examples/ring.toml (the nodes 0, 1 and 2, at the places 0, 1 and 3)."""

from unittest import TestCase

from chordsim_tools.reference.rules import act
from chordsim_tools.reference.simulation import initial_states
from chordsim_tools.reference.state import (
    Body, Call, CmdCrash, CmdJoin, CmdLookup, Event, GetList, GetState, LifeEnd, ListReply, Lookup, Next, Node, Notify,
    Owner, Ping, Pong, Purpose, Rise, StabilizeTick, StateReply, Status, Step, StepReply, Stuck, Timeout,
)
from chordsim_tools.reference.turn import World
from tests.support.worlds import ring

WORLD = World(ring())


def member() -> Node:
    """Node n0 as it is at the start, but that it has made no events: prdc n3, succ n1 and n3."""
    return initial_states(WORLD)[0]


def joining() -> Node:
    """Node n0 after a join through n3 at time 100: call 3 is out for JoinStep."""
    node = Node(0)
    happen(node, CmdJoin(2), 1)
    return node


def happen(node: Node, body: Body, origin: int) -> tuple[list[str], list[tuple[int, int, Body]]]:
    """Lets an event happen at n0 at 100. Gives its lines, and of each event made the time, the target and the body."""
    events, lines = act(WORLD, node, Event(100, origin, 1, 0, body))
    return [line.removeprefix("100 n0 ") for line in lines], [(e.time, e.target, e.body) for e in events]


class RulesTest(TestCase):
    """Each rule by itself."""

    def test_join(self) -> None:
        """Up through n3: two timers, then Step with the own identifier, and its timeout."""
        node = Node(0)
        lines, made = happen(node, CmdJoin(2), 1)
        assert lines == ["join n3"]
        assert [type(body).__name__ for _, _, body in made] == ["StabilizeTick", "FingerTick", "Step", "Timeout"]
        assert made[2:] == [(110, 2, Step(3, 0, [])), (140, 0, Timeout(3))]
        assert (node.status, node.epoch, node.via, node.count, node.place) == (Status.JOINING, 1, 2, 4, 2)
        assert happen(node, CmdJoin(2), 1) == (["ignored join"], [])

    def test_join_comes_to_its_end(self) -> None:
        """The owner of the own identifier gives its list, of which n1 lies behind n0."""
        node = joining()
        assert happen(node, StepReply(3, Owner(0)), 4) == ([], [(110, 2, GetList(5)), (140, 0, Timeout(5))])
        assert happen(node, ListReply(5, [1, 2, 1]), 4) == (["member n3"], [])
        assert (node.status, node.prdc, node.succ, node.fingers) == (Status.MEMBER, 2, [1, 2], {2: 1, 3: 1})
        assert node.join is None

    def test_join_fails_at_the_eighth_failure(self) -> None:
        """Seven answers Stuck are borne, the eighth is not."""
        node = joining()
        for number in range(3, 17, 2):
            lines, made = happen(node, StepReply(number, Stuck()), 4)
            assert (lines, made[0]) == ([], (110, 2, Step(number + 2, 0, [])))
        assert happen(node, StepReply(17, Stuck()), 4) == (["join-failed"], [])
        assert (node.status, node.epoch, node.via, node.calls) == (Status.DOWN, 1, 2, {})

    def test_join_avoids_silent_nodes_but_via(self) -> None:
        """A timeout of n1 puts it on the list; one of n3, the via, does not."""
        node = joining()
        happen(node, StepReply(3, Next(1)), 4)
        lines, made = happen(node, Timeout(5), 2)
        assert (lines, made[0]) == (["timeout n1"], (110, 2, Step(7, 0, [1])))
        lines, made = happen(node, Timeout(7), 2)
        assert (lines, made[0]) == (["timeout n3"], (110, 2, Step(9, 0, [1])))

    def test_requests_are_dropped_where_no_member_is(self) -> None:
        """A joining node drops requests and notifies, and is late with replies that nobody waits for."""
        node = joining()
        assert happen(node, Notify(), 3) == (["drop notify n1"], [])
        assert happen(node, Ping(9), 4) == (["drop ping n3"], [])
        assert happen(node, Pong(9), 4) == (["late pong n3"], [])
        assert happen(node, ListReply(3, [1]), 4) == (["late list-reply n3"], [])
        happen(node, CmdCrash(), 1)
        assert happen(node, StepReply(3, Stuck()), 4) == (["drop step-reply n3"], [])
        assert happen(node, CmdCrash(), 1) == (["ignored crash"], [])
        assert happen(node, CmdLookup(4), 1) == (["ignored lookup"], [])

    def test_stabilization(self) -> None:
        """The successor n1 is asked; its predecessor, n0 itself, is not between; n1 is notified."""
        node = member()
        _, made = happen(node, StabilizeTick(1), 2)
        assert made[1:] == [(110, 1, GetState(2)), (140, 0, Timeout(2))]
        assert happen(node, StateReply(2, 0, [2, 0]), 3) == ([], [(110, 1, Notify())])
        assert node.succ == [1, 2]
        assert happen(node, StabilizeTick(0), 2) == ([], [])

    def test_silent_successors(self) -> None:
        """n1 leaves the list, then n3, and n0 is stranded. Its User lookup is lost, and its call for it is gone."""
        node = member()
        node.calls = {4: Call(4, 1, Purpose.STATE)}
        assert happen(node, CmdLookup(7), 1)[0] == ["lookup 7"]
        lines, made = happen(node, Timeout(4), 2)
        assert (lines, made[0], node.succ) == (["timeout n1"], (110, 2, GetState(3)), [2])
        lines, made = happen(node, Timeout(3), 2)
        assert lines == ["timeout n3", "stranded n1", "lost 7 hops=0 timeouts=0 us=0"]
        assert made == [(110, 1, Step(5, 0, [])), (140, 0, Timeout(5))]
        assert (node.status, list(node.calls), node.lookups, node.fingers) == (Status.JOINING, [5], [], {})

    def test_notify(self) -> None:
        """n1 is no nearer than n3, which is pinged; where it is silent n1 takes its place; then n3 is nearer."""
        node = member()
        assert happen(node, Notify(), 4) == ([], [])
        assert happen(node, Notify(), 3) == ([], [(110, 2, Ping(1)), (140, 0, Timeout(1))])
        assert happen(node, Notify(), 3) == ([], [])
        assert happen(node, Timeout(1), 2) == (["timeout n3"], [])
        assert node.prdc == 1
        assert happen(node, Notify(), 4) == ([], [])
        assert node.prdc == 2

    def test_sixty_lookups(self) -> None:
        """The sixty-first is refused as busy, also where a Finger lookup is in progress."""
        node = member()
        node.lookups = [Lookup(7, 2, 0, call=-1)]
        for _ in range(60):
            assert happen(node, CmdLookup(7), 1)[0] == ["lookup 7"]
        assert happen(node, CmdLookup(7), 1) == (["busy 7"], [])

    def test_ninth_timeout(self) -> None:
        """A lookup outlives eight timeouts, of as many nodes."""
        node = member()
        happen(node, CmdLookup(7), 1)
        node.lookups[0].timeouts = 8
        node.lookups[0].avoid = list(range(3, 11))
        assert happen(node, Timeout(1), 2) == (["timeout n3", "lost 7 hops=0 timeouts=9 us=0"], [])

    def test_stuck_after_two_timeouts(self) -> None:
        """n3 precedes the key 7, then n1; then both are to be avoided."""
        node = member()
        happen(node, CmdLookup(7), 1)
        assert happen(node, Timeout(1), 2)[1][0] == (110, 1, Step(3, 7, [2]))
        assert happen(node, Timeout(3), 2) == (["timeout n1", "lost 7 hops=0 timeouts=2 us=0"], [])

    def test_no_more_than_128_requests(self) -> None:
        """A lookup that has made 128 steps asks nobody more."""
        node = member()
        happen(node, CmdLookup(7), 1)
        node.lookups[0].steps = 128
        assert happen(node, StepReply(1, Next(1)), 4) == (["lost 7 hops=1 timeouts=0 us=0"], [])

    def test_lives_end_at_churn_nodes_only(self) -> None:
        """n0 is no churn node; and it rises only where it is down."""
        node = member()
        assert happen(node, LifeEnd(1), 2) == ([], [])
        assert happen(node, Rise(1), 2) == ([], [])
        happen(node, CmdCrash(), 1)
        assert happen(node, Rise(0), 2) == ([], [])
        assert happen(node, Rise(1), 2)[0] == ["join n1"]
