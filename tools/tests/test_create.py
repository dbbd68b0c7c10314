"""Nodes that make rings, and bootstrap nodes, by hand, in the ring of examples/ring.toml.

n0, n1 and n3 are the nodes 0, 1 and 2 and are at 0, 1 and 3. The timeout is 40.
"""

from unittest import TestCase

from chordsim_tools.reference.report import Report
from chordsim_tools.reference.simulation import initial_states
from chordsim_tools.reference.state import (
    Attempt, Body, CheckTick, CmdCrash, CmdJoin, FingerTick, GetState, ListReply, Next, Node, Notify, Owner, Rejoin,
    StabilizeTick, StateReply, Status, Step, StepReply, Stuck, Timeout,
)
from chordsim_tools.reference.turn import World
from chordsim_tools.scenario.reading import read_scenario
from tests.support.rings import ProgramTest
from tests.support.worlds import RING, fault
from tests.test_extended_profile import extended, world_of
from tests.test_published import TOP, command, ended, ring
from tests.test_second_profile import happen

NODES = ("n0", "n1", "n3")


def bootstraps(*names: str) -> tuple[tuple[str, str], ...]:
    """The changes that make bootstrap nodes of these."""
    return tuple((f'name = "{name}"\n', f'name = "{name}"\nbootstrap = true\n') for name in names)


def joining(*names: str, via: int = 2, keys: tuple[str, ...] = ()) -> tuple[World, Node]:
    """n0 has crashed, and joins at 100 through n3 or another node, with these bootstrap nodes: its epoch is 2."""
    world, node = world_of("join_pause_us = 70", *keys, changes=bootstraps(*names))
    happen(world, node, CmdCrash(), 1)
    happen(world, node, CmdJoin(via), 1)
    return world, node


def fail(world: World, node: Node, body: type = Timeout) -> list[str]:
    """The attempt fails, by a silent node or by one that knows nobody. Gives the lines; the pause is over then."""
    number = next(iter(node.calls))
    asked = node.calls[number].asked
    event: Body = Timeout(number) if body is Timeout else StepReply(number, Stuck())
    lines, _ = happen(world, node, event, 2 if body is Timeout else 2 + asked)
    happen(world, node, Rejoin(2), 2)
    return lines


class CreateTest(TestCase):
    """A node that joins through itself."""

    def alone(self, *names: str, keys: tuple[str, ...] = ()) -> tuple[World, Node]:
        """n0 has made a ring at 100, in its second life."""
        world, node = world_of(*keys, changes=bootstraps(*names))
        happen(world, node, CmdCrash(), 1)
        lines, made = happen(world, node, CmdJoin(0), 1)
        assert lines == ["join n0", "create"]
        timers: list[Body] = [StabilizeTick(2), FingerTick(2)]
        assert [body for *_, body in made] == timers + [CheckTick(2)] * ("check_us = 400" in keys)
        return world, node

    def test_state(self) -> None:
        """It is a member that knows itself alone, and has no predecessor. Its timers are set."""
        _, node = self.alone(keys=("check_us = 400",))
        assert (node.status, node.epoch, node.via, node.prdc) == (Status.MEMBER, 2, 0, None)
        assert (node.succ, node.fingers, node.join, node.calls) == ([0], {2: 0, 3: 0}, None, {})

    def test_stabilization(self) -> None:
        """It asks itself, which takes 1, and notifies itself: so it is its own predecessor, until another is."""
        world, node = self.alone()
        made = happen(world, node, StabilizeTick(2), 2)[1]
        assert made[1:] == [(101, 4, 0, GetState(4)), (140, 5, 0, Timeout(4))]
        assert happen(world, node, GetState(4), 2)[1] == [(101, 6, 0, StateReply(4, None, [0]))]
        assert happen(world, node, StateReply(4, None, [0]), 2)[1] == [(101, 7, 0, Notify())]
        happen(world, node, Notify(), 2)
        assert (node.succ, node.prdc) == ([0, 0], 0)
        happen(world, node, Notify(), 4)
        assert node.prdc == 2

    def test_it_goes_down(self) -> None:
        """It has another via then: the next bootstrap node, or the first other node of its list, if there is one."""
        for names, succ, via in (
            ((), [0, 0], 0), ((), [0, 2, 1], 2), (("n1",), [0, 2], 1), (("n0",), [2], 2), (NODES, [0], 1),
        ):
            world, node = self.alone(*names)
            node.succ = list(succ)
            assert happen(world, node, CmdCrash(), 1) == (["crash"], [])
            assert (node.status, node.via, node.succ) == (Status.DOWN, via, [])

    def test_it_strands(self) -> None:
        """Its successor n1 is silent. It joins through the next bootstrap node, or makes a ring again."""
        for rule in ("false", "true"):
            for names, lines, status, made in (
                ((), ["timeout n1", "stranded n0", "create"], Status.MEMBER, []),
                (("n3",), ["timeout n1", "stranded n3"], Status.JOINING, [(110, 8, 2, Step(8, 0, []))]),
            ):
                world, node = self.alone(*names, keys=(f"drop_silent = {rule}",))
                node.succ, node.prdc = [1], 1
                happen(world, node, StabilizeTick(2), 2)
                node.count = 7
                told, events = happen(world, node, Timeout(4), 2)
                assert (told, events[:1], node.status) == (lines, made, status)
                assert node.prdc is None and node.via == (2 if names else 0)

    def test_another_via_stays(self) -> None:
        """A node whose via is another one keeps it, with and without bootstrap nodes."""
        world, node = world_of(changes=bootstraps("n1"))
        node.via = 2
        happen(world, node, CmdCrash(), 1)
        assert node.via == 2


class BootstrapTest(TestCase):
    """The next node to join through."""

    def test_next_one(self) -> None:
        """After each failure, in the order of the file, with n0 itself left out. A silent via is not avoided."""
        for names, vias in (
            ((), [2, 2, 2]), (("n1",), [1, 1, 1]), (("n1", "n3"), [1, 2, 1]), (NODES, [1, 2, 1]), (("n0",), [2, 2, 2]),
        ):
            for body in (Timeout, StepReply):
                world, node = joining(*names)
                for failures, via in enumerate(vias, start=1):
                    fail(world, node, body)
                    assert node.via == via
                    assert [call.asked for call in node.calls.values()] == [via]
                    assert node.join == Attempt(failures, is_answered=body is StepReply)

    def test_silent_node_that_is_named(self) -> None:
        """It is to be avoided, also when it is the next bootstrap node. That is asked nevertheless."""
        world, node = joining("n1")
        happen(world, node, StepReply(3, Next(1)), 4)
        happen(world, node, Timeout(5), 2)
        assert (node.via, node.join) == (1, Attempt(1, avoid=[1], is_answered=True))
        assert happen(world, node, Rejoin(2), 2)[1][0][2:] == (1, Step(8, 0, [1]))

    def test_eighth_failure(self) -> None:
        """The via moves on there too, and the node that goes down keeps it."""
        world, node = joining("n1", "n3")
        for _ in range(7):
            fail(world, node)
        assert (node.via, fail(world, node)) == (1, ["timeout n1", "join-failed"])
        assert (node.status, node.via) == (Status.DOWN, 2)

    def test_initial_via(self) -> None:
        """The first bootstrap node that is another one; without one the first other initial node."""
        for names, vias in (
            ((), [1, 0, 0]), (("n1",), [1, 0, 1]), (("n3",), [2, 2, 0]), (("n1", "n3"), [1, 2, 1]),
        ):
            world, _ = world_of(changes=bootstraps(*names))
            assert [one.via for one in initial_states(world)] == vias

    def test_initial_via_that_is_down(self) -> None:
        """A bootstrap node may be down at the start."""
        toml = extended() + '[[node]]\nname = "n6"\nid = 6\nbootstrap = true\n'
        nodes = initial_states(World(read_scenario(toml.encode(), b"")))
        assert [one.via for one in nodes] == [3, 3, 3, None]


class CreateAloneTest(TestCase):
    """A bootstrap node whose join has failed eight times."""

    def eighth(
        self, *keys: str, names: tuple[str, ...] = ("n0", "n1"), answers: bool = False
    ) -> tuple[list[str], Node]:
        """The lines of the eighth failure, and n0 after it. The third attempt was answered, if any was."""
        world, node = joining(*names, keys=keys)
        for number in range(7):
            fail(world, node, StepReply if answers and number == 2 else Timeout)
        return fail(world, node), node

    def test_nobody_answers(self) -> None:
        """It makes a ring, and keeps the other bootstrap node as its via."""
        lines, node = self.eighth("create_alone = true")
        assert lines == ["timeout n1", "join-failed", "create"]
        assert (node.status, node.succ, node.via, node.epoch) == (Status.MEMBER, [0], 1, 2)

    def test_otherwise(self) -> None:
        """It goes down, or begins again, if somebody has answered, if the key is not there or if it is no such node."""
        for keys, names, answers in (
            (("create_alone = true",), ("n0", "n1"), True), ((), ("n0", "n1"), False),
            (("create_alone = true",), ("n1",), False),
        ):
            lines, node = self.eighth(*keys, names=names, answers=answers)
            assert (lines[1:], node.status) == (["join-failed"], Status.DOWN)
            lines, node = self.eighth(*keys, "join_forever = true", names=names, answers=answers)
            assert (lines[1:], node.status) == (["join-failed"], Status.JOINING)
            assert node.join is not None and not node.join.is_answered

    def test_answers(self) -> None:
        """A reply to a step or to a request for a list is one, whatever it says; a late one is not."""
        world, node = joining("n0")
        assert node.join == Attempt()
        happen(world, node, StepReply(3, Owner(0)), 4)
        assert node.join.is_answered
        node.join.is_answered = False
        happen(world, node, ListReply(5, [0]), 4)
        assert node.join == Attempt(1, is_answered=True)
        node.join.is_answered = False
        assert happen(world, node, StepReply(3, Stuck()), 4)[0] == ["late step-reply n3"]
        assert not node.join.is_answered


KEYS = {"list": "1", "join_pause_us": "20", "duration_us": "300", "audit_us": "300", "check_us": "0"}
OFF_HERE = "ask_owner = false\nrandom_start = false\nskip_near = false\n"
"""The rules that would add lines."""


def text(nodes: str, commands: str, **keys: str) -> str:
    """A scenario with these nodes and commands."""
    return OFF_HERE + "".join(f"{key} = {value}\n" for key, value in (TOP | KEYS | keys).items()) + nodes + commands


THROUGH_ANOTHER = text(
    ring(0, 100).replace('"n0"\n', '"n0"\nbootstrap = true\n') + '[[node]]\nname = "n50"\nid = 50\n'
    '[[node]]\nname = "n200"\nid = 200\nbootstrap = true\n',
    command(100, "join", "n50", 'via = "n200"'),
)
"""n200 is a bootstrap node that is down, and n0 the next one after it. The list of n0 is n100."""
THROUGH_ANOTHER_TRACE = """\
100 n50 join n200
100 n50 ask step n200 call=3
110 n200 drop step n50
150 n50 timeout n200
170 n50 ask step n0 call=6
180 n0 send step-reply n50
190 n50 ask get-list n0 call=8
200 n0 send list-reply n50
210 n50 ask get-state n100 call=10
220 n100 send state-reply n50
230 n50 member n0
230 n50 send notify n100
300 audit members=3 dead=0 ring=2 ordered=yes principals=2 sufficient=yes
"""
SECOND_RING = text(
    ring(0, 100) + '[[node]]\nname = "n50"\nid = 50\n[[node]]\nname = "n60"\nid = 60\n',
    command(100, "join", "n50", 'via = "n50"') + command(110, "join", "n60", 'via = "n50"')
    + command(200, "crash", "n50") + command(210, "join", "n50", 'via = "n50"'),
)
"""n50 makes a ring beside that of n0 and n100, and n60 joins it. Then n50 crashes, and makes a ring once more."""
SECOND_RING_TRACE = """\
100 n50 join n50
100 n50 create
110 n60 join n50
110 n60 ask step n50 call=3
120 n50 send step-reply n60
130 n60 ask get-list n50 call=5
140 n50 send list-reply n60
150 n60 ask get-state n50 call=7
160 n50 send state-reply n60
170 n60 member n50
170 n60 send notify n50
200 n50 crash
210 n50 join n50
210 n50 create
300 audit members=4 dead=0 ring=3 ordered=no principals=0 sufficient=no
"""
FROM_NOTHING = text(
    '[[node]]\nname = "n10"\nid = 10\nbootstrap = true\n[[node]]\nname = "n50"\nid = 50\n'
    '[[node]]\nname = "n99"\nid = 99\nbootstrap = true\n',
    command(100, "join", "n10", 'via = "n10"') + command(200, "join", "n50", 'via = "n99"')
    + command(1100, "crash", "n50") + command(1110, "join", "n50", 'via = "n10"'),
    list="2", stabilize_us="300", duration_us="1250", audit_us="800",
)
"""No node is initial, and the bootstrap node n99 is never up.

n50 tries n99 and then n10, which has made a ring and whose list is n10 alone. It crashes, and is back before n10 has
noticed: the list of n10 is then n50, n10.
"""
FROM_NOTHING_TRACE = """\
100 n10 join n10
100 n10 create
200 n50 join n99
200 n50 ask step n99 call=3
210 n99 drop step n50
250 n50 timeout n99
270 n50 ask step n10 call=6
280 n10 send step-reply n50
290 n50 ask get-list n10 call=8
300 n10 send list-reply n50
310 n50 ask get-state n10 call=10
320 n10 send state-reply n50
330 n50 member n10
330 n50 send notify n10
400 n10 ask get-state n10 call=7
401 n10 send state-reply n10
402 n10 ask get-list n50 call=10
412 n50 send list-reply n10
422 n10 send notify n50
500 n50 ask get-state n10 call=15
510 n10 send state-reply n50
520 n50 send notify n10
700 n10 ask get-state n50 call=15
710 n50 send state-reply n10
720 n10 send notify n50
800 audit members=2 dead=0 ring=2 ordered=yes principals=2 sufficient=no
800 n50 ask get-state n10 call=20
810 n10 send state-reply n50
820 n50 send notify n10
1000 n10 ask get-state n50 call=20
1010 n50 send state-reply n10
1020 n10 send notify n50
1100 n50 crash
1110 n50 join n10
1110 n50 ask step n10 call=26
1120 n10 send step-reply n50
1130 n50 ask get-list n10 call=28
1140 n10 send list-reply n50
1150 n50 ask get-state n10 call=30
1160 n10 send state-reply n50
1170 n50 member n10
1170 n50 send notify n10
1250 audit members=2 dead=0 ring=2 ordered=yes principals=2 sufficient=no
"""
WORKED = (
    (THROUGH_ANOTHER, THROUGH_ANOTHER_TRACE), (SECOND_RING, SECOND_RING_TRACE), (FROM_NOTHING, FROM_NOTHING_TRACE),
)


class WorkedTest(TestCase):
    """Whole runs by the reference."""

    def test_traces(self) -> None:
        """A join through the next bootstrap node, a second ring, and a ring from nothing."""
        for toml, trace in WORKED:
            self.assertEqual(ended(toml)[0], trace)

    def test_numbers(self) -> None:
        """Lines `create` are no joins that succeeded."""
        numbers = ended(SECOND_RING)[1]
        assert (numbers["creates"], numbers["members"], numbers["rescues"]) == (2, 1, 0)
        report = Report(4)
        report.read("9 n0 create")
        assert report.numbers(9)["creates"] == 1


class CreateProgram(ProgramTest):
    """The same by the program, with each engine."""

    def test_traces(self) -> None:
        """A join through the next bootstrap node, a second ring, and a ring from nothing."""
        for toml, trace in WORKED:
            self.all_write(toml, trace)


def of_initial(*idents: int) -> list[Node]:
    """The nodes at 0, 1 and 3 at the start with lists of two, if those with these identifiers are initial."""
    toml = RING.replace("profile = 1", "profile = 4\nrandom_start = false").replace("initial = true\n", "")
    for ident in idents:
        toml = toml.replace(f"id = {ident}\n", f"id = {ident}\ninitial = true\n")
    return initial_states(World(read_scenario(toml.encode(), b"")))


class FewInitialTest(TestCase):
    """Initial nodes that are fewer than the entries of a list."""

    def test_two(self) -> None:
        """Each has the other alone in its list."""
        first, second, third = of_initial(0, 1)
        assert (first.succ, first.prdc, first.via, first.fingers) == ([1], 1, 1, {2: 0, 3: 0})
        assert (second.succ, second.prdc, second.via, second.fingers) == ([0], 0, 0, {2: 0, 3: 0})
        assert third.status == Status.DOWN

    def test_three(self) -> None:
        """As many as a list has entries, and one more: so it was before."""
        assert [node.succ for node in of_initial(0, 1, 3)] == [[1, 2], [2, 0], [0, 1]]

    def test_one(self) -> None:
        """It is its own predecessor, successor and via."""
        alone = of_initial(1)[1]
        assert (alone.status, alone.epoch) == (Status.MEMBER, 1)
        assert (alone.succ, alone.prdc, alone.via, alone.fingers) == ([1], 1, 1, {2: 1, 3: 1})

    def test_none(self) -> None:
        """All are down, and audits see no member."""
        assert {node.status for node in of_initial()} == {Status.DOWN}
        toml = RING.replace("profile = 1", "profile = 4").replace("initial = true\n", "")
        assert ended(toml)[0] == (
            "100 n0 ignored lookup\n200 audit members=0 dead=0 ring=0 ordered=yes principals=0 sufficient=no\n"
        )

    def test_profiles(self) -> None:
        """The other profiles want one more than a list has entries."""
        few = RING.replace("id = 3\ninitial = true\n", "id = 3\n")
        for profile, answer in ((1, "S10 TooFewInitial"), (2, "S10 TooFewInitial"), (4, "accepted")):
            assert fault(few.replace("profile = 1", f"profile = {profile}")) == answer


class FaultsTest(TestCase):
    """The refusals."""

    def test_keys(self) -> None:
        """`bootstrap` is a boolean of a node, in profile 4 alone."""
        for profile, value, answer in (
            (4, "true", "accepted"), (4, "false", "accepted"), (4, "1", "S4 WrongType node 2 bootstrap"),
            (1, "true", "S2 UnknownKey node 2"), (2, "true", "S2 UnknownKey node 2"),
        ):
            changed = RING.replace("profile = 1", f"profile = {profile}")
            assert fault(changed.replace('"n1"\n', f'"n1"\nbootstrap = {value}\n')) == answer

    def test_own_joins(self) -> None:
        """A node may join through itself in profile 4 alone. A row never names one node twice."""
        own = RING.replace('do = "lookup"', 'do = "join"\nvia = "n0"')
        for profile, answer in ((1, "S13 SelfLink command 1"), (2, "S13 SelfLink command 1"), (4, "accepted")):
            assert fault(own.replace("profile = 1", f"profile = {profile}")) == answer
        assert fault(own.replace("profile = 1", "profile = 4"), "n0,n0,10\n") == "S13 SelfLink row 1"
