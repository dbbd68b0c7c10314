"""Lines that tell of messages, by hand: n0, n1 and n3 of examples/ring.toml with `detail = true` (rules, section 8.2).

The chances of losses are those that tests.test_extended_profile works out: of a million, message 3 of n3 has x = 20386
and message 2 of n0 has x = 400.
"""

from contextlib import suppress
from unittest import TestCase

from chordsim_tools.generate.random_scenario import scenario_files
from chordsim_tools.reference.report import Report
from chordsim_tools.reference.simulation import Simulation, TooManyEvents
from chordsim_tools.reference.state import (
    Body, CmdCrash, CmdJoin, CmdLookup, FingerTick, GetList, GetState, ListReply, Next, Notify, Owner, Ping,
    StabilizeTick, StateReply, Step, StepReply, Timeout,
)
from chordsim_tools.scenario.reading import read_scenario
from tests.support.worlds import with_detail
from tests.test_second_profile import AUDIT, PLAIN, fault, happen, ran
from tests.test_extended_profile import extended, world_of

DETAIL = "detail = true"
REQUESTS = ("step", "get-state", "get-list", "ping")
REST = ("notify", "step-reply", "state-reply", "list-reply", "pong")


def told(text: str) -> list[str]:
    """The trace of a scenario, after looking that detail changes nothing but its own lines."""
    lines, numbers = ran(text)
    without = text.replace(DETAIL, "detail = false")
    assert ran(without) == ([line for line in lines if line.split()[2] not in ("ask", "send")], numbers)
    return lines


class LookupTest(TestCase):
    """n3 looks up key 1 at 100. It has made two timers, so that its step is message 3."""

    def test_request_and_reply(self) -> None:
        """The step arrives at 110, and its reply at 120."""
        assert told(extended(DETAIL)) == [
            "100 n3 lookup 1",
            "100 n3 ask step n0 call=3 key=1 since=100",
            "110 n0 send step-reply n3",
            "120 n3 found 1 n1 hops=1 timeouts=0 us=20",
            AUDIT,
        ]

    def test_lost_request(self) -> None:
        """The line `lose` is made within the call. At 140 the step is sent again, as message 5 of the call 3."""
        assert told(extended("loss_ppm = 20387", "retries = 1", DETAIL)) == [
            "100 n3 lookup 1",
            "100 n3 lose step n0",
            "100 n3 ask step n0 call=3 key=1 since=100",
            "140 n3 again step n0",
            "140 n3 ask step n0 call=3 key=1 since=100",
            "150 n0 send step-reply n3",
            "160 n3 found 1 n1 hops=1 timeouts=0 us=60",
            AUDIT,
        ]

    def test_all_sendings_are_lost(self) -> None:
        """A request that is sent again and lost has all three lines. The end of the lookup needs no message."""
        assert told(extended("loss_ppm = 1000000", "retries = 1", DETAIL)) == [
            "100 n3 lookup 1",
            "100 n3 lose step n0",
            "100 n3 ask step n0 call=3 key=1 since=100",
            "140 n3 again step n0",
            "140 n3 lose step n0",
            "140 n3 ask step n0 call=3 key=1 since=100",
            "180 n3 timeout n0",
            "180 n3 found 1 n1 hops=0 timeouts=1 us=80",
            AUDIT,
        ]

    def test_lost_reply(self) -> None:
        """The reply of n0 is its message 2. If it is lost there is no line `send`."""
        for loss, line in ((401, "lose step-reply n3"), (400, "send step-reply n3")):
            world, node = world_of(f"loss_ppm = {loss}", DETAIL)
            node.count = 1
            lines, made = happen(world, node, Step(9, 7, []), 4)
            assert lines == [line] and [body for *_, body in made] == [StepReply(9, Next(2))] * (loss == 400)

    def test_start_of_the_lookup(self) -> None:
        """The next request is another call of the same lookup. Its time is that of the lookup's start.

        n0 asks n3 for key 7 by its message 1, and has the timeout at event 2; n3 names n1, and message 3 asks that.
        """
        world, node = world_of(DETAIL)
        assert happen(world, node, CmdLookup(7), 1)[0] == ["lookup 7", "ask step n3 call=1 key=7 since=100"]
        node.lookups[0].started = 60
        assert happen(world, node, StepReply(1, Next(1)), 4)[0] == ["ask step n1 call=3 key=7 since=60"]
        assert happen(world, node, Timeout(3), 2)[0] == ["timeout n1", "ask step n3 call=5 key=7 since=60"]

    def test_lookup_of_a_finger(self) -> None:
        """It has the same line. The timer is event 1, and the start of finger 2 is 2, which n1 precedes."""
        world, node = world_of(DETAIL)
        assert happen(world, node, FingerTick(1), 2)[0] == ["ask step n1 call=2 key=2 since=100"]
        assert happen(world, node, StepReply(2, Owner(2)), 3)[0] == []

    def test_no_request(self) -> None:
        """n0 owns no key, but knows the owner of 1."""
        world, node = world_of(DETAIL)
        assert happen(world, node, CmdLookup(1), 1)[0] == ["lookup 1", "found 1 n1 hops=0 timeouts=0 us=0"]


class OtherMessagesTest(TestCase):
    """Stabilizations, pings and joins at n0."""

    def test_stabilization(self) -> None:
        """The timer is event 1. n1 names n0 itself, so that n0 notifies it."""
        world, node = world_of(DETAIL)
        assert happen(world, node, StabilizeTick(1), 2)[0] == ["ask get-state n1 call=2"]
        assert happen(world, node, StateReply(2, 0, [2, 0]), 3)[0] == ["send notify n1"]

    def test_nearer_successor(self) -> None:
        """The head is n3, whose predecessor n1 lies between n0 and n3: it is asked for its list, and notified."""
        world, node = world_of(DETAIL)
        node.succ = [2]
        assert happen(world, node, StabilizeTick(1), 2)[0] == ["ask get-state n3 call=2"]
        assert happen(world, node, StateReply(2, 1, [0]), 4)[0] == ["ask get-list n1 call=4"]
        assert happen(world, node, ListReply(4, [2]), 3)[0] == ["send notify n1"]

    def test_dead_successors(self) -> None:
        """The next one is asked. After the last one the node joins again through its `via`: no key is told."""
        world, node = world_of(DETAIL)
        happen(world, node, StabilizeTick(1), 2)
        assert happen(world, node, Timeout(2), 2)[0] == ["timeout n1", "ask get-state n3 call=4"]
        assert happen(world, node, Timeout(4), 2)[0] == ["timeout n3", "stranded n1", "ask step n1 call=6"]

    def test_replies(self) -> None:
        """Each of the four requests of n1 has a reply; a node that is down sends none."""
        world, node = world_of(DETAIL)
        bodies: list[Body] = [Step(9, 7, []), GetState(9), GetList(9), Ping(9)]
        for body, kind in zip(bodies, ("step-reply", "state-reply", "list-reply", "pong"), strict=True):
            assert happen(world, node, body, 3)[0] == [f"send {kind} n1"]
        happen(world, node, CmdCrash(), 1)
        assert happen(world, node, Ping(9), 3)[0] == ["drop ping n1"]

    def test_ping(self) -> None:
        """n1 is no nearer than the predecessor n3, which is pinged."""
        world, node = world_of(DETAIL)
        assert happen(world, node, Notify(), 3)[0] == ["ask ping n3 call=1"]

    def test_join(self) -> None:
        """Two timers, the step as message 3 and its timeout, and the request of the list as message 5."""
        world, node = world_of(DETAIL)
        happen(world, node, CmdCrash(), 1)
        assert happen(world, node, CmdJoin(2), 1)[0] == ["join n3", "ask step n3 call=3"]
        assert happen(world, node, StepReply(3, Owner(1)), 4)[0] == ["ask get-list n3 call=5"]
        assert happen(world, node, ListReply(5, [1, 2]), 4)[0] == ["member n3"]

    def test_messages_to_oneself(self) -> None:
        """They are told too."""
        world, node = world_of(DETAIL)
        node.succ = [0]
        assert happen(world, node, StabilizeTick(1), 2)[0] == ["ask get-state n0 call=2"]
        assert happen(world, node, GetState(2), 2)[0] == ["send state-reply n0"]
        assert happen(world, node, StateReply(2, 2, [0]), 2)[0] == ["ask get-list n3 call=5"]
        node.succ = [0]
        assert happen(world, node, Timeout(5), 2)[0] == ["timeout n3", "send notify n0"]


class KeyTest(TestCase):
    """The key `detail`."""

    def test_limits(self) -> None:
        """It is a boolean of the extended profile, and the last key of its kind."""
        assert fault(extended("detail = false")) == fault(extended(DETAIL)) == "accepted"
        for value in ("1", '"true"', "1.0", "[true]"):
            assert fault(extended(f"detail = {value}")) == "S4 WrongType top detail"
        assert fault(extended("detail = 1", "check_us = true")) == "S4 WrongType top check_us"
        for profile in (1, 2):
            assert fault(PLAIN.replace("profile = 2", f"profile = {profile}\n{DETAIL}")) == "S2 UnknownKey top"

    def test_default(self) -> None:
        """Without the key there are no such lines."""
        assert ran(extended()) == ran(extended("detail = false")) and len(ran(extended())[0]) == 3


class RandomScenariosTest(TestCase):
    """Random scenarios of the extended profile, with detail and without."""

    def test_lines_and_messages(self) -> None:
        """The other lines and the report stay as they are, and the lines tell of as many messages as were made."""
        for seed in range(4, 60, 6):
            toml, csv = scenario_files(seed)
            _, report, plain = self.traced(with_detail(toml, "false"), csv)
            run, same, detailed = self.traced(with_detail(toml), csv)
            assert same.text(run.events) == report.text(run.events)
            assert [line for line in detailed if line[2] not in ("ask", "send")] == plain
            made, lost = run.messages, same.lost_messages
            for word, kind in [("ask", kind) for kind in REQUESTS] + [("send", kind) for kind in REST]:
                lines = [line for line in detailed if line[2:4] == [word, kind]]
                assert len(lines) == made[kind] + (lost[kind] if word == "ask" else 0)

    def test_some_have_the_key(self) -> None:
        """A third of those of the extended profile."""
        having = []
        for seed in range(60):
            toml, csv = scenario_files(seed)
            if read_scenario(toml.encode(), csv.encode()).detail:
                having.append(seed)
        assert having == [4, 5, 22, 23, 40, 41, 58, 59]

    def traced(self, toml: str, csv: str) -> tuple[Simulation, Report, list[list[str]]]:
        """A run, its report and the words of its lines, up to the greatest number of events."""
        run = Simulation(read_scenario(toml.encode(), csv.encode()))
        report, lines = Report(3), []
        with suppress(TooManyEvents):
            for line in run.lines():
                report.read(line)
                lines.append(line.split(" "))
        return run, report, lines
