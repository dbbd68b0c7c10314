"""The rules of Chord as published, by hand: each in a scenario in which no other of them holds, and without it.

Latencies are 10, and a timeout comes after 50. The node nK is at K. Fingers are written as FINGER:NODE.
"""

from typing import NamedTuple
from unittest import TestCase

from chordsim_tools.reference.chacha import Stream
from chordsim_tools.reference.procedures import Procedures
from chordsim_tools.reference.report import Report
from chordsim_tools.reference.simulation import Simulation
from chordsim_tools.reference.state import (
    Body, CheckTick, CmdCrash, CmdJoin, CmdLookup, FingerTick, GetState, LifeEnd, Next, Node, Notify, Owner,
    StabilizeTick, StateReply, Status, Step, StepReply, Stuck, Timeout, TrafficTick,
)
from chordsim_tools.reference.turn import World
from chordsim_tools.scenario.reading import Ways, read_scenario
from chordsim_tools.scenario.tables import WAYS
from tests.support.rings import ProgramTest
from tests.support.worlds import LATER, OFF, OFF_WITH_TIMES, RING, fault
from tests.test_extended_profile import SPANS, extended, world_of
from tests.test_second_profile import happen

TOP = {
    "profile": "4", "bits": "8", "list": "2", "seed": "1", "duration_us": "2000", "window_us": "10",
    "latency_us": "10", "timeout_us": "50", "audit_us": "2000", "stabilize_us": "900000", "finger_us": "900000",
    "detail": "true",
}
"""The keys of all scenarios: no timer comes before the end."""


class Worked(NamedTuple):
    """A scenario by its keys, its nodes and its commands; its trace with the rule, and without it."""

    keys: dict[str, str]
    off: dict[str, str]
    nodes: str
    commands: str
    trace: str
    other: str

    def text(self, has_rule: bool) -> str:
        """The scenario with the rule, or without it. No other rule of those published holds."""
        keys = TOP | OFF_WITH_TIMES | self.keys | ({} if has_rule else self.off)
        return "".join(f"{key} = {value}\n" for key, value in keys.items()) + self.nodes + self.commands


def ring(*idents: int) -> str:
    """Initial nodes with these identifiers."""
    return "".join(f'[[node]]\nname = "n{ident}"\nid = {ident}\ninitial = true\n' for ident in idents)


def command(time: int, do: str, node: str, more: str = "") -> str:
    """A command."""
    return f'[[command]]\nat_us = {time}\ndo = "{do}"\nnode = "{node}"\n{more}\n'


def member(**keys: str) -> tuple[World, Node]:
    """n0 of the ring of three at its start. No other rule of those published holds than these keys say."""
    return world_of(*(f"{key} = {value}" for key, value in keys.items()))


def ended(text: str) -> tuple[str, dict[str, int]]:
    """The trace of a scenario by the reference, and the numbers of its report."""
    run = Simulation(read_scenario(text.encode(), b""))
    report, lines = Report(run.scenario.profile), []
    for line in run.lines():
        report.read(line)
        lines.append(line + "\n")
    return "".join(lines), report.numbers(run.events)


LIST_ROUTES = Worked(
    keys={"list": "3", "list_routes": "true"},
    off={"list_routes": "false"},
    nodes=ring(0, 1, 2, 3, 5, 40),
    commands=command(100, "lookup", "n0", "key = 4"),
    trace=(
        "100 n0 lookup 4\n"
        "100 n0 ask step n3 call=3 key=4 since=100\n"
        "110 n3 send step-reply n0\n"
        "120 n0 found 4 n5 hops=1 timeouts=0 us=20\n"
        "2000 audit members=6 dead=0 ring=6 ordered=yes principals=6 sufficient=yes\n"
    ),
    other=(
        "100 n0 lookup 4\n"
        "100 n0 ask step n2 call=3 key=4 since=100\n"
        "110 n2 send step-reply n0\n"
        "120 n0 ask step n3 call=5 key=4 since=100\n"
        "130 n3 send step-reply n0\n"
        "140 n0 found 4 n5 hops=2 timeouts=0 us=40\n"
        "2000 audit members=6 dead=0 ring=6 ordered=yes principals=6 sufficient=yes\n"
    ),
)
"""n0 has the list n1, n2, n3 and the fingers 2:n2, 3:n5 and n40. Of the fingers n2 precedes 4, and of the list n3.

The timers of the start are the events 1 and 2 of each node. n3 has the list n5, n40, n0, so that n5 is the owner.
"""

GOES_ON = Worked(
    keys={"goes_on": "true"},
    off={"goes_on": "false"},
    nodes=ring(0, 32, 64, 80, 96, 104, 112, 200),
    commands=command(50, "crash", "n104") + command(100, "lookup", "n0", "key = 110"),
    trace=(
        "50 n104 crash\n"
        "100 n0 lookup 110\n"
        "100 n0 ask step n64 call=3 key=110 since=100\n"
        "110 n64 send step-reply n0\n"
        "120 n0 ask step n96 call=5 key=110 since=100\n"
        "130 n96 send step-reply n0\n"
        "140 n0 ask step n104 call=7 key=110 since=100\n"
        "150 n104 drop step n0\n"
        "190 n0 timeout n104\n"
        "190 n0 ask step n96 call=9 key=110 since=100\n"
        "200 n96 send step-reply n0\n"
        "210 n0 found 110 n112 hops=2 timeouts=1 us=110\n"
        "2000 audit members=7 dead=0 ring=7 ordered=yes principals=7 sufficient=yes\n"
    ),
    other=(
        "50 n104 crash\n"
        "100 n0 lookup 110\n"
        "100 n0 ask step n64 call=3 key=110 since=100\n"
        "110 n64 send step-reply n0\n"
        "120 n0 ask step n96 call=5 key=110 since=100\n"
        "130 n96 send step-reply n0\n"
        "140 n0 ask step n104 call=7 key=110 since=100\n"
        "150 n104 drop step n0\n"
        "190 n0 timeout n104\n"
        "190 n0 ask step n64 call=9 key=110 since=100\n"
        "200 n64 send step-reply n0\n"
        "210 n0 ask step n96 call=11 key=110 since=100\n"
        "220 n96 send step-reply n0\n"
        "230 n0 found 110 n112 hops=4 timeouts=1 us=130\n"
        "2000 audit members=7 dead=0 ring=7 ordered=yes principals=7 sufficient=yes\n"
    ),
)
"""n0 knows 7:n64, n64 knows 6:n96, and n96 knows 4:n104, which is down. n96 is asked again, and counts as one hop.

Its list is n104, n112. So with n104 to avoid it names n112. Without the rule n64 and n96 are both asked again.
"""
LOOKUP_TIMEOUTS = Worked(
    keys={"list": "4", "lookup_timeouts": "2"},
    off={"lookup_timeouts": "3"},
    nodes=ring(0, 10, 20, 30, 40, 200),
    commands=(
        "".join(command(50, "crash", f"n{ident}") for ident in (10, 20, 30)) + command(100, "lookup", "n0", "key = 35")
    ),
    trace=(
        "50 n10 crash\n"
        "50 n20 crash\n"
        "50 n30 crash\n"
        "100 n0 lookup 35\n"
        "100 n0 ask step n20 call=3 key=35 since=100\n"
        "110 n20 drop step n0\n"
        "150 n0 timeout n20\n"
        "150 n0 ask step n10 call=5 key=35 since=100\n"
        "160 n10 drop step n0\n"
        "200 n0 timeout n10\n"
        "200 n0 ask step n30 call=7 key=35 since=100\n"
        "210 n30 drop step n0\n"
        "250 n0 timeout n30\n"
        "250 n0 lost 35 hops=0 timeouts=3 us=150\n"
        "2000 audit members=3 dead=0 ring=3 ordered=yes principals=3 sufficient=no\n"
    ),
    other=(
        "50 n10 crash\n"
        "50 n20 crash\n"
        "50 n30 crash\n"
        "100 n0 lookup 35\n"
        "100 n0 ask step n20 call=3 key=35 since=100\n"
        "110 n20 drop step n0\n"
        "150 n0 timeout n20\n"
        "150 n0 ask step n10 call=5 key=35 since=100\n"
        "160 n10 drop step n0\n"
        "200 n0 timeout n10\n"
        "200 n0 ask step n30 call=7 key=35 since=100\n"
        "210 n30 drop step n0\n"
        "250 n0 timeout n30\n"
        "250 n0 found 35 n40 hops=0 timeouts=3 us=150\n"
        "2000 audit members=3 dead=0 ring=3 ordered=yes principals=3 sufficient=no\n"
    ),
)
"""n10, n20 and n30 are down: all of the list of n0 but n40, the owner of 35. Its fingers are n10, 6:n20, 7:n40, 8:n200.

The third silent node is one too many if a lookup may leave out two. Otherwise n40 is the next of the list.
"""

DROP_SILENT = Worked(
    keys={
        "drop_silent": "true", "stabilize_us": "100", "duration_us": "300", "audit_us": "300", "detail": "false",
    },
    off={"drop_silent": "false"},
    nodes=ring(0, 40, 50, 60, 90, 130, 200),
    commands=command(50, "crash", "n50") + command(50, "crash", "n60"),
    trace=(
        "50 n50 crash\n"
        "50 n60 crash\n"
        "110 n50 drop get-state n40\n"
        "150 n40 timeout n50\n"
        "160 n60 drop get-state n40\n"
        "200 n40 timeout n60\n"
        "200 n40 rescue n90\n"
        "230 n60 drop get-list n40\n"
        "270 n40 timeout n60\n"
        "290 n60 drop ping n90\n"
        "300 audit members=5 dead=0 ring=5 ordered=yes principals=5 sufficient=yes\n"
    ),
    other=(
        "50 n50 crash\n"
        "50 n60 crash\n"
        "110 n50 drop get-state n40\n"
        "150 n40 timeout n50\n"
        "160 n60 drop get-state n40\n"
        "200 n40 timeout n60\n"
        "200 n40 stranded n0\n"
        "210 n40 drop get-state n0\n"
        "250 n0 timeout n40\n"
        "260 n50 drop get-state n0\n"
        "280 n40 member n0\n"
        "300 audit members=5 dead=2 ring=0 ordered=yes principals=4 sufficient=no\n"
    ),
)
"""n40 has the list n50, n60, which are down, and the fingers 2:n50, 3:n50, 4:n50, 5:n60, 6:n90, 7:n130 and 8:n200.

At 200 its list is empty, and n90 is the nearest finger that is not n60. At 220 n90 names its predecessor n60, which
lies between; so n40 asks that once more, and then notifies n90. Without the rule n40 is stranded and joins through n0,
behind which it comes to be a member at 280. But n0 has found n40 silent meanwhile, and both know n50 alone.
"""

SKIP_NEAR = Worked(
    keys={"skip_near": "true", "finger_us": "100", "duration_us": "250", "audit_us": "250"},
    off={"skip_near": "false"},
    nodes=ring(0, 64, 128, 192),
    commands="",
    trace=(
        "100 n0 ask step n64 call=4 key=128 since=100\n"
        "100 n64 ask step n128 call=4 key=192 since=100\n"
        "100 n128 ask step n192 call=4 key=0 since=100\n"
        "100 n192 ask step n0 call=4 key=64 since=100\n"
        "110 n64 send step-reply n0\n"
        "110 n128 send step-reply n64\n"
        "110 n192 send step-reply n128\n"
        "110 n0 send step-reply n192\n"
        "200 n0 ask step n64 call=8 key=128 since=200\n"
        "200 n64 ask step n128 call=8 key=192 since=200\n"
        "200 n128 ask step n192 call=8 key=0 since=200\n"
        "200 n192 ask step n0 call=8 key=64 since=200\n"
        "210 n64 send step-reply n0\n"
        "210 n128 send step-reply n64\n"
        "210 n192 send step-reply n128\n"
        "210 n0 send step-reply n192\n"
        "250 audit members=4 dead=0 ring=4 ordered=yes principals=4 sufficient=yes\n"
    ),
    other="250 audit members=4 dead=0 ring=4 ordered=yes principals=4 sufficient=yes\n",
)
"""The successor is 64 away, and the starts of the fingers 2 to 7 are up to 64 away. So each tick is of finger 8.

Before the call 8 come two timers, a timer, a step, a timeout, a reply and a timer. Without the rule the ticks are of
the fingers 2 and 3, which a node knows by itself.
"""

ASK_OWNER = Worked(
    keys={"ask_owner": "true"},
    off={"ask_owner": "false"},
    nodes=ring(0, 40, 50, 60, 200),
    commands=command(50, "crash", "n50") + command(100, "lookup", "n40", "key = 45"),
    trace=(
        "50 n50 crash\n"
        "100 n40 lookup 45\n"
        "100 n40 ask get-state n50 call=3 key=45 since=100\n"
        "110 n50 drop get-state n40\n"
        "150 n40 timeout n50\n"
        "150 n40 ask get-state n60 call=5 key=45 since=100\n"
        "160 n60 send state-reply n40\n"
        "170 n40 found 45 n60 hops=0 timeouts=1 us=70\n"
        "2000 audit members=4 dead=0 ring=4 ordered=yes principals=4 sufficient=yes\n"
    ),
    other=(
        "50 n50 crash\n"
        "100 n40 lookup 45\n"
        "100 n40 found 45 n50 hops=0 timeouts=0 us=0\n"
        "2000 audit members=4 dead=0 ring=4 ordered=yes principals=4 sufficient=yes\n"
    ),
)
"""n40 has the list n50, n60, and n50 is down. n60 has the predecessor n50, which is to be avoided by now."""
NEWCOMER = Worked(
    keys={
        "ask_owner": "true", "stabilize_us": "1000", "duration_us": "1300", "audit_us": "1300", "detail": "false",
    },
    off={"ask_owner": "false"},
    nodes=ring(0, 40, 60, 200) + '[[node]]\nname = "n55"\nid = 55\n',
    commands=command(100, "join", "n55", 'via = "n0"') + command(1200, "lookup", "n40", "key = 52"),
    trace=(
        "100 n55 join n0\n"
        "160 n55 member n40\n"
        "1200 n40 lookup 52\n"
        "1240 n40 found 52 n55 hops=0 timeouts=0 us=40\n"
        "1300 audit members=5 dead=0 ring=4 ordered=yes principals=4 sufficient=yes\n"
    ),
    other=(
        "100 n55 join n0\n"
        "160 n55 member n40\n"
        "1200 n40 lookup 52\n"
        "1200 n40 found 52 n60 hops=0 timeouts=0 us=0\n"
        "1300 audit members=5 dead=0 ring=4 ordered=yes principals=4 sufficient=yes\n"
    ),
)
"""n55 stabilizes at 1100 for the first time, and n60 hears of it at 1130. n40, which stabilizes at 1000, does not yet.

So n40 asks n60, which owns 52 no more: 52 is not between its predecessor n55 and itself. Then n40 asks n55.
"""

RANDOM_START = Worked(
    keys={
        "random_start": "true", "stabilize_us": "1000", "finger_us": "1000", "stabilize_jitter_us": "0",
        "finger_jitter_us": "300", "duration_us": "700", "audit_us": "700",
    },
    off={"random_start": "false"},
    nodes=ring(0, 8, 16, 24),
    commands="",
    trace=(
        "60 n24 ask get-state n0 call=4\n"
        "70 n0 send state-reply n24\n"
        "80 n24 send notify n0\n"
        "169 n16 ask get-state n24 call=4\n"
        "171 n0 ask get-state n8 call=5\n"
        "179 n24 send state-reply n16\n"
        "181 n8 send state-reply n0\n"
        "189 n16 send notify n24\n"
        "191 n0 send notify n8\n"
        "637 n8 ask step n24 call=5 key=72 since=637\n"
        "647 n24 send step-reply n8\n"
        "700 audit members=4 dead=0 ring=4 ordered=yes principals=4 sufficient=yes\n"
    ),
    other="700 audit members=4 dead=0 ring=4 ordered=yes principals=4 sufficient=yes\n",
)
"""The words of the draws, as parts w of 2^64. StabilizeTick comes at 1 + 1000 w, and FingerTick at 1 + 1300 w.

  node      (node, 1) k=0                 (node, 2) k=0                 (node, 9) k=0
  n0   0    2b8f4646 7b2509f7 0.170: 171  b3f347b1 a6a653ff 0.702: 914  d1d5ee95 c8257de5 0.819: finger 2 + 5
  n8   1    ccf7e5b0 db2bd814 0.800: 801  7d6fc6ab fab5307f 0.489: 637  d365b858 f102cf4e 0.825: finger 2 + 5
  n16  2    2b05ca9a 88699f96 0.168: 169  7764730d 076cb953 0.466: 607  6c141722 91218bad 0.422: finger 2 + 2
  n24  3    0f29215c 7362c1bf 0.059: 60   6edce6aa 8d221568 0.433: 563  8baa6ea3 37f89e46 0.545: finger 2 + 3

n8 refreshes finger 7, whose start is 72, by n24. The finger 4 of n16 and 5 of n24 are their successors.
"""

CLEAN_LISTS = Worked(
    keys={"clean_lists": "true", "join_pause_us": "5000"},
    off={"clean_lists": "false"},
    nodes=ring(0, 50, 200),
    commands=command(100, "crash", "n50") + command(110, "join", "n50", 'via = "n0"'),
    trace=(
        "100 n50 crash\n"
        "110 n50 join n0\n"
        "110 n50 ask step n0 call=5\n"
        "120 n0 send step-reply n50\n"
        "130 n50 ask get-list n0 call=7\n"
        "140 n0 send list-reply n50\n"
        "150 n50 member n0\n"
        "2000 audit members=3 dead=0 ring=3 ordered=yes principals=3 sufficient=yes\n"
    ),
    other=(
        "100 n50 crash\n"
        "110 n50 join n0\n"
        "110 n50 ask step n0 call=5\n"
        "120 n0 send step-reply n50\n"
        "130 n50 ask get-list n0 call=7\n"
        "140 n0 send list-reply n50\n"
        "2000 audit members=2 dead=0 ring=2 ordered=yes principals=2 sufficient=no\n"
    ),
)
"""n0 has not noticed that n50 was down: its list is n50, n200, of which n50 takes n200. Otherwise the attempt fails."""
JOIN_ASKS = Worked(
    keys={"join_asks": "true", "clean_lists": "true"},
    off={"join_asks": "false"},
    nodes=ring(0, 40, 60, 200) + '[[node]]\nname = "n55"\nid = 55\n',
    commands=command(50, "crash", "n60") + command(100, "join", "n55", 'via = "n0"'),
    trace=(
        "50 n60 crash\n"
        "100 n55 join n0\n"
        "100 n55 ask step n0 call=3\n"
        "110 n0 send step-reply n55\n"
        "120 n55 ask step n40 call=5\n"
        "130 n40 send step-reply n55\n"
        "140 n55 ask get-list n40 call=7\n"
        "150 n40 send list-reply n55\n"
        "160 n55 ask get-state n60 call=9\n"
        "170 n60 drop get-state n55\n"
        "210 n55 timeout n60\n"
        "210 n55 ask step n0 call=11\n"
        "220 n0 send step-reply n55\n"
        "230 n55 ask step n40 call=13\n"
        "240 n40 send step-reply n55\n"
        "250 n55 ask get-list n40 call=15\n"
        "260 n40 send list-reply n55\n"
        "270 n55 ask get-state n200 call=17\n"
        "280 n200 send state-reply n55\n"
        "290 n55 member n40\n"
        "290 n55 ask get-list n60 call=19\n"
        "300 n60 drop get-list n55\n"
        "340 n55 timeout n60\n"
        "340 n55 send notify n200\n"
        "350 n200 ask ping n60 call=4\n"
        "360 n60 drop ping n200\n"
        "400 n200 timeout n60\n"
        "2000 audit members=4 dead=0 ring=3 ordered=yes principals=3 sufficient=yes\n"
    ),
    other=(
        "50 n60 crash\n"
        "100 n55 join n0\n"
        "100 n55 ask step n0 call=3\n"
        "110 n0 send step-reply n55\n"
        "120 n55 ask step n40 call=5\n"
        "130 n40 send step-reply n55\n"
        "140 n55 ask get-list n40 call=7\n"
        "150 n40 send list-reply n55\n"
        "160 n55 member n40\n"
        "2000 audit members=4 dead=0 ring=3 ordered=yes principals=3 sufficient=yes\n"
    ),
)
"""n40 has the list n60, n200, and n60 is down. Its place found, n55 asks n60, and after the timeout it joins again.

It leaves n60 out of the list of n40, and asks n200, which still has n60 as predecessor. So n55 asks n60 for its list.
n40 knows nothing of n55, so that n55 is not on the ring yet. Without the rule it is a member with the list n60, n200.
"""

WORKED = {
    "list_routes": LIST_ROUTES, "goes_on": GOES_ON, "lookup_timeouts": LOOKUP_TIMEOUTS, "drop_silent": DROP_SILENT,
    "skip_near": SKIP_NEAR, "ask_owner": ASK_OWNER, "a newcomer": NEWCOMER,
    "random_start": RANDOM_START, "clean_lists": CLEAN_LISTS, "join_asks": JOIN_ASKS,
}


class WorkedTest(TestCase):
    """The worked scenarios by the reference."""

    def test_traces(self) -> None:
        """With the rule, and without it."""
        for name, one in WORKED.items():
            for has_rule, trace in ((True, one.trace), (False, one.other)):
                with self.subTest(name=name, has_rule=has_rule):
                    self.assertEqual(ended(one.text(has_rule))[0], trace)


class PublishedProgram(ProgramTest):
    """The worked scenarios by the program, with each engine."""

    def test_traces(self) -> None:
        """With the rule, and without it."""
        for name, one in WORKED.items():
            with self.subTest(name=name):
                self.all_write(one.text(True), one.trace)
                self.all_write(one.text(False), one.other)


class GoesOnTest(TestCase):
    """n0 looks up 7: it asks n3 by the call 1, and n3 names n1, which is asked by the call 3."""

    def asked(self, **keys: str) -> tuple[World, Node]:
        """n0 in a lookup that goes on, if no key says otherwise, after the answer of n3."""
        world, node = member(**({"goes_on": "true"} | keys))
        assert happen(world, node, CmdLookup(7), 1)[1][0] == (110, 1, 2, Step(1, 7, []))
        assert happen(world, node, StepReply(1, Next(1)), 4)[1][0] == (110, 3, 1, Step(3, 7, []))
        return world, node

    def test_silent_node(self) -> None:
        """n1 is silent: n3 is asked again, without n1. Its second answer is no second hop."""
        world, node = self.asked()
        lines, made = happen(world, node, Timeout(3), 2)
        assert (lines, made[0]) == (["timeout n1"], (110, 5, 2, Step(5, 7, [1])))
        assert (node.lookups[0].last, node.lookups[0].avoid) == (2, [1])
        assert happen(world, node, StepReply(5, Owner(0)), 4)[0] == ["found 7 n0 hops=1 timeouts=1 us=0"]

    def test_last_node_is_silent(self) -> None:
        """Then n3, which answered before, is silent too. No node has answered last; n0 itself knows nobody else."""
        world, node = self.asked()
        happen(world, node, Timeout(3), 2)
        assert happen(world, node, Timeout(5), 2) == (["timeout n3", "lost 7 hops=1 timeouts=2 us=0"], [])

    def test_dead_end(self) -> None:
        """n1 knows nobody: it is left out as a silent node is, and is a hop. n3 is asked again, and then n0 itself."""
        world, node = self.asked()
        lines, made = happen(world, node, StepReply(3, Stuck()), 3)
        assert (lines, made[0], node.lookups[0].hops) == ([], (110, 5, 2, Step(5, 7, [1])), 2)
        assert happen(world, node, StepReply(5, Stuck()), 4) == (["lost 7 hops=2 timeouts=0 us=0"], [])

    def test_first_node_is_a_dead_end(self) -> None:
        """n3 knows nobody. Then n0 names n1, the next of its list."""
        world, node = member(goes_on="true")
        happen(world, node, CmdLookup(7), 1)
        assert happen(world, node, StepReply(1, Stuck()), 4)[1][0] == (110, 3, 1, Step(3, 7, [2]))
        assert (node.lookups[0].last, node.lookups[0].hops) == (None, 1)

    def test_without_the_rule(self) -> None:
        """A dead end is the end, and after a timeout n0 begins again: n3 is asked again, and is a second hop."""
        world, node = self.asked(goes_on="false")
        assert happen(world, node, StepReply(3, Stuck()), 3) == (["lost 7 hops=2 timeouts=0 us=0"], [])
        world, node = self.asked(goes_on="false")
        assert happen(world, node, Timeout(3), 2)[1][0] == (110, 5, 2, Step(5, 7, [1]))
        assert happen(world, node, StepReply(5, Owner(0)), 4)[0] == ["found 7 n0 hops=2 timeouts=1 us=0"]

    def test_nodes_to_avoid(self) -> None:
        """A dead end counts among the nodes that may be left out, but is no timeout."""
        world, node = self.asked(lookup_timeouts="1")
        happen(world, node, StepReply(3, Stuck()), 3)
        assert happen(world, node, Timeout(5), 2)[0] == ["timeout n3", "lost 7 hops=2 timeouts=1 us=0"]
        world, node = self.asked(lookup_timeouts="0")
        assert happen(world, node, StepReply(3, Stuck()), 3)[0] == ["lost 7 hops=2 timeouts=0 us=0"]

    def test_steps(self) -> None:
        """112 requests and two for each node that may be left out, of whichever kind the last one is."""
        for timeouts, steps in (("0", 112), ("8", 128), ("32", 176), ("64", 240)):
            bodies: list[Body] = [StepReply(3, Next(2)), Timeout(3)]
            for body in bodies:
                world, node = self.asked(lookup_timeouts=timeouts)
                node.lookups[0].steps = steps
                assert happen(world, node, body, 3)[0][-1].startswith("lost 7 ")
                world, node = self.asked(lookup_timeouts=timeouts)
                node.lookups[0].steps = steps - 1
                assert (happen(world, node, body, 3)[1] == []) == (timeouts == "0" and body == Timeout(3))


class DropSilentTest(TestCase):
    """n0 with the list n1, n3 and the fingers 2:n3 and 3:n0. In its lookup of 7 it asks n3 by the call 1."""

    def asking(self, succ: list[int], fingers: list[int], **keys: str) -> tuple[World, Node]:
        """n0 with this list and these fingers; it asks the first of the list but one, n3."""
        world, node = member(**({"drop_silent": "true"} | keys))
        happen(world, node, CmdLookup(7), 1)
        node.succ, node.fingers = succ, dict(enumerate(fingers, start=2))
        return world, node

    def test_list_and_fingers(self) -> None:
        """n3 leaves both, at all its places. The fingers that it was become the head. The predecessor stays n3."""
        world, node = self.asking([2, 1, 2], [2, 0])
        lines, made = happen(world, node, Timeout(1), 2)
        assert (lines, made[0]) == (["timeout n3"], (110, 3, 1, Step(3, 7, [2])))
        assert (node.succ, node.fingers, node.prdc) == ([1], {2: 1, 3: 0}, 2)

    def test_without_the_rule(self) -> None:
        """Nothing leaves them."""
        world, node = self.asking([1, 2], [2, 0], drop_silent="false")
        assert happen(world, node, Timeout(1), 2)[0] == ["timeout n3"]
        assert (node.succ, node.fingers) == ([1, 2], {2: 2, 3: 0})

    def test_rescue(self) -> None:
        """n3 was the last of the list: the finger n1 takes its place, and the lookup asks it. n0 itself cannot."""
        world, node = self.asking([2], [1, 0])
        lines, made = happen(world, node, Timeout(1), 2)
        assert (lines, made[0]) == (["timeout n3", "rescue n1"], (110, 3, 1, Step(3, 7, [2])))
        assert (node.succ, node.fingers) == ([1], {2: 1, 3: 0})

    def test_nearest_finger(self) -> None:
        """Of n1 and a fourth node n6 it is n1, at whichever place. What is left of the list comes behind it, cut."""
        sixth = ("[[command]]", '[[node]]\nname = "n6"\nid = 6\ninitial = true\n[[command]]')
        for fingers, succ, wanted in (([1, 3], [2], [1]), ([3, 1], [2, 0], [1, 0]), ([3, 3], [0, 2, 0], [3, 0])):
            world, node = world_of(changes=(sixth,))
            node.succ, node.fingers = succ, dict(enumerate(fingers, start=2))
            procedures = Procedures(world, node, 100)
            assert not procedures.drop(2)
            assert (procedures.lines, node.succ) == ([f"100 n0 rescue {world.names[wanted[0]]}"], wanted)

    def test_strand(self) -> None:
        """Without a finger but n3 and n0 itself it strands. Its lookup has no timeout more, and nothing else comes."""
        world, node = self.asking([2], [2, 0])
        lines, made = happen(world, node, Timeout(1), 2)
        assert lines == ["timeout n3", "stranded n1", "lost 7 hops=0 timeouts=0 us=0"]
        assert [body for *_, body in made] == [Step(3, 0, []), Timeout(3)] and node.status == Status.JOINING

    def test_own_successor(self) -> None:
        """The list that has n0 itself is not empty: n0 is the ring then, and owns the key."""
        world, node = self.asking([2, 0], [2, 2])
        assert happen(world, node, Timeout(1), 2)[0] == ["timeout n3", "found 7 n0 hops=0 timeouts=1 us=0"]
        assert (node.succ, node.fingers) == ([0], {2: 0, 3: 0})

    def test_other_calls(self) -> None:
        """The silent node is dropped after a Ping and a Check too, and is not the predecessor any more."""
        world, node = member(drop_silent="true", check_us="100")
        happen(world, node, Notify(), 3)
        assert happen(world, node, Timeout(1), 2) == (["timeout n3"], [])
        assert (node.prdc, node.succ, node.fingers) == (1, [1], {2: 1, 3: 0})
        world, node = member(drop_silent="true", check_us="100")
        happen(world, node, CheckTick(1), 2)
        assert happen(world, node, Timeout(2), 2) == (["timeout n3", "forget n3"], [])
        assert (node.prdc, node.succ, node.fingers) == (None, [1], {2: 1, 3: 0})

    def test_state(self) -> None:
        """The head n1 has left the list by a lookup when its state is waited for. Its timeout takes nobody else."""
        for rule, succ in (("true", [2]), ("false", [1, 2])):
            world, node = member(drop_silent=rule)
            happen(world, node, StabilizeTick(1), 2)
            happen(world, node, CmdLookup(2), 1)
            assert [call.asked for call in node.calls.values()] == [1, 1]
            assert happen(world, node, Timeout(4), 2)[0][0] == "timeout n1" and node.succ == succ
            lines, made = happen(world, node, Timeout(2), 2)
            assert (lines, made[0][2:], node.succ) == (["timeout n1"], (2, GetState(made[0][1])), [2])

    def test_sent_again(self) -> None:
        """A node is dropped after the last sending alone."""
        world, node = self.asking([1, 2], [2, 0], retries="1")
        assert happen(world, node, Timeout(1), 2)[0] == ["again step n3"] and node.succ == [1, 2]
        assert happen(world, node, Timeout(1), 2)[0] == ["timeout n3"] and node.succ == [1]

    def test_joining_node(self) -> None:
        """It has neither list nor fingers."""
        world, node = member(drop_silent="true")
        happen(world, node, CmdCrash(), 1)
        happen(world, node, CmdJoin(2), 1)
        assert happen(world, node, Timeout(list(node.calls)[0]), 2)[0] == ["timeout n3"]
        assert (node.succ, node.fingers, node.status) == ([], {}, Status.JOINING)


class SkipNearTest(TestCase):
    """Which finger a tick is of."""

    def test_first_finger(self) -> None:
        """One more than the bits of the way to the head, but at least 2; if the head is n itself, beyond all."""
        for bits in (3, 4, 8):
            world, node = world_of("skip_near = true", changes=(("bits = 3", f"bits = {bits}"),))
            node.succ = [1]
            for distance in range(1, 2**bits):
                world.idents[1] = distance
                assert Procedures(world, node, 100).first_finger() == max(2, distance.bit_length() + 1)
            node.succ = [0]
            assert Procedures(world, node, 100).first_finger() == bits + 1

    def test_near_fingers(self) -> None:
        """The head is n3: finger 2 becomes n3, and finger 3, whose start is 4, is looked up. The next is 2 again."""
        world, node = member(skip_near="true")
        node.succ, node.fingers = [2, 0], {2: 1, 3: 1}
        lines, made = happen(world, node, FingerTick(1), 2)
        assert (lines, [body for *_, body in made]) == ([], [FingerTick(1), Step(2, 4, []), Timeout(2)])
        assert (node.fingers, node.next_finger, node.lookups[0].finger) == ({2: 2, 3: 1}, 2, 3)

    def test_next_finger(self) -> None:
        """It is n1 that is the head, and nothing is near. The finger that is next is looked up, as without the rule."""
        for rule in ("true", "false"):
            for finger, key, following in ((2, 2, 3), (3, 4, 2)):
                world, node = member(skip_near=rule)
                node.next_finger = finger
                assert happen(world, node, FingerTick(1), 2)[1][1][3] == Step(2, key, [])
                assert (node.fingers, node.next_finger) == ({2: 2, 3: 0}, following)

    def test_all_are_near(self) -> None:
        """A ring of one: all fingers become the node itself, and none is looked up or moves on."""
        world, node = member(skip_near="true")
        node.succ = [0]
        assert happen(world, node, FingerTick(1), 2) == ([], [(1100, 1, 0, FingerTick(1))])
        assert (node.fingers, node.next_finger, node.lookups) == ({2: 0, 3: 0}, 2, [])

    def test_finger_lookup_in_progress(self) -> None:
        """The tick does nothing else then."""
        world, node = member(skip_near="true")
        node.succ = [2, 0]
        happen(world, node, FingerTick(1), 2)
        node.fingers = {2: 1, 3: 1}
        assert [body for *_, body in happen(world, node, FingerTick(1), 2)[1]] == [FingerTick(1)]
        assert node.fingers == {2: 1, 3: 1}


class AskOwnerTest(TestCase):
    """n0 looks up 1 or 2, which it knows to be those of n1 and n3 if n1 is silent, by the calls 1, 3 and so on."""

    def asking(self, key: int = 1, **keys: str) -> tuple[World, Node]:
        """n0, which asks the owner n1 or n3 of the key."""
        world, node = member(**({"ask_owner": "true"} | keys))
        node.succ = [1, 2] if key == 1 else [2, 0]
        lines, made = happen(world, node, CmdLookup(key), 1)
        owner = node.succ[0]
        assert (lines[:1], made) == ([f"lookup {key}"], [(110, 1, owner, GetState(1)), (140, 2, 0, Timeout(1))])
        return world, node

    def test_owner(self) -> None:
        """It has the predecessor n0, or none: it is the owner, and no hop. Its list is not used."""
        for predecessor in (0, None):
            world, node = self.asking()
            reply = StateReply(1, predecessor, [0, 0])
            assert happen(world, node, reply, 3) == (["found 1 n1 hops=0 timeouts=0 us=0"], [])
            assert (node.succ, node.calls, node.lookups) == ([1, 2], {}, [])

    def test_newcomer(self) -> None:
        """n0 does not know n1: it asks n3 for 1, whose predecessor n1 owns it, and says so. n1 does not own 2."""
        world, node = self.asking(2)
        node.lookups[0].key = 1
        assert happen(world, node, StateReply(1, 1, []), 4) == ([], [(110, 3, 1, GetState(3)), (140, 4, 0, Timeout(3))])
        assert (node.lookups[0].steps, node.lookups[0].call) == (2, 3)
        assert happen(world, node, StateReply(3, 0, []), 3)[0] == ["found 1 n1 hops=0 timeouts=0 us=0"]
        world, node = self.asking(2)
        assert happen(world, node, StateReply(1, 1, []), 4)[0] == ["found 2 n3 hops=0 timeouts=0 us=0"]

    def test_silent_newcomer(self) -> None:
        """n1 is silent. Then n3 is asked again, which still names n1: this is left out, and n3 is the owner."""
        world, node = self.asking(2)
        node.lookups[0].key = 1
        happen(world, node, StateReply(1, 1, []), 4)
        lines, made = happen(world, node, Timeout(3), 2)
        assert (lines, made[0]) == (["timeout n1"], (110, 5, 2, GetState(5)))
        assert happen(world, node, StateReply(5, 1, []), 4)[0] == ["found 1 n3 hops=0 timeouts=1 us=0"]

    def test_silent_owner(self) -> None:
        """It is left out, as any silent node: the lookup begins again at n0, or goes on at the node that named it."""
        world, node = self.asking()
        lines, made = happen(world, node, Timeout(1), 2)
        assert (lines, made[0]) == (["timeout n1"], (110, 3, 2, GetState(3)))
        world, node = member(ask_owner="true", goes_on="true")
        happen(world, node, CmdLookup(7), 1)
        assert happen(world, node, StepReply(1, Owner(1)), 4)[1][0] == (110, 3, 1, GetState(3))
        assert happen(world, node, Timeout(3), 2)[1][0] == (110, 5, 2, Step(5, 7, [1]))
        assert happen(world, node, StepReply(5, Owner(0)), 4)[1][0] == (101, 7, 0, GetState(7))
        assert happen(world, node, StateReply(7, 2, []), 2)[0] == ["found 7 n0 hops=1 timeouts=1 us=0"]

    def test_last_one_that_may_be_left_out(self) -> None:
        """A lookup that may leave out nobody fails with its owner."""
        world, node = self.asking(lookup_timeouts="0")
        assert happen(world, node, Timeout(1), 2) == (["timeout n1", "lost 1 hops=0 timeouts=1 us=0"], [])

    def test_steps(self) -> None:
        """The request to an owner is a step. A lookup that has made all its steps fails."""
        for done, lines in ((127, []), (128, ["lost 7 hops=1 timeouts=0 us=0"])):
            world, node = member(ask_owner="true")
            happen(world, node, CmdLookup(7), 1)
            node.lookups[0].steps = done
            assert happen(world, node, StepReply(1, Owner(1)), 4)[0] == lines

    def test_sent_again(self) -> None:
        """The request is sent again as get-state. With detail both sendings have a line with the key."""
        world, node = self.asking(retries="1", detail="true")
        lines, made = happen(world, node, Timeout(1), 2)
        assert lines == ["again get-state n1", "ask get-state n1 call=1 key=1 since=100"]
        assert made[0] == (110, 3, 1, GetState(1))

    def test_fingers(self) -> None:
        """The lookup of a finger does not ask. The finger 3 begins at 4, and n3 names n0."""
        world, node = member(ask_owner="true")
        node.next_finger = 3
        happen(world, node, FingerTick(1), 2)
        assert happen(world, node, StepReply(2, Owner(1)), 4) == ([], []) and node.fingers[3] == 1

    def test_stabilization(self) -> None:
        """It goes on while an owner is asked. Each of the two replies goes to its own call."""
        world, node = self.asking()
        assert happen(world, node, StabilizeTick(1), 2)[1][1] == (110, 4, 1, GetState(4))
        assert happen(world, node, StateReply(1, 0, []), 3)[0] == ["found 1 n1 hops=0 timeouts=0 us=0"]
        assert happen(world, node, StateReply(4, 0, [0]), 3)[1][0][3] == Notify() and node.succ == [1, 0]

    def test_drops_the_silent_owner(self) -> None:
        """With drop_silent the owner that is silent leaves list and fingers."""
        world, node = self.asking(drop_silent="true")
        assert happen(world, node, Timeout(1), 2)[0] == ["timeout n1"] and node.succ == [2]

    def test_late_reply(self) -> None:
        """It comes when the owner has been left out."""
        world, node = self.asking()
        happen(world, node, Timeout(1), 2)
        assert happen(world, node, StateReply(1, 0, []), 3) == (["late state-reply n1"], [])


class RandomStartTest(TestCase):
    """First timers and first fingers, by the words that test_extended_profile lists for n0."""

    def test_first_timers(self) -> None:
        """All but LifeEnd come at a time from 1 on: 1099 w, 1099 w, 60 w and 499 w are 187.0, 772.5, 7.8 and 108.3.

        The words of the kind 8 are 37921f05 4096c6f9, which is 0.217 of 2^64.
        """
        world, node = world_of("random_start = true", "check_us = 400", changes=SPANS)
        procedures = Procedures(world, node, 0)
        procedures.arm()
        assert [(event.time, event.body) for event in procedures.events] == [
            (188, StabilizeTick(1)), (773, FingerTick(1)), (8, TrafficTick(1)), (649, LifeEnd(1)), (109, CheckTick(1)),
        ]

    def test_timers_set_again(self) -> None:
        """They come after a whole period, with the rule and without it."""
        for rule in ("true", "false"):
            world, node = world_of(f"random_start = {rule}", changes=SPANS)
            assert happen(world, node, FingerTick(1), 2)[1][0] == (1120, 1, 0, FingerTick(1))
            assert happen(world, node, StabilizeTick(1), 2)[1][0][0] == 1171

    def test_node_that_joins(self) -> None:
        """Its first timers are drawn so too, with the time as the occasion. Its first finger is 2."""
        world, node = member(random_start="true")
        happen(world, node, CmdCrash(), 1)
        made = happen(world, node, CmdJoin(2), 1)[1]
        number = Stream(1, 2**32).word(400) * 2**32 + Stream(1, 2**32).word(401)
        assert made[0] == (101 + number * 1000 // 2**64, 1, 0, StabilizeTick(2)) and made[0][0] < 1100
        assert (node.next_finger, node.place) == (2, 4)

    def test_first_finger(self) -> None:
        """Of the fingers 2 and 3: 2 w is 1.6 at n0, so 3. If near ones are skipped, n1 has 3 alone, and n3 none."""
        for near, fingers, places in (("false", [3, 3, 2], [3, 3, 3]), ("true", [3, 3, 2], [3, 3, 2])):
            text = extended("random_start = true", f"skip_near = {near}")
            nodes = Simulation(read_scenario(text.encode(), b"")).nodes
            assert ([node.next_finger for node in nodes], [node.place for node in nodes]) == (fingers, places)
        nodes = Simulation(read_scenario(extended().encode(), b"")).nodes
        assert ([node.next_finger for node in nodes], [node.place for node in nodes]) == ([2, 2, 2], [2, 2, 2])

    def test_jitters(self) -> None:
        """Each timer has its own jitter, or that of all. The words of n0 are 0.170, 0.702 and 0.217 of 2^64."""
        for keys, times in (
            ((), (1017, 1070, 421)),
            (("stabilize_jitter_us = 0",), (1000, 1070, 421)),
            (("finger_jitter_us = 199",), (1017, 1140, 421)),
            (("check_jitter_us = 999",), (1017, 1070, 617)),
        ):
            world, node = world_of("check_us = 400", *keys, changes=(("jitter_us = 0", "jitter_us = 99"),))
            procedures = Procedures(world, node, 0)
            procedures.arm()
            assert tuple(event.time for event in procedures.events) == times


class ReportTest(TestCase):
    """The numbers of the report that count what these rules do."""

    def test_timeouts_of_found_lookups(self) -> None:
        """One and two timeouts of lookups that are found are three; those of one that is lost do not count."""
        report = Report(4)
        for timeouts, word in ((1, "found 5 n1"), (7, "lost 5"), (2, "found 5 n1")):
            report.read(f"9 n0 {word} hops=1 timeouts={timeouts} us=4")
        assert report.numbers(9)["timeouts-sum"] == 3

    def test_rescues(self) -> None:
        """Lines `rescue`."""
        report = Report(4)
        report.read("9 n0 rescue n1")
        assert report.numbers(9)["rescues"] == 1

    def test_numbers_of_the_profiles(self) -> None:
        """The extended profile has six numbers after the first 24, and the others have none and one."""
        for profile, later in ((1, ()), (2, LATER[:1]), (4, LATER)):
            assert list(Report(profile).numbers(0))[24:] == list(later)


class KeysTest(TestCase):
    """The keys of these rules."""

    def test_profiles(self) -> None:
        """They are keys of the top in profile 4 alone, in the order of docs/formats.md."""
        for key in WAYS:
            line = f"{key.name} = {(OFF | {'create_alone': 'false'}).get(key.name, 0)}"
            assert fault(RING.replace("profile = 1", f"profile = 4\n{line}")) == "accepted"
            assert fault(RING.replace("[[node]]", f"[[node]]\n{line}", 1)) == "S2 UnknownKey node 1"
            for profile in (1, 2, 3):
                changed = RING.replace("profile = 1", f"profile = {profile}\n{line}")
                assert fault(changed) == "S2 UnknownKey top"
        assert [key.name for key in WAYS if not key.name.endswith("jitter_us")] == [*OFF, "create_alone"]

    def test_booleans(self) -> None:
        """Nothing but a boolean is accepted. Of several faults the first in the order of the keys is named."""
        names = [key.name for key in WAYS if key.kind == "boolean"]
        for name in names:
            for value in ("1", '"true"', "0.0", "[true]"):
                changed = RING.replace("profile = 1", f"profile = 4\n{name} = {value}")
                assert fault(changed) == f"S4 WrongType top {name}"
        lines = "\n".join(f"{name} = 1" for name in reversed(["detail", *names]))
        assert fault(RING.replace("profile = 1", f"profile = 4\n{lines}")) == "S4 WrongType top detail"
        assert fault(RING.replace("profile = 1", f"profile = 4\n{lines}\n".replace("detail = 1", "detail = true"))) == (
            f"S4 WrongType top {names[0]}"
        )

    def test_defaults(self) -> None:
        """In profile 4 the published rules hold, and each key switches off its own; the others do not have them."""
        for profile in (1, 2):
            assert ways(f"profile = {profile}") == Ways()
        published = ways("profile = 4")
        assert published == Ways(
            list_routes=True, goes_on=True, ask_owner=True, lookup_timeouts=32, drop_silent=True, skip_near=True,
            random_start=True, clean_lists=True, join_asks=True,
        )
        assert ways("\n".join(["profile = 4", *(f"{key} = {value}" for key, value in OFF.items())])) == Ways()
        for name, value in OFF.items():
            changed = ways(f"profile = 4\n{name} = {value}")
            assert not changed.create_alone
            assert {one for one in OFF if getattr(changed, one) != getattr(published, one)} == {name}


def ways(lines: str) -> Ways:
    """The rules of the ring with these lines in place of its profile."""
    return read_scenario(RING.replace("profile = 1", lines).encode(), b"").ways
