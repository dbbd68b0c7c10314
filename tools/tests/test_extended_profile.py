"""The extended profile by hand: requests sent again at n0, n1 and n3 of examples/ring.toml, and draws of their own.

The seed of the ring is 1. Some of its words that are used below, with the stream (node, purpose) and the occasion k:

  (n3, 7) k=3: 053810c9 7292dfba cfe14c75 8a53a403   x = 0x053810c9 / 2^32 of a million = 0.020386.. of it = 20386
                                                     e below 6: 0xcfe14c75 / 2^32 = 0.812.., times 6 = 4.87.. gives 4
  (n3, 7) k=5: e61a0399 6f0d52dc 56e21d55 d9414b7e   x = 898834
  (n0, 7) k=3: d8a0e45b bdc3ce62 955a81d7 d6db1ea8   x = 846205; e below 6: 0.583.. times 6 = 3.50.. gives 3
"""

import tempfile
from collections import Counter
from contextlib import suppress
from copy import deepcopy
from pathlib import Path
from unittest import TestCase
from unittest.mock import patch

from chordsim_tools.generate.random_scenario import scenario_files
from chordsim_tools.reference.chacha import Stream
from chordsim_tools.reference.command import main
from chordsim_tools.reference.procedures import Procedures
from chordsim_tools.reference.simulation import Simulation, TooManyEvents, initial_states
from chordsim_tools.reference.state import (
    Attempt, Body, CmdCrash, CmdJoin, CmdLookup, Drawn, FingerTick, GetList, GetState, LifeEnd, ListReply, Message,
    Node, Notify, Owner, Ping, Pong, Purpose, Rise, StabilizeTick, StateReply, Status, Step, StepReply, Timeout,
    TrafficTick,
)
from chordsim_tools.reference.turn import World
from chordsim_tools.scenario.reading import read_scenario
from tests.support.programs import ended
from tests.support.worlds import EXAMPLES, LATER, RING, switched_off
from tests.test_second_profile import AUDIT, CRASH, N3, PLAIN, fault, happen, many, ran

LONGER = (("duration_us = 200", "duration_us = 400"), ("audit_us = 200", "audit_us = 400"))
SPANS = (
    ("jitter_us = 0", "jitter_us = 99"),
    ("[[node]]", "[churn]\nlife_min_us = 500\nlife_max_us = 1000\ndown_min_us = 60\ndown_max_us = 100\n"
                 "[lookups]\ngap_min_us = 30\ngap_max_us = 60\n[[node]]\nchurn = true"),
)

ZEROS = ("\nloss_ppm = 0\nspread_us = 0\nretries = 0", "\njoin_pause_us = 0\njoin_forever = false\ncheck_us = 0")


def extended(*keys: str, changes: tuple[tuple[str, str], ...] = ()) -> str:
    """The ring in the extended profile with these keys of the network, where n3 looks up key 1, and other changes.

    Of the rules of Chord as published only those hold that the keys name.
    """
    text = PLAIN.replace("profile = 2", "\n".join(("profile = 4", "jitter_us = 0", *keys, *switched_off(*keys))))
    for old, new in changes:
        assert old in text, old
        text = text.replace(old, new, 1)
    return text


def world_of(*keys: str, changes: tuple[tuple[str, str], ...] = ()) -> tuple[World, Node]:
    """The world of such a scenario, and n0 at its start."""
    world = World(read_scenario(extended(*keys, changes=changes).encode(), b""))
    return world, initial_states(world)[0]


def numbers_of(text: str) -> dict[str, int]:
    """The numbers of a report that are not 0."""
    return {word: number for word, number in ran(text)[1].items() if number != 0}


class SendAgainTest(TestCase):
    """Requests that have no reply in time."""

    def test_lost_request_is_found_by_the_second_sending(self) -> None:
        """Of a million, 20387 are lost. n3 has set two timers, so that its step is message 3, whose x is 20386: lost.

        Its timeout is event 4, at 140. The step that is sent again is message 5, whose x is 898834: it comes at 150.
        n0 replies by its own message 3, whose x is 846205: it comes at 160, 60 after the begin. The second timeout,
        event 6, comes at 180 and finds no call. The events: command, timeout, step, reply, timeout.
        """
        text = extended("loss_ppm = 20387", "retries = 1")
        assert ran(text)[0] == [
            "100 n3 lookup 1",
            "100 n3 lose step n0",
            "140 n3 again step n0",
            "160 n3 found 1 n1 hops=1 timeouts=0 us=60",
            AUDIT,
        ]
        ones = ("lookups", "found", "hops-sum", "hops-greatest", "audits", "losses", "again")
        times = ("us-sum", "us-least", "us-median", "us-greatest")
        assert numbers_of(text) == {"events": 5} | dict.fromkeys(ones, 1) | dict.fromkeys(times, 60)

    def test_chance_of_a_loss(self) -> None:
        """The same step is not lost if only 20386 of a million are: x is not below that."""
        lines, numbers = ran(extended("loss_ppm = 20386", "retries = 1"))
        assert lines == ["100 n3 lookup 1", "120 n3 found 1 n1 hops=1 timeouts=0 us=20", AUDIT]
        assert (numbers["losses"], numbers["again"]) == (0, 0)

    def test_late_messages(self) -> None:
        """With a spread of 5 the step comes 4 late, at 114, and the reply 3 late, at 114 + 10 + 3 = 127."""
        lines, _ = ran(extended("spread_us = 5"))
        assert lines == ["100 n3 lookup 1", "127 n3 found 1 n1 hops=1 timeouts=0 us=27", AUDIT]

    def test_request_to_a_dead_node(self) -> None:
        """n0 is down. The step is sent at 100, 140 and 180, and comes 10 later; each has its timeout 40 later.

        At 220 the call was sent again twice, and n0 is taken for dead. Then n1 is the owner, by n3's own list. The
        events: two commands, three steps, three timeouts.
        """
        text = extended("retries = 2", changes=LONGER) + CRASH
        assert ran(text)[0] == [
            "50 n0 crash",
            "100 n3 lookup 1",
            "110 n0 drop step n3",
            "140 n3 again step n0",
            "150 n0 drop step n3",
            "180 n3 again step n0",
            "190 n0 drop step n3",
            "220 n3 timeout n0",
            "220 n3 found 1 n1 hops=0 timeouts=1 us=120",
            "400 audit members=2 dead=0 ring=2 ordered=yes principals=2 sufficient=no",
        ]
        numbers = numbers_of(text)
        assert [numbers[word] for word in ("events", "drops", "timeouts", "again")] == [8, 3, 1, 2]

    def test_late_second_reply(self) -> None:
        """The timeout of 15 is below the round trip of 20: the step is sent again at 115, and comes at 125.

        The reply to the first sending comes at 120, and ends the lookup. The timeout at 130 finds no call. The reply
        to the second sending comes at 135, and is late. The events: command, step, timeout, reply, step, timeout,
        reply.
        """
        text = extended("retries = 1", changes=(("timeout_us = 40", "timeout_us = 15"),))
        assert ran(text)[0] == [
            "100 n3 lookup 1",
            "115 n3 again step n0",
            "120 n3 found 1 n1 hops=1 timeouts=0 us=20",
            "135 n3 late step-reply n0",
            AUDIT,
        ]
        numbers = numbers_of(text)
        assert [numbers[word] for word in ("events", "late", "again", "hops-sum")] == [7, 1, 1, 1]

    def test_never_sent_again(self) -> None:
        """With retries = 0, or without the key, n0 is avoided after one timeout, as in the second profile."""
        for keys in (("retries = 0",), ()):
            lines, numbers = ran(extended("loss_ppm = 1000000", *keys))
            assert lines == [
                "100 n3 lookup 1",
                "100 n3 lose step n0",
                "140 n3 timeout n0",
                "140 n3 found 1 n1 hops=0 timeouts=1 us=40",
                AUDIT,
            ]
            assert (numbers["losses"], numbers["again"]) == (1, 0)
            assert list(numbers)[24:] == list(LATER)

    def test_all_sendings_are_lost(self) -> None:
        """Four steps at 100, 140, 180 and 220, and the timeout at 260. A line `lose` is behind its line `again`."""
        lines, numbers = ran(extended("loss_ppm = 1000000", "retries = 3", changes=LONGER))
        assert lines[1:6] == [
            "100 n3 lose step n0", "140 n3 again step n0", "140 n3 lose step n0", "180 n3 again step n0",
            "180 n3 lose step n0",
        ]
        assert lines[-3:-1] == ["260 n3 timeout n0", "260 n3 found 1 n1 hops=0 timeouts=1 us=160"]
        assert (numbers["losses"], numbers["again"], numbers["timeouts"]) == (4, 3, 1)

    def test_numbers_of_a_request_sent_again(self) -> None:
        """The call keeps the number 3. The second step is event 5, its timeout event 6; both carry the number 3."""
        world, node = world_of("retries = 1")
        node.count = 2
        happen(world, node, CmdLookup(7), 1)
        lines, made = happen(world, node, Timeout(3), 2)
        assert lines == ["again step n3"]
        assert made == [(110, 5, 2, Step(3, 7, [])), (140, 6, 0, Timeout(3))]
        assert (list(node.calls), node.calls[3].again, node.count) == ([3], 1, 6)
        lines, made = happen(world, node, Timeout(3), 2)
        assert (lines, made[0]) == (["timeout n3"], (110, 7, 1, Step(7, 7, [2])))
        assert (list(node.calls), node.calls[7].again) == ([7], 0)

    def test_call_moves_to_the_end(self) -> None:
        """Of two lookups the first one's step is sent again: its call is then behind the other one."""
        world, node = world_of("retries = 1")
        happen(world, node, CmdLookup(7), 1)
        happen(world, node, CmdLookup(6), 1)
        assert list(node.calls) == [1, 3]
        happen(world, node, Timeout(1), 2)
        assert list(node.calls) == [3, 1] and [lookup.call for lookup in node.lookups] == [1, 3]

    def test_reply_to_any_sending(self) -> None:
        """One hop, however often the request was sent; then there is no call for another reply or timeout."""
        world, node = world_of("retries = 3")
        happen(world, node, CmdLookup(7), 1)
        happen(world, node, Timeout(1), 2)
        happen(world, node, Timeout(1), 2)
        assert happen(world, node, StepReply(1, Owner(2)), 4)[0] == ["found 7 n3 hops=1 timeouts=0 us=0"]
        assert happen(world, node, StepReply(1, Owner(2)), 4) == (["late step-reply n3"], [])
        assert happen(world, node, Timeout(1), 2) == ([], [])

    def test_stabilization(self) -> None:
        """GetState and then GetList are sent again; while they are out no other stabilization begins."""
        world, node = world_of("retries = 1")
        happen(world, node, StabilizeTick(1), 2)
        assert [call.purpose for call in node.calls.values()] == [Purpose.STATE] and list(node.calls) == [2]
        lines, made = happen(world, node, Timeout(2), 2)
        assert (lines, made[0]) == (["again get-state n1"], (110, 4, 1, GetState(2)))
        assert len(happen(world, node, StabilizeTick(1), 2)[1]) == 1
        # No place is between n0 and n1. So let it be n3 that was asked: its predecessor n1 lies between n0 and n3.
        node.calls[2].asked = 2
        happen(world, node, StateReply(2, 1, [0]), 4)
        assert [call.purpose for call in node.calls.values()] == [Purpose.LIST] and list(node.calls) == [7]
        lines, made = happen(world, node, Timeout(7), 2)
        assert (lines, made[0]) == (["again get-list n1"], (110, 9, 1, GetList(7)))
        lines, made = happen(world, node, Timeout(7), 2)
        assert (lines, made) == (["timeout n1"], [(110, 11, 2, Notify())])

    def test_dead_head(self) -> None:
        """The head leaves the list only after the last sending; the call to the next head may be sent again too."""
        world, node = world_of("retries = 1")
        happen(world, node, StabilizeTick(1), 2)
        assert happen(world, node, Timeout(2), 2)[0] == ["again get-state n1"] and node.succ == [1, 2]
        assert happen(world, node, Timeout(2), 2)[0] == ["timeout n1"] and node.succ == [2]
        assert happen(world, node, Timeout(6), 2)[0] == ["again get-state n3"]
        lines, made = happen(world, node, Timeout(6), 2)
        assert lines == ["timeout n3", "stranded n1"] and node.status == Status.JOINING
        assert made[0] == (110, 10, 1, Step(10, 0, []))

    def test_ping(self) -> None:
        """The predecessor is pinged twice; the node that caused it takes its place after the second timeout."""
        world, node = world_of("retries = 1")
        assert (node.prdc, happen(world, node, Notify(), 3)[1][0]) == (2, (110, 1, 2, Ping(1)))
        lines, made = happen(world, node, Timeout(1), 2)
        assert (lines, made[0], node.calls[1].because) == (["again ping n3"], (110, 3, 2, Ping(1)), 1)
        assert happen(world, node, Notify(), 3) == ([], [])
        assert happen(world, node, Timeout(1), 2) == (["timeout n3"], []) and node.prdc == 1
        # n3 lies between n1 and n0, and becomes the predecessor again. Then n1 causes another ping.
        assert happen(world, node, Notify(), 4) == ([], []) and node.prdc == 2
        happen(world, node, Notify(), 3)
        assert happen(world, node, Timeout(5), 2)[0] == ["again ping n3"]
        assert happen(world, node, Pong(5), 4) == ([], []) and not node.calls and node.prdc == 2

    def test_join(self) -> None:
        """Step and GetList of a join are sent again; one failure comes of all sendings together."""
        world, node = world_of("retries = 1")
        happen(world, node, CmdCrash(), 1)
        # Two timers, then the step, which is event 3.
        assert happen(world, node, CmdJoin(2), 1)[1][2] == (110, 3, 2, Step(3, 0, []))
        lines, made = happen(world, node, Timeout(3), 2)
        assert (lines, made[0]) == (["again step n3"], (110, 5, 2, Step(3, 0, [])))
        happen(world, node, StepReply(3, Owner(1)), 4)
        lines, made = happen(world, node, Timeout(7), 2)
        assert (lines, made[0]) == (["again get-list n3"], (110, 9, 2, GetList(7)))
        assert node.join == Attempt(is_answered=True)
        lines, made = happen(world, node, Timeout(7), 2)
        assert (lines, made[0]) == (["timeout n3"], (110, 11, 2, Step(11, 0, [])))
        assert node.join == Attempt(failures=1, is_answered=True)
        happen(world, node, StepReply(11, Owner(1)), 4)
        assert happen(world, node, ListReply(13, [1, 2]), 4)[0] == ["member n3"]

    def test_nodes_to_avoid(self) -> None:
        """The request that is sent again has the nodes to avoid of its lookup, or of the attempt."""
        world, node = world_of("retries = 1")
        happen(world, node, CmdLookup(7), 1)
        for _ in range(2):
            happen(world, node, Timeout(1), 2)
        assert happen(world, node, Timeout(5), 2)[1][0][3] == Step(5, 7, [2])
        happen(world, node, CmdCrash(), 1)
        happen(world, node, CmdJoin(1), 1)
        number = list(node.calls)[0]
        assert node.join is not None
        node.join.avoid.append(2)
        assert happen(world, node, Timeout(number), 2)[1][0][3] == Step(number, 0, [2])

    def test_crash_ends_all_sendings(self) -> None:
        """A timeout of a call of an earlier life is nothing."""
        world, node = world_of("retries = 3")
        happen(world, node, CmdLookup(7), 1)
        happen(world, node, CmdCrash(), 1)
        assert happen(world, node, Timeout(1), 2) == ([], [])

    def test_messages_by_kind(self) -> None:
        """Each sending is a message: two steps were sent, and one of them was lost."""
        with tempfile.TemporaryDirectory() as folder:
            name = Path(folder) / "x.toml"
            name.write_text(extended("loss_ppm = 20387", "retries = 1"))
            status, out, _ = ended(main, str(name), "--report", "--messages")
            lines = out.splitlines()
            assert (status, len(lines)) == (0, 31 + 10 + 10)
            assert lines[24:32] == ["losses 1", "again 1", *(f"{word} 0" for word in LATER[2:]), "sent step 2"]
            assert "sent step-reply 1" in lines and "lost step 1" in lines


class OwnDrawsTest(TestCase):
    """Draws with words of their own. The node is n0, whose streams have the numbers p 2^32."""

    def test_first_timers(self) -> None:
        """n0 arms at 0, with the epoch 1; the words w of each draw, as a part of 2^64, times the width of the span.

        StabilizeTick, (n0, 1) k=0: 2b8f4646 7b2509f7 is 0.170.., times 100 is 17: 1000 + 17
        FingerTick,    (n0, 2) k=0: b3f347b1 a6a653ff is 0.702.., times 100 is 70: 1000 + 70
        TrafficTick,   (n0, 3) k=0: 21ad4b9d f10dab16 is 0.131.., times 31 is 4.07..: 30 + 4
        LifeEnd,       (n0, 4) k=1: 4c4034a9 0f1cc872 is 0.297.., times 501 is 149.2..: 500 + 149
        """
        world, node = world_of(changes=SPANS)
        procedures = Procedures(world, node, 0)
        procedures.arm()
        assert [(event.time, event.body) for event in procedures.events] == [
            (1017, StabilizeTick(1)), (1070, FingerTick(1)), (34, TrafficTick(1)), (649, LifeEnd(1)),
        ]
        assert (node.place, node.count) == (4, 4)

    def test_timers_set_again(self) -> None:
        """At 100 the occasion of the first three is 100, in whatever order they come, wherever the place is.

        (n0, 2) k=100: 3494d7f0 74f3c70c is 0.205.., times 100 is 20: 100 + 1000 + 20
        (n0, 1) k=100: b5c44365 e3cc68b5 is 0.710.., times 100 is 71: 100 + 1000 + 71
        (n0, 3) k=100: e1a4ab4a 1e1ed20d is 0.881.., times 31 is 27.3..: 100 + 30 + 27
        (n0, 6) k=100: the key is the low three bits of b9046c74, which are 4
        """
        world, node = world_of(changes=SPANS)
        node.place = 12345
        assert happen(world, node, FingerTick(1), 2)[1][0] == (1120, 1, 0, FingerTick(1))
        assert happen(world, node, StabilizeTick(1), 2)[1][0][0] == 1171
        lines, made = happen(world, node, TrafficTick(1), 2)
        assert lines[0] == "lookup 4" and made[0] == (157, made[0][1], 0, TrafficTick(1))

    def test_word_of_the_stream(self) -> None:
        """The stream of purpose 2 of node 1 has word 14 = 1 and word 15 = 2. Words 4000 and 4001 are those of k=1000:

        4dabac36 7d7781b5 (seed 1), which is 0.303.. of 2^64.
        """
        stream = Stream(1, 1 + 2 * 2**32)
        assert [f"{stream.word(place):08x}" for place in (4000, 4001)] == ["4dabac36", "7d7781b5"]
        world, _ = world_of()
        node = initial_states(world)[1]
        assert Procedures(world, node, 1000).numbers_below(Drawn.FINGER_TICK, 1000, 100) == [30]

    def test_life_and_down_time(self) -> None:
        """The occasion is the epoch of the timer: (n0, 5) k=1: ebdf3f0e c8c1726c is 0.921.., times 41 is 37.7..

        So n0 rises at 100 + 60 + 37. Then its epoch is 2, and its life is drawn on the occasion 2.
        """
        world, node = world_of(changes=SPANS)
        lines, made = happen(world, node, LifeEnd(1), 2)
        assert (lines, made) == (["crash"], [(197, 1, 0, Rise(1))])
        stream = Stream(1, 4 * 2**32)
        life = 500 + (stream.word(8) * 2**32 + stream.word(9)) * 501 // 2**64
        assert happen(world, node, Rise(1), 2)[1][3] == (100 + life, 5, 0, LifeEnd(2))

    def test_random_keys(self) -> None:
        """Of four words as many as the bits need, the highest one first; the low bits are the key."""
        words = [Stream(1, 6 * 2**32).word(400 + i) for i in range(4)]
        assert [f"{word:08x}" for word in words[:2]] == ["b9046c74", "36317920"]
        digits = "".join(f"{word:08x}" for word in words)
        for bits, count in ((3, 1), (32, 1), (33, 2), (64, 2), (65, 3), (96, 3), (97, 4), (128, 4)):
            world, node = world_of(changes=(("bits = 3", f"bits = {bits}"),))
            key = Procedures(world, node, 100).random_key()
            assert (key, node.place) == (int(digits[: 8 * count], 16) % 2**bits, count)

    def test_numbers_reach_their_bounds(self) -> None:
        """The least double word gives 0; the greatest, 2^64 - 1, gives the bound less 1, of the greatest bound too."""
        world, node = world_of()
        procedures = Procedures(world, node, 0)
        for words, wanted in (((0, 0, 0, 0), (0, 0)), ((2**32 - 1,) * 4, (10**9, 999_999))):
            with patch.object(procedures, "words", return_value=list(words)):
                assert procedures.numbers_below(Drawn.MESSAGE, 1, 10**9 + 1, 10**6) == list(wanted)

    def test_messages(self) -> None:
        """The occasion is the number of the message, also of one that is lost: number 2 of n0 has x = 400.

        Of number 1, x is 972585 and of number 3 846205, so that 401 of a million lose the second one alone.
        """
        world, node = world_of("loss_ppm = 401")
        procedures = Procedures(world, node, 100)
        for _ in range(3):
            procedures.send(1, Notify())
        assert [event.number for event in procedures.events] == [1, 3]
        assert procedures.lines == ["100 n0 lose notify n1"] and (node.place, node.count) == (6, 3)

    def test_messages_to_oneself(self) -> None:
        """They draw nothing, take 1 and are never lost; the message after them is number 2."""
        world, node = world_of("loss_ppm = 401", "spread_us = 9")
        procedures = Procedures(world, node, 100)
        procedures.send(0, Notify())
        assert [(event.time, event.number) for event in procedures.events] == [(101, 1)] and node.place == 0
        procedures.send(1, Notify())
        assert procedures.lines == ["100 n0 lose notify n1"] and node.place == 2

    def test_share_of_lost_messages_and_the_spread(self) -> None:
        """A tenth of ten thousand is lost within 1 %, and the others are 0 to 9 us late alike."""
        world, node = world_of("loss_ppm = 100000", "spread_us = 9")
        procedures = Procedures(world, node, 100)
        for _ in range(10_000):
            procedures.send(1, Notify())
        assert abs(len(procedures.lines) / 10_000 - 0.1) < 0.01
        late = [event.time - 110 for event in procedures.events]
        assert set(late) == set(range(10)) and abs(sum(late) / len(late) - 4.5) < 0.1

    def test_same_draws_in_another_scenario(self) -> None:
        """More nodes, other latencies and commands: what a node draws at a time is the same."""
        small, node = world_of("loss_ppm = 5", changes=SPANS)
        more = extended(changes=(*SPANS, ("latency_us = 10", "latency_us = 11")))
        large = World(read_scenario(f'{more}[[node]]\nname = "x"\nid = 6\n{CRASH}'.encode(), b""))
        other = initial_states(large)[0]
        happen(large, other, StabilizeTick(1), 2)
        bodies: list[Body] = [FingerTick(1), TrafficTick(1), StabilizeTick(1)]
        for body in bodies:
            times = [happen(world, one, body, 2)[1][0][0] for world, one in ((small, node), (large, other))]
            assert times[0] == times[1]

    def test_without_draws(self) -> None:
        """No jitter, lookups or loss, and no rule as published: the trace of the first profile, and more zeros."""
        for name in ("ring", "join_stuck", "ninth_timeout"):
            text = (EXAMPLES / f"{name}.toml").read_text()
            lines, numbers = ran(text)
            for keys in ("", *ZEROS):
                off = "\n".join(switched_off(*keys.split("\n")))
                changed = text.replace("profile = 1", f"profile = 4{keys}\n{off}", 1)
                later = dict.fromkeys(LATER, 0) | {"timeouts-sum": ran(changed)[1]["timeouts-sum"]}
                assert ran(changed) == (lines, numbers | later), name


class LimitsTest(TestCase):
    """Keys and ranges."""

    def test_limits(self) -> None:
        """Bits, digits, loss and spread are as in the second profile. There may be more nodes and events."""
        text = RING.replace("profile = 1", "profile = 4")
        assert fault(text.replace("bits = 3", "bits = 128")) == "accepted"
        assert fault(text.replace("bits = 3", "bits = 129")) == "S5 OutOfRange top bits"
        assert fault(many(4, 65_536)) == "accepted"
        assert fault(many(4, 65_537)) == "S5 OutOfRange top node"
        assert fault(extended("max_events = 100_000_000_000")) == "accepted"
        assert fault(extended("max_events = 100_000_000_001")) == "S5 OutOfRange top max_events"
        assert fault(text.replace(N3, f'name = "n3"\nid = "{"3":0>32}"')) == "accepted"
        assert fault(text.replace(N3, f'name = "n3"\nid = "{"3":0>33}"')) == "S5 OutOfRange node 3 id"
        times = dict.fromkeys(("spread_us", "join_pause_us", "check_us"), 1_000_000_000)
        for key, most in {"loss_ppm": 1_000_000, "retries": 3, **times}.items():
            assert fault(extended(f"{key} = {most}")) == "accepted"
            for value in (most + 1, -1):
                assert fault(extended(f"{key} = {value}")) == f"S5 OutOfRange top {key}"
            assert fault(extended(f'{key} = "0"')) == f"S4 WrongType top {key}"
            assert fault(extended().replace("[[node]]", f"[[node]]\n{key} = 0", 1)) == "S2 UnknownKey node 1"

    def test_refusals_by_the_profile(self) -> None:
        """The worked examples of docs/formats.md, the order of the keys, and files whose profile is not 2 or 4."""
        assert fault(PLAIN.replace("profile = 2", "profile = 2\nretries = 1")) == "S2 UnknownKey top"
        assert fault(extended("retries = 4")) == "S5 OutOfRange top retries"
        assert fault(extended("retries = -1", "spread_us = -1")) == "S5 OutOfRange top spread_us"
        assert fault(extended("check_us = -1", "join_pause_us = -1")) == "S5 OutOfRange top join_pause_us"
        assert fault(extended("join_forever = 1", "check_us = true")) == "S4 WrongType top join_forever"
        for key in ("join_pause_us = 0", "join_forever = false", "check_us = 0"):
            assert fault(PLAIN.replace("profile = 2", f"profile = 2\n{key}")) == "S2 UnknownKey top"
        for profile in ("1", "2", "3", "0", '"4"', "4.0", "true", "[4]"):
            assert fault(extended("retries = 0").replace("profile = 4", f"profile = {profile}")) == "S2 UnknownKey top"
        assert fault(PLAIN.replace("profile = 2", "profile = 4.0")) == "S4 WrongType top profile"
        window = extended("spread_us = 5").replace("window_us = 10", "window_us = 11")
        assert fault(window) == "S15 LatencyBelowWindow n0 n1"


class RandomScenariosTest(TestCase):
    """What the random scenarios of the extended profile have."""

    def test_pauses_and_checks(self) -> None:
        """Pauses, joins that go on, checks, predecessors that are forgotten, and leaves are in many of them."""
        counts: Counter[str] = Counter()
        for seed in range(4, 120, 6):
            toml, csv = scenario_files(seed)
            scenario = read_scenario(toml.encode(), csv.encode())
            simulation = Simulation(scenario)
            with suppress(TooManyEvents):
                for line in simulation.lines():
                    counts[line.split(" ")[2]] += 1
                    counts["went on"] += scenario.join_forever and line.endswith("join-failed")
            counts.update({"pauses": scenario.join_pause_us > 0, "checks": scenario.check_us > 0})
            counts["leave_ppm"] += scenario.churn is not None and 0 < scenario.churn.leave_ppm < 1_000_000
            counts["leave by command"] += sum(command.do == "leave" for command in scenario.commands)
        words = ("pauses", "checks", "went on", "forget", "leave", "leave by command")
        assert min(counts[word] for word in words) > 5 and counts["leave_ppm"] > 2, counts

    def test_coordinates(self) -> None:
        """Some of them have coordinates, and no latency file then."""
        count = 0
        for seed in range(4, 120, 6):
            toml, csv = scenario_files(seed)
            scenario = read_scenario(toml.encode(), csv.encode())
            if "height_us" in toml:
                count += 1
                assert all(node.coordinates is not None for node in scenario.nodes) and csv == ""
        assert 3 < count < 17


class SameRequestTest(TestCase):
    """What docs/promises.md says of requests that are sent again: each is the request that was sent first."""

    def test_random_scenarios(self) -> None:
        """Random scenarios of the extended profile, with all four kinds among what is sent again."""
        first: dict[tuple[int, int], tuple[int, Message]] = {}
        again: Counter[type] = Counter()
        send = Procedures.send

        def watched(self: Procedures, p: int, body: Message) -> None:
            """Sends, and compares a request with the first sending of its call."""
            if isinstance(body, (Step, GetState, GetList, Ping)):
                call = (self.n.me, body.call)
                again[type(body)] += call in first
                assert first.setdefault(call, (p, deepcopy(body))) == (p, body), body
            send(self, p, body)

        with patch.object(Procedures, "send", watched):
            for seed in range(4, 60, 6):
                first.clear()
                toml, csv = scenario_files(seed)
                simulation = Simulation(read_scenario(toml.encode(), csv.encode()))
                with suppress(TooManyEvents):
                    for _ in simulation.lines():
                        pass
        assert set(again) == {Step, GetState, GetList, Ping}, again
        assert min(again.values()) > 0 and again.total() > 500, again
