"""The second profile by hand: lost and late messages at n0, n1 and n3 of examples/ring.toml, wide keys, and limits."""

import tempfile
import tomllib
from pathlib import Path
from unittest import TestCase

from chordsim_tools.cli import Refused
from chordsim_tools.generate.random_scenario import scenario_files
from chordsim_tools.reference.command import main
from chordsim_tools.reference.procedures import Procedures
from chordsim_tools.reference.report import Report
from chordsim_tools.reference.rules import act
from chordsim_tools.reference.simulation import Simulation, initial_states
from chordsim_tools.reference.state import (
    Body, CmdCrash, CmdJoin, CmdLookup, Event, GetState, Node, Notify, Ping, Step, Timeout,
)
from chordsim_tools.reference.turn import World
from chordsim_tools.scenario.reading import read_scenario
from tests.support.programs import ended
from tests.support.worlds import EXAMPLES, RING

PLAIN = RING.replace("profile = 1", "profile = 2").replace('node = "n0"', 'node = "n3"')
CRASH = '[[command]]\nat_us = 50\ndo = "crash"\nnode = "n0"\n'
AUDIT = "200 audit members=3 dead=0 ring=3 ordered=yes principals=3 sufficient=yes"
N3 = 'name = "n3"\nid = 3'
TIMES = ("us-sum", "us-least", "us-median", "us-greatest")


def second(*keys: str) -> str:
    """The ring in the second profile with these keys of the network, where n3 looks up key 1."""
    return PLAIN.replace("profile = 2", "\n".join(("profile = 2", *keys)))


def ran(text: str) -> tuple[list[str], dict[str, int]]:
    """The trace of a scenario, and all numbers of its report."""
    run = Simulation(read_scenario(text.encode(), b""))
    report = Report(run.scenario.profile)
    lines = list(run.lines())
    for line in lines:
        report.read(line)
    return lines, report.numbers(run.events)


def fault(text: str) -> str:
    """What a scenario is refused for."""
    try:
        read_scenario(text.encode(), b"")
    except Refused as refused:
        return str(refused)
    return "accepted"


def many(profile: int, count: int) -> str:
    """A scenario of so many nodes."""
    head = RING.partition("[[node]]")[0].replace("bits = 3", "bits = 16").replace("profile = 1", f"profile = {profile}")
    return head + "".join(f'[[node]]\nname = "n{i}"\nid = {i}\ninitial = true\n' for i in range(count))


def happen(world: World, node: Node, body: Body, origin: int) -> tuple[list[str], list[tuple[int, int, int, Body]]]:
    """Lets an event happen at n0 at 100. Gives its lines, and of each event its time, number, target and body."""
    events, lines = act(world, node, Event(100, origin, 1, 0, body))
    return [line.removeprefix("100 n0 ") for line in lines], [(e.time, e.number, e.target, e.body) for e in events]


class SecondProfileTest(TestCase):
    """Loss, spread, wide identifiers, and the keys of the second profile."""

    def test_all_messages_are_lost(self) -> None:
        """The step is lost, its timeout is not; n1 is the owner then, since n0 is to be avoided."""
        lines, numbers = ran(second("loss_ppm = 1000000"))
        assert lines == [
            "100 n3 lookup 1",
            "100 n3 lose step n0",
            "140 n3 timeout n0",
            "140 n3 found 1 n1 hops=0 timeouts=1 us=40",
            AUDIT,
        ]
        ones = ("timeouts", "lookups", "found", "audits", "losses")
        wanted = {"events": 2} | dict.fromkeys(ones, 1) | dict.fromkeys(TIMES, 40)
        assert {word: number for word, number in numbers.items() if number != 0} == wanted

    def test_late_messages(self) -> None:
        """Of the words at place 3, modulo 6, that of node 2 is 4 and that of node 0 is 0: 4 us late, and not at all."""
        lines, numbers = ran(second("spread_us = 5"))
        assert lines == ["100 n3 lookup 1", "124 n3 found 1 n1 hops=1 timeouts=0 us=24", AUDIT]
        assert (numbers["events"], numbers["losses"]) == (4, 0)

    def test_late_message_at_a_node_that_is_down(self) -> None:
        """The step comes 4 us late; the timeout does not wait for that."""
        lines, _ = ran(second("spread_us = 5") + CRASH)
        assert lines == [
            "50 n0 crash",
            "100 n3 lookup 1",
            "114 n0 drop step n3",
            "140 n3 timeout n0",
            "140 n3 found 1 n1 hops=0 timeouts=1 us=40",
            "200 audit members=2 dead=0 ring=2 ordered=yes principals=2 sufficient=no",
        ]

    def test_neither_loss_nor_spread(self) -> None:
        """The trace is that of the first profile, and the report has its 24 numbers and a 25th."""
        lines, numbers = ran(PLAIN.replace("profile = 2", "profile = 1"))
        assert len(numbers) == 24
        for text in (second(), second("loss_ppm = 0", "spread_us = 0")):
            assert ran(text) == (lines, numbers | {"losses": 0})
            assert list(ran(text)[1])[24:] == ["losses"]

    def test_examples_whose_words_make_no_difference(self) -> None:
        """In the second profile they have the same trace, and `losses 0` after the same report."""
        for name in ("ring", "join_stuck", "ninth_timeout"):
            text = (EXAMPLES / f"{name}.toml").read_text()
            lines, numbers = ran(text)
            assert ran(text.replace("profile = 1", "profile = 2", 1)) == (lines, numbers | {"losses": 0}), name

    def test_lost_request_is_a_call(self) -> None:
        """It has used up the number 3: the timeout is event 4, and the call is 3."""
        world = World(read_scenario(second("loss_ppm = 1000000").encode(), b""))
        node = initial_states(world)[0]
        node.count = 2
        lines, made = happen(world, node, CmdLookup(7), 1)
        assert (lines, made) == (["lookup 7", "lose step n3"], [(140, 4, 0, Timeout(3))])
        assert (list(node.calls), node.lookups[0].call, node.count, node.place) == ([3], 3, 4, 2)
        assert happen(world, node, Timeout(3), 2)[0] == ["timeout n3", "lose step n1"]

    def test_lost_answers_and_notifies(self) -> None:
        """A lost reply and a lost notify use up a number each, and make no event."""
        world = World(read_scenario(second("loss_ppm = 1000000").encode(), b""))
        node = initial_states(world)[0]
        assert happen(world, node, GetState(9), 3) == (["lose state-reply n1"], [])
        assert happen(world, node, Ping(9), 4) == (["lose pong n3"], [])
        assert happen(world, node, Step(9, 7, []), 4) == (["lose step-reply n3"], [])
        assert (node.count, node.place) == (3, 6)

    def test_words_of_a_node_that_comes_up(self) -> None:
        """One word for each of two timers, then two for the step: the line `lose` stands behind the line `join`."""
        world = World(read_scenario(second("loss_ppm = 1000000").encode(), b""))
        node = initial_states(world)[0]
        happen(world, node, CmdCrash(), 1)
        lines, made = happen(world, node, CmdJoin(2), 1)
        assert lines == ["join n3", "lose step n3"]
        assert [number for _, number, _, _ in made] == [1, 2, 4] and (node.place, node.count) == (4, 4)

    def test_messages_to_oneself(self) -> None:
        """They draw no words, take 1 and are never lost."""
        world = World(read_scenario(second("loss_ppm = 1000000", "spread_us = 9").encode(), b""))
        procedures = Procedures(world, initial_states(world)[0], 100)
        procedures.send(0, Notify())
        assert (procedures.events, procedures.lines) == ([Event(101, 2, 1, 0, Notify())], [])
        assert procedures.n.place == 0

    def test_share_of_lost_messages_and_the_spread(self) -> None:
        """A tenth of ten thousand is lost within 1 %, and the others are 0 to 9 us late alike."""
        world = World(read_scenario(second("loss_ppm = 100000", "spread_us = 9").encode(), b""))
        procedures = Procedures(world, initial_states(world)[0], 100)
        for _ in range(10_000):
            procedures.send(1, Notify())
        assert abs(len(procedures.lines) / 10_000 - 0.1) < 0.01
        late = [event.time - 110 for event in procedures.events]
        assert set(late) == set(range(10)) and abs(sum(late) / len(late) - 4.5) < 0.1
        assert procedures.n.count == 10_000 == len(late) + len(procedures.lines) and procedures.n.place == 20_000

    def test_random_keys(self) -> None:
        """One word for each 32 bits that are begun, the highest one first; the low bits are the key."""
        for bits, count in ((3, 1), (32, 1), (33, 2), (64, 2), (65, 3), (96, 3), (97, 4), (128, 4)):
            world = World(read_scenario(second().replace("bits = 3", f"bits = {bits}").encode(), b""))
            procedures = Procedures(world, initial_states(world)[0], 100)
            words = [world.streams[0].word(place) for place in range(count)]
            digits = "".join(f"{word:08x}" for word in words)
            assert (procedures.random_key(), procedures.n.place) == (int(digits, 16) % 2**bits, count)

    def test_limits_of_both_profiles(self) -> None:
        """Bits, nodes, digits and the new keys, just within and just beyond."""
        for profile, bits, nodes in ((1, 64, 512), (2, 128, 4096)):
            text = RING.replace("profile = 1", f"profile = {profile}")
            assert fault(text.replace("bits = 3", f"bits = {bits}")) == "accepted"
            assert fault(text.replace("bits = 3", f"bits = {bits + 1}")) == "S5 OutOfRange top bits"
            assert fault(many(profile, nodes)) == "accepted"
            assert fault(many(profile, nodes + 1)) == "S5 OutOfRange top node"
            digits = bits // 4
            assert fault(text.replace(N3, f'name = "n3"\nid = "{"3":0>{digits}}"')) == "accepted"
            assert fault(text.replace(N3, f'name = "n3"\nid = "{"3":0>{digits + 1}}"')) == "S5 OutOfRange node 3 id"
            assert fault(text.replace("key = 1", f'key = "{"1":0>{digits + 1}}"')) == "S5 OutOfRange command 1 key"
        for key, most in (("loss_ppm", 1_000_000), ("spread_us", 1_000_000_000)):
            assert fault(second(f"{key} = {most}")) == "accepted"
            assert fault(second(f"{key} = {most + 1}")) == fault(second(f"{key} = -1")) == f"S5 OutOfRange top {key}"
            assert fault(second(f'{key} = "0"')) == f"S4 WrongType top {key}"
            assert fault(second().replace("[[node]]", f"[[node]]\n{key} = 0", 1)) == "S2 UnknownKey node 1"

    def test_refusals_by_the_profile(self) -> None:
        """The worked examples of docs/formats.md, and files whose profile is not the whole number 2."""
        zeros = N3.replace("id = 3", 'id = "00000000000000000"')
        assert fault(RING.replace(N3, zeros)) == "S5 OutOfRange node 3 id"
        assert fault(PLAIN.replace(N3, zeros)) == "S8 SameId n0 n3"
        window = second("spread_us = 5").replace("window_us = 10", "window_us = 11")
        assert fault(window) == "S15 LatencyBelowWindow n0 n1"
        for profile in ("1", "3", "0", '"2"', "2.0", "true", "[2]"):
            assert fault(second("loss_ppm = 0").replace("profile = 2", f"profile = {profile}")) == "S2 UnknownKey top"
        assert fault(second("loss_ppm = 0").replace("profile = 2\n", "")) == "S2 UnknownKey top"
        assert fault(PLAIN.replace("profile = 2", "profile = 3")) == "S5 OutOfRange top profile"
        assert fault(PLAIN.replace("profile = 2", "profile = 2.0")) == "S4 WrongType top profile"
        both = second("loss_ppm = -1", "spread_us = -1").replace("list = 2", "list = 17")
        assert fault(both) == "S5 OutOfRange top list"
        assert fault(second("spread_us = -1", "loss_ppm = -1")) == "S5 OutOfRange top loss_ppm"

    def test_wide_identifiers(self) -> None:
        """128 bits: the head of the SHA-1 digest, 32 digits, and the distance around the whole circle."""
        text = PLAIN.replace("bits = 3", "bits = 128").replace("id = 1", f'id = "{"f" * 32}"')
        text = text.replace(N3, 'name = "abc"')
        scenario = read_scenario(text.replace('node = "n3"', 'node = "n0"').encode(), b"")
        assert [node.ident for node in scenario.nodes] == [0, 2**128 - 1, 0xA9993E364706816ABA3E25717850C26C]
        node = initial_states(World(scenario))[0]
        assert (node.prdc, node.succ, len(node.fingers), node.fingers[128]) == (1, [2, 1], 127, 2)

    def test_messages_by_kind(self) -> None:
        """A lost message was made: it counts as sent, and among the lost ones."""
        with tempfile.TemporaryDirectory() as folder:
            name = Path(folder) / "x.toml"
            name.write_text(second("loss_ppm = 1000000"))
            status, out, _ = ended(main, str(name), "--report", "--messages")
            lines = out.splitlines()
            assert (status, lines[24], lines[25], lines[34]) == (0, "losses 1", "sent step 1", "lost step 1")
            assert len(lines) == 25 + 9 + 9 and lines[26:34] + lines[35:] == [
                f"{word} {kind} 0" for word in ("sent", "lost") for kind in
                ("get-state", "get-list", "ping", "notify", "step-reply", "state-reply", "list-reply", "pong")
                if (word, kind) != ("lost", "step")
            ]
            name.write_text(RING)
            assert len(ended(main, str(name), "--report", "--messages")[1].splitlines()) == 24 + 9

    def test_random_scenarios_have_all_profiles(self) -> None:
        """A third of them each, all accepted, with messages that are lost in the later two alone."""
        profiles, losses, again = [], 0, 0
        for seed in range(24):
            toml, csv = scenario_files(seed)
            scenario = read_scenario(toml.encode(), csv.encode())
            profiles.append(scenario.profile)
            assert tomllib.loads(toml)["profile"] == scenario.profile
            words = [line.split(" ")[2] for line in Simulation(scenario).lines()]
            assert scenario.loss_ppm > 0 or "lose" not in words, seed
            assert scenario.retries > 0 or "again" not in words, seed
            losses += words.count("lose")
            again += words.count("again")
        assert profiles == [1, 1, 2, 2, 4, 4] * 4 and losses > 100 and again > 100
