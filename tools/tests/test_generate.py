"""The scenarios of tools/generate."""

import os
import subprocess
import tempfile
import tomllib
from pathlib import Path
from random import Random
from unittest import TestCase, mock

from chordsim_tools.generate.command import main
from chordsim_tools.generate.random_scenario import scenario_files
from chordsim_tools.generate.top import WAYS as WAYS_OF_OPTIONS
from chordsim_tools.known import known
from chordsim_tools.reference.circle import Circle
from chordsim_tools.scenario.coordinates import Coordinates
from chordsim_tools.scenario.reading import PUBLISHED, Churn, Command, Jitters, Lookups, Scenario, read_scenario
from chordsim_tools.scenario.tables import WAYS
from tests.support.programs import checked, ended, program

TOOL = Path(__file__).resolve().parents[1] / "generate"
REFUSED = [
    ("--nodes 1", "--nodes: 2 to 512"),
    ("--nodes -5", "--nodes: 2 to 512 (at most 512 in profile 1, and 2^32, by --bits); 4096 in profile 2 and "
     "1048576 in profile 4, not '-5'"),
    ("--nodes 99999999999999999999", "1048576 in profile 4, not '999999"),
    ("--profile 2 --nodes 5000", "by --bits); 1048576 in profile 4, not '5000'"),
    ("--profile 4 --nodes 2000000", "by --bits), not '2000000'"),
    ("--bits -1", "--bits: 3 to 64 (in profile 1), not '-1'"),
    ("--nodes many", "--nodes: a whole number, not 'many'"),
    ("--duration 5w", "--duration: a time of 1us to 1000000s (us, ms, s, m, h or d), not '5w'"),
    ("--duration -5s", "--duration: a time of 1us to 1000000s (us, ms, s, m, h or d), not '-5s'"),
    ("--window 1w", "--window: a time (us, ms, s, m, h or d), not '1w'"),
    ("--lookup-gap -1s..2s", "--lookup-gap: none or MIN..MAX, each 1us to 1000s, not '-1s..2s'"),
    ("--nodes 513 --bits 64", "--nodes: 2 to 512"),
    ("--bits 3 --nodes 9", "--nodes: 2 to 8"),
    ("--bits 2", "--bits: 3 to 64"),
    ("--bits 65", "--bits: 3 to 64"),
    ("--initial 65", "--initial: 2 to 64"),
    ("--initial 1", "--initial: 2 to 64"),
    ("--profile 4 --initial 0", "--initial: 1 to 64"),
    ("--profile 4 --list 33", "--list: 1 to 32"),
    ("--nodes 4 --list 4", "--list: 1 to 3"),
    ("--list 17", "--list: 1 to 16"),
    ("--seed 9223372036854775808", "--seed: 0 to 9223372036854775807"),
    ("--duration 0", "--duration: a time of 1us to 1000000s"),
    ("--window 21ms", "--window: a time of 1us to 20ms"),
    ("--latency 1001s", "--latency: a time of 1us to 1000s"),
    ("--timeout 1h", "--timeout: a time of"),
    ("--audit 119us", "--audit: a time of 120us to 1000s"),
    ("--jitter 1001s", "--jitter: a time of 0us to 1000s"),
    ("--max-events 50000001", "--max-events: 1 to 50000000"),
    ("--profile 3", "--profile: 1, 2 or 4, not '3'"),
    ("--profile 2 --bits 129", "--bits: 3 to 128"),
    ("--profile 2 --nodes 4097", "--nodes: 2 to 4096"),
    ("--profile 2 --loss 1000001", "--loss: messages lost per million, 0 to 1000000 (5000 is 0.5 %)"),
    ("--profile 2 --loss 0.005", "--loss: messages lost per million, 0 to 1000000 (5000 is 0.5 %), not '0.005'"),
    ("--profile 2 --spread 1001s", "--spread: a time of 0us to 1000s"),
    ("--loss 0", "--loss: only with --profile 2 or 4"),
    ("--profile 1 --spread 1ms", "--spread: only with --profile 2 or 4"),
    ("--profile 4 --bits 129", "--bits: 3 to 128"),
    ("--profile 4 --nodes 1048577", "--nodes: 2 to 1048576"),
    ("--profile 2 --classes", "--classes: only with --profile 4"),
    ("--profile 4 --classes --coordinates king", "--coordinates: with --classes, and above 65536 nodes, regions:NAME"),
    ("--profile 4 --nodes 65537 --coordinates square:0:1ms..2ms", "--coordinates: with --classes, and above 65536"),
    ("--profile 4 --retries 4", "--retries: 0 to 3"),
    ("--profile 2 --retries 0", "--retries: only with --profile 4"),
    ("--join-pause 0", "--join-pause: only with --profile 4"),
    ("--profile 2 --join-forever", "--join-forever: only with --profile 4"),
    ("--no-join-forever", "--no-join-forever: only with --profile 4"),
    ("--profile 4 --join-forever --no-join-forever", "--no-join-forever: not with --join-forever"),
    ("--profile 2 --check 1s", "--check: only with --profile 4"),
    ("--profile 2 --detail", "--detail: only with --profile 4"),
    ("--profile 2 --no-list-routes", "--no-list-routes: only with --profile 4"),
    ("--profile 1 --no-drop-silent", "--no-drop-silent: only with --profile 4"),
    ("--no-skip-near", "--no-skip-near: only with --profile 4"),
    ("--profile 2 --no-ask-owner", "--no-ask-owner: only with --profile 4"),
    ("--profile 2 --no-random-start", "--no-random-start: only with --profile 4"),
    ("--profile 2 --no-clean-lists", "--no-clean-lists: only with --profile 4"),
    ("--no-join-asks", "--no-join-asks: only with --profile 4"),
    ("--profile 2 --bootstrap 1", "--bootstrap: only with --profile 4"),
    ("--profile 4 --nodes 5 --bootstrap 6", "--bootstrap: 0 to 5 (at most --nodes)"),
    ("--profile 2 --create-alone", "--create-alone: only with --profile 4"),
    ("--profile 4 --create-alone", "--create-alone: only with --bootstrap"),
    ("--profile 2 --finger-jitter 0", "--finger-jitter: only with --profile 4"),
    ("--profile 4 --check-jitter 1001s", "--check-jitter: a time of 0us to 1000s"),
    ("--no-goes-on", "--no-goes-on: only with --profile 4"),
    ("--profile 2 --lookup-timeouts 8", "--lookup-timeouts: only with --profile 4"),
    ("--profile 4 --lookup-timeouts 65", "--lookup-timeouts: 0 to 64"),
    ("--profile 4 --check 1001s", "--check: a time of 0us to 1000s"),
    ("--profile 4 --join-pause 1001s", "--join-pause: a time of 0us to 1000s"),
    ("--profile 4 --max-events 100000000001", "--max-events: 1 to 100000000000"),
    ("--profile 2 --coordinates square:1s:1us..1us", "--coordinates: only with --profile 4"),
    ("--profile 4 --coordinates square:501s:1us", "--coordinates: square:SIDE:MIN..MAX or square:SIDE:HEIGHT (SIDE"),
    ("--profile 4 --coordinates square:1s:0us", "--coordinates: square:SIDE:MIN..MAX"),
    ("--profile 4 --coordinates square:1s", "--coordinates: square:SIDE:MIN..MAX"),
    ("--profile 4 --coordinates square:1s:", "--coordinates: square:SIDE:MIN..MAX"),
    ("--profile 4 --coordinates square:1s:1us..", "--coordinates: square:SIDE:MIN..MAX"),
    ("--profile 4 --coordinates square:1s:0us..1us", "--coordinates: square:SIDE:MIN..MAX"),
    ("--profile 4 --coordinates square:1s:1us..101s", "--coordinates: square:SIDE:MIN..MAX"),
    ("--profile 4 --coordinates circle:1s:1us..1us", "--coordinates: square:SIDE:MIN..MAX"),
    ("--profile 4 --coordinates king:1s", "king, file:NAME or regions:NAME, not 'king:1s'"),
    ("--profile 4 --coordinates file:", "--coordinates: square:SIDE:MIN..MAX"),
    ("--profile 4 --coordinates square:1s:5ms..5ms --window 10001us", "--window: a time of 1us to 10ms (the sum of"),
    ("--lookup-gap 2s..1s", "--lookup-gap: none or MIN..MAX"),
    ("--churn-uniform 2m..1m 5s..15s", "each 1us to 1000s, not '2m..1m', whose first time is above its second"),
    ("--lookup-gap 0..1s", "--lookup-gap: none or MIN..MAX"),
    ("--churn-uniform 1s..2s 0..1s", "--churn-uniform: two spans"),
    ("--churn-uniform 1s..2s 1s", "--churn-uniform: two spans"),
    ("--churn-uniform 1s..2s 1s..2s --lifetime exp:1s", "--lifetime: not with --churn-uniform"),
    ("--lifetime exp:0", "--lifetime: exp:MEAN"),
    ("--lifetime exp:1s --down zero", "--down: exp:MEAN"),
    ("--down exp:1s", "--down: only with --lifetime"),
    ("--stay 1", "--stay: only with"),
    ("--stay 64 --lifetime exp:1s", "--stay: 0 to 63"),
    ("--via first", "--via: only with"),
    ("--via last --initial 8", "--via: random or first"),
    ("--arrive 1s..2s", "--arrive: only with"),
    ("--arrive 1s..120s --initial 8", "--arrive: MIN..MAX"),
    ("--keys uniform", "--keys: only with --lookups"),
    ("--keys zipf:1:9 --lookups 1 --bits 3 --nodes 4", "--keys: uniform or zipf:S:COUNT, S 0 to 10, COUNT 1 to 8"),
    ("--lookups 0", "--lookups: 0.000001 to 1000000"),
    ("--lookups 1000000", "--lookups: more than 100000 commands"),
    ("--lifetime uniform:1..1 --down uniform:1..1", "--lifetime: more than 100000 commands"),
    ("--nodes", "--nodes: expected one argument"),
    ("--node 8", "unrecognized arguments"),
    ("--seed 1 --seed 1", "--seed: given twice"),
    ("-o x", "-o: given twice"),
    ("--random -1", "--random: 0 to 9223372036854775807"),
    ("--random 1 --nodes 5", "--nodes: not with --random"),
    ("--links x.csv", "--links: only with --random"),
]


def text_of(arguments: str) -> str:
    """What the tool writes for these arguments."""
    status, out, err = ended(main, *arguments.split())
    assert status == 0 and all(line.startswith("warning: ") for line in err.splitlines()), err
    return out


def made(arguments: str) -> Scenario:
    """The scenario of these arguments, as the reference simulator reads it."""
    return read_scenario(text_of(arguments).encode(), b"")


def churn_of(scenario: Scenario, node: int) -> list[Command]:
    """The crashes and joins of a node."""
    return [command for command in scenario.commands if command.node == node and command.do != "lookup"]


def ups(scenario: Scenario) -> dict[int, int]:
    """The nodes that are up at the start, with the time since which they are."""
    return {i: 0 for i, node in enumerate(scenario.nodes) if node.initial}


def random_arguments(random: Random) -> list[str]:
    """Words that the tool takes."""
    profile = random.choice((1, 2, 4))
    bits = random.choice((3, 4, 8, 31, 32, 33, 63, 64) if profile == 1 else (3, 8, 64, 65, 96, 97, 127, 128))
    nodes = random.randint(2, min(60, 2**bits))
    initial = random.randint(2, nodes)
    duration = random.choice((1, 30, 10**6, 10**7))
    latency = random.choice((1, 500, 20_000, 10**9))
    arguments = {"profile": profile, "bits": bits, "nodes": nodes, "initial": initial}
    arguments |= {"duration": duration, "latency": latency}
    arguments["seed"] = random.choice((0, 5, 2**63 - 1))
    arguments["list"] = random.randint(1, min(16, initial - 1))
    arguments["window"] = random.randint(1, latency)
    laws = ("exp:2s", "pareto:1.1:900ms", "uniform:1s..4s", "pareto:0.1:1s", "exp:1s")
    churn = random.choice(("", "itself", "commands"))
    given = [word for name, value in arguments.items() for word in (f"--{name}", str(value))]
    if churn == "itself":
        given += ["--churn-uniform", "1..5s", "250us..1.5s"]
    if churn == "commands":
        given += ["--lifetime", random.choice(laws), "--down", random.choice(laws)]
        given += ["--via", random.choice(("random", "first"))]
    if churn:
        given += ["--stay", str(random.randint(0, nodes - 1))]
    if initial < nodes and random.random() < 0.5:
        given += ["--arrive", f"0..{duration - 1}us"]
    if random.random() < 0.5:
        given += ["--lookups", random.choice(("0.5", "3.25")), "--keys", random.choice(("uniform", "zipf:0.8:7"))]
    if profile == 4 and random.random() < 0.7:
        given += ["--retries", str(random.randint(0, 3))]
    if profile >= 2 and random.random() < 0.7:
        given += ["--loss", random.choice(("0", "1000000", "20000")), "--spread", random.choice(("0", "3us", "1000s"))]
    if random.random() < 0.3:
        given += ["--lookup-gap", random.choice(("none", "1..1000s"))]
    return given


class GenerateTest(TestCase):
    """What is written, and what is refused."""

    def test_defaults(self) -> None:
        """A ring as in examples/churn64.toml, without churn."""
        ring = made("")
        assert (ring.bits, ring.list, ring.seed, ring.max_events) == (32, 4, 1, 50_000_000)
        assert (ring.duration_us, ring.audit_us) == (120_000_000, 5_000_000)
        assert (ring.window_us, ring.latency_us, ring.timeout_us) == (20_000, 20_000, 200_000)
        assert (ring.stabilize_us, ring.finger_us, ring.jitters) == (500_000, 250_000, Jitters(50_000, 50_000, 50_000))
        assert [node.name for node in ring.nodes] == [f"n{i}" for i in range(64)]
        assert all(node.initial and not node.churn for node in ring.nodes)
        assert (ring.churn, ring.lookups, ring.commands) == (None, Lookups(500_000, 1_500_000), [])

    def test_all_plain_words(self) -> None:
        """Each option's value stands where it belongs."""
        ring = made(
            "--profile 1 --nodes 9 --initial 6 --bits 8 --list 5 --duration 2s --window 1ms --latency 2ms "
            "--timeout 3ms --audit 4ms --stabilize 5ms --finger 6ms --jitter 7ms --max-events 8 --seed 9 "
            "--lookup-gap 10ms..11ms --churn-uniform 12ms..13ms 14ms..15ms --stay 1"
        )
        assert (ring.bits, ring.list, ring.seed, ring.max_events, ring.duration_us) == (8, 5, 9, 8, 2_000_000)
        assert (ring.window_us, ring.latency_us, ring.timeout_us, ring.audit_us) == (1000, 2000, 3000, 4000)
        assert (ring.stabilize_us, ring.finger_us, ring.jitters) == (5000, 6000, Jitters(7000, 7000, 7000))
        assert ring.lookups == Lookups(10_000, 11_000)
        assert ring.churn == Churn(12_000, 13_000, 14_000, 15_000)
        assert [node.initial for node in ring.nodes] == [True] * 6 + [False] * 3
        assert [node.churn for node in ring.nodes] == [False] + [True] * 8

    def test_second_profile(self) -> None:
        """Loss and spread stand behind `max_events`; keys have up to 128 bits, and nodes are as many as may be."""
        arguments = "--profile 2 --bits 128 --nodes 4096 --loss 20000 --spread 5ms --lookups 0.001"
        arguments += " --duration 10s --seed 3"
        ring = tomllib.loads(text_of(arguments))
        assert [ring[key] for key in ("profile", "bits", "loss_ppm", "spread_us")] == [2, 128, 20_000, 5000]
        assert list(ring)[12:15] == ["max_events", "loss_ppm", "spread_us"]
        assert len(ring["node"]) == 4096
        keys = [int(command["key"], 16) for command in ring["command"]]
        assert keys and all(key >> 128 == 0 for key in keys) and any(key >> 120 for key in keys)
        plain = tomllib.loads(text_of("--profile 2"))
        assert (plain["loss_ppm"], plain["spread_us"]) == (0, 0)
        assert text_of("--profile 1 --seed 1").split("\n", 4)[4] == text_of("--seed 1").split("\n", 4)[4]

    def test_extended_profile(self) -> None:
        """`retries` stands behind loss and spread, and is 0 if it is not given."""
        ring = tomllib.loads(text_of("--profile 4 --bits 100 --loss 20000 --retries 2"))
        assert [ring[key] for key in ("profile", "bits", "loss_ppm", "spread_us", "retries")] == [4, 100, 20_000, 0, 2]
        assert list(ring)[12:16] == ["max_events", "loss_ppm", "spread_us", "retries"]
        second, extended = (tomllib.loads(text_of(f"--profile {profile} --seed 1")) for profile in (2, 4))
        assert extended == second | {"profile": 4, "retries": 0}

    def test_joins_and_checks(self) -> None:
        """The keys stand behind `retries` if they are given, and only then."""
        arguments = "--profile 4 --check 1s --join-forever --join-pause 5s"
        ring = tomllib.loads(text_of(arguments))
        wanted = [("retries", 0), ("join_pause_us", 5_000_000), ("join_forever", True), ("check_us", 1_000_000)]
        assert list(ring.items())[15:19] == wanted
        assert tomllib.loads(text_of("--profile 4 --no-join-forever"))["join_forever"] is False
        plain = tomllib.loads(text_of("--profile 4 --check 0"))
        assert plain["check_us"] == 0 and "join_pause_us" not in plain and "join_forever" not in plain
        assert text_of(arguments).splitlines()[2].endswith("--profile 4 --join-pause 5s --join-forever --check 1s")

    def test_detail(self) -> None:
        """It stands behind the others, in the extended profile alone."""
        ring = tomllib.loads(text_of("--profile 4 --detail --check 1s"))
        assert list(ring.items())[16:18] == [("check_us", 1_000_000), ("detail", True)]
        assert "detail" not in tomllib.loads(text_of("--profile 4"))

    def test_published_rules(self) -> None:
        """The keys that are given stand behind `detail`, in their order. An option with `no` makes a false."""
        switches = " ".join(f"--{name}" for name, _ in reversed(WAYS_OF_OPTIONS) if name.startswith("no-"))
        numbers = {"lookup-timeouts": 3, "check-jitter": 4, "finger-jitter": 5, "stabilize-jitter": 6}
        given = " ".join(f"--{name} {number}" for name, number in numbers.items()) + " --create-alone --bootstrap 1"
        numbers["create-alone"] = True
        ring = tomllib.loads(text_of(f"--profile 4 {given} {switches} --detail"))
        wanted = [("detail", True), *((key, numbers.get(name, False)) for name, key in WAYS_OF_OPTIONS)]
        assert list(ring.items())[16 : 16 + len(wanted)] == wanted
        assert [key for _, key in WAYS_OF_OPTIONS] == [key.name for key in WAYS]
        assert made("--profile 4").ways == PUBLISHED

    def test_one_initial_node(self) -> None:
        """In profile 4 a ring may grow from one node, and a list has as many entries as there are others, up to 4."""
        ring = made("--profile 4 --nodes 20 --initial 1")
        assert ([node.initial for node in ring.nodes], ring.list) == ([True] + [False] * 19, 4)
        assert len([one for one in ring.commands if one.do == "join"]) == 19
        assert [made(f"--profile 4 --nodes {count}").list for count in (2, 5, 6)] == [1, 4, 4]

    def test_bootstrap_nodes(self) -> None:
        """They are the first ones. The others have no such key."""
        nodes = tomllib.loads(text_of("--profile 4 --nodes 5 --bootstrap 2"))["node"]
        assert [node.get("bootstrap") for node in nodes] == [True, True, None, None, None]
        assert not any(node.bootstrap for node in made("--profile 4 --bootstrap 0").nodes)

    def test_coordinates(self) -> None:
        """Places of the square and heights of the span, both to their ends; the window is the two least heights."""
        arguments = "--profile 4 --nodes 300 --coordinates square:9us:3us..7us"
        ring = made(arguments)
        places = [known(node.coordinates) for node in ring.nodes]
        assert {place.x_us for place in places} == {place.y_us for place in places} == set(range(10))
        assert {place.height_us for place in places} == set(range(3, 8))
        assert ring.window_us == 6 and made(f"{arguments} --window 2us").window_us == 2
        alike = made("--profile 4 --nodes 2 --coordinates square:0:4ms..4ms")
        assert [node.coordinates for node in alike.nodes] == [Coordinates(0, 0, 4000)] * 2
        assert made("--profile 4 --nodes 2 --coordinates square:0:4ms") == alike
        assert alike.window_us == 8000

    def test_coordinates_of_their_own(self) -> None:
        """More nodes, churn and lookups leave the coordinates of a node; a seed gives others."""
        arguments = "--profile 4 --coordinates square:1s:1ms..9ms"
        few = [node.coordinates for node in made(f"{arguments} --nodes 20").nodes]
        more = made(f"{arguments} --nodes 30 --lifetime exp:20s --lookups 0.1 --bits 64")
        assert [node.coordinates for node in more.nodes][:20] == few
        assert [node.coordinates for node in made(f"{arguments} --nodes 20 --seed 2").nodes] != few
        other = made("--profile 4 --nodes 30 --lifetime exp:20s --lookups 0.1 --bits 64")
        assert other.commands == more.commands

    def test_many_nodes(self) -> None:
        """65,536 nodes are written. More bytes than the program reads are refused."""
        text = text_of("--profile 4 --nodes 65536 --coordinates square:60ms:1ms..5ms")
        assert text.count("[[node]]") == text.count("height_us = ") == 65_536 and len(text) < 16_777_216
        with mock.patch("chordsim_tools.generate.command.GREATEST_SIZE", len(text_of(""))):
            assert ended(main)[0] == 0
            status, out, err = ended(main, "--nodes", "65")
        size = len(text_of("--nodes 65"))
        wanted = f"the scenario has {size} bytes, and chordsim reads at most {len(text_of(''))}"
        assert (status, out, err) == (2, "", f"tools/generate: --nodes: {wanted} (see tools/generate --help)\n")

    def test_defaults_that_follow(self) -> None:
        """Timeout and window go with the latency, the audits with the duration, the list with the initial nodes."""
        ring = made("--nodes 3 --latency 1ms --duration 48us")
        assert (ring.list, ring.window_us, ring.timeout_us, ring.audit_us) == (2, 1000, 10_000, 2)
        assert made("--latency 1000s").timeout_us == 10**9
        assert made("--duration 1000000s").audit_us == 10**9

    def test_names_of_one_identifier(self) -> None:
        """Eight nodes fill a circle of eight places; the first of one identifier keeps that of its name."""
        ring = made("--nodes 8 --bits 3 --ids names")
        assert sorted(node.ident for node in ring.nodes) == list(range(8))
        assert ring.nodes[0].ident == Circle(3).identifier_of_name("n0")
        assert "id = " not in text_of("--nodes 512 --bits 64 --ids names")

    def test_drawn_churn(self) -> None:
        """A node's lives and down times lie in their spans; those that stay do nothing."""
        ring = made("--nodes 12 --lifetime uniform:3s..5s --down uniform:1s..2s --stay 3 --duration 60s --seed 4")
        assert {command.node for command in ring.commands} == set(range(3, 12))
        assert [command.at_us for command in ring.commands] == sorted(command.at_us for command in ring.commands)
        for node in range(3, 12):
            moves = churn_of(ring, node)
            assert [move.do for move in moves] == (["crash", "join"] * len(moves))[: len(moves)]
            assert 60 / 7 * 2 - 1 <= len(moves) <= 60 / 4 * 2 + 1
            times = [0, *(move.at_us for move in moves)]
            lives = [end - begin for begin, end in zip(times[::2], times[1::2])]
            downs = [end - begin for begin, end in zip(times[1::2], times[2::2])]
            assert all(3_000_000 <= life <= 5_000_000 for life in lives)
            assert all(1_000_000 <= down <= 2_000_000 for down in downs)

    def test_lives_of_a_run_have_their_mean(self) -> None:
        """Down times of exactly 1us, lives of 2s on the average: within 5%, 128 nodes in 100s crash 50 times each."""
        ring = made("--nodes 128 --stay 0 --lifetime exp:2s --down uniform:1..1 --duration 100s")
        crashes = len([command for command in ring.commands if command.do == "crash"])
        assert abs(crashes / (128 * 50) - 1) < 0.05

    def test_joins_go_through_nodes_that_are_up(self) -> None:
        """Each drawn node to join through is up by the commands, and for a timeout where there is such a node."""
        ring = made("--nodes 30 --initial 10 --stay 1 --lifetime exp:2s --down exp:1s --duration 60s --timeout 300ms")
        up, fresh, vias = ups(ring), 0, set()
        for command in ring.commands:
            if command.do == "crash":
                del up[command.node]
                continue
            settled = [node for node, since in up.items() if since == 0 or since + 300_000 <= command.at_us]
            assert command.via in (settled or up)
            fresh += command.via not in settled
            vias.add(command.via)
            up[command.node] = command.at_us
        assert 0 in up and fresh == 0 and len(vias) > 20

    def test_joins_through_the_first(self) -> None:
        """n0 is the node to join through, and n1 that of n0; also where nobody is up."""
        first = made("--nodes 5 --stay 0 --lifetime exp:1s --down exp:1s --duration 30s --via first")
        vias = {(command.node == 0, command.via) for command in first.commands if command.do == "join"}
        assert vias == {(False, 0), (True, 1)}
        alone = made("--nodes 2 --stay 0 --lifetime uniform:1s..1s --down uniform:1s..1s --duration 2500ms")
        assert [(c.at_us, c.do, c.node, c.via) for c in alone.commands] == [
            (1_000_000, "crash", 0, None), (1_000_000, "crash", 1, None),
            (2_000_000, "join", 0, 1), (2_000_000, "join", 1, 0),
        ]

    def test_arrivals(self) -> None:
        """Nodes that are not initial join once in the span; with the program's churn through nodes that stay."""
        ring = made("--nodes 40 --initial 8 --arrive 5s..5055ms")
        assert sorted(command.node for command in ring.commands) == list(range(8, 40))
        assert all(5_000_000 <= command.at_us <= 5_055_000 and known(command.via) < 8 for command in ring.commands)
        churn = made("--nodes 40 --initial 8 --stay 3 --churn-uniform 1s..2s 1s..2s")
        assert {command.via for command in churn.commands} == {0, 1, 2}

    def test_drawn_lookups(self) -> None:
        """As many as the rate says, within 5%; each while the node is up; keys of the law alone."""
        churn = "--lifetime exp:10s --down exp:10s --stay 25"
        ring = made(f"--nodes 50 --bits 64 --duration 100s --lookups 2 --keys zipf:1:20 {churn}")
        up, count, keys = set(ups(ring)), 0, set()
        for command in ring.commands:
            if command.do == "lookup":
                assert command.node in up
                count += command.node < 25
                keys.add(known(command.key))
            else:
                (up.remove if command.do == "crash" else up.add)(command.node)
        assert ring.lookups is None
        assert abs(count / (25 * 100 * 2) - 1) < 0.05
        assert len(keys) == 20 and max(keys) >= 2**63

    def test_streams_of_their_own(self) -> None:
        """Lookups do not change the lives, and more nodes change neither lives nor lookups of the others."""
        arguments = "--lifetime exp:20s --down exp:5s --lookups 0.1 --via first --nodes"
        few, more = made(f"{arguments} 20"), made(f"{arguments} 30")
        assert [command for command in more.commands if command.node < 20] == few.commands
        quiet = made("--lifetime exp:20s --down exp:5s --via first --nodes 20")
        assert quiet.commands == [command for command in few.commands if command.do != "lookup"]

    def test_longer_run_begins_as_the_shorter(self) -> None:
        """The commands of a minute are those of the first minute of two."""
        arguments = "--nodes 20 --initial 9 --arrive 0..50s --lifetime exp:20s --down exp:5s --lookups 0.1 --duration"
        short, long = made(f"{arguments} 60s"), made(f"{arguments} 120s")
        assert short.commands == [command for command in long.commands if command.at_us < 60_000_000]
        assert len(long.commands) > len(short.commands) > 50

    def test_same_words_same_bytes(self) -> None:
        """In another process, with other hashes; another seed gives another file."""
        arguments = "--nodes 20 --initial 5 --lifetime pareto:1.5:5s --lookups 0.5 --keys zipf:0.9:50"
        for seed in ("1", "2"):
            hashes = os.environ | {"PYTHONHASHSEED": seed}
            there = subprocess.run([TOOL, *arguments.split()], env=hashes, capture_output=True, text=True, check=True)
            assert there.stdout == text_of(arguments)
        assert text_of(arguments + " --seed 2") != text_of(arguments)

    def test_head_says_the_words(self) -> None:
        """The arguments in the head, given again, make the same file; the file's name is not among them."""
        arguments = "--seed 7 --lifetime exp:9s --nodes 9 --churn-uniform 1s..2s 3s..4s".split()
        assert ended(main, *arguments)[0] == 2
        with tempfile.TemporaryDirectory() as folder:
            name = Path(folder) / "a b.toml"
            assert ended(main, *arguments[:-3], "-o", str(name)) == (0, "", "")
            text = name.read_text()
            assert list(Path(folder).iterdir()) == [name]
        assert text.splitlines()[2] == "#   tools/generate --nodes 9 --seed 7 --lifetime exp:9s"
        assert text == text_of("--nodes 9 --seed 7 --lifetime exp:9s")

    def test_refused_words(self) -> None:
        """One line that names the option and its range, status 2, and no file."""
        with tempfile.TemporaryDirectory() as folder:
            for arguments, text in REFUSED:
                with self.subTest(arguments=arguments):
                    status, out, err = ended(main, "-o", f"{folder}/x.toml", *arguments.split())
                    assert (status, out) == (2, "")
                    assert err.startswith("tools/generate: ") and text in err and err.count("\n") == 1, err
            assert list(Path(folder).iterdir()) == []

    def test_files_that_cannot_be_written(self) -> None:
        """A folder that is not there and a full disk: status 3, one line with the name, and nothing is left."""
        with tempfile.TemporaryDirectory() as folder:
            for name in (f"{folder}/none/x.toml", "/dev/full"):
                status, out, err = ended(main, "-o", name)
                assert (status, out) == (3, "")
                assert err.startswith(f"failed: {name}: ") and err.count("\n") == 1
            (Path(folder) / "x.toml").mkdir()
            assert ended(main, "-o", f"{folder}/x.toml")[0] == 3
            assert list(Path(folder).iterdir()) == [Path(folder) / "x.toml"]

    def test_files_that_are_read_or_written_twice(self) -> None:
        """The file of coordinates is not written over, and the two files of a random scenario are two: status 2."""
        with tempfile.TemporaryDirectory() as folder:
            places, x = Path(folder) / "p.csv", f"{folder}/x"
            places.write_text("n0,0,0,1000\nn1,5,0,1000\n")
            words = ["--profile", "4", "--nodes", "2", "--coordinates", f"file:{places}", "-o", str(places)]
            line = f"tools/generate: -o: {places} is a file that is read (see tools/generate --help)\n"
            assert ended(main, *words) == (2, "", line)
            assert places.read_text() == "n0,0,0,1000\nn1,5,0,1000\n"
            line = f"tools/generate: --links: {folder}/./x is the file of -o (see tools/generate --help)\n"
            assert ended(main, "--random", "3", "--links", f"{folder}/./x", "-o", x) == (2, "", line)
            assert list(Path(folder).iterdir()) == [places]
            assert ended(main, "--random", "3", "--links", "/dev/null", "-o", "/dev/null") == (0, "", "")

    def test_disk_that_fills_up(self) -> None:
        """Only 512 or 1024 bytes fit in a file: status 3, and of the part that was written nothing is left."""
        with tempfile.TemporaryDirectory() as folder:
            arguments = f"ulimit -f 1; exec {TOOL} --nodes 512 -o {folder}/x.toml"
            there = subprocess.run(["sh", "-c", arguments], capture_output=True, text=True, check=False)
            assert (there.returncode, there.stdout) == (3, "")
            assert there.stderr == f"failed: {folder}/x.toml: File too large\n"
            assert list(Path(folder).iterdir()) == []

    def test_interrupted(self) -> None:
        """Ctrl-C before the file has its name: one line, status 130, and nothing is left."""
        with tempfile.TemporaryDirectory() as folder, mock.patch("os.replace", side_effect=KeyboardInterrupt):
            assert ended(main, "-o", f"{folder}/x.toml") == (130, "", "interrupted\n")
            assert list(Path(folder).iterdir()) == []

    def test_closed_streams(self) -> None:
        """Without standard output status 3; without standard error the same bytes as ever."""
        there = subprocess.run(f"{TOOL} >&-", shell=True, stderr=subprocess.PIPE, text=True, check=False)
        assert (there.returncode, there.stderr) == (3, "failed: standard output: Bad file descriptor\n")
        there = subprocess.run(f"{TOOL} 2>&-", shell=True, stdout=subprocess.PIPE, text=True, check=False)
        assert (there.returncode, there.stdout) == (0, text_of(""))
        there = subprocess.run(f"{TOOL} -o /dev/full 2>/dev/full", shell=True, text=True, check=False)
        assert there.returncode == 3

    def test_link(self) -> None:
        """The file that a link names is written, and the link stays."""
        with tempfile.TemporaryDirectory() as folder:
            file, link = Path(folder) / "x.toml", Path(folder) / "link.toml"
            link.symlink_to("x.toml")
            assert ended(main, "-o", str(link)) == (0, "", "")
            assert link.is_symlink() and not file.is_symlink() and file.read_text() == text_of("")

    def test_random_words_are_accepted(self) -> None:
        """Forty sets of arguments: `chordsim check` accepts what is written, with the commands that the head counts."""
        program()
        random = Random(1)
        with tempfile.TemporaryDirectory() as folder:
            name = Path(folder) / "x.toml"
            for _ in range(40):
                arguments = random_arguments(random)
                assert ended(main, *arguments, "-o", str(name))[:2] == (0, ""), arguments
                text = name.read_text()
                nodes, commands = text.count("[[node]]"), text.count("[[command]]")
                assert checked(name) == f"ok nodes={nodes} commands={commands}\n", arguments
                read_scenario(text.encode(), b"")

    def test_random_scenarios(self) -> None:
        """Both files of a seed are read, and are the same each time; two of six seeds have each profile."""
        with tempfile.TemporaryDirectory() as folder:
            rows = Path(folder) / "links.csv"
            for seed, profile in enumerate((1, 1, 2, 2, 4, 4, 1)):
                with self.subTest(seed=seed):
                    status, text, err = ended(main, "--random", str(seed), "--links", str(rows))
                    assert (status, err, (text, rows.read_text())) == (0, "", scenario_files(seed))
                    assert read_scenario(text.encode(), rows.read_bytes()).profile == profile
                    assert ended(main, "--random", str(seed)) == (0, text, "")

    def test_most_commands(self) -> None:
        """Just below 100,000 commands are accepted: crashes and joins in turn, and the lookups between."""
        program()
        with tempfile.TemporaryDirectory() as folder:
            name = Path(folder) / "x.toml"
            lives = "--lifetime uniform:1s..1s --down uniform:1s..1s"
            arguments = f"--nodes 50 --stay 0 {lives} --duration 1990s -o".split()
            status, _, err = ended(main, *arguments, str(name))
            # All crash at once, and live for less than a round of fingers.
            assert status == 0 and [line.split()[1] for line in err.splitlines()] == ["finger_us", "commands:"], err
            assert checked(name) == "ok nodes=50 commands=99450\n"
            assert ended(main, *arguments, str(name), "--lookups", "0.02")[0] == 2
            assert ended(main, *arguments, str(name), "--nodes", "51")[0] == 2
            assert checked(name) == "ok nodes=50 commands=99450\n"
