"""Churn that starts in equilibrium: members counted from the commands, and what is refused."""

import tomllib
from decimal import Decimal
from statistics import fmean, stdev
from unittest import TestCase

from chordsim_tools.draws import Distribution, Draws, distribution_of
from chordsim_tools.generate.arguments import parser_of
from chordsim_tools.generate.command import main
from chordsim_tools.generate.commands import CRASH, JOIN, Streams, commands_of, initial_nodes, lives_of
from chordsim_tools.generate.equilibrium import mean_of, rest_of
from chordsim_tools.generate.plan import Plan, check
from tests.support.programs import ended

SEEDS, NODES, STAY = 200, 20, 2
LAWS = (
    ("exp:20s", "exp:10s", 20, 30),
    ("uniform:30s..90s", "uniform:5s..15s", 60, 70),
    ("pareto:2.5:12s", "pareto:3:8s", 20, 32),
)
"""Laws of lives and down times, and the share of time that a node is up: the first number of the second, in seconds."""


def plan_of(words: str) -> Plan:
    """The plan of these arguments."""
    parser = parser_of()
    return check(parser.parse_args(words.split()), parser)


def law_of(text: str) -> Distribution:
    """The law of a text."""
    law = distribution_of(text)
    assert law is not None
    return law


def up_over_time(plan: Plan, seed: int, times: list[int]) -> list[int]:
    """How many nodes are up at these times, by the initial nodes and the commands."""
    streams = Streams(seed, plan.nodes)
    lives = lives_of(plan, streams)
    commands = commands_of(plan, lives, streams)
    start = len(initial_nodes(plan, lives))
    changes = [(command.at_us, 1 if command.do == JOIN else -1) for command in commands if command.do in (JOIN, CRASH)]
    return [start + sum(change for at, change in changes if at <= time) for time in times]


class StationaryTest(TestCase):
    """The expected members, the rest of times, and refusals."""

    def test_members(self) -> None:
        """At 0 and at each later time the mean over 200 seeds is within 3 standard errors of the renewal theorem's."""
        for life, down, up, whole in LAWS:
            words = f"--nodes {NODES} --list 1 --stay {STAY} --lifetime {life} --down {down} --duration 200s"
            times = [0, 10_000_000, 30_000_000, 65_000_000, 100_000_000, 190_000_000]
            plan = plan_of(words + " --stationary")
            counts = [up_over_time(plan, seed, times) for seed in range(SEEDS)]
            expected = STAY + (NODES - STAY) * up / whole
            for place, time in enumerate(times):
                values = [count[place] for count in counts]
                with self.subTest(law=life, time=time):
                    assert abs(fmean(values) - expected) < 3 * stdev(values) / SEEDS**0.5, fmean(values)

    def test_without_it_the_start_is_no_equilibrium(self) -> None:
        """All nodes are up at 0: the test above would see it."""
        plan = plan_of(f"--nodes {NODES} --list 1 --lifetime exp:20s --down exp:10s --duration 200s")
        assert up_over_time(plan, 1, [0]) == [NODES]

    def test_rest_of_a_time(self) -> None:
        """Its mean is E[L^2] / (2 E[L]): 10 s for exp:10s, and 7 s for what is equally likely from 5 s to 20 s."""
        laws = (("exp:10s", 10e6), ("uniform:5s..20s", 7e6), ("uniform:8s..8s", 4e6), ("pareto:4:6s", 4.5e6))
        for text, wanted in laws:
            law, draws = law_of(text), Draws(3)
            values = [rest_of(law, draws) for _ in range(20_000)]
            with self.subTest(law=text):
                assert abs(fmean(values) - wanted) < 4 * stdev(values) / len(values) ** 0.5, fmean(values)
        assert mean_of(law_of("pareto:4:6s")) == Decimal(8_000_000)

    def test_file(self) -> None:
        """The initial nodes are those that crash first, the others join first; the arguments are in the head."""
        words = "--nodes 30 --lifetime exp:20s --down exp:10s --stay 0 --stationary --duration 300s --seed 4"
        status, text, err = ended(main, *words.split())
        assert (status, err) == (0, "") and "--stationary" in text.partition("profile")[0]
        ring = tomllib.loads(text)
        initial = {node["name"] for node in ring["node"] if node.get("initial")}
        assert 4 < len(initial) < 30 and f"of which {len(initial)} are members" in text
        first = {command["node"]: command["do"] for command in reversed(ring["command"])}
        assert {name for name, do in first.items() if do == "crash"} <= initial
        assert {name for name, do in first.items() if do == "join"} == set(first) - initial

    def test_refused(self) -> None:
        """Without lives that are drawn here, with a law that has no mean, and where too few are up."""
        for words, wanted in (
            ("--stationary", "--stationary: only with --lifetime"),
            ("--stationary --churn-uniform 1s..2s 1s..2s", "--stationary: only with --lifetime"),
            ("--stationary --lifetime pareto:1:20s", "--lifetime: with --stationary ALPHA is above 1: a law without"),
            ("--stationary --lifetime exp:1s --down pareto:0.5:1s", "--down: with --stationary ALPHA is above 1"),
            ("--stationary --lifetime exp:1s --initial 9", "--initial: not with --stationary"),
            ("--stationary --lifetime exp:1us --down exp:1000s --stay 0 --nodes 8", "--stationary: 0 nodes are up"),
        ):
            with self.subTest(words=words):
                status, _, err = ended(main, *words.split())
                assert status == 2 and wanted in err, err
