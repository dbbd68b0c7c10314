"""What a scenario means in time: a round of fingers, and traps of it and of the churn, by hand."""

import tempfile
from pathlib import Path
from typing import Any
from unittest import TestCase

from chordsim_tools.explain.world_traps import (
    about, alone_traps, bootstrap_traps, empty_from, finger_round, join_traps, lone_maker_traps, mean_life, round_told,
    round_traps, second_ring_traps,
)
from chordsim_tools.generate.command import main as generate
from chordsim_tools.scenario.tables import parse_toml
from tests.support.programs import ended

TOP: dict[str, Any] = {"bits": 128, "finger_us": 1_000_000, "jitter_us": 100_000, "duration_us": 600_000_000}
"""127 fingers, one each 1.05 s: a round takes 133.35 s."""
CHURN: dict[str, Any] = {
    "life_min_us": 20_000_000, "life_max_us": 60_000_000, "down_min_us": 5_000_000, "down_max_us": 15_000_000,
}


def nodes(count: int, churning: int = 0) -> list[dict[str, Any]]:
    """Initial nodes, of which the last ones churn by themselves."""
    return [{"name": f"n{at}", "initial": True, "churn": at >= count - churning} for at in range(count)]


def command(seconds: int, do: str, node: int) -> dict[str, Any]:
    """A command."""
    return {"at_us": seconds * 1_000_000, "do": do, "node": f"n{node}"}


def warned(arguments: str) -> list[str]:
    """What tools/generate warns of."""
    status, _, err = ended(generate, *arguments.split())
    assert status == 0
    return [line.removeprefix("warning: ") for line in err.splitlines()]


class RoundTest(TestCase):
    """(bits - 1) times (finger_us and half of its jitter), and less if near fingers are skipped."""

    def test_round(self) -> None:
        """With half the jitter, rounded up; without jitter_us it is 0."""
        assert finger_round(TOP) == 133_350_000
        assert finger_round({"bits": 3, "finger_us": 100}) == 200
        assert finger_round({"bits": 4, "finger_us": 100, "jitter_us": 1}) == 302
        assert round_told(TOP) == "Each finger is refreshed about every 133s: 127 fingers in turn, one each 1.05s."
        assert [about(micros) for micros in (900, 1500, 250_000, 8_525_000)] == ["900us", "1.5ms", "250ms", "8.53s"]

    def test_round_of_far_fingers(self) -> None:
        """In profile 4 it is of those that the successor does not cover: of 64 nodes 7, but never more than all."""
        top = {**TOP, "profile": 4, "node": nodes(64)}
        told = "Each finger is refreshed about every 7.35s: 7 fingers in turn, one each 1.05s; "
        assert round_told(top) == told + "the others are the first successor."
        assert finger_round({**top, "skip_near": True}) == 7_350_000
        assert finger_round({**top, "bits": 7}) == finger_round({**top, "bits": 7, "node": nodes(33)}) == 6_300_000
        assert finger_round({**top, "node": nodes(65)}) == 8_400_000
        assert finger_round({**top, "finger_jitter_us": 0}) == 7_000_000
        for key, value in (("skip_near", False), ("profile", 2), ("profile", 1)):
            assert finger_round({**top, key: value}) == 133_350_000
        line = "# Each finger is refreshed about every 1.93s: 7 fingers in turn, one each 275ms; the others are"
        assert line in ended(generate, "--profile", "4")[1]
        assert "every 8.53s: 31 fingers in turn" in ended(generate, "--profile", "4", "--no-skip-near")[1]

    def test_head_of_a_file(self) -> None:
        """tools/generate says it in the file: 31 times 275 ms are 8.525 s."""
        line = "# Each finger is refreshed about every 8.53s: 31 fingers in turn, one each 275ms.\n"
        assert line in ended(generate)[1]

    def test_mean_life(self) -> None:
        """Of [churn]; or of the commands, where 120 s, 300 s and 600 s of three nodes have two crashes."""
        assert mean_life({**TOP, "churn": CHURN, "node": nodes(3, 1)}) == 40_000_000
        moves = [command(100, "crash", 0), command(200, "join", 0), command(220, "crash", 0), command(300, "crash", 1)]
        assert mean_life({**TOP, "node": nodes(3), "command": moves}) == 340_000_000
        assert mean_life({**TOP, "node": nodes(3)}) is None

    def test_trap(self) -> None:
        """A round above the duration, or above the mean life; not one that is as long."""
        quiet = {**TOP, "node": nodes(3)}
        assert round_traps(quiet) == [] and round_traps({**quiet, "duration_us": 133_350_000}) == []
        told = "finger_us = 1000000 with bits = 128: each finger is refreshed about every 133s, which is longer than "
        assert round_traps({**quiet, "duration_us": 133_000_000}) == [told + "the duration (133s)"]
        churning: dict[str, Any] = {**TOP, "churn": CHURN, "node": nodes(3, 1)}
        assert round_traps(churning) == [told + "the mean life of a node (40s)"]
        short = {**churning, "duration_us": 60_000_000}
        assert round_traps(short) == [told + "the duration (60s) and the mean life of a node (40s)"]
        # In profile 4 the bits decide nothing: of three nodes three fingers are looked up, one each 1.05 s.
        far: dict[str, Any] = {**quiet, "profile": 4, "duration_us": 3_000_000}
        told = "finger_us = 1000000 with about 3 fingers in turn: each finger is refreshed about every 3.15s, which is "
        assert round_traps(far) == [told + "longer than the duration (3s)"]
        # That no finger is refreshed at all is told by another trap.
        assert round_traps({**short, "duration_us": 900_000}) == []


class ChurnTrapsTest(TestCase):
    """Joins without an end, and rings that nobody can make again."""

    def test_joins(self) -> None:
        """They have no end in profile 4 if no key says otherwise. With a pause, as by default, this is none."""
        extended = {"profile": 4, "timeout_us": 10, "join_pause_us": 0}
        assert join_traps(extended)[0].startswith("join_pause_us = 0 without join_forever = false: ")
        assert len(join_traps({**extended, "join_forever": True})) == 1
        assert join_traps({**extended, "join_forever": False}) == join_traps({**extended, "join_pause_us": 1}) == []
        assert join_traps({"profile": 4, "timeout_us": 10}) == join_traps({"profile": 1, "timeout_us": 10}) == []
        assert [line.split()[0] for line in warned("--profile 4 --join-pause 0")] == ["join_pause_us"]
        assert warned("--profile 4") == warned("--profile 4 --join-pause 0 --no-join-forever") == []

    def test_all_churn(self) -> None:
        """Each of three is down a fifth of the time, all of them 0.8 %; of five 0.032 %, and one that stays is none."""
        told = alone_traps({**TOP, "churn": CHURN, "node": nodes(3, 3)})
        wanted = "churn = true of all 3 initial nodes: all are down at once in about 0.8 % of the time; then "
        assert len(told) == 1 and told[0].startswith(wanted)
        assert alone_traps({**TOP, "churn": CHURN, "node": nodes(5, 5)}) == []
        assert alone_traps({**TOP, "churn": CHURN, "node": nodes(3, 2)}) == []

    def test_all_crash(self) -> None:
        """The first time at which no node is up by the commands."""
        moves = [command(10, "crash", 0), command(20, "join", 0), command(25, "crash", 1), command(30, "crash", 0)]
        assert empty_from({**TOP, "node": nodes(2), "command": moves}) == 30_000_000
        assert empty_from({**TOP, "node": nodes(3), "command": moves}) is None
        assert warned("--nodes 9 --crash 100%@30s --back 5s") == [
            "commands: no node is up from 30s on; then there is no ring, and no ring is ever made again"
        ]

    def test_rings_that_nodes_make(self) -> None:
        """Nobody is up from 30 s on. A node that joins through itself then makes a ring, and so may bootstrap nodes."""
        gone = [command(25, "crash", 1), command(30, "crash", 0)]
        own: dict[str, Any] = {**command(40, "join", 1), "via": "n1"}
        assert len(alone_traps({**TOP, "node": nodes(2), "command": gone})) == 1
        assert len(alone_traps({**TOP, "node": nodes(2), "command": [{**own, "via": "n0"}, *gone]})) == 1
        top = {**TOP, "node": nodes(2), "command": [*gone, own]}
        assert alone_traps(top) == second_ring_traps(top) == []
        bootstrap: dict[str, Any] = {**nodes(1)[0], "bootstrap": True}
        lone: dict[str, Any] = {**TOP, "node": [bootstrap, nodes(2)[1]], "command": gone}
        assert len(alone_traps(lone)) == 1 and alone_traps({**lone, "create_alone": True}) == []
        assert len(alone_traps({**lone, "node": nodes(2), "create_alone": True})) == 1

    def test_no_ring(self) -> None:
        """No node is initial, and none joins through itself."""
        down: list[dict[str, Any]] = [{"name": "n0", "bootstrap": True}, {"name": "n1"}]
        told = ["no node is initial, and none joins through itself: there is never a ring"]
        moves: list[dict[str, Any]] = [{**command(5, "join", 0), "via": "n1"}]
        top = {**TOP, "node": down, "command": moves}
        assert alone_traps(top) == alone_traps({**top, "churn": CHURN}) == told
        assert alone_traps({**top, "create_alone": True}) == []
        assert alone_traps({**top, "command": [{**moves[0], "via": "n0"}]}) == []

    def test_no_bootstrap_node(self) -> None:
        """`create_alone` is for bootstrap nodes."""
        told = "create_alone = true, and no node has bootstrap = true: only such nodes make rings, "
        alone = {**TOP, "create_alone": True}
        assert lone_maker_traps({**alone, "node": nodes(2)}) == [f"{told}so it changes nothing"]
        assert lone_maker_traps({**alone, "node": [{**node, "bootstrap": True} for node in nodes(2)]}) == []
        assert lone_maker_traps({**TOP, "node": nodes(2)}) == []

    def test_bootstrap_nodes(self) -> None:
        """All of them churn, or go by the commands and join through each other; not with `create_alone`."""
        boots: list[dict[str, Any]] = [{**node, "bootstrap": True} for node in nodes(2)]
        told = "then no join succeeds after a failure, not even theirs, unless create_alone = true"
        churning = {**TOP, "node": [*({**boot, "churn": True} for boot in boots), nodes(1)[0]]}
        assert bootstrap_traps(churning) == [
            f"churn = true of all 2 bootstrap nodes: all may be down at once, and {told}"
        ]
        assert bootstrap_traps({**churning, "create_alone": True}) == []
        assert bootstrap_traps({**TOP, "node": nodes(3, 3)}) == bootstrap_traps({**TOP, "node": boots}) == []
        gone = [command(10, "crash", 0), command(20, "crash", 1)]
        back: dict[str, Any] = {**command(30, "join", 0), "via": "n1"}
        for moves in (gone, [*gone, back]):
            wanted = [f"commands: no bootstrap node is up from 20s on; {told}"]
            assert bootstrap_traps({**TOP, "node": boots, "command": moves}) == wanted
        for via in ("n0", "n7"):
            assert bootstrap_traps({**TOP, "node": boots, "command": [*gone, {**back, "via": via}]}) == []

    def test_second_rings(self) -> None:
        """n1 has crashed, and joins through itself while n0 is up. The first such join alone is told."""
        own: dict[str, Any] = {**command(40, "join", 1), "via": "n1"}
        moves = [command(25, "crash", 1), own, command(50, "crash", 1), {**own, "at_us": 60_000_000}]
        assert second_ring_traps({**TOP, "node": nodes(2), "command": moves}) == [
            "commands: n1 joins through itself at 40s, while others are up: it makes a second ring, and two rings "
            "never meet"
        ]
        assert second_ring_traps({**TOP, "node": nodes(2), "command": [*moves[:1], {**own, "via": "n0"}]}) == []
        assert second_ring_traps({**TOP, "node": nodes(2)}) == []
        # A node that is up ignores the command.
        assert second_ring_traps({**TOP, "node": nodes(2), "command": [own]}) == []

    def test_two_rings_at_once(self) -> None:
        """Nobody is up, and two nodes join through themselves at one time. One of them may join the other."""
        down = [{**node, "initial": False} for node in nodes(2)]
        own = [{**command(40, "join", node), "via": f"n{node}"} for node in (0, 1)]
        assert len(second_ring_traps({**TOP, "node": down, "command": own})) == 1
        assert second_ring_traps({**TOP, "node": down, "command": [{**own[0], "via": "n1"}, own[1]]}) == []

    def test_generate_and_explain_agree(self) -> None:
        """What generate warns of before the file is there is what its text has."""
        words = "--nodes 6 --stay 0 --lifetime exp:3s --down exp:9s --bits 64 --profile 4 --join-pause 0 --duration 60s"
        words += " --no-skip-near"
        with tempfile.TemporaryDirectory() as folder:
            file = Path(folder) / "a.toml"
            lines = [line.removeprefix("warning: ") for line in
                     ended(generate, *words.split(), "-o", str(file))[2].splitlines()]
            top = parse_toml(file.read_bytes())
        assert lines == [*round_traps(top), *join_traps(top), *alone_traps(top)] and len(lines) == 3


class LossTrapTest(TestCase):
    """A loss of a few messages in a million."""

    def test_few(self) -> None:
        """1 to 100 are told; 0 and more are not."""
        assert warned("--profile 2 --loss 5") == [
            "--loss 5: 5 of a million messages are lost, 0.0005 %; 5 % are 50000"
        ]
        assert warned("--profile 2 --loss 100") == [
            "--loss 100: 100 of a million messages are lost, 0.01 %; 100 % are 1000000"
        ]
        assert warned("--profile 2 --loss 101") == warned("--profile 2 --loss 0") == []
