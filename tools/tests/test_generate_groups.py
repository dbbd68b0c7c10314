"""Groups of nodes, arrivals, outages and identifiers of tools/generate."""

import hashlib
import tempfile
from collections import Counter
from pathlib import Path
from statistics import fmean
from unittest import TestCase

from chordsim_tools.generate.command import main
from chordsim_tools.generate.outages import Life, without
from chordsim_tools.known import known
from chordsim_tools.scenario.reading import Command, Scenario, read_scenario
from tests.support.programs import checked, ended

REFUSED = [
    ("--group eu", "--group: NAME:NODES, or NAME:NODES:KEY=VALUE,.."),
    ("--group e-u:3", "--group: NAME:NODES"),
    ("--group eu:3:life=exp:1s", "not 'eu:3:life=exp:1s'"),
    ("--group eu:3:lifetime=exp:1s,lifetime=exp:2s", "--group: NAME:NODES"),
    ("--group eu:3:", "--group: NAME:NODES"),
    ("--group eu:3 --group eu:4", "--group: eu is named twice"),
    ("--group eu:513", "--group: the groups have 513 nodes, and a scenario has at most 512 in profile 1; 4096 in"),
    ("--group eu:9 --nodes 8", "--nodes: 9 to 512"),
    ("--group eu:9:lifetime=exp:1s --churn-uniform 1s..2s 1s..2s", "--group: not with --churn-uniform"),
    ("--group eu:9:lifetime=pareto:1:1s --stationary", "--group: with --stationary ALPHA is above 1"),
    ("--arrivals 2", "--arrivals: NUMBER/s, /m, /h or /d, as 0.2/s"),
    ("--arrivals 0/s", "--arrivals: NUMBER/s"),
    ("--arrivals 100/s", "--arrivals: more than 448 nodes arrive in 120s beside the 64 of the start, and there is room "
     "for 512 nodes"),
    ("--group eu:9:arrivals=100/s", "--group: more than 503 nodes arrive in 120s beside the 9 of the start"),
    # These are 1.2 * 10^10 arrivals, of which 449 are enough to tell.
    ("--arrivals 100000000/s", "--arrivals: more than 448 nodes arrive in 120s beside the 64 of the start"),
    ("--arrivals 1/s --churn-uniform 1s..2s 1s..2s", "--arrivals: no arrivals with --churn-uniform"),
    ("--crash 25%", "--crash: SHARE%@TIME, GROUP@TIME or GROUP:SHARE%@TIME"),
    ("--crash 0%@1s", "--crash: SHARE%@TIME"),
    ("--crash 100.5%@1s", "--crash: SHARE%@TIME"),
    ("--crash eu@1s", "--crash: no group 'eu'; the groups are none: name some by --group"),
    ("--crash eu@1s --group us:9", "--crash: no group 'eu'; the groups are us"),
    ("--crash 25%@120s", "--crash: a time of 1us to 119999999us (below --duration), not '25%@120s'"),
    ("--crash 25%@1s --churn-uniform 1s..2s 1s..2s", "--crash: not with --churn-uniform"),
    ("--back 1s", "--back: only with --crash"),
    ("--back 0s --crash 5%@1s", "--back: a time or a span MIN..MAX, above 0us"),
    ("--back 2s..1s --crash 5%@1s", "above 0us, not '2s..1s', whose first time is above its second"),
    ("--ids numbers", "--ids: random or names, not 'numbers'"),
]


def text_of(arguments: str) -> str:
    """What the tool writes for these arguments."""
    status, out, err = ended(main, *arguments.split())
    assert status == 0 and all(line.startswith("warning: finger_us = ") for line in err.splitlines()), err
    return out


def made(arguments: str) -> Scenario:
    """The scenario of these arguments, as the reference simulator reads it."""
    return read_scenario(text_of(arguments).encode(), b"")


def at(ring: Scenario, do: str, time: int) -> set[int]:
    """The nodes of the commands of one kind and time."""
    return {command.node for command in ring.commands if (command.do, command.at_us) == (do, time)}


def names_at(ring: Scenario, do: str, time: int) -> set[str]:
    """Their names."""
    return {ring.nodes[node].name for node in at(ring, do, time)}


def moves_of(ring: Scenario, node: int) -> list[Command]:
    """The crashes and joins of a node."""
    return [command for command in ring.commands if command.node == node and command.do != "lookup"]


class GroupTest(TestCase):
    """Groups with churn of their own, and nodes that arrive."""

    def test_names(self) -> None:
        """The nodes of no group are first; without --nodes there are none."""
        ring = made("--nodes 5 --group eu:2 --group us:1")
        assert [node.name for node in ring.nodes] == ["n0", "n1", "eu-0", "eu-1", "us-0"]
        assert [node.name for node in made("--group eu:2 --group us:1").nodes] == ["eu-0", "eu-1", "us-0"]
        assert all(node.initial for node in ring.nodes)
        assert "# Groups: eu 2, us 1.\n" in text_of("--nodes 5 --group eu:2 --group us:1")

    def test_churn_of_a_group(self) -> None:
        """Its own law takes the place of --lifetime; `none` is no churn; a group without a law has the common one."""
        words = "--group a:20:lifetime=uniform:3s..3s,down=uniform:1s..1s --group b:20:lifetime=none --group c:20"
        ring = made(words + " --stay 0 --lifetime uniform:7s..7s --down uniform:2s..2s --duration 12s")
        moves = Counter((command.at_us // 10**6, ring.nodes[command.node].name[0]) for command in ring.commands)
        assert moves == {**{(second, "a"): 20 for second in (3, 4, 7, 8, 11)}, (7, "c"): 20, (9, "c"): 20}
        alone = made("--group a:4:lifetime=uniform:3s..3s --group b:4 --stay 0 --duration 12s")
        assert {alone.nodes[command.node].name[0] for command in alone.commands} == {"a"}

    def test_one_group_leaves_the_others(self) -> None:
        """What is drawn for a node does not depend on arrivals, nor on the law of another group."""
        words = "--group a:9 --group b:9 --lifetime exp:20s --down exp:5s --via first"
        plain = made(words).commands
        assert plain == [c for c in made(words + " --arrivals 0.1/s").commands if c.node < 18]
        other = made(words.replace("b:9", "b:9:lifetime=exp:9s")).commands
        assert [c for c in plain if c.node < 9] == [c for c in other if c.node < 9]

    def test_arrivals(self) -> None:
        """As many as the rate says, each with one life of the law, behind the nodes of the start."""
        ring = made("--profile 2 --nodes 21 --arrivals 5/s --duration 200s --lifetime exp:10s --down exp:1s --stay 20")
        new = range(21, len(ring.nodes))
        assert abs(len(new) / 1000 - 1) < 5 / 1000**0.5
        assert [node.name for node in ring.nodes] == [f"n{number}" for number in range(len(ring.nodes))]
        assert not any(ring.nodes[node].initial for node in new)
        lives = [moves_of(ring, node) for node in new]
        assert all([move.do for move in moves] in (["join"], ["join", "crash"]) for moves in lives)
        begins = [moves[0].at_us for moves in lives]
        assert begins == sorted(begins)
        done = [moves[1].at_us - moves[0].at_us for moves in lives if moves[0].at_us < 100_000_000 and len(moves) == 2]
        assert abs(fmean(done) / 10_000_000 - 1) < 5 / len(done) ** 0.5

    def test_arrivals_of_a_group(self) -> None:
        """They have the next names of their group, and its law; without a law they stay."""
        words = "--group a:9:lifetime=uniform:2s..2s,arrivals=30/m --group b:9:arrivals=30/m --stay 0 --duration 1m"
        ring = made(words)
        new = ring.nodes[18:]
        for letter in "ab":
            names = [node.name for node in new if node.name[0] == letter]
            assert names == [f"{letter}-{number}" for number in range(9, 9 + len(names))] and 10 < len(names) < 60
        crashes = {ring.nodes[c.node].name[0] for c in ring.commands if c.do == "crash" and c.node >= 18}
        assert crashes == {"a"}
        longer = made("--group a:9 --group b:9:arrivals=30/m --duration 2m")
        shorter = made("--group a:9 --group b:9:arrivals=30/m --duration 1m")
        assert longer.commands[: len(shorter.commands)] == shorter.commands and len(shorter.commands) > 10

    def test_program_takes_them(self) -> None:
        """A file with all of it is accepted."""
        words = "--profile 4 --group a:9:lifetime=exp:9s --group b:30:arrivals=1/s --crash b@10s --crash 20%@30s"
        with tempfile.TemporaryDirectory() as folder:
            file = Path(folder) / "x.toml"
            assert ended(main, *words.split(), "--back", "5s", "--duration", "1m", "-o", str(file)) == (0, "", "")
            assert checked(file).startswith("ok nodes=")


class OutageTest(TestCase):
    """Nodes that crash together, and are back."""

    def test_share(self) -> None:
        """A quarter of 64 crash, others with another seed; all are back at once, through nodes that were up."""
        ring, other = (made(f"--crash 25%@60s --back 30s --seed {seed}") for seed in (1, 2))
        down = at(ring, "crash", 60_000_000)
        assert len(down) == 16 and at(ring, "join", 90_000_000) == down and len(ring.commands) == 32
        assert at(other, "crash", 60_000_000) != down
        doors = {known(command.via) for command in ring.commands if command.do == "join"}
        assert not doors & down and len(doors) > 8

    def test_group(self) -> None:
        """All of a group and nobody else; without --back for good."""
        ring = made("--nodes 12 --group eu:5 --crash eu@60s")
        assert names_at(ring, "crash", 60_000_000) == {f"eu-{number}" for number in range(5)}
        assert len(ring.commands) == 5
        half = made("--group us:7 --group eu:6 --crash eu:50%@60s")
        assert len(half.commands) == 3
        assert all(name.startswith("eu-") for name in names_at(half, "crash", 60_000_000))

    def test_two_outages(self) -> None:
        """In the order of their times, whatever that of the arguments; the head says how many nodes each took."""
        text = text_of("--group us:20 --group eu:20 --crash eu@90s --crash us@60s --back 10s")
        assert "# --crash us@60s: 20 nodes crash at 60s, and 20 join at 70s.\n# --crash eu@90s: 20 nodes" in text
        spread = made("--crash 50%@60s --back 10s..20s")
        times = [command.at_us for command in spread.commands if command.do == "join"]
        assert len(set(times)) > 20 and all(70_000_000 <= time <= 80_000_000 for time in times)

    def test_churn_goes_on(self) -> None:
        """In an outage the region does nothing; all else is as it would be without it."""
        words = "--group us:20 --group eu:20 --lifetime exp:30s --down exp:5s --via first --duration 200s"
        plain, ring = made(words), made(words + " --crash eu@60s --back 40s")
        assert [c for c in plain.commands if c.node < 20] == [c for c in ring.commands if c.node < 20]
        inside = [c for c in ring.commands if c.node >= 20 and 60_000_000 <= c.at_us <= 100_000_000]
        assert {(c.at_us, c.do) for c in inside} == {(60_000_000, "crash"), (100_000_000, "join")}
        later = [c for c in ring.commands if c.node >= 20 and c.at_us > 100_000_000]
        assert later == [c for c in plain.commands if c.node >= 20 and c.at_us > 100_000_000]

    def test_lives_without_a_span(self) -> None:
        """A life over the span is two; one that ends or begins in it is shorter; one within it is gone."""
        assert without([Life(0, 100)], 20, 30) == [Life(0, 20), Life(30, 100)]
        assert without([Life(0, 25), Life(28, 50)], 20, 30) == [Life(0, 20), Life(30, 50)]
        assert without([Life(0, 10), Life(22, 28), Life(40, 50)], 20, 30) == [Life(0, 10), Life(40, 50)]
        assert without([Life(0, 10), Life(15, 25), Life(40, 50)], 20, None) == [Life(0, 10), Life(15, 20)]
        # What the span does not cut still ends with a leave.
        lives = [Life(0, 10, True), Life(15, 20, True), Life(22, 40, True)]
        assert without(lives, 20, 30) == [Life(0, 10, True), Life(15, 20), Life(30, 40, True)]

    def test_refused(self) -> None:
        """One line that names the option and what is allowed, and status 2."""
        for arguments, text in REFUSED:
            with self.subTest(arguments=arguments):
                status, out, err = ended(main, *arguments.split())
                assert (status, out, err.count("\n")) == (2, "", 1) and text in err, err

    def test_times_without_a_unit(self) -> None:
        """They are microseconds, which is told."""
        status, _, err = ended(main, "--crash", "25%@60", "--back", "7")
        assert status == 0 and "--crash 25%@60: 60 without a unit is 60 microseconds" in err
        assert "--back 7: 7 without a unit is 7 microseconds" in err


class IdentTest(TestCase):
    """Identifiers."""

    def test_new_with_each_seed(self) -> None:
        """The leading bits of the digest of name, seed and number; by names they are the same for all seeds."""
        for seed in (1, 2):
            digest = hashlib.sha256(f"n3 {seed} 0".encode()).digest()
            assert made(f"--nodes 9 --seed {seed}").nodes[3].ident == int.from_bytes(digest[:4], "big")
        names = [[node.ident for node in made(f"--nodes 9 --ids names --seed {seed}").nodes] for seed in (1, 2)]
        assert names[0] == names[1]
        assert names[0][0] == int.from_bytes(hashlib.sha1(b"n0").digest()[:4], "big")

    def test_full_circle(self) -> None:
        """Eight nodes of eight places have all of them, with 128 bits they are texts."""
        assert sorted(node.ident for node in made("--nodes 8 --bits 3").nodes) == list(range(8))
        wide = made("--profile 2 --bits 128 --nodes 9")
        assert any(node.ident >> 120 for node in wide.nodes) and len({node.ident for node in wide.nodes}) == 9
