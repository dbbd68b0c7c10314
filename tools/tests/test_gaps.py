"""Rings in which neighbours crash at once: what fingers bring back, and what bootstrap nodes that make a ring do."""

import subprocess
from pathlib import Path
from random import Random
from tempfile import TemporaryDirectory
from unittest import TestCase

from tests.support.programs import program

NODES = 32
SEEDS = range(1, 6)
CREATING = "create_alone = true\n"


def gap_world(seed: int, gap: int, keys: str = "", bootstraps: int = 0) -> str:
    """A ring with lists of four. At ten seconds neighbours crash; the first nodes after them are bootstrap nodes."""
    draws = Random(seed)
    idents = sorted(draws.getrandbits(63) for _ in range(NODES))
    first = draws.randrange(NODES)
    lines = [
        f"profile = 4\nbits = 63\nlist = 4\nseed = {seed}\nduration_us = 600000000\nwindow_us = 20000\n{keys}"
        "latency_us = 20000\ntimeout_us = 200000\naudit_us = 600000000\nstabilize_us = 1000000\nfinger_us = 1000000\n"
    ]
    for number, ident in enumerate(idents):
        is_bootstrap = gap <= (number - first) % NODES < gap + bootstraps
        lines.append(
            f'[[node]]\nname = "n{number}"\nid = {ident}\ninitial = true\nbootstrap = {str(is_bootstrap).lower()}\n'
        )
    lines += [
        f'[[command]]\nat_us = 10000000\ndo = "crash"\nnode = "n{(first + place) % NODES}"\n' for place in range(gap)
    ]
    return "".join(lines)


def whole_rings(gap: int, keys: str = "", bootstraps: int = 0) -> int:
    """In how many of the rings all nodes that did not crash are in one ring at the end, ten minutes later."""
    left, count = NODES - gap, 0
    whole = f" audit members={left} dead=0 ring={left} ordered=yes "
    with TemporaryDirectory() as folder:
        for seed in SEEDS:
            scenario = Path(folder) / f"{seed}.toml"
            scenario.write_text(gap_world(seed, gap, keys, bootstraps), encoding="utf-8")
            command = [str(program()), "run", "--scenario", str(scenario), "--serial"]
            done = subprocess.run(command, capture_output=True, text=True, check=True)
            count += whole in done.stdout
    return count


class GapTest(TestCase):
    """Gaps that are longer than the list, in five rings each."""

    def test_fingers(self) -> None:
        """A finger takes a member across a gap of a quarter of the nodes. Without `drop_silent` no ring is left."""
        assert whole_rings(8) == len(SEEDS)
        assert whole_rings(8, "drop_silent = false\njoin_asks = false\n") == 0

    def test_bootstraps(self) -> None:
        """No finger crosses a gap of five eighths of the nodes. Bootstrap nodes that make a ring bring it back."""
        assert whole_rings(20) < len(SEEDS)
        assert whole_rings(20, CREATING, 2) == len(SEEDS)
