"""PHOLD as the reference computes it: the stored run of the program, and hops that were computed by hand."""

import unittest
from dataclasses import replace
from pathlib import Path

from chordsim_tools.reference.phold import Settings, draw, report, run

CRATE = Path(__file__).resolve().parents[2] / "crates" / "phold"


def stored_settings() -> Settings:
    """The settings of the stored run of the program."""
    words = (CRATE / "args").read_text(encoding="utf-8").split()
    return Settings(**{name.removeprefix("--"): int(value) for name, value in zip(words[::2], words[1::2])})


class PholdTest(unittest.TestCase):
    """The rules of docs/kernel.md."""

    def test_report_of_the_stored_run(self) -> None:
        """The program printed the report that the reference computes."""
        self.assertEqual(report(run(stored_settings())), (CRATE / "stdout").read_text(encoding="utf-8"))

    def test_jobs_that_stay(self) -> None:
        """Without remote hops and with a mean of 0 each job comes again to its node after each lookahead."""
        settings = Settings(nodes=2, jobs=1, remote=0, lookahead=10, mean=0, duration=30)
        self.assertEqual(list(run(settings)), [(10, 0, 0), (10, 1, 1), (20, 0, 0), (20, 1, 1)])

    def test_jobs_that_change_places(self) -> None:
        """Of events of one time the one that node 0 has made comes first, at whatever node it happens."""
        settings = Settings(nodes=2, jobs=1, remote=1_000_000, lookahead=10, mean=0, duration=40)
        hops = [(10, 0, 1), (10, 1, 0), (20, 1, 0), (20, 0, 1), (30, 1, 0), (30, 0, 1)]
        self.assertEqual(list(run(settings)), hops)

    def test_draw(self) -> None:
        """The words 4 to 7 of the zero stream are c30e842c 3b7f9ace 88e11b18 1e1a71ef, by its published keystream.

        These are the words of the first event of node 0 under the seed 0. The first two make 0.76194.. of 18001 for its
        delay, the last two 0.534684.. of a million for its receiver.
        """
        stays = Settings(nodes=2, remote=534_684, lookahead=1000, mean=9000, seed=0)
        self.assertEqual(draw(stays, 0, 1), (1000 + 13715, 0))
        self.assertEqual(draw(replace(stays, remote=534_685), 0, 1), (1000 + 13715, 1))

    def test_duration(self) -> None:
        """Only events before the end are taken."""
        settings = Settings(nodes=2, jobs=1, remote=0, lookahead=10, mean=0, duration=20)
        self.assertEqual(list(run(settings)), [(10, 0, 0), (10, 1, 1)])


if __name__ == "__main__":
    unittest.main()
